# Whether python3 has what is needed to build the wheel's C module, for the scripts that build or
# test the wheel.
# shellcheck shell=bash
has_python_header() {
    python3 - <<'PYTHON' 2>/dev/null
import os
import sys
import sysconfig

header = os.path.join(sysconfig.get_path("include"), "Python.h")
sys.exit(sys.version_info < (3, 10) or not os.path.exists(header))
PYTHON
}
