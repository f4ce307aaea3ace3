#!/usr/bin/env bash
# Installs the wheel of the release into a fresh environment, and tests it there with the files of
# tests/wheel: on the standards' tables, on all inputs of two bytes and all scalar values, compared
# with a plain model, with every error handler, every split of damaged bytes, files and streams, and
# Java's own bytes. It also checks the wheel's contents, the names, the alignment and the mark of
# its module, and that wheel.py writes the same bytes again. Then it tests the wheel in each other
# Python from 3.10 on that is installed as python3.N, and, without the tests of all inputs, in the
# debug build of Debian's python3-dbg. It tests the C module by itself under valgrind and with the
# address sanitizer, and the wheel for aarch64 in the Python of AARCH64_ROOT (tests/cross.sh), in an
# emulator.
#
# RELEASE names the folder that release/dist.sh has filled; if it is not set, this script runs
# dist.sh. If python3 with venv or the header that dist.sh needs is missing, it says that it skipped
# everything. If Java, a debug build, valgrind, the sanitizer or a tool for aarch64 is missing, it
# says what it skipped. The status is 0 if nothing is wrong. It needs readelf, nm, and what
# tests/release.sh needs.
unset "${!PYTHON@}"
# shellcheck source=tests/lib.sh
source "$(dirname "${BASH_SOURCE[0]}")/lib.sh" || exit 2
# shellcheck source=tests/release.sh
source "$top/tests/release.sh" || exit 2
# shellcheck source=tests/python_header.sh
source "$top/tests/python_header.sh" || exit 2

# Checks the contents of a wheel, and runs wheel.py again with another folder and umask:
# `look_at_wheel WHEEL RELEASE FOLDER`. The wheel is unpacked to FOLDER.
look_at_wheel() {
    local wheel=$1 unpacked=$2 site=$3/site-packages again=$3/again needed
    mkdir -p "$again" || exit 2
    quietly python3 -m zipfile -e "$wheel" "$site" || exit 1
    needed=$(objdump -T "$site/cesu8/_native.abi3.so" | grep -o 'GLIBC_[0-9.]*' | sort -V | tail -n 1)
    look_at_tag "$wheel" "$site" "${needed#GLIBC_}"
    python3 - "$wheel" "${needed#GLIBC_}" "$seconds" <<'PYTHON' || wrong "${wheel##*/} has the wrong contents"
import base64
import csv
import hashlib
import io
import re
import sys
import time
import zipfile

with zipfile.ZipFile(sys.argv[1]) as wheel:
    entries = wheel.infolist()
    names = [entry.filename for entry in entries]
    contents = {name: wheel.read(name) for name in names}
metadata = next(contents[name] for name in names if name.endswith("/METADATA"))
folder = re.match(r"(cesu8-[0-9.]+\.dist-info)/", names[0])[1]
licences = ["APACHE", "MIT", "simdutf8"]
wanted = [f"{folder}/{name}" for name in ("METADATA", "RECORD", "WHEEL")]
wanted += [f"{folder}/licenses/LICENSE-{name}" for name in licences]
package = ["BUILT-FROM", "__init__.py", "_codec.py", "_native.abi3.so", "_native.pyi", "py.typed"]
wanted += [f"cesu8/{name}" for name in package]
assert names == wanted, names
# The times in an archive are even seconds.
date = time.gmtime(int(sys.argv[3]) // 2 * 2)[:6]
assert all(entry.date_time == date for entry in entries)
assert all(entry.external_attr >> 16 == 0o100644 for entry in entries)
for name, digest, length in csv.reader(io.StringIO(contents[f"{folder}/RECORD"].decode())):
    if not name.endswith("/RECORD"):
        content = contents.pop(name)
        found = base64.urlsafe_b64encode(hashlib.sha256(content).digest()).decode().rstrip("=")
        assert (digest, length) == (f"sha256={found}", str(len(content))), name
assert list(contents) == [f"{folder}/RECORD"]
assert f"\nRequires-External: glibc (>={sys.argv[2]})\n".encode() in metadata
PYTHON
    (
        umask 077
        cp -R "$unpacked" "$3/moved" &&
            SOURCE_DATE_EPOCH=$seconds quietly python3 "$top/python/wheel.py" "$3/moved" "$again"
    ) || wrong 'wheel.py fails'
    cmp "$wheel" "$again/${wheel##*/}" || wrong 'wheel.py writes different bytes in a second run'
}

# Tests that the name of a wheel promises manylinux_2_17 exactly when it is for aarch64 and needs no
# newer C library, by the versions of the module's dynamic symbols. It also tests that the module
# needs no other library: `look_at_tag WHEEL SITE NEEDED`.
look_at_tag() {
    local tag=${1##*/cesu8-"$version"-} platform=linux_x86_64
    if [[ $1 == *_aarch64.whl ]]; then
        platform=manylinux_2_17_aarch64
        printf '%s\n' "$3" 2.17 | sort -CV || platform=linux_aarch64
    fi
    [[ $tag == "cp310-abi3-$platform.whl" ]] || wrong "${1##*/} needs the C library $3"
    grep -qx "Tag: ${tag%.whl}" "$2"/cesu8-*.dist-info/WHEEL || wrong "${1##*/} has the wrong tag inside"
    objdump -p "$2/cesu8/_native.abi3.so" | grep NEEDED | grep -vw libc.so.6 &&
        wrong "the module of ${1##*/} needs more than the C library"
}

# The addresses at which the functions of a module begin, from the frames that readelf prints:
# `functions_of MODULE`.
functions_of() {
    local text
    text=$(readelf -SW "$1" | sed -n 's/.* \.text *PROGBITS *\([0-9a-f]*\) .*/\1/p')
    # The functions before the section .text are the linker's.
    readelf -wf "$1" | sed -n 's/.* FDE .* pc=\([0-9a-f]*\)\.\..*/\1/p' |
        awk -v text="$text" '$1 "" >= text ""'
}

# Tests that a module exports only the name by which Python loads it, that its functions begin at
# multiples of 32 bytes, and that it is marked as code for a level of x86-64, if one is named:
# `look_at_module MODULE [LEVEL]`.
look_at_module() {
    diff <(echo 'T PyInit__native') <(nm -D --defined-only "$1" | cut -d ' ' -f 2-) ||
        wrong "$1 exports the wrong names"
    functions_of "$1" >"$scratch/functions"
    (($(wc -l <"$scratch/functions") > 15)) || wrong "$1 has too few functions"
    # The compiler's runtime adds two, which detect the processor's features and begin at multiples of
    # 16.
    grep -v '[02468ace]0$' "$scratch/functions" >"$scratch/misplaced"
    (($(wc -l <"$scratch/misplaced") < 4)) ||
        wrong "functions of $1 do not begin at multiples of 32 bytes: $(xargs <"$scratch/misplaced")"
    [[ -z ${2-} ]] || readelf -nW "$1" | grep -q "x86 ISA needed: $2\$" ||
        wrong "$1 is not marked as $2"
}

# Makes a fresh environment with the wheel, without a network.
install_wheel() {
    python=$scratch/environment/bin/python
    if python3 -c 'import ensurepip' 2>/dev/null; then
        quietly python3 -m venv "$scratch/environment" &&
            quietly "$python" -m pip --isolated install --no-index --no-deps --no-cache-dir "$wheel"
    else
        echo 'ensurepip is missing: the wheel is unpacked by zipfile'
        quietly python3 -m venv --without-pip "$scratch/environment" &&
            quietly python3 -m zipfile -e "$wheel" \
                "$("$python" -c 'import sysconfig; print(sysconfig.get_path("purelib"))')"
    fi || { wrong 'the wheel is not installed'; exit 1; }
}

run_java() {
    if ! command -v java >/dev/null || ! command -v javac >/dev/null; then
        echo "java or javac is missing: Java's own bytes skipped"
        return
    fi
    if ! quietly java -version; then
        echo "java cannot run: Java's own bytes skipped"
        return
    fi
    mkdir "$scratch/java" || exit 2
    if quietly javac -d "$scratch/classes" "$top/tests/wheel/Strings.java" &&
        quietly java -cp "$scratch/classes" Strings "$scratch/java"; then
        export JAVA_STRINGS=$scratch/java
    else
        wrong 'Strings.java does not run'
    fi
}

# Runs the tests of some files with the installed package, or with the one in SITE:
# `run_tests PATTERN SITE PYTHON..`. An isolated Python finds the tests' folders only through the
# arguments. The tests that SLOW names are left out.
run_tests() {
    local arguments=("$top/tests/wheel" "$1" "$2")
    shift 2
    if ! (cd "$scratch" && CESU8_VERSION=$version "$@" -B -W error - "${arguments[@]}" <<'PYTHON'); then
import os
import pathlib
import re
import sys
import unittest


def each(suite):
    for test in suite:
        yield from each(test) if isinstance(test, unittest.TestSuite) else [test]


folder, pattern, site = sys.argv[1:]
if site:
    sys.path.insert(0, site)
suite = unittest.defaultTestLoader.discover(folder, pattern)
texts = [path.read_text(encoding="utf-8") for path in pathlib.Path(folder).glob(pattern)]
there = sum(len(re.findall(r"^ +def test_", text, re.MULTILINE)) for text in texts)
assert suite.countTestCases() == there > 0, f"{there} tests are there"
tests = {test.id(): test for test in each(suite)}
for name in os.environ.get("SLOW", "").split():
    del tests[name]
suite = unittest.TestSuite(tests.values())
result = unittest.TextTestRunner(stream=sys.stdout, verbosity=1).run(suite)
sys.exit(not result.wasSuccessful())
PYTHON
        wrong "the tests of the wheel by $*"
    fi
}

# The tests that make the same few calls on every input of a kind, and compare the results with the model.
# The release builds of Python run them. In the debug build and in the emulator they would take minutes,
# most of that for the model. Other tests make these calls there, too.
exhaustive='test_calls.Tables.test_all_of_two_bytes test_calls.Tables.test_all_scalar_values
    test_codecs.Decoding.test_all_of_two_bytes test_codecs.Decoding.test_escaped_bytes_come_back
    test_streams.Incremental.test_what_is_kept'

# Tests the wheel in another Python, if it is installed. A debug build checks the borders of each
# memory block, and the result of each call.
test_by() {
    if ! "$1" -c '' 2>"$scratch/said"; then
        [[ $1 != *-dbg ]] || echo "$1 is missing: a debug build of Python skipped"
    elif [[ $1 == *-dbg || $("$1" -V) != "$("$python" -V)" ]]; then
        echo "in $("$1" -V) by $1:"
        SLOW=$([[ $1 != *-dbg ]] || echo "$exhaustive") \
            run_tests 'test_*.py' "$scratch/site-packages" "$1" -I
    fi
}

# Tests the C module with a build that fails if it accesses bytes outside its arrays. Valgrind does
# not know where arrays on the stack end.
test_sanitized() {
    local what='the module with the address sanitizer' site=$scratch/sanitized
    local flags=(-fsanitize=address -O1 -g) preload environment
    can_build_c "$what" || return 0
    can_build "$what" cc "${flags[@]}" -o "$scratch/probe" "$scratch/probe.c" || return 0
    preload=$(cc -print-file-name=libasan.so)
    if [[ ! -f $preload ]]; then
        echo "libasan.so is missing: $what skipped"
        return
    fi
    # The leak detector would find the leaks of Python itself.
    environment=(ASAN_OPTIONS=detect_leaks=0 "LD_PRELOAD=$preload" PYTHONMALLOC=malloc)
    can_build "$what" env "${environment[@]}" "$python" -c '' || return 0
    cp -R "$scratch/site-packages" "$site" || exit 2
    quietly cc -std=c11 "${flags[@]}" -fPIC -shared -o "$site/cesu8/_native.abi3.so" \
        "$top/python/native.c" -I "$unpacked/include" "$unpacked/lib/libcesu8.a" \
        -isystem "$(python3 -c 'import sysconfig; print(sysconfig.get_path("include"))')" ||
        { wrong 'the module does not build with the address sanitizer'; return; }
    run_tests test_native.py "$site" env "${environment[@]}" "$python" -s
}

# Tests the wheel for aarch64 in an emulator, in a Python for arm64. It also leaves out two tests that take
# long there, and that are more about the Python package than about the module.
test_on_aarch64() {
    local wheel folder=$scratch/aarch64 unpacked=$scratch/unpacked/$cross_name python
    for_aarch64 'the wheel for aarch64' || return 0
    python=$(find "$AARCH64_ROOT/usr/bin" -name 'python3.*[0-9]' 2>"$scratch/said" | head -n 1)
    if [[ -z $python || -z $(cross_python_header) ]]; then
        echo "$AARCH64_ROOT has no Python for arm64 with its header: the wheel for aarch64 skipped"
        return
    fi
    wheel=$(find "$release" -name "cesu8-$version-*_aarch64.whl")
    if [[ -z $wheel ]]; then
        wrong 'the release has no wheel for aarch64'
        return
    fi
    mkdir "$folder" && tar xzf "$release/$cross_name.tar.gz" -C "$scratch/unpacked" || exit 2
    look_at_wheel "$wheel" "$unpacked" "$folder"
    look_at_module "$folder/site-packages/cesu8/_native.abi3.so"
    # Python takes its own path from the first argument.
    # shellcheck disable=SC2016
    printf '#!/bin/sh\nexec "%s" -0 "$0" -L "%s" "%s" "$@"\n' "$AARCH64_EMULATOR" "$AARCH64_ROOT" "$python" \
        >"$folder/python"
    chmod 755 "$folder/python"
    echo "in $("$folder/python" -V) for aarch64:"
    SLOW="$exhaustive test_codecs.Decoding.test_handlers test_codecs.Decoding.test_much_damage_is_linear" \
        run_tests 'test_*.py' "$folder/site-packages" "$folder/python" -I
}

if ! python3 -c 'import venv' 2>/dev/null || ! has_python_header; then
    echo 'python3 3.10 with venv and Python.h is missing: the wheel skipped'
    exit 0
fi
find_release 'the wheel' || exit 0
wheel=$release/cesu8-$version-cp310-abi3-linux_x86_64.whl
if [[ ! -f $wheel ]]; then
    wrong "the release has no ${wheel##*/}"
    exit 1
fi
look_at_wheel "$wheel" "$unpacked" "$scratch"
look_at_module "$scratch/site-packages/cesu8/_native.abi3.so" x86-64-v2
install_wheel
run_java
run_tests 'test_*.py' '' "$python" -I
for other in python3.{10..20} python3-dbg; do
    test_by "$other"
done
if can_build 'the module under valgrind' valgrind --version; then
    # Each object is a block of its own, so valgrind detects an access beyond it.
    PYTHONMALLOC=malloc run_tests test_native.py "$scratch/site-packages" \
        valgrind -q --log-file="$scratch/valgrind" "$python" -s
    # An error of Python's own has no frame in the module.
    awk '
        /^==[0-9]+== *$/ { block = "" }
        { block = block $0 "\n" }
        /_native/ { printf "%s", block; block = ""; found = 1 }
        END { exit found }
    ' "$scratch/valgrind" || wrong 'valgrind finds errors in the module'
fi
test_sanitized
test_on_aarch64
((failed == 0))
