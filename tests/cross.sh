# The tools that build the library for aarch64 and run what is built. A script that needs them
# sources this file.
#
# These variables name the tools, and are Debian's names if they are not set: AARCH64_CC is the C
# compiler, AARCH64_CXX the C++ compiler, AARCH64_OBJCOPY objcopy, and AARCH64_EMULATOR the emulator
# that runs a program. The other tools of binutils are those that the compiler uses. AARCH64_ROOT is
# a folder with a Python for arm64 and its headers, as tests/aarch64_root.sh makes it.
# shellcheck shell=sh
AARCH64_CC=${AARCH64_CC:-aarch64-linux-gnu-gcc}
AARCH64_CXX=${AARCH64_CXX:-aarch64-linux-gnu-g++}
AARCH64_OBJCOPY=${AARCH64_OBJCOPY:-aarch64-linux-gnu-objcopy}
AARCH64_EMULATOR=${AARCH64_EMULATOR:-qemu-aarch64}
AARCH64_ROOT=${AARCH64_ROOT:-/opt/aarch64-root}
export AARCH64_CC AARCH64_CXX AARCH64_OBJCOPY AARCH64_EMULATOR AARCH64_ROOT

# Runs a tool of binutils for aarch64: `cross TOOL ARGUMENT..`.
cross() {
    cross_tool=$("$AARCH64_CC" "-print-prog-name=$1")
    shift
    "$cross_tool" "$@"
}

# Whether a program can be built for aarch64. If not, it prints what is missing.
can_cross() {
    for cross_tool in "$AARCH64_CC" "$AARCH64_OBJCOPY"; do
        if ! command -v "$cross_tool" >/dev/null; then
            echo "$cross_tool is missing"
            return 1
        fi
    done
    if ! echo 'int main(void) { return 0; }' | "$AARCH64_CC" -x c -o /dev/null - 2>/dev/null; then
        echo "the C library for $AARCH64_CC is missing"
        return 1
    fi
}

# The folder of AARCH64_ROOT with Python's header, or nothing.
cross_python_header() {
    for cross_header in "$AARCH64_ROOT"/usr/include/python3.*/Python.h; do
        [ ! -f "$cross_header" ] || echo "${cross_header%/Python.h}"
    done | tail -n 1
}
