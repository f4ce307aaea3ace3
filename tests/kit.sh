# The scripts that run the kit's `rt` source this file: if `rt` is not on the PATH, the script
# prints one line and ends with status 2.
# shellcheck shell=sh

if ! command -v rt >/dev/null; then
    echo "${0##*/}: rt is not on the PATH; with the kit's folder: export PATH=KIT/bin:\$PATH" >&2
    exit 2
fi
