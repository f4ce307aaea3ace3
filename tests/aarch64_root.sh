#!/usr/bin/env bash
# Unpacks Debian's Python for arm64, its headers and the libraries that they need into a folder,
# without installing them:
#   aarch64_root.sh FOLDER
# If AARCH64_ROOT names FOLDER, release/dist.sh builds the wheel for aarch64 with the headers, and
# tests/wheel.sh runs Python in an emulator. It needs what tests/debian.sh needs.
set -euo pipefail
unset CDPATH

if (($# != 1)); then
    echo 'usage: aarch64_root.sh FOLDER' >&2
    exit 2
fi
mkdir -p "$1"
folder=$(cd "$1" && pwd)
# shellcheck source=tests/debian.sh
source "$(dirname "${BASH_SOURCE[0]}")/debian.sh"

apt_for arm64 apt-get install --download-only --yes --no-install-recommends \
    python3-minimal libpython3-stdlib libpython3-dev
for package in "$debian"/arm64/cache/archives/*.deb; do
    dpkg -x "$package" "$folder"
done
echo "$folder has $(cd "$folder/usr/bin" && echo python3.*[0-9]) for arm64"
