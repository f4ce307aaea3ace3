# Downloads Debian's packages of any architecture, for the scripts that unpack them in a folder. They
# source this file. The packages come from the mirrors of this machine's apt, so this needs a network. It
# needs apt-get, dpkg and the core utilities. A script that sources it has `set -e`, which ends it
# if a package cannot be downloaded, and sets no trap for EXIT, since that is set here.
# shellcheck shell=bash
debian=$(mktemp -d)
trap 'rm -rf "$debian"' EXIT

# Runs a command of apt for an architecture: `apt_for ARCHITECTURE COMMAND ARGUMENT..`. apt uses separate
# folders, in which nothing is installed, and knows no other architecture.
apt_for() {
    local architecture=$1 command=$2 own=$debian/$1
    shift 2
    local options=(-o "Dir::State=$own/state" -o "Dir::State::status=$own/status"
        -o "Dir::Cache=$own/cache" -o Dir::Etc::sourcelist=/dev/null
        -o "Dir::Etc::sourceparts=$own/sources" -o "APT::Architecture=$architecture"
        -o "APT::Architectures::=$architecture" -o APT::Sandbox::User=root)
    if [[ ! -d $own ]]; then
        mkdir -p "$own"/{state/lists/partial,cache/archives/partial,sources}
        : >"$own/status"
        cp /etc/apt/sources.list.d/debian*.sources "$own/sources" 2>/dev/null || :
        [[ ! -s /etc/apt/sources.list ]] || cp /etc/apt/sources.list "$own/sources/sources.list"
        # If one list cannot be downloaded, the packages of the others are still available.
        apt-get "${options[@]}" update >&2 || :
    fi
    "$command" "${options[@]}" "$@"
}

# Unpacks packages without those that they depend on: `unpack ARCHITECTURE FOLDER PACKAGE..`.
unpack() {
    local architecture=$1 folder=$2 package
    shift 2
    mkdir -p "$debian/packages"
    (cd "$debian/packages" && apt_for "$architecture" apt-get download "$@" >&2)
    for package in "$debian"/packages/*.deb; do
        dpkg -x "$package" "$folder"
        rm "$package"
    done
}
