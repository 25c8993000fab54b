# For the scripts of this repository, which source it.

# install_packages PACKAGE..: from Debian's packages; ends the script where they cannot be had.
install_packages() {
    local as_root=()
    if [ "$(id -u)" != 0 ]; then
        as_root=(sudo)
    fi
    if ! { "${as_root[@]}" apt-get -q update && "${as_root[@]}" apt-get -q install -y "$@"; } >&2; then
        echo "error: could not install $* from Debian's packages" >&2
        exit 2
    fi
}

# need COMMAND PACKAGE..: a command that is missing is installed from Debian's packages; ends the script where it cannot be had.
need() {
    local command=$1
    shift
    if command -v "$command" >/dev/null; then
        return
    fi
    echo "installing $*, for the command $command" >&2
    install_packages "$@"
    if ! command -v "$command" >/dev/null; then
        echo "error: there is no command $command, even with $* installed" >&2
        exit 2
    fi
}

# need_package PACKAGE..: those that are missing are installed, for packages that bring no command of their own.
need_package() {
    local package missing=()
    for package; do
        if [ "$(dpkg-query -W -f '${db:Status-Status}' "$package" 2>/dev/null)" != installed ]; then
            missing+=("$package")
        fi
    done
    if [ ${#missing[@]} != 0 ]; then
        echo "installing ${missing[*]}" >&2
        install_packages "${missing[@]}"
    fi
}

# The toolchain is not among Debian's packages.
need_toolchain() {
    if ! command -v rt >/dev/null; then
        echo "error: rt, the command of the Rattle toolchain, is not on the PATH" >&2
        exit 2
    fi
}

# in_folder FOLDER COMMAND..
in_folder() {
    cd "$1" && "${@:2}"
}

# quietly COMMAND..: what the command prints is shown, on standard error, only where it fails; that ends the script.
quietly() {
    local printed
    if ! printed=$("$@" 2>&1); then
        printf '%s\n' "$printed" >&2
        echo "error: $* failed" >&2
        exit 2
    fi
}
