# For run and check, which source it: builds the library and C programs. Nothing is printed unless a step fails.

root=$(CDPATH='' cd -- "$(dirname -- "${BASH_SOURCE[0]}")/.." && pwd)
gateway=$root/gateway
library=$root/target/staticlib/libgateway.a

source "$root/scripts/common.sh"

example_sources=("$gateway"/{example,flows,report}.c "$gateway"/capture/{capture,octets,packet,ipv4,ipv6}.c)
warnings=(-std=c99 -Wall -Wextra -Wpedantic -Wconversion -Wshadow -Werror)

build_library() {
    need_toolchain
    if [ ! -e "$library" ]; then
        echo "building the library; its crates are proved first, which takes about a minute" >&2
    fi
    quietly in_folder "$root/crates/gateway_c" rt lib
    mkdir -p "$(dirname "$library")"
    cp "$root/crates/gateway_c/out/libgateway_c.a" "$library"
}

# compile PROGRAM WORDS..: the words are options and sources.
compile() {
    local program=$1
    shift
    quietly gcc "${warnings[@]}" "$@" "$library" -o "$program"
}
