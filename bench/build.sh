# For run, which sources it: installs what is missing, and builds the library, the stream programs and the readers for release. All that it
# writes is below target/, but for the reference's own target/. Nothing is printed unless a step fails, or takes long.

source "$(dirname -- "${BASH_SOURCE[0]}")/../gateway/build.sh"
bench=$root/bench
built=$root/target/bench
source "$bench/lwip.sh"

go=/usr/bin/go # Debian's, which its Go packages are made for
gvisor_package=golang-gvisor-gvisor-dev
gopacket_package=golang-github-google-gopacket-dev
scapy_package=python3-scapy

# Functions start at a line of the cache, so that where the linker puts them decides nothing.
line=64
release=(-O2 "-falign-functions=$line")

install_missing() {
    need_toolchain
    need gcc gcc libc6-dev
    need cargo cargo
    need_package golang-go "$gvisor_package" "$gopacket_package" "$scapy_package" dpkg-dev
}

# is_fresh PROGRAM: built after the last change of a crate, but for what rt writes.
is_fresh() {
    [ -e "$1" ] && [ -z "$(find "$root/crates" "$root/crates.txt" -name out -prune -o -newer "$1" -print -quit)" ]
}

build_programs() {
    if ! is_fresh "$root/target/bin/bench" || ! is_fresh "$root/target/bin/replay"; then
        echo "building the programs bench and replay; their crates are proved first, which takes some minutes" >&2
        quietly bash "$root/scripts/build" bench replay
    fi
}

build_reference() {
    quietly cargo build --quiet --release --locked --offline --manifest-path "$root/reference/Cargo.toml"
}

# compile_object NAME OPTIONS..: bench/c/NAME.c.
compile_object() {
    local name=$1
    shift
    quietly gcc "${release[@]}" "$@" -c "$bench/c/$name.c" -o "$built/objects/$name.o"
}

# lwIP's file, of which only what the reader needs is kept: the rest would want all of lwIP.
compile_lwip() {
    fetch_lwip
    compile_object lwip -ffunction-sections -fdata-sections -I"$lwip_source/src" -I"$lwip_source/src/include" -I"$lwip_source/port/include"
    quietly ld -r --gc-sections -e lwip_read "$built/objects/lwip.o" -o "$built/objects/lwip_reader.o"
}

# The library is linked from a copy whose functions start at a line as well.
build_readers() {
    mkdir -p "$built/objects"
    compile_object reader "${warnings[@]}"
    compile_object distance "${warnings[@]}"
    compile_object loops "${warnings[@]}" -I"$gateway"
    compile_lwip
    rm -f "$built/libreaders.a"
    quietly ar rcs "$built/libreaders.a" "$built"/objects/{reader,distance,loops,lwip_reader}.o
    quietly objcopy --set-section-alignment ".text.*=$line" "$library" "$built/libgateway.a"
}

# Debian's Go packages are used by GOPATH; our own folder stands there as noppalerk/bench.
in_go() {
    env GO111MODULE=off GOENV=off GOFLAGS= GOPATH="$built/gopath:/usr/share/gocode" GOCACHE="$built/gocache" \
        CGO_CFLAGS="-O2 '-I$bench/c'" CGO_LDFLAGS="'$built/libreaders.a' '$built/libgateway.a'" "$go" "$@"
}

# build_go NAME..: bench/NAME. A program is always linked anew, since Go does not see whether a library in C has changed.
build_go() {
    mkdir -p "$built/gopath/src/noppalerk"
    ln -sfn "$bench" "$built/gopath/src/noppalerk/bench"
    local name
    for name; do
        rm -f "$built/$name"
        quietly in_go build -o "$built/$name" "noppalerk/bench/$name"
    done
}

build_all() {
    install_missing
    build_library
    build_programs
    build_reference
    build_readers
    build_go speed compare symbols
}
