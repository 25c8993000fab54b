# For build.sh, which sources it: lwIP's source, from Debian's source package.

lwip=$built/lwip
lwip_source=$lwip/source

# A list of sources, indexes and a cache of our own, below target/: the machine's apt needs no deb-src entries and is not changed. The
# index is signed by Debian, and the package is held to the hash in it.
own_apt_get() {
    cd "$lwip"
    apt-get -q -o Dir::Etc::SourceList="$lwip/sources.list" -o Dir::Etc::SourceParts=- -o Dir::State::Lists="$lwip/lists" \
        -o Dir::Cache="$lwip/cache" -o APT::Sandbox::User="$(id -un)" "$@"
}

fetch_lwip() {
    if [ -d "$lwip_source" ]; then
        return
    fi
    rm -rf "$lwip"
    mkdir -p "$lwip"/lists/partial "$lwip"/cache/archives/partial
    local suite keyring=/usr/share/keyrings/debian-archive-keyring.gpg
    suite=$(source /etc/os-release && echo "$VERSION_CODENAME")
    echo "deb-src [signed-by=$keyring] http://deb.debian.org/debian $suite main" >"$lwip/sources.list"
    echo "fetching lwIP's source from Debian's source packages" >&2
    quietly own_apt_get update
    quietly own_apt_get source lwip
    mv "$lwip"/lwip-*/ "$lwip_source"
}

lwip_version() {
    sed -n 's/^Version: //p' "$lwip"/*.dsc
}
