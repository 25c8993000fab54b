# For run, which sources it: what the figures were measured on, as a list in Markdown.

package_version() {
    dpkg-query -W -f '${Version}' "$1"
}

cpu_model() {
    sed -n 's/^model name[[:space:]]*: //p' /proc/cpuinfo | head -n 1
}

# print_machine WORDS..: the words are the command's own.
print_machine() {
    cat <<EOF
- command: \`bash bench/run${*:+ $*}\`, $(date -u +%Y-%m-%d)
- machine: $(cpu_model), $(nproc) processors, Linux $(uname -r), Debian $(cat /etc/debian_version)
- compilers: $(rt version); gcc $(gcc -dumpfullversion) \`${release[*]}\`; $(rustc --version), release; $("$go" version | cut -d ' ' -f 3)
- peers, from Debian's packages: lwIP $(lwip_version), gVisor $(package_version "$gvisor_package"),
  gopacket $(package_version "$gopacket_package"), scapy $(package_version "$scapy_package")

A figure is the least of many short runs with warm buffers, in turn with those it is compared with and spread over the whole run. A ratio says
how many times the library's time another takes: above 1.00 the library is the faster one. The readers in C and the library's C entry are linked
with functions that begin at multiples of $line octets.

EOF
}
