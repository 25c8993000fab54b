"""Reads segments from standard input, each a length of four octets and its octets; writes for each what scapy reads of it.

A line has the form of the replay program's (docs/REPLAY.md); `?` stands for an option that scapy gives unread, and
`unread` for a segment at which scapy fails.
"""

import struct
import sys
from collections.abc import Iterator
from typing import BinaryIO

from scapy.layers.inet import TCP

# What scapy calls the options that the library knows, and the padding.
KNOWN = {"EOL", "NOP", "MSS", "WScale", "SAckOK", "SAck", "Timestamp"}


def segments(stream: BinaryIO) -> Iterator[bytes]:
    while head := stream.read(4):
        yield stream.read(struct.unpack("!I", head)[0])


def words(value: object) -> list[str]:
    """A value that scapy has unpacked is a number or several; octets are as they came."""
    if isinstance(value, bytes):
        return ["?"]
    numbers = value if isinstance(value, tuple) else (value,)
    return [str(number) for number in numbers]


def option_words(options: dict[str, object]) -> list[str]:
    mss = words(options["MSS"]) if "MSS" in options else ["-"]
    scale = words(options["WScale"]) if "WScale" in options else ["-"]
    permitted = ["1" if "SAckOK" in options else "0"]
    stamps = words(options["Timestamp"]) if "Timestamp" in options else ["-", "-"]
    edges = words(options["SAck"]) if "SAck" in options else []
    return mss + scale + permitted + stamps + [str(len(edges) // 2)] + edges


def line(octets: bytes) -> str:
    try:
        tcp = TCP(octets)
    except struct.error:
        return "unread"
    flags = int(tcp.flags) & 0xFF  # the ninth is a bit of the offset's octet
    header = [tcp.sport, tcp.dport, tcp.seq, tcp.ack, flags, tcp.window, tcp.urgptr]
    start = 4 * (tcp.dataofs or 0)
    skipped = sum(name not in KNOWN for name, _ in tcp.options)
    steps = len(tcp.options)  # NOPs and the end of the list are among them
    last = [start, len(tcp.payload), skipped, steps]
    fields = [str(field) for field in header] + option_words(dict(tcp.options)) + [str(field) for field in last]
    return " ".join(["read", "0"] + fields)


def main() -> None:
    for octets in segments(sys.stdin.buffer):
        print(line(octets))


if __name__ == "__main__":
    main()
