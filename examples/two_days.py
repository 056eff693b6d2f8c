#!/usr/bin/env python3
"""Writes the files of `examples/walkthrough` into the current folder: the promises and the day of two networks.

Usage: two_days.py

AS 64500 (`careless`) and AS 64501 (`honest`) each have a customer and a transit, and promise the same: what the
customer marks with the community N:666, N being the network's own number, isn't told to the transit. The day is the
first of January of 2026. Both hear and say the same in it, but that `careless` tells its transit the marked route at
noon, and takes it back after five minutes.
"""

import os
import struct
import sys

sys.path.insert(0, os.path.join(os.path.dirname(os.path.abspath(__file__)), "..", "bench"))

import days
import recording

MIDNIGHT = 1_767_225_600
CUSTOMER, TRANSIT = (64510, 0xC000020A), (64520, 0xC0000214)
HEARD, SAID, STATE = recording.MESSAGE_AS4, recording.MESSAGE_AS4_LOCAL, recording.STATE_CHANGE_AS4
PLAIN, MARKED = days.prefix_bytes(198 << 24 | 51 << 16 | 100 << 8, 24), days.prefix_bytes(203 << 24 | 113 << 8, 24)
KEEPALIVE = b"\xff" * 16 + b"\0\x13\4"
PROMISES = """network %d;
commit 600;
neighbour customer as 64510 at 192.0.2.10;
neighbour transit as 64520 at 192.0.2.20;
promise stays_inside grace 10 { if r = sent(transit) then not r has %d:666 else true end }
"""


def opened(asn):
    """An OPEN of a speaker with AS numbers of four bytes."""
    capability = struct.pack(">BBBBI", 2, 6, 65, 4, asn)
    body = struct.pack(">BHHIB", 4, asn, 90, 0xC0000201, len(capability)) + capability
    return b"\xff" * 16 + struct.pack(">HB", 19 + len(body), 1) + body


def announced(prefix, path, community=None):
    """An UPDATE that announces a prefix."""
    numbers = struct.pack(">BB%dI" % len(path), 2, len(path), *path)
    block = days.attribute(0x40, 1, b"\0") + days.attribute(0x40, 2, numbers) + days.attribute(0x40, 3, b"\xc0\0\2\1")
    if community:
        block += days.attribute(0xC0, 8, struct.pack(">HH", *community))
    return days.update(b"", block, prefix)


def day(asn, careless):
    """The MRT file of a network's day."""
    records = []

    def tell(clock, subtype, neighbour, rest):
        hour, minute, second = (int(part) for part in clock.split(":"))
        records.append(recording.exchanged(MIDNIGHT + hour * 3600 + minute * 60 + second, subtype, *neighbour, rest))

    marked = asn, 666
    for clock, neighbour in (("00:10:00", CUSTOMER), ("00:10:05", TRANSIT)):
        for subtype, raw in ((SAID, opened(asn)), (HEARD, opened(neighbour[0])), (SAID, KEEPALIVE), (HEARD, KEEPALIVE)):
            tell(clock, subtype, neighbour, raw)
        tell(clock, STATE, neighbour, struct.pack(">HH", 5, 6))
    tell("00:11:00", HEARD, CUSTOMER, announced(PLAIN, [64510]))
    tell("00:11:01", SAID, TRANSIT, announced(PLAIN, [asn, 64510]))
    tell("00:12:00", HEARD, CUSTOMER, announced(MARKED, [64510], marked))
    tell("09:00:00", HEARD, CUSTOMER, days.update(PLAIN, b"", b""))
    tell("09:00:02", SAID, TRANSIT, days.update(PLAIN, b"", b""))
    if careless:
        tell("12:00:00", SAID, TRANSIT, announced(MARKED, [asn, 64510], marked))
        tell("12:05:00", SAID, TRANSIT, days.update(MARKED, b"", b""))
    tell("23:50:00", HEARD, TRANSIT, KEEPALIVE)
    return b"".join(records)


def main():
    """Writes all files."""
    for name, asn in (("careless", 64500), ("honest", 64501)):
        with open(name + ".promises", "w", encoding="ascii") as file:
            file.write(PROMISES % (asn, asn))
        with open(name + ".mrt", "wb") as file:
            file.write(day(asn, name == "careless"))


if __name__ == "__main__":
    main()
