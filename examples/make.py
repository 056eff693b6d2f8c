#!/usr/bin/env python3
"""Writes the files of this folder and of the program's stored run anew, from the formats alone, and prints roots.

The network AS 64500 answers with a log of five entries, kept under the file `promises`. A neighbour holds two
authenticators that the network signed: one of entry 3 as it stands in the answer, and one of another entry 3, with
another message. The network kept two logs, and the second authenticator shows it. Entry 4 is a message to neighbour 1,
which the file doesn't declare.

`day.mrt` has the records of a minute: the transit announces a prefix, the network announces one of its own, and a router
that the promise file doesn't name says something, too.

Everything is signed by keys of one seed that is no secret: the bytes 0 to 31. A real seed comes from the system's
random source (docs/keys.md).
"""

import os
import struct
import sys

HERE = os.path.dirname(os.path.abspath(__file__))
DATA = os.path.join(HERE, "..", "crates", "netreview", "data")
sys.path.insert(0, os.path.join(HERE, "..", "bench"))

import days
import keys
import logs
import recording

AS = 64500
SEED = bytes(range(32))
SMALLEST = b"network 64500; commit 60;\n"
PROMISES = b"""network 64500;
commit 60;
neighbour transit as 64510 at 192.0.2.10;
define own = 203.0.113.0/24 le 26;

// The transit hears of our own prefixes alone.
promise only_own grace 10 { sent(transit) implies prefix in own }
"""
MISTAKE = PROMISES.replace(b"sent(transit)", b"sent(transit_a)")
SECOND = 1_000_000


def sent(neighbour, last_byte):
    """A SEND to a neighbour, 0 being the transit, of a message that withdraws 10.x.0.0/16, where x is this byte."""
    message = b"\xff" * 16 + struct.pack(">HBH", 26, 2, 3) + bytes([16, 10, last_byte]) + b"\0\0"
    return struct.pack(">HB", neighbour, 1) + message


def log_of(last_byte):
    """The log of the network, with this message as its third entry."""
    log = logs.Log(AS)
    log.add(0, logs.PROMISE, logs.promise(PROMISES, 1, 60))
    log.add(5 * SECOND, 1, sent(0, 1))
    log.add(6 * SECOND, 1, sent(0, last_byte))
    log.add(7 * SECOND, 1, sent(1, 1))
    log.add(9 * SECOND, logs.COMMIT, logs.commit(logs.AUDITOR, 0))
    return log


def smallest_log():
    """The smallest log that has an answer: a PROMISE and a COMMIT to the auditor, a microsecond apart."""
    log = logs.Log(AS)
    log.add(0, logs.PROMISE, logs.promise(SMALLEST, 0, 60))
    log.add(1, logs.COMMIT, logs.commit(logs.AUDITOR, 0))
    return log


def announced(path, address, bits):
    """An UPDATE that announces a prefix by a path of AS numbers of four bytes, with the next hop 192.0.2.1."""
    block = (days.attribute(0x40, 1, b"\0")
             + days.attribute(0x40, 2, struct.pack(">BB%dI" % len(path), 2, len(path), *path))
             + days.attribute(0x40, 3, bytes((192, 0, 2, 1))))
    return days.update(b"", block, days.prefix_bytes(address, bits))


def day_file():
    """The MRT file of `examples/record`."""
    heard, said = recording.MESSAGE_AS4, recording.MESSAGE_AS4_LOCAL
    transit, stranger = (64510, 0xC000020A), (64511, 0xC000020B)
    keepalive = b"\xff" * 16 + b"\0\x13\4"
    return b"".join((
        recording.exchanged(1, heard, *transit, announced([64510, 64496], 198 << 24 | 51 << 16 | 100 << 8, 24)),
        recording.exchanged(2, said, *transit, announced([AS], 203 << 24 | 113 << 8, 24)),
        recording.exchanged(3, heard, *stranger, keepalive),
        recording.exchanged(30, said, *transit, keepalive),
    ))


def write(folder, name, data):
    with open(os.path.join(folder, name), "wb") as file:
        file.write(data)


def write_example():
    tree = keys.Tree(SEED, 2)
    shown, hidden = log_of(2), log_of(3)
    write(HERE, "promises", PROMISES)
    write(HERE, "mistake", MISTAKE)
    write(HERE, "answer", shown.answer(lambda body: tree.sign(0, body)))
    write(HERE, "auths", logs.authenticators([
        shown.authenticator(3, lambda body: tree.sign(1, body)),
        hidden.authenticator(3, lambda body: tree.sign(2, body)),
    ]))
    write(HERE, "day.mrt", day_file())
    write(HERE, "root", tree.root.hex().encode() + b"\n")
    print("examples/root: root", tree.root.hex())
    print("examples/check: malformed promise", MISTAKE.index(b"transit_a"))
    print("examples/audit: conflict 3 %d %s" % (6 * SECOND, hidden.values[3].hex()))
    print("examples/audit: wrong 4 neighbour")


def write_stored_run():
    tree = keys.Tree(SEED, 1)
    log = smallest_log()
    write(DATA, "promise", SMALLEST)
    write(DATA, "answer", log.answer(lambda body: tree.sign(1, body)))
    write(DATA, "auths", logs.authenticators([]))
    print("crates/netreview/args: root", tree.root.hex())
    print("the value of entry 2:", log.values[2].hex())


if __name__ == "__main__":
    write_example()
    write_stored_run()
