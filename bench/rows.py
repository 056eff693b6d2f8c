#!/usr/bin/env python3
"""Prints the logs of the program's rows on wrong entries and on broken promises, for crates/netreview/src/wrong_tests.rt
and broken_tests.rt: each entry in hexadecimal digits, the chain value of the last, and the lines that an audit over a
period prints."""

import struct

import days
import history
import logs

AS = 64500
FILE = b"network 64500;\ncommit 60;\nneighbour p as 64501 at 192.0.2.1;\nneighbour q as 64502 at 192.0.2.2;\n"
MARKER = b"\xff" * 16
KEEPALIVE = MARKER + b"\0\x13\4"
TOO_LONG = MARKER + b"\0\x14\4\0"
# 10.1.0.0/16 withdrawn and announced.
ROUTE = bytes.fromhex("0031020003100a0100144001010040020602010000fbf4400304c0000202100a01")
WITHDRAWN = bytes.fromhex("001a020003100a010000")
SECOND = 1_000_000
QUIET = """network 64500;
commit 60;
neighbour p as 64501 at 192.0.2.1;
neighbour q as 64502 at 192.0.2.2;
group peers = p, q;
promise quiet grace %d { all n in peers { not sent(n) } }
"""


class Row:
    """A log, and what is known after its entries."""

    def __init__(self):
        self.log = logs.Log(AS)
        self.known = history.Known()

    def add(self, time, kind, content):
        """One entry more."""
        self.log.add(time, kind, content)
        self.known.take(time, kind, content)

    def checkpoint(self, time, body):
        """A CHECKPOINT of this body."""
        self.add(time, history.CHECKPOINT, logs.sha256(body))

    def show(self, name, begin, end):
        """Prints it."""
        print(name)
        for entry in self.log.entries:
            print("   ", logs.entry(*entry).hex())
        print("   ", self.log.values[-1].hex())
        for seq, cause in history.wrong_entries([(logs.sha256(FILE), 2, 60)], self.log.entries, begin, end):
            print("    wrong", seq, cause)


def each_cause():
    """A log with an entry for each cause."""
    row = Row()
    row.add(0, history.COMMIT, logs.commit(logs.AUDITOR, 0))
    row.add(0, history.SEND, days.exchange(0, KEEPALIVE))
    row.add(1, history.PROMISE, logs.promise(FILE, 3, 60))
    row.add(1, 8, b"")
    row.add(1, history.ACK, struct.pack(">HQQQ", 0, 2, 1, 0) + bytes(64))
    row.add(1, history.COMMIT, logs.commit(logs.AUDITOR, 7))
    row.checkpoint(1, b"")
    row.add(60 * SECOND, history.STATE, struct.pack(">HHH", 1, 1, 1))
    row.add(60 * SECOND + 1, history.STATE, struct.pack(">HHH", 1, 1, 1))
    row.add(60 * SECOND + 1, history.COMMIT, logs.commit(0, 2))
    row.add(60 * SECOND + 2, history.COMMIT, logs.commit(logs.AUDITOR, 3))
    return row


def checkpoints():
    """A log with true checkpoints, after each of which other routes stand, and one that leaves out a row."""
    row = Row()
    row.add(0, history.PROMISE, logs.promise(FILE, 2, 60))
    row.add(SECOND, history.RECV, days.exchange(0, MARKER + ROUTE))
    row.add(2 * SECOND, history.SEND, days.exchange(1, MARKER + ROUTE))
    row.checkpoint(3 * SECOND, row.known.body())
    row.add(4 * SECOND, history.RECV, days.exchange(0, TOO_LONG))
    row.checkpoint(4 * SECOND, row.known.body())
    row.add(5 * SECOND, history.RECV, days.exchange(0, MARKER + ROUTE))
    row.add(5 * SECOND, history.COMMIT, logs.commit(logs.AUDITOR, 0))
    kept = row.known.routes
    row.known.routes = dict(list(kept.items())[1:])
    short = row.known.body()
    row.known.routes = kept
    row.checkpoint(6 * SECOND, short)
    row.checkpoint(6 * SECOND, row.known.body())
    row.add(7 * SECOND, history.COMMIT, logs.commit(logs.AUDITOR, 1))
    return row


def quiet(grace, sent, withdrawn):
    """A log in which 10.1.0.0/16 is sent to a peer and withdrawn, under a promise that nothing is sent to peers; what an
    audit up to 20 s prints."""
    text = (QUIET % grace).encode()
    row = Row()
    row.add(0, history.PROMISE, logs.promise(text, 2, 60))
    row.add(sent, history.SEND, days.exchange(1, MARKER + ROUTE))
    row.add(withdrawn, history.SEND, days.exchange(1, MARKER + WITHDRAWN))
    row.add(20 * SECOND + 1, history.COMMIT, logs.commit(logs.AUDITOR, 0))
    print("quiet, grace", grace)
    for entry in row.log.entries:
        print("   ", logs.entry(*entry).hex())
    print("   ", row.log.values[-1].hex())
    if withdrawn - sent >= grace * SECOND:
        print("    broken quiet 10.1.0.0/16", sent, withdrawn)


if __name__ == "__main__":
    print("the digest of the promise file:", logs.sha256(FILE).hex())
    each_cause().show("each cause", 0, 60 * SECOND + 1)
    checkpoints().show("checkpoints", 0, 7 * SECOND - 1)
    quiet(4, 5 * SECOND, 9 * SECOND)
    quiet(5, 5 * SECOND, 9 * SECOND)
    quiet(0, 5 * SECOND, 5 * SECOND)
    quiet(1, 5 * SECOND, 5 * SECOND)
