"""Answer and authenticator files, written from their formats alone (docs/formats.md).

This module shares no code with the program that it measures. All of it is deterministic: the same
arguments give the same bytes.
"""

import hashlib
import struct

COMMIT = 5
PROMISE = 7
AUDITOR = 65535


def sha256(data):
    """The SHA-256 of bytes (FIPS 180-4)."""
    return hashlib.sha256(data).digest()


def genesis(asn):
    """The chain value before the first entry of the log of an AS."""
    return sha256(b"netreview 1" + struct.pack(">I", asn))


def link(prev, seq, time, kind, content):
    """The chain value of an entry behind the value of the entry before it."""
    return sha256(prev + struct.pack(">QQB", seq, time, kind) + sha256(content))


def entry(time, kind, content):
    """An entry as it stands in an answer."""
    return struct.pack(">QBH", time, kind, len(content)) + content


def commit(neighbour, leaf):
    """The content of a COMMIT."""
    return struct.pack(">HI", neighbour, leaf)


def promise(text, count, delay):
    """The content of a PROMISE: the digest of the promise file, its neighbours and its commit delay in seconds."""
    return sha256(text) + struct.pack(">HI", count, delay)


def unsigned(leaf, height):
    """A signature of the right sizes that signs nothing."""
    return struct.pack(">IB", leaf, height) + bytes(16384) + bytes(32 * height)


def authenticator(asn, seq, time, value, signature):
    """A statement that entry `seq` of the log of `asn` has this time and chain value."""
    return struct.pack(">IQQ", asn, seq, time) + value + signature


class Log:
    """A log that is written entry by entry, with the chain value of each."""

    def __init__(self, asn):
        self.asn = asn
        self.entries = []
        self.values = [genesis(asn)]

    def add(self, time, kind, content):
        """Adds an entry at a time in microseconds, and answers its number."""
        seq = len(self.values)
        self.entries.append((time, kind, content))
        self.values.append(link(self.values[-1], seq, time, kind, content))
        return seq

    def authenticator(self, seq, sign):
        """The authenticator of an entry. `sign` makes the signature of its body."""
        time = self.entries[seq - 1][0]
        body = struct.pack(">IQQ", self.asn, seq, time) + self.values[seq]
        return body + sign(body)

    def answer(self, sign, start=1, body=None):
        """The answer from an entry on, with the authenticator of the last entry as its head. From a later entry than the
        first, which is a CHECKPOINT then, it has the checkpoint body."""
        flagged = b"\0" if start == 1 else b"\1" + struct.pack(">I", len(body)) + body
        parts = [b"NRA1", struct.pack(">IQ", self.asn, start), self.values[start - 1], flagged,
                 struct.pack(">I", len(self.entries) - start + 1)]
        parts.extend(entry(*e) for e in self.entries[start - 1:])
        parts.append(self.authenticator(len(self.entries), sign))
        return b"".join(parts)


def authenticators(items):
    """An authenticator file."""
    return b"NRT1" + b"".join(items)
