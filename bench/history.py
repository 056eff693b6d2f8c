"""Which entries of a log are wrong and why, computed apart from the program.

This is written from docs/formats.md and docs/causes.md, and shares nothing with the crates: expected values of tests
and benchmarks come from it. It is slow, and keeps every route in one dictionary.
"""

import struct

import logs

SEND, RECV, STATE, ACK, COMMIT, CHECKPOINT, PROMISE = range(1, 8)
ESTABLISHED = 6
NEIGHBOURS = 256
MOST_DELAY = 31_536_000


class Malformed(Exception):
    """A message isn't one of BGP as it is read here."""


# ---- messages

def wants(fine):
    """Refuses a message that isn't fine."""
    if not fine:
        raise Malformed


def prefixes(data):
    """The prefixes of a part of an UPDATE, each as its address and its length in bits."""
    found, at = [], 0
    while at < len(data):
        bits = data[at]
        size = (bits + 7) // 8
        wants(bits <= 32 and at + 1 + size <= len(data))
        address = int.from_bytes(data[at + 1:at + 1 + size] + bytes(4 - size), "big")
        found.append((address >> (32 - bits) << (32 - bits), bits))
        at += 1 + size
    return found


def is_path(as4, value):
    """Whether a value is segments to its end."""
    at = 0
    while at < len(value):
        if len(value) < at + 2 or not 1 <= value[at] <= 4 or value[at + 1] == 0:
            return False
        at += 2 + value[at + 1] * (4 if as4 else 2)
    return at == len(value)


def is_value(as4, kind, value):
    """Whether a value is one of its attribute's type."""
    if kind == 1:
        return len(value) == 1 and value[0] <= 2
    if kind == 2:
        return is_path(as4, value)
    if kind in (3, 4, 5):
        return len(value) == 4
    return kind != 8 or len(value) % 4 == 0


def kinds_of(as4, block):
    """The types of the attributes of a block."""
    found, at = set(), 0
    while at < len(block):
        wide = 2 if block[at] & 0x10 else 1
        wants(at + 2 + wide <= len(block))
        kind, size = block[at + 1], int.from_bytes(block[at + 2:at + 2 + wide], "big")
        at += 2 + wide
        wants(at + size <= len(block))
        wants(kind in found or is_value(as4, kind, block[at:at + size]))
        found.add(kind)
        at += size
    return found


def part(data, at):
    """The part that stands behind its length, and where it ends."""
    wants(at + 2 <= len(data))
    end = at + 2 + int.from_bytes(data[at:at + 2], "big")
    wants(end <= len(data))
    return data[at + 2:end], end


def message(as4, raw):
    """What a message does to the routes of its direction: `keeps`, `empties`, or what an UPDATE withdraws, its attribute
    block and what it announces."""
    wants(len(raw) >= 19 and raw[:16] == b"\xff" * 16)
    size, kind = struct.unpack(">HB", raw[16:19])
    wants(size == len(raw) and kind in (1, 2, 3, 4, 5))
    wants(size == 19 if kind == 4 else size >= {1: 29, 2: 23, 3: 21, 5: 23}[kind])
    if kind == 1:
        wants(raw[28] == size - 29)
    if kind != 2:
        return "empties" if kind in (1, 3) else "keeps"
    withdrawn, at = part(raw, 19)
    block, at = part(raw, at)
    announced = prefixes(raw[at:])
    wants(not announced or kinds_of(as4, block) >= {1, 2, 3})
    kinds_of(as4, block)
    return prefixes(withdrawn), block, announced


# ---- contents

def content(kind, data):
    """The fields of a content, or None where it isn't in the grammar of its kind."""
    sizes = {STATE: 6, ACK: 90, COMMIT: 6, CHECKPOINT: 32, PROMISE: 38}
    if kind not in range(1, 8) or kind in sizes and len(data) != sizes[kind] or len(data) < 3:
        return None
    if kind == CHECKPOINT:
        return data
    if kind == PROMISE:
        digest, count, delay = data[:32], *struct.unpack(">HI", data[32:])
        return (digest, count, delay) if count <= NEIGHBOURS and delay <= MOST_DELAY else None
    neighbour = int.from_bytes(data[:2], "big")
    if neighbour >= NEIGHBOURS and not (kind == COMMIT and neighbour == logs.AUDITOR):
        return None
    if kind in (SEND, RECV):
        return (neighbour, data[2], data[3:]) if data[2] <= 1 else None
    rest = struct.unpack({STATE: ">HH", ACK: ">QQQ64x", COMMIT: ">I"}[kind], data[2:])
    return (neighbour, *rest)


# ---- what is known of a log

class Known:
    """What the entries so far leave: the counts, the promise in force and the routes."""

    def __init__(self):
        self.sends = [0] * NEIGHBOURS
        self.acked = [0] * NEIGHBOURS
        self.oldest = [None] * NEIGHBOURS
        self.commits = 0
        self.in_force = None
        self.last = 0
        self.routes = {}

    def body(self):
        """The body of a checkpoint."""
        parts = [struct.pack(">Q", self.last)]
        if self.in_force is None:
            parts.append(bytes(39))
        else:
            parts.append(b"\1" + self.in_force[0] + struct.pack(">HI", *self.in_force[1:]))
        parts.append(struct.pack(">Q", self.commits))
        for sends, acked, oldest in zip(self.sends, self.acked, self.oldest):
            parts.append(struct.pack(">QQBQ", sends, acked, oldest is not None, oldest or 0))
        parts.append(struct.pack(">Q", len(self.routes)))
        for address, bits, direction, neighbour in sorted(self.routes):
            as4, block = self.routes[address, bits, direction, neighbour]
            parts.append(struct.pack(">BIBHBH", bits, address, direction, neighbour, as4, len(block)) + block)
        return b"".join(parts)

    def overdue(self, time):
        """The lowest neighbour that waits for a COMMIT for longer than the commit delay, or None."""
        if self.in_force is None:
            return None
        _, count, delay = self.in_force
        waits = (n for n in range(count) if self.oldest[n] is not None and time > self.oldest[n] + delay * 1_000_000)
        return next(waits, None)

    def cause(self, files, seq, time, kind, data):
        """Why entry `seq` is wrong, by the word that the program prints, or None. `files` are the numbers of the audited
        promise files, each as its digest, its neighbours and its commit delay."""
        fields = content(kind, data)
        if fields is None:
            return "content"
        if seq == 1 and kind != PROMISE:
            return "first"
        if kind < CHECKPOINT and not (kind == COMMIT and fields[0] == logs.AUDITOR):
            if self.in_force is None or fields[0] >= self.in_force[1]:
                return "neighbour"
        if kind == ACK and not self.acked[fields[0]] <= fields[1] <= self.sends[fields[0]]:
            return "ack"
        if kind == COMMIT and fields[1] != self.commits:
            return "leaf"
        if kind == CHECKPOINT and fields != logs.sha256(self.body()):
            return "checkpoint"
        if kind == PROMISE:
            first = next((file for file in files if file[0] == fields[0]), fields)
            if first != fields:
                return "numbers"
        late = self.overdue(time)
        if late is not None and not (kind == COMMIT and fields[0] == late):
            return "overdue"
        return None

    def empty(self, neighbour):
        """No route with a neighbour stands any more."""
        self.routes = {key: route for key, route in self.routes.items() if key[3] != neighbour}

    def exchange(self, direction, neighbour, as4, raw):
        """Takes a message."""
        try:
            does = message(as4, raw)
        except Malformed:
            does = "empties"
        if does == "empties":
            self.empty(neighbour)
        elif does != "keeps":
            withdrawn, block, announced = does
            for address, bits in withdrawn:
                self.routes.pop((address, bits, direction, neighbour), None)
            for address, bits in announced:
                self.routes[address, bits, direction, neighbour] = as4, block

    def take(self, time, kind, data):
        """One entry more."""
        fields = content(kind, data)
        self.last = time
        if fields is None:
            return
        if kind in (SEND, RECV):
            neighbour, as4, raw = fields
            if kind == SEND:
                self.sends[neighbour] += 1
            if self.oldest[neighbour] is None:
                self.oldest[neighbour] = time
            self.exchange(1 if kind == SEND else 0, neighbour, as4, raw)
        elif kind == STATE and fields[2] != ESTABLISHED:
            self.empty(fields[0])
        elif kind == ACK:
            self.acked[fields[0]] = fields[1]
        elif kind == COMMIT:
            self.commits += 1
            if fields[0] != logs.AUDITOR:
                self.oldest[fields[0]] = None
        elif kind == PROMISE:
            self.in_force = fields


def wrong_entries(files, entries, begin, end):
    """The numbers and causes of the wrong entries of a whole log with a time in the period."""
    known, found = Known(), []
    for seq, (time, kind, data) in enumerate(entries, 1):
        cause = known.cause(files, seq, time, kind, data) if begin <= time <= end else None
        if cause:
            found.append((seq, cause))
        known.take(time, kind, data)
    return found
