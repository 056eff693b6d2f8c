"""What `netreview record` appends for MRT files, computed apart from the program.

This is written from docs/formats.md, docs/causes.md and docs/recording.md, and shares nothing with the crates: MRT
records (RFC 6396) are written and read here, merged, cut into turns and put through the recorder's rules one after
another, over the counts and routes of history.py. It is slow, and keeps every record in memory.
"""

import struct

import history
import logs

BGP4MP, BGP4MP_ET = 16, 17
STATE_CHANGE, MESSAGE, MESSAGE_AS4, STATE_CHANGE_AS4, MESSAGE_LOCAL, MESSAGE_AS4_LOCAL = 0, 1, 4, 5, 6, 7
STATES = (STATE_CHANGE, STATE_CHANGE_AS4)
SENT = (MESSAGE_LOCAL, MESSAGE_AS4_LOCAL)
WIDE = (MESSAGE_AS4, STATE_CHANGE_AS4, MESSAGE_AS4_LOCAL)
READ = (*STATES, *SENT, MESSAGE, MESSAGE_AS4)
TURN = 1024
MOST_RAW = 65_532
BEGIN, CLOSE = "begin", "close"


class Malformed(Exception):
    """A file isn't whole records; the offset of its first malformed field."""


class Spent(Exception):
    """The key has no leaf for a COMMIT: how many there were before it, and how many leaves the key has."""


# ---- MRT files

def record(second, kind, subtype, body):
    """A record."""
    return struct.pack(">IHHI", second, kind, subtype, len(body)) + body


def session(subtype, peer_as, peer, rest, own_as=64500, family=1):
    """The body of a record of a session, but for the microseconds. `rest` is the message, or the two states."""
    front = struct.pack(">II" if subtype in WIDE else ">HH", peer_as, own_as)
    addresses = struct.pack(">II", peer, 0xC0000201) if family == 1 else bytes(32)
    return front + struct.pack(">HH", 0, family) + addresses + rest


def exchanged(second, subtype, peer_as, peer, rest, micros=None):
    """A record of a session over IPv4, with microseconds where they are given."""
    body = session(subtype, peer_as, peer, rest)
    if micros is None:
        return record(second, BGP4MP, subtype, body)
    return record(second, BGP4MP_ET, subtype, struct.pack(">I", micros) + body)


class Reader:
    """Fields of some bytes, one behind another."""

    def __init__(self, data, at, end):
        self.data, self.at, self.end = data, at, end

    def take(self, size):
        """So many bytes; a fault at the first of them where they aren't all there."""
        if self.end - self.at < size:
            raise Malformed(self.at)
        self.at += size
        return self.data[self.at - size:self.at]

    def number(self, size):
        """A number of so many bytes."""
        return int.from_bytes(self.take(size), "big")


def read(data):
    """What each record of a file holds: its time, the peer's AS and address, the subtype, and the message or the two
    states; None for a record that is skipped."""
    found, reader = [], Reader(data, 0, len(data))
    while reader.at < reader.end:
        second, kind, subtype, size = reader.number(4), reader.number(2), reader.number(2), reader.number(4)
        start = reader.at
        reader.take(size)
        body = Reader(data, start, start + size)
        if kind not in (BGP4MP, BGP4MP_ET) or subtype not in READ:
            found.append(None)
            continue
        time = second * 1_000_000 + (body.number(4) if kind == BGP4MP_ET else 0)
        wide = 4 if subtype in WIDE else 2
        peer_as, _, _, family = body.number(wide), body.number(wide), body.number(2), body.number(2)
        if family != 1:
            found.append(None)
            continue
        peer, _ = body.number(4), body.number(4)
        rest = (body.number(2), body.number(2)) if subtype in STATES else body.take(body.end - body.at)
        found.append((time, peer_as, peer, subtype, rest))
    return found


# ---- events

def kept(neighbours, items):
    """The events of the records that are of a neighbour, each as its time, kind and content, and how many records
    aren't. `neighbours` are pairs of an AS and an address."""
    found = []
    for item in items:
        if item is None or item[1:3] not in neighbours:
            continue
        time, peer_as, peer, subtype, rest = item
        neighbour = neighbours.index((peer_as, peer))
        if subtype in STATES:
            found.append((time, history.STATE, struct.pack(">HHH", neighbour, *rest)))
        else:
            kind = history.SEND if subtype in SENT else history.RECV
            found.append((time, kind, struct.pack(">HB", neighbour, subtype in WIDE) + rest))
    return found, len(items) - len(found)


def merged(files):
    """All events: again and again the next with the least time, on a tie that of the earlier file. With each stands the
    number of its file, from 0."""
    places = [0] * len(files)
    found = []
    while True:
        times = [(events[at][0], number) for number, (events, at) in enumerate(zip(files, places)) if at < len(events)]
        if not times:
            return found
        number = min(times)[1]
        found.append((number, files[number][places[number]]))
        places[number] += 1


def too_long(events):
    """The length of the first message that no entry has room for."""
    lengths = (len(content) - 3 for _, kind, content in events if kind in (history.SEND, history.RECV))
    return next((length for length in lengths if length > MOST_RAW), None)


def turns(events, until):
    """The turns of a recording of these events."""
    end = until or 0
    all_of_them = [(events[0][0] if events else end, BEGIN, None), *events, (end, CLOSE, None)]
    return [all_of_them[at:at + TURN] for at in range(0, len(all_of_them), TURN)]


# ---- the recorder

class Recorder:
    """A recorder with a log: the numbers of its promise file, and how many leaves its key has."""

    def __init__(self, numbers, leaves, entries):
        self.numbers, self.leaves = numbers, leaves
        self.known = history.Known()
        self.batch = []
        for entry in entries:
            self.known.take(*entry)

    def add(self, time, kind, content):
        """One entry more of the batch."""
        self.batch.append((time, kind, content))
        self.known.take(time, kind, content)

    def commit(self, time, neighbour):
        """A COMMIT with the next leaf."""
        if self.known.commits >= self.leaves:
            raise Spent(self.known.commits, self.leaves)
        self.add(time, history.COMMIT, logs.commit(neighbour, self.known.commits))

    def step(self, time, kind, content):
        """What is appended for an event."""
        if kind == BEGIN:
            if self.known.in_force is not None and self.known.in_force[0] == self.numbers[0]:
                return
            digest, count, delay = self.numbers
            kind, content = history.PROMISE, digest + struct.pack(">HI", count, delay)
        now = max(self.known.last, time)
        while self.known.overdue(now) is not None:
            self.commit(now, self.known.overdue(now))
        if kind != CLOSE:
            self.add(now, kind, content)
            return
        for neighbour in range(self.known.in_force[1]):
            if self.known.oldest[neighbour] is not None:
                self.commit(now, neighbour)
        self.add(now, history.CHECKPOINT, logs.sha256(self.known.body()))
        self.commit(now, logs.AUDITOR)

    def turn(self, events):
        """The batch of a turn. After `Spent` this recorder is of no use."""
        self.batch = []
        for event in events:
            self.step(*event)
        return self.batch


# ---- log files

def born(asn, root):
    """The file of a log without entries."""
    return b"\1NRLOG1" + struct.pack(">I", asn) + root + b"\0"


def appended(log, batch):
    """A log's file with a batch behind what it has."""
    entries = b"".join(logs.entry(*entry) for entry in batch)
    assert log[-1:] == b"\0" and entries
    return log[:-1] + b"\1" + struct.pack(">I", len(entries)) + entries + b"\0"


def entries_of(log):
    """The entries of a log's file, batch by batch."""
    batches, at = [], 43
    while log[at] == 1:
        end = at + 5 + int.from_bytes(log[at + 1:at + 5], "big")
        at += 5
        batches.append([])
        while at < end:
            time, kind, size = struct.unpack(">QBH", log[at:at + 11])
            batches[-1].append((time, kind, log[at + 11:at + 11 + size]))
            at += 11 + size
    return batches
