"""Logs that are real in kind: a day of a network, generated from a number, or one with many mistakes in it.

The network has 8 neighbours and sends and receives UPDATEs of routes with the attributes that such routes have, each of
one prefix. It hands a neighbour a COMMIT within a minute of each first message, takes its ACKs, and writes a CHECKPOINT
every six hours. All of it is deterministic: the same arguments give the same bytes.
"""

import random
import struct

import history
import judging
import logs

AS = 64500
NEIGHBOURS = 8
DELAY = 60
SECOND = 1_000_000
DAY = 86_400 * SECOND
CHECKPOINTS = 6 * 3600 * SECOND
PROMISES = ("network %d;\ncommit %d;\n" % (AS, DELAY) + "".join(
    "neighbour n%d as %d at 192.0.2.%d;\n" % (n, 64501 + n, n + 1) for n in range(NEIGHBOURS))).encode()

# The same neighbours, and promises of each construct of the language.
JUDGED = PROMISES + b"""group some_of_them = n0, n1, n2;
group others = n7;
define low = 0.0.0.0/1 le 16, 128.0.0.0/2 le 8;
promise nothing_to_n1 grace 0 { not sent(n1) }
promise nothing_long grace 20 { sent(n0) or sent(n2) implies bits < 16 }
promise named grace 60 at 10.0.0.0/8, 10.0.0.0/8, 11.0.0.0/16 { received(n0) and bits >= 0 or bits = 16 }
promise by_one grace 0 { all n in some_of_them { sent(n) implies n is n0 or n is n2 } }
promise from_one grace 10 { some n in some_of_them { received(n) } or some n in others { received(n) } }
promise in_low grace 5 { all n in some_of_them { sent(n) implies prefix in low } }
promise short grace 1 { all n in some_of_them { if r = sent(n) then length(r) <= 3 and first(r) != last(r) else true end } }
promise clean grace 30 { if r = received(n0) then not r has 65000:17 and not r has 65000:200 else true end }
promise own_way grace 15 {
  all n in some_of_them { if r = received(n) then if s = sent(n) then first(s) = first(r) else bits <= 8 end else true end }
}
promise crossed grace 0 { if r = sent(n0) then r crosses asn(n0) and not r crosses asn(n2) else true end }
promise valued grace 2 {
  all n in some_of_them { if r = sent(n) then med(r) < 500 and pref(r) = 0 and origin(r) != 2 or hop(r) > 192.0.2.1 else true end }
}
"""


def numbers(text=PROMISES):
    """The numbers of a promise file with these neighbours."""
    return logs.sha256(text), NEIGHBOURS, DELAY


def attribute(flags, kind, value):
    """An attribute of a block."""
    return struct.pack(">BBB", flags, kind, len(value)) + value


def block(dice, neighbour):
    """The attributes of a route: origin, a path of some networks, next hop, perhaps a metric, and some communities."""
    path = [64501 + neighbour] + [dice.randrange(1, 400_000) for _ in range(dice.randrange(5))]
    parts = [attribute(0x40, 1, bytes([dice.choice((0, 0, 0, 2))])),
             attribute(0x40, 2, struct.pack(">BB%dI" % len(path), 2, len(path), *path)),
             attribute(0x40, 3, struct.pack(">I", 0xC0000201 + neighbour))]
    if dice.random() < 0.3:
        parts.append(attribute(0x80, 4, struct.pack(">I", dice.randrange(1000))))
    some = dice.randrange(4)
    if some:
        communities = (65000 << 16 | dice.randrange(300) for _ in range(some))
        parts.append(attribute(0xC0, 8, struct.pack(">%dI" % some, *communities)))
    return b"".join(parts)


def prefix_bytes(address, bits):
    """A prefix as it stands in an UPDATE."""
    return bytes([bits]) + struct.pack(">I", address)[:(bits + 7) // 8]


def update(withdrawn, attributes, announced):
    """An UPDATE."""
    body = struct.pack(">H", len(withdrawn)) + withdrawn + struct.pack(">H", len(attributes)) + attributes + announced
    return b"\xff" * 16 + struct.pack(">HB", 19 + len(body), 2) + body


def exchange(neighbour, raw):
    """The content of a SEND or RECV with AS numbers of four bytes."""
    return struct.pack(">HB", neighbour, 1) + raw


class Day:
    """A log as the recorder's rules want it, of the network of a promise file."""

    def __init__(self, number, text=PROMISES):
        self.dice = random.Random(number)
        self.log = logs.Log(AS)
        self.known = history.Known()
        self.bodies = []
        self.due = {}
        self.next_checkpoint = CHECKPOINTS
        self.add(0, history.PROMISE, logs.promise(text, NEIGHBOURS, DELAY))

    def add(self, time, kind, content):
        """One entry more."""
        self.log.add(time, kind, content)
        self.known.take(time, kind, content)

    def commit(self, time, neighbour):
        """A COMMIT, and the neighbour's ACK of all that was sent to it."""
        self.add(time, history.COMMIT, logs.commit(neighbour, self.known.commits))
        if neighbour != logs.AUDITOR:
            seen = struct.pack(">HQQQ", neighbour, self.known.sends[neighbour], len(self.log.entries), time)
            self.add(time, history.ACK, seen + self.dice.randbytes(64))

    def catch_up(self, time):
        """What is due before a time."""
        while True:
            when, what = min([(due, n) for n, due in self.due.items()] + [(self.next_checkpoint, -1)])
            if when > time:
                return
            if what == -1:
                self.bodies.append(self.known.body())
                self.add(when, history.CHECKPOINT, logs.sha256(self.bodies[-1]))
                self.next_checkpoint += CHECKPOINTS
            else:
                self.commit(when, what)
                del self.due[what]

    def exchange(self, time, kind, neighbour, raw):
        """A message, before which is done what is due."""
        self.catch_up(time)
        self.add(time, kind, exchange(neighbour, raw))
        self.due.setdefault(neighbour, time + self.dice.randrange(DELAY) * SECOND)

    def end(self, time):
        """The head, which is for the auditor."""
        self.catch_up(time)
        self.commit(time, logs.AUDITOR)
        return self


def day(number, messages, standing, text=PROMISES):
    """A day of so many messages, at whose end about so many routes stand."""
    made = Day(number, text)
    dice = made.dice
    keys = set()
    while len(keys) < standing * 6 // 5:
        bits = dice.choice((16, 19, 20, 22, 23, 24, 24, 24, 24))
        address = dice.randrange(1 << 24, 224 << 24) >> (32 - bits) << (32 - bits)
        keys.add((address, bits, dice.choice((history.SEND, history.RECV)), dice.randrange(NEIGHBOURS)))
    keys = sorted(keys)
    dice.shuffle(keys)
    times = sorted(dice.randrange(SECOND, DAY) for _ in range(messages))
    for number, time in enumerate(times):
        # Each route is announced once at first; then routes change, and a sixth of what is said is that one goes.
        address, bits, kind, neighbour = keys[number] if number < len(keys) else dice.choice(keys)
        named = prefix_bytes(address, bits)
        if number >= len(keys) and dice.random() < 0.17:
            raw = update(named, b"", b"")
        else:
            raw = update(b"", block(dice, neighbour), named)
        made.exchange(time, kind, neighbour, raw)
    return made.end(DAY)


def broken(number, count, text=PROMISES):
    """A log of so many entries after its first, each of a kind, a neighbour and a content that may be a mistake. Its
    promises are those of a text."""
    dice = random.Random(number)
    log = logs.Log(AS)
    known = history.Known()
    time = 0

    def add(kind, content):
        log.add(time, kind, content)
        known.take(time, kind, content)

    if dice.random() < 0.9:
        add(history.PROMISE, logs.promise(text, NEIGHBOURS, DELAY))
    addresses = [dice.randrange(1 << 24, 224 << 24) >> 16 << 16 for _ in range(6)]
    for _ in range(count):
        time += dice.choice((0, 0, 1, SECOND, 10 * SECOND, 25 * SECOND))
        kind = dice.choice((1, 1, 1, 2, 2, 2, 3, 4, 4, 5, 5, 5, 5, 6, 7, 8))
        neighbour = dice.choice((0, 1, 2, 7, 8, 255, 256))
        late = known.overdue(time)
        if late is not None and dice.random() < 0.7:
            kind, neighbour = 5, late
        if kind in (1, 2):
            named = prefix_bytes(dice.choice(addresses), dice.choice((8, 16)))
            raw = dice.choice((
                update(named, b"", b""), update(b"", block(dice, 0), named), update(b"", block(dice, 1), named * 2),
                update(named, block(dice, 2), named), update(b"", block(dice, 2)[4:], named),
                update(named, b"", b"")[:-1],
                b"\xff" * 16 + b"\0\x13\4", b"\xff" * 16 + b"\0\x14\4\0", b"\xff" * 16 + b"\0\x15\3\6\2"))
            add(kind, struct.pack(">HB", neighbour, dice.choice((0, 1, 1, 1, 1, 1, 1, 1, 2))) + raw)
        elif kind == 3:
            add(kind, struct.pack(">HHH", neighbour, dice.choice((1, 6)), dice.choice((1, 6, 6, 6))))
        elif kind == 4:
            sent, acked = (known.sends[neighbour], known.acked[neighbour]) if neighbour < 256 else (0, 0)
            upto = dice.choice((acked, sent, sent, sent + 1, max(acked, 1) - 1))
            add(kind, struct.pack(">HQQQ", neighbour, upto, 1, time) + dice.randbytes(64))
        elif kind == 5:
            to = dice.choice((neighbour, neighbour, logs.AUDITOR)) if late is None else neighbour
            add(kind, logs.commit(to, known.commits + dice.choice((0, 0, 0, 0, 0, 1))))
        elif kind == 6:
            add(kind, logs.sha256(known.body() + dice.choice((b"", b"", b"\0"))))
        elif kind == 7:
            digest, names, delay = numbers(text)
            add(kind, digest + struct.pack(">HI", dice.choice((names, names, 2)), dice.choice((delay, delay, 20))))
        else:
            add(kind, b"")
    time += SECOND
    add(history.COMMIT, logs.commit(logs.AUDITOR, known.commits))
    return log


def report(log, begin, end, text=PROMISES):
    """The lines of wrong entries and of broken promises that an audit of a log prints."""
    wrong = history.wrong_entries([numbers(text)], log.entries, begin, end)
    return "".join("wrong %d %s\n" % found for found in wrong) + judging.report(text.decode(), log.entries, begin, end)
