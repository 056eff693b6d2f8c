"""What an audit finds, the evidence that it writes, and what a verifier says of evidence, computed apart from the program.

This is written from docs/formats.md, docs/causes.md, docs/promises.md and docs/evidence.md, and shares nothing with the
crates: expected values of tests come from it. It finds all that an audit finds over the whole period, and looks each
claim up there; a verifier that walks for each claim has to say the same. A promise text is taken as one without mistakes.
"""

import collections
import functools
import re
import struct

import history
import judging
import keys
import logs
from recording import Malformed, Reader

CONFLICT, WRONG, BROKEN = 1, 2, 3
CAUSES = ("content", "first", "neighbour", "ack", "leaf", "checkpoint", "numbers", "overdue")
MOST_ANSWER, MOST_PROMISE, MOST_BODY = 2_147_483_647, 1_048_576, 536_870_912
MOST_EVIDENCE = 3_221_225_472

# An authenticator: its fields, and its bytes.
Auth = collections.namedtuple("Auth", "asn seq time value signature whole")
# An answer: its entries are those from `first` on, and `prev` is the chain value before them.
Answer = collections.namedtuple("Answer", "asn first prev entries head")
# A claim is a tuple of its tag and its fields: an authenticator's bytes; the number of an entry and of a cause; the number
# of a promise, a prefix as its address and length, and two times.
Evidence = collections.namedtuple("Evidence", "answer promise begin end claims")


class Refused(Exception):
    """A fact refuses an audit of the answer; the words behind `refused`."""


# ---- reading

def ranged(reader, size, is_fine):
    """A number of so many bytes; a fault at it where it isn't fine."""
    at = reader.at
    number = reader.number(size)
    if not is_fine(number):
        raise Malformed(at)
    return number


def magic(reader, wanted):
    """The bytes with which a file begins."""
    if reader.take(len(wanted)) != wanted:
        raise Malformed(reader.at - len(wanted))


def ended(reader):
    """Nothing stands behind the last field."""
    if reader.at != reader.end:
        raise Malformed(reader.at)


def is_any(_number):
    """Any number is fine."""
    return True


def read_auth(reader, asn=is_any, seq=is_any, time=is_any):
    """An authenticator whose fields are fine."""
    start = reader.at
    fields = [ranged(reader, 4, asn), ranged(reader, 8, seq), ranged(reader, 8, time), reader.take(32)]
    signature = reader.at
    leaf = reader.number(4)
    height = ranged(reader, 1, lambda it: 1 <= it <= 16 and leaf < 2 ** it)
    reader.take(16_384)
    reader.take(32 * height)
    return Auth(*fields, reader.data[signature:reader.at], reader.data[start:reader.at])


def read_auths(data):
    """The authenticators of a file."""
    reader, found = Reader(data, 0, len(data)), []
    magic(reader, b"NRT1")
    while reader.at < reader.end:
        found.append(read_auth(reader))
    return found


def read_entries(reader, first, count):
    """The entries of an answer from this number on."""
    found, last = [], 0
    for number in range(count):
        opens = number == 0 and first > 1
        last = ranged(reader, 8, lambda it, last=last: it >= last)
        kind = ranged(reader, 1, lambda it, opens=opens: it == history.CHECKPOINT or not opens)
        size = ranged(reader, 2, lambda it, opens=opens: it == 32 or not opens)
        found.append((last, kind, reader.take(size)))
    return found


def read_answer(data):
    """An answer file. What stands inside a body isn't read."""
    reader = Reader(data, 0, len(data))
    magic(reader, b"NRA1")
    asn = reader.number(4)
    first = ranged(reader, 8, lambda it: 1 <= it <= 2 ** 62)
    prev = reader.take(32)
    if first == 1 and prev != logs.genesis(asn):
        raise Malformed(reader.at - 32)
    if ranged(reader, 1, lambda it: it == (first > 1)):
        reader.take(ranged(reader, 4, lambda it: it <= MOST_BODY))
    count = ranged(reader, 4, lambda it: it >= 1)
    entries = read_entries(reader, first, count)
    head = read_auth(reader, lambda it: it == asn, lambda it: it == first + count - 1, lambda it: it == entries[-1][0])
    ended(reader)
    return Answer(asn, first, prev, entries, head)


def read_claim(reader):
    """A claim."""
    tag = ranged(reader, 1, lambda it: it in (CONFLICT, WRONG, BROKEN))
    if tag == CONFLICT:
        return tag, read_auth(reader).whole
    if tag == WRONG:
        return tag, reader.number(8), ranged(reader, 1, lambda it: 1 <= it <= len(CAUSES))
    promise = reader.number(2)
    bits = ranged(reader, 1, lambda it: it <= 32)
    address = ranged(reader, 4, lambda it: it % 2 ** (32 - bits) == 0)
    return tag, promise, (address, bits), reader.number(8), reader.number(8)


def read_evidence(data):
    """Evidence, without a look inside the answer and the promise text."""
    reader = Reader(data, 0, len(data))
    magic(reader, b"NRE1")
    answer = reader.take(ranged(reader, 4, lambda it: it <= MOST_ANSWER))
    promise = reader.take(ranged(reader, 4, lambda it: it <= MOST_PROMISE))
    begin, end = reader.number(8), reader.number(8)
    claims = [read_claim(reader) for _ in range(reader.number(4))]
    ended(reader)
    return Evidence(answer, promise, begin, end, claims)


# ---- writing

def claim_bytes(claim):
    """A claim as it stands in evidence."""
    tag, *fields = claim
    if tag == CONFLICT:
        return bytes([tag]) + fields[0]
    if tag == WRONG:
        return struct.pack(">BQB", tag, *fields)
    promise, (address, bits), begin, end = fields
    return struct.pack(">BHBIQQ", tag, promise, bits, address, begin, end)


def evidence_bytes(answer, promise, begin, end, claims):
    """An evidence file."""
    return b"".join((b"NRE1", struct.pack(">I", len(answer)), answer, struct.pack(">I", len(promise)), promise,
                     struct.pack(">QQI", begin, end, len(claims)), *(claim_bytes(claim) for claim in claims)))


def answer_place():
    """The offset of the answer."""
    return 8


def promise_place(evidence):
    """The offset of the promise text."""
    return 12 + len(evidence.answer)


def end_place(evidence):
    """The offset of the period's end."""
    return 20 + len(evidence.answer) + len(evidence.promise)


# ---- what an audit finds

def number_behind(word, text):
    """The number that is declared with a word."""
    return int(re.search(rb"\b%s\s+(\d+)" % word, text)[1])


def numbers_of(text):
    """The numbers of a promise file: its digest, its neighbours and its commit delay."""
    return logs.sha256(text), len(judging.File(text.decode()).numbers), number_behind(b"commit", text)


def is_signed(root, auth):
    """Whether an authenticator is signed under a root."""
    return keys.root_from(auth.whole[:52], auth.signature) == root


def values_of(answer):
    """The chain value of each entry."""
    found = [answer.prev]
    for seq, entry in enumerate(answer.entries, answer.first):
        found.append(logs.link(found[-1], seq, *entry))
    return found[1:]


def promised(answer, begin, end):
    """The digests of the promises in force in a period: of the last before it, and of each in it."""
    before, within = [], []
    for time, kind, data in answer.entries:
        fields = history.content(kind, data) if kind == history.PROMISE else None
        if fields is not None and time < begin:
            before = [fields[0]]
        elif fields is not None and time <= end:
            within.append(fields[0])
    return before + within


def check(root, text, answer, begin, end):
    """Refuses an answer of which an audit says nothing."""
    if answer.first != 1:
        raise Refused("form answer")
    wanted = number_behind(b"network", text)
    if answer.asn != wanted:
        raise Refused("network %d %d" % (answer.asn, wanted))
    if not is_signed(root, answer.head):
        raise Refused("head unsigned")
    chain = values_of(answer)[-1]
    if answer.head.value != chain:
        raise Refused("head %s %s" % (answer.head.value.hex(), chain.hex()))
    if answer.head.time <= end:
        raise Refused("short %d %d" % (answer.head.time, end))
    own, digests = logs.sha256(text), promised(answer, begin, end)
    for found in digests or [None]:
        if found != own:
            raise Refused("promise %s %s" % ("none" if found is None else found.hex(), own.hex()))


class Found:
    """What an audit of an answer finds that isn't refused, by a promise file and over a period."""

    def __init__(self, root, text, answer, begin, end):
        check(root, text, answer, begin, end)
        self.root, self.answer, self.begin, self.end = root, answer, begin, end
        self.stated = set(zip(range(1, len(answer.entries) + 1), (time for time, _, _ in answer.entries),
                              values_of(answer)))
        wrong = history.wrong_entries([numbers_of(text)], answer.entries, begin, end)
        self.wrong = [(WRONG, seq, CAUSES.index(cause) + 1) for seq, cause in wrong]
        self.names = [name for name, *_ in judging.File(text.decode()).promises]
        self.broken = [(BROKEN, self.names.index(name), prefix, since, until) for name, prefix, since, until in
                       judging.broken_runs(text.decode(), answer.entries, begin, end)]
        self.entries_and_runs = {*self.wrong, *self.broken}

    def is_conflict(self, auth):
        """Whether an authenticator accuses."""
        return (auth.asn == self.answer.asn and self.begin <= auth.time <= self.end
                and (auth.seq, auth.time, auth.value) not in self.stated and is_signed(self.root, auth))

    def claims(self, auths):
        """The claims of an audit by these authenticators, in order."""
        return [(CONFLICT, auth.whole) for auth in auths if self.is_conflict(auth)] + self.wrong + self.broken

    def is_true(self, claim):
        """Whether a claim is true."""
        if claim[0] == CONFLICT:
            return self.is_conflict(read_auth(Reader(claim[1], 0, len(claim[1]))))
        return claim in self.entries_and_runs

    def line(self, claim):
        """The line of a claim in a report."""
        tag, *fields = claim
        if tag == CONFLICT:
            auth = read_auth(Reader(fields[0], 0, len(fields[0])))
            return "conflict %d %d %s\n" % (auth.seq, auth.time, auth.value.hex())
        if tag == WRONG:
            return "wrong %d %s\n" % (fields[0], CAUSES[fields[1] - 1])
        return "broken %s %s %d %d\n" % (self.names[fields[0]], judging.prefix_text(fields[1]), *fields[2:])


@functools.lru_cache(maxsize=64)
def found_in(root, text, data, begin, end):
    """What an audit of an answer's bytes finds."""
    return Found(root, text, read_answer(data), begin, end)


# ---- endings

def malformed(name, place):
    """The ending of a file that isn't in its format."""
    return 3, "malformed %s %d\n" % (name, place)


def audit(root, text, data, auths, begin, end):
    """The status and the text of an audit, and its claims, or None where it is refused."""
    name = "answer"
    try:
        read_answer(data)
        name = "auths"
        auths = read_auths(auths)
        found = found_in(root, text, data, begin, end)
    except Malformed as fault:
        return (*malformed(name, *fault.args), None)
    except Refused as fact:
        return 7, "refused %s\n" % fact, None
    claims = found.claims(auths)
    return int(bool(claims)), "".join(found.line(claim) for claim in claims) or "clean\n", claims


def verify(root, data, text_fault=None):
    """The status and the text of a verifier. `text_fault` is the place of the first mistake in the promise text, if it has
    any."""
    inside = 0
    try:
        evidence = read_evidence(data)
        inside = answer_place()
        read_answer(evidence.answer)
        inside = 0
        if text_fault is not None:
            raise Malformed(promise_place(evidence) + text_fault)
        if evidence.begin > evidence.end:
            raise Malformed(end_place(evidence))
        found = found_in(root, evidence.promise, evidence.answer, evidence.begin, evidence.end)
    except Malformed as fault:
        return malformed("evidence", inside + fault.args[0])
    except Refused as fact:
        return 7, "refused %s\n" % fact
    truths = [found.is_true(claim) for claim in evidence.claims]
    lines = "".join("accepted\n" if truth else "not accepted\n" for truth in truths)
    return int(not all(truths)), "claims %d\n" % len(truths) + lines
