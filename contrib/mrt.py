"""MRT records of BGP sessions (RFC 6396, RFC 8050), and what the programs of this folder have in common.

A program reads all of its input, makes records, and writes them in order of time. What it leaves out or changes it
tells on standard error, each kind with its count (`Notes`); input that it can't read ends it with one line and status 1
(`Unreadable`, `run`).
"""

import dataclasses
import ipaddress
import struct
import sys

BGP4MP, BGP4MP_ET = 16, 17
STATE_CHANGE, MESSAGE, MESSAGE_AS4, STATE_CHANGE_AS4, MESSAGE_LOCAL, MESSAGE_AS4_LOCAL = 0, 1, 4, 5, 6, 7
MESSAGE_ADDPATH, MESSAGE_AS4_ADDPATH, MESSAGE_LOCAL_ADDPATH, MESSAGE_AS4_LOCAL_ADDPATH = 8, 9, 10, 11
STATES = (STATE_CHANGE, STATE_CHANGE_AS4)
SENT = (MESSAGE_LOCAL, MESSAGE_AS4_LOCAL, MESSAGE_LOCAL_ADDPATH, MESSAGE_AS4_LOCAL_ADDPATH)
WIDE = (STATE_CHANGE_AS4, MESSAGE_AS4, MESSAGE_AS4_LOCAL, MESSAGE_AS4_ADDPATH, MESSAGE_AS4_LOCAL_ADDPATH)
ADD_PATH = (MESSAGE_ADDPATH, MESSAGE_AS4_ADDPATH, MESSAGE_LOCAL_ADDPATH, MESSAGE_AS4_LOCAL_ADDPATH)
SUBTYPES = (*STATES, MESSAGE, MESSAGE_AS4, MESSAGE_LOCAL, MESSAGE_AS4_LOCAL, *ADD_PATH)

# The types that MRT has or had: a record of another type is no record.
TYPES = (*range(14), BGP4MP, BGP4MP_ET, 32, 33, 48, 49)

IDLE, OPEN_CONFIRM, ESTABLISHED = 1, 5, 6
AS_TRANS = 23456
NO_ADDRESS = bytes(4)
SECOND = 1_000_000


class Unreadable(Exception):
    """Input that can't be read, with the line that says why."""


# ---- records

@dataclasses.dataclass
class Record:
    """A record of a session over IPv4 or IPv6: a message, or a change of state. The time is in microseconds."""

    time: int
    subtype: int
    peer_as: int
    own_as: int
    peer: bytes
    own: bytes
    rest: bytes
    interface: int = 0
    kind: int = BGP4MP_ET

    @property
    def is_state(self):
        """Whether it is a change of state."""
        return self.subtype in STATES

    @property
    def is_sent(self):
        """Whether it is a message that was sent."""
        return self.subtype in SENT

    @property
    def states(self):
        """The old and the new state of a change of state."""
        return struct.unpack(">HH", self.rest[:4])

    @property
    def message_type(self):
        """The type of a message, or None where it is too short to have one."""
        return None if self.is_state or len(self.rest) < 19 else self.rest[18]

    def encode(self):
        """The record's bytes."""
        wide = self.subtype in WIDE
        body = struct.pack(">II" if wide else ">HH", self.peer_as, self.own_as)
        body += struct.pack(">HH", self.interface, 1 if len(self.peer) == 4 else 2) + self.peer + self.own + self.rest
        second, micros = divmod(self.time, SECOND)
        if self.kind == BGP4MP_ET:
            body = struct.pack(">I", micros) + body
        return header(second, self.kind, self.subtype, len(body)) + body


@dataclasses.dataclass
class Other:
    """A record that is none of a session, with all of its bytes but those of its time."""

    time: int
    data: bytes

    def encode(self):
        """The record's bytes."""
        return struct.pack(">I", self.time // SECOND) + self.data


def header(second, kind, subtype, size):
    """The header of a record."""
    return struct.pack(">IHHI", second, kind, subtype, size)


def message(time, sent, wide, raw, peer_as, own_as, peer, own, add_path=False):
    """A record of a message. AS numbers that don't fit in a session's two bytes are written as AS_TRANS."""
    subtype = {(False, False): MESSAGE, (False, True): MESSAGE_AS4,
               (True, False): MESSAGE_LOCAL, (True, True): MESSAGE_AS4_LOCAL}[sent, wide]
    if add_path:
        subtype = {MESSAGE: MESSAGE_ADDPATH, MESSAGE_AS4: MESSAGE_AS4_ADDPATH, MESSAGE_LOCAL: MESSAGE_LOCAL_ADDPATH,
                   MESSAGE_AS4_LOCAL: MESSAGE_AS4_LOCAL_ADDPATH}[subtype]
    return Record(time, subtype, fitting(peer_as, wide), fitting(own_as, wide), peer, own, raw)


def state(time, old, new, wide, peer_as, own_as, peer, own):
    """A record of a change of state."""
    subtype = STATE_CHANGE_AS4 if wide else STATE_CHANGE
    return Record(time, subtype, fitting(peer_as, wide), fitting(own_as, wide), peer, own, struct.pack(">HH", old, new))


def fitting(asn, wide):
    """An AS number as a record of two or four bytes has it."""
    return asn if wide or asn < 1 << 16 else AS_TRANS


def read_records(data, notes, name="the file"):
    """The records of a file in their order. What is behind the last whole one is left out, and told."""
    found, at = [], 0
    while at < len(data):
        if len(data) - at < 12:
            break
        second, kind, subtype, size = struct.unpack_from(">IHHI", data, at)
        if kind not in TYPES:
            raise Unreadable(f"{name}: no MRT record begins at byte {at}")
        if len(data) - at - 12 < size:
            break
        found.append(record_of(second, kind, subtype, data[at + 12:at + 12 + size], f"{name}: the record at byte {at}"))
        at += 12 + size
    if at < len(data):
        if not found:
            raise Unreadable(f"{name}: no whole MRT record")
        notes.left_out("bytes behind the last whole record of a file", len(data) - at)
    return found


def record_of(second, kind, subtype, body, name):
    """The record with this body. A state that is too short for two addresses and two states counts as none of a
    session: FRR writes such when it stops."""
    whole = struct.pack(">HHI", kind, subtype, len(body)) + body
    if kind not in (BGP4MP, BGP4MP_ET) or subtype not in SUBTYPES:
        return Other(second * SECOND, whole)
    try:
        micros = 0
        if kind == BGP4MP_ET:
            micros, body = int.from_bytes(body[:4], "big"), body[4:]
        width = 4 if subtype in WIDE else 2
        if subtype in STATES and len(body) < 2 * width + 16:
            return Other(second * SECOND + micros, whole)
        peer_as, own_as, interface, family = struct.unpack_from(">IIHH" if width == 4 else ">HHHH", body)
        size = {1: 4, 2: 16}[family]
        at = 2 * width + 4
        peer, own, rest = body[at:at + size], body[at + size:at + 2 * size], body[at + 2 * size:]
        if len(own) < size:
            raise Unreadable(f"{name} is too short for its fields")
    except struct.error:
        raise Unreadable(f"{name} is too short for its fields") from None
    except KeyError:
        return Other(second * SECOND + micros, whole)
    return Record(second * SECOND + micros, subtype, peer_as, own_as, peer, own, rest, interface, kind)


def forward(records, notes):
    """Gives each record that is older than one before it the time of that one, so that times never run back."""
    last = 0
    for record in records:
        if record.time < last:
            notes.changed("records older than one before them have its time")
            record.time = last
        last = record.time
    return records


# ---- addresses and times of the words

def address(word):
    """An IPv4 address of the words, as its bytes."""
    return ipaddress.IPv4Address(word).packed


def shown(packed):
    """An address as it is printed."""
    return str(ipaddress.ip_address(packed))


# ---- what a program tells

class Notes:
    """What a program left out, changed or has to say, each kind with its count, in the order of the first of each."""

    def __init__(self):
        self.counts = {}

    def left_out(self, what, count=1):
        """So much was left out."""
        self.add("left out", what, count)

    def changed(self, what, count=1):
        """So much was changed."""
        self.add("changed", what, count)

    def note(self, what, count=1):
        """Something to know, so often."""
        self.add("note", what, count)

    def add(self, kind, what, count):
        """Counts one kind of thing."""
        if count:
            self.counts[kind, what] = self.counts.get((kind, what), 0) + count

    def lines(self):
        """A line for each kind."""
        return [f"{kind} {count}: {what}" for (kind, what), count in self.counts.items()]


def summary(records):
    """How many records of each kind are written."""
    sessions = [record for record in records if isinstance(record, Record)]
    states = sum(record.is_state for record in sessions)
    sent = sum(record.is_sent for record in sessions)
    others = len(records) - len(sessions)
    return (f"wrote {len(records)} records: {len(sessions) - states - sent} received, {sent} sent, {states} states"
            + (f", {others} others" if others else ""))


# ---- running

def add_files(parser, *names):
    """The words that all programs have: the files to read, where they aren't options, and the one to write."""
    for name in names:
        parser.add_argument("files", metavar=name, nargs="+",
                            help=f"{name} to read, in this order; - is standard input")
    parser.add_argument("--out", metavar="FILE", default="-", help="the MRT file to write (default: standard output)")


def read_file(name):
    """The bytes of a file, or of standard input."""
    if name == "-":
        return sys.stdin.buffer.read()
    with open(name, "rb") as file:
        return file.read()


def write_file(name, records):
    """Writes records to a file, or to standard output."""
    write_bytes(name, b"".join(record.encode() for record in records))


def write_bytes(name, data):
    """Writes a file, or to standard output."""
    if name == "-":
        sys.stdout.buffer.write(data)
        sys.stdout.buffer.flush()
        return
    with open(name, "wb") as file:
        file.write(data)


def run(parser, convert, words=None):
    """Reads the words, writes the records that `convert` makes of the arguments, tells, and gives the status."""
    arguments, notes = parser.parse_args(words), Notes()
    try:
        records = convert(arguments, notes)
        write_file(arguments.out, records)
    except (Unreadable, OSError) as fault:
        tell(parser, [str(fault)])
        return 1
    tell(parser, [*notes.lines(), summary(records)])
    return 0


def tell(parser, lines):
    """Prints lines to standard error."""
    for line in lines:
        print(f"{parser.prog}: {line}", file=sys.stderr)
