"""What `timeline` reads: the canonical text of a promise file, the lines of an audit, and the times of an answer."""

import dataclasses
import re
import struct

from mrt import Unreadable

NAME, NUMBER = r"[A-Za-z][A-Za-z0-9_]*", r"(?:0|[1-9][0-9]{0,19})"
PREFIX = r"[0-9]{1,3}(?:\.[0-9]{1,3}){3}/[0-9]{1,2}"
NETWORK = re.compile(rf"network ({NUMBER});")
PROMISE = re.compile(rf"promise ({NAME}) grace ({NUMBER})(?: at ({PREFIX}(?:, {PREFIX})*))? \{{ (.+) \}}")
OTHERS = re.compile(rf"commit {NUMBER};|(?:neighbour {NAME} as |group {NAME} = |define {NAME} = ).+;")
CONFLICT = re.compile(rf"conflict ({NUMBER}) ({NUMBER}) ([0-9a-f]{{64}})")
WRONG = re.compile(rf"wrong ({NUMBER}) ([a-z]+)")
BROKEN = re.compile(rf"broken ({NAME}) ({PREFIX}) ({NUMBER}) ({NUMBER})")
UNJUDGED = ("usage", "malformed", "read", "write", "memory", "refused")

# What an entry with each cause shows (docs/causes.md), in the order of the causes.
CAUSES = {
    "content": "of an unknown kind, or its bytes aren't the content of its kind",
    "first": "the log begins with something else than a promise",
    "neighbour": "it names a neighbour that the promise in force doesn't declare",
    "ack": "it says that fewer messages were seen than before, or more than were sent",
    "leaf": "it names another leaf of the key than the next one",
    "checkpoint": "its digest isn't that of the routes and counts before it",
    "numbers": "it promises a text again with other numbers than before",
    "overdue": "a neighbour should have had its signed head before this entry",
}


@dataclasses.dataclass(frozen=True)
class Promise:
    """A promise of a file, with its grace in seconds."""

    name: str
    grace: int
    at: str
    formula: str


@dataclasses.dataclass(frozen=True)
class Run:
    """A run of time in which a promise was broken at a prefix. Times are in microseconds."""

    promise: str
    prefix: str
    begin: int
    end: int

    @property
    def length(self):
        """How long it lasted."""
        return self.end - self.begin


@dataclasses.dataclass(frozen=True)
class Conflict:
    """A signed statement that the answer contradicts."""

    seq: int
    time: int
    value: str


@dataclasses.dataclass(frozen=True)
class Wrong:
    """A wrong entry, with its time where an answer gives it."""

    seq: int
    cause: str
    time: int = None


@dataclasses.dataclass
class Report:
    """What an audit of a network found over a period, with the promises that it was held to."""

    network: int
    promises: list
    period: tuple
    runs: list
    conflicts: list
    wrong: list

    @property
    def timed(self):
        """Whether the times of the wrong entries are known."""
        return all(entry.time is not None for entry in self.wrong)


def lines_of(data, name):
    """The lines of a file, each of printable ASCII and with a line feed behind it."""
    if not data:
        raise Unreadable(f"{name}: it is empty")
    if not data.endswith(b"\n"):
        raise Unreadable(f"{name}: its last line isn't whole")
    found = []
    for number, line in enumerate(data[:-1].split(b"\n"), 1):
        if not all(32 <= byte < 127 for byte in line):
            raise Unreadable(f"{name}: line {number} has a byte that is no printable ASCII")
        found.append(line.decode("ascii"))
    return found


def cut(line):
    """The beginning of a line, to be shown."""
    return repr(line if len(line) <= 60 else line[:60] + "..")


# ---- promises

def read_promises(data, name):
    """The network and the promises of a canonical text."""
    networks, found = [], []
    for number, line in enumerate(lines_of(data, name), 1):
        network, promise = NETWORK.fullmatch(line), PROMISE.fullmatch(line)
        if network:
            networks.append(int(network[1]))
        elif promise:
            found.append(Promise(promise[1], int(promise[2]), promise[3] or "", promise[4]))
        elif not OTHERS.fullmatch(line):
            raise Unreadable(f"{name}: line {number} is none of a canonical text, which `netreview check` prints: "
                             + cut(line))
    if len(networks) != 1 or len({promise.name for promise in found}) != len(found):
        raise Unreadable(f"{name}: no canonical text has so many networks, or two promises of one name")
    return networks[0], found


# ---- the lines of an audit

def read_report(data, name, promised, period):
    """The report with these lines, of an audit by these promises over this period."""
    report = Report(*promised, period, [], [], [])
    lines = lines_of(data, name)
    if lines == ["clean"]:
        return report
    names = {promise.name for promise in report.promises}
    for number, line in enumerate(lines, 1):
        add_line(report, names, line, f"{name}: line {number}")
    return report


def add_line(report, names, line, place):
    """Takes a line into a report."""
    if line.split(" ")[0] in UNJUDGED:
        raise Unreadable(f"{place}: the audit judged nothing: {cut(line)}")
    conflict, wrong, broken = CONFLICT.fullmatch(line), WRONG.fullmatch(line), BROKEN.fullmatch(line)
    if conflict:
        found = Conflict(int(conflict[1]), int(conflict[2]), conflict[3])
        within(report.period, found.time, found.time, place)
        report.conflicts.append(found)
    elif wrong and wrong[2] in CAUSES:
        report.wrong.append(Wrong(int(wrong[1]), wrong[2]))
    elif broken and is_prefix(broken[2]):
        if broken[1] not in names:
            raise Unreadable(f"{place}: the promise file has no promise {broken[1]}")
        found = Run(broken[1], broken[2], int(broken[3]), int(broken[4]))
        within(report.period, found.begin, found.end, place)
        report.runs.append(found)
    else:
        raise Unreadable(f"{place} is none of a report: {cut(line)}")


def within(period, begin, end, place):
    """Refuses times that don't lie in the period of the audit."""
    if not period[0] <= begin <= end <= period[1]:
        raise Unreadable(f"{place}: its time isn't in the period, which is that of the audit's --from and --to")


def is_prefix(word):
    """Whether an address with four parts and a length is a prefix."""
    address, length = word.split("/")
    return int(length) <= 32 and all(int(part) <= 255 for part in address.split("."))


# ---- the times of an answer

def with_times(report, data, name):
    """Gives the wrong entries the times that the entries of an answer have."""
    asn, times = read_times(data, name)
    if asn != report.network:
        raise Unreadable(f"{name}: it is the answer of AS {asn}, and the promises are those of AS {report.network}")
    timed = []
    for entry in report.wrong:
        if not 1 <= entry.seq <= len(times):
            raise Unreadable(f"{name}: it has no entry {entry.seq}, which the report says is wrong")
        within(report.period, times[entry.seq - 1], times[entry.seq - 1], f"{name}: entry {entry.seq}")
        timed.append(dataclasses.replace(entry, time=times[entry.seq - 1]))
    report.wrong = timed


def read_times(data, name):
    """The AS of a whole answer, and the times of its entries (docs/formats.md)."""
    try:
        magic, asn, first, flag, count = struct.unpack_from(">4sIQ32xBI", data)
        if (magic, first, flag) != (b"NRA1", 1, 0):
            raise Unreadable(f"{name}: it isn't the answer of a whole log")
        times, at = [], struct.calcsize(">4sIQ32xBI")
        for _ in range(count):
            time, size = struct.unpack_from(">QxH", data, at)
            times.append(time)
            at += 11 + size
    except struct.error:
        raise Unreadable(f"{name}: it ends within its entries") from None
    if at > len(data):
        raise Unreadable(f"{name}: it ends within its entries")
    return asn, times
