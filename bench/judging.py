"""Which promises a log breaks, computed apart from the program.

This is written from docs/promises.md and docs/formats.md, and shares nothing with the crates: expected values of tests
come from it. It judges each prefix that stands at each moment, and keeps what it found only by the routes of a prefix.
"""

import re
import struct

import history

SECOND = 1_000_000
RECEIVED, SENT = 0, 1
AS_SET, AS_SEQUENCE = 1, 2

TOKEN = re.compile(r"""(?:[ \t\r\n]|//[^\n]*)*(?:
    (?P<prefix>\d+\.\d+\.\d+\.\d+/\d+) | (?P<address>\d+\.\d+\.\d+\.\d+) | (?P<community>\d+:\d+) | (?P<number>\d+)
    | (?P<root>\#[0-9a-fA-F]{64}) | (?P<word>[A-Za-z][A-Za-z0-9_]*) | (?P<sign><=|>=|!=|[;,{}()=<>]) | (?P<end>\Z))""",
                   re.VERBOSE)

COMPARES = {
    "=": lambda a, b: a == b, "!=": lambda a, b: a != b, "<": lambda a, b: a < b,
    "<=": lambda a, b: a <= b, ">": lambda a, b: a > b, ">=": lambda a, b: a >= b,
}


def address_of(text):
    """The number of 32 bits that an address is."""
    return int.from_bytes(bytes(int(part) for part in text.split(".")), "big")


def prefix_of(text):
    """The address and the length of a prefix."""
    address, bits = text.split("/")
    return address_of(address) >> (32 - int(bits)) << (32 - int(bits)), int(bits)


def prefix_text(prefix):
    """The text of a prefix."""
    return "%d.%d.%d.%d/%d" % (*prefix[0].to_bytes(4, "big"), prefix[1])


# ---- routes

class Route:
    """What a route's attributes say. One that stands twice counts as it stands first."""

    def __init__(self, as4, block):
        values, at = {}, 0
        while at < len(block):
            wide = 2 if block[at] & 0x10 else 1
            size = int.from_bytes(block[at + 2:at + 2 + wide], "big")
            values.setdefault(block[at + 1], block[at + 2 + wide:at + 2 + wide + size])
            at += 2 + wide + size
        self.parts = list(self.segments(values[2], 4 if as4 else 2))
        self.origin = values[1][0]
        self.hop, self.med, self.pref = (int.from_bytes(values.get(kind, b""), "big") for kind in (3, 4, 5))
        some = values.get(8, b"")
        self.communities = set(struct.unpack(">%dI" % (len(some) // 4), some))

    @staticmethod
    def segments(path, size):
        """The kind and the numbers of each part of a path."""
        at = 0
        while at < len(path):
            end = at + 2 + path[at + 1] * size
            yield path[at], [int.from_bytes(path[k:k + size], "big") for k in range(at + 2, end, size)]
            at = end

    def length(self):
        """How many networks the path counts."""
        return sum({AS_SET: 1, AS_SEQUENCE: len(numbers)}.get(kind, 0) for kind, numbers in self.parts)

    def first(self):
        """The first number of the path, or 0."""
        return self.parts[0][1][0] if self.parts and self.parts[0][0] == AS_SEQUENCE else 0

    def last(self):
        """The last number of the path, or 0."""
        return self.parts[-1][1][-1] if self.parts and self.parts[-1][0] == AS_SEQUENCE else 0

    def crosses(self, number):
        """Whether the number stands in the path."""
        return any(number in numbers for _, numbers in self.parts)


QUESTIONS = {
    "length": Route.length, "first": Route.first, "last": Route.last, "med": lambda r: r.med, "pref": lambda r: r.pref,
    "origin": lambda r: r.origin, "hop": lambda r: r.hop,
}


# ---- promise files

class File:
    """A promise file. A formula is a function of a prefix, its routes by direction and neighbour, and variables."""

    def __init__(self, text):
        self.tokens = [(found.lastgroup, found[found.lastgroup]) for found in TOKEN.finditer(text)]
        self.at = 0
        self.neighbours, self.numbers, self.groups, self.sets, self.promises = {}, [], {}, {}, []
        while self.kind() != "end":
            self.declaration()

    # -- tokens

    def kind(self):
        """The kind of the next token."""
        return self.tokens[self.at][0]

    def sees(self, *texts):
        """Whether the next token is one of these."""
        return self.tokens[self.at][1] in texts and self.kind() in ("word", "sign")

    def take(self, wanted=None):
        """Takes a token, and answers its text."""
        text = self.tokens[self.at][1]
        if wanted is not None and text != wanted:
            raise ValueError("%r at token %d, where %r is wanted" % (text, self.at, wanted))
        self.at += 1
        return text

    def list_of(self, item):
        """Items with commas between them."""
        found = [item()]
        while self.sees(","):
            self.take()
            found.append(item())
        return found

    # -- declarations

    def declaration(self):
        """One declaration."""
        word = self.take()
        if word in ("network", "commit"):
            self.take()
        elif word == "neighbour":
            self.neighbour()
        elif word == "promise":
            self.promise()
            return
        else:
            name = self.take()
            self.take("=")
            if word == "group":
                self.groups[name] = self.list_of(lambda: self.neighbours[self.take()])
            else:
                self.sets[name] = self.list_of(self.pattern)
        self.take(";")

    def neighbour(self):
        """A neighbour, whose number is its place among them."""
        self.neighbours[self.take()] = len(self.numbers)
        self.take("as")
        self.numbers.append(int(self.take()))
        self.take("at")
        self.take()
        if self.sees("root"):
            for _ in range(4):
                self.take()

    def pattern(self):
        """A prefix and the greatest length that it covers."""
        prefix = prefix_of(self.take())
        if not self.sees("le"):
            return prefix, prefix[1]
        self.take()
        return prefix, int(self.take())

    def promise(self):
        """A promise: its name, its grace in seconds, the prefixes that it names, if any, and its formula."""
        name = self.take()
        self.take("grace")
        grace, places = int(self.take()), None
        if self.sees("at"):
            self.take()
            places = self.list_of(lambda: prefix_of(self.take()))
        self.take("{")
        self.promises.append((name, grace, places, self.formula()))
        self.take("}")

    # -- formulas

    def formula(self):
        """`F implies G`, which groups to the right."""
        left = self.chain("or", lambda: self.chain("and", self.negation, all), any)
        if not self.sees("implies"):
            return left
        self.take()
        right = self.formula()
        return lambda *scene: not left(*scene) or right(*scene)

    def chain(self, word, item, of):
        """Items with a word between them."""
        items = [item()]
        while self.sees(word):
            self.take()
            items.append(item())
        return items[0] if len(items) == 1 else lambda *scene: of(one(*scene) for one in items)

    def negation(self):
        """`not F`, or what binds tighter."""
        if not self.sees("not"):
            return self.atom()
        self.take()
        held = self.negation()
        return lambda *scene: not held(*scene)

    def atom(self):
        """What no `and`, `or` or `implies` takes apart."""
        if self.sees("true", "false"):
            holds = self.take() == "true"
            return lambda *scene: holds
        if self.sees("("):
            self.take()
            held = self.formula()
            self.take(")")
            return held
        if self.sees("all", "some"):
            return self.over_group()
        if self.sees("if"):
            return self.binding()
        if self.sees("sent", "received"):
            side, of = self.route()
            return lambda prefix, routes, env: (side, of(env)) in routes
        if self.sees("prefix"):
            return self.in_set()
        if self.kind() == "word" and not self.sees("bits", "asn", *QUESTIONS):
            return self.about()
        return self.comparison()

    def who(self):
        """A neighbour by its name, or the variable that stands for one."""
        name = self.take()
        return lambda env: env[name] if name in env else self.neighbours[name]

    def route(self):
        """`sent(n)` or `received(n)`: the direction and the neighbour."""
        side = SENT if self.take() == "sent" else RECEIVED
        self.take("(")
        of = self.who()
        self.take(")")
        return side, of

    def over_group(self):
        """`all n in GROUP { F }` and `some`."""
        of = all if self.take() == "all" else any
        name = self.take()
        self.take("in")
        members = self.groups[self.take()]
        self.take("{")
        held = self.formula()
        self.take("}")
        return lambda prefix, routes, env: of(held(prefix, routes, {**env, name: n}) for n in members)

    def binding(self):
        """`if r = sent(n) then F else G end`."""
        self.take("if")
        name = self.take()
        self.take("=")
        side, of = self.route()
        self.take("then")
        yes = self.formula()
        self.take("else")
        no = self.formula()
        self.take("end")

        def holds(prefix, routes, env):
            found = routes.get((side, of(env)))
            return no(prefix, routes, env) if found is None else yes(prefix, routes, {**env, name: Route(*found)})
        return holds

    def in_set(self):
        """`prefix in SET`."""
        self.take("prefix")
        self.take("in")
        patterns = self.sets[self.take()]

        def holds(prefix, routes, env):
            address, bits = prefix
            return any(base[1] <= bits <= most and address >> (32 - base[1]) == base[0] >> (32 - base[1])
                       for base, most in patterns)
        return holds

    def about(self):
        """`r has C`, `r crosses T` and `n is m`."""
        name = self.take()
        word = self.take()
        if word == "is":
            self.at -= 2
            one = self.who()
            self.take("is")
            other = self.who()
            return lambda prefix, routes, env: one(env) == other(env)
        if word == "has":
            high, low = self.take().split(":")
            community = int(high) << 16 | int(low)
            return lambda prefix, routes, env: community in env[name].communities
        number = self.term()
        return lambda prefix, routes, env: env[name].crosses(number(prefix, env))

    def comparison(self):
        """`T = U` and the others."""
        left = self.term()
        compares = COMPARES[self.take()]
        right = self.term()
        return lambda prefix, routes, env: compares(left(prefix, env), right(prefix, env))

    def term(self):
        """A number, as a function of the prefix and the variables."""
        kind, word = self.kind(), self.take()
        if kind in ("number", "address"):
            number = int(word) if kind == "number" else address_of(word)
            return lambda prefix, env: number
        if word == "bits":
            return lambda prefix, env: prefix[1]
        self.take("(")
        if word == "asn":
            of = self.who()
            self.take(")")
            return lambda prefix, env: self.numbers[of(env)]
        name = self.take()
        self.take(")")
        return lambda prefix, env: QUESTIONS[word](env[name])


# ---- judging

def routes_by_prefix(known):
    """The routes of each prefix that stands, by direction and neighbour."""
    found = {}
    for (address, bits, direction, neighbour), route in known.routes.items():
        found.setdefault((address, bits), {})[direction, neighbour] = route
    return found


def moments(entries, begin, end):
    """When each moment of the period begins, and the routes of each prefix then."""
    known, found = history.Known(), []
    for time, kind, data in entries:
        if time >= begin and not found:
            found.append((begin, routes_by_prefix(known)))
        known.take(time, kind, data)
        if begin <= time <= end:
            found.append((time, routes_by_prefix(known)))
    return found or [(begin, routes_by_prefix(known))]


def broken_runs(text, entries, begin, end):
    """The runs of a whole log that break promises of a file, which rules all of the log: of each the promise's name, the
    prefix, when it begins and when it ends, by promise, prefix and begin."""
    file, found, rows = File(text), [], moments(entries, begin, end)
    everywhere = {prefix for _, routes in rows for prefix in routes}
    ends = [time for time, _ in rows[1:]] + [end]
    for name, grace, places, formula in file.promises:
        told = {}

        def is_bad(prefix, routes):
            if places is None and prefix not in routes:
                return False
            here = routes.get(prefix, {})
            key = prefix, tuple(sorted(here.items()))
            if key not in told:
                told[key] = not formula(prefix, here, {})
            return told[key]

        for prefix in sorted(everywhere if places is None else set(places)):
            since = None
            for (time, routes), until in zip(rows, ends):
                if not is_bad(prefix, routes):
                    since = None
                    continue
                if since is None:
                    since = len(found)
                    found.append([name, prefix, time, until])
                found[since][3] = until
        found = [run for run in found if run[0] != name or run[3] - run[2] >= grace * SECOND]
    return found


def report(text, entries, begin, end):
    """The lines of broken promises that an audit prints."""
    return "".join("broken %s %s %d %d\n" % (name, prefix_text(prefix), since, until)
                   for name, prefix, since, until in broken_runs(text, entries, begin, end))
