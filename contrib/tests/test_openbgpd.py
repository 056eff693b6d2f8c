"""Tests of mrt-from-openbgpd: what it makes of files as OpenBGPD writes them."""

import unittest

import programs
import recording
from programs import RECEIVED, SENT, STATE, shown
from writers import (KEEPALIVE, OTHER, OWN, OWN_AS, PEER, PEER_AS, START, WIDE_AS, exchanged, four_bytes, notification,
                     opened, prefix, record, update)

PROGRAM = programs.Program("mrt-from-openbgpd")
HEARD, SAID = update(prefix("198.51.100.0/24")), update(prefix("203.0.113.0/24"), (OWN_AS,))
AT = START * 1_000_000


def opens_of(asn):
    """Both OPENs of a session with a neighbour."""
    return [opened(OWN_AS, four_bytes(OWN_AS)), opened(asn, four_bytes(asn))]


class Dumps:
    """The files of `all in` and `all out` as they grow together."""

    def __init__(self):
        self.received = self.sent = b""
        self.time = AT

    def tick(self):
        """The next microsecond."""
        self.time += 1
        return self.time

    def hear(self, subtype, raw, asn=PEER_AS, peer=PEER):
        """A message that came."""
        self.received += exchanged(self.tick(), subtype, raw, asn, peer)
        return self

    def say(self, subtype, raw, asn=PEER_AS, peer=PEER):
        """A message that was sent: the two ends are changed over."""
        self.sent += exchanged(self.tick(), subtype, raw, OWN_AS, OWN, asn, peer)
        return self

    def change(self, subtype, states, asn=PEER_AS, peer=PEER):
        """A state, which stands in both files with the two ends changed over."""
        self.received += exchanged(self.tick(), subtype, states, OWN_AS, OWN, asn, peer)
        self.sent += exchanged(self.tick(), subtype, states, OWN_AS, OWN, asn, peer)
        return self

    def come_up(self, asn=PEER_AS, peer=PEER):
        """A session comes up. Its AS is 0 at first."""
        ours, theirs = opens_of(asn)
        self.say(1, ours, 0, peer).change(0, (3, 4), 0, peer).hear(1, theirs, 0, peer)
        self.say(4, KEEPALIVE, asn, peer).change(5, (4, 5), asn, peer)
        return self.hear(4, KEEPALIVE, asn, peer).change(5, (5, 6), asn, peer)


def convert(dumps):
    """What the program makes of the two files, as (kind, AS, message or states), and what it tells."""
    status, data, told = PROGRAM.run("--received", "i", "--sent", "o", i=dumps.received, o=dumps.sent)
    assert status == 0, told
    assert sorted(programs.times(data)) == programs.times(data)
    return [item[1:] for item in shown(data)], told


def wanted(asn):
    """What is written of a session that comes up."""
    ours, theirs = opens_of(asn)
    return [(SENT, asn, ours), (STATE, asn, (3, 4)), (RECEIVED, asn, theirs), (SENT, asn, KEEPALIVE),
            (STATE, asn, (4, 5)), (RECEIVED, asn, KEEPALIVE), (STATE, asn, (5, 6))]


class Sessions(unittest.TestCase):
    """Both directions as one file."""

    def test_both_directions(self):
        for asn, peer in ((PEER_AS, PEER), (WIDE_AS, OTHER)):
            dumps = Dumps().come_up(asn, peer).hear(4, HEARD, asn, peer).say(4, SAID, asn, peer)
            found, told = convert(dumps)
            self.assertEqual(found, [*wanted(asn), (RECEIVED, asn, HEARD), (SENT, asn, SAID)])
            self.assertIn("mrt-from-openbgpd: left out 3: states that both files have", told)
            self.assertIn("mrt-from-openbgpd: changed 3: records whose AS number was missing", told)

    def test_every_record_names_the_neighbour(self):
        dumps = Dumps().come_up().hear(4, HEARD).say(4, SAID)
        data = PROGRAM.run("--received", "i", "--sent", "o", i=dumps.received, o=dumps.sent)[1]
        self.assertEqual({item[2] for item in recording.read(data)}, {0xC000020A})

    def test_a_lost_session_whose_as_is_cut_down(self):
        dumps = Dumps().come_up(WIDE_AS, OTHER).change(0, (6, 1), 23456, OTHER)
        self.assertEqual(convert(dumps)[0][-1], (STATE, WIDE_AS, (6, 1)))

    def test_the_opens_have_the_size_of_their_session(self):
        dumps = Dumps().come_up()
        dumps.say(1, opens_of(PEER_AS)[0]).say(1, KEEPALIVE)
        data = PROGRAM.run("--received", "i", "--sent", "o", i=dumps.received, o=dumps.sent)[1]
        subtypes = [item[3] for item in recording.read(data)]
        self.assertEqual([each for each in subtypes if each not in recording.STATES], [7, 4, 7, 4, 6, 6])

    def test_ties_are_received_first(self):
        dumps = Dumps().come_up()
        dumps.received += exchanged(dumps.time, 4, HEARD)
        dumps.sent += exchanged(dumps.time, 4, SAID, OWN_AS, OWN, PEER_AS, PEER)
        self.assertEqual(convert(dumps)[0][-2:], [(RECEIVED, PEER_AS, HEARD), (SENT, PEER_AS, SAID)])

    def test_rotated_files(self):
        one, two = Dumps().come_up(), Dumps()
        two.time = one.time
        two.hear(4, notification()).change(5, (6, 1))
        files = {"a": one.received, "b": two.received, "c": one.sent, "d": two.sent}
        status, data, _ = PROGRAM.run("--received", "a", "b", "--sent", "c", "d", **files)
        self.assertEqual((status, [item[1:] for item in shown(data)]),
                         (0, [*wanted(PEER_AS), (RECEIVED, PEER_AS, notification()), (STATE, PEER_AS, (6, 1))]))

    def test_what_is_of_no_session_is_left_out_and_told(self):
        dumps = Dumps().come_up()
        dumps.received += record(START, 13, 1, b"") + exchanged(dumps.time, 4, HEARD, 0, PEER)
        dumps.received = dumps.received.replace(exchanged(AT + 99, 4, HEARD), b"")
        found, told = convert(dumps)
        self.assertEqual(found[-1], (RECEIVED, PEER_AS, HEARD))
        self.assertIn("mrt-from-openbgpd: left out 1: records that are of no session over IPv4", told)

    def test_files_that_do_not_cover_the_same_time(self):
        dumps = Dumps().come_up()
        dumps.sent = b""
        self.assertTrue(any("don't cover the same time" in line for line in convert(dumps)[1]))

    def test_a_neighbour_whose_as_stands_nowhere(self):
        dumps = Dumps().say(1, opens_of(PEER_AS)[0], 0)
        found, told = convert(dumps)
        self.assertEqual(found, [(SENT, 0, opens_of(PEER_AS)[0])])
        self.assertIn("mrt-from-openbgpd: note 1: records of a neighbour whose AS stands nowhere", told)


class Faults(unittest.TestCase):
    """Input that can't be read."""

    def test_files_that_are_exchanged(self):
        dumps = Dumps().come_up()
        status, out, told = PROGRAM.run("--received", "o", "--sent", "i", i=dumps.received, o=dumps.sent)
        self.assertEqual((status, out, len(told)), (1, None, 1))

    def test_what_is_no_mrt(self):
        status, out, told = PROGRAM.run("--received", "i", "--sent", "o", i=b"BGP" * 9, o=b"")
        self.assertEqual((status, out, len(told)), (1, None, 1))

    def test_each_truncation(self):
        dumps = Dumps().come_up().hear(4, HEARD).say(4, SAID)
        for name in ("received", "sent"):
            for size in range(len(getattr(dumps, name))):
                files = {"i": dumps.received, "o": dumps.sent}
                files["i" if name == "received" else "o"] = getattr(dumps, name)[:size]
                status, data, told = PROGRAM.run("--received", "i", "--sent", "o", **files)
                self.assertIn(status, (0, 1))
                self.assertEqual((data is None, len(told) == 1), (status == 1, status == 1))


if __name__ == "__main__":
    unittest.main()
