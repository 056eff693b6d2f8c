"""Tests of mrt-from-bmp: what it makes of streams that the tests write."""

import unittest

import programs
import recording
from programs import RECEIVED, SENT, STATE, shown
from writers import (END_OF_RIB, OTHER, OWN_AS, PEER_AS, START, WIDE_AS, add_path, bmp, four_bytes, monitored,
                     notification, of_peer, opened, peer_down, peer_up, prefix, update)

PROGRAM = programs.Program("mrt-from-bmp")
HEARD, SAID = update(prefix("198.51.100.0/24")), update(prefix("203.0.113.0/24"), (OWN_AS,))
OPENS = [opened(OWN_AS, four_bytes(OWN_AS)), opened(PEER_AS, four_bytes(PEER_AS))]
IN, IN_AFTER, OUT_BEFORE, OUT = 0, 0x40, 0x10, 0x50
AT = START * 1_000_000
UP = [(SENT, OPENS[0]), (RECEIVED, OPENS[1]), (STATE, (5, 6))]
DOWN = (STATE, (6, 1))
START_OF_STREAM, END_OF_STREAM = bmp(4, b"\0\2\0\1r"), bmp(5, b"\0\1\0\2\0\1")
NO_SENT = ("mrt-from-bmp: note 1: no Adj-RIB-Out after policy: what the router sent isn't here, so that promises on"
           " what is sent can't be judged by this file")


def convert(stream, *words):
    """What the program makes of a stream, as (kind, message or states), and what it tells."""
    status, data, told = PROGRAM.run("stream", *words, stream=stream)
    assert status == 0, told
    assert sorted(programs.times(data)) == programs.times(data)
    return [(item[1], item[3]) for item in shown(data)], told


def small():
    """A session that comes up, with a message of each side."""
    return (START_OF_STREAM + peer_up(AT, *OPENS) + monitored(AT + 1, IN, HEARD) + monitored(AT + 2, OUT, SAID))


WANTED = [*UP, (RECEIVED, HEARD), (SENT, SAID)]


class Streams(unittest.TestCase):
    """Messages of sessions, and what isn't taken."""

    def test_both_directions(self):
        found, told = convert(small())
        self.assertEqual(found, WANTED)
        self.assertEqual(told, ["mrt-from-bmp: wrote 5 records: 2 received, 2 sent, 1 states"])

    def test_a_peer_down_has_its_notification(self):
        rows = [(1, notification(), [(SENT, notification())]), (2, b"\0\2", []),
                (3, notification(), [(RECEIVED, notification())]), (4, b"", []), (5, b"", [])]
        for reason, rest, said in rows:
            with self.subTest(reason=reason):
                found, told = convert(small() + peer_down(AT + 3, reason, rest))
                self.assertEqual(found, [*WANTED, *said, DOWN])
                self.assertEqual(any("stopped to show" in line for line in told), reason == 5)

    def test_other_tables_and_kinds_are_left_out_and_told(self):
        more = (monitored(AT + 3, IN_AFTER, HEARD) + monitored(AT + 3, OUT_BEFORE, SAID)
                + monitored(AT + 3, IN, HEARD, kind=3) + monitored(AT + 3, IN, HEARD, kind=1)
                + monitored(AT + 3, 0x80, HEARD) + bmp(1, of_peer(AT) + bytes(4)) + bmp(6, of_peer(AT)) + bmp(9))
        found, told = convert(small() + more)
        self.assertEqual(found, WANTED)
        for what in ("UPDATEs of Adj-RIB-In after policy", "UPDATEs of Adj-RIB-Out before policy",
                     "messages of the router's own table (Loc-RIB)", "messages of peers in other tables (VRFs)",
                     "messages of peers over IPv6", "statistics", "mirrored messages", "messages of type 9"):
            self.assertIn(f"mrt-from-bmp: left out 1: {what}", told)

    def test_a_stream_that_never_shows_what_is_sent(self):
        found, told = convert(START_OF_STREAM + peer_up(AT, *OPENS) + monitored(AT + 1, IN, HEARD))
        self.assertEqual(found, WANTED[:-1])
        self.assertIn(NO_SENT, told)

    def test_the_size_of_as_numbers_is_that_of_the_flag(self):
        stream = small() + monitored(AT + 3, 0x20, update(prefix("198.51.100.0/24"), wide=False))
        data = PROGRAM.run("stream", stream=stream)[1]
        self.assertEqual([item[3] for item in recording.read(data)], [7, 4, 5, 4, 7, 1])

    def test_several_updates_in_one_message(self):
        found, _ = convert(small() + monitored(AT + 3, IN, HEARD, END_OF_RIB))
        self.assertEqual(found, [*WANTED, (RECEIVED, HEARD), (RECEIVED, END_OF_RIB)])

    def test_bytes_that_are_no_bgp_are_left_out_and_told(self):
        found, told = convert(small() + monitored(AT + 3, IN, HEARD, b"GET /") + peer_up(AT + 4, b"", b""))
        self.assertEqual(found, [*WANTED, (RECEIVED, HEARD)])
        self.assertIn("mrt-from-bmp: left out 5: bytes in messages of BMP that are no BGP", told)
        self.assertIn("mrt-from-bmp: left out 1: Peer Ups without two OPENs", told)

    def test_path_identifiers_are_told(self):
        opens = [opened(OWN_AS, four_bytes(OWN_AS), add_path(3)), opened(PEER_AS, four_bytes(PEER_AS), add_path(3))]
        self.assertTrue(any("path identifiers" in line for line in convert(peer_up(AT, *opens))[1]))

    def test_updates_of_a_peer_that_never_came_up(self):
        found, told = convert(monitored(AT, IN, HEARD))
        self.assertEqual(found, [(RECEIVED, HEARD)])
        self.assertIn("mrt-from-bmp: note 1: UPDATEs of peers that never came up in this stream", told)


class Ends(unittest.TestCase):
    """What ends sessions beside a Peer Down."""

    def test_a_stream_that_begins_again(self):
        found, told = convert(small() + small())
        self.assertEqual(found, [*WANTED, DOWN, *WANTED])
        self.assertIn("mrt-from-bmp: note 1: sessions that end with the router's connection to the collector", told)

    def test_a_termination_and_the_word_for_it(self):
        self.assertEqual(convert(small() + END_OF_STREAM)[0], [*WANTED, DOWN])
        self.assertEqual(convert(small(), "--ended")[0], [*WANTED, DOWN])

    def test_a_peer_that_comes_up_anew(self):
        self.assertEqual(convert(small() + peer_up(AT + 9, *OPENS))[0], [*WANTED, DOWN, *UP])


class Times(unittest.TestCase):
    """Times of messages."""

    def test_a_session_keeps_its_order(self):
        other = opened(WIDE_AS, four_bytes(WIDE_AS))
        stream = (peer_up(AT, *OPENS) + peer_up(AT + 5, OPENS[0], other, asn=WIDE_AS, peer=OTHER)
                  + monitored(AT - 3, IN, HEARD) + monitored(AT + 2, IN, END_OF_RIB))
        _, data, told = PROGRAM.run("stream", stream=stream)
        self.assertEqual([(item[0] - AT, item[2]) for item in shown(data)],
                         [(0, PEER_AS)] * 4 + [(2, PEER_AS)] + [(5, WIDE_AS)] * 3)
        self.assertIn("mrt-from-bmp: changed 1: records older than one before them of the same session have its time",
                      told)

    def test_messages_without_a_time(self):
        stream = peer_up(0, *OPENS) + monitored(AT + 1, IN, HEARD) + monitored(0, OUT, SAID)
        _, data, told = PROGRAM.run("stream", stream=stream)
        self.assertEqual(programs.times(data), [AT + 1] * 5)
        self.assertIn("mrt-from-bmp: changed 4: records without a time have that of the one before", told)
        self.assertEqual(PROGRAM.run("stream", stream=peer_up(0, *OPENS))[0], 1)


class Faults(unittest.TestCase):
    """Input that can't be read."""

    def test_what_is_no_stream(self):
        for data in (b"", b"\1", bytes(100), b"\3\0\0\0\5\0", bmp(0, bytes(41))):
            status, out, told = PROGRAM.run("stream", stream=data)
            self.assertEqual((status, out, len(told)), (1, None, 1))

    def test_each_truncation(self):
        stream = small() + peer_down(AT + 3, 3, notification())
        for size in range(len(stream)):
            status, data, told = PROGRAM.run("stream", stream=stream[:size])
            if status:
                self.assertEqual((size < 11, data, len(told)), (True, None, 1))
            else:
                self.assertEqual([(item[1], item[3]) for item in shown(data)], WANTED[:len(shown(data))])

    def test_messages_whose_insides_are_cut(self):
        for kind, whole in ((0, small()), (2, peer_down(AT, 3, notification())), (3, peer_up(AT, *OPENS))):
            for size in range(42, len(whole) - 6):
                status, _, told = PROGRAM.run("stream", stream=bmp(kind, whole[6:6 + size]))
                self.assertIn(status, (0, 1))
                self.assertTrue(told)


if __name__ == "__main__":
    unittest.main()
