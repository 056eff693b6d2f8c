"""Tests of mrt-mend: each oddity of the daemons."""

import struct
import unittest

import programs
import recording
from programs import RECEIVED, SENT, STATE, shown
from writers import (END_OF_RIB, KEEPALIVE, OTHER, OWN_AS, PEER, PEER_AS, START, WIDE_AS, exchanged, four_bytes,
                     notification, opened, prefix, record, update)

PROGRAM = programs.Program("mrt-mend")
HEARD = update(prefix("198.51.100.0/24"))
OPEN, WIDE_OPEN = opened(PEER_AS, four_bytes(PEER_AS)), opened(WIDE_AS, four_bytes(WIDE_AS))
NONE = "0.0.0.0"
AT = START * 1_000_000
SECOND = "states, OPENs and NOTIFICATIONs of a second connection beside a session that is up"


def file_of(*items, micros=True):
    """A file of records, each as its subtype, its message or states, and perhaps the peer's AS and address."""
    return b"".join(exchanged(AT + 1_000_000 * number, subtype, rest, *of, micros=micros)
                    for number, (subtype, rest, *of) in enumerate(items))


def mend(data, *words):
    """What the program makes of a file, as (kind, AS, message or states), and what it tells."""
    status, mended, told = PROGRAM.run("file", *words, file=data)
    assert status == 0, told
    return [item and item[1:] for item in shown(mended)], told


UP = [(5, (5, 6)), (4, HEARD)]
STANDS = [(STATE, PEER_AS, (5, 6)), (RECEIVED, PEER_AS, HEARD)]


class Bird(unittest.TestCase):
    """What BIRD writes."""

    def test_a_lost_session_without_addresses(self):
        begins = 5, (1, 3), PEER_AS, NONE
        data = file_of(begins, *UP, (5, (6, 1), PEER_AS, NONE), begins, micros=False)
        for words in (["--addresses"], ["--from", "bird"]):
            found, told = mend(data, *words)
            self.assertEqual(found, [*STANDS, (STATE, PEER_AS, (6, 1))])
            self.assertIn("mrt-mend: changed 1: ends of sessions without addresses", told)
            self.assertIn("mrt-mend: left out 2: states without addresses that end no session", told)

    def test_a_lost_session_of_an_as_with_two_routers(self):
        both = [*UP, (5, (5, 6), PEER_AS, OTHER), (5, (6, 1), PEER_AS, NONE)]
        for peer, address in ((PEER, 0xC000020A), (OTHER, 0xC0000214)):
            status, mended, _ = PROGRAM.run("--addresses", "file", file=file_of(*both, (5, (3, 2), PEER_AS, peer)))
            ends = [item[2] for item in recording.read(mended) if item[4] == (6, 1)]
            self.assertEqual((status, ends), (0, [address]))
        found, told = mend(file_of(*both), "--addresses")
        self.assertEqual(len(found), 3)
        self.assertTrue(any("LOST SESSIONS WHOSE NEIGHBOUR CAN'T BE TOLD" in line for line in told))

    def test_an_open_whose_as_does_not_fit(self):
        found, told = mend(file_of((1, WIDE_OPEN, 23456)), "--open-as")
        self.assertEqual(found, [(RECEIVED, WIDE_AS, WIDE_OPEN)])
        self.assertIn("mrt-mend: changed 1: OPENs whose record had another AS number than they", told)

    def test_whole_seconds_stay(self):
        data = file_of(*UP, micros=False)
        self.assertEqual(PROGRAM.run("--from", "bird", "file", file=data)[1], data)


class Frr(unittest.TestCase):
    """What FRR writes."""

    def test_a_second_connection(self):
        second = [(5, (1, 3)), (5, (3, 4)), (4, OPEN), (4, notification(6, 7)), (5, (4, 8))]
        for words in (["--second"], ["--from", "frr"], ["--from", "bird"]):
            found, told = mend(file_of((4, OPEN), *UP, *second, (4, END_OF_RIB)), *words)
            self.assertEqual(found, [(RECEIVED, PEER_AS, OPEN), *STANDS, (RECEIVED, PEER_AS, END_OF_RIB)])
            self.assertIn(f"mrt-mend: left out 5: {SECOND}", told)

    def test_a_session_that_ends_beside_a_second_connection(self):
        data = file_of(*UP, (5, (1, 3)), (4, notification()), (5, (6, 1)), (4, OPEN))
        self.assertEqual(mend(data, "--second")[0], [*STANDS, (RECEIVED, PEER_AS, notification()),
                                                     (STATE, PEER_AS, (6, 1)), (RECEIVED, PEER_AS, OPEN)])

    def test_a_session_that_comes_up_anew_without_an_end(self):
        found, told = mend(file_of(*UP, (5, (1, 2)), (4, OPEN), (5, (5, 6))), "--second")
        self.assertEqual(found, [*STANDS, (STATE, PEER_AS, (6, 1)), (STATE, PEER_AS, (5, 6))])
        self.assertIn("mrt-mend: changed 1: sessions that came up anew without an end get one", told)

    def test_states_of_its_own(self):
        found, told = mend(file_of(*UP, (5, (6, 7)), (5, (7, 1)), (5, (3, 8))), "--clearing")
        self.assertEqual(found, [*STANDS, (STATE, PEER_AS, (6, 1)), (STATE, PEER_AS, (3, 1))])
        self.assertIn("mrt-mend: changed 2: states 7 and 8 are written as 1", told)
        self.assertIn("mrt-mend: left out 1: changes from 1, 7 or 8 to 1, 7 or 8", told)

    def test_a_state_without_addresses_at_its_stop(self):
        for old in (1, 6):
            stop = record(START + 9, 17, 5, bytes(4) + struct.pack(">IIHH", 0, 0, old, 1))
            self.assertEqual(mend(file_of(*UP) + stop, "--from", "frr")[0], STANDS)
            self.assertEqual(PROGRAM.run("file", file=file_of(*UP) + stop)[1], file_of(*UP) + stop)

    def test_an_open_with_the_low_bits_of_its_as(self):
        found, _ = mend(file_of((1, WIDE_OPEN, WIDE_AS & 0xFFFF)), "--from", "frr")
        self.assertEqual(found, [(RECEIVED, WIDE_AS, WIDE_OPEN)])

    def test_messages_of_add_path_sessions(self):
        tagged = update(bytes(4) + prefix("198.51.100.0/24"))
        found, told = mend(file_of((9, OPEN), (9, KEEPALIVE), (9, tagged), (8, END_OF_RIB)), "--add-path")
        self.assertEqual(found, [(RECEIVED, PEER_AS, OPEN), (RECEIVED, PEER_AS, KEEPALIVE), None,
                                 (RECEIVED, PEER_AS, END_OF_RIB)])
        self.assertIn("mrt-mend: note 1: UPDATEs with path identifiers, whose subtypes netreview skips", told)


class Files(unittest.TestCase):
    """Files as such."""

    def test_without_options_the_records_stay(self):
        data = (file_of((1, WIDE_OPEN, 23456), *UP, (5, (6, 7)), (9, HEARD), (7, HEARD))
                + record(START + 60, 13, 2, b"RIB")
                + record(START + 60, 16, 4, struct.pack(">IIHH", 1, 2, 0, 2) + bytes(51)))
        status, mended, told = PROGRAM.run("file", file=data)
        self.assertEqual((status, mended), (0, data))
        self.assertEqual(told, ["mrt-mend: wrote 8 records: 4 received, 1 sent, 2 states, 1 others"])

    def test_a_file_that_is_still_written(self):
        data = file_of(*UP)
        for size in range(len(data)):
            status, mended, told = PROGRAM.run("--from", "frr", "file", file=data[:size])
            if status:
                self.assertEqual((mended, len(told)), (None, 1))
            else:
                self.assertEqual(mended, data[:len(mended)])
                self.assertEqual(any("behind the last whole record" in line for line in told), len(mended) < size)

    def test_times_that_run_back(self):
        data = exchanged(AT + 5, 4, HEARD) + exchanged(AT, 4, END_OF_RIB) + exchanged(AT + 6, 4, KEEPALIVE)
        _, mended, told = PROGRAM.run("file", file=data)
        self.assertEqual(programs.times(mended), [AT + 5, AT + 5, AT + 6])
        self.assertIn("mrt-mend: changed 1: records older than one before them have its time", told)

    def test_several_files(self):
        status, mended, _ = PROGRAM.run("one", "two", one=file_of(*UP), two=file_of(*UP))
        self.assertEqual((status, len(recording.read(mended))), (0, 4))

    def test_what_is_no_mrt(self):
        short = record(START, 17, 4, bytes(14) + b"\0\1" + bytes(4))
        for data in (b"BGP" * 9, b"\0", short):
            status, out, told = PROGRAM.run("file", file=data)
            self.assertEqual((status, out, len(told)), (1, None, 1))

    def test_sent_opens(self):
        data = exchanged(AT, 6, opened(WIDE_AS, four_bytes(WIDE_AS)), own_as=OWN_AS)
        self.assertEqual(mend(data, "--open-as")[0], [(SENT, PEER_AS, opened(WIDE_AS, four_bytes(WIDE_AS)))])


if __name__ == "__main__":
    unittest.main()
