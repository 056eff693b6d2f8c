"""Tests of mrt-from-capture: what it makes of captures that the tests write."""

import contextlib
import io
import struct
import unittest

import programs
import recording
from programs import RECEIVED, SENT, STATE, shown
from writers import (END_OF_RIB, KEEPALIVE, LINKS, OTHER, OWN, OWN_AS, PEER, PEER_AS, START, WIDE_AS, Talk, add_path,
                     block, ethernet, four_bytes, notification, opened, pcap, pcapng, prefix, segment, update)

PROGRAM = programs.Program("mrt-from-capture")
HEARD, SAID = update(prefix("198.51.100.0/24")), update(prefix("203.0.113.0/24"), (OWN_AS,))
OPENS = [opened(OWN_AS, four_bytes(OWN_AS)), opened(PEER_AS, four_bytes(PEER_AS))]
FIN, RST, ACK = 17, 4, 16


def convert(capture, *words):
    """What the program makes of a capture, as (kind, message or states), and what it tells."""
    status, data, told = PROGRAM.run("--own", OWN, "capture", *words, capture=capture)
    assert status == 0, told
    assert sorted(programs.times(data)) == programs.times(data)
    return [item and (item[1], item[3]) for item in shown(data)], told


def up():
    """What is written of a session that comes up."""
    return [(SENT, OPENS[0]), (RECEIVED, OPENS[1]), (SENT, KEEPALIVE), (RECEIVED, KEEPALIVE), (STATE, (5, 6))]


def small():
    """A session with a message of each side."""
    return Talk().establish().say(False, HEARD).say(True, SAID)


class Captures(unittest.TestCase):
    """Files and link layers."""

    WANTED = [*up(), (RECEIVED, HEARD), (SENT, SAID)]

    def test_each_link_layer(self):
        for link in LINKS:
            with self.subTest(link=link):
                self.assertEqual(convert(pcap(small().packets, link))[0], self.WANTED)

    def test_vlan_tags(self):
        tagged = pcap(small().packets, frame=lambda packet: ethernet(packet, 0x88A8, 0x8100))
        self.assertEqual(convert(tagged)[0], self.WANTED)

    def test_byte_orders_and_units_of_time(self):
        packets = small().packets
        wanted = PROGRAM.run("--own", OWN, "capture", capture=pcap(packets))[1]
        for order in "<>":
            forms = [pcap(packets, order=order), pcap(packets, order=order, nano=True), pcapng(packets, order=order),
                     pcapng(packets, order=order, resolution=9), pcapng(packets, order=order, resolution=0x80 | 30),
                     pcapng(packets, order=order, offset=5000)]
            for number, capture in enumerate(forms):
                with self.subTest(order=order, number=number):
                    self.assertEqual(PROGRAM.run("--own", OWN, "capture", capture=capture)[1], wanted)

    def test_the_time_is_that_of_the_packet_that_completes_a_message(self):
        talk = small()
        talk.say(False, HEARD[:20]).say(False, HEARD[20:])
        data = PROGRAM.run("--own", OWN, "capture", capture=pcap(talk.packets))[1]
        self.assertEqual(programs.times(data)[-1], talk.packets[-1][0])

    def test_several_files_are_one_capture(self):
        packets = small().packets
        for at in range(len(packets)):
            status, data, _ = PROGRAM.run("--own", OWN, "one", "two", one=pcap(packets[:at]), two=pcapng(packets[at:]))
            self.assertEqual((status, [(item[1], item[3]) for item in shown(data)]), (0, self.WANTED))

    def test_a_capture_that_was_converted_before(self):
        talk = small()
        talk.say(False, HEARD[:20]).say(False, HEARD[20:]).say(True, notification())
        whole = PROGRAM.run("--own", OWN, "capture", capture=pcap(talk.packets))[1]
        for at in range(len(talk.packets)):
            one, two = pcap(talk.packets[:at]), pcap(talk.packets[at:])
            first = PROGRAM.run("--own", OWN, "one", "--peer", f"{PEER}={PEER_AS}", one=one)[1]
            status, second, told = PROGRAM.run("--own", OWN, "two", "--seen", "one", one=one, two=two)
            self.assertEqual((status, len(first + second)), (0, len(whole)))
            self.assertEqual(shown(first + second), shown(whole))
            count = len(shown(first))
            line = f"mrt-from-capture: left out {count}: records of captures that were converted before"
            self.assertEqual(line in told, count > 0)

    def test_a_gap_at_the_end_of_a_capture_that_was_converted_before(self):
        talk = small().say(False, END_OF_RIB).say(False, HEARD)
        first, second = talk.packets[:-2] + talk.packets[-1:], talk.packets[-2:-1]
        self.assertEqual(convert(pcap(first))[0], [*self.WANTED, (STATE, (6, 1))])
        status, data, _ = PROGRAM.run("--own", OWN, "two", "--seen", "one", one=pcap(first), two=pcap(second))
        self.assertEqual((status, data), (0, b""))
        self.assertEqual(convert(pcap(first + second))[0], [*self.WANTED, (RECEIVED, END_OF_RIB), (RECEIVED, HEARD)])

    def test_what_is_no_session_of_ipv4_is_left_out_and_told(self):
        packets = small().packets
        wide = struct.pack(">IHBB32sHHIIBBHHH", 6 << 28, 20, 6, 64, bytes(32), 179, 40_000, 0, 0, 0x50, 16, 0, 0, 0)
        strange = segment(PEER, 179, OTHER, 40_000, 1, HEARD)
        inner = segment(OWN, 179, OWN, 40_000, 1, HEARD)
        piece = bytearray(segment(PEER, 40_000, OWN, 179, 1, HEARD))
        piece[6] |= 0x20
        web = segment(PEER, 40_000, OWN, 80, 1, b"GET /")
        more = [(packets[-1][0], packet) for packet in (wide, strange, inner, bytes(piece), web)]
        arp = struct.pack("<4I", START, 999_999, 60, 60) + bytes(12) + b"\x08\x06" + bytes(46)
        found, told = convert(pcap(packets + more) + arp)
        self.assertEqual(found, self.WANTED)
        self.assertIn("mrt-from-capture: left out 1: packets that aren't of TCP port 179", told)
        self.assertIn("mrt-from-capture: left out 1: packets that are neither IPv4 nor IPv6", told)
        self.assertIn("mrt-from-capture: left out 1: packets over IPv6 to or from TCP port 179", told)
        self.assertIn("mrt-from-capture: left out 1: packets of which neither end is an own address", told)
        self.assertIn("mrt-from-capture: left out 1: packets between two of the router's own addresses", told)
        self.assertIn("mrt-from-capture: left out 1: fragments of IPv4 packets of TCP", told)

    def test_a_packet_block_without_a_time_is_left_out_and_told(self):
        capture = pcapng(small().packets) + block("<", 3, struct.pack("<I", 60) + bytes(60))
        told = convert(capture)[1]
        self.assertIn("mrt-from-capture: left out 1: packets without a time (simple packet blocks)", told)

    def test_times_that_run_back_are_held(self):
        packets = small().packets
        packets[-1] = (packets[-1][0] - 5_000_000, packets[-1][1])
        found, told = convert(pcap(packets))
        self.assertEqual(found, self.WANTED)
        self.assertIn("mrt-from-capture: changed 1: packets older than one before them have its time", told)


class Streams(unittest.TestCase):
    """TCP streams, put together."""

    def test_order_repeats_and_overlaps(self):
        talk = small()
        start = len(talk.packets)
        whole = HEARD + END_OF_RIB + KEEPALIVE
        seq = talk.next[False]
        for at in range(0, len(whole), 10):
            talk.say(False, whole[at:at + 10])
        parts = talk.packets[start:]
        overlap = (talk.time, segment(PEER, 40_000, OWN, 179, seq + 5, whole[5:40]))
        talk.packets[start:] = [*reversed(parts[:4]), parts[5], parts[4], overlap, *parts[3:]]
        found, _ = convert(pcap(talk.packets))
        self.assertEqual(found, [*Captures.WANTED, (RECEIVED, HEARD), (RECEIVED, END_OF_RIB), (RECEIVED, KEEPALIVE)])

    def test_numbers_that_wrap_round(self):
        talk = Talk(seq=2 ** 32 - 20).establish().say(False, HEARD).say(True, SAID)
        self.assertEqual(convert(pcap(talk.packets))[0], Captures.WANTED)

    def test_a_gap_ends_the_session_and_is_told(self):
        talk = small()
        talk.say(False, END_OF_RIB).say(False, HEARD).say(True, SAID)
        del talk.packets[-3]
        found, told = convert(pcap(talk.packets))
        self.assertEqual(found, [*Captures.WANTED, (STATE, (6, 1))])
        self.assertIn("mrt-from-capture: note 1: sessions that end at missing bytes", told)
        self.assertIn(f"mrt-from-capture: left out {len(HEARD)}: bytes behind missing bytes", told)
        self.assertIn("mrt-from-capture: left out 1: messages behind the end of their session", told)

    def test_a_gap_that_is_never_filled_costs_no_memory(self):
        talk = small().say(False, END_OF_RIB)
        del talk.packets[-1]
        talk.say(False, HEARD).say(False, HEARD, step=61_000_000).say(False, HEARD)
        found, told = convert(pcap(talk.packets))
        self.assertEqual(found, [*Captures.WANTED, (STATE, (6, 1))])
        self.assertIn(f"mrt-from-capture: left out {3 * len(HEARD)}: bytes behind missing bytes", told)

    def test_an_acknowledgement_shows_missing_bytes(self):
        talk = small().say(False, END_OF_RIB)
        del talk.packets[-1]
        found, _ = convert(pcap(talk.say(False).packets))
        self.assertEqual(found[-1], (STATE, (6, 1)))

    def test_bytes_that_a_capture_cut_off_are_missing(self):
        talk = small().say(False, HEARD).say(False, END_OF_RIB)
        capture = pcap(talk.packets[:-2])
        frame = ethernet(talk.packets[-2][1])[:-4]
        capture += struct.pack("<4I", START, 500_000, len(frame), len(frame) + 4) + frame
        capture += pcap(talk.packets[-1:])[24:]
        found, told = convert(capture)
        self.assertEqual(found[-1], (STATE, (6, 1)))
        self.assertIn("mrt-from-capture: note 1: packets that the capture has in part", told)

    def test_bytes_that_are_no_bgp_end_the_session(self):
        talk = small().say(False, b"GET / HTTP/1.1" * 3).say(False, HEARD)
        found, told = convert(pcap(talk.packets))
        self.assertEqual(found, [*Captures.WANTED, (STATE, (6, 1))])
        self.assertIn("mrt-from-capture: note 1: sessions whose bytes aren't BGP from some place on", told)


class Sessions(unittest.TestCase):
    """Sessions, their ends, and what their OPENs say."""

    def test_ends(self):
        ends = {
            "a NOTIFICATION that came": (lambda talk: talk.say(False, notification()), (RECEIVED, notification())),
            "a NOTIFICATION that was sent": (lambda talk: talk.say(True, notification()), (SENT, notification())),
            "a FIN": (lambda talk: talk.say(False, flags=FIN), None),
            "an RST": (lambda talk: talk.say(True, flags=RST), None),
            "another connection between the same ports": (lambda talk: talk.say(False, flags=2), None),
        }
        for name, (end, said) in ends.items():
            with self.subTest(name):
                found, _ = convert(pcap(end(small()).packets))
                self.assertEqual(found, [*Captures.WANTED, *([said] if said else []), (STATE, (6, 1))])

    def test_what_is_said_behind_the_end_is_left_out_and_told(self):
        talk = small().say(True, notification()).say(False, HEARD).say(False, flags=FIN)
        found, told = convert(pcap(talk.packets))
        self.assertEqual(found[-2:], [(SENT, notification()), (STATE, (6, 1))])
        self.assertIn("mrt-from-capture: left out 1: messages behind the end of their session", told)

    def test_a_second_connection_leaves_the_tables(self):
        talk = small()
        second = Talk(port=40_001, at=talk.time, seq=5_000).connect()
        second.say(False, OPENS[1]).say(True, OPENS[0]).say(True, notification(6, 7)).say(True, flags=FIN)
        later = Talk(port=40_002, at=second.time, seq=9_000)
        talk.time = second.time
        talk.say(False, flags=FIN)
        later.time = talk.time
        later.connect().say(False, OPENS[1])
        found, told = convert(pcap(talk.packets[:-1] + second.packets + talk.packets[-1:] + later.packets))
        self.assertEqual(found, [*Captures.WANTED, (STATE, (6, 1)), (RECEIVED, OPENS[1])])
        self.assertIn("mrt-from-capture: left out 3: messages of a second connection beside a session that is up", told)

    def test_the_size_and_the_numbers_follow_the_opens(self):
        rows = [
            ((OWN_AS, True), (WIDE_AS, True), WIDE_AS, recording.WIDE),
            ((OWN_AS, True), (PEER_AS, False), PEER_AS, (0, 1, 6)),
            ((OWN_AS, False), (PEER_AS, True), PEER_AS, (0, 1, 6)),
            ((OWN_AS, False), (WIDE_AS, True), 23456, (0, 1, 6)),
        ]
        for ours, theirs, asn, subtypes in rows:
            opens = [opened(number, *([four_bytes(number)] if wide else [])) for number, wide in (ours, theirs)]
            talk = Talk().establish(*opens).say(False, update(prefix("198.51.100.0/24"), wide=False))
            _, data, told = PROGRAM.run("--own", OWN, "capture", capture=pcap(talk.packets))
            read = recording.read(data)
            self.assertEqual({item[1] for item in read}, {asn})
            self.assertLessEqual({item[3] for item in read}, set(subtypes))
            self.assertEqual(any("written as 23456" in line for line in told), asn == 23456)

    def test_path_identifiers_are_told_and_skipped(self):
        opens = [opened(OWN_AS, four_bytes(OWN_AS), add_path(1)), opened(PEER_AS, four_bytes(PEER_AS), add_path(2))]
        talk = Talk().establish(*opens).say(False, update(bytes(4) + prefix("198.51.100.0/24")))
        talk.say(False, END_OF_RIB).say(True, SAID)
        found, told = convert(pcap(talk.packets))
        self.assertEqual(found[5:], [None, (RECEIVED, END_OF_RIB), (SENT, SAID)])
        self.assertIn("mrt-from-capture: note 1: UPDATEs with path identifiers, whose subtypes netreview skips", told)

    def test_a_session_that_is_up_when_the_capture_begins(self):
        packets = small().say(False, HEARD).say(True, SAID).say(True, flags=RST).packets[8:]
        told = PROGRAM.run("--own", OWN, "capture", capture=pcap(packets))[2]
        self.assertIn("mrt-from-capture: left out 3: messages of sessions whose peer's AS isn't known (--peer)", told)
        peer = ("--peer", f"{PEER}={PEER_AS}")
        self.assertEqual(convert(pcap(packets), *peer)[0], [])
        for size, subtypes in (("2", [6, 1, 6, 0]), ("4", [7, 4, 7, 5])):
            words = ("--own", OWN, "capture", *peer, "--as-size", size, "--own-as", str(OWN_AS))
            _, data, told = PROGRAM.run(*words, capture=pcap(packets))
            self.assertEqual([(item[1], item[3]) for item in recording.read(data)],
                             [(PEER_AS, subtype) for subtype in subtypes])
            self.assertIn("mrt-from-capture: note 1: sessions that are up when the capture begins", told)

    def test_a_capture_that_begins_within_a_message(self):
        talk = small().say(False, HEARD[30:]).say(False, END_OF_RIB)
        found, told = convert(pcap(talk.packets[-2:]), "--peer", f"{PEER}={PEER_AS}", "--as-size", "4")
        self.assertEqual(found, [(RECEIVED, END_OF_RIB)])
        self.assertIn(f"mrt-from-capture: left out {len(HEARD) - 30}: bytes before the first message of a session that"
                      " is up when the capture begins", told)

    def test_two_neighbours(self):
        one, two = small(), Talk(OTHER).establish(None, opened(WIDE_AS, four_bytes(WIDE_AS))).say(False, HEARD)
        packets = sorted(one.packets + two.packets, key=lambda item: item[0])
        data = PROGRAM.run("--own", OWN, "capture", capture=pcap(packets))[1]
        self.assertEqual([item[2] for item in shown(data) if item[3] == HEARD], [PEER_AS, WIDE_AS])


class Words(unittest.TestCase):
    """The words of all programs."""

    def test_help(self):
        for name in ("mrt-from-capture", "mrt-from-bmp", "mrt-from-openbgpd", "mrt-mend"):
            text = io.StringIO()
            with contextlib.redirect_stdout(text), self.assertRaises(SystemExit) as ended:
                programs.load(name).main(["--help"])
            self.assertEqual((ended.exception.code, text.getvalue().split()[:2]), (0, ["usage:", name]))

    def test_a_file_that_is_not_there(self):
        status, out, told = PROGRAM.run("--own", OWN, "nowhere/at-all")
        self.assertEqual((status, out, len(told)), (1, None, 1))


class Faults(unittest.TestCase):
    """Input that can't be read."""

    def test_what_is_no_capture(self):
        for data in (b"", b"BGP", bytes(100), b"\x0a\x0d\x0d\x0a" + bytes(30)):
            status, out, told = PROGRAM.run("--own", OWN, "capture", capture=data)
            self.assertEqual((status, out, len(told)), (1, None, 1))

    def test_each_truncation(self):
        for capture in (pcap(small().packets), pcapng(small().packets)):
            for size in range(len(capture)):
                status, data, told = PROGRAM.run("--own", OWN, "capture", capture=capture[:size])
                self.assertIn(status, (0, 1))
                if status == 0:
                    wanted = Captures.WANTED[:len(shown(data))]
                    self.assertEqual([(item[1], item[3]) for item in shown(data)], wanted)
                self.assertTrue(told)


if __name__ == "__main__":
    unittest.main()
