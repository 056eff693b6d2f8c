"""What each program wrote is read by `netreview record`, and the counts agree."""

import pathlib
import struct
import subprocess
import tempfile
import unittest

import programs  # (which finds the modules of bench/)

import history
import recording
import test_bmp
import test_capture
import test_openbgpd
from test_mend import OPEN, UP, WIDE_OPEN, file_of
from writers import (END_OF_RIB, OTHER, OWN, OWN_AS, PEER, PEER_AS, WIDE_AS, Talk, four_bytes, notification, opened,
                     pcap, peer_down)

BUILT = programs.TOP / "crates" / "netreview" / "out" / "netreview"
PROMISE = (f"network {OWN_AS}; commit 3600;"
           f" neighbour one as {PEER_AS} at {PEER}; neighbour two as {WIDE_AS} at {OTHER};"
           " promise kept grace 0 { bits <= 32 }\n")


def converted(name, *words, **files):
    """What a program makes of files, and what it says that it wrote: messages received and sent, and states."""
    status, data, told = programs.Program(name).run(*words, **files)
    assert status == 0, told
    numbers = [int(word) for word in told[-1].replace(",", "").split() if word.isdigit()]
    return data, dict(zip((history.RECV, history.SEND, history.STATE), numbers[1:4]))


def recorded(data):
    """How many entries of each kind `record` appends for a file, and how many records it skips."""
    with tempfile.TemporaryDirectory() as folder:
        def run(*words):
            return subprocess.run([BUILT, *words], cwd=folder, stdout=subprocess.PIPE, check=True).stdout.decode()

        for name, content in (("mrt", data), ("promise", PROMISE.encode()), ("seed", bytes(range(32)))):
            (pathlib.Path(folder) / name).write_bytes(content)
        run("keygen", "--as", str(OWN_AS), "--height", "4", "--seed", "seed", "--key", "key")
        text = run("record", "--promise", "promise", "--key", "key", "--log", "log", "mrt")
        kinds = [kind for batch in recording.entries_of((pathlib.Path(folder) / "log").read_bytes())
                 for _, kind, _ in batch]
    return {kind: kinds.count(kind) for kind in (history.RECV, history.SEND, history.STATE)}, int(text.split()[-1])


@unittest.skipUnless(BUILT.exists(), f"{BUILT} isn't there: `rt ci` builds it")
class Counts(unittest.TestCase):
    """The entries of a log are the records that a program says it wrote."""

    def check(self, data, wrote):
        """Records a file, of which nothing may be skipped."""
        self.assertEqual(recorded(data), (wrote, 0))
        self.assertTrue(any(wrote.values()))

    def test_mrt_from_capture(self):
        one = test_capture.small().say(False, END_OF_RIB).say(True, notification())
        two = Talk(OTHER, at=one.time).establish(None, opened(WIDE_AS, four_bytes(WIDE_AS))).say(False, END_OF_RIB)
        self.check(*converted("mrt-from-capture", "--own", OWN, "capture", capture=pcap(one.packets + two.packets)))

    def test_mrt_from_bmp(self):
        stream = test_bmp.small() + peer_down(test_bmp.AT + 9, 3, notification())
        self.check(*converted("mrt-from-bmp", "stream", stream=stream))

    def test_mrt_from_openbgpd(self):
        dumps = test_openbgpd.Dumps().come_up().come_up(WIDE_AS, OTHER).hear(4, test_openbgpd.HEARD).say(4, END_OF_RIB)
        self.check(*converted("mrt-from-openbgpd", "--received", "i", "--sent", "o", i=dumps.received, o=dumps.sent))

    def test_mrt_mend(self):
        stop = struct.pack(">IHHI", 1_800_000_000, 17, 5, 16) + bytes(16)
        lost = (5, (6, 7)), (5, (1, 3), PEER_AS, "0.0.0.0")
        file = file_of((1, OPEN), *UP, (1, WIDE_OPEN, 23456, OTHER), *lost) + stop
        self.check(*converted("mrt-mend", "--from", "frr", "mrt", mrt=file))


class Same(unittest.TestCase):
    """One session by two ways."""

    def test_a_capture_and_the_files_of_openbgpd_give_the_same_entries(self):
        talk, dumps = test_capture.small(), test_openbgpd.Dumps().come_up()
        dumps.hear(4, test_capture.HEARD).say(4, test_capture.SAID)
        captured = converted("mrt-from-capture", "--own", OWN, "capture", capture=pcap(talk.packets))[0]
        dumped = converted("mrt-from-openbgpd", "--received", "i", "--sent", "o", i=dumps.received, o=dumps.sent)[0]
        contents = []
        for data in (captured, dumped):
            events, skipped = recording.kept([(PEER_AS, 0xC000020A)], recording.read(data))
            contents.append(([content for _, kind, content in events if kind == history.SEND],
                             [content for _, kind, content in events if kind == history.RECV], skipped))
        self.assertEqual(contents[0], contents[1])


if __name__ == "__main__":
    unittest.main()
