"""Tests of timeline: the picture and the page that it makes of a report."""

import random
import re
import unittest
import xml.etree.ElementTree as trees

import programs
from programs import TOP

import clock
import logs
import reports
import two_days

PROGRAM = programs.Program("timeline")
SVG = "{http://www.w3.org/2000/svg}"
BEGIN = 1_767_225_600_000_000
END = BEGIN + 86_400_000_000 - 1
ENDS = "--from", str(BEGIN), "--to", str(END)
FORMULA = "if r = sent(peer) then length(r) <= 3 and med(r) < 7 and bits > 8 else true end"
PROMISES = f"""network 64500;
commit 60;
neighbour peer as 64511 at 192.0.2.11 root #{"0" * 64} number 3;
group peers = peer;
define own = 203.0.113.0/24 le 26, 198.51.100.0/24;
promise short grace 30 {{ {FORMULA} }}
promise reachable grace 0 at 203.0.113.0/24, 198.51.100.0/24 {{ some n in peers {{ sent(n) }} }}
"""
VALUE = "ab" * 32


def broken(begin, end, name="short", prefix="203.0.113.0/24"):
    """A line of a broken promise, its times as seconds of the day."""
    return f"broken {name} {prefix} {BEGIN + begin * clock.SECOND} {BEGIN + end * clock.SECOND}"


def run(lines, *words, promises=PROMISES, **files):
    """The status, the text and what is told of a run over these lines."""
    text = "".join(line + "\n" for line in lines)
    status, data, told = PROGRAM.run("--promise", "p", "--report", "r", *(words if "--from" in words else ENDS + words),
                                     p=promises.encode(), r=text.encode(), **files)
    return status, data and data.decode(), told


def drawn(lines, *words, **files):
    """The tree of what is written for these lines."""
    status, text, told = run(lines, *words, **files)
    assert status == 0, told
    return trees.fromstring(text)


def marks(tree, kind):
    """The shapes of a kind."""
    return [shape for shape in tree.iter() if shape.get("class") == kind]


def words_of(tree):
    """All words of a tree."""
    return [text for text in tree.itertext() if text.strip()]


def many(count):
    """So many lines of broken promises."""
    dice = random.Random(count)
    lines = []
    for _ in range(count):
        begin = dice.randrange(80_000)
        lines.append(broken(begin, begin + dice.randrange(30, 6_000), dice.choice(("short", "reachable")),
                            f"10.{dice.randrange(40)}.{dice.randrange(20)}.0/24"))
    return lines


class Pictures(unittest.TestCase):
    """The SVG."""

    def test_a_bar_for_each_line(self):
        for count in (1, 2, 30, 300):
            lines = many(count)
            bars = marks(drawn(lines), "run")
            told = [bar.find(SVG + "title").text for bar in bars]
            self.assertEqual(len(bars), count)
            for line in lines:
                _, name, prefix, begin, end = line.split()
                self.assertTrue(any(text.startswith(f"{name} broken at {prefix} from ") and text.endswith(
                    f"({begin} to {end})") for text in told), line)

    def test_a_bar_stands_where_its_times_are(self):
        bar, = marks(drawn([broken(21_600, 64_800)]), "run")
        ends = [float(end.get("d").split()[0][1:]) for end in marks(drawn(["clean"]), "period")]
        begin, width = float(bar.get("x")), float(bar.get("width"))
        quarter = (ends[1] - ends[0]) / 4
        self.assertAlmostEqual(begin, ends[0] + quarter, delta=.2)
        self.assertAlmostEqual(width, 2 * quarter, delta=.2)

    def test_a_short_run_is_seen_and_stays_inside(self):
        for second in (0, 86_399):
            bar, = marks(drawn([broken(second, second)]), "run")
            self.assertGreaterEqual(float(bar.get("width")), 3)
            self.assertLessEqual(float(bar.get("x")) + float(bar.get("width")), 840)

    def test_runs_that_reach_an_end_of_the_period_have_an_arrow(self):
        lines = [f"broken short 10.0.0.0/8 {BEGIN} {END}", broken(1, 100)]
        self.assertEqual(len(marks(drawn(lines), "reaches")), 2)

    def test_conflicts_and_wrong_entries(self):
        tree = drawn([f"conflict 3 {BEGIN + 5} {VALUE}", "wrong 4 neighbour", "wrong 5 overdue", broken(5, 60)])
        self.assertEqual([len(marks(tree, kind)) for kind in ("conflict", "wrong", "run")], [1, 2, 1])
        told = " ".join(words_of(tree))
        self.assertIn("conflict: entry 3, 2026-01-01 00:00:00.000005 UTC", told)
        for cause in ("neighbour", "overdue"):
            self.assertIn(f"{cause}: {reports.CAUSES[cause]}", told)

    def test_every_promise_has_a_row(self):
        told = words_of(drawn([broken(5, 60)]))
        self.assertIn("short", told)
        self.assertIn("reachable", told)
        self.assertIn("grace 0 s; no broken run", told)

    def test_the_longest_runs_first(self):
        lines = [broken(1, 40, prefix="10.0.0.0/8"), broken(1, 900, prefix="11.0.0.0/8"),
                 broken(1, 90, prefix="12.0.0.0/8")]
        told = words_of(drawn(lines))
        self.assertEqual([word for word in told if re.fullmatch(r"1\d\.0\.0\.0/8", word)],
                         ["11.0.0.0/8", "12.0.0.0/8", "10.0.0.0/8"])
        tree = drawn(lines, "--most", "1")
        self.assertEqual([bar.find(SVG + "title").text.split()[3] for bar in marks(tree, "run")], ["11.0.0.0/8"])
        self.assertIn("2 more runs without a bar, at 2 prefixes: of at most 1 min 29 s each, 2 min 8 s in all",
                      words_of(tree))

    def test_ten_thousand_lines(self):
        lines = [f"conflict {seq} {BEGIN + seq} {VALUE}" for seq in range(1, 2001)]
        lines += [f"wrong {seq} {cause}" for seq, cause in zip(range(1, 2001), 250 * list(reports.CAUSES))]
        lines += many(6_000)
        for words in ((), ("--html",)):
            tree = drawn(lines, *words)
            self.assertEqual([len(marks(tree, kind)) for kind in ("run", "conflict", "wrong")], [500, 500, 500])
            told = " ".join(words_of(tree))
            self.assertIn("1,500 more conflicts", told)
            self.assertIn("1,500 more wrong entries", told)
            left = sum(int(count.replace(",", "")) for count in re.findall(r"([\d,]+) more runs? without", told))
            self.assertEqual(left, 5_500)
        self.assertEqual(len(marks(drawn(lines, "--most", "6000"), "run")), 6_000)

    def test_an_empty_report(self):
        tree = drawn(["clean"])
        self.assertIn("clean: nothing was found in this period", words_of(tree))
        self.assertEqual([marks(tree, kind) for kind in ("run", "conflict", "wrong")], [[], [], []])

    def test_the_ends_of_the_period_in_utc_and_in_microseconds(self):
        told = words_of(drawn(["clean"]))
        for words in ("from 2026-01-01 00:00:00", "to 2026-01-01 23:59:59.999999", str(BEGIN), str(END)):
            self.assertIn(words, told)

    def test_any_period(self):
        most = (1 << 63) - 1
        for begin, end in ((0, 0), (7, 7), (0, 1), (0, most), (most, most), (BEGIN, BEGIN + 12)):
            lines = [f"broken short 10.0.0.0/8 {begin} {end}", f"conflict 1 {end} {VALUE}"]
            tree = drawn(lines, "--from", str(begin), "--to", str(end))
            self.assertEqual([len(marks(tree, kind)) for kind in ("run", "conflict")], [1, 1])

    def test_no_script_and_nothing_from_elsewhere(self):
        for words in ((), ("--html",)):
            _, text, _ = run([broken(5, 60), "wrong 4 ack"], *words)
            self.assertEqual(re.findall(r"https?://[^\"' ]*", text), ["http://www.w3.org/2000/svg"])
            for piece in ("<script", "href", "src=", "@import", "url(", "onload", "<image", "<foreignObject"):
                self.assertNotIn(piece, text)

    def test_texts_are_escaped(self):
        bad = PROMISES.replace(FORMULA, "</title><script>alert(1)</script> & \"'<b ]]> " + "<!--")
        for words in ((), ("--html",)):
            status, text, _ = run([broken(5, 60)], *words, promises=bad)
            self.assertEqual(status, 0)
            tree = trees.fromstring(text)
            self.assertFalse([each for each in tree.iter() if each.tag.split("}")[-1] in ("script", "b")])
            self.assertTrue(any("<script>alert(1)</script> &" in word for word in words_of(tree)))


class Pages(unittest.TestCase):
    """The HTML page."""

    def test_a_row_for_each_line(self):
        lines = [f"conflict 3 {BEGIN + 5} {VALUE}", "wrong 4 neighbour", *many(20)]
        tree = drawn(lines, "--html")
        rows = [len(table.findall("tbody/tr")) for table in tree.iter("table")]
        self.assertEqual(rows, [20, 1, 1, 2])
        self.assertEqual(len(list(tree.iter(SVG + "svg"))), 1)
        self.assertEqual(len(marks(tree, "run")), 20)

    def test_times_of_a_person_beside_microseconds(self):
        cells = [cell.text for cell in drawn([broken(43_200, 43_500)], "--html").iter("td")]
        self.assertEqual(cells[:7], ["short", "203.0.113.0/24", "2026-01-01 12:00:00", "2026-01-01 12:05:00", "5 min",
                                     str(BEGIN + 43_200_000_000), str(BEGIN + 43_500_000_000)])

    def test_formulas_and_what_is_left_out(self):
        tree = drawn(many(30), "--html", "--most", "12")
        self.assertIn(FORMULA, [code.text for code in tree.iter("code")])
        self.assertIn("18 more aren't in this table.", [each.text for each in tree.iter("p")])


class Answers(unittest.TestCase):
    """The times of wrong entries."""

    def answer(self, asn=64500):
        """An answer of three entries, with the bytes of no signature behind it."""
        log = logs.Log(asn)
        for second, content in ((0, b""), (43_200, b"abc"), (50_000, b"x")):
            log.add(BEGIN + second * clock.SECOND, 1, content)
        return log.answer(lambda body: logs.unsigned(0, 1))

    def test_wrong_entries_stand_at_their_times(self):
        tree = drawn(["wrong 2 content", "wrong 3 content"], "--answer", "a", a=self.answer())
        told = " ".join(words_of(tree))
        self.assertIn("wrong: entry 2, 2026-01-01 12:00:00 UTC", told)
        self.assertEqual(marks(tree, "wrong")[0].get("d").split()[0], f"M{(188 + 840) / 2:.1f}")
        self.assertIn("2026-01-01 12:00:00", " ".join(words_of(
            drawn(["wrong 2 content"], "--html", "--answer", "a", a=self.answer()))))

    def test_answers_that_do_not_fit(self):
        for answer, line in ((self.answer(7), "wrong 2 ack"), (self.answer(), "wrong 4 ack"),
                             (self.answer(), "wrong 0 ack"), (b"NRA1", "wrong 2 ack"), (b"", "wrong 2 ack"),
                             (self.answer()[:70], "wrong 2 ack")):
            status, text, told = run([line], "--answer", "a", a=answer)
            self.assertEqual((status, text, len(told)), (1, None, 1))


class Faults(unittest.TestCase):
    """Input that can't be read."""

    def refused(self, lines, what, promises=PROMISES):
        """One line is told, with these words in it, and nothing is written."""
        status, text, told = run(lines, promises=promises)
        self.assertEqual((status, text, len(told)), (1, None, 1), told)
        self.assertIn(what, told[0])

    def test_malformed_lines(self):
        good = broken(5, 60)
        for line in ("", "clean", "Clean", good + " ", " " + good, good + " 7", good.rsplit(" ", 1)[0], "broken",
                     good.replace("/24", "/33"), good.replace("203.", "256."), good.replace("short", "sh<rt"),
                     broken(60, 5), "wrong 4", "wrong 4 nothing", "wrong -4 ack", "wrong 04 ack",
                     f"conflict 3 {BEGIN} {VALUE[1:]}", f"conflict 3 {BEGIN} {VALUE.upper()}", "status 1"):
            self.refused([good, line], "line 2")
            self.assertEqual(run([line])[0], 0 if line == "clean" else 1)

    def test_lines_of_an_audit_that_judged_nothing(self):
        for line in ("usage", "refused head unsigned", "malformed answer 12", "read fault", "write fault", "memory"):
            self.refused([line], f"judged nothing: '{line}'")

    def test_a_report_that_is_cut(self):
        text = (broken(5, 60) + "\n").encode()
        for size in range(len(text)):
            files = {"p": PROMISES.encode(), "r": text[:size]}
            status, out, told = PROGRAM.run("--promise", "p", "--report", "r", *ENDS, **files)
            self.assertEqual((status, out, len(told)), (1, None, 1))

    def test_bytes_that_are_no_text(self):
        self.refused([broken(5, 60) + "\x1b[31m"], "line 1 has a byte")
        self.refused([broken(5, 60)], "line 1 has a byte", PROMISES.replace("64500;", "64500;\r", 1))

    def test_another_period_or_promise_file(self):
        self.refused([f"broken short 10.0.0.0/8 {BEGIN - 1} {BEGIN}"], "period")
        self.refused([f"broken short 10.0.0.0/8 {BEGIN} {END + 1}"], "period")
        self.refused([f"conflict 3 {END + 1} {VALUE}"], "period")
        self.refused([broken(5, 60, "another")], "no promise another")

    def test_a_text_that_is_not_canonical(self):
        for promises in ("malformed promise 185\n", "network 64500; commit 60;\n", PROMISES + "// more\n",
                         PROMISES.replace("} }\n", "}\n}\n"), PROMISES + PROMISES, "commit 60;\n", "\n"):
            self.refused(["clean"], "canonical text", promises)

    def test_words(self):
        self.assertEqual(run(["clean"], "--from", "5", "--to", "4")[::2], (1, ["timeline: --from is above --to"]))
        status, _, told = PROGRAM.run("--promise", "/no/such/file", *ENDS)
        self.assertEqual((status, len(told)), (1, 1))
        for words in (("--from", "-1", "--to", "4"), ("--from", "x", "--to", "4"),
                      ("--from", "0", "--to", str(1 << 63)), (*ENDS, "--most", "0"), ("--from", "0")):
            with self.assertRaises(SystemExit):
                run(["clean"], *words)


class Times(unittest.TestCase):
    """Times as a person reads them."""

    def test_days(self):
        for day, date in ((0, "1970-01-01"), (59, "1970-03-01"), (789, "1972-02-29"), (11_016, "2000-02-29"),
                          (11_017, "2000-03-01"), (20_454, "2026-01-01"), (47_540, "2100-02-28"),
                          (47_541, "2100-03-01"), (106_751_991, "294247-01-10")):
            self.assertEqual(clock.date(day * clock.DAY + clock.DAY - 1), date)

    def test_lengths(self):
        for length, words in ((0, "0 s"), (1, "0.000001 s"), (1_500_000, "1.5 s"), (60_000_000, "1 min"),
                              (303_999_999, "5 min 3 s"), (3_600_000_000, "1 h"), (5_430_000_000, "1 h 30 min"),
                              (90_000_000_000, "1 d 1 h"), (86_400_000_000_000, "1,000 d")):
            self.assertEqual(clock.lasted(length), words)


class Walkthrough(unittest.TestCase):
    """The picture in docs/, of the report that README.md shows."""

    def test_the_picture_is_that_of_the_report(self):
        page = (TOP / "README.md").read_text(encoding="utf-8")
        line, = re.findall(r"^broken stays_inside .*$", page, re.MULTILINE)
        text = run([line], promises=two_days.PROMISES % (64500, 64500))[1]
        self.assertEqual(text, (TOP / "docs" / "walkthrough.svg").read_text(encoding="utf-8"))

    def test_each_cause_of_the_page_has_its_words(self):
        page = (TOP / "docs" / "causes.md").read_text(encoding="utf-8")
        self.assertEqual(list(reports.CAUSES), re.findall(r"^\| \d \| `(\w+)` \|", page, re.MULTILINE))


if __name__ == "__main__":
    unittest.main()
