"""A report as one SVG: time along, a row for each promise, and under it one for each prefix at which it was broken.

No script stands in it, and nothing is fetched from elsewhere. Each kind of thing has a colour (of those by M. Okabe and
K. Ito, which colour-blind readers tell apart) and a shape of its own.
"""

import collections
import textwrap
from xml.sax.saxutils import escape, quoteattr

import clock
from reports import CAUSES

WIDTH, LEFT, BEGIN, END, RIGHT, EDGE = 1200, 16, 188, 840, 858, 1190
LEAST = 4  # (the width of the shortest bar)
INK, FAINT, BAND, LINE, PAPER = "#222222", "#5a5a5a", "#eef1f4", "#d5dade", "#ffffff"
RUN, CONFLICT, WRONG = "#d55e00", "#0072b2", "#f0e442"
FONT = "'DejaVu Sans', Verdana, 'Segoe UI', Helvetica, Arial, sans-serif"
HEAD, HEIGHT = 128, 36


def counted(count, one, many=None):
    """A count and what is counted."""
    return f"{count:,} {one if count == 1 else many or one + 's'}"


def summary(report):
    """What was found, in a line."""
    if not (report.runs or report.conflicts or report.wrong):
        return "clean: nothing was found in this period"
    broken = len({run.promise for run in report.runs})
    where = f" of {counted(broken, 'promise')} at {prefixes(report.runs)}" if broken else ""
    return (f"{counted(len(report.runs), 'broken run')}{where}, {counted(len(report.conflicts), 'conflict')},"
            f" {counted(len(report.wrong), 'wrong entry', 'wrong entries')}")


def prefixes(runs):
    """At how many prefixes runs are."""
    return counted(len({run.prefix for run in runs}), "prefix", "prefixes")


def longest_first(runs):
    """Runs in the order of their lengths, the longest first, and else as they stand in the report."""
    return sorted(runs, key=lambda run: -run.length)


def together(runs):
    """How long runs lasted together."""
    return clock.lasted(sum(run.length for run in runs))


def run_words(run, report):
    """What a bar shows, in words."""
    ends = (", from the period's begin on" * (run.begin == report.period[0])
            + ", until the period's end" * (run.end == report.period[1]))
    return (f"{run.promise} broken at {run.prefix} from {clock.utc(run.begin)} to {clock.utc(run.end)} UTC,"
            f" {clock.lasted(run.length)}{ends} ({run.begin} to {run.end})")


def runs_words(runs, drawn):
    """How many runs are at a prefix, how many of them have a bar where not all do, and how long they lasted."""
    if drawn < len(runs):
        return f"{drawn:,} of {len(runs):,} runs drawn"
    return counted(len(runs), "run") + (f", {together(runs)} in all" if len(runs) > 1 else "")


class Picture:
    """An SVG that grows downwards."""

    def __init__(self, report):
        self.report, self.at = report, HEAD
        # (what is drawn last lies on top)
        self.lines, self.under, self.parts = [], [], []

    def place(self, time):
        """Where a time stands along the axis."""
        begin, end = self.report.period
        return BEGIN + (END - BEGIN) * (time - begin) / max(1, end - begin)

    # ---- pieces

    def text(self, x, y, words, size=12, fill=INK, anchor="start", weight="normal"):
        """A line of text."""
        self.parts.append(f'<text x="{x:g}" y="{y:g}" font-size="{size:g}" fill="{fill}" text-anchor="{anchor}"'
                          f' font-weight="{weight}">{escape(words)}</text>')

    def shape(self, kind, path, fill, words):
        """A mark of some kind, with the words that a pointer over it shows."""
        self.parts.append(f'<path class={quoteattr(kind)} d="{path}" fill="{fill}" stroke="{INK}" stroke-width="1"'
                          f' stroke-linejoin="round"><title>{escape(words)}</title></path>')

    def diamond(self, x, y, words):
        """The mark of a conflict."""
        self.shape("conflict", f"M{x:.1f} {y - 8}l6 8l-6 8l-6 -8z", CONFLICT, words)

    def triangle(self, x, y, words):
        """The mark of a wrong entry."""
        self.shape("wrong", f"M{x:.1f} {y - 7}l7 13h-14z", WRONG, words)

    def bar(self, y, run):
        """The bar of a run. An arrowhead stands where it reaches an end of the period."""
        begin, end = self.place(run.begin), self.place(run.end)
        width = max(LEAST, end - begin)
        x = min(begin, END - width)
        self.parts.append(f'<rect class="run" x="{x:.1f}" y="{y - 8}" width="{width:.1f}" height="16" fill="{RUN}"'
                          f'><title>{escape(run_words(run, self.report))}</title></rect>')
        for reaches, tip, back in ((run.begin == self.report.period[0], BEGIN - 8, 6),
                                   (run.end == self.report.period[1], END + 8, -6)):
            if reaches:
                self.parts.append(f'<path class="reaches" d="M{tip} {y}l{back} -6v12z" fill="{RUN}"/>')

    def band(self, title, rest, below=None):
        """The head of a section."""
        height = 40 if below else 24
        self.under.append(f'<rect x="0" y="{self.at}" width="{WIDTH}" height="{height}" fill="{BAND}"'
                          f' stroke="{LINE}"/>')
        self.parts.append(f'<text x="{LEFT}" y="{self.at + 16}" font-size="12" fill="{FAINT}"><tspan font-size="13"'
                          f' font-weight="bold" fill="{INK}">{escape(title)}</tspan><tspan dx="8">{escape(rest)}'
                          "</tspan></text>")
        if below:
            self.text(LEFT, self.at + 33, textwrap.shorten(below, 150, placeholder=" .."), 11, FAINT)
        self.at += height

    def row(self, left, below, right, under, size=10.5, fill=FAINT):
        """A row's words: two lines on either side. Gives the middle of the row."""
        y = self.at
        self.text(LEFT + 8, y + 15, left, 12)
        self.text(LEFT + 8, y + 29, below, 10.5, FAINT)
        self.text(RIGHT, y + 15, right, 11)
        self.text(RIGHT, y + 29, under, size, fill)
        self.at += HEIGHT
        self.under.append(f'<path d="M{LEFT} {self.at}H{EDGE}" stroke="{LINE}" stroke-width="0.5"/>')
        return y + HEIGHT // 2

    def note(self, words):
        """A row of words alone."""
        self.under.append(f'<rect x="0" y="{self.at}" width="{WIDTH}" height="24" fill="{PAPER}"/>')
        self.text(LEFT + 8, self.at + 16, words, 11, FAINT)
        self.at += 24

    # ---- sections

    def conflicts(self, most):
        """The signed statements that the answer contradicts."""
        found = self.report.conflicts
        if not found:
            return
        self.band("conflicts", counted(len(found), "signed statement") + " of the network that its answer contradicts")
        meaning = "the network signed another history than the one it shows"
        y = self.row("signed", entries(found), *halves(meaning), 11, INK)
        for conflict in found[:most]:
            self.diamond(self.place(conflict.time), y, f"conflict: entry {conflict.seq}, {clock.utc(conflict.time)} UTC"
                                                       f" ({conflict.time}), chain value {conflict.value}")
        self.left_over(len(found) - most, "conflict")

    def wrong(self, most):
        """The wrong entries, a row for each cause."""
        found = self.report.wrong
        if not found:
            return
        timed = self.report.timed
        self.band("wrong entries", counted(len(found), "entry", "entries") + " against the rules of a log"
                  + ("" if timed else "; in their order, not by time, which --answer gives"))
        drawn = set(map(id, found[:most]))
        for cause, meaning in CAUSES.items():
            of_cause = [entry for entry in found if entry.cause == cause]
            if of_cause:
                y = self.row(cause, entries(of_cause), *halves(meaning), 11, INK)
                marked = [entry for entry in of_cause if id(entry) in drawn]
                step = min(18, (END - BEGIN - 16) / max(1, len(marked)))
                for number, entry in enumerate(marked):
                    when = f", {clock.utc(entry.time)} UTC ({entry.time})" if timed else ""
                    self.triangle(self.place(entry.time) if timed else BEGIN + 12 + number * step, y,
                                  f"wrong: entry {entry.seq}{when}, {cause}: {meaning}")
        self.left_over(len(found) - most, "wrong entry", "wrong entries")

    def left_over(self, count, one, many=None):
        """Says how many marks aren't drawn."""
        if count > 0:
            more = counted(count, "more " + one, many and "more " + many)
            self.note(f"{more} without a mark: the first ones have one")

    def promises(self, most):
        """The promises in the order of their file, and under each the prefixes at which it was broken."""
        of_promise = collections.defaultdict(list)
        for run in self.report.runs:
            of_promise[run.promise].append(run)
        drawn = set(map(id, longest_first(self.report.runs)[:most]))
        for promise in self.report.promises:
            runs = of_promise[promise.name]
            grace = f"grace {clock.lasted(promise.grace * clock.SECOND)}"
            if runs:
                self.band(promise.name, f"{grace}; {counted(len(runs), 'run')} at {prefixes(runs)},"
                                        f" {together(runs)} in all", promise.formula)
                self.prefixes(runs, drawn)
            else:
                self.band(promise.name, f"{grace}; no broken run")

    def prefixes(self, runs, drawn):
        """The prefixes at which a promise was broken, that with the longest run first. Says what isn't drawn."""
        rows = collections.defaultdict(list)
        for run in longest_first(runs):
            rows[run.prefix].append(run)
        for prefix, of_prefix in rows.items():
            bars = [run for run in of_prefix if id(run) in drawn]
            if bars:
                first = of_prefix[0]
                y = self.row(prefix, runs_words(of_prefix, len(bars)),
                             f"from {clock.utc(first.begin)} for {clock.lasted(first.length)}",
                             f"{first.begin} to {first.end}")
                for run in sorted(bars, key=lambda run: run.begin):
                    self.bar(y, run)
        left = [run for run in runs if id(run) not in drawn]
        if left:
            self.note(f"{counted(len(left), 'more run')} without a bar, at {prefixes(left)}: of at most"
                      f" {clock.lasted(max(run.length for run in left))} each, {together(left)} in all")

    # ---- the frame

    def axis(self):
        """The ends of the period, and the marks of the time between them."""
        begin, end = self.report.period
        for x, anchor, word, time in ((BEGIN, "start", "from", begin), (END, "end", "to", end)):
            self.text(x, 76, f"{word} {clock.utc(time)}", 12, anchor=anchor, weight="bold")
            self.text(x, 90, str(time), 10.5, FAINT, anchor)
            self.lines.append(f'<path class="period" d="M{x} 94V{self.at}" stroke="{INK}" stroke-width="1.5"/>')
        times, step = clock.marks(begin, end, 7)
        shown = None
        for time in times:
            x, day = self.place(time), clock.date(time)
            self.lines.insert(0, f'<path d="M{x:.1f} 124V{self.at}" stroke="{LINE}" stroke-width="1"/>')
            # (an end of the period says its time above)
            if BEGIN + 45 < x < END - 45:
                if step < clock.DAY:
                    self.text(x, 108, clock.hour(time, step), 11, anchor="middle")
                if day != shown:
                    self.text(x, 121, day, 10.5, FAINT, "middle")
                shown = day
        self.text(LEFT, 108, "promise", 11, FAINT)
        self.text(LEFT, 121, "and prefix", 11, FAINT)
        self.text(RIGHT, 108, "the longest run, in UTC", 11, FAINT)
        self.text(RIGHT, 121, "and in microseconds since 1970", 11, FAINT)

    def legend(self):
        """What the shapes stand for."""
        y = self.at + 22
        self.parts.append(f'<g class="legend"><rect x="{LEFT}" y="{y - 8}" width="24" height="16" fill="{RUN}"/>'
                          f'<path d="M{LEFT + 320} {y}l6 -6v12z" fill="{RUN}"/>'
                          f'<path d="M{LEFT + 572} {y - 8}l6 8l-6 8l-6 -8z" fill="{CONFLICT}" stroke="{INK}"/>'
                          f'<path d="M{LEFT + 860} {y - 7}l7 13h-14z" fill="{WRONG}" stroke="{INK}"/></g>')
        for x, words in ((32, "a run in which a promise was broken"), (332, "it reaches an end of the period"),
                         (584, "conflict: a statement contradicted"), (872, "wrong entry of the log")):
            self.text(LEFT + x, y + 4, words, 11)
        self.at += 44

    def draw(self, most):
        """The whole SVG, with at most so many marks of each kind."""
        title = f"AS {self.report.network}: what an audit found"
        told = summary(self.report)
        self.text(LEFT, 26, title, 18, weight="bold")
        self.text(LEFT, 46, told, 13)
        self.conflicts(most)
        self.wrong(most)
        self.promises(most)
        self.axis()
        self.legend()
        period = " to ".join(f"{clock.utc(time)} UTC ({time})" for time in self.report.period)
        return "\n".join((
            f'<svg xmlns="http://www.w3.org/2000/svg" width="{WIDTH}" height="{self.at}"'
            f' viewBox="0 0 {WIDTH} {self.at}" role="img" font-family="{FONT}">',
            f"<title>{escape(title)}</title>", f"<desc>{escape(told)}. The period: {escape(period)}.</desc>",
            f'<rect width="{WIDTH}" height="{self.at}" fill="{PAPER}"/>', *self.lines, *self.under,
            *self.parts, "</svg>\n"))


def entries(found):
    """The numbers of entries, in few words."""
    numbers = [each.seq for each in found]
    if len(numbers) < 4:
        return ("entry " if len(numbers) == 1 else "entries ") + ", ".join(map(str, numbers))
    return f"{len(numbers):,} entries, {min(numbers)} to {max(numbers)}"


def halves(words):
    """Words in two lines."""
    lines = textwrap.wrap(words, 50)
    return lines[0], " ".join(lines[1:])


def picture(report, most):
    """A report as an SVG with at most so many bars, and so many marks of each other kind."""
    return Picture(report).draw(most)
