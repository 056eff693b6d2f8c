"""Tests of the completion for bash, and that it and the manual page have the commands and options of the program."""

import re
import shutil
import subprocess
import unittest

from programs import TOP

COMPLETION, MANUAL = TOP / "contrib" / "completion", TOP / "docs" / "netreview.1"
FILES = "names of files"
# (a shell that isn't completing has no compopt)
SCRIPT = """
load() { . "$1"; }
load "$1" || exit
shift
compopt() { printf '%s\\n' "compopt $*"; }
COMP_WORDS=("$@") COMP_CWORD=$(($# - 1))
_netreview
printf '%s\\n' "${COMPREPLY[@]}"
complete -p netreview
"""


def bash(*words):
    """What a shell prints that sources the completion and has these words, the last of which is to be completed."""
    return subprocess.run(["bash", "--norc", "-c", SCRIPT, "bash", COMPLETION, *words], stdin=subprocess.DEVNULL,
                          stdout=subprocess.PIPE, stderr=subprocess.STDOUT, check=True).stdout.decode().splitlines()


def offered(*words):
    """What is offered for the last of these words behind `netreview`, in the order of the alphabet."""
    lines = bash("netreview", *words)
    assert lines.pop() == "complete -F _netreview netreview", lines
    return sorted(FILES if line == "compopt -o default" else line for line in lines if line)


def grammars():
    """The commands of the definition of words: for each the options that it needs, those that may be left out, and
    whether it takes files."""
    text = (TOP / "crates" / "nr_spec_commands" / "specs" / "Words.antt").read_text(encoding="utf-8")
    found = {}
    for body in re.findall(r"_grammar = record \{(.*?)\}", text, re.DOTALL):
        names = {kind: re.findall(rf'{kind} \(codes "(\w+)"\)', body) for kind in ("required", "optional")}
        found[re.search(r'command = codes "(\w+)"', body)[1]] = (names["required"], names["optional"],
                                                                 "files = true" in body)
    return found


GRAMMARS = grammars()


class Commands(unittest.TestCase):
    """What is offered is what the program takes."""

    def test_commands(self):
        self.assertEqual(offered(""), sorted(GRAMMARS))
        self.assertEqual(offered("a"), ["answer", "audit"])
        self.assertEqual(offered("rec"), ["record"])
        self.assertEqual(offered("x"), [])

    def test_options(self):
        self.assertGreaterEqual(len(GRAMMARS), 5)
        for command, (needed, others, _) in GRAMMARS.items():
            self.assertEqual(offered(command, ""), sorted("--" + name for name in needed + others))
            self.assertEqual(offered(command, "--"), sorted("--" + name for name in needed + others))

    def test_an_option_once(self):
        for words in (("--key", "k"), ("--key", "=", "k")):
            self.assertEqual(offered("answer", *words, "--"), ["--log", "--out"])
        self.assertEqual(offered("answer", "--key", "k", "--log", "l", "--out", "o", ""), [])

    def test_values(self):
        numbers = {"root", "from", "to", "until", "as", "height"}
        for command, (needed, others, _) in GRAMMARS.items():
            for name in needed + others:
                wanted = [] if name in numbers else [FILES]
                for words in (("--" + name, ""), ("--" + name, "="), ("--" + name, "=", "x"), ("--" + name, "x")):
                    self.assertEqual(offered(command, *words), wanted, (command, words))

    def test_files(self):
        for command, (_, _, files) in GRAMMARS.items():
            self.assertEqual(offered(command, "--", ""), [FILES] if files else [])
        self.assertEqual(offered("record", "day"), [FILES])
        self.assertEqual(offered("record", "--promise", "p", "--key", "k", "--log", "l", "--until", "5", ""), [FILES])
        self.assertEqual(offered("check", "day"), [])

    def test_an_unknown_command(self):
        self.assertEqual(offered("audits", "--"), [])


class Manual(unittest.TestCase):
    """The manual page says what the program takes and prints."""

    page = MANUAL.read_text(encoding="ascii")

    def test_the_synopsis(self):
        synopsis = self.page[self.page.index(".Sh SYNOPSIS"):self.page.index(".Sh DESCRIPTION")]
        found = {}
        for part in synopsis.split(".Nm\n")[1:]:
            found[re.search(r"^\.Cm (\w+)$", part, re.MULTILINE)[1]] = (
                re.findall(r"^\.Fl Fl (\w+) Ar", part, re.MULTILINE),
                re.findall(r"^\.Op Fl Fl (\w+) Ar", part, re.MULTILINE), "\n.Op Ar " in part)
        self.assertEqual(found, GRAMMARS)

    def test_each_cause_and_status(self):
        causes = (TOP / "docs" / "causes.md").read_text(encoding="utf-8")
        for cause in re.findall(r"^\| \d \| `(\w+)` \|", causes, re.MULTILINE):
            self.assertIn(f".It Cm {cause}\n", self.page)
        statuses = (TOP / "docs" / "exit-statuses.md").read_text(encoding="utf-8")
        for status in sorted(set(re.findall(r"^\| (\d) \|", statuses, re.MULTILINE))):
            self.assertIn(f".It {status}\n", self.page)
        # (the names of lines and refusals are words of this page)
        for line in re.findall(r"^\| \d \| `((?:refused )?[a-z]+)", statuses, re.MULTILINE):
            self.assertRegex(self.page, rf"(?m)^\.(?:It|Dl) Li {line}\b")

    def test_mandoc_has_nothing_to_say(self):
        # (what the page says is looked at without mandoc, too)
        if shutil.which("mandoc"):
            found = subprocess.run(["mandoc", "-T", "lint", MANUAL], stdout=subprocess.PIPE, stderr=subprocess.STDOUT)
            self.assertEqual((found.returncode, found.stdout.decode()), (0, ""))


if __name__ == "__main__":
    unittest.main()
