"""Runs the programs of contrib/ within the tests, and reads what they write."""

import contextlib
import importlib.machinery
import importlib.util
import io
import pathlib
import sys
import tempfile

HERE = pathlib.Path(__file__).resolve().parent
TOP = HERE.parent.parent
for folder in (HERE.parent, TOP / "bench", TOP / "examples"):
    sys.path.insert(0, str(folder))

import recording

SENT, RECEIVED, STATE = "sent", "received", "state"


def load(name):
    """A program of contrib/ as a module."""
    loader = importlib.machinery.SourceFileLoader(name.replace("-", "_"), str(HERE.parent / name))
    module = importlib.util.module_from_spec(importlib.util.spec_from_loader(loader.name, loader))
    loader.exec_module(module)
    return module


class Program:
    """A program that is run over files of a folder of its own."""

    def __init__(self, name):
        self.name, self.module = name, load(name)

    def run(self, *words, **files):
        """The status, the bytes that it wrote and the lines that it told, of a run with these words. A word that is the
        name of one of the files stands for it."""
        with tempfile.TemporaryDirectory() as folder:
            place = pathlib.Path(folder)
            for name, data in files.items():
                (place / name).write_bytes(data)
            words = [str(place / word) if word in files else word for word in words]
            told = io.StringIO()
            with contextlib.redirect_stderr(told):
                status = self.module.main([*words, "--out", str(place / "out")])
            out = place / "out"
            return status, out.read_bytes() if out.exists() else None, told.getvalue().splitlines()


def shown(data):
    """What netreview takes of an MRT file: for each record its time, its kind, the peer's AS and the message or states;
    None for one that it skips."""
    return [item if item is None else (item[0], kind_of(item[3]), item[1], item[4]) for item in recording.read(data)]


def kind_of(subtype):
    """Whether a record of this subtype is of a message, sent or received, or of a state."""
    if subtype in recording.STATES:
        return STATE
    return SENT if subtype in recording.SENT else RECEIVED


def times(data):
    """The times of the records that netreview takes."""
    return [item[0] for item in recording.read(data) if item]
