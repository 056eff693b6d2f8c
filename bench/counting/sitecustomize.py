"""Notes what each process that Python starts and waits for has cost. bench/gate has `rt ci` load this module.

Each ended process is one line of JSON in the file that GATE_USAGE names: its words, the folder that it ran in and its
processor seconds, with those of the processes that it waited for itself.
"""

import json
import os
import threading

started = {}
writing = threading.Lock()


def waitpid(pid, options):
    """As os.waitpid, and notes what the process that ended has cost."""
    pid, status, usage = os.wait4(pid, options)
    if pid in started:
        words, folder = started.pop(pid)
        line = json.dumps({"words": words, "folder": folder, "seconds": usage.ru_utime + usage.ru_stime})
        with writing, open(os.environ["GATE_USAGE"], "a", encoding="utf-8") as file:
            file.write(line + "\n")
    return pid, status


def watch():
    """Has what subprocess starts be noted when it ends."""
    # (before subprocess is loaded, which keeps this function)
    os.waitpid = waitpid
    import subprocess

    start = subprocess.Popen.__init__

    def init(self, args, *others, **named):
        start(self, args, *others, **named)
        words = [args] if isinstance(args, str) else [os.fsdecode(word) for word in args]
        started[self.pid] = words, os.path.abspath(named.get("cwd") or ".")

    subprocess.Popen.__init__ = init


if "GATE_USAGE" in os.environ:
    watch()
