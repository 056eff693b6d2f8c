"""Peak memory of a program, for the other scripts here."""

import subprocess
import tempfile


def peak(words):
    """The most memory that a program has held, in MiB.

    GNU time starts it, since a child of this script would be charged with the script's own memory.
    """
    with tempfile.NamedTemporaryFile("r", encoding="ascii") as file:
        subprocess.run(["/usr/bin/time", "--quiet", "--format", "%M", "--output", file.name, *words],
                       stdout=subprocess.DEVNULL, check=False)
        return int(file.read()) / 1024
