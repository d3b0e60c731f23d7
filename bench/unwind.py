#!/usr/bin/env python3
"""Counts the instructions of `unwind` among events that stand: python3 bench/unwind.py [PROGRAM].

A net has a tree that is erased in 127 events, and copies of a small net of nine events each. All are fired. Then the first
event of the tree is undone with all that rest on it, and the tree is reduced again, forty times. For three numbers of copies,
prints how many events stand, and how many instructions an event takes that is undone and fired again: those of the session
without those of the session that ends before. They are counted by valgrind.
"""

import re
import subprocess
import sys
import tempfile

from program import program_named
from reduce import COPY, COPY_EVENTS

DEPTH = 6
EVENTS = 2 ** (DEPTH + 1) - 1
TURNS = 40
COPIES = (97, 1_097, 10_875)
COUNT = ["valgrind", "--tool=callgrind", "--callgrind-out-file=/dev/null"]
COUNTED = re.compile(r"Collected : (\d+)")


def tree():
    """A net that is reduced in as many events as it has agents but one."""
    text = "E"
    for _ in range(DEPTH):
        text = f"G({text},{text})"
    return f"E={text};\n"


def instructions(program, text):
    """The instructions of a session, of which no command is refused."""
    with tempfile.TemporaryFile() as file:
        file.write(text.encode())
        file.seek(0)
        done = subprocess.run([*COUNT, program], stdin=file, capture_output=True, check=False)
    counted = COUNTED.search(done.stderr.decode())
    if done.returncode != 0 or counted is None or b"refused" in done.stdout:
        sys.exit(f"{program}: status {done.returncode}, {done.stdout[:80]}")
    return int(counted.group(1))


def main():
    program = program_named(sys.argv[1:])
    print(f"{'stand':>8}{'instructions':>14}")
    for copies in COPIES:
        stand = EVENTS + len(COPY_EVENTS) * copies
        fired = f"{tree()}{COPY * copies}---\nreduce {stand}\n"
        turned = fired + f"unwind 0 1\nreduce {EVENTS}\n" * TURNS
        taken = instructions(program, turned) - instructions(program, fired)
        print(f"{stand:>8}{taken / (TURNS * EVENTS):>14.0f}", flush=True)


if __name__ == "__main__":
    main()
