#!/usr/bin/env python3
"""Runs the sessions of `examples` on the built program: python3 bench/examples.py [PROGRAM].

Each NAME.session has what it is answered beside it, in NAME.session.stdout, and in NAME.session.args the options that it is run
with, if any. What it says on standard error is in errors/NAME.session, or nothing. Prints the names of those that are
answered otherwise, and of those without options that `ic_rows`, which the gate runs, holds in another form. Last comes how
many there are of both; the status is 1 if there are any.
"""

import pathlib
import subprocess
import sys

from program import program_named

EXAMPLES = pathlib.Path(__file__).resolve().parent.parent / "examples"
ROWS = EXAMPLES.parent / "crates/ic_rows/data"
SECONDS = 60


def beside(session, ending):
    """The file of this ending that stands beside a session, if there is one, else nothing."""
    path = session.with_name(session.name + ending)
    return path.read_bytes() if path.exists() else b""


def is_row(session):
    """Whether the worked sessions have this one, byte for byte."""
    row = ROWS / f"example_{session.stem}.in"
    return row.read_bytes() == session.read_bytes() and row.with_suffix(".out").read_bytes() == beside(session, ".stdout")


def difference(program, session):
    """What differs when the program runs the session; None if it answers and says what is stored."""
    said = EXAMPLES / "errors" / session.name
    command = [program, *beside(session, ".args").decode().split(), session]
    try:
        done = subprocess.run(command, stdin=subprocess.DEVNULL, capture_output=True, check=False, timeout=SECONDS)
    except subprocess.TimeoutExpired:
        return f"not ended after {SECONDS} seconds"
    if (done.returncode, done.stdout) != (0, beside(session, ".stdout")):
        return f"answered otherwise, status {done.returncode}"
    if done.stderr != (said.read_bytes() if said.exists() else b""):
        return "other words on standard error"
    return None


def main():
    program = program_named(sys.argv[1:])
    sessions, wrong = sorted(EXAMPLES.glob("*.session")), 0
    for session in sessions:
        found = difference(program, session)
        if found:
            print(f"{session.name}: {found}")
            wrong += 1
        if not beside(session, ".args") and not is_row(session):
            print(f"{session.name}: differs from crates/ic_rows/data")
            wrong += 1
    print(f"{len(sessions)} sessions, {wrong} differences")
    return 1 if wrong else 0


if __name__ == "__main__":
    sys.exit(main())
