"""Where the built program is, for the scripts that run it."""

import pathlib
import sys

PROGRAM = pathlib.Path(__file__).resolve().parent.parent / "crates/ic_bench/out/ic_bench"
MISSING = 2


def need(program):
    """Ends the script with status 2 if there is no such program, and says what builds it."""
    if not pathlib.Path(program).is_file():
        print(f"{program} isn't there: `rt ci` at the top of the repository builds it", file=sys.stderr)
        sys.exit(MISSING)
    return str(pathlib.Path(program).resolve())


def program_named(words):
    """The program that the first of these words names; without words, the built one."""
    return need(words[0] if words else PROGRAM)
