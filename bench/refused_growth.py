#!/usr/bin/env python3
"""Refuses each growth of memory in turn, and looks whether all is as it was and the same call can be made again.

    python3 bench/refused_growth.py [WORD..]

It runs what `rt ci` has built: each test below and each worked session again and again, the first time with the first
allocation refused, then with the second one, and so on until a run meets none that is refused. With words given, only tests
and sessions whose names contain one of them are run. It needs a C compiler, for the few lines that refuse. All of it takes
about five minutes.

Tests: each passes whichever allocation is refused. It looks at what is left where a call is answered as out of memory,
and makes the call again.

Sessions: where no answer can be given, the program ends with status 3, and what it wrote is a front of what it writes
with memory. Where a command is answered by `refused 25`, it is given once more, with the same allocation refused: then
the first of both answers is the refusal, the second what is wanting of the worked answer, and all others are the worked
ones. A `step N` that stops early lists what it fired, and another does the rest. With several workers, of which no two
runs take memory in one order, what was written up to the refusal is looked at alone. Sessions that would run for longer
than half a minute have some allocations refused, from the first to the last, and what they wrote up to the refusal is
looked at alone.
"""
import os
import pathlib
import re
import struct
import subprocess
import sys
import tempfile
import time

from program import PROGRAM, need

CRATES = pathlib.Path(__file__).resolve().parent.parent / "crates"
ROWS = CRATES / "ic_rows" / "data"

# The tests that pass whichever allocation is refused, by crate: links of the fast store; calls of desks over both stores,
# sessions of one and two workers, and undos with room; firings and sweeps of a shared bench.
TESTS = {
    "ic_test_text": ["table::growth"],
    "ic_test_session": ["desk::refused_growth", "session::repeated_lines", "desk::undos_with_room"],
    "ic_test_work": ["shared::refused_growth"],
}

# A session has all of its allocations refused where that takes about these seconds at most, and else so many as do.
SECONDS = 30

STATUS_OF_NO_MEMORY = 3

# Refuses the allocation of the number REFUSED, and counts them in the file ASKED.
REFUSER = r"""
#include <errno.h>
#include <fcntl.h>
#include <stdatomic.h>
#include <stdlib.h>
#include <sys/mman.h>
#include <unistd.h>

extern void *__libc_malloc(size_t);
extern void *__libc_realloc(void *, size_t);

static atomic_long here;
static atomic_long *asked = &here;
static long refused;

__attribute__((constructor)) static void begin(void) {
    refused = atol(getenv("REFUSED"));
    int file = open(getenv("ASKED"), O_RDWR | O_CREAT | O_TRUNC, 0600);
    if (file < 0 || ftruncate(file, sizeof here)) return;
    void *shared = mmap(NULL, sizeof here, PROT_READ | PROT_WRITE, MAP_SHARED, file, 0);
    if (shared != MAP_FAILED) asked = shared;
}

static int refuse(void) {
    if (atomic_fetch_add(asked, 1) + 1 != refused) return 0;
    errno = ENOMEM;
    return 1;
}

void *malloc(size_t size) { return refuse() ? NULL : __libc_malloc(size); }
void *realloc(void *old, size_t size) { return refuse() ? NULL : __libc_realloc(old, size); }
"""


class Refuser:
    """Runs commands with one allocation refused."""

    def __init__(self, folder):
        self.asked = folder / "asked"
        self.given = folder / "given"
        self.library = folder / "refuser.so"
        source = folder / "refuser.c"
        source.write_text(REFUSER)
        subprocess.run(["cc", "-O2", "-shared", "-fPIC", "-o", self.library, source], check=True)

    def run(self, command, refused, given=b""):
        """Status and output with the allocation of this number refused, and how many there were; 0 refuses none.

        The input is a file: of a pipe, less may be read at a time, and that changes how often memory is asked for.
        """
        env = {**os.environ, "LD_PRELOAD": str(self.library), "REFUSED": str(refused), "ASKED": str(self.asked)}
        self.given.write_bytes(given)
        with self.given.open("rb") as read:
            ran = subprocess.run(command, stdin=read, capture_output=True, env=env, timeout=60)
        return ran.returncode, ran.stdout, struct.unpack("l", self.asked.read_bytes())[0]


def fails_in_test(refuser, command):
    """At which allocations a test fails, and how many there are."""
    failed, refused = [], 0
    while True:
        refused += 1
        status, _, asked = refuser.run(command, refused)
        if status != 0:
            failed.append(refused)
        if asked < refused:
            return failed, refused - 1


class Session:
    """A worked session: its net, its commands, each with the lines that belong to it, and how it is answered."""

    def __init__(self, line):
        self.name, self.workers, self.budget, self.status, stores, _ = line.split("\t")
        self.command = [str(PROGRAM), "--workers", self.workers, "--budget", self.budget]
        if stores == "explained":
            self.command.append("--explain")
        self.text = (ROWS / f"{self.name}.in").read_bytes()
        self.answer = (ROWS / f"{self.name}.out").read_bytes()
        bar = re.search(rb"^---\r?(\n|\Z)", self.text, re.M)
        self.net, rest = (self.text[: bar.end()], self.text[bar.end() :]) if bar else (self.text, b"")
        lines = rest.splitlines(keepends=True)
        if lines and not lines[-1].endswith(b"\n"):
            lines[-1] += b"\n"
        self.commands = []
        while lines:
            taken = re.fullmatch(rb"absorb (\d{1,4})\n", lines[0])
            count = 1 + (int(taken[1]) if taken else 0)
            self.commands.append(b"".join(lines[:count]))
            lines = lines[count:]

    def front(self, count):
        """The session with so many of its commands."""
        return self.net + b"".join(self.commands[:count])

    def places(self, refuser):
        """How long the answers to the first commands are, for each number of them."""
        return [len(refuser.run(self.command, 0, self.front(k))[1]) for k in range(len(self.commands) + 1)]


def what_is_wanting(command, refusal, whole):
    """The command that does the rest of one that was refused so, and the answer to it; None where that isn't known."""
    if refusal in (b"refused 25 memory\n", b"refused 25 memory after 0\n", b"refused 25 memory after 0 undone 0 fired\n"):
        return command, whole
    done = re.fullmatch(rb"refused 25 memory after (\d+)\n", refusal)
    asked = re.fullmatch(rb"reduce (\d+)\n", command)
    told = re.fullmatch(rb"reduced (\d+) (\w+)\n", whole)
    if done and asked and told:
        rest = int(told[1]) - int(done[1])
        most = rest if told[2] == b"budget" else int(asked[1])
        return b"reduce %d\n" % most, b"reduced %d %s\n" % (rest, told[2])
    done = re.fullmatch(rb"refused 25 memory after (\d+) undone (\d+) fired\n", refusal)
    told = re.fullmatch(rb"(back \S+) undone (\d+) fired (\d+)\n", whole)
    if done and told:
        undone, fired = int(told[2]) - int(done[1]), int(told[3]) - int(done[2])
        return command, b"%s undone %d fired %d\n" % (told[1], undone, fired)
    return None


def goes_on_stepping(refuser, session, places, refused, status, written):
    """Whether a `step N` stopped early, and the firings that it lists and those of another `step` together are the worked ones."""
    place = max(k for k in range(len(session.commands)) if session.answer[: places[k]] == written[: places[k]])
    asked = re.fullmatch(rb"step (\d+)\n", session.commands[place])
    told = re.match(rb"stepped (\d+)\n", written[places[place] :])
    if not asked or not told:
        return False
    done = int(told[1])
    listed = written[places[place] + told.end() :].splitlines(keepends=True)[:done]
    fired = session.answer[places[place] : places[place + 1]].splitlines(keepends=True)[1:]
    if fired[:done] != listed or done >= len(fired):
        return False
    again = b"step %d\n" % (int(asked[1]) - done)
    text = session.front(place + 1) + again + b"".join(session.commands[place + 1 :])
    rest = b"stepped %d\n" % (len(fired) - done) + b"".join(fired[done:])
    answer = session.answer[: places[place]] + told[0] + b"".join(listed) + rest + session.answer[places[place + 1] :]
    return refuser.run(session.command, refused, text)[:2] == (status, answer)


def is_right(refuser, session, places, refused, status, written):
    """Whether a run of a session with this allocation refused ended and wrote as it should."""
    if status == STATUS_OF_NO_MEMORY:
        return session.answer.startswith(written)
    if status != int(session.status):
        return False
    if written == session.answer:
        return True
    found = re.search(rb"^refused 25 memory.*\n", written, re.M)
    if found is None:
        return session.workers == "1" and goes_on_stepping(refuser, session, places, refused, status, written)
    if not session.answer.startswith(written[: found.start()]):
        return False
    if session.workers != "1":
        return True
    place = max(k for k in range(len(session.commands)) if places[k] == found.start())
    command, whole = session.commands[place], session.answer[places[place] : places[place + 1]]
    again = what_is_wanting(command, found[0], whole)
    if again is None:
        return False
    text = session.front(place + 1) + again[0] + b"".join(session.commands[place + 1 :])
    answer = session.answer[: places[place]] + found[0] + again[1] + session.answer[places[place + 1] :]
    return refuser.run(session.command, refused, text)[:2] == (status, answer)


def fails_in_session(refuser, session):
    """At which allocations a session ends or writes something wrong, how many were refused, and how many there are."""
    begun = time.perf_counter()
    _, written, asked = refuser.run(session.command, 0, session.text)
    taken = time.perf_counter() - begun
    if written != session.answer:
        return ["none"], 0, asked
    step = max(1, int(asked * taken / SECONDS))
    places = session.places(refuser) if session.workers == "1" and step == 1 else []
    failed, tried = [], 0
    for refused in range(1, asked + 1, step):
        status, written, _ = refuser.run(session.command, refused, session.text)
        tried += 1
        if places or session.workers != "1":
            right = is_right(refuser, session, places, refused, status, written)
        else:
            right = is_begun(session, status, written)
        if not right:
            failed.append(refused)
    return failed, tried, asked


def is_begun(session, status, written):
    """Whether a long session wrote as it should up to a refusal, if there is one."""
    if status not in (STATUS_OF_NO_MEMORY, int(session.status)):
        return False
    front = re.split(rb"^refused 25 memory.*\n", written, maxsplit=1, flags=re.M)[0]
    return session.answer.startswith(front)


def main():
    need(PROGRAM)
    words = sys.argv[1:]
    wanted = lambda name: not words or any(word in name for word in words)
    bad, met = [], 0
    with tempfile.TemporaryDirectory() as folder:
        refuser = Refuser(pathlib.Path(folder))
        for crate, modules in TESTS.items():
            program = need(CRATES / crate / "out" / f"{crate}_tests")
            listed = subprocess.run([program, "--list"], capture_output=True, text=True, check=True).stdout
            for name in re.findall(r"^(\S+): test$", listed, re.M):
                if name.rpartition("::")[0] in modules and wanted(name):
                    failed, asked = fails_in_test(refuser, [program, name])
                    met += asked
                    bad += [f"{crate} {name} at {number}" for number in failed]
                    print(f"{crate} {name}: each of {asked} allocations refused", flush=True)
        for line in (ROWS / "index.tsv").read_text().splitlines()[1:]:
            session = Session(line)
            if wanted(session.name):
                failed, tried, asked = fails_in_session(refuser, session)
                met += tried
                bad += [f"{session.name} at {number}" for number in failed]
                print(f"session {session.name}: {tried} of {asked} allocations refused", flush=True)
    print(f"{met} runs, failed: {', '.join(bad) or 'none'}")
    return 1 if bad else 0


if __name__ == "__main__":
    sys.exit(main())
