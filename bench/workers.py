#!/usr/bin/env python3
"""Times a reduction by one worker, by two and by four: python3 bench/workers.py [PROGRAM [KIND..]].

Prints, for each kind of net and each number of workers, how many events are fired, the least of the seconds that the reduction
takes, how much longer it takes than by one worker, and which share of the workers' instructions is made under the lock of
the bench. Seconds are those from a command to its answer, in a session that has read its net. There are forty rounds of
one session each, interleaved, and how much longer is told in three ways: by the least of all; by the best of each five in a
row, of which the middle one is told; and by the mean of all. A reduction by many workers is undisturbed only where all
their cores are at once, and one by one worker where its own is: so where a host lets others disturb a core now and then,
bests favour one worker, and means don't. The share is counted by valgrind, with two workers, on a smaller net: it is that of
the calls into the crates of the bench, so that what the compiler put into the worker's own code isn't in it.

All events that a net comes to are fired, so that each number of workers fires the same ones.

erasures, annihilations: independent pairs, from which no other comes
commutations: independent pairs, of whose children two pairs are active then, both of which annihilate
copies: independent nets of nine events, of which one makes the next active
"""

import pathlib
import re
import shutil
import statistics
import subprocess
import sys
import tempfile
import time

from program import program_named
from reduce import COPY, COPY_EVENTS, erasers, self_wired

ROUNDS = 40
GROUP = 5
WORKERS = (1, 2, 4)
KINDS = {
    "erasures": (lambda pairs: (erasers(pairs), pairs), 32_767),
    "annihilations": (lambda pairs: (self_wired(pairs, "G", "G"), pairs), 32_767),
    "commutations": (lambda pairs: (self_wired(pairs, "G", "D"), 3 * pairs), 32_767),
    "copies": (lambda count: (COPY * count, len(COPY_EVENTS) * count), 5_000),
}
# A net is so much smaller where instructions are counted.
SMALLER = 16
CALL = re.compile(r"^\s*([\d,]+) \([^)]*\)\s+([*>])\s+\S*?:(\S+)")
UNDER_LOCK = re.compile(r"ic_(shared|journal|history|set|roster|names|cause|table|ports|slots)::|std_collections::")


def wanted(command, answer, want):
    """Ends where an answer doesn't begin so."""
    if not answer.startswith(want.encode()):
        sys.exit(f"{command}: {answer[:80]}")


def reduction(command, net, events):
    """Seconds from the command to reduce to its answer, once the answer to another tells that the net was read."""
    with subprocess.Popen(command, stdin=subprocess.PIPE, stdout=subprocess.PIPE) as session:
        session.stdin.write(f"{net}---\nundo-all\n".encode())
        session.stdin.flush()
        wanted(command, session.stdout.readline(), "undone-all 0")
        begun = time.perf_counter()
        session.stdin.write(f"reduce {events}\n".encode())
        session.stdin.flush()
        answer = session.stdout.readline()
        taken = time.perf_counter() - begun
        wanted(command, answer, f"reduced {events} ")
    if session.returncode != 0:
        sys.exit(f"{command}: status {session.returncode}")
    return taken


def seconds(program, net, events):
    """Seconds of the reduction, by each number of workers, round by round."""
    took = {workers: [] for workers in WORKERS}
    for _ in range(ROUNDS):
        for workers, taken in took.items():
            taken.append(reduction([program, "--workers", str(workers)], net, events))
    return took


def bests(taken):
    """The least of each so many in a row."""
    return [min(taken[first : first + GROUP]) for first in range(0, len(taken), GROUP)]


def beside(taken, others):
    """How much longer some seconds are than others: by the least, by the bests of each five, and by the mean."""
    fives = [best / other for best, other in zip(bests(taken), bests(others))]
    return min(taken) / min(others), statistics.median(fives), sum(taken) / sum(others)


def under_lock(program, net, events):
    """The share of the workers' instructions that calls of the bench make, as a text; empty where there is no valgrind."""
    if shutil.which("callgrind_annotate") is None:
        return ""
    with tempfile.TemporaryDirectory() as folder:
        counted = pathlib.Path(folder) / "counted"
        count = ["valgrind", "--quiet", "--tool=callgrind", f"--callgrind-out-file={counted}"]
        reduction([*count, program, "--workers", "2"], net, events)
        listed = subprocess.run(
            ["callgrind_annotate", "--tree=calling", "--inclusive=yes", "--threshold=100", counted],
            capture_output=True,
            text=True,
            check=True,
        ).stdout
    whole, held = 0, 0
    for block in listed.split("\n\n"):
        calls = [match.groups() for match in map(CALL.match, block.splitlines()) if match]
        if any(mark == "*" and "::Worker::work" in name for _, mark, name in calls):
            for number, mark, name in calls:
                if mark == "*":
                    whole += int(number.replace(",", ""))
                elif UNDER_LOCK.search(name):
                    held += int(number.replace(",", ""))
    return f"{held / whole:.0%}" if whole else ""


def main():
    program = program_named(sys.argv[1:])
    ways = f"{'by least':>10}{'by fives':>10}{'by mean':>9}"
    print(f"{'net':<14}{'events':>8}{'workers':>9}{'seconds':>9}{ways}{'under lock':>12}", flush=True)
    for kind in sys.argv[2:] or KINDS:
        make, size = KINDS[kind]
        share = under_lock(program, *make(size // SMALLER))
        net, events = make(size)
        took = seconds(program, net, events)
        for workers, taken in took.items():
            shown = share if workers > 1 else ""
            least, fives, mean = beside(taken, took[1])
            ways = f"{least:>10.2f}{fives:>10.2f}{mean:>9.2f}"
            print(f"{kind:<14}{events:>8}{workers:>9}{min(taken):>9.3f}{ways}{shown:>12}", flush=True)


if __name__ == "__main__":
    main()
