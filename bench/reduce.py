#!/usr/bin/env python3
"""Times reductions and undos by the built program: python3 bench/reduce.py [PROGRAM [KIND..]].

Prints, for each kind of session and three sizes of it, how many calls change the bench in it, the least of three runs in
seconds, how much longer that is than the size before, beside how much larger the size is, and the largest memory in MiB.
Reading the net is in each of the times.

erasures, annihilations, commutations: independent pairs are all fired, and all undone, the last first
random: copies of a net are reduced, and all events undone in a causal order by chance
divergent: a gamma and a delta that copy each other, to some depth
wire: a wire is made of many annihilations; events in its middle are undone and fired again
ring: the same of a ring, which is opened and closed
unwind: a tree is erased, and the event of its root undone with all that rest on it
back: erasures are fired and marked, undone, and fired again by going back
"""

import itertools
import os
import random
import subprocess
import sys
import tempfile
import time

from program import program_named

RUNS = 3
TURNS = 500
LETTERS = "abcdefghijklmnopqrstuvwxyz"


def names():
    """Names of four letters, each of them once."""
    return ("".join(letters) for letters in itertools.product(LETTERS, repeat=4))


def erasers(pairs):
    return "E=E;\n" * pairs


def erasures(pairs):
    return f"{erasers(pairs)}---\nreduce {pairs}\nundo-all\n", 2 * pairs


def self_wired(pairs, first, second):
    fresh = names()
    return "".join(f"{first}({a},{a})={second}({b},{b});\n" for a, b in itertools.islice(zip(fresh, fresh), pairs))


def annihilations(pairs):
    return f"{self_wired(pairs, 'G', 'G')}---\nreduce {pairs}\nundo-all\n", 2 * pairs


def commutations(pairs):
    return f"{self_wired(pairs, 'G', 'D')}---\nreduce {pairs}\nundo-all\n", 2 * pairs


def divergent(depth):
    return f"G(x,a)=D(x,b);\n---\nreduce {depth}\nundo-all\n", 2 * depth


COPY = "G(E,E)=D(E,E);\n"
COPY_EVENTS = ("0 3", "1 0.0", "2 0.1", "4 0.2", "5 0.3", "1.0 4.0", "1.1 5.0", "2.0 4.1", "2.1 5.1")


def moved(name, agents):
    """The same name in another copy of the net."""
    first, dot, digits = name.partition(".")
    return f"{int(first) + agents}{dot}{digits}"


def chance(copies):
    """Each copy's events go backwards, and it is left to chance whose turn it is."""
    turns = [copy for copy in range(copies) for _ in COPY_EVENTS]
    random.Random(1).shuffle(turns)
    left = [len(COPY_EVENTS)] * copies
    undos = []
    for copy in turns:
        left[copy] -= 1
        lead, other = COPY_EVENTS[left[copy]].split()
        undos.append(f"undo {moved(lead, 6 * copy)} {moved(other, 6 * copy)}\n")
    events = len(turns)
    fired = "".join(
        f"fire {moved(pair.split()[0], 6 * copy)} {moved(pair.split()[1], 6 * copy)}\n"
        for copy in range(copies)
        for pair in COPY_EVENTS
    )
    return f"{COPY * copies}---\n{fired}{''.join(undos)}", 2 * events


def row(events, last):
    """Pairs of deltas, each wired twice to the next."""
    ends = [f"x{i},y{i}" for i in range(events)] + [last]
    return "".join(f"D({ends[i]})=D({ends[i + 1]});\n" for i in range(events))


def turned(events):
    """Events in the middle, each undone and fired again."""
    middle = events // 2
    turns = "".join(f"undo {2 * i} {2 * i + 1}\nfire {2 * i} {2 * i + 1}\n" for i in range(middle, middle + TURNS))
    return f"---\nreduce {events}\n{turns}", events + 2 * TURNS


def wire(events):
    commands, calls = turned(events)
    return row(events, "p,q") + commands, calls


def ring(events):
    commands, calls = turned(events)
    return row(events, "x0,y0") + commands, calls


def unwind(depth):
    tree = "E"
    for _ in range(depth):
        tree = f"G({tree},{tree})"
    events = 2 ** (depth + 1) - 1
    return f"E={tree};\n---\nreduce {events}\nunwind 0 1\n", 2 * events


def back(pairs):
    return f"{erasers(pairs)}---\nreduce {pairs}\nmark m\nundo-all\nback m\n", 3 * pairs


PAIRS = (8_191, 16_383, 32_767)
KINDS = {
    "erasures": (erasures, PAIRS),
    "annihilations": (annihilations, PAIRS),
    "commutations": (commutations, PAIRS),
    "random": (chance, (1_250, 2_500, 5_000)),
    "divergent": (divergent, (255, 511, 1_023)),
    "wire": (wire, (5_000, 10_000, 20_000)),
    "ring": (ring, (5_000, 10_000, 20_000)),
    "unwind": (unwind, (12, 13, 14)),
    "back": (back, PAIRS),
}


def run(program, text):
    """Seconds and MiB of a session, of which no command is refused."""
    with tempfile.TemporaryFile() as file, tempfile.TemporaryFile() as answers:
        file.write(text.encode())
        file.seek(0)
        begun = time.perf_counter()
        child = subprocess.Popen([program], stdin=file, stdout=answers)
        _, status, used = os.wait4(child.pid, 0)
        taken = time.perf_counter() - begun
        answers.seek(0)
        refused = [line for line in answers if line.startswith(b"refused")]
        if status != 0 or refused:
            sys.exit(f"{program}: status {status}, {refused[:1]}")
        return taken, used.ru_maxrss / 1024


def main():
    program = program_named(sys.argv[1:])
    chosen = sys.argv[2:] or list(KINDS)
    print(f"{'session':<14}{'calls':>8}{'seconds':>10}{'longer':>8}{'larger':>8}{'MiB':>8}", flush=True)
    for kind in chosen:
        session, sizes = KINDS[kind]
        before = None
        for size in sizes:
            text, calls = session(size)
            taken, memory = min(run(program, text) for _ in range(RUNS))
            line = f"{kind:<14}{calls:>8}{taken:>10.3f}"
            line += f"{taken / before[0]:>8.2f}{calls / before[1]:>8.2f}" if before else " " * 16
            print(f"{line}{memory:>8.0f}", flush=True)
            before = taken, calls


if __name__ == "__main__":
    main()
