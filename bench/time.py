#!/usr/bin/env python3
"""Times the built program on generated texts: python3 bench/time.py [PROGRAM].

Prints, for each kind of text and each size that a net text may have, its agents and bytes, the bytes of the answer, the
least of five runs in seconds, and how much longer that took than the size before, beside how much larger the text was.
What an empty session takes is in each of the times and is printed first.
"""

import subprocess
import sys
import time

from program import program_named

SIZES = (4_095, 8_190, 16_380, 32_760, 65_520)
MOST_BYTES = 1_048_576
RUNS = 5


def erasers(agents):
    """Epsilons that meet epsilons: no names."""
    return "E = E;\n" * (agents // 2)


def annihilations(agents):
    """Gammas that meet gammas, with a self wire each."""
    return "".join(f"G(x{i},x{i}) = G(y{i},y{i});\n" for i in range(agents // 2))


def chain(agents):
    """Deltas in a row, each wired twice to the next."""
    row = [f"D(a{i},b{i}) = c{i};\n" for i in range(agents)]
    for i in range(1, agents, 2):
        row[i] = f"D(a{i - 1},b{i - 1}) = c{i - 1};\n"
    return "".join(row)


def tall(agents):
    """Terms of gammas, each within sixteen others."""
    term, depth = "E", 15
    for _ in range(depth):
        term = f"G({term},E)"
    per_term = 2 * depth + 1
    return f"{term} = E;\n" * (agents // (per_term + 1))


def comment(agents):
    """One long comment, and no agents."""
    return "#" + "-" * (15 * agents) + "\n"


def seconds(program, text):
    best = None
    for _ in range(RUNS):
        begun = time.perf_counter()
        done = subprocess.run([program], input=text, capture_output=True, check=False)
        taken = time.perf_counter() - begun
        if done.returncode != 0:
            sys.exit(f"{program}: status {done.returncode}: {done.stdout[:80]!r} {done.stderr[:80]!r}")
        best = taken if best is None else min(best, taken)
    return best, len(done.stdout)


def main():
    program = program_named(sys.argv[1:])
    print(f"{'text':<14}{'agents':>8}{'bytes':>10}{'answer':>10}{'seconds':>10}{'longer':>8}{'larger':>8}")
    empty, answer = seconds(program, b"")
    print(f"{'empty':<14}{0:>8}{0:>10}{answer:>10}{empty:>10.4f}")
    for kind in (erasers, annihilations, chain, tall, comment):
        before = None
        for size in SIZES:
            net = kind(size)
            if len(net) > MOST_BYTES:
                break
            agents = sum(net.count(symbol) for symbol in "GDE")
            text = (net + "---\nnet\n").encode()
            taken, answer = seconds(program, text)
            line = f"{kind.__name__:<14}{agents:>8}{len(net):>10}{answer:>10}{taken:>10.4f}"
            if before is not None:
                line += f"{taken / before[0]:>8.2f}{len(net) / before[1]:>8.2f}"
            print(line)
            before = taken, len(net)


if __name__ == "__main__":
    main()
