#!/usr/bin/env python3
"""Where the gate's time goes: processor seconds by crate and part, and the dearest functions and edits.

    python3 bench/gate.py                      runs `rt ci` at the top of the repository, and says what each part took
    python3 bench/gate.py CRATE..              the same for these crates and those below them, if this rt ci takes names
    python3 bench/gate.py --functions CRATE..  checks these crates with their tests from nothing, and says what each
                                               function took (in a copy below /tmp; what lies in out/ stays)

The parts of a crate are its proof, its tests (which prove the crate's own functions once more) and its edits, each of
which is a check of the crate. What `rt ci` prints is written to standard output first. Its processes are looked at four
times a second, so that each may lose a quarter of a second at its end; the sum in the last line is exact.

Each part has a budget in `budgets.tsv`: about the processor seconds that it takes. The same work takes more seconds on a slower machine,
and more when parts run side by side. So budgets are scaled by the median part of the same run. From run to run most parts vary by up
to a fifth against the others, so a part is named at the end if it takes over a fifth and ten seconds more than its scaled budget. All parts
together are named if they take over a fifth more than `ic_claim` tells: that crate uses no other one of this repository.
"""

import collections
import csv
import os
import pathlib
import resource
import shutil
import statistics
import subprocess
import sys
import tempfile
import threading
import time

ROOT = pathlib.Path(__file__).resolve().parent.parent
BUDGETS = ROOT / "bench/budgets.tsv"
TICKS = os.sysconf("SC_CLK_TCK")
PAUSE = 0.25
# The crate whose parts say how fast the machine is.
YARDSTICK = "ic_claim"
# What a part may take: so many times its scaled budget, and so many seconds.
MARGIN = 1.2
SLACK = 10
MOST = 20
PARTS = ("proof", "tests", "edits")
# What an edit's check shows where no edit is applied: the last look over the crate.
NO_EDIT = "(none)"


def read_edit(path):
    """The texts of an edit: for each file the pairs of an old and a new text."""
    pairs, file, old = [], "", ""
    for line in path.read_text(encoding="utf-8").splitlines():
        if line.startswith("file: "):
            file = line.removeprefix("file: ")
        elif line.startswith("old: "):
            old = line.removeprefix("old: ")
        elif line.startswith("new:"):
            pairs.append((file, old, line.removeprefix("new:").removeprefix(" ")))
    return pairs


def edited_texts(crate):
    """For each edit of a crate, the first file that it changes and that file's text with the edit."""
    texts = {}
    for path in sorted((ROOT / "crates" / crate / "must-fail").glob("*.edit")):
        pairs = read_edit(path)
        file = pairs[0][0]
        text = (ROOT / "crates" / crate / file).read_text(encoding="utf-8")
        for at, old, new in pairs:
            if at == file:
                text = text.replace(old, new)
        texts[path.stem] = (file, text)
    return texts


def stat_fields(pid):
    """What the system says of a process behind its name: the second is its parent."""
    return pathlib.Path(f"/proc/{pid}/stat").read_text(encoding="utf-8").rpartition(")")[2].split()


def is_below(pid):
    """Whether a process was started by this one, or by one that was."""
    while pid not in ("0", "1"):
        pid = stat_fields(pid)[1]
        if pid == str(os.getpid()):
            return True
    return False


class Meter:
    """Processor seconds of the checks that this process has started, by crate, part and edit."""

    def __init__(self):
        self.last = {}
        self.edits = {}
        self.ended = threading.Event()

    def key_of(self, pid):
        """The crate, the part and the edit of a process, if it is a check."""
        words = pathlib.Path(f"/proc/{pid}/cmdline").read_bytes().decode(errors="replace").split("\0")
        if os.path.basename(words[0]) != "rattle" or "--crate-name" not in words or not is_below(pid):
            return None
        crate = words[words.index("--crate-name") + 1]
        if not (ROOT / "crates" / crate).is_dir():
            return None
        folder = os.readlink(f"/proc/{pid}/cwd")
        if os.path.basename(folder).startswith("rt-edit-"):
            return crate, "edits", self.edit_in(crate, folder)
        return crate, "tests" if "--test" in words else "proof", ""

    def edit_in(self, crate, folder):
        """The edit that was applied in a folder."""
        if crate not in self.edits:
            self.edits[crate] = edited_texts(crate)
        for name, (file, text) in self.edits[crate].items():
            if pathlib.Path(folder, file).read_text(encoding="utf-8") == text:
                return name
        return NO_EDIT

    def look(self):
        """Notes what each process has used so far."""
        for pid in filter(str.isdigit, os.listdir("/proc")):
            try:
                fields = stat_fields(pid)
                # (a number is given again to a later process)
                process = pid, fields[19]
                key = self.last[process][0] if process in self.last else self.key_of(pid)
                if key is not None:
                    self.last[process] = key, (int(fields[11]) + int(fields[12])) / TICKS
            except (OSError, ValueError):
                continue

    def watch(self):
        """Looks again and again until the end."""
        while not self.ended.wait(PAUSE):
            self.look()

    def seconds(self):
        """The sum for each crate, part and edit."""
        sums = collections.Counter()
        for key, used in self.last.values():
            sums[key] += used
        return sums


def print_table(sums):
    """Prints a row for each crate, the dearest first, and the dearest edits."""
    parts = collections.Counter()
    for (crate, part, _), used in sums.items():
        parts[crate, part] += used
    crates = sorted({crate for crate, _ in parts}, key=lambda it: -sum(parts[it, part] for part in PARTS))
    print(f"\n{'crate':<18}" + "".join(f"{part:>8}" for part in (*PARTS, "all")))
    for crate in crates:
        row = [parts[crate, part] for part in PARTS]
        print(f"{crate:<18}" + "".join(f"{it:>8.0f}" for it in (*row, sum(row))))
    row = [sum(parts[crate, part] for crate in crates) for part in PARTS]
    print(f"{'all':<18}" + "".join(f"{it:>8.0f}" for it in (*row, sum(row))))
    edits = {(crate, edit): used for (crate, part, edit), used in sums.items() if part == "edits"}
    print("\nthe dearest edits (the first of a crate proves the crate anew)")
    for (crate, edit), used in sorted(edits.items(), key=lambda it: -it[1])[:MOST]:
        print(f"{used:8.0f}  {crate}/{edit}")


def read_budgets():
    """The budget of each part of each crate, in processor seconds."""
    with open(BUDGETS, encoding="utf-8", newline="") as file:
        return {(row["crate"], part): int(row[part]) for row in csv.DictReader(file, delimiter="\t") for part in PARTS}


def times_its_budgets(parts, budgets, keys):
    """How many times their budgets some parts took together; None if one was not measured or has no budget."""
    if not keys or not all(parts[it] and budgets.get(it) for it in keys):
        return None
    return sum(parts[it] for it in keys) / sum(budgets[it] for it in keys)


def print_over_budget(sums):
    """Names the parts that took more than they may, those that have no budget, and all together if they did."""
    budgets, parts = read_budgets(), collections.Counter()
    for (crate, part, _), used in sums.items():
        parts[crate, part] += used
    known = [it for it in parts if budgets.get(it)]
    pace = statistics.median(parts[it] / budgets[it] for it in known)
    print(f"\nbudgets times {pace:.2f}, as the median part took")
    for crate, part in sorted(parts):
        used, budget = parts[crate, part], budgets.get((crate, part))
        if not budget:
            print(f"no budget: {crate} {part}, {used:.0f} s")
        elif used > budget * pace * MARGIN + SLACK:
            print(f"over budget: {crate} {part}, {used:.0f} s of {budget * pace:.0f} s")
    others = times_its_budgets(parts, budgets, [it for it in known if it[0] != YARDSTICK])
    its = times_its_budgets(parts, budgets, [(YARDSTICK, part) for part in PARTS])
    if others and its:
        print(f"{'over budget: ' * (others > its * MARGIN)}all others together: {others:.2f} times their budgets, {YARDSTICK} {its:.2f} times")


def measure_gate(crates):
    """Runs the gate, or its part for some crates, and prints what its parts took. Answers the gate's status."""
    meter, begun = Meter(), time.time()
    watching = threading.Thread(target=meter.watch)
    watching.start()
    try:
        status = subprocess.run(["rt", "ci", *crates], cwd=ROOT, check=False).returncode
    finally:
        meter.ended.set()
        watching.join()
    print_table(meter.seconds())
    print_over_budget(meter.seconds())
    used = resource.getrusage(resource.RUSAGE_CHILDREN)
    minutes = (used.ru_utime + used.ru_stime) / 60
    whole = (time.time() - begun) / 60
    print(f"\nrt ci: {whole:.1f} min, {minutes:.1f} min of processor time, status {status}")
    return status


def function_times(crate, folder):
    """Checks a crate of a copy with its tests, from nothing, and answers the seconds of each function."""
    times, last = [], time.time()
    shutil.rmtree(folder / "crates" / crate / "out" / "incremental", ignore_errors=True)
    words = ["rt", "check", "--test", "--jobs", "1"]
    with subprocess.Popen(words, cwd=folder / "crates" / crate, stdout=subprocess.PIPE, text=True) as check:
        for line in check.stdout:
            if line.startswith("checked ") and " of " in line:
                now = time.time()
                times.append((now - last, line.split()[1].rstrip(",")))
                last = now
            elif line.startswith("logic="):
                print(f"{crate}: {line.split()[0]}")
    return times


def measure_functions(crates):
    """Prints the dearest functions of some crates."""
    times = []
    with tempfile.TemporaryDirectory(prefix="gate-") as room:
        folder = pathlib.Path(room, "copy")
        shutil.copytree(ROOT, folder, symlinks=True)
        for crate in crates:
            times += function_times(crate, folder)
    for used, function in sorted(times, reverse=True)[:MOST]:
        print(f"{used:8.1f}  {function}")
    return 0


def main():
    if sys.argv[1:2] == ["--functions"] and sys.argv[2:]:
        return measure_functions(sys.argv[2:])
    if any(word.startswith("-") for word in sys.argv[1:]):
        sys.exit(__doc__)
    return measure_gate(sys.argv[1:])


if __name__ == "__main__":
    sys.exit(main())
