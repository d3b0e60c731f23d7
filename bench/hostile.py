#!/usr/bin/env python3
"""Runs the built program where input, output and command line are at their worst.

    python3 bench/hostile.py [PROGRAM]

Each case says what is met, and what has to come of it: the exit status, what standard error says, and how standard output
begins. The last line counts the cases that passed and failed.
"""
import os
import random
import resource
import subprocess
import sys
import tempfile

from program import program_named

NET = b"G(x,a) = D(x,b);\n---\n"
READ_FAILED = b"icbench: read failed\n"
WRITE_FAILED = b"icbench: write failed\n"
LIMIT = 60


def run(program, words=(), given=b"", **streams):
    """Runs the program on these words and this input; the status, standard output and standard error."""
    pipes = {"stdout": subprocess.PIPE, "stderr": subprocess.PIPE, **streams}
    if "stdin" not in streams:
        pipes["input"] = given
    ran = subprocess.run([program, *words], timeout=LIMIT, **pipes)
    return ran.returncode, ran.stdout or b"", ran.stderr or b""


def is_a_folder_as_input(program):
    folder = os.open(tempfile.gettempdir(), os.O_RDONLY)
    try:
        return run(program, stdin=folder) == (1, b"", READ_FAILED)
    finally:
        os.close(folder)


def is_a_folder_as_file(program):
    """What stands before a file that can't be read is answered."""
    ran = run(program, ["-", tempfile.gettempdir()], NET + b"active\n")
    said = b"icbench: " + tempfile.gettempdir().encode() + b": cannot be read\n"
    return ran == (1, b"active 1\n0 1\n", said)


def is_a_closed_input(program):
    """Standard input isn't open at all: that reads as an empty net text, or as a failure to read."""
    status, out, said = run(program, stdin=None, preexec_fn=lambda: os.close(0))
    return (status, out) in [(0, b""), (1, b"")] and said in [b"", READ_FAILED]


def is_a_full_device_as_output(program):
    with open("/dev/full", "wb") as full:
        return run(program, given=NET + b"net\n", stdout=full) == (1, b"", WRITE_FAILED)


def is_a_closed_pipe_as_output(program):
    there, here = os.pipe()
    os.close(there)
    try:
        status, _, said = run(program, given=NET + b"net\n" * 4, stdout=here)
    finally:
        os.close(here)
    return (status, said) == (1, WRITE_FAILED)


def is_a_full_device_as_error(program):
    with open("/dev/full", "wb") as full:
        return run(program, ["--workers", "0"], stderr=full) == (64, b"", b"")


def is_a_long_line_of_net_text(program):
    return run(program, given=b"a" * (1 << 20)) == (2, b"refused 4 at 0\n", b"")


def is_a_long_command(program):
    given = NET + b"x" * (4 << 20) + b"\nactive\n"
    return run(program, given=given) == (0, b"refused 40 command\nactive 1\n0 1\n", b"")


def is_an_endless_line(program):
    """The net text is too long after its limit, however long the line goes on; the reader stops there."""
    with subprocess.Popen(
        [program], stdin=subprocess.PIPE, stdout=subprocess.PIPE, stderr=subprocess.PIPE
    ) as ran:
        try:
            for _ in range(1024):
                ran.stdin.write(b"#" * (1 << 16))
        except BrokenPipeError:
            pass
        out, said = ran.communicate(timeout=LIMIT)
        return (ran.returncode, out, said) == (2, b"refused 1\n", b"")


def are_random_bytes(program):
    """Any bytes end in a status of their own, with nothing on standard error."""
    numbers = random.Random(1)
    for length in [0, 1, 10, 1_000, 100_000]:
        for front in [b"", NET]:
            status, out, said = run(program, given=front + numbers.randbytes(length))
            if said or (status, out[:8]) not in [(2, b"refused "), (0, b"refused "), (0, b"")]:
                return False
    return True


def is_much_comment(program):
    """100 MB of comments behind the net text are skipped."""
    given = NET + b"# nothing\n" * 10_000_000 + b"active\n"
    return run(program, given=given) == (0, b"active 1\n0 1\n", b"")


def are_wrong_words(program):
    """Each wrong command line says so, and starts no session."""
    for words in [
        ["--workers", "0"],
        ["--workers", "65"],
        ["--workers", "x"],
        ["--workers"],
        ["--budget", "-1"],
        ["--budget=1048577"],
        ["--frob"],
        ["--workers", "1", "--workers", "2"],
    ]:
        status, out, said = run(program, words, NET + b"net\n")
        if (status, out) != (64, b"") or not said.startswith(b"error: ") or b"--help" not in said:
            return False
    return True


def are_threads_that_cannot_start(program):
    """With room for the stacks of a few of 63 threads, the others aren't started, and the answer is the same."""

    def leave_little_room():
        resource.setrlimit(resource.RLIMIT_AS, (32 << 20, 32 << 20))

    status, out, said = run(
        program,
        ["--workers", "64"],
        b"E = E;\n" * 200 + b"---\nreduce 1000\nnet\n",
        preexec_fn=leave_little_room,
    )
    return (status, out, said) == (0, b"reduced 200 normal\n# agents 0 wires 0 rings 0\n", b"")


CASES = [
    ("a folder as input", is_a_folder_as_input),
    ("a folder as file", is_a_folder_as_file),
    ("a closed input", is_a_closed_input),
    ("a full device as output", is_a_full_device_as_output),
    ("a closed pipe as output", is_a_closed_pipe_as_output),
    ("a full device as standard error", is_a_full_device_as_error),
    ("a line of net text of 1 MiB", is_a_long_line_of_net_text),
    ("a command of 4 MiB", is_a_long_command),
    ("an endless line", is_an_endless_line),
    ("random bytes", are_random_bytes),
    ("100 MB of comments", is_much_comment),
    ("wrong command lines", are_wrong_words),
    ("threads that can't be started", are_threads_that_cannot_start),
]


def passes(is_right, program):
    """Whether all is as it should be, within the time that a run may take."""
    try:
        return is_right(program)
    except subprocess.TimeoutExpired:
        return False


def main():
    program = program_named(sys.argv[1:])
    failed = 0
    for name, is_right in CASES:
        right = passes(is_right, program)
        failed += not right
        print(f"{name}: {'ok' if right else 'FAILED'}")
    print(f"{len(CASES) - failed} passed, {failed} failed")
    return 1 if failed else 0


if __name__ == "__main__":
    sys.exit(main())
