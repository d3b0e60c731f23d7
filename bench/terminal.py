#!/usr/bin/env python3
"""Types two lessons at the built program, as at a terminal: python3 bench/terminal.py [PROGRAM].

The program runs with -i on a pseudo-terminal; the second lesson begins with two files. After each prompt of a lesson stands what is
typed there, once the program has asked for it. What the terminal then shows has to be the lesson; if it isn't, it is printed, and the
status is 1.
"""

import os
import pty
import select
import subprocess
import sys
import tempfile

from program import program_named

SECONDS = 60
PROMPTS = ("net> ", "icbench> ")
LESSON = """\
net> D(x,p) = D(y,q;
net> ---
refused 3 at 14
line 1 column 15: syntax: found ; in equation 1; expected )
net> D(x,p) = D(y,q); D(x,r) = D(y,s);
net> ---
net read: 4 agents, 2 active pairs; help lists the commands
icbench> fire 0 1
fired 0 1
icbench> fire 2 3
fired 2 3
icbench> undo 2
refused 40 command
line 7: expected after the first word: the names of two different agents, such as 0 and 0.2
icbench> undo 0 1
undone 0 1
icbench> net
# agents 2 wires 5 rings 0
D(_0,p) = _1;
D(_0,q) = _1;
r = s;
icbench> unstep
unstepped 1
2 3
icbench> new
net> E = E;
net> ---
net read: 2 agents, 1 active pair; help lists the commands
icbench> journal
journal 0
icbench> quit
"""

FILES = {"pair.net": "G(x,a) = D(x,b);\n", "start.txt": "---\nfire 0 1\nfire 0 1\n"}
LESSON_FROM_FILES = """\
net read: 2 agents, 1 active pair; help lists the commands
fired 0 1
refused 21 not active
line 4: one of the agents isn't there, or no wire joins their principal ports; active lists the pairs that can fire
icbench> journal
journal 1
0 1 rank 0
icbench> quit
"""


def shown(terminal, prompt=None):
    """What the terminal shows up to this prompt, or until the program ends or is silent for too long."""
    text = ""
    while prompt is None or not text.endswith(prompt):
        if not select.select([terminal], [], [], SECONDS)[0]:
            break
        try:
            read = os.read(terminal, 4096)
        except OSError:
            break
        if not read:
            break
        text += read.decode().replace("\r\n", "\n")
    return text


def typed(command, lesson, folder):
    """What the terminal shows while the lesson is typed, and how the program ends."""
    terminal, program_side = pty.openpty()
    running = subprocess.Popen(command, cwd=folder, stdin=program_side, stdout=program_side, stderr=program_side)
    os.close(program_side)
    text = ""
    for line in lesson.splitlines():
        for prompt in PROMPTS:
            if line.startswith(prompt):
                text += shown(terminal, prompt)
                os.write(terminal, line.removeprefix(prompt).encode() + b"\n")
    text += shown(terminal)
    os.close(terminal)
    return text, running.wait(SECONDS)


def is_shown(command, lesson, folder):
    """Whether the terminal shows the lesson as it is told. If not, what it shows is printed."""
    text, status = typed(command, lesson, folder)
    if (text, status) == (lesson, 0):
        return True
    print(text, end="")
    print(f"status {status}: the lesson was shown otherwise")
    return False


def main():
    program = os.path.abspath(program_named(sys.argv[1:]))
    with tempfile.TemporaryDirectory() as folder:
        for name, text in FILES.items():
            with open(os.path.join(folder, name), "w") as file:
                file.write(text)
        if not is_shown([program, "-i"], LESSON, folder):
            return 1
        if not is_shown([program, "-i", *FILES], LESSON_FROM_FILES, folder):
            return 1
    print("the lessons were shown as they are told")
    return 0


if __name__ == "__main__":
    sys.exit(main())
