#!/usr/bin/env python3
"""Walks random programs forward and back by `mmixview debug`, and compares each state that it stops at with that which
`mmixware run --steps k --dump` leaves: all registers but rS, which a dump does not show.

    walks.py [--folder FOLDER] [--programs N] [--seed S]

FOLDER has the built programs mmixware and mmixview. It prints each difference, and how many states were compared.
"""
import random
import re
import subprocess

from runs import INPUT, run_steps, parts_of, put_files, walk_programs

MOST = 3000
WORDS = ("step", "step 2", "next", "reverse-step", "reverse-step 3", "reverse-next")
SHOWN = re.compile(rb"(\$\d+|r[A-Z]{1,2})\b.*#([0-9a-f]{16})$", re.M)


def without_zeros(registers):
    """The registers that are not 0, but rS."""
    return {name: octa for name, octa in registers.items() if octa and name != "rS"}


def make_session(rng):
    """The lines of a session, which shows the registers after some words."""
    lines = []
    for _ in range(6):
        lines.append(f"goto {rng.randrange(400)}")
        lines += [rng.choice(WORDS) for _ in range(rng.randrange(3))]
        lines += ["print 77777", "info registers", "print 88888"]
    return "\n".join(lines).encode() + b"\n"


def find_stops(case, words, folder, room):
    """The steps that a session stops at, each with its registers; none where the source is refused."""
    files = [word for other in case.files if other != words.name for word in ("--file", other)]
    line = ["debug", "--input", INPUT, "--steps", str(MOST), *words.ring, *files, words.name, *words.arguments]
    done = subprocess.run([f"{folder}/mmixview", *line], cwd=room, input=make_session(random.Random(case.seed)), capture_output=True,
                          timeout=60, check=False)
    pieces = re.split(rb"77777\n", done.stdout)
    for before, after in zip(pieces, pieces[1:]):
        rows = SHOWN.findall(after.split(b"88888")[0])
        yield int(re.findall(rb"^step (\d+)\b", before, re.M)[-1]), {name.decode(): int(octa, 16) for name, octa in rows}


def compare(case, folder, room):
    """How many states of a case were compared, and how many differ."""
    states = different = 0
    words = parts_of(case)
    for step, shown in list(find_stops(case, words, folder, room)):
        put_files(room, case)
        left = run_steps(f"{folder}/mmixware", words, step, case.given, room) if step else None
        if left is None:
            continue
        states += 1
        if without_zeros(left.registers) != without_zeros(shown):
            different += 1
            names = sorted(set(without_zeros(left.registers).items()) ^ set(without_zeros(shown).items()))
            print(f"seed {case.seed}, step {step}: the registers differ in {names}")
    return states, different


if __name__ == "__main__":
    walk_programs(compare, "Walks of the debugger beside runs.")
