"""Random programs that are run: what each is called with, and what so many steps of its run leave, as `mmixware run --steps k --dump` prints it.
"""
import argparse
import os
import re
import subprocess
import sys
import tempfile
from typing import NamedTuple

from generate import case_of

REGISTER = re.compile(rb"(\$\d+|r[A-Z]{1,2})=#([0-9a-f]{16})$", re.M)
OCTA = re.compile(rb"M#([0-9a-f]{16})=#([0-9a-f]{16})$", re.M)
MESSAGE = re.compile(rb"#[0-9a-f]{16}: \d+ \w+\n\Z")
INPUT = "the input"


class Left(NamedTuple):
    """What steps leave: registers by their names and octas by their addresses, and what was written."""

    registers: dict
    memory: dict
    output: bytes
    errors: bytes


class Words(NamedTuple):
    """What a program is called with."""

    ring: list
    name: str
    arguments: list


def parts_of(case):
    """What the program of a case is called with."""
    ring, rest = [], case.words[1:]
    while rest[0].startswith("-"):
        if rest[0] == "--ring":
            ring = rest[:2]
        rest = rest[2:] if rest[0] in ("--ring", "--steps", "--last") else rest[1:]
    return Words(ring, rest[0], rest[1:])


def put_files(room, case):
    """Writes the files of a case into a folder, and its input."""
    for name, data in {**case.files, INPUT: case.given}.items():
        with open(os.path.join(room, name), "wb") as file:
            file.write(data)


def read_left(out, errors, step):
    """What is left by a run with a dump; nothing where there is no dump. A run that is ended writes a message after what the program wrote."""
    at = out.rfind(b"rB=#")
    if at < 0:
        return None
    registers = {name.decode(): int(octa, 16) for name, octa in REGISTER.findall(out, at)}
    memory = {int(address, 16): int(octa, 16) for address, octa in OCTA.findall(out, at)}
    return Left(registers, memory, out[:at], MESSAGE.sub(b"", errors.removesuffix(b"%d steps spent\n" % step)))


def run_steps(program, words, step, given, room):
    """What so many steps leave, at least one; nothing where the source is refused. The files of the folder may be changed."""
    line = [program, "run", "--steps", str(step), "--dump", *words.ring, words.name, *words.arguments]
    done = subprocess.run(line, cwd=room, input=given, capture_output=True, timeout=60, check=False)
    return read_left(done.stdout, done.stderr, step)


def walk_programs(compare, says):
    """Compares the walks of random programs: the status. `compare` gives how many states of a case were compared, and how many differ."""
    words = argparse.ArgumentParser(description=says)
    words.add_argument("--folder", default=os.path.join(os.path.dirname(os.path.abspath(__file__)), "../../.built"))
    words.add_argument("--programs", type=int, default=500)
    words.add_argument("--seed", type=int, default=1)
    given = words.parse_args()
    for name in ("mmixware", "mmixview"):
        if not os.path.exists(os.path.join(given.folder, name)):
            print(f"there is no {name} in {given.folder}; nothing is tried")
            sys.exit(0)
    done = states = different = 0
    seed = given.seed - 1
    while done < given.programs:
        seed += 1
        case = case_of(seed, ["program"])
        if case.words[0] == "run":
            with tempfile.TemporaryDirectory() as room:
                put_files(room, case)
                some, wrong = compare(case, os.path.abspath(given.folder), room)
            done += some > 0
            states += some
            different += wrong
    print(f"{done} programs, {states} states, {different} differences")
    sys.exit(1 if different else 0)
