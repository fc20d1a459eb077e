#!/usr/bin/env python3
"""Runs the built program and the model on the same random cases, and prints each difference.

Compared are the status and the message line, standard output, standard error, and the files that are left. With --self
the model is compared with itself instead: the window of registers with the list of hidden ones, up to what only a
window can answer, and an accepted source with its object.
"""
import argparse
import os
import subprocess
import sys
import tempfile
from typing import NamedTuple

from generate import case_of
from mmixmodel.hosts import MemoryHost
from mmixmodel.program import mmixware


class Left(NamedTuple):
    """What a run leaves."""

    status: object
    output: bytes
    errors: bytes
    files: dict


def run_program(path, case):
    """The built program on a case, in a temporary folder, with real standard input and output."""
    with tempfile.TemporaryDirectory() as room:
        for name, data in case.files.items():
            with open(os.path.join(room, name), "wb") as file:
                file.write(data)
        try:
            done = subprocess.run([path, *case.words], cwd=room, input=case.given, capture_output=True, timeout=60,
                                  check=False)
        except subprocess.TimeoutExpired:
            return Left("timeout", b"", b"", {})
        files = {}
        for name in os.listdir(room):
            with open(os.path.join(room, name), "rb") as file:
                files[name] = file.read()
        return Left(done.returncode, done.stdout, done.stderr, files)


def run_model(case, kind="window"):
    """The model on a case."""
    host = MemoryHost(case.given, files={name.encode(): data for name, data in case.files.items()})
    outcome = mmixware(case.words, host, kind)
    files = {name.decode("latin-1"): bytes(data) for name, data in host.files.items()}
    return Left("wild" if outcome.kind == "Wild" else outcome.status(), bytes(host.output), bytes(host.errors), files)


def differences(left, right):
    """The parts in which two runs differ."""
    found = [name for name in ("status", "output", "errors") if getattr(left, name) != getattr(right, name)]
    names = sorted(set(left.files) | set(right.files))
    return found + [f"file {name}" for name in names if left.files.get(name) != right.files.get(name)]


def is_outside(case, model):
    """Whether a case is not compared: one without words, for which the program prints its usage and makes no call, and one whose run
    made a file under a name that no folder can hold, where a system answers what it likes."""
    return not case.words or any(name in ("", ".", "..") or "/" in name or "\0" in name or not name.isascii() for name in model.files)


def own_differences(case):
    """The model against itself."""
    window, listed = run_model(case), run_model(case, "list")
    if listed.status == "wild":
        return [] if window.output.startswith(listed.output) else ["output before the wild step"]
    found = differences(window, listed)
    if case.words[:1] == ["run"] and "p.mms" in case.words and case.kind != "words":
        by_object = case.__class__(case.seed, case.kind, ["asm", "p.mms", "p.mmo"], case.files)
        made = run_model(by_object)
        if made.status == 0 and b": 90 PagesFull" not in window.errors:
            words = ["sim" if it == "run" else "p.mmo" if it == "p.mms" else it for it in case.words]
            files = {**case.files, "p.mmo": made.files["p.mmo"]}
            loaded = run_model(case.__class__(case.seed, case.kind, words, files, case.given))
            loaded.files.pop("p.mmo")
            found += [f"by the object: {it}" for it in differences(window, loaded)]
    return found


def first_difference(left, right):
    """The first lines of two texts that differ."""
    lefts, rights = left.split(b"\n"), right.split(b"\n")
    for number in range(max(len(lefts), len(rights))):
        ours = lefts[number] if number < len(lefts) else None
        theirs = rights[number] if number < len(rights) else None
        if ours != theirs:
            return f"line {number + 1}: program {ours!r}, model {theirs!r}"
    return "none"


def tell(case, found, program, model):
    """Prints a difference with its seed."""
    print(f"seed {case.seed} ({case.kind}) {case.words}: {', '.join(found)}")
    if program is None:
        return
    print(f"  program {program.status} {program.errors[-200:]!r}\n  model   {model.status} {model.errors[-200:]!r}")
    for name, left, right in [("output", program.output, model.output)] + [
            (name, program.files.get(name, b""), model.files.get(name, b"")) for name in model.files]:
        if left != right and name.endswith(".mmo"):
            print(f"  {name}:\n    {left.hex()}\n    {right.hex()}")
        elif left != right:
            print(f"  {name}: {first_difference(left, right)}")


def main():
    """Compares, and ends with the counts."""
    parser = argparse.ArgumentParser(description=__doc__)
    parser.add_argument("--program", help="the built program")
    parser.add_argument("--self", action="store_true", dest="own", help="compare the model with itself")
    parser.add_argument("--cases", type=int, default=100)
    parser.add_argument("--seed", type=int, default=1)
    parser.add_argument("--kind", action="append", help="source, program, object, console, followed, multi, words or pages; may repeat")
    arguments = parser.parse_args()
    if bool(arguments.program) == arguments.own:
        parser.error("give --program PATH or --self")
    path = arguments.program and os.path.realpath(arguments.program)
    differ = 0
    for seed in range(arguments.seed, arguments.seed + arguments.cases):
        case = case_of(seed, arguments.kind)
        if arguments.own:
            program = model = None
            found = own_differences(case)
        else:
            program, model = run_program(path, case), run_model(case)
            found = [] if is_outside(case, model) else differences(program, model)
        if found:
            differ += 1
            tell(case, found, program, model)
    print(f"{arguments.cases} compared, {differ} differ")
    return 1 if differ else 0


if __name__ == "__main__":
    sys.exit(main())
