#!/usr/bin/env python3
"""Editors as clients of `mmixview lsp`: what each shows of sources is compared with `mmixview check --json`.

usage: checks/lsp/clients.py [PROGRAM]
It installs nothing, and says which editors are missing.
"""
import json
import os
import shutil
import subprocess
import sys
import tempfile

HERE = os.path.dirname(os.path.dirname(os.path.dirname(os.path.abspath(__file__))))
PARTS = os.path.join(HERE, "checks", "lsp")
sys.path.insert(0, PARTS)
import wire  # noqa: E402

PROGRAM = wire.program(sys.argv[1:])

SOURCE = """\tLOC #100
Size\tIS 10
Main\tSETL $1,Size
2H\tSUBU $1,$1,1
\tPBNZ $1,2B
\tTRAP 0,Halt,0
"""
FAULTY = SOURCE.replace("$1,Size", "$1,Sise")

CLIENTS = [
    ("neovim", ["nvim", "--headless", "-u", "NONE", "-i", "NONE", "-S", os.path.join(PARTS, "neovim.lua")]),
    ("emacs", ["emacs", "--batch", "--eval", "(package-initialize)", "-l", os.path.join(PARTS, "eglot.el")]),
    ("vim", ["vim", "-N", "-u", os.path.join(PARTS, "ale.vim"), "-i", "NONE", "-es"]),
]


class Missing(Exception):
    """A part of a client that is not there."""


def shown(command, folder, text):
    """What a client shows of a source at the name `Size` in its third line."""
    source, target = os.path.join(folder, "text.mms"), os.path.join(folder, "told.json")
    with open(source, "w", encoding="utf-8") as out:
        out.write(text)
    if os.path.exists(target):
        os.remove(target)
    more = {"MMIXVIEW": PROGRAM, "SOURCE": source, "TARGET": target, "LINE": "2", "COLUMN": "13", "NEW_NAME": "Length"}
    subprocess.run(command, env={**os.environ, **more}, cwd=folder, timeout=60, stdin=subprocess.DEVNULL, stdout=subprocess.PIPE, stderr=subprocess.PIPE)
    with open(target, encoding="utf-8") as file:
        told = json.load(file)
    if "missing" in told:
        raise Missing(told["missing"])
    return told


def checked(text, folder):
    """The lines of the faults that `check --json` prints."""
    source = os.path.join(folder, "checked.mms")
    with open(source, "w", encoding="utf-8") as out:
        out.write(text)
    run = subprocess.run([PROGRAM, "check", "--json", source], stdout=subprocess.PIPE)
    return [fault["at"] - 1 for fault in json.loads(run.stdout)["faults"]]


def line_of(place):
    """The line of an answer that is a place, or a list of one."""
    place = place[0] if isinstance(place, list) else place
    return place["range"]["start"]["line"]


def tried(name, command, folder):
    """What is not so of a client."""
    wrong = []
    faulty = shown(command, folder, FAULTY)
    if sorted({d["line"] for d in faulty["diagnostics"]}) != sorted(set(checked(FAULTY, folder))):
        wrong.append("diagnostics: %s" % faulty["diagnostics"])
    if "hover" not in faulty:
        return wrong
    good = shown(command, folder, SOURCE)
    if good["diagnostics"]:
        wrong.append("diagnostics of a good source: %s" % good["diagnostics"])
    if "Size" not in json.dumps(good["hover"]):
        wrong.append("hover: %s" % good["hover"])
    if line_of(good["definition"]) != 1:
        wrong.append("definition: %s" % good["definition"])
    if sorted(line_of(place) for place in good["references"]) != [1, 2]:
        wrong.append("references: %s" % good["references"])
    if "Length" not in json.dumps(good["rename"]):
        wrong.append("rename: %s" % good["rename"])
    return wrong


def main():
    """All clients."""
    wrong = 0
    for name, command in CLIENTS:
        if shutil.which(command[0]) is None:
            print("%s is missing: not tried" % name)
            continue
        with tempfile.TemporaryDirectory() as folder:
            try:
                found = tried(name, command, folder)
            except Missing as part:
                print("%s: %s is missing: not tried" % (name, part))
                continue
            except (OSError, subprocess.TimeoutExpired, ValueError, KeyError, TypeError) as fault:
                found = ["no answer: %r" % fault]
        for it in found:
            print("%s: %s" % (name, it))
        wrong += len(found)
        if not found:
            print("%s: as it is to be" % name)
    return 1 if wrong else 0


sys.exit(main())
