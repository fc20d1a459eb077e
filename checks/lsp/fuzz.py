#!/usr/bin/env python3
"""Streams for `mmixview lsp` that are cut, doubled, giant, or no messages: no answer is lost or added, and none hangs.

usage: checks/lsp/fuzz.py [PROGRAM [COUNT]]
"""
import os
import sys

HERE = os.path.dirname(os.path.dirname(os.path.dirname(os.path.abspath(__file__))))
sys.path.insert(0, os.path.join(HERE, "checks", "lsp"))
import wire  # noqa: E402
import streams  # noqa: E402

PROGRAM = wire.program(sys.argv[1:])
COUNT = int(sys.argv[2]) if len(sys.argv) > 2 else 10000
URI = "file:///a.mms"
TEXTS = ["Main TRAP 0,Halt,0\n", "", "\tLOC #100\nMain ADD $1,$1,1000\n", "é\U0001d11e IS 1\n2H JMP 2F\n2H JMP 2B\n"]


def good(random_, mark):
    """A message, and how many answers it has; the first one begins the session."""
    if mark == 0:
        return wire.message("initialize", {"capabilities": {}}, mark), 1
    kind = random_.randrange(6)
    if kind == 0:
        return wire.message("textDocument/didOpen", {"textDocument": {"uri": URI, "text": random_.choice(TEXTS)}}), 1
    if kind == 1:
        return wire.message("$/setTrace", {"value": "off"}), 0
    if kind == 2:
        return wire.message("no/such", {}, mark), 1
    if kind == 3:
        return wire.message("textDocument/didClose", {"textDocument": {"uri": URI}}), 1
    method = random_.choice(["hover", "definition", "references", "documentHighlight", "prepareRename", "rename", "documentSymbol", "signatureHelp", "formatting"])
    place = {"line": random_.randrange(5), "character": random_.randrange(30)}
    return wire.message("textDocument/" + method, {"textDocument": {"uri": URI}, "position": place, "newName": "x"}, mark), 1


sys.exit(1 if streams.try_streams([PROGRAM, "lsp"], good, lambda it: True, COUNT, 20261130) else 0)
