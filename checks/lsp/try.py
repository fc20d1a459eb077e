#!/usr/bin/env python3
"""A session with `mmixview lsp`, compared with what `mmixview check` and `mmixview list` say of the same sources.

usage: checks/lsp/try.py [PROGRAM]
"""
import json
import os
import random
import re
import subprocess
import sys

HERE = os.path.dirname(os.path.dirname(os.path.dirname(os.path.abspath(__file__))))
sys.path.insert(0, os.path.join(HERE, "checks", "lsp"))
import wire  # noqa: E402

PROGRAM = wire.program(sys.argv[1:])
URI = "file:///text.mms"
faults = []


def want(what, is_so, got=None):
    """Says what is not so."""
    if not is_so:
        faults.append(what)
        print("not so:", what, "" if got is None else got)


def checked(path):
    """What `check --json` says of a source."""
    run = subprocess.run([PROGRAM, "check", "--json", path], stdout=subprocess.PIPE)
    return json.loads(run.stdout)


def units(text):
    """How many units of UTF-16 a text has."""
    return len(text.encode("utf-16-le")) // 2


def ranges(told):
    """The faults of `check --json`, as the server reports them."""
    found = []
    for fault in told["faults"][:20]:
        line = (fault["text"] or "").encode()
        at = max(fault["at"] - 1, 0)
        if fault["caret"] is None:
            found.append((at, 0, units(line.decode()), fault["name"]))
        else:
            start = fault["caret"] - 1
            end = start + fault["length"]
            found.append((at, units(line[:start].decode(errors="ignore")), units(line[:end].decode(errors="ignore")), fault["name"]))
    return found


def told(diagnostics, severity):
    """The diagnostics of a severity, in the same form."""
    return [
        (d["range"]["start"]["line"], d["range"]["start"]["character"], d["range"]["end"]["character"], d["code"])
        for d in diagnostics
        if d["severity"] == severity
    ]


def sources():
    """The sources of the examples, and some of the checks."""
    for folder, _, names in sorted(os.walk(os.path.join(HERE, "examples"))):
        for name in sorted(names):
            if name.endswith(".mms"):
                yield os.path.join(folder, name)


def place(text, position):
    """How many characters of a text are before a position; the texts here have one unit for each."""
    lines = text.split("\n")
    return sum(len(line) + 1 for line in lines[: position["line"]]) + min(position["character"], len(lines[position["line"]]))


def edited(text, edits):
    """A text after edits, which are all of the text before them."""
    for edit in sorted(edits, key=lambda e: place(text, e["range"]["start"]), reverse=True):
        start, end = (place(text, edit["range"][side]) for side in ("start", "end"))
        text = text[:start] + edit["newText"] + text[end:]
    return text


def try_changes(server):
    """A text that is changed by ranges is the text that the changes make of it: the server says the same of both."""
    random_ = random.Random(20261201)
    pieces = ["A", "Loop ", "\tADD $1,$1,1000\n", "\n", "\r\n", "é", "\U0001d11e", " IS 1\n", "Main\tTRAP 0,Halt,0\n", ""]
    other, text = URI + ".whole", PROGRAM_TEXT
    server.change(URI, text)
    server.open(other, text)
    for _ in range(200):
        changes = []
        for _ in range(random_.randrange(1, 4)):
            lines = re.split("\r\n|\r|\n", text)
            ends = sorted((random_.randrange(len(lines)), random_.randrange(12)) for _ in range(2))
            new = random_.choice(pieces)
            starts = [m.end() for m in re.finditer("\r\n|\r|\n", text)]
            at = [([0] + starts)[line] + len(reached(lines[line], column)) for line, column in ends]
            text = text[: at[0]] + new + text[max(at) :]
            range_ = {side: {"line": line, "character": column} for side, (line, column) in zip(("start", "end"), ends)}
            changes.append({"range": range_, "text": new})
        server.tell("textDocument/didChange", {"textDocument": {"uri": URI}, "contentChanges": changes})
        want("the faults of a changed text", server.diagnostics(URI) == server.change(other, text), (changes, text))
        for method in ("documentSymbol", "formatting"):
            said = [server.ask("textDocument/" + method, {"textDocument": {"uri": uri}}) for uri in (URI, other)]
            want(method + " of a changed text", said[0].get("result") == said[1].get("result"), (changes, text))
    server.change(URI, PROGRAM_TEXT)


def try_stages():
    """Before `initialize` and after `shutdown` requests are refused, and no text is taken; `exit` ends at any time."""
    hover, begin, shut, leave = (wire.message("textDocument/hover", {}, "h"), wire.message("initialize", {}, 1), wire.message("shutdown", None, 2), wire.message("exit", None))
    text = wire.message("textDocument/didOpen", {"textDocument": {"uri": URI, "languageId": "mmixal", "version": 1, "text": ""}})
    for what, stream, codes, status in (
        ("an exit at once", leave, [], 1),
        ("before initialize", text + hover + shut + leave, [-32002, -32002], 1),
        ("a second initialize", begin + begin + leave, [None, -32600], 1),
        ("after shutdown", begin + shut + text + hover + shut + begin + leave, [None, None, -32600, -32600, -32600], 0),
    ):
        out, ended = wire.session(PROGRAM, stream)
        want(what, [b.get("error", {}).get("code") for b in wire.bodies(out)[0]] == codes and ended == status, (out, ended))


def reached(line, column):
    """The front of a line up to a column in units of UTF-16, and not within a character."""
    front = ""
    for character in line:
        if units(front) >= column:
            return front
        front += character
    return front


PROGRAM_TEXT = """\tLOC #100
Size\tIS 10
Main\tSETL $1,Size
2H\tSUBU $1,$1,1
\tPBNZ $1,2B
\tJMP 2F
2H\tTRAP 0,Halt,0\tend
"""


def main():
    """All of it."""
    server = wire.Server(PROGRAM)
    offers = server.ask("initialize", {"capabilities": {}})
    want("the server offers rename", offers["result"]["capabilities"]["renameProvider"])
    for path in sources():
        text = open(path, encoding="utf-8", errors="replace").read()
        if "\ufffd" in text:
            continue
        diagnostics = server.open(URI, text)
        want("faults of " + path, told(diagnostics, 1) == ranges(checked(path)), diagnostics)
    want("a good text has no faults", server.change(URI, PROGRAM_TEXT) == [])
    hover = server.at("hover", URI, 2, 6)["result"]["contents"]["value"]
    want("an instruction is told", hover.startswith("#0000000000000100: e301000a  SETL $1,10  1\u03c5\n"), hover)
    hover = server.at("hover", URI, 2, 14)["result"]["contents"]["value"]
    want("a name is told", hover == ":Size = #000000000000000a\nline 2: Size\tIS 10\n", hover)
    label = server.at("definition", URI, 4, 10)["result"]
    want("2B is the first 2H", label and label["range"]["start"]["line"] == 3, label)
    label = server.at("definition", URI, 5, 6)["result"]
    want("2F is the second 2H", label and label["range"]["start"]["line"] == 6, label)
    uses = server.at("references", URI, 1, 1, context={"includeDeclaration": True})["result"]
    want("Size is at two places", [u["range"]["start"]["line"] for u in uses] == [1, 2], uses)
    marks = server.at("documentHighlight", URI, 3, 0)["result"]
    want("2H is at two places", [m["range"]["start"]["line"] for m in marks] == [3, 4], marks)
    want("a name can be changed", server.at("prepareRename", URI, 1, 0)["result"]["end"]["character"] == 4)
    new = server.at("rename", URI, 1, 0, newName="Length")
    want("Size becomes Length", len(new["result"]["changes"][URI]) == 2, new)
    new = server.at("rename", URI, 3, 0, newName="3H")
    want("2H becomes 3H", [e["newText"] for e in new["result"]["changes"][URI]] == ["3H", "3B"], new)
    new = server.at("rename", URI, 2, 0, newName="Begin")
    want("Main stays", "error" in new, new)
    new = server.at("rename", URI, 1, 0, newName="Main")
    want("no name twice", "error" in new, new)
    server.change(URI, PROGRAM_TEXT.replace("\tPBNZ", "3H\tSWYM\n\tPBNZ"))
    for line, name in ((3, "3H"), (4, "2H")):
        new = server.at("rename", URI, line, 0, newName=name)
        want("2B would lead elsewhere", "another one" in new["error"]["message"], new)
    server.change(URI, PROGRAM_TEXT)
    outline = server.ask("textDocument/documentSymbol", {"textDocument": {"uri": URI}})["result"]
    want("the labels", [s["name"] for s in outline] == ["Size", "Main"], outline)
    words = server.at("completion", URI, 2, 5)["result"]["items"]
    want("all words", {"SETL", "Main", "Size", "GREG", "StdOut"} <= {w["label"] for w in words})
    for column, found in ((7, ["SET", "SETH", "SETMH", "SETML", "SETL"]), (15, ["Size"])):
        words = [w["label"] for w in server.at("completion", URI, 2, column)["result"]["items"]]
        want("the words that begin so", words == found, words)
    form = server.at("signatureHelp", URI, 2, 12)["result"]
    want("SETL is written", form and form["signatures"][0]["label"] == "SETL $X,YZ", form)
    changes = server.ask("textDocument/formatting", {"textDocument": {"uri": URI}, "options": {}})
    rows = edited(PROGRAM_TEXT, changes["result"]).splitlines()
    want("the columns", rows[:2] + rows[6:] == ["        LOC   #100", "Size    IS    10", "2H      TRAP  0,Halt,0        end"], rows)
    try_changes(server)
    want("places beyond a line", "error" not in server.at("hover", URI, 3, 1000) and "error" not in server.at("hover", URI, 1000, 0))
    want("no such request", server.ask("workspace/none", {})["error"]["code"] == -32601)
    want("the end", server.end() == 0)
    try_stages()
    for bad in (b"Content-Type: x\r\n\r\n{}", b"Content-Length: 67108865\r\n\r\n", wire.frame(b"{"), b"x" * 5000):
        out, status = wire.session(PROGRAM, bad)
        want("no message", wire.bodies(out)[0][0]["error"]["code"] == -32700 and status == 1, out)
    return 1 if faults else 0


sys.exit(main())
