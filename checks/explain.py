#!/usr/bin/env python3
"""Checks the table of `mmixview explain` against the documents and the tables, and prints only what is wrong.

- docs/MESSAGES.md has each fault, reason and kind of the table, with its name and the same example, and the table has each of
  the document; so it has each warning with its name, and each exit status.
- docs/LANGUAGE.md has each operation and each predefined symbol of the table, and the table has each of the document; the
  instructions that the table says are not performed are those that docs/MACHINE.md lists under 110 Float.
- The tables of crates/mx_ops have them, too.
- The manual pages name no fault that the table lacks, and docs/mmixview.1 has the command.
- By the second assembler and machine of checks/model: a faulty example of a source, an object, a stop, of words or of a status has the
  fault, reason, kind or status of its row, and what mends it has none; an example of a warning, and what mends it, is accepted; each
  other example is a good source. That the examples have their warnings is tested in crates/test_views.
The table is read from its source text. Nothing is built, and no program is run.
"""
import glob
import itertools
import os
import re
import shlex
import sys

TOP = os.path.dirname(os.path.dirname(os.path.realpath(__file__)))
sys.path.insert(0, f"{TOP}/checks/model")
from mmixmodel.hosts import MemoryHost  # noqa: E402
from mmixmodel.program import mmixware  # noqa: E402

CRATES = ("mx_explain", "mx_operations", "mx_messages")
NUMBERED = ("Source", "Object", "Stop", "Kind", "Inside")
HEADINGS = {"Faulty words": "Kind", "A source that is refused": "Source", "An object that is refused": "Object",
            "A run that is stopped": "Stop"}
# a stop that needs a million steps, and a kind of options that the model does not read
SLOW, UNKNOWN = ("114",), ("10",)
# a status that a protocol gives, as that of lsp does after an end without `shutdown`
OF_PROTOCOL = {"1"}
# statuses that only a system gives, or an input without end
SYSTEM = ("71", "74", "76")
STRING = r'"((?:[^"\\]|\\.|\\\n)*)"'
wrongs = []


def wrong(where, what):
    wrongs.append(f"{where}: {what}")


def text_of(path):
    with open(path, encoding="utf-8") as file:
        return file.read()


def plain(literal):
    """The text of a literal."""
    joined = re.sub(r"\\\n\s*", "", literal)
    return re.sub(r"\\(.)", lambda it: {"n": "\n"}.get(it[1], it[1]), joined)


class Row:
    """A row of the table: its kind, what it is about, its sentences, its example, and what mends that."""

    def __init__(self, where, topic, *texts):
        self.kind, number = re.fullmatch(r"(\w+)(?:\((\d+)\))?", topic).groups()
        name, self.says, self.example, self.mended = map(plain, texts)
        self.key, self.name = number or name, name
        self.where = f"{where}: {self.key}"


def table():
    """All rows. Each static says how many it has."""
    rows = []
    for path in itertools.chain(*(sorted(glob.glob(f"crates/{it}/src/*.rt")) for it in CRATES)):
        text = text_of(path)
        here = [Row(path, *it) for it in re.findall(rf"\(\s*Topic::(\w+(?:\(\d+\))?),\s*{STRING},\s*{STRING},\s*{STRING},\s*{STRING},?\s*\)", text)]
        due = sum(int(it) for it in re.findall(r"static \w+: \[Entry; (\d+)\]", text))
        if len(here) != due:
            wrong(path, f"has {due} rows, and {len(here)} can be read")
        rows += here
    return rows


def names_of_numbers():
    """The names of the program: those of faults and reasons, and those of kinds."""
    faults, kinds = text_of("crates/mx_outcome/specs/Names.antt").split("usage_name_of :")
    return ({int(n): name for n, name in re.findall(r'n == (\d+) then codes "(\w+)"', it)} for it in (faults, kinds))


def cells_of(line):
    return [it.replace("\\|", "|") for it in re.findall(r" ((?:[^|\\]|\\.)*) \|", line)]


def check_messages(rows):
    faults, kinds = names_of_numbers()
    given = {(it.kind, it.key): it for it in rows if it.kind in NUMBERED}
    here, listed = None, set()
    for number, line in enumerate(text_of("docs/MESSAGES.md").splitlines(), 1):
        here = HEADINGS.get(line[3:]) if line.startswith("## ") else here
        cells = cells_of(line)
        if not here or len(cells) != 5 or not cells[0].isdigit():
            continue
        where, row = f"docs/MESSAGES.md:{number}", given.get((here, cells[0]))
        listed.add((here, cells[0]))
        if not row:
            wrong(where, f"the table has no {cells[0]} of this kind")
            continue
        if (kinds if here == "Kind" else faults).get(int(cells[0])) != cells[1]:
            wrong(where, f"{cells[0]} has another name")
        if cells[3] not in (row.example or "none", f"`{row.example}`"):
            wrong(row.where, f"has another example than {where}")
    for kind, key in given:
        if kind == "Inside":
            if f"{key} {faults[int(key)]}" not in text_of("docs/MESSAGES.md"):
                wrong("docs/MESSAGES.md", f"does not name {key} {faults[int(key)]}")
        elif (kind, key) not in listed:
            wrong(given[kind, key].where, "docs/MESSAGES.md has no row on it")
    for number in faults:
        if not any((kind, str(number)) in given for kind in NUMBERED if kind != "Kind"):
            wrong("crates/mx_outcome/specs/Names.antt", f"{number} {faults[number]} is not explained")
    for number in kinds:
        if ("Kind", str(number)) not in given:
            wrong("crates/mx_outcome/specs/Names.antt", f"the kind {number} {kinds[number]} is not explained")


def check_warnings(rows):
    """The warnings of the table, of crates/mx_warn and of docs/MESSAGES.md."""
    specs = text_of("crates/mx_warn/specs/Kinds.antt")
    numbers = dict(re.findall(r"kind_number (\w+) = (\d+)", specs))
    due = {f"{numbers[kind]} {name}" for kind, name in re.findall(r'kind_name (\w+) = codes "(\w+)"', specs)}
    given = {f"{it.key} {it.name}" for it in rows if it.kind == "Warning"}
    part = text_of("docs/MESSAGES.md").split("## Warnings")[1].split("\n## ")[0]
    compare("warning", given, due, "crates/mx_warn/specs/Kinds.antt")
    compare("warning", given, set(re.findall(r"^\| (\d+ \w+) \|", part, re.M)), "docs/MESSAGES.md")


def check_statuses(rows):
    """The exit statuses of the table, of crates/mx_outcome, of docs/MESSAGES.md and of the manual pages."""
    given = {it.key for it in rows if it.kind == "Status"}
    compare("status", given, set(re.findall(r"^status_of .* = (\d+)$", text_of("crates/mx_outcome/specs/Status.antt"), re.M)),
            "crates/mx_outcome/specs/Status.antt")
    lines = [it for it in rows_below("docs/MESSAGES.md", "Line") if len(it) == 5]
    compare("status", given - {"0"}, {it[1] for it in lines}, "docs/MESSAGES.md")
    for page in ("docs/mmixware.1", "docs/mmixview.1"):
        part = text_of(page).split(".SH EXIT STATUS")[1].split("\n.SH ")[0]
        for it in sorted(set(re.findall(r"^\.B (\d+)$", part, re.M)) - given - OF_PROTOCOL, key=int):
            wrong(page, f"the status {it} is not explained")


def operations_of(cell):
    """The operations that a cell of docs/LANGUAGE.md names; `ZS.. likewise` means those before it with this front."""
    words = re.findall(r"[A-Z0-9]+(?:\.\.)?", cell)
    plain_words = [it for it in words if not it.endswith("..") and re.search("[A-Z]{2}", it)]
    fronts = [it[:-2] for it in words if it.endswith("..")]
    ends = ("N", "Z", "P", "OD", "NN", "NZ", "NP", "EV")
    return plain_words + [front + end for front in fronts for end in ends]


def rows_below(page, head):
    """The cells of the rows of the tables of a page whose first column has this head."""
    here = False
    for line in text_of(page).splitlines():
        cells = cells_of(line)
        if cells and cells[0] == head:
            here = True
        elif not line.startswith("|"):
            here = False
        elif here and cells:
            yield cells


def language():
    """The operations and the predefined symbols of docs/LANGUAGE.md."""
    page = "docs/LANGUAGE.md"
    operations = {it for cells in rows_below(page, "Names") for it in operations_of(cells[0])}
    operations.update(it for cells in rows_below(page, "Statement") for it in re.findall(r"` ?(?:x )?([A-Z]+)\b", cells[0]))
    operations.update(re.findall(r"\*\*([A-Z]+)\*\*", text_of(page)))
    symbols = {it for cells in rows_below(page, "Predefined") for it in re.findall(r"`(\w+)`", cells[0])}
    return operations, symbols


def compare(what, given, due, where):
    for it in sorted(due - given):
        wrong(where, f"the {what} {it} is not explained")
    for it in sorted(given - due):
        wrong(where, f"has no {what} {it}, which is explained")


def check_language(rows):
    operations, symbols = language()
    tables = text_of("crates/mx_ops/src/table.rt")
    given = {it.key for it in rows if it.kind in ("Operation", "Unperformed")}
    known = {it.key for it in rows if it.kind == "Symbol"}
    compare("operation", given, operations, "docs/LANGUAGE.md")
    compare("operation", given, set(re.findall(r'\("(\w+)", Op::', tables)), "crates/mx_ops/src/table.rt")
    compare("symbol", known, symbols, "docs/LANGUAGE.md")
    compare("symbol", known, set(re.findall(r'\("(\w+)", \w+\)', text_of("crates/mx_ops/src/symbols.rt"))), "crates/mx_ops/src/symbols.rt")
    names = re.findall(r'"(\w+)"', re.search(r"static NAMES.*?\];", tables, re.S)[0])
    codes = re.search(r"\| 110 Float \| the codes (.*) \|", text_of("docs/MACHINE.md"))[1]
    spans = re.findall(r"`#(\w\w)`(?: to `#(\w\w)`)?", codes)
    floats = {names[code] for first, last in spans for code in range(int(first, 16), int(last or first, 16) + 1)}
    compare("instruction that is not performed", {it.key for it in rows if it.kind == "Unperformed"}, floats, "docs/MACHINE.md")


def check_rows(rows):
    for kind, key in {(it.kind, it.key) for it in rows}:
        if sum((it.kind, it.key) == (kind, key) for it in rows) > 1:
            wrong("the table", f"{key} has two rows of one kind")
    for row in rows:
        if not row.says or any(len(it) > 76 and "<-" not in it for it in row.says.split("\n")):
            wrong(row.where, "has no sentences, or a line of more than 76 characters")
        if row.says and not row.says.endswith(".") and "<-" not in row.says.split("\n")[-1]:
            wrong(row.where, "its sentences have no end")


def check_manual():
    faults, kinds = names_of_numbers()
    pairs = {f"{n} {name}" for names in (faults, kinds) for n, name in names.items()}
    for page in ("docs/mmixware.1", "docs/mmixview.1"):
        for it in re.findall(r"(?<!warning )\b\d+ [A-Z][a-z]+(?:[A-Z][a-z]+)+\b", text_of(page)):
            if it not in pairs:
                wrong(page, f"{it} is no fault, reason or kind")
    if not re.search(r"mmixview explain\n", text_of("docs/mmixview.1")):
        wrong("docs/mmixview.1", "has no command explain")


def answer_of(words, name, data):
    """The outcome of the model on one file."""
    return mmixware(words, MemoryHost(b"line\n", (), {name: data} if name else {}))


def run_of(source):
    return answer_of(["run", "--steps", "1000", "p.mms"], b"p.mms", (source + "\n").encode())


def refusal_of(source):
    """The fault of a source, or nothing, where it comes after an instruction; a source without Main gets one."""
    given = source if re.search(r"^(.*;)?Main\b", source) else f" SWYM 0\n{source}\n PREFIX :\nMain SWYM 0"
    outcome = answer_of(["asm", "p.mms", "p.mmo"], b"p.mms", (given + "\n").encode())
    return outcome.values[1] if outcome.kind == "Refused" else None


def is_wordy(text):
    """Whether an example says in words what it is, and is no source."""
    return not text or bool(re.match(r"([a-z]+|an Fread|[\d,]+ [a-z]+)[ ,:]", text)) and not re.match(r"\w+ [A-Z]+ ", text)


def status_of(outcome):
    """The status that an outcome has."""
    return {"Done": outcome.values[0] if outcome.values else 0, "Usage": 64, "Refused": 65, "NoFile": 66, "Stopped": 70,
            "StepsSpent": 75}[outcome.kind]


def check_status(row):
    """The example of a status has it, and what mends it does not, where the model can say so: it has one file, the source hello.mms."""
    for text, due in ((row.example, True), (row.mended, False)):
        if text.startswith("mmixware"):
            outcome = answer_of(shlex.split(text)[1:], b"hello.mms", b"Main TRAP 0,Halt,0\n")
        elif text and not is_wordy(text):
            outcome = run_of(text)
        else:
            continue
        if row.key not in SYSTEM and (status_of(outcome) == int(row.key)) != due:
            wrong(row.where, f"{text} gives {outcome}")


def check_examples(rows):
    for row in rows:
        if row.kind == "Source" and not is_wordy(row.example):
            outcome = run_of(row.example)
            if outcome.kind != "Refused" or outcome.values[1] != int(row.key):
                wrong(row.where, f"the example {row.example!r} gives {outcome}")
        if row.kind == "Source" and not is_wordy(row.mended) and refusal_of(row.mended):
            wrong(row.where, f"what mends it, {row.mended!r}, gives {refusal_of(row.mended)}")
        if row.kind == "Object" and not is_wordy(row.example):
            outcome = answer_of(["sim", "p.mmo"], b"p.mmo", bytes.fromhex(row.example))
            if outcome.kind != "BadObject" or outcome.values[1] != int(row.key):
                wrong(row.where, f"the example gives {outcome}")
        if row.kind == "Stop" and not is_wordy(row.example) and row.key not in SLOW:
            outcome = run_of(row.example)
            if outcome.kind != "Stopped" or outcome.values[1] != int(row.key):
                wrong(row.where, f"the example gives {outcome}")
            if not is_wordy(row.mended) and run_of(row.mended).kind != "Done":
                wrong(row.where, f"what mends it gives {run_of(row.mended)}")
        if row.kind == "Kind" and row.example and row.key not in UNKNOWN:
            for text, due in ((row.example, True), (row.mended, False)):
                outcome = answer_of(shlex.split(text)[1:], None, None)
                if (outcome.kind == "Usage") != due or due and outcome.values[0] != int(row.key):
                    wrong(row.where, f"{text} gives {outcome}")
        if row.kind == "Warning" and row.key != "8" and (refusal_of(row.example) or refusal_of(row.mended)):
            wrong(row.where, "its example, or what mends it, is refused")
        if row.kind == "Status":
            check_status(row)
        if row.kind in ("Operation", "Unperformed", "Symbol") and row.example:
            needed = ";".join(f"{it} SWYM 0" for it in ("Name", "Text", "Args", "Sub", "Fix")
                              if re.search(rf"\b{it}\b", row.example) and not re.search(rf"(^|;){it} ", row.example))
            fault = refusal_of("\n".join(it for it in (row.example, needed) if it))
            if fault or row.key not in row.example and row.kind != "Unperformed":
                wrong(row.where, f"the example {row.example!r} gives {fault}, or does not use it")


def main():
    os.chdir(TOP)
    rows = table()
    check_rows(rows)
    check_messages(rows)
    check_warnings(rows)
    check_statuses(rows)
    check_language(rows)
    check_manual()
    check_examples(rows)
    for it in wrongs:
        print(f"checks/explain.py: {it}", file=sys.stderr)
    return 1 if wrongs else 0


if __name__ == "__main__":
    sys.exit(main())
