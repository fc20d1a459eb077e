#!/usr/bin/env python3
"""Checks what the documents say against the repository, and prints only what is wrong.

- Links lead to files, and to headings in them. Each crate has a row in docs/ARCHITECTURE.md.
- Names in backquotes are there: crates `mx_..`, paths, the modules that docs/ARCHITECTURE.md names, and on each page the clauses
  and definitions `CRATE.NAME`. In a path a word of capitals, as NAME, or a * means any word. A name with an underscore is a word of
  the sources or of a script, but for docs/PROVING.md and docs/GRADING.md, which name what is not here.
- A block with a path of crates/ quotes that file.
- Each crate names those that crates.txt lists after it.
- A table of CONTRIBUTING.md with the head "`WORD` in" names the files of sources, definitions and proofs that have the word.
- The numbers and names of docs/MESSAGES.md are those of the program's table.
- The blocks marked `console` on every page are run on the program that is kept, if it is that of these sources: a line
  that begins with "$ " is a command, and the lines after it are what it prints. Where a block has a session of the console or of
  the debugger whose input is no file, what follows each prompt is typed. A block marked `mms NAME` is a file that the reader has
  saved under that name. Nothing is built here.
- The examples of docs/MESSAGES.md give the number and name of their row: words of a command line, a source of one line, or
  an object in hexadecimal tetras. Of what beginners write, the mended source gives no message; of slips without a message
  both sources give none, and the statuses of the row.
- Blocks with mmixview are run where that program is kept, too, and those with the grader where a shield works.
- The examples of the manual pages are run where the sources of examples/ are, with the program on the path.

With `--installed FOLDER` only the last five are checked, with the programs and the grader that are installed under FOLDER.
"""
import functools
import glob
import os
import re
import shlex
import shutil
import subprocess
import sys
import tempfile

import sources

TOP = os.path.dirname(os.path.dirname(os.path.realpath(__file__)))
# where the programs are, and the grader with its parts where it is installed, too
FOLDER = ".built"
GRADER = None
# the prompts of sessions, and what the program itself writes where lines come from no keyboard
PROMPTS = {"mmix>": "mmix> ", "(mmix)": ""}
wrongs = []


def wrong(where, what):
    wrongs.append(f"{where}: {what}")


def text_of(path):
    with open(path, encoding="utf-8") as file:
        return file.read()


def pages():
    return sorted(["README.md", "CONTRIBUTING.md", "CHANGELOG.md", *glob.glob("docs/*.md"), *glob.glob("examples/*.md")])


def lines_of(page):
    """The lines outside of fenced blocks, with their numbers."""
    is_fenced = False
    for number, line in enumerate(text_of(page).splitlines(), 1):
        if line.startswith("```"):
            is_fenced = not is_fenced
        elif not is_fenced:
            yield f"{page}:{number}", line


def cells_of(line):
    """The cells of a row of a table."""
    return [it.replace("\\|", "|") for it in re.findall(r" ((?:[^|\\]|\\.)*) \|", line)]


def is_there(path):
    return "/out" in path or bool(glob.glob(re.sub(r"\b[A-Z]{4,}\b(?!\.md)", "*", path)))


def anchors(page):
    """The headings of a page, as a link names them: in small letters, with dashes for blanks."""
    heads = re.findall(r"^#+ (.*)$", text_of(page), re.M)
    return {re.sub(r"[^\w\- ]", "", it.lower()).replace(" ", "-") for it in heads}


def leads_somewhere(page, link):
    name, _, heading = link.partition("#")
    path = os.path.join(os.path.dirname(page), name) if name else page
    return os.path.exists(path) and (not heading or heading in anchors(path))


def check_links_and_paths():
    for page in pages():
        for where, line in lines_of(page):
            for link in re.findall(r"\]\(([^)]+)\)", line):
                if not link.startswith("http") and not leads_somewhere(page, link):
                    wrong(where, f"the link to {link} leads nowhere")
            for name in re.findall(r"`([^`\s]+)`", line):
                if re.fullmatch(r"mx_\w+", name) and not os.path.isdir(f"crates/{name}"):
                    wrong(where, f"there is no crate {name}")
                if re.match(r"(crates|docs|examples|checks|bench|\.ci)/", name) and not is_there(name):
                    wrong(where, f"there is no {name}")
            for name, path in re.findall(r"`(\w+)` in `(crates/\S+\.antt)`", line):
                if not declares(path, name):
                    wrong(where, f"{path} does not define {name}")


def whole_text_of(crate):
    paths = [it for end in ("rt", "antt") for it in glob.glob(f"crates/{crate}/**/*.{end}", recursive=True)]
    return "".join(text_of(it) for it in paths if "/out/" not in it)


def check_needs():
    """What crates.txt lists after a crate is named in its files."""
    for crate, below in sources.crates().items():
        text = whole_text_of(crate)
        for name in below:
            if not re.search(rf"\b{name}\b", text):
                wrong("crates.txt", f"{crate} does not name {name}")


def check_architecture():
    """The first picture has each crate but those of tests; a crate's row says what it depends on; a name of a module is that of one."""
    listed = sources.crates()
    picture = re.search(r"^```\n(.*?)^```", text_of("docs/ARCHITECTURE.md"), re.M | re.S)[1]
    for crate in listed:
        if not crate.startswith("test_") and not re.search(rf"\b{crate}\b", picture):
            wrong("docs/ARCHITECTURE.md", f"its first picture has no {crate}")
    for where, line in lines_of("docs/ARCHITECTURE.md"):
        row = re.match(r"\| `(\w+)` \|([^|]*)\|", line)
        for below in re.findall(r"`(\w+)`", row[2]) if row and row[1] in listed else []:
            if below not in listed[row[1]]:
                wrong(where, f"{row[1]} does not depend on {below} in crates.txt")
        for name in re.findall(r"`([A-Z]\w*)`", line) if not row else []:
            if not any(glob.glob(f"crates/*/{part}/{inner}{name}.antt") for part in ("specs", "proofs") for inner in ("", "*/")):
                wrong(where, f"no crate has a module {name}")


def declares(path, name):
    return os.path.isfile(path) and re.search(rf"^ *(\w+ )?pub (data |record )?{name}\b", text_of(path), re.M)


def is_claim(crate, rest):
    """Whether a crate has a definition, as Module.name, or a function with a clause, as Type::function.clause."""
    module, _, name = rest.partition(".")
    if module[0].isupper() and "::" not in module:
        return any(declares(it, name) for it in sources.files_of(crate, "specs", "antt") if it.endswith(f"/{module}.antt"))
    owner, _, call = module.rpartition("::")
    calls = [it for it in sources.functions_of(crate) if (it.owner, it.name) == (owner, call)]
    return any(not name or name == clause for it in calls for clause, _ in it.clauses)


def check_claims():
    """A name in backquotes that begins with a crate and a point is a definition of it, or a function with a clause."""
    for page in pages():
        for where, line in lines_of(page):
            for name in re.findall(r"`((?:mx|law|face|test)_\w+\.[^`\s]+)`", line):
                crate, _, rest = name.partition(".")
                if crate not in sources.crates() or not is_claim(crate, rest):
                    wrong(where, f"there is no such clause or definition as {name}")


def known_words():
    """The words of sources, definitions, lemmas and scripts, and the names of their files."""
    paths = [it for end in ("rt", "antt") for it in glob.glob(f"crates/**/*.{end}", recursive=True) if "/out/" not in it]
    scripts = [it for part in ("checks", "editors", "grading", "packaging", "bench") for it in glob.glob(f"{part}/**/*", recursive=True)]
    paths += [it for it in [*scripts, "grade", "install", "try", "release"] if os.path.isfile(it) and not it.endswith((".md", ".pyc"))]
    return {word for path in paths for word in re.findall(r"\w+", f"{path} {text_of(path)}")}


def check_words():
    """A name with an underscore in backquotes is a word of the repository."""
    known = known_words()
    for page in pages():
        if page in ("docs/PROVING.md", "docs/GRADING.md", "docs/CLAIMS.md"):
            continue
        for where, line in lines_of(page):
            for name in re.findall(r"`([^`\s]+)`", line):
                for word in re.findall(r"\w+_\w+", name):
                    if word not in known:
                        wrong(where, f"there is no {word} in the repository")


def check_quotes():
    """Each paragraph of a block that names a file of crates/ is in that file."""
    for page in pages():
        for path, block in re.findall(r"^```\w+ (crates/\S+)\n(.*?)^```", text_of(page), re.M | re.S):
            for part in block.strip("\n").split("\n\n"):
                if not os.path.isfile(path) or f"\n{part}\n" not in text_of(path):
                    wrong(page, f"{path} does not have\n{part}")


def sources_with(word):
    """The files of code, definitions and proofs that have a word."""
    every = glob.glob("crates/*/src/**/*.rt", recursive=True)
    every += [it for part in ("specs", "proofs") for it in glob.glob(f"crates/*/{part}/**/*.antt", recursive=True)]
    return {it for it in every if re.search(rf"\b{word}\b", text_of(it))}


def check_file_tables():
    listed = {}
    for where, line in lines_of("CONTRIBUTING.md"):
        cells = cells_of(line)
        head = re.fullmatch(r"`(\w+)` in", cells[0]) if cells else None
        if head:
            listed[head[1]] = (where, set())
        elif listed and len(cells) == 2 and cells[0].startswith("`crates/"):
            folder, names = cells[0].strip("`"), re.findall("`([^`]+)`", cells[1])
            [*listed.values()][-1][1].update(f"{folder}/{it}" for it in names)
    for word, (where, named) in listed.items():
        there = sources_with(word)
        for it in sorted(there - named):
            wrong(where, f"{it} has {word}, too")
        for it in sorted(named - there):
            wrong(where, f"{it} has no {word}")


def check_messages():
    names = text_of("crates/mx_outcome/specs/Names.antt")
    fault_names = set(re.findall(r'n == (\d+) then codes "(\w+)"', names))
    for where, line in lines_of("docs/MESSAGES.md"):
        row = re.match(r"\| (\d+) \| (\w+) \|", line)
        if row and row.groups() not in fault_names:
            wrong(where, f"{row[1]} {row[2]} is not in the program's table of names")


def check_crates():
    """Each crate has its row in docs/ARCHITECTURE.md."""
    for crate in sources.crates():
        if not re.search(rf"^\| `{crate}` \|", text_of("docs/ARCHITECTURE.md"), re.M):
            wrong("docs/ARCHITECTURE.md", f"{crate} is not in the table of crates")


def is_typed(commands):
    """Whether a session among the commands takes its lines from the keyboard."""
    return any(re.search(r" -i | debug ", it) and not re.search(r" <|\||--command", it) for it in commands)


def printed(commands, typed, folder, room):
    """What a shell prints in a folder for commands, each with its line before it, where these lines are typed."""
    script = "".join(f"status=$?; printf '%s\\n' {shlex.quote('$ ' + it)}; (exit $status)\n{it}\n" for it in commands)
    how = {"cwd": folder, "input": typed.encode(), "stdout": subprocess.PIPE, "stderr": subprocess.STDOUT, "timeout": 120}
    how["env"] = {**os.environ, "PATH": f"{room}:{os.environ['PATH']}"}
    return subprocess.run(["sh", "-c", script], **how).stdout.decode(errors="replace")


@functools.cache
def is_fresh(tool="mmixware"):
    """Whether the program of this name that is kept was built from these sources, or is installed."""
    if GRADER:
        return os.access(f"{FOLDER}/{tool}", os.X_OK)
    return subprocess.run(["sh", "-c", f"here=$PWD tool={tool}; . packaging/kept.sh; is_ready"]).returncode == 0


def with_room(call, saved=None):
    """The answer of a call on a new folder with the program, the examples and the files that were saved."""
    with tempfile.TemporaryDirectory() as room:
        shutil.copytree("examples", f"{room}/examples")
        for tool in ("mmixware", "mmixview"):
            os.symlink(os.path.realpath(f"{FOLDER}/{tool}"), f"{room}/{tool}")
        if GRADER:
            os.symlink(GRADER, f"{room}/grade")
        else:
            shutil.copy("grade", room)
            shutil.copytree("grading", f"{room}/grading")
        for name, text in (saved or {}).items():
            with open(f"{room}/{name}", "w", encoding="utf-8") as file:
                file.write(text)
        return call(room)


def trimmed(text):
    """A text whose lines have no blanks at their ends."""
    return "\n".join(line.rstrip() for line in text.rstrip("\n").split("\n"))


def session(block, saved, folder="."):
    """What a block shows of the program's output, and what it prints now in a folder of the room."""
    commands, typed, shown = re.findall(r"^\$ (.*)$", block, re.M), "", block
    if is_typed(commands):
        prompt = re.compile(r"^(mmix>|\(mmix\))(?: (.*))?\n", re.M)
        typed = "".join(f"{line}\n" for _, line in prompt.findall(block))
        shown = prompt.sub(lambda it: PROMPTS[it[1]], block)
    return shown, with_room(lambda room: printed(commands, typed, f"{room}/{folder}", room), saved)


@functools.cache
def is_shielded():
    """Whether a shield of the grader works here."""
    tries = ("unshare -r -m -n -i -u -p -f true", "bwrap --dev-bind / / bwrap --unshare-all --ro-bind / / true")
    return any(subprocess.run(["sh", "-c", it], stderr=subprocess.DEVNULL).returncode == 0 for it in tries)


def check_session(page, block, saved, folder="."):
    if is_fresh() and ("mmixview" not in block or is_fresh("mmixview")) and ("./grade " not in block or is_shielded()):
        shown, got = session(block, saved, folder)
        if trimmed(got) != trimmed(shown):
            wrong(page, f"a session prints\n{got}and the page has\n{shown}")


def check_sessions():
    every = ""
    for page in pages():
        saved = {}
        for kind, block in re.findall(r"^```(console|mms \S+)\n(.*?)^```", text_of(page), re.M | re.S):
            if kind != "console":
                saved[kind.split()[1]] = block
                continue
            every += block
            check_session(page, block, saved)
    for source in sorted(glob.glob("examples/*.mm[so]") + glob.glob("examples/*.txt")):
        if source not in every:
            wrong("examples/README.md", f"no session uses {source}")


def check_manual():
    """Each block without filling of a page on a program is a session in the folder of the examples."""
    pages_of_programs = ("docs/mmixware.1", "docs/mmixview.1")
    blocks = [(page, block) for page in pages_of_programs for block in re.findall(r"^\.nf\n(.*?)^\.fi", text_of(page), re.M | re.S)]
    for page, block in blocks:
        for written, meant in ((r"\-", "-"), (r"\(dq", '"'), (r"\&", ""), (r"\e", "\\")):
            block = block.replace(written, meant)
        if not block.startswith("$ "):
            wrong(page, f"an example begins with no command:\n{block}")
        check_session(page, block, {}, "examples")


def call_of(example, room):
    """The call of the program on an example: words of a command line, a source, or tetras of an object."""
    if example.startswith("mmixware"):
        words = shlex.split(example)[1:]
    elif re.fullmatch(r"[0-9a-f]{8}( [0-9a-f]{2,8})*", example):
        words = ["sim", "example.mmo"]
        with open(f"{room}/example.mmo", "wb") as file:
            file.write(bytes.fromhex(example))
    else:
        words = ["run", "example.mms"]
        with open(f"{room}/example.mms", "w", encoding="utf-8") as file:
            file.write(example + "\n")
    how = {"cwd": room, "stdin": subprocess.DEVNULL, "capture_output": True, "timeout": 60}
    return subprocess.run(["./mmixware", *words], **how)


def answered(example):
    """What the program says of an example, and its status."""
    done = with_room(lambda room: call_of(example, room))
    return done.stderr.decode(errors="replace").strip(), str(done.returncode)


def source_in(cell):
    """The source in a cell of a table, whose lines are in backquotes with <br> between them; nothing of another cell."""
    is_source = re.fullmatch("`[^`]+`(<br>`[^`]+`)*", cell)
    return "\n".join(re.findall("`([^`]+)`", cell)) if is_source else None


def check_examples_of_messages():
    """In a row of five cells an example in backquotes, the fourth, gives the message of the row: its number and name, or
    its line, where that has no word of capitals, which means others."""
    if not is_fresh():
        return
    for where, line in lines_of("docs/MESSAGES.md"):
        cells = cells_of(line)
        if len(cells) != 5 or not re.fullmatch("`.+`", cells[3]):
            continue
        message = " ".join(cells[:2]) if cells[0].isdigit() else cells[0].strip("`")
        if not re.search(r"\b[A-Z]+\b", message):
            got, _ = answered(cells[3][1:-1])
            if not re.search(rf"\b{message}\b", got):
                wrong(where, f"the example {cells[3]} gives {got or 'no message'}")


def check_what_beginners_write():
    """In a row of four cells the first one, a source, gives the message of the second; the last one gives none. In a row of
    five with two sources and a status after each they give these, and no message."""
    if not is_fresh():
        return
    for where, line in lines_of("docs/MESSAGES.md"):
        cells, due = cells_of(line), []
        if len(cells) == 4 and re.fullmatch(r"\d+ \w+", cells[1]):
            due = [(cells[0], f".*: {cells[1]}", ".*"), (cells[3], "", ".*")]
        elif len(cells) == 5 and cells[1].isdigit() and cells[3].isdigit():
            due = [(cells[0], "", cells[1]), (cells[2], "", cells[3])]
        for cell, message, status in due:
            source = source_in(cell)
            got = answered(source) if source else ("", "")
            if source and not (re.fullmatch(message, got[0]) and re.fullmatch(status, got[1])):
                wrong(where, f"the source {cell} gives {got[0] or 'no message'} and status {got[1]}")


def main(words):
    global FOLDER, GRADER
    checks = [check_sessions, check_manual, check_examples_of_messages, check_what_beginners_write]
    if words[:1] == ["--installed"]:
        FOLDER = os.path.realpath(f"{words[1]}/bin")
        GRADER = f"{FOLDER}/grade"
    else:
        checks = [check_links_and_paths, check_needs, check_architecture, check_claims, check_words, check_quotes, check_file_tables, check_messages, check_crates, *checks]
    os.chdir(TOP)
    for check in checks:
        check()
    for it in wrongs:
        print(f"checks/documents.py: {it}", file=sys.stderr)
    return 1 if wrongs else 0


if __name__ == "__main__":
    sys.exit(main(sys.argv[1:]))
