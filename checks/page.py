#!/usr/bin/python3
"""Checks the page of a program and its run, and prints only what is wrong, and what is missing to look for it.

- The data is that of the runs: all examples and random programs of checks/model. Node applies the records, by the
  page's own script (checks/page.mjs), and states of each run are compared with `mmixware run --steps K --dump`.
- The page is what crates/mmixview/page/join.py makes of the data, and tidy finds nothing in it.
- In chromium and firefox-esr the page is opened and used by keys and the mouse, and what it shows is compared with a
  dump.

Where node, tidy, a browser or python3-selenium is not there, that is said, and the rest is checked.
"""
import argparse
import glob
import json
import os
import shutil
import subprocess
import sys
import tempfile

TOP = os.path.dirname(os.path.dirname(os.path.realpath(__file__)))
sys.path[:0] = [f"{TOP}/crates/mmixview/page", f"{TOP}/checks/model"]
import join  # noqa: E402
from browsers import browsers, is_there, strokes_of  # noqa: E402
from generate import case_of  # noqa: E402

PROGRAM, VIEW = f"{TOP}/.built/mmixware", f"{TOP}/.built/mmixview"
MOST_STEPS = 20000
MOST_STATES = 25
wrongs = []


def wrong(where, what):
    wrongs.append(where)
    print(f"checks/page.py: {where}: {what}")


# ---- runs

class Program:
    """A program with what it is run with, in a folder of its own."""

    def __init__(self, name, word, files, arguments=(), given=b"", ring="256"):
        self.name, self.word, self.files = name, word, files
        self.arguments, self.given, self.ring = list(arguments), given, ring

    def call(self, words, maker):
        """The output of a call in a new folder."""
        with tempfile.TemporaryDirectory() as room:
            for name, data in {**self.files, "given": self.given}.items():
                with open(os.path.join(room, name), "wb") as file:
                    file.write(data)
            return subprocess.run([*maker, *words, self.word, *self.arguments], cwd=room, input=self.given,
                                  capture_output=True, check=False)

    def data(self, maker, steps):
        named = [word for name in self.files if name != self.word for word in ("--file", name)]
        done = self.call(["--steps", str(steps), "--ring", self.ring, "--input", "given", *named], maker)
        if not done.stdout:
            wrong(self.name, f"no data: {done.stderr.decode(errors='replace')}")
        return done.stdout

    def dump(self, step):
        """The output and the lines of the dump after so many steps."""
        command = "sim" if self.files[self.word].startswith(b"\x98\x09\x01") else "run"
        done = self.call(["--ring", self.ring, "--steps", str(step), "--dump"], [PROGRAM, command])
        at = done.stdout.rindex(b"rB=#")
        return done.stdout[:at], done.stdout[at:].decode().splitlines()


def is_stack_octa(line):
    return line.startswith("M#6000000000") and int(line[2:18], 16) < 0x6000000000800000


def check_run(program, maker):
    """Compares states of a run, as node has them, with dumps."""
    text = program.data(maker, MOST_STEPS)
    if not text:
        return
    data = json.loads(text)
    if data["end"] == "refused":
        return
    with tempfile.NamedTemporaryFile() as file:
        file.write(text)
        file.flush()
        every = max(97, data["steps"] // MOST_STATES)
        done = subprocess.run(["node", f"{TOP}/checks/page.mjs", file.name, str(every)], capture_output=True, text=True,
                              check=False)
    if done.returncode:
        wrong(program.name, done.stderr)
        return
    answer = json.loads(done.stdout)
    octas, others = set(answer["octas"]), None
    for state in answer["states"]:
        # a run makes one step at least
        if state["step"] == 0:
            continue
        output, dump = program.dump(state["step"])
        is_named = {line: line[0] != "M" or line[1:18] in octas for line in dump}
        rest = [line for line in dump if not is_named[line] and not is_stack_octa(line)]
        others = rest if others is None else others
        has_rs = any(line.startswith("rS=") for line in dump)
        states = [line for line in state["dump"] if has_rs or not line.startswith("rS=")]
        lines = [line for line in dump if is_named[line] and not is_stack_octa(line)]
        if lines != states or rest != others:
            differ = sorted(set(lines) ^ set(states) | set(rest) ^ set(others))
            wrong(program.name, f"step {state['step']} differs: {differ[:6]}")
            return
        written = data["output"][:state["written"]].encode("latin-1")
        if "!" not in data["records"] and output != written:
            wrong(program.name, f"step {state['step']}: the output is {output[-50:]}, and not {written[-50:]}")
            return


def examples():
    for path in sorted(glob.glob(f"{TOP}/examples/*.mms")):
        name = os.path.basename(path)
        with open(path, "rb") as file:
            source = file.read()
        yield Program(name, name, {name: source}, ["some words", "x"], b"A first line\nand 2 more\n")


def random_programs(count, seed):
    for number in range(seed, seed + count):
        case = case_of(number, ["program"])
        at = max(index for index, word in enumerate(case.words) if word in case.files)
        ring = case.words[case.words.index("--ring") + 1] if "--ring" in case.words[:at] else "256"
        yield Program(f"random program {number}", case.words[at], case.files, case.words[at + 1:], case.given, ring)


# ---- browsers

class Page:
    """A page in a browser, with what a user does."""

    def __init__(self, browser, name, program, data):
        self.browser, self.name, self.program, self.data = browser, name, program, data

    def press(self, words):
        """Presses keys, as in "Right Shift+Down 5"."""
        for actions in strokes_of(words):
            self.browser.act(actions)

    def click(self, selector, part=0.5):
        """Clicks into an element, at a part of its width."""
        box = self.browser.run(
            "const element = document.querySelector(arguments[0]); element.scrollIntoView({ block: 'center' });"
            "const { left, width, top, height } = element.getBoundingClientRect();"
            "return [left, width, top + height / 2]", selector)
        x, y = round(box[0] + box[1] * part), round(box[2])
        self.browser.act([{"type": "pointer", "id": "mouse", "parameters": {"pointerType": "mouse"}, "actions": [
            {"type": "pointerMove", "x": x, "y": y, "duration": 0, "origin": "viewport"},
            {"type": "pointerDown", "button": 0}, {"type": "pointerUp", "button": 0}]}])

    def all(self, selector, what):
        """What an expression says of each element e."""
        return self.browser.run(f"return [...document.querySelectorAll(arguments[0])].map((e) => {what})", selector)

    def text(self, selector):
        return self.all(selector, "e.textContent")[0]

    def step(self):
        return int(self.browser.run("return document.getElementById('step').value"))

    def expect(self, what, found, wanted):
        if found != wanted:
            wrong(f"{self.name}, {self.program.name}", f"{what}: {found!r}, and not {wanted!r}")

    def check_state(self):
        """What is shown of registers and output is what the dump has."""
        step = self.step()
        if step == 0:
            return
        output, dump = self.program.dump(step)
        values = dict(line.split("=#") for line in dump if line[0] != "M")
        rows = self.all("#locals tr, #globals tr, #specials tr", "[e.cells[0].textContent, e.cells[2].textContent]")
        found = {name.split()[0]: value for name, value in rows}
        wanted = {name: f"#{int(values[name], 16):x}" for name in values if name[0] == "$" or name in found}
        self.expect(f"registers at step {step}", {name: found[name] for name in found if name in values}, wanted)
        octas = dict(line[1:].split("=#") for line in dump if line[0] == "M")
        for address, value in self.all("#memory tr", "[e.title, e.cells[2].textContent]"):
            wanted = octas.get(f"#{int(address[1:], 16):016x}", "0")
            self.expect(f"{address} at step {step}", value, f"#{int(wanted, 16):x}")
        self.expect(f"output at step {step}", self.text("#output"), output.decode(errors="backslashreplace"))

    def check_faults(self):
        """A source that is refused is shown with its faults, each with what it is about."""
        faults = self.data["faults"]
        titles = [f"{fault['fault']} {fault['name']}" for fault in faults]
        self.expect("faults", self.all(".note b", "e.textContent"), titles)
        marks = [fault["text"][fault["caret"] - 1:][:fault["length"]] for fault in faults if fault["caret"]]
        self.expect("marks", self.all("#lines mark", "e.textContent"), marks)
        self.expect("steps", self.all("#controls", "e.hidden"), [True])

    def use(self):
        """Goes through the run by all that the page offers."""
        last = self.data["steps"]
        self.expect("title", self.browser.run("return document.title"),
                    " ".join([self.program.word, *self.program.arguments]) + ": a program and its run")
        texts = self.all("#lines tr:not(.note) .text", "e.textContent")
        self.expect("lines", texts[:len(self.data["lines"])], [line["text"] for line in self.data["lines"]])
        if self.data["end"] == "refused":
            self.check_faults()
            return
        presses = ("Right Right Right", 3), ("Left", 2), ("End", last), ("Right", last), ("Home", 0), ("Left", 0)
        for keys, step in presses:
            self.press(keys)
            self.expect(keys, self.step(), min(step, last))
            self.check_state()
        for part in (0.3, 0.8):
            self.click("#slider", part)
            is_near = abs(self.step() - part * last) <= 0.1 * last + 1
            self.expect(f"slider at {part}", is_near, True)
            self.check_state()
        for key in ("ArrowLeft", "ShiftArrowRight", "ShiftArrowUp", "ShiftArrowDown"):
            self.click(f"[data-key={key}]")
            self.check_state()
        self.click("#step")
        self.press("End Back Back Back Back Back 2 Enter")
        self.expect("the field", self.step(), 2)
        self.click("h1")
        self.press("Home Right Right Shift+Right Shift+Left Shift+Down Shift+Up End")
        self.expect("keys with Shift", self.step(), last)
        self.click("#globals tr:last-child button")
        is_made = self.all("#globals tr:last-child", "e.className") == ["new"]
        step = self.step()
        self.expect("the maker of $255", step == 0 or is_made, True)
        self.check_state()
        self.press("End")
        self.click("#globals tr:last-child .hexadecimal")
        self.expect("the maker of $255, by its digits", self.step(), step)
        self.click("#lines th button")
        self.expect("a click on a line", len(self.all("#lines tr[aria-current] th button", "1")), 1)
        self.check_state()
        names = self.all("button, input", "e.textContent + (e.ariaLabel ?? '') + (e.labels?.[0]?.textContent ?? '')")
        self.expect("elements without a name", [name for name in names if not name.strip()], [])
        self.expect("status", self.text("#told").startswith(f"Step {self.step()} of {last}."), True)
        self.expect("what came from the source", self.browser.run("return window.broken"), None)


# a source and an output that would break a page into which they are put as they are
HOSTILE = b"""* </script><script>window.broken = 1</script> <!-- & &amp; &lt; \xff\xc3 "quoted" \\u003c
        LOC   Data_Segment
        GREG  @
Text    BYTE  "</script><script>window.broken = 1</script>&amp;<!--",10,0
Count   OCTA  0
        LOC   #100
n       IS    $5
Main    SET   n,3
1H      PUSHJ $6,Add
        SUB   n,n,1
        PBP   n,1B
        LDA   $255,Text
        TRAP  0,Fputs,StdOut
        SET   $255,0
        TRAP  0,Halt,0
Add     LDO   $0,Count
        ADD   $0,$0,1
        STO   $0,Count
        POP   1,0
"""


def check_pages(maker):
    """Opens pages in each browser."""
    programs = [Program("a hostile source", "hostile.mms", {"hostile.mms": HOSTILE})]
    names = ("fibonacci.mms", "coroutines.mms", "hello.mms", "primes.mms", "refused.mms")
    programs += [program for program in examples() if program.word in names]
    with tempfile.TemporaryDirectory() as room:
        pages = []
        for program in programs:
            text = program.data(maker, MOST_STEPS)
            if not text:
                continue
            page = join.page_with(text.decode()).encode()
            if maker[-1] == "--json" and program.data(maker[:-1], MOST_STEPS) != page:
                wrong(program.name, "the page is not what join.py makes of the data")
            path = f"{room}/{program.word}.html"
            with open(path, "wb") as file:
                file.write(page)
            if shutil.which("tidy"):
                done = subprocess.run(["tidy", "-q", "-e", path], capture_output=True, text=True, check=False)
                if done.stderr:
                    wrong(program.name, f"tidy says {done.stderr}")
            pages.append((program, json.loads(text), path))
        for name, kind in browsers():
            browser = kind()
            try:
                for program, data, path in pages:
                    browser.open("file://" + path)
                    Page(browser, name, program, data).use()
            finally:
                browser.close()


def main():
    parser = argparse.ArgumentParser(description=__doc__, formatter_class=argparse.RawDescriptionHelpFormatter)
    parser.add_argument("--maker", help="the command that makes the data; by default `.built/mmixview page --json`")
    parser.add_argument("--random", type=int, default=200, help="how many random programs; by default 200")
    parser.add_argument("--seed", type=int, default=1)
    arguments = parser.parse_args()
    maker = arguments.maker.split() if arguments.maker else [VIEW, "page", "--json"]
    if not os.access(PROGRAM, os.X_OK) or not os.access(maker[0], os.X_OK):
        print("checks/page.py: the programs are not built; nothing is checked")
        return 0
    is_there("tidy", "tidy")
    if is_there("node", "nodejs"):
        for program in [*examples(), *random_programs(arguments.random, arguments.seed)]:
            check_run(program, maker)
    check_pages(maker)
    return 1 if wrongs else 0


if __name__ == "__main__":
    sys.exit(main())
