#!/usr/bin/env python3
"""Walks random programs forward and back by `mmixview dap`. Each step that it stops at is the one that the rules of its request lead to, by
the model of checks/model; and registers, memory and output are those that `mmixware run --steps k --dump` leaves.

    walks.py [--folder FOLDER] [--programs N] [--seed S]

FOLDER has the built programs mmixware and mmixview. It prints each difference, and how many states were compared.
"""
import base64
import os
import random
import sys

HERE = os.path.dirname(os.path.dirname(os.path.dirname(os.path.abspath(__file__))))
sys.dont_write_bytecode = True
sys.path[:0] = [os.path.join(HERE, "checks", "dap"), os.path.join(HERE, "checks", "model")]
import wire  # noqa: E402
from mmixmodel.assembler import Assembly  # noqa: E402
from mmixmodel.faults import Stop  # noqa: E402
from mmixmodel.hosts import MemoryHost  # noqa: E402
from mmixmodel.machine import Machine  # noqa: E402
from mmixmodel.traps import Halted, advance  # noqa: E402
from runs import INPUT, Left, run_steps, parts_of, put_files, walk_programs  # noqa: E402

MOST = 2000
MOVES = 8
FORWARD = ("continue", "continue", "next", "next", "stepIn", "stepOut")
BACK = ("stepBack", "stepBack", "stepBack by one", "reverseContinue")
BLOCK = 256


class Course:
    """The steps of a run, by the model: where each begins, and how many registers are hidden there."""

    def __init__(self, case, words):
        source = case.files[words.name]
        assembly = Assembly(source)
        self.is_refused = assembly.refusal is not None
        self.places, self.hidden = [], []
        if self.is_refused:
            return
        self.lines = {}
        for piece in assembly.pieces:
            for at in range(piece.start & ~3, piece.start + len(piece.data), 4):
                self.lines.setdefault(at, set()).add(piece.line)
        files = {name.encode(): data for name, data in case.files.items()}
        name = words.name.encode()
        arguments = [name[:-4] if name.endswith((b".mms", b".mmo")) else name] + [it.encode() for it in words.arguments]
        try:
            machine = Machine(assembly.image(), arguments, "window", int((words.ring or [0, 256])[1]))
        except Stop:
            self.is_refused = True
            return
        self.run(machine, MemoryHost(case.given, files=files))

    def run(self, machine, host):
        """Goes through the run. The turn that ends it leads to a step of its own, which shows the same place."""
        is_going = True
        while is_going and len(self.places) <= MOST:
            self.places.append(machine.pc)
            self.hidden.append(machine.stack.hidden_count())
            try:
                advance(machine, host)
            except (Halted, Stop):
                is_going = False
        if not is_going:
            self.places.append(machine.pc)
            self.hidden.append(machine.stack.hidden_count())

    def find_next(self, k, breaks, depth=-1):
        """The next step at a break, or where at most so many registers are hidden; or the last step."""
        return next((j for j in range(k + 1, len(self.places)) if self.places[j] // 4 in breaks or self.hidden[j] <= depth), len(self.places) - 1)

    def find_last(self, k, breaks, depth=-1):
        """The last step before here that is such a one; or the start."""
        return next((j for j in range(k - 1, -1, -1) if self.places[j] // 4 in breaks or self.hidden[j] <= depth), 0)

    def find_step(self, k, move, breaks):
        """The step that a move leads to."""
        if move == "continue" or move == "stepOut" and self.hidden[k] == 0:
            return self.find_next(k, breaks)
        if move == "reverseContinue":
            return self.find_last(k, breaks)
        return {
            "next": lambda: self.find_next(k, breaks, self.hidden[k]),
            "stepOut": lambda: self.find_next(k, breaks, self.hidden[k] - 1),
            "stepBack": lambda: self.find_last(k, breaks, self.hidden[k]),
            "stepIn": lambda: min(k + 1, len(self.places) - 1),
            "stepBack by one": lambda: max(k - 1, 0),
        }[move]()


class Walk:
    """A session that walks through a program."""

    def __init__(self, case, folder, room):
        self.case, self.folder, self.room = case, folder, room
        self.words = parts_of(case)
        self.rng = random.Random(case.seed)
        self.course = Course(case, self.words)
        self.at, self.breaks, self.blocks = 0, set(), set()
        self.left = Left({}, {}, b"", b"")
        self.wrongs = []
        self.states = 0

    def report(self, what):
        """Notes what differs."""
        self.wrongs.append(what)
        print(f"seed {self.case.seed}, step {self.at}: {what}")

    def begin(self):
        """Launches the program, and goes to its start."""
        put_files(self.room, self.case)
        self.adapter = wire.Adapter(f"{self.folder}/mmixview", cwd=self.room)
        others = [name for name in self.case.files if name != self.words.name]
        more = {"ring": int(self.words.ring[1])} if self.words.ring else {}
        self.adapter.begin(self.words.name, args=self.words.arguments, stdin=INPUT, files=others, steps=MOST, stopOnEntry=True, **more)
        self.set_breaks()
        self.adapter.start()

    def set_breaks(self):
        """Sets breaks at some instructions that are carried out."""
        chosen = {self.rng.choice(self.course.places) & ~3 for _ in range(self.rng.randrange(4))}
        rows = [{"instructionReference": f"0x{it:x}"} for it in sorted(chosen)]
        told = self.adapter.want("setInstructionBreakpoints", {"breakpoints": rows})["breakpoints"]
        if not all(it["verified"] for it in told):
            self.report(f"breaks: {told}")
        self.breaks = {it // 4 for it in chosen}

    def move(self):
        """Goes to another step, as it has to be."""
        last = len(self.course.places) - 1
        kinds = BACK if self.at == last else FORWARD if self.at == 0 else FORWARD + BACK
        move = self.rng.choice(kinds + ("goto",))
        # a word that leads to where one is makes no stop
        to = self.rng.choice([it for it in range(last + 1) if it != self.at]) if move == "goto" else self.course.find_step(self.at, move, self.breaks)
        if move == "goto":
            self.adapter.events.clear()
            self.adapter.want("evaluate", {"expression": f"goto {to}", "context": "repl"})
            stop = self.adapter.wait("stopped")["body"]
        else:
            more = {"granularity": "instruction"} if move == "stepBack by one" else {}
            stop = self.adapter.go(move.split()[0], **more)
        was, self.at = self.at, to
        if stop.get("description") != f"step {to}":
            self.report(f"{move} from {was}: {stop}")
            raise wire.Failed(move)
        return move

    def read_registers(self):
        """All registers that are shown."""
        scopes = self.adapter.scopes()
        rows = [row for name in ("Locals", "Globals", "Special") for row in self.adapter.variables(scopes[name])]
        return {row["name"].split()[0]: wire.octa_of(row["value"]) for row in rows}

    def read_memory(self):
        """The octas that are not 0, of all blocks where there was one before or is one now."""
        found = {}
        for block in sorted(self.blocks):
            told = self.adapter.want("readMemory", {"memoryReference": f"0x{block * BLOCK:x}", "count": BLOCK})
            data = base64.b64decode(told["data"])
            for at in range(0, BLOCK, 8):
                octa = int.from_bytes(data[at : at + 8], "big")
                if octa:
                    found[block * BLOCK + at] = octa
        return found

    def compare_output(self, move, left):
        """Compares what was told of the output on the way with what there was before and is now."""
        for kind, word, was, now in (("stdout", "output", self.left.output, left.output), ("stderr", "errors", self.left.errors, left.errors)):
            texts = [it["body"]["output"] for it in self.adapter.outputs if it["body"].get("category") == kind]
            backs = [it["body"]["output"] for it in self.adapter.outputs if it["body"].get("category") == "console"]
            taken = len(was) - len(now)
            if taken > 0 and f"{word} taken back to step {self.at}: {taken} bytes\n" not in backs and move != "goto":
                self.report(f"{taken} bytes of {word} are taken back: {backs}")
            more = now[len(was) :].decode("utf-8", "replace") if taken < 0 else ""
            if move != "goto" and "".join(texts).replace("\ufffd", "") != more.replace("\ufffd", ""):
                self.report(f"{word}: {texts} for {more!r}")

    def compare(self, move):
        """Compares the step that is shown with what a run leaves."""
        top = self.adapter.top()
        place = self.course.places[self.at]
        if int(top["instructionPointerReference"], 16) != place:
            self.report(f"the next instruction is at {place:x}: {top}")
        lines = self.course.lines.get(place & ~3, {0})
        if top["line"] not in lines:
            self.report(f"the line is one of {lines}: {top}")
        if self.at:
            put_files(self.room, self.case)
            left = run_steps(f"{self.folder}/mmixware", self.words, self.at, self.case.given, self.room)
        else:
            left = self.left._replace(output=b"", errors=b"")
        self.compare_output(move, left)
        self.adapter.outputs.clear()
        self.left = left
        if self.at == 0:
            return
        self.states += 1
        self.blocks |= {address // BLOCK for address in left.memory if address < 0x6000000000000000}
        # a dump shows rS only where the program may know it
        wanted, shown = {"rS": None, **left.registers}, self.read_registers()
        differing = sorted(name for name in wanted.keys() | shown.keys() if wanted.get(name) != shown.get(name) and wanted.get(name, 0) is not None)
        if differing:
            self.report(f"the registers differ: {[(name, wanted.get(name), shown.get(name)) for name in differing]}")
        seen, there = self.read_memory(), {it: octa for it, octa in left.memory.items() if it // BLOCK in self.blocks}
        if seen != there:
            self.report(f"the memory differs at {[hex(it) for it, _ in sorted(set(seen.items()) ^ set(there.items()))]}")

    def go(self):
        """The whole walk."""
        self.begin()
        for _ in range(MOVES):
            self.compare(self.move())
            if self.rng.randrange(4) == 0:
                self.set_breaks()
        self.adapter.end()


def compare_walk(case, folder, room):
    """How many states of a case were compared, and how many differences were found."""
    walk = Walk(case, folder, room)
    if walk.course.is_refused or len(walk.course.places) < 2:
        return 0, 0
    try:
        walk.go()
    except (wire.Failed, EOFError, KeyError, TypeError, ValueError) as fault:
        walk.report(f"the walk ends: {fault!r}")
    return walk.states, len(walk.wrongs)


if __name__ == "__main__":
    walk_programs(compare_walk, "Walks of the debug adapter beside runs.")
