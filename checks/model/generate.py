#!/usr/bin/env python3
"""Random cases: sources, programs that run, objects, console inputs and words. A seed gives the same case.

`generate.py --seed S` shows one case.
"""
import argparse
import random
from dataclasses import dataclass, field

from mmixmodel.assembler import Assembly
from mmixmodel.trie import trie_of
from programs import Programs
from random_objects import Objects
from sources import Sources

RINGS = ("256", "256", "512", "1024", "2048", "65536")

# sources for processors that meet on one octa
SHARED = (""" LOC Data_Segment
 GREG @
Sum OCTA 0
Lock OCTA 0
 LOC #100
Main PUT rP,0
 SET $3,1
 CSWAP $3,Lock
 BZ $3,Main
 LDO $3,Sum
 ADDU $3,$3,$1
 STO $3,Sum
 STCO 0,Lock
 SET $255,$3
 TRAP 0,Halt,0
""", """ LOC Data_Segment
 GREG @
Sum OCTA 0
 LOC #100
Main SETL $5,9
1H LDO $3,Sum
 ADDU $3,$3,$0
 STO $3,Sum
 SUBU $5,$5,1
 PBNZ $5,1B
 PBZ $1,2F
 POP 0,0
2H TRAP 0,Halt,0
""")


@dataclass
class Case:
    """What the program is called with: its words, the files in its folder, and its standard input."""

    seed: int
    kind: str
    words: list
    files: dict = field(default_factory=dict)
    given: bytes = b""


class Cases:
    """The case of a seed."""

    def __init__(self, seed):
        self.seed = seed
        self.rng = random.Random(seed)

    def case(self, kinds=None):
        """A case of a kind, by weight."""
        weights = 3 * ("source",) + 4 * ("program",) + 2 * ("object",) + 2 * ("console",) + 2 * ("followed",) + 2 * ("multi",) + ("words",)
        kind = self.rng.choice(kinds or weights)
        if not kinds and self.rng.random() < 0.002:
            kind = "pages"
        return getattr(self, kind)()

    def options(self, steps):
        """Options of a run."""
        rng = self.rng
        words = ["--steps", str(rng.choice((steps, steps, rng.randrange(1, steps + 1))))]
        words += ["--ring", rng.choice(RINGS)] if rng.random() < 0.5 else []
        words += ["--dump"] if rng.random() < 0.7 else []
        groups = [words[:2], words[2:4] if "--ring" in words else [], ["--dump"] if "--dump" in words else []]
        rng.shuffle(groups)
        return [word for group in groups for word in group]

    def source(self):
        """A random source, assembled or run."""
        text = Sources(self.rng).source(self.rng.randrange(1, 30)).encode("latin-1")
        words = ["asm", "p.mms", "p.mmo"] if self.rng.random() < 0.8 else ["run", *self.options(200), "p.mms"]
        return Case(self.seed, "source", words, {"p.mms": text})

    def program(self):
        """A random program that runs, from its source or from its object."""
        maker = Programs(self.rng)
        text = maker.source().encode("latin-1")
        arguments = [self.rng.choice(("x", "-q", "", "twelve bytes")) for _ in range(self.rng.randrange(3))]
        files = {"p.mms": text, "in.txt": self.rng.randbytes(self.rng.randrange(40)) + b"line\nmore\n"}
        command, name = "run", "p.mms"
        if self.rng.random() < 0.2:
            assembly = Assembly(text)
            if assembly.refusal is None:
                command, name = "sim", "p.mmo"
                files["p.mmo"] = assembly.object()
        if self.rng.random() < 0.1:
            other = self.rng.choice(("prog", "x.mmo", ".mms", "a.mms.mmo", "p.mmx"))
            files[other], name = files[name], other
        words = [command, *self.options(self.rng.choice((500, 3000, 10000))), name, *arguments]
        return Case(self.seed, "program", words, files, self.input())

    def followed(self):
        """A program whose run is reported, or whose last steps are taken back."""
        case = self.program()
        wanted = ["--report"] if self.rng.random() < 0.4 else ["--last", str(self.rng.choice((1, 2, 5, 40, 1024)))]
        place = self.rng.choice((1, self.rng.choice([at for at, word in enumerate(case.words) if word == "--steps"])))
        return Case(self.seed, "followed", case.words[:place] + wanted + case.words[place:], case.files, case.given)

    def multi(self):
        """An object that several processors run by a schedule, which may be faulty."""
        rng = self.rng
        case = self.program()
        text = rng.choice(SHARED).encode() if rng.random() < 0.3 else case.files.get("p.mms") or next(iter(case.files.values()))
        assembly = Assembly(text)
        files = {"in.txt": case.files["in.txt"], "p.mmo": assembly.object()}
        most = rng.choice((1, 2, 2, 3, 5, 8, 8 if rng.random() < 0.9 else 10))
        files["turns"] = bytes(rng.randrange(most) for _ in range(rng.choice((1, 2, 3, 7, 20)) if rng.random() < 0.97 else 0))
        words = ["multi", *self.options(rng.choice((40, 500, 3000))), "turns", "p.mmo"]
        return Case(self.seed, "multi", words, files, self.input())

    def input(self):
        """What a program finds on its standard input."""
        rng = self.rng
        pieces = (b"ab\n", b"a long line of text\n", b"\n", b"x", rng.randbytes(9))
        return b"".join(rng.choice(pieces) for _ in range(rng.randrange(6)))

    def object(self):
        """A random object."""
        maker = Objects(self.rng)
        if self.rng.random() < 0.5:
            assembly = Assembly(Sources(self.rng).source(self.rng.randrange(1, 12)).encode("latin-1"))
            data = assembly.object() if assembly.refusal is None else maker.object()
        else:
            data = maker.object()
        words = ["type", "p.mmo"] if self.rng.random() < 0.4 else ["sim", *self.options(100), "p.mmo"]
        return Case(self.seed, "object", words, {"p.mmo": maker.damaged(data)})

    def console(self):
        """A program with console commands."""
        rng = self.rng
        maker = Programs(rng)
        text = maker.source().encode("latin-1")
        lines = [maker.command() for _ in range(rng.randrange(1, 25))]
        given = rng.choice(("\n", "\n", "\r\n")).join(lines).encode("latin-1") + rng.choice((b"", b"\n", b"\nq\n"))
        words = ["run", "-i", *self.options(rng.choice((20, 2000))), "p.mms"]
        return Case(self.seed, "console", words, {"p.mms": text, "in.txt": b"one\ntwo\n"}, given)

    def pages(self):
        """A memory that is nearly full, of a source or of an object."""
        rng = self.rng
        count = rng.choice((65533, 65534, 65535, 65536, 65537))
        first = rng.choice((0, 0, 0x2000000000000000))
        if rng.random() < 0.3:
            rows = "".join(f" LOC #{first + 4096 * it:x}\n BYTE 1\n" for it in range(count))
            return Case(self.seed, "pages", ["run", "--steps", "9", "p.mms"], {"p.mms": rows.encode() + b"Main SWYM\n"})
        assembly = Assembly(Programs(rng).full().encode())
        data = assembly.object()
        tail = len(data) - 20 - len(trie_of(assembly.symbols()))
        pages = b"".join(b"\x98\1" + bytes([first >> 56, 1]) + (4096 * it + 2048).to_bytes(4, "big") + bytes(4)
                         for it in range(1, count))
        words = ["sim", *self.options(50), "p.mmo"]
        return Case(self.seed, "pages", words, {"p.mmo": data[:tail] + pages + data[tail:]}, self.input())

    def words(self):
        """Random words."""
        pool = ("run sim asm gen type multi --ring --steps -i --dump --report --last 256 512 300 1 10 0 0000000000010 x -1 p.mms none.mms "
                "p.mmo turns - -- --x 1024 1025 1000000000000 1000000000001 99999999999999 10000 10001 65536 131072").split() + [""]
        words = [self.rng.choice(pool) for _ in range(self.rng.randrange(7))]
        if self.rng.random() < 0.8:
            words[:1] = [self.rng.choice(("run", "sim", "asm", "gen", "type", "multi"))]
        if words[:1] == ["gen"] and any(int(it) > 30 for it in words[1:] if it.isdigit() and it not in RINGS):
            words = ["gen", "--ring", self.rng.choice(RINGS), str(self.rng.randrange(12))]
        files = {"p.mms": b"Main SET $255,7\n TRAP 0,Halt,0\n", "p.mmo": b"", "turns": b"\0\1"}
        return Case(self.seed, "words", words, files)


def case_of(seed, kinds=None):
    """The case of a seed, of one of these kinds."""
    return Cases(seed).case(kinds)


def main():
    """Shows a case."""
    parser = argparse.ArgumentParser(description=__doc__)
    parser.add_argument("--seed", type=int, required=True)
    parser.add_argument("--kind", action="append")
    arguments = parser.parse_args()
    case = case_of(arguments.seed, arguments.kind)
    print(f"{case.kind}: {case.words}\ninput {case.given!r}")
    for name, data in case.files.items():
        print(f"--- {name}\n{data.hex() if name.endswith('.mmo') else data.decode('latin-1')}")


if __name__ == "__main__":
    main()
