"""The words of the command line.

    run [--ring R] [--steps N] [-i] [--dump] [--report] [--last J] SRC [ARG ...]
    sim [--ring R] [--steps N] [-i] [--dump] [--report] [--last J] OBJ [ARG ...]
    asm SRC OBJ
    gen [--ring R] N
    type OBJ
    multi [--ring R] [--steps N] [--dump] SCHED OBJ

Options come before the file and may repeat; the last counts. R is a power of two from 256 to 65,536, by default 256. N
of --steps is 1 to 10^12, by default 10^9, J of --last 1 to 1,024, and N of gen is 1 to 10,000. Numbers are 1 to 13
decimal digits. Of -i, --report and --last a command has at most one.
"""
import re
from dataclasses import dataclass

OPTIONS = {"run": ("--ring", "--steps", "-i", "--dump", "--report", "--last"),
           "sim": ("--ring", "--steps", "-i", "--dump", "--report", "--last"), "asm": (), "gen": ("--ring",), "type": (),
           "multi": ("--ring", "--steps", "--dump")}
EXCLUSIVE = ("-i", "--report", "--last")
RINGS = tuple(1 << it for it in range(8, 17))


class UsageFault(Exception):
    """The first fault of the words from the left: its kind, and the place of the word, or their number for one that is
    missing.
    """

    def __init__(self, kind, word):
        super().__init__(kind, word)
        self.kind, self.word = kind, word


@dataclass
class Order:
    """What the words ask for; `file` is a place in the words, and `rest` the place after it."""

    command: str
    ring: int = 256
    steps: int = 10 ** 9
    is_interactive: bool = False
    has_dump: bool = False
    has_report: bool = False
    last: int = 0
    file: int = 0
    rest: int = 0
    number: int = 0


def number_at(words, at, limit):
    """A number of 1 to 13 decimal digits from 1 to a limit, else 5; a limit of None is none."""
    if not re.fullmatch("[0-9]{1,13}", words[at]) or limit and not 1 <= int(words[at]) <= limit:
        raise UsageFault(5, at)
    return int(words[at])


def read_options(words, order):
    """The options before the file; gives the place after them.

    A word that begins with - and is no option of the command is 3, a missing value 4, a number that is no ring size 6, and an
    option beside which another one was given that excludes it 10.
    """
    at, exclusive = 1, None
    while at < len(words) and words[at].startswith("-"):
        option = words[at]
        if option not in OPTIONS[order.command]:
            raise UsageFault(3, at)
        if option in EXCLUSIVE:
            if exclusive not in (None, option):
                raise UsageFault(10, at)
            exclusive = option
        at += 1
        if option in ("-i", "--dump", "--report"):
            order.is_interactive |= option == "-i"
            order.has_dump |= option == "--dump"
            order.has_report |= option == "--report"
            continue
        if at == len(words):
            raise UsageFault(4, at)
        if option == "--steps":
            order.steps = number_at(words, at, 10 ** 12)
        elif option == "--last":
            order.last = number_at(words, at, 1024)
        else:
            order.ring = number_at(words, at, None)
            if order.ring not in RINGS:
                raise UsageFault(6, at)
        at += 1
    return at


def read_order(words):
    """The order of the words: no words are 1, an unknown command 2, a missing file or N 7, a word too many 8.

    The file of asm is the source and that of multi the schedule; the place after it has the object.
    """
    if not words:
        raise UsageFault(1, 0)
    if words[0] not in OPTIONS:
        raise UsageFault(2, 0)
    order = Order(words[0])
    order.file = read_options(words, order)
    if order.file == len(words):
        raise UsageFault(7, order.file)
    if order.command == "gen":
        order.number = number_at(words, order.file, 10000)
    order.rest = order.file + 1
    has_two = order.command in ("asm", "multi")
    if has_two and order.rest == len(words):
        raise UsageFault(7, order.rest)
    last = order.rest + has_two
    if order.command in ("asm", "gen", "type", "multi") and last < len(words):
        raise UsageFault(8, last)
    return order
