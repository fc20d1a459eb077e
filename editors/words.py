#!/usr/bin/env python3
"""Writes the words of MMIXAL into the files for editors, from the tables of the assembler.

usage: editors/words.py          writes them
       editors/words.py --check  says which file has other words
The words are the operations of crates/mx_ops/src/table.rt and the symbols of crates/mx_ops/src/symbols.rt. In each file they
are between a line with "words of the tables" and one with "end of the words"; all else there is written by hand.
"""
import os
import re
import sys
import textwrap

HERE = os.path.dirname(os.path.abspath(__file__))
TABLES = os.path.join(os.path.dirname(HERE), "crates", "mx_ops", "src")
WIDTH = 110


def text_of(path):
    with open(path, encoding="utf-8") as file:
        return file.read()


def words():
    """The kinds of words: instructions, directives, special registers, and the other predefined symbols."""
    operations = re.findall(r'\("(\w+)", Op::(\w+)', text_of(f"{TABLES}/table.rt"))
    symbols = re.findall(r'\("(\w+)", \w+\)', text_of(f"{TABLES}/symbols.rt"))
    special = [it for it in symbols if re.fullmatch("r[A-Z]{1,2}", it)]
    return {
        "instructions": [it for it, kind in operations if kind != "Pseudo"],
        "directives": [it for it, kind in operations if kind == "Pseudo"],
        "special": special,
        "constants": [it for it in symbols if it not in special],
    }


def lines(names, separator, start, end, last=""):
    """Names in lines of at most WIDTH columns, each line between a start and an end."""
    room = WIDTH - len(start) - len(end)
    filled = textwrap.wrap(separator.join(names), room, break_on_hyphens=False, break_long_words=False)
    return [start + it.rstrip() + (end if at + 1 < len(filled) else last) for at, it in enumerate(filled)]


def with_colons(kinds):
    """The kinds of words, where each symbol is there with a colon, too."""
    symbols = ("special", "constants")
    return {kind: names + [":" + it for it in names] if kind in symbols else names for kind, names in kinds.items()}


def for_vim(kinds):
    kinds = with_colons(kinds)
    groups = {"instructions": "Instruction", "directives": "Directive", "special": "Special", "constants": "Constant"}
    nexts = " nextgroup=@mmixalAfterOperation"
    out = []
    for kind, group in groups.items():
        start = f"syn keyword mmixal{group} contained{nexts if kind in ('instructions', 'directives') else ''} "
        out += lines(kinds[kind], " ", start, "")
    return out


def for_emacs(kinds):
    out = []
    for kind in kinds:
        quoted = [f'"{it}"' for it in kinds[kind]]
        out += [f"(defconst mmixal-{kind}", "  '(", *lines(quoted, " ", "    ", "", "))")]
    return out


def for_kate(kinds):
    out, kinds = [], with_colons(kinds)
    for kind in kinds:
        out += [f'    <list name="{kind}">', *(f"      <item>{it}</item>" for it in kinds[kind]), "    </list>"]
    return out


def for_gtksourceview(kinds):
    out = []
    for kind in kinds:
        longest_first = sorted(kinds[kind], key=lambda it: (-len(it), it))
        out += [f'    <define-regex id="{kind}" extended="true">', *lines(longest_first, " | ", "      ", ""), "    </define-regex>"]
    return out


def for_pygments(kinds):
    out = []
    for kind in kinds:
        out += [f'{kind.upper()} = frozenset("""', *lines(kinds[kind], " ", "    ", ""), '""".split())']
    return out


def for_latex(kinds):
    out, kinds = [], with_colons(kinds)
    for number, kind in enumerate(kinds, 1):
        out += [f"  morekeywords=[{number}]{{%", *lines(kinds[kind], ", ", "    ", "%"), "  },%"]
    return out


FILES = {
    "vim/syntax/mmixal.vim": for_vim,
    "emacs/mmixal-mode.el": for_emacs,
    "kate/mmixal.xml": for_kate,
    "gtksourceview/mmixal.lang": for_gtksourceview,
    "pygments/mmixal.py": for_pygments,
    "latex/mmixal.sty": for_latex,
}


def main():
    is_check = sys.argv[1:] == ["--check"]
    if sys.argv[1:] and not is_check:
        sys.exit(__doc__)
    kinds, status = words(), 0
    for name, written in FILES.items():
        old = text_of(f"{HERE}/{name}")
        place = re.compile(r"(?<=\n)([^\n]*words of the tables[^\n]*\n).*?\n([^\n]*end of the words)", re.S)
        new = place.sub(lambda it: it[1] + "\n".join(written(kinds)) + "\n" + it[2], old, count=1)
        if is_check and new != old:
            print(f"editors/words.py: {name} has not the words of the tables; editors/words.py writes them", file=sys.stderr)
            status = 1
        elif new != old:
            with open(f"{HERE}/{name}", "w", encoding="utf-8") as file:
                file.write(new)
    return status


if __name__ == "__main__":
    sys.exit(main())
