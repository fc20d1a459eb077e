"""Reads the sources of the repository for other scripts: the functions of a crate with their clauses, and definitions."""
import functools
import glob
import os
import re
from typing import NamedTuple

TOP = os.path.dirname(os.path.dirname(os.path.realpath(__file__)))


class Function(NamedTuple):
    """A function of a crate."""

    file: str
    owner: str  # the type or trait that it is a method of, or nothing
    of_trait: str  # the trait that an impl of it is for, or nothing
    name: str
    is_public: bool  # `pub`, or a method of a trait; a crate may still keep it to itself
    about: str  # its `///` lines as one text, paragraphs on lines of their own
    head: str  # its signature
    clauses: list  # pairs of a name, which may be empty, and the text
    is_law: bool  # it has clauses and an empty body


@functools.cache
def text_of(path):
    with open(os.path.join(TOP, path), encoding="utf-8") as file:
        return file.read()


def crates():
    """The crates of crates.txt in its order, each with what it depends on."""
    rows = re.findall(r"^(\w+)[^:\n#]*:(.*)", text_of("crates.txt"), re.M)
    return {crate: below.split() for crate, below in rows}


def files_of(crate, folder, end):
    found = glob.glob(f"{TOP}/crates/{crate}/{folder}/**/*.{end}", recursive=True)
    return sorted(os.path.relpath(it, TOP) for it in found)


@functools.cache
def masked(path):
    """A file of Rattle with blanks in place of its comments and of what is in its literals, each line as long as before."""
    token = r'//[^\n]*|/\*.*?\*/|b?"(?:[^"\\]|\\.)*"|r(#*)".*?"\1|b?\'(?:[^\'\\\n]|\\[^\n]{1,8}?)\''
    return re.sub(token, lambda it: re.sub(r"[^\n]", " ", it[0]), text_of(path), flags=re.S)


def end_of_block(text, at):
    """The place after the brace that closes the one at a place."""
    depth = 0
    for found in re.finditer(r"[{}]", text[at:]):
        depth += 1 if found[0] == "{" else -1
        if not depth:
            return at + found.end()
    return len(text)


def lines_above(path, at):
    """The `///` lines above a place, past attributes, as one text: a line for each paragraph."""
    lines = text_of(path)[: text_of(path).rfind("\n", 0, at) + 1].splitlines()
    while lines and re.match(r"\s*#\[|\s*\)\)\]|\s*crate::", lines[-1]):
        lines.pop()
    kept = []
    while lines and lines[-1].strip().startswith("///"):
        kept.insert(0, lines.pop().strip()[3:].strip())
    return "\n".join(" ".join(it.split()) for it in "\n".join(kept).split("\n\n"))


def clauses_in(text, plain):
    """The `ensures` clauses of a contract, whose comments and literals are masked in `plain`."""
    found = []
    for it in re.finditer(r"\bensures\*? *(\w*) *\{", plain):
        end = end_of_block(plain, it.end() - 1)
        found.append((it[1], text[it.end() : end - 1].strip()))
    return found


def owner_of(plain, at):
    """The type of the `impl` or the trait around a place, with the trait that the impl is for; the outermost block counts."""
    owner = ("", "")
    for it in re.finditer(r"^(?:pub )?(impl|trait)\b(.*?)\{", plain, re.M | re.S):
        if it.start() < at < end_of_block(plain, it.end() - 1):
            words = re.sub(r"^<(?:[^<>]|<[^<>]*>)*>", "", it[2].strip())
            trait, _, kind = words.rpartition(" for ")
            name = re.match(r"\s*(\w+)", kind if it[1] == "impl" else words)
            of = re.match(r"\s*(\w+)", trait)
            owner = (name[1] if name else "", of[1] if of and it[1] == "impl" else "")
    return owner


@functools.cache
def functions_in(path):
    """The functions of a file of Rattle, in order."""
    text, plain, found = text_of(path), masked(path), []
    for it in re.finditer(r"^ *((?:pub(?:\([^)]*\))? )?)(?:const |unsafe |ghost )*fn (\w+)", plain, re.M):
        # the contract ends with a semicolon or where the body begins: the first brace that opens no clause
        at, end = it.end(), len(plain)
        while at < len(plain):
            mark = re.search(r"[;{\[(]", plain[at:])
            if not mark:
                break
            at += mark.start()
            if plain[at] in "[(":
                at = end_of_bracket(plain, at)
            elif plain[at] == "{" and re.search(r"\b(requires|ensures\*?|measure|decreases|where) *\w* *$", plain[it.end() : at]):
                at = end_of_block(plain, at)
            else:
                end = at
                break
        body = plain[end : end_of_block(plain, end)] if plain[end : end + 1] == "{" else ";"
        owner, of_trait = owner_of(plain, it.start())
        first = re.search(r"\b(requires|ensures)\b", plain[it.start() : end])
        head = text[it.start() : it.start() + first.start() if first else end].strip()
        clauses = clauses_in(text[it.start() : end], plain[it.start() : end])
        is_public = it[1] == "pub " or bool(of_trait) or is_trait(plain, owner)
        is_law = bool(clauses) and re.fullmatch(r"\{\s*\}", text[end : end + len(body)]) is not None
        found.append(Function(path, owner, of_trait, it[2], is_public, lines_above(path, it.start()), head, clauses, is_law))
    return found


def end_of_bracket(text, at):
    """The place after the bracket that closes the one at a place."""
    depth = 0
    for found in re.finditer(r"[()\[\]]", text[at:]):
        depth += 1 if found[0] in "([" else -1
        if not depth:
            return at + found.end()
    return len(text)


def is_trait(plain, name):
    """Whether a file declares a trait of this name."""
    return bool(name) and re.search(rf"^pub trait {name}\b", plain, re.M) is not None


def functions_of(crate):
    """The functions of a crate, file by file."""
    return [it for path in files_of(crate, "src", "rt") for it in functions_in(path)]


def root_of(crate):
    """The file at the root of a crate, a library's or a program's."""
    root = f"crates/{crate}/src/lib.rt"
    return root if os.path.isfile(os.path.join(TOP, root)) else f"crates/{crate}/src/main.rt"


def offered_of(crate):
    """The functions that a crate offers: those that its root names, and the methods of types and traits that it names."""
    root = masked(root_of(crate))
    named = set(re.findall(r"\w+", " ".join(re.findall(r"^pub use (.*?);", root, re.M | re.S))))
    whole = [f"crates/{crate}/src/{it}.rt" for it in re.findall(r"^pub mod (\w+)", root, re.M)]
    return [it for it in functions_of(crate) if it.is_public and ((it.owner or it.name) in named or it.file in whole)]


def head_of(path):
    """The first lines of comment in a file, as one text: a line for each paragraph."""
    lines = []
    for line in text_of(path).splitlines():
        if not re.match(r"//!|--", line):
            break
        lines.append(line[3:].strip())
    return "\n".join(" ".join(it.split()) for it in "\n".join(lines).split("\n\n"))


def sentence_of(text):
    """The first sentence of a text."""
    first = text.split("\n")[0]
    found = re.match(r".*?[.](?= [A-Z`'\"]|$)", first)
    return found[0] if found else first
