#!/usr/bin/env python3
"""Joins page.html, style.css and script.js to one page, whose data is put between two parts.

usage: join.py DATA >PAGE      DATA is a file with what `mmixview page --json` writes; - is standard input
"""
import base64
import hashlib
import os
import re
import sys

FOLDER = os.path.dirname(os.path.realpath(__file__))
LINK = "<link rel=stylesheet href=style.css>"
SCRIPT = "<script src=script.js></script>"
DATA = '<script id=data type="application/json">'


def text_of(name):
    with open(os.path.join(FOLDER, name), encoding="utf-8") as file:
        return file.read()


def page_of(text):
    """A page without the blanks in front of its lines, ends of lines between elements, and the quotes and the
    ends of rows and cells that HTML does not need."""
    text = re.sub(r">\n<", "><", re.sub(r"\n +", "\n", text))
    text = re.sub("</t[hr]>", "", text)
    return re.sub(r'( [\w-]+=)"([\w.-]+)"(?!/)(?=[^<>]*>)', r"\1\2", text)


def style_of(text):
    """A style without blanks that part nothing, without zeros in front of points, and with short names."""
    names = sorted(set(re.findall(r"--(\w{3,4}): ", text)))
    for letter, name in zip("abcdefghij", names):
        text = re.sub(rf"--{name}\b", f"--{letter}", text)
    return re.sub(r"\b0\.", ".", re.sub(r";?\s*([{};,>])\s*", r"\1", re.sub(r":\s+", ":", text))).strip()


def names_in(text):
    """The names that a script declares at its top and has nowhere as a member, the frequent ones first."""
    declared = re.findall(r"^(?:function|const|let) (\w+)", text, re.M)
    for several in re.findall(r"^const \[(.*)\] =", text, re.M):
        declared += several.split(", ")
    named = [name for name in declared if len(name) > 1 and not re.search(rf"\w\.{name}\b|[,{{] {name}([,:]| }})", text)]
    return sorted(named, key=lambda name: -len(re.findall(rf"\b{name}\b", text)))


def short_names(text):
    """A name of one or two letters, of which the first is a capital, for each of them: no such name is in the script."""
    capitals = [c for c in "ABCDEFGHIJKLMNOPQRSTUVWXYZ" if not re.search(rf"\b{c}[a-z]?\b", text)]
    return dict(zip(names_in(text), capitals + [c + d for c in capitals for d in "abcd"]))


def renamed(code, names):
    return re.sub(r"(?<![\w$])(" + "|".join(names) + r")(?![\w$])", lambda it: names[it[1]], code)


def script_of(text):
    """A script without comments, with short names, and without blanks and ends of lines beside signs; what is quoted stays
    as it is. So each statement has to end with ; or }."""
    names = short_names(text)
    expression = r"(?:(?<=\()|(?<== ))/(?:[^/\\\n[]|\\.|\[(?:[^]\\]|\\.)*\])+/"
    quoted = rf"""('(?:[^'\\\n]|\\.)*'|`(?:[^`\\]|\\.)*`|{expression}|//[^\n]*)"""
    uncommented = "".join("" if part.startswith("//") else part for part in re.split(quoted, text))
    parts = re.split(quoted, uncommented)
    for index in range(0, len(parts), 2):
        if re.search(r"[-+]\s+[-+]", parts[index]):
            sys.exit("script.js must not have a sign after a sign and a blank")
        code = renamed(parts[index].replace("const ", "let "), names)
        code = re.sub(r"\s*([^\w\s$])\s*", r"\1", re.sub(r"\s+", " ", code))
        parts[index] = re.sub(r"\((\w+)\)=>", r"\1=>", code).replace(";}", "}")
    for index in range(1, len(parts), 2):
        if parts[index][0] == "`":
            parts[index] = re.sub(r"\$\{[^}]*\}", lambda it: renamed(it[0], names), parts[index])
    return "".join(parts).strip()


def hash_of(text):
    return "'sha256-" + base64.b64encode(hashlib.sha256(text.encode()).digest()).decode() + "'"


def replaced(text, old, new):
    if text.count(old) != 1:
        sys.exit(f"page.html has to have once: {old}")
    return text.replace(old, new)


def parts():
    """What comes before the data of a page, and what comes after it."""
    page, style, script = page_of(text_of("page.html")), style_of(text_of("style.css")), script_of(text_of("script.js"))
    for text in style, script:
        if "</" in text or "<!--" in text:
            sys.exit("style.css and script.js must not have </ or <!-- in them")
    page = replaced(page, "style-src 'self'", f"style-src {hash_of(style)}")
    page = replaced(page, "script-src 'self'", f"script-src {hash_of(script)}")
    page = replaced(page, LINK, f"<style>{style}</style>")
    page = replaced(page, SCRIPT, f"<script>{script}</script>")
    before, after = page.split(DATA)
    return before + DATA, after


def page_with(data):
    """The page of some data: no `<` is in it, so that nothing there ends its element."""
    before, after = parts()
    return before + data.strip().replace("<", "\\u003c") + after


if __name__ == "__main__":
    if len(sys.argv) != 2:
        sys.exit(__doc__.strip())
    with open(0 if sys.argv[1] == "-" else sys.argv[1], encoding="utf-8") as file:
        data = file.read()
    sys.stdout.buffer.write(page_with(data).encode())
