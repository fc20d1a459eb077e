#!/usr/bin/env python3
"""Writes what is around the data of a page as constants of the program, or checks that they are what the files here give.

usage: parts.py          writes crates/page_parts/src/parts.rt
       parts.py --check  ends with 1 where that file is another
"""
import os
import sys

from join import FOLDER, parts

FILE = os.path.join(FOLDER, "..", "..", "page_parts", "src", "parts.rt")
HEAD = """//! What is around the data of a page. `crates/mmixview/page/parts.py` writes this file: change `page.html`, `style.css` or
//! `script.js` there, and let it write the file again.

/// What comes before the data.
pub(crate) static FRONT: &str =
    %s;

/// What comes after it.
pub(crate) static END: &str =
    %s;
"""


def literal(text):
    """A text as a literal."""
    escaped = text.replace("\\", "\\\\").replace('"', '\\"').replace("\n", "\\n")
    return '"' + "".join(c if ord(c) < 128 else "\\u{%x}" % ord(c) for c in escaped) + '"'


def file_text():
    before, after = parts()
    return HEAD % (literal(before), literal(after))


if __name__ == "__main__":
    if sys.argv[1:] == ["--check"]:
        with open(FILE, encoding="utf-8") as file:
            if file.read() != file_text():
                sys.exit("crates/page_parts/src/parts.rt is not what parts.py writes: call it")
    elif sys.argv[1:]:
        sys.exit(__doc__.strip())
    else:
        with open(FILE, "w", encoding="utf-8") as file:
            file.write(file_text())
