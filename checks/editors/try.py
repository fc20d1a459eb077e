#!/usr/bin/env python3
"""Tries the files for editors in editors/ with the tools that read them, where these are there.

The lines of kinds.txt come in pairs: a line of a source, and below it the kind of each of its bytes: c comment, l label,
L local label, i instruction, d directive, r register, s special register, p other predefined symbol, n number, q string or
character, h the location @, x error, and a point for all else. Each tool has to see the line so. Standard output says which tools are missing;
standard error has only what is wrong.
"""
import html
import os
import re
import shutil
import subprocess
import sys
import tempfile
from pathlib import Path

HERE = Path(__file__).resolve().parent
EDITORS = HERE.parent.parent / "editors"
LINES = [it for it in (HERE / "kinds.txt").read_text(encoding="utf-8").splitlines() if not it.startswith("-- ")]
SOURCE, KINDS = LINES[::2], LINES[1::2]
wrongs = []


class Missing(Exception):
    """A tool that is not there."""


def call(words, room, **more):
    """What a tool prints; it is missing where there is no such program."""
    if not shutil.which(words[0]):
        raise Missing(words[0])
    how = {"cwd": room, "capture_output": True, "text": True, "timeout": 120, "stdin": subprocess.DEVNULL, **more}
    done = subprocess.run(words, **how)
    if done.returncode:
        raise ValueError(f"{words[0]} ends with {done.returncode}:\n{done.stdout[-2000:]}{done.stderr[-2000:]}")
    return done.stdout


def lined(pairs):
    """The kinds of the bytes of each line, of texts with their kinds."""
    return "".join("".join("\n" if it == "\n" else kind for it in text) for text, kind in pairs).split("\n")


def by_pygments(room):
    try:
        from pygments.token import Comment, Error, Keyword, Name, Number, String
    except ImportError:
        raise Missing("pygments") from None
    sys.dont_write_bytecode = True
    sys.path.insert(0, str(EDITORS / "pygments"))
    from mmixal import MmixalLexer
    kinds = {Comment.Single: "c", Name.Label: "l", Keyword: "i", Keyword.Declaration: "d", Name.Variable: "r", Name.Builtin: "s",
             Name.Builtin.Pseudo: "h", Name.Constant: "p", Number.Hex: "n", Number.Integer: "n", String.Double: "q",
             String.Char: "q", Error: "x"}
    tokens = MmixalLexer().get_tokens("\n".join(SOURCE))
    return lined((text, "L" if kind is Name.Label and text[0].isdigit() else kinds.get(kind, ".")) for kind, text in tokens)


VIM = """
set nocompatible encoding=utf-8
let &runtimepath = $FILES . ',' . $VIMRUNTIME
filetype plugin on
syntax on
edit source.mms
let all = []
for number in range(1, line('$'))
  let names = ''
  let text = getline(number)
  let at = 0
  while at < len(text)
    let names .= ' ' . synIDattr(synID(number, at + 1, 1), 'name')
    let at += len(matchstr(text, '.', at))
  endwhile
  call add(all, names)
endfor
call writefile(all, 'names')
cgetfile messages
call writefile(map(getqflist(), 'bufname(v:val.bufnr) . " " . v:val.lnum . " " . v:val.col . " " . v:val.type . " " . v:val.nr . " " . v:val.text'), 'found')
qall!
"""

MESSAGES = """source.mms:4:25: error: 43 Fit: `1000` does not fit. Put it into a register.
source.mms:7:1: error: 84 FutureRegister: `x` is a register.
source.mms:8:3: warning: 2 BackslashInString: no escape.
source.mms:9: error: 82 MainUndefined: There is no label Main.
source.mms: there are more faulty lines
"""

FOUND = """source.mms 4 25 e 43 Fit: `1000` does not fit. Put it into a register.
source.mms 7 1 e 84 FutureRegister: `x` is a register.
source.mms 8 3 w 2 BackslashInString: no escape.
source.mms 9 0 e 82 MainUndefined: There is no label Main.
"""


def by_vim(room):
    (room / "try.vim").write_text(VIM)
    (room / "messages").write_text(MESSAGES)
    call(["vim", "-u", "NONE", "-i", "NONE", "-es", "-S", "try.vim"], room, env={**os.environ, "FILES": str(EDITORS / "vim")})
    found = re.sub(" +", " ", (room / "found").read_text())
    if found != FOUND:
        wrongs.append(f"vim: the messages of mmixview are at\n{found}and have to be at\n{FOUND}")
    kinds = {"Comment": "c", "Label": "l", "LocalLabel": "L", "Local": "L", "Instruction": "i", "Directive": "d", "Register": "r",
             "Special": "s", "Here": "h", "Constant": "p", "Number": "n", "String": "q", "Character": "q", "Unknown": "x", "Wrong": "x",
             "WrongLabel": "x", "Open": "x"}
    rows = (room / "names").read_text().split("\n")
    return ["".join(kinds.get(it.removeprefix("mmixal"), ".") for it in row.split(" ")[1:]) for row in rows]


EMACS = """
(load (expand-file-name "emacs/mmixal-mode.el" (getenv "FILES")) nil t)
(find-file "source.mms")
(font-lock-ensure)
(let ((place (point-min)))
  (while (< place (point-max))
    (princ (format "%s " (get-text-property place 'face)))
    (when (eq (char-after place) ?\\n) (terpri))
    (setq place (1+ place))))
(let ((entry (assq 'mmixal compilation-error-regexp-alist-alist)))
  (unless (and (memq 'mmixal compilation-error-regexp-alist) (string-match (nth 1 entry) "line 4: 43 Fit"))
    (kill-emacs 1)))
"""


def by_emacs(room):
    (room / "try.el").write_text(EMACS)
    faces = call(["emacs", "-Q", "--batch", "-l", "try.el"], room, env={**os.environ, "FILES": str(EDITORS)})
    kinds = {"comment": "c", "function-name": "l", "type": "L", "keyword": "i", "preprocessor": "d", "variable-name": "r",
             "builtin": "s", "constant": "n", "string": "q", "warning": "x"}
    return ["".join(kinds.get(re.sub("font-lock-|-face", "", it), ".") for it in row.split()) for row in faces.split("\n")]


def by_kate(room):
    folder = room / "data" / "org.kde.syntax-highlighting" / "syntax"
    folder.mkdir(parents=True)
    shutil.copy(EDITORS / "kate" / "mmixal.xml", folder)
    env = {**os.environ, "XDG_DATA_HOME": str(room / "data"), "QT_QPA_PLATFORM": "offscreen"}
    words = ["kate-syntax-highlighter", "-s", "MMIXAL", "-t", "Breeze Light", "source.mms"]
    page = call(words, room, env=env)
    body = re.search(r"<pre>\n?(.*)</pre>", page, re.S)[1]
    kinds = {"898887": "c", "644a9b": "l", "1f1c1b": ".", "006e28": "d", "0057ae": "r", "aa5500": "p", "b08000": "n",
             "bf0303": "q", "924c9d": "q", "ca60ca": "."}

    def kind(style):
        colour = kinds.get(re.search(r"color:#(\w+)", style + "color:#none")[1], ".")
        if "underline" in style:
            return "x"
        return {"l": "s", ".": "i"}.get(colour, colour) if "bold" in style else colour

    pieces = re.findall(r'<span style="([^"]*)">([^<]*)</span>|([^<]+)', body)
    return lined((html.unescape(text or plain), kind(style)) for style, text, plain in pieces)


TEX = r"""
\documentclass{article}
\usepackage{mmixal}
\pagestyle{empty}
\renewcommand\mmixallabelstyle{\color[rgb]{1,0,0}}
\lstset{style=mmixal,basicstyle=\ttfamily\tiny,columns=fixed,basewidth=.6em,
  keywordstyle=[1]\color[rgb]{0,1,0},keywordstyle=[2]\color[rgb]{0,0,1},
  keywordstyle=[3]\color[rgb]{1,1,0},keywordstyle=[4]\color[rgb]{1,0,1},
  stringstyle=\color[rgb]{0,1,1},commentstyle=\color[rgb]{0.4,0.4,0.4}}
\begin{document}
\lstinputlisting{print.mms}
\end{document}
"""


def by_latex(room):
    """The kinds by the colours of what is printed; a line with an error or a letter above 126 is not."""
    if not shutil.which("pdftohtml"):
        raise Missing("pdftohtml")
    printed = [at for at, kinds in enumerate(KINDS) if "x" not in kinds and SOURCE[at].isascii()]
    (room / "print.mms").write_text("\n".join(SOURCE[at] for at in printed))
    (room / "try.tex").write_text(TEX)
    call(["pdflatex", "-interaction=nonstopmode", "-halt-on-error", "try"], room, env={**os.environ, "TEXINPUTS": f"{EDITORS}/latex:"})
    page = call(["pdftohtml", "-xml", "-i", "-stdout", "try.pdf"], room)
    colours = dict(re.findall(r'<fontspec id="(\d+)"[^>]*color="#(\w+)"', page))
    kinds = {"ff0000": "l", "00ff00": "i", "0000ff": "d", "ffff00": "s", "ff00ff": "p", "00ffff": "q", "666666": "c"}
    rows, before = [], -9
    pieces = re.findall(r'<text top="(\d+)" left="(\d+)"[^>]*font="(\d+)">(.*?)</text>', page)
    for top, left, font, text in sorted(pieces, key=lambda it: int(it[0])):
        rows += [[]] if int(top) > before + 4 else []
        before = int(top)
        rows[-1].append((int(left), html.unescape(re.sub("<[^>]*>", "", text)), kinds.get(colours[font], ".")))
    return printed, [sorted(it) for it in rows]


def compare(tool, got, same=()):
    """Where the kinds that a tool gives are others is wrong; some kinds are the same for it."""
    for text, due, seen in zip(SOURCE, KINDS, got + [""] * len(KINDS)):
        due, seen = due.ljust(len(text), "."), seen.ljust(len(text), ".")
        for one, other in same:
            due, seen = due.replace(one, other), seen.replace(one, other)
        if any(a != b for a, b, byte in zip(due, seen, text) if byte != " "):
            wrongs.append(f"{tool} sees\n{text}\n{seen}\nand has to see\n{due}")


def compare_printed(printed, rows):
    """The same for a page, without blanks; it has labels, but no local ones in operands, no registers and no numbers."""
    for at, row in zip(printed, rows):
        kinds = re.sub("[rnLh]", ".", re.sub("^LL", "ll", KINDS[at]))
        due = "".join(kind for byte, kind in zip(SOURCE[at], kinds) if byte != " ")
        seen = "".join(kind for _, text, kind in row for byte in text if byte not in " \xa0")
        if due != seen:
            wrongs.append(f"latex sees\n{SOURCE[at]}\n{seen}\nand has to see\n{due}")


def try_schema(room):
    schemas = sorted(Path("/usr/share").glob("gtksourceview-*/language-specs/language2.rng"))
    if not schemas:
        raise Missing("the schema of gtksourceview")
    call(["xmllint", "--noout", "--relaxng", str(schemas[-1]), str(EDITORS / "gtksourceview" / "mmixal.lang")], room)


TOOLS = {
    "pygments": lambda room: compare("pygments", by_pygments(room)),
    "vim": lambda room: compare("vim", by_vim(room)),
    "emacs": lambda room: compare("emacs", by_emacs(room), same=["pn", "hs"]),
    "kate": lambda room: compare("kate", by_kate(room), same=["Li", "hs"]),
    "gtksourceview": try_schema,
    "latex": lambda room: compare_printed(*by_latex(room)),
}


def main():
    missing = []
    for tool, tried in TOOLS.items():
        with tempfile.TemporaryDirectory() as name:
            room = Path(name)
            (room / "source.mms").write_text("\n".join(SOURCE) + "\n", encoding="utf-8")
            try:
                tried(room)
            except Missing as it:
                missing.append(f"{tool} (no {it})")
            except (ValueError, subprocess.TimeoutExpired) as it:
                wrongs.append(f"{tool}: {it}")
    if missing:
        print("checks/editors/try.py: not tried: " + ", ".join(missing))
    for it in wrongs:
        print(f"checks/editors/try.py: {it}", file=sys.stderr)
    return 1 if wrongs else 0


if __name__ == "__main__":
    sys.exit(main())
