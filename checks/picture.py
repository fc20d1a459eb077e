#!/usr/bin/env python3
"""Draws the crates in their layers, from crates.txt, as docs/crates.svg.

usage: checks/picture.py          writes the picture
       checks/picture.py --check  says whether the picture is that of crates.txt, and no chain is too long
A crate is in the column of its area and in a layer above all that it depends on; a line leads from a crate to each one
that it depends on and that no other line leads to. No line is drawn to mx_word, which is below most crates; crates of tests (test_...)
and of laws alone (law_...) have none. No chain may have more than 14 crates, those of tests aside.
"""
import os
import sys

HERE = os.path.dirname(os.path.dirname(os.path.abspath(__file__)))
PICTURE = HERE + "/docs/crates.svg"
AREAS = [
    ("language", "mx_line mx_expr mx_ops mx_names mx_stmt mx_asm"),
    ("objects", "mx_mmo mx_stab mx_load mx_type"),
    ("machine", "mx_mem mx_alu mx_registers mx_ring mx_code mx_core mx_start"),
    ("host and runs", "mx_host mx_plan mx_trap mx_run mx_back mx_watch mx_multi mx_real"),
    ("console", "mx_text mx_cmd mx_show mx_con"),
    ("program", "mx_words mx_outcome mx_files mx_begin mx_dump mx_gen mx_top mmixware"),
    (
        "views",
        "mx_marks mx_advice mx_sentences mx_walk mx_view mx_slips mx_warn mx_costs mx_count mx_object mx_ask mx_stops mx_replay mx_record "
        "mx_json mx_face mx_explain mx_operations mx_messages mx_book mx_pieces mx_tell mx_places mx_debug mx_foreign "
        "page_parts mx_inputs page_run face_source face_check face_count face_explain face_debug face_page mx_frames "
        "mx_wire mx_occurrences mx_diagnostics mx_references mx_changes mx_hover mx_lsp mx_serve face_lsp mx_adapter mx_panes "
        "mx_dap face_dap mx_menu mmixview"
    ),
]
BASE = "mx_word"
CHAIN = 14
WIDE, HIGH, GAP, STEP, LEFT, TOP = 96, 26, 10, 74, 16, 62
FILL = ["#e8f0fa", "#eaf5e6", "#fdf1dc", "#f9e6e6", "#efe8f7", "#eeeeee", "#e3f4f2"]


def rows():
    """The crates and what each depends on, of the repository alone."""
    below = {}
    for line in open(HERE + "/crates.txt"):
        line = line.split("#")[0].strip()
        if line:
            name, rest = line.split(":")
            below[name.split()[0]] = rest.split()
    return {name: [dep for dep in deps if dep in below] for name, deps in below.items()}


def layers(below):
    """The layer of each crate: one above the highest that it depends on."""
    layer = {}

    def of(name):
        if name not in layer:
            layer[name] = 1 + max((of(dep) for dep in below[name]), default=-1)
        return layer[name]

    for name in below:
        of(name)
    return layer


def reduced(below):
    """For each crate those that it depends on, without those that are reached through another."""

    def under(name):
        found = set()
        for dep in below[name]:
            found |= {dep} | under(dep)
        return found

    return {name: [dep for dep in deps if not any(dep in under(other) for other in deps)] for name, deps in below.items()}


def is_test(name):
    return name.startswith("test_")


def is_law(name):
    return name.startswith("law_")


def box(x, y, name, fill, wide=WIDE):
    return (
        f'<rect x="{x}" y="{y}" width="{wide}" height="{HIGH}" rx="4" fill="{fill}" stroke="#666"/>'
        f'<text x="{x + wide // 2}" y="{y + 17}" text-anchor="middle">{name}</text>'
    )


def drawing():
    below = rows()
    layer = layers({name: deps if name == BASE else deps + [BASE] for name, deps in below.items()})
    area = {name: at for at, (_, names) in enumerate(AREAS) for name in names.split()}
    program = [name for name in below if name in area]
    unknown = [name for name in below if name not in area and name != BASE and not is_law(name) and not is_test(name)]
    if unknown:
        sys.exit("checks/picture.py: in no area: " + " ".join(unknown))
    layer = {name: layer[name] - 1 for name in program}
    high = max(layer.values())
    # the places in a column: side by side where one layer has several
    slots = {}
    for name in program:
        slots.setdefault((area[name], layer[name]), []).append(name)
    widths = [max(len(names) for (a, _), names in slots.items() if a == at) for at in range(len(AREAS))]
    starts = [LEFT + sum(widths[:at]) * (WIDE + GAP) + at * 26 for at in range(len(AREAS))]
    foot = TOP + (high + 1) * STEP
    place = {}
    for (a, l), names in slots.items():
        shift = (widths[a] - len(names)) * (WIDE + GAP) // 2
        for at, name in enumerate(names):
            place[name] = (starts[a] + shift + at * (WIDE + GAP), TOP + (high - l) * STEP)
    out = []
    for at, (title, _) in enumerate(AREAS):
        wide = widths[at] * (WIDE + GAP) - GAP
        out.append(
            f'<rect x="{starts[at] - 10}" y="20" width="{wide + 20}" height="{foot - 34}" rx="8" fill="{FILL[at]}"/>'
            f'<text x="{starts[at] + wide // 2}" y="42" text-anchor="middle" class="title">{title}</text>'
        )
    for name, deps in reduced({name: [dep for dep in below[name] if dep in area] for name in program}).items():
        for dep in deps:
            (x, y), (u, v) = place[name], place[dep]
            out.append(f'<line x1="{x + WIDE // 2}" y1="{y + HIGH}" x2="{u + WIDE // 2}" y2="{v}"/>')
    for name in program:
        out.append(box(*place[name], name, "#fff"))
    y = foot
    wide = starts[-1] + widths[-1] * (WIDE + GAP) - GAP + 10 - (LEFT - 10)
    out.append(box(LEFT - 10, y, BASE, "#fff", wide))
    y += HIGH + 16
    for title, names in (("laws alone", [n for n in below if is_law(n)]), ("tests", [n for n in below if is_test(n)])):
        out.append(f'<text x="{LEFT}" y="{y + 17}" class="title">{title}</text>')
        x = LEFT + 90
        for name in names:
            if x + WIDE > starts[-1] + widths[-1] * (WIDE + GAP):
                x, y = LEFT + 90, y + HIGH + 8
            out.append(box(x, y, name, "#fff"))
            x += WIDE + GAP
        y += HIGH + 16
    width = starts[-1] + widths[-1] * (WIDE + GAP) + 12
    head = (
        f'<svg xmlns="http://www.w3.org/2000/svg" width="{width}" height="{y}" viewBox="0 0 {width} {y}">'
        "<title>The crates in their layers; each depends on those that its lines lead down to</title>"
        "<style>text{font:12px sans-serif;fill:#222}.title{font-weight:bold}line{stroke:#999;stroke-width:1}</style>"
        f'<rect width="{width}" height="{y}" fill="#fff"/>'
    )
    return head + "\n" + "\n".join(out) + "\n</svg>\n"


def too_long():
    """The crates, those of tests aside, that end a chain of more crates than CHAIN."""
    return [name for name, at in layers(rows()).items() if at >= CHAIN and not is_test(name)]


if __name__ == "__main__":
    if sys.argv[1:] == ["--check"]:
        if too_long():
            sys.exit(f"checks/picture.py: more than {CHAIN} crates in a chain up to " + " ".join(too_long()))
        if not os.path.exists(PICTURE) or open(PICTURE).read() != drawing():
            sys.exit("checks/picture.py: docs/crates.svg is not that of crates.txt; `checks/picture.py` draws it anew")
    else:
        open(PICTURE, "w").write(drawing())
