"""The listing of an object: a line for each item but `stab`, then one for the trie, and one for each symbol.

Numbers are decimal, but for tetras and bytes, and for what follows `#`. Lambda, the place where tetras are loaded,
starts at 0; a loaded tetra is shown with its address, which is lambda lowered to a multiple of 4.
"""
from .expressions import LIMIT
from .faults import Fault
from .objects import (FILE, FIXO, FIXR, FIXRX, LINE, LOC, OBJECT_LIMIT, POST, PRE, QUOTE, SKIP, SPEC, STAB, Reader,
                      address_of)
from .texts import instruction_text, octa_text

COUNTED = {SKIP: "skip", FIXR: "fixr", LINE: "line", SPEC: "spec"}
PLACED = {LOC: "loc", FIXO: "fixo"}


def item_words(item, place):
    """The words of an item's line, where lambda is a place."""
    y, z = item.y_and_z >> 8, item.y_and_z & 255
    tetras = [f"{it:08x}" for it in item.tetras]
    if item.code == QUOTE:
        place = place // 4 * 4
        return [octa_text(place), tetras[0], instruction_text(item.tetras[0], place)]
    if item.code in COUNTED:
        return [COUNTED[item.code], str(item.y_and_z)]
    if item.code in PLACED:
        return [PLACED[item.code], octa_text(address_of(item))]
    if item.code == FIXRX:
        return ["fixrx", str(item.y_and_z), tetras[0]]
    if item.code == FILE:
        name = bytes.fromhex("".join(tetras)).rstrip(b"\0")
        return ["file", str(y)] + ([name.hex()] if name else [])
    if item.code == PRE:
        return ["pre"] + tetras
    return ["post", str(z)] + ["#" + high + low for high, low in zip(tetras[::2], tetras[1::2])]


def place_after(item, place):
    """Lambda after an item."""
    if item.code == QUOTE:
        return (place // 4 * 4 + 4) % LIMIT
    if item.code == SKIP:
        return (place + item.y_and_z) % LIMIT
    return address_of(item) if item.code == LOC else place


def symbol_words(name, value, serial):
    """The words of a symbol's line; bytes of its name outside 33 to 126 are dots."""
    shown = "".join(chr(it) if 33 <= it <= 126 else "." for it in name)
    return ["symbol", shown, f"${value.number}" if value.is_register else octa_text(value.number), str(serial)]


def listing(data):
    """The lines of an object, each as soon as its item was read; then its fault, if it has one.

    More than 2^26 bytes are a fault before any line. What the items mean plays no part.
    """
    if len(data) > OBJECT_LIMIT:
        raise Fault(65, OBJECT_LIMIT)
    reader, place = Reader(data), 0
    for item in reader.items():
        if item.code != STAB:
            yield " ".join(item_words(item, place)) + "\n"
        place = place_after(item, place)
    symbols = reader.end()
    trie = data[reader.trie_start:-4]
    yield " ".join(["stab"] + ([trie.hex()] if trie else [])) + "\n"
    for symbol in symbols:
        yield " ".join(symbol_words(*symbol)) + "\n"
