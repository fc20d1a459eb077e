"""Lines and statements: a source is cut into lines, and a line into the fields of its statements.

A line ends at a newline byte or at the end of the source. A statement has a label field, an opcode field and an operand
field, separated by blanks. Several statements of a line are separated by semicolons.
"""
from typing import NamedTuple, Optional

from .faults import Fault

BLANKS = frozenset((9, 11, 12, 13, 32))
LINE_LIMIT = 4096
SOURCE_LIMIT = 1 << 22
QUOTE, APOSTROPHE, SEMICOLON = b'"\';'


class Fields(NamedTuple):
    """One statement of a source, cut but not read."""

    line: int
    label: Optional[bytes]
    opcode: bytes
    operands: bytes


def is_digit(byte):
    """Whether a byte is a decimal digit."""
    return 48 <= byte <= 57


def is_letter(byte):
    """Whether a byte is a letter: A to Z, a to z, the colon, the underscore, and every byte above 126."""
    return 65 <= byte <= 90 or 97 <= byte <= 122 or byte in b":_" or byte > 126


def end_of_word(text, at):
    """The place after the letters and digits at a place."""
    while at < len(text) and (is_letter(text[at]) or is_digit(text[at])):
        at += 1
    return at


def after_blanks(text, at):
    """The place of the first byte at or after a place that is no blank."""
    while at < len(text) and text[at] in BLANKS:
        at += 1
    return at


def end_of_operands(text, at):
    """The operand field ends at the first blank or semicolon that is in no string and no character constant.

    A string that is not closed on the line is fault 5. An apostrophe that is not followed by one byte and another
    apostrophe is fault 6; a double quote in a character constant opens no string.
    """
    while at < len(text) and text[at] not in BLANKS and text[at] != SEMICOLON:
        if text[at] == QUOTE:
            close = text.find(b'"', at + 1)
            if close < 0:
                raise Fault(5)
            at = close
        elif text[at] == APOSTROPHE:
            if text[at + 2:at + 3] != b"'":
                raise Fault(6)
            at += 2
        at += 1
    return at


def read_label(text, at):
    """The label field of a statement, or None, and the place after it.

    A statement that begins with a blank has no label. A label that begins with a digit is a digit and H (else 3), and
    the byte after a label is a blank (else 2).
    """
    if text[at] in BLANKS:
        return None, at
    end = end_of_word(text, at)
    label = text[at:end]
    if is_digit(label[0]) and not (len(label) == 2 and label[1:] == b"H"):
        raise Fault(3)
    if end < len(text) and text[end] not in BLANKS:
        raise Fault(2)
    return label, end


def next_statement(text, at, line=1):
    """The statement of a line that begins at a place, with the place where the next one begins; None without one.

    A first byte that is neither a blank nor a letter nor a digit makes the rest of the line a comment; so does an empty
    opcode field without a label, and with one it is fault 7. The byte after an opcode is a blank or a semicolon (else
    4). A semicolon begins a new statement where only blanks are between it and the operand field; anything else
    there is a comment to the end of the line. An empty operand field counts as 0.
    """
    if at >= len(text) or not (text[at] in BLANKS or is_letter(text[at]) or is_digit(text[at])):
        return None
    label, at = read_label(text, at)
    start = after_blanks(text, at)
    at = end_of_word(text, start)
    opcode = text[start:at]
    if not opcode:
        if label is None:
            return None
        raise Fault(7)
    if at < len(text) and text[at] not in BLANKS and text[at] != SEMICOLON:
        raise Fault(4)
    start = after_blanks(text, at)
    at = end_of_operands(text, start)
    operands = text[start:at]
    at = after_blanks(text, at)
    following = at + 1 if text[at:at + 1] == b";" else len(text)
    return Fields(line, label, opcode, operands), following


def lines_of(source):
    """The pieces of a source between its newline bytes; an empty last piece is no line."""
    pieces = source.split(b"\n")
    return pieces if pieces[-1] else pieces[:-1]


def statements_of_line(text, line):
    """The statements of one line, and the fault of the first that cannot be cut, or None.

    A line of more than 4,096 bytes is fault 1, whether it holds a statement or not.
    """
    found, at = [], 0
    if len(text) > LINE_LIMIT:
        return found, 1
    while True:
        try:
            cut = next_statement(text, at, line)
        except Fault as fault:
            return found, fault.number
        if cut is None:
            return found, None
        found.append(cut[0])
        at = cut[1]


def statements(source):
    """The statements of a source in their order; where one cannot be cut, the line and the number of that fault too.

    Line i is too far (fault 88) where lines 1 to i and the newlines between them have more than 2^22 bytes. This comes
    before every other fault of the line.
    """
    found, length = [], 0
    for line, text in enumerate(lines_of(source), 1):
        length += len(text) + (line > 1)
        if length > SOURCE_LIMIT:
            return found, (line, 88)
        more, fault = statements_of_line(text, line)
        found += more
        if fault is not None:
            return found, (line, fault)
    return found, None
