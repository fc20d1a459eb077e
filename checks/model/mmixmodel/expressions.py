"""Expressions: what an operand field spells, and the value of an expression.

An expression is kept in postfix order: a list of primaries and operators, each operator after what it works on. So the
order of the list is also the order in which faults are looked for: the left side, the right side, the operator.

Values are pure numbers below 2^64, or registers 0 to 255.
"""
from typing import NamedTuple

from .faults import Fault
from .lines import end_of_word, is_digit, is_letter

LIMIT = 1 << 64
OPEN_PARENTHESES = 255
UNARY = {b"+": "plus", b"-": "minus", b"~": "not", b"$": "register"}
STRONG = {b"*": "times", b"/": "over", b"//": "fraction", b"%": "rest", b"<<": "left", b">>": "right", b"&": "and"}
WEAK = {b"+": "add", b"-": "subtract", b"|": "or", b"^": "exclusive or"}
STRENGTH = {"(": 0, **{it: 1 for it in WEAK.values()}, **{it: 2 for it in STRONG.values()},
            **{it: 3 for it in UNARY.values()}}


class Value(NamedTuple):
    """A pure number, or the number of a register."""

    is_register: bool
    number: int


def pure(number):
    """The pure value of a number, modulo 2^64."""
    return Value(False, number % LIMIT)


def register(number):
    """A register; a number outside 0 to 255 (modulo 2^64) is fault 21."""
    if number % LIMIT > 255:
        raise Fault(21)
    return Value(True, number % LIMIT)


def read_number(field, at, digits, base):
    """A constant of at least one digit; fault 10 without a digit, 11 where it is 2^64 or more."""
    end = at
    while end < len(field) and field[end] in digits:
        end += 1
    if end == at:
        raise Fault(10)
    number = int(field[at:end], base)
    if number >= LIMIT:
        raise Fault(11)
    return ("number", number), end


def read_primary(field, at):
    """A constant, a symbol, a local reference or the place, and the place after it.

    Constants are decimal digits, # with hexadecimal digits, and any one byte between apostrophes. A run of digits is
    one constant; a single digit directly before B or F begins a local reference.
    """
    byte = field[at:at + 1]
    if byte == b"#":
        return read_number(field, at + 1, b"0123456789abcdefABCDEF", 16)
    if byte == b"'":
        if field[at + 2:at + 3] != b"'":
            raise Fault(10)
        return ("number", field[at + 1]), at + 3
    if byte == b"@":
        return ("place",), at + 1
    if byte and is_digit(byte[0]):
        if field[at + 1:at + 2] in (b"B", b"F"):
            return ("back" if field[at + 1:at + 2] == b"B" else "ahead", int(byte)), at + 2
        return read_number(field, at, b"0123456789", 10)
    if byte and is_letter(byte[0]):
        end = end_of_word(field, at)
        return ("name", field[at:end]), end
    raise Fault(10)


def read_prefixes(field, at, waiting):
    """Unary operators and open parentheses before a primary; fault 18 where more than 255 parentheses are open."""
    while field[at:at + 1] in UNARY or field[at:at + 1] == b"(":
        if field[at:at + 1] == b"(":
            if waiting.count("(") == OPEN_PARENTHESES:
                raise Fault(18)
            waiting.append("(")
        else:
            waiting.append(UNARY[field[at:at + 1]])
        at += 1
    return at


def read_closings(field, at, waiting, output):
    """Closing parentheses after a primary, as long as parentheses are open."""
    while field[at:at + 1] == b")" and "(" in waiting:
        while waiting[-1] != "(":
            output.append((waiting.pop(),))
        waiting.pop()
        at += 1
    return at


def read_operator(field, at):
    """The binary operator at a place, or None, and the place after it."""
    for length in (2, 1):
        text = field[at:at + length]
        if len(text) == length:
            operator = STRONG.get(text) or WEAK.get(text)
            if operator:
                return operator, at + length
    return None, at


def read_expression(field, at):
    """One expression in postfix order, and the place after it.

    Unary operators come before a primary. Strong binary operators bind tighter than weak ones, and equal strength goes
    from left to right.
    """
    output, waiting = [], []
    while True:
        at = read_prefixes(field, at, waiting)
        primary, at = read_primary(field, at)
        output.append(primary)
        at = read_closings(field, at, waiting, output)
        operator, at = read_operator(field, at)
        while waiting and STRENGTH[waiting[-1]] >= STRENGTH.get(operator, 1):
            output.append((waiting.pop(),))
        if operator is None:
            if waiting:
                raise Fault(10)
            return output, at
        waiting.append(operator)


def read_string(field, at):
    """A string in double quotes means its bytes as separate operands; fault 19 where it has none."""
    close = field.find(b'"', at + 1)
    if close < 0:
        raise Fault(10)
    if close == at + 1:
        raise Fault(19)
    return [[("number", byte)] for byte in field[at + 1:close]], close + 1


def read_operands(field):
    """The operands of a field, separated by commas. An empty field counts as 0.

    Of several faults the one whose place is furthest to the left counts. The place of fault 10 is the first byte with
    which the field up to there begins no list; the others are at the first byte of what is too wide, too deep or
    empty. So the first fault met from the left is the fault.
    """
    if not field:
        return [[("number", 0)]]
    operands, at = [], 0
    while True:
        if field[at:at + 1] == b'"':
            more, at = read_string(field, at)
            operands += more
        else:
            expression, at = read_expression(field, at)
            operands.append(expression)
        if at == len(field):
            return operands
        if field[at:at + 1] != b",":
            raise Fault(10)
        at += 1


def signed(number):
    """The signed value of an octa."""
    return number - LIMIT if number >= LIMIT // 2 else number


def sum_of(left, right):
    """Pure plus pure is pure; a register plus a pure value, either way round, is a register; two registers are 15."""
    if left.is_register and right.is_register:
        raise Fault(15)
    total = left.number + right.number
    return register(total) if left.is_register or right.is_register else pure(total)


def difference_of(left, right):
    """A register minus a pure value is a register, two registers give a pure value, pure minus register is 16."""
    if right.is_register and not left.is_register:
        raise Fault(16)
    result = left.number - right.number
    return register(result) if left.is_register and not right.is_register else pure(result)


def quotient_of(operator, left, right):
    """Quotient and rest by 0 are fault 12. The fraction x//y is floor(2^64 x / y), and fault 13 unless x < y."""
    if operator == "fraction":
        if left >= right:
            raise Fault(13)
        return (left << 64) // right
    if right == 0:
        raise Fault(12)
    return left // right if operator == "over" else left % right


def applied(operator, left, right):
    """The value of a binary operator; all but sum and difference take pure values alone (else 14)."""
    if operator == "add":
        return sum_of(left, right)
    if operator == "subtract":
        return difference_of(left, right)
    if left.is_register or right.is_register:
        raise Fault(14)
    x, y = left.number, right.number
    if operator in ("over", "rest", "fraction"):
        return pure(quotient_of(operator, x, y))
    if operator == "left":
        return pure(x << y) if y < 64 else pure(0)
    if operator == "right":
        return pure(x >> y) if y < 64 else pure(0)
    return pure({"times": x * y, "and": x & y, "or": x | y, "exclusive or": x ^ y}[operator])


def signed_or_turned(operator, value):
    """The value of a unary operator; plus takes any value, the others a pure one (else 14)."""
    if operator == "plus":
        return value
    if value.is_register:
        raise Fault(14)
    if operator == "register":
        return register(value.number)
    return pure(-value.number if operator == "minus" else ~value.number)


def value_of(expression, known):
    """The value of an expression, where `known` has the values of names and of earlier local labels, and the place.

    A name that is not known is fault 17, and so is a local label ahead.
    """
    values = []
    for kind, *rest in expression:
        if kind == "number":
            values.append(pure(rest[0]))
        elif kind == "place":
            values.append(pure(known.place))
        elif kind == "back":
            values.append(known.back(rest[0]))
        elif kind == "ahead":
            raise Fault(17)
        elif kind == "name":
            value = known.symbol(rest[0])
            if value is None:
                raise Fault(17)
            values.append(value)
        elif STRENGTH[kind] == 3:
            values.append(signed_or_turned(kind, values.pop()))
        else:
            right = values.pop()
            values.append(applied(kind, values.pop(), right))
    return values.pop()
