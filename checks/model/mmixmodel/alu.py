"""The instructions on whole numbers that have no other effect than a register, rH, rR and an event.

x, y and z are octas, and s(y) is the signed value. Results are modulo 2^64.
"""
from typing import NamedTuple, Optional

from .expressions import LIMIT, signed

HALF = LIMIT // 2
DIVIDE, OVERFLOW = 0x80, 0x40


class Answer(NamedTuple):
    """The result, the new rH and rR where there are such, and the bit of the event in rA, or 0."""

    x: int
    h: Optional[int] = None
    r: Optional[int] = None
    event: int = 0


def in_range(number):
    """A signed result: overflow where it is not from -2^63 to 2^63 - 1."""
    return Answer(number % LIMIT, event=0 if -HALF <= number < HALF else OVERFLOW)


def divided(y, z):
    """DIV: floor(s(y)/s(z)) and the rest with it in rR; for z = 0 the event D, 0 and rR = y; V for -2^63 by -1."""
    if z == 0:
        return Answer(0, r=y, event=DIVIDE)
    quotient = signed(y) // signed(z)
    return in_range(quotient)._replace(r=(signed(y) - signed(z) * quotient) % LIMIT)


def divided_unsigned(d, y, z):
    """DIVU: where z > rD, quotient and rest of 2^64 rD + y by z; else rD, and rR = y."""
    if z <= d:
        return Answer(d, r=y)
    quotient, rest = divmod((d << 64) + y, z)
    return Answer(quotient, r=rest)


def shifted_left(y, z):
    """SL: s(y) 2^z, overflow where it is out of range. A shift of 0 by anything is 0 without overflow."""
    return in_range(signed(y) << min(z, 128))


def differences(y, z, width):
    """BDIF, WDIF, TDIF, ODIF: max(0, y - z) in each unsigned field."""
    mask, result = (1 << width) - 1, 0
    for place in range(0, 64, width):
        result |= max(0, (y >> place & mask) - (z >> place & mask)) << place
    return result


def matrix_product(y, z, is_exclusive):
    """MOR and MXOR: byte i of the result is the or, or the exclusive or, of the bytes k of y for which bit k of byte i
    of z is 1. Bytes and bits count from the low end.
    """
    result = 0
    for i in range(8):
        byte = 0
        for k in range(8):
            if z >> 8 * i + k & 1:
                part = y >> 8 * k & 255
                byte = byte ^ part if is_exclusive else byte | part
        result |= byte << 8 * i
    return result


def truth(condition, x):
    """The conditions 0 to 7 of branches: negative, zero, positive, odd, and their opposites."""
    holds = (signed(x) < 0, x == 0, signed(x) > 0, x % 2 == 1)[condition % 4]
    return holds != (condition >= 4)


def compared(y, z):
    """-1, 0 or 1."""
    return (y > z) - (y < z)


ARITHMETIC = {
    0x18: lambda y, z: in_range(signed(y) * signed(z)),
    0x1A: lambda y, z: Answer(y * z % LIMIT, h=y * z >> 64),
    0x1C: divided,
    0x20: lambda y, z: in_range(signed(y) + signed(z)),
    0x24: lambda y, z: in_range(signed(y) - signed(z)),
    0x34: lambda y, z: in_range(y - signed(z)),
    0x38: shifted_left,
}

PLAIN = {
    0x22: lambda y, z: y + z,
    0x26: lambda y, z: y - z,
    0x28: lambda y, z: 2 * y + z,
    0x2A: lambda y, z: 4 * y + z,
    0x2C: lambda y, z: 8 * y + z,
    0x2E: lambda y, z: 16 * y + z,
    0x30: lambda y, z: compared(signed(y), signed(z)),
    0x32: compared,
    0x36: lambda y, z: y - z,
    0x3A: lambda y, z: y << z if z < 64 else 0,
    0x3C: lambda y, z: signed(y) >> min(z, 64),
    0x3E: lambda y, z: y >> z if z < 64 else 0,
    0xC0: lambda y, z: y | z,
    0xC2: lambda y, z: y | ~z,
    0xC4: lambda y, z: ~(y | z),
    0xC6: lambda y, z: y ^ z,
    0xC8: lambda y, z: y & z,
    0xCA: lambda y, z: y & ~z,
    0xCC: lambda y, z: ~(y & z),
    0xCE: lambda y, z: ~(y ^ z),
    0xD0: lambda y, z: differences(y, z, 8),
    0xD2: lambda y, z: differences(y, z, 16),
    0xD4: lambda y, z: differences(y, z, 32),
    0xD6: lambda y, z: differences(y, z, 64),
    0xDA: lambda y, z: bin(y & ~z).count("1"),
    0xDC: lambda y, z: matrix_product(y, z, False),
    0xDE: lambda y, z: matrix_product(y, z, True),
    0xE0: lambda y, z: z,
    0xE4: lambda y, z: y + z,
    0xE8: lambda y, z: y | z,
    0xEC: lambda y, z: y & ~z,
}


def alu(code, y, z, d=0, m=0):
    """The answer of codes #18 to #3f and #c0 to #ef; d and m are rD and rM.

    For NEG and NEGU y is the byte Y. For #e0 to #ef y is the old $X and z is YZ at its place in the octa.
    """
    if code >= 0xE0:
        return Answer(PLAIN[code & ~3](y, z) % LIMIT)
    row = code & ~1
    if row == 0x1E:
        return divided_unsigned(d, y, z)
    if row == 0xD8:
        return Answer(y & m | z & ~m)
    if row in ARITHMETIC:
        return ARITHMETIC[row](y, z)
    return Answer(PLAIN[row](y, z) % LIMIT)
