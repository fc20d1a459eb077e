"""Faults, their numbers and their names.

A fault of a source, of an object or of a run has one number, and messages have its name beside the number.
"""

NAMES = {
    # cutting a line into fields
    1: "TooLong", 2: "BadLabel", 3: "BadLocal", 4: "BadOpcode", 5: "OpenString", 6: "OpenChar", 7: "NoOpcode",
    # reading and valuing expressions
    10: "Syntax", 11: "TooWide", 12: "DivZero", 13: "FractionTooBig", 14: "PureOnly", 15: "TwoRegisters",
    16: "RegisterFromPure", 17: "Future", 18: "TooDeep", 19: "EmptyString", 21: "RegisterNumber",
    # names
    30: "Twice", 31: "Predefined", 33: "NameTooLong",
    # statements
    39: "UnknownOpcode", 40: "Operands", 41: "NotRegister", 42: "NotPure", 43: "Fit", 44: "NoBase", 45: "TooFar",
    46: "NotMultiple", 47: "TooManyGregs", 48: "LabelNotAllowed", 49: "BadPlace",
    # objects
    60: "NotTetras", 61: "NoPre", 62: "BadLop", 63: "BadFields", 64: "Truncated", 65: "TooLong",
    70: "Truncated", 71: "Padding", 72: "Wide", 73: "Twice", 74: "TooLong", 76: "BadSerial",
    # whole sources
    80: "UndefinedSymbol", 81: "UndefinedLocal", 82: "MainUndefined", 83: "MainRegister", 84: "FutureRegister",
    85: "FutureTooFar", 86: "SymbolsTooMany", 87: "LocalAboveGlobals", 88: "SourceTooLong", 89: "FutureNotMultiple",
    # loading
    90: "PagesFull", 95: "BadPlace", 96: "NoFile",
    # stops of a run
    110: "Float", 111: "Illegal", 112: "Privileged", 113: "Negative", 114: "StackFull", 115: "Underflow",
    116: "BadFrame", 117: "UnhandledTrip", 118: "PagesFull", 120: "ResumeInsert", 121: "WideTrap",
    122: "TransferTooLarge", 123: "TrapPagesFull", 124: "UnknownTrap",
}

USAGE_NAMES = {
    1: "NoCommand", 2: "UnknownCommand", 3: "UnknownOption", 4: "MissingValue", 5: "BadNumber", 6: "BadRing",
    7: "MissingFile", 8: "TooMany", 10: "Conflict",
}


class Fault(Exception):
    """A fault of a piece of a source or of an object, by its number; the place is a byte place, where there is one."""

    def __init__(self, number, place=None):
        super().__init__(number, place)
        self.number = number
        self.place = place


class Stop(Exception):
    """A run stops before an instruction that cannot be carried out, for the reason with this number."""

    def __init__(self, reason):
        super().__init__(reason)
        self.reason = reason


class Wild(Exception):
    """A machine with an unbounded list of hidden registers was asked what only a window of registers can answer."""
