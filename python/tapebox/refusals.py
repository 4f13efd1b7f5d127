"""The refusals of the calls, by number and name."""

# The numbers of docs/RULES.md, and those of the calls themselves, above 100.
NAMES = {
    1: "Empty", 2: "TooMany", 3: "Repeated", 4: "OutOfMemory", 5: "BadLimit", 6: "OutOfMemory", 9: "BadHeader",
    11: "Oversize", 12: "Short", 13: "BadKind", 14: "BadLength", 15: "BadParticipant", 16: "BadNumber", 17: "BadSymbol",
    18: "BadTarget", 19: "BadPrice", 20: "BadSize", 21: "BadCondition", 23: "ExtraBytes",
    31: "Closed", 32: "Full", 33: "WrongLine", 34: "UnknownParticipant", 35: "Stale", 36: "UnknownSymbol",
    37: "NoSuchReport", 38: "OtherSymbol", 39: "Cancelled", 40: "OutOfMemory", 41: "WrongNumber", 42: "OtherSummary",
    43: "Standing", 44: "NotInMatrix",
    51: "Short", 52: "BadVersion", 53: "BadKind", 54: "BadCount", 55: "BadEntry", 56: "NotInOrder", 57: "Trailing",
    61: "Foreign", 62: "Conflict", 63: "PastEnd", 64: "Failed",
    71: "OtherSession", 72: "Beyond", 73: "BadSpan", 74: "ReadFault", 76: "BadAnswer", 77: "Refused", 78: "OutOfMemory",
    101: "NoTape", 102: "NoSubscriber", 103: "InUse", 104: "BadMatrix", 105: "NoEntry", 106: "NoLine", 107: "NoRequest", 108: "NoRoom",
    109: "OutOfMemory", 110: "NoTable", 111: "BadTable", 112: "Busy",
    113: "NullPointer",
}


class Refused(Exception):
    """A call was refused.

    `code` is the refusal's number and `name` its name. `drained` is what a drain put on the tape before it stopped, `conflict` the number
    of the entry of which another is known (62), `taken` how many bytes were read of an answer or of many messages, `refusal` the
    number by which a request was refused (77), and `why` what is wrong with a table, in words (111).
    """

    def __init__(self, code: int, *, drained: int = 0, conflict: int = 0, taken: int = 0, refusal: int = 0, why: str = "") -> None:
        self.code, self.name = code, NAMES.get(code, "?")
        self.drained, self.conflict, self.taken, self.refusal, self.why = drained, conflict, taken, refusal, why
        super().__init__(f"{code} {self.name}: {why}" if why else f"{code} {self.name}")
