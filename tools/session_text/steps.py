"""The steps of a session: the words of each kind, and the four bytes that they stand for."""
from .names import COLOUR_VALUES, QUERIES, ROW, STORES_DTR0, TC_LIMITS, TC_STEPS, WRITES

LISTED = "('session-text words' lists them)"


class Number:
    """A number in one byte, or in two with the high byte first."""

    def __init__(self, what, size=1):
        self.what, self.size = what, size

    def read(self, line):
        return line.take_number(self.what, 256**self.size - 1).to_bytes(self.size, "big")

    def show(self, data):
        return [str(int.from_bytes(data, "big"))]


class Choice:
    """A byte that has a name in 'names'; where 'numbers', any other byte is written as a number."""

    size = 1

    def __init__(self, what, names, form, numbers):
        self.what, self.names, self.form, self.numbers = what, names, form, numbers
        self.by_byte = {byte: name for name, byte in names.items()}

    def read(self, line):
        if self.numbers and line.next()[:1].isdigit():
            return bytes([line.take_number(self.what, 255)])
        return bytes([self.names[line.take_name(self.what, self.form, self.names)]])

    def show(self, data):
        name = self.by_byte.get(data[0])
        if name is None and not self.numbers:
            return None
        return [str(data[0]) if name is None else name]


class Command:
    """The name of a command, and an index where it is one of sixteen."""

    size = 1

    def __init__(self, what, commands):
        self.what, self.commands = what, commands

    def read(self, line):
        name = line.take_name(self.what, f"a name is wanted {LISTED}", self.commands.bytes)
        byte = self.commands.bytes[name]
        if name in self.commands.indexed:
            byte += line.take_number(f"a {self.commands.indexed[name]}", ROW - 1)
        return bytes([byte])

    def show(self, data):
        name, index = self.commands.by_byte.get(data[0], (None, None))
        if name is None:
            return None
        return [name] if index is None else [name, str(index)]


class Write(Command):
    """A write with DTR0 behind it, which is 0 where it is left out."""

    size = 2

    def read(self, line):
        byte = super().read(line)
        name, _ = self.commands.by_byte[byte[0]]
        if not line.next() and name not in STORES_DTR0:
            return byte + b"\0"
        return byte + bytes([line.take_number("a value (DTR0)", 255)])

    def show(self, data):
        words = super().show(data)
        if words is None or (data[1] == 0 and words[0] not in STORES_DTR0):
            return words
        return words + [str(data[1])]


class Ignored:
    """A byte that the kind does not name: 0 where it is written in words."""

    size = 1

    def read(self, line):
        return b"\0"

    def show(self, data):
        return [] if data == b"\0" else None


BANK, OFFSET, IGNORED = Number("a bank"), Number("an offset"), Ignored()
LIMIT = Choice("a Tc limit", TC_LIMITS, f"{', '.join(TC_LIMITS)} or a number from 0 to 255", numbers=True)
VALUE_ID = Choice("a colour value", COLOUR_VALUES, f"a name {LISTED} or a number from 0 to 255", numbers=True)
DIRECTION = Choice("a direction", TC_STEPS, "cooler or warmer", numbers=False)

# Each kind of document 01 by its number: the first word of its lines, and what stands in bytes a, b and c.
KINDS = {
    0: ("arc", [Number("a level"), IGNORED, IGNORED]),
    1: ("write", [Write("a write", WRITES), IGNORED]),
    2: ("query", [Command("a query", QUERIES), IGNORED, IGNORED]),
    3: ("read", [BANK, OFFSET, IGNORED]),
    4: ("write-memory", [BANK, OFFSET, Number("a value")]),
    5: ("colour-value", [VALUE_ID, IGNORED, IGNORED]),
    6: ("tc-limit", [LIMIT, Number("a Tc", 2)]),
    7: ("tc-step", [DIRECTION, IGNORED, IGNORED]),
    8: ("stage-tc", [IGNORED, Number("a Tc", 2)]),
    9: ("activate", [IGNORED, IGNORED, IGNORED]),
    10: ("power-cycle", [IGNORED, IGNORED, IGNORED]),
    11: ("copy-report", [IGNORED, IGNORED, IGNORED]),
    12: ("features", [Number("a features byte"), IGNORED, IGNORED]),
}
BY_WORD = {word: (kind, operands) for kind, (word, operands) in KINDS.items()}

RAW_WORD = "step"  # a step by its four bytes, for those that have no words
RAW = [Number("a kind"), Number("byte a"), Number("byte b"), Number("byte c")]


def read_step(line):
    """The four bytes of a line whose first word is taken and is RAW_WORD or in BY_WORD."""
    kind, operands = BY_WORD.get(line.words[0], (None, RAW))
    step = b"" if kind is None else bytes([kind])
    step += b"".join(operand.read(line) for operand in operands)
    line.end()
    return step


def show_step(step):
    """The words of a step, or its raw form where it has none."""
    raw = " ".join([RAW_WORD, *map(str, step)])
    if step[0] not in KINDS:
        return raw
    word, operands = KINDS[step[0]]
    words, at = [word], 1
    for operand in operands:
        shown = operand.show(step[at:at + operand.size])
        if shown is None:
            return raw
        words += shown
        at += operand.size
    return " ".join(words)
