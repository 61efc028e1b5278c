"""A session and its file, byte by byte as document 01 defines it ('Session file and runner')."""
import dataclasses

MOST_TYPES = 13
MOST_STEPS = 4096
NO_SHORT = 255
MOST_SHORT = 63
MOST_RANDOM = 0xFFFFFF
MOST_CHANNELS = 6
MOST_TC = 0xFFFE  # of a limit in a file
LEAST_MINIMUM, MOST_MINIMUM = 1, 254

FLAGS = ("tc", "xy", "adjustable", "holds-dtr0", "no-indicator")  # the first is bit 0

PROFILE_SIZE = 11
STEP_SIZE = 4
BUFFER = 16413  # what the program reads: one byte more than the longest good file has


@dataclasses.dataclass
class Session:
    """A profile and the steps to run on a fresh gear of it, each the four bytes of the file."""

    types: bytes
    short: int = NO_SHORT
    random: int = 0
    flags: frozenset = frozenset()
    channels: int = 0
    coolest: int = 0
    warmest: int = 0
    minimum: int = LEAST_MINIMUM
    steps: list = dataclasses.field(default_factory=list)


class Malformed(Exception):
    """The offset that refusal 5 gives back, and what is wrong there."""

    def __init__(self, offset, reason):
        super().__init__(f"malformed at offset {offset}: {reason}")
        self.offset = offset


def to_file(session):
    flags = sum(1 << bit for bit, word in enumerate(FLAGS) if word in session.flags)
    profile = b"".join([
        bytes([session.short]),
        session.random.to_bytes(3, "big"),
        bytes([flags, session.channels]),
        session.coolest.to_bytes(2, "big"),
        session.warmest.to_bytes(2, "big"),
        bytes([session.minimum]),
    ])
    types = bytes([len(session.types)]) + session.types
    steps = len(session.steps).to_bytes(2, "big") + b"".join(session.steps)
    return types + bytes([PROFILE_SIZE]) + profile + steps


class Fields:
    """A file taken field by field from the front. The first fault met is the one with the lowest offset."""

    def __init__(self, data):
        self.data = data
        self.at = 0

    def raw(self, what, size):
        end = self.at + size
        if end > len(self.data):
            raise Malformed(len(self.data), f"the file ends where {what} should go on")
        taken, self.at = self.data[self.at:end], end
        return taken

    def number(self, what, size, good, wanted):
        """A field, judged once it is read whole."""
        start = self.at
        value = int.from_bytes(self.raw(what, size), "big")
        if value not in good:
            raise Malformed(start, f"{what} is {value}, and {wanted} is wanted")
        return value

    def within(self, what, size, least, most):
        return self.number(what, size, range(least, most + 1), f"{least} to {most}")

    def end(self):
        if self.at < len(self.data):
            raise Malformed(self.at, "the file should end here")


def from_file(data):
    fields = Fields(data)
    types = fields.raw("the device types", fields.within("the count of device types", 1, 0, MOST_TYPES))
    fields.number("the length of the profile", 1, [PROFILE_SIZE], PROFILE_SIZE)
    addresses = [*range(MOST_SHORT + 1), NO_SHORT]
    short = fields.number("the short address", 1, addresses, f"0 to {MOST_SHORT} or {NO_SHORT}")
    random = fields.within("the random address", 3, 0, MOST_RANDOM)
    bits = fields.within("the flags byte", 1, 0, (1 << len(FLAGS)) - 1)
    channels = fields.within("the number of channels", 1, 0, MOST_CHANNELS)
    coolest = fields.within("the coolest limit", 2, 0, 0xFFFF)
    reach = f"at least {coolest}, the coolest limit, and at most {MOST_TC}"
    warmest = fields.number("the warmest limit", 2, range(coolest, MOST_TC + 1), reach)
    minimum = fields.within("the physical minimum", 1, LEAST_MINIMUM, MOST_MINIMUM)
    count = fields.within("the count of steps", 2, 0, MOST_STEPS)
    steps = [fields.raw(f"step {n}", STEP_SIZE) for n in range(1, count + 1)]
    fields.end()
    flags = frozenset(word for bit, word in enumerate(FLAGS) if bits >> bit & 1)
    return Session(types, short, random, flags, channels, coolest, warmest, minimum, steps)
