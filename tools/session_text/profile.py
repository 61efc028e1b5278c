"""The profile of a session: its items, in words."""
from . import session
from .line import number_in
from .session import Session


def read_types(line):
    """'none', or numbers as long as they go on."""
    if line.skip("none"):
        return b""
    types = [read_type(line)]
    while line.next()[:1].isdigit():
        if len(types) == session.MOST_TYPES:
            raise line.error(f"'{line.next()}' is a device type too many: a file has at most {session.MOST_TYPES}")
        types.append(read_type(line))
    return bytes(types)


def read_type(line):
    return line.take_number("a device type", 255, instead=", or none")


def read_short(line):
    if line.skip("none"):
        return session.NO_SHORT
    return line.take_number("a short address", session.MOST_SHORT, instead=", or none")


def read_limits(line):
    """COOLEST..WARMEST as a pair of numbers."""
    what, form = "a pair of Tc limits", "COOLEST..WARMEST, as in 153..400"
    word = line.take(what, form)
    pair = [number_in(half, 0, 0xFFFF) for half in word.split("..")]
    if len(pair) != 2 or None in pair:
        raise line.refuse(word, what, form)
    if pair[1] > session.MOST_TC:
        raise line.refuse(word, what, f"the warmest limit is at most {session.MOST_TC}")
    if pair[0] > pair[1]:
        raise line.refuse(word, what, "the coolest limit, the smaller number, comes first")
    return tuple(pair)


# The items of a profile and how each reads what follows it. 'tc' and 'limits' both say the limits: 'tc'
# for a gear that can do Tc, 'limits' for one that has them in its profile all the same.
ITEMS = {
    "type": read_types,
    "short": read_short,
    "random": lambda line: line.take_number("a random address", session.MOST_RANDOM),
    "tc": read_limits,
    "limits": read_limits,
    "channels": lambda line: line.take_number("a number of channels", session.MOST_CHANNELS),
    "minimum": lambda line: line.take_number("a physical minimum", session.MOST_MINIMUM, session.LEAST_MINIMUM),
}
ITEMS.update({flag: lambda line: True for flag in session.FLAGS if flag not in ITEMS})


def read_items(line, said):
    """Adds the items of a profile line, whose first word is taken, to those that were said before it."""
    form = ", ".join(ITEMS)
    while True:
        item = line.take_name("an item of a profile", form, ITEMS)
        if item in said:
            raise line.error(f"'{item}' is said twice: a profile says it once")
        if {item, *said} >= {"tc", "limits"}:
            raise line.error(f"'{item}' says the limits twice: 'tc' and 'limits' exclude each other")
        said[item] = ITEMS[item](line)
        if not line.next():
            return


def session_of(said, line):
    """The session, with no step yet, of the items that were said; 'line' is the last of the profile's lines."""
    if "type" not in said:
        raise line.error("'profile' says no device type: 'type NUMBER..' or 'type none' is wanted")
    coolest, warmest = said.get("tc") or said.get("limits") or (0, 0)
    numbers = {item: said[item] for item in ("short", "random", "channels", "minimum") if item in said}
    flags = frozenset(said).intersection(session.FLAGS)
    return Session(said["type"], flags=flags, coolest=coolest, warmest=warmest, **numbers)


def show_profile(given):
    """The profile in one line: flags and channels where there are any, everything else always."""
    types = " ".join(map(str, given.types)) or "none"
    short = "none" if given.short == session.NO_SHORT else given.short
    limits = "tc" if "tc" in given.flags else "limits"
    words = [f"profile type {types} short {short} random {given.random}"]
    words += [f"{limits} {given.coolest}..{given.warmest}"]
    words += [flag for flag in session.FLAGS if flag in given.flags and flag != "tc"]
    words += [f"channels {given.channels}"] if given.channels else []
    return " ".join(words + [f"minimum {given.minimum}"])
