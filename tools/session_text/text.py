"""A whole text: a profile and steps, or the bytes of a file as they are."""
import itertools
import re

from .line import Line, TextError
from .profile import read_items, session_of, show_profile
from .session import MOST_STEPS, from_file, to_file
from .steps import BY_WORD, RAW_WORD, read_step, show_step

BYTES, PROFILE = "bytes", "profile"
FIRST_WORDS = [PROFILE, *BY_WORD, RAW_WORD, BYTES]
BYTE_ORDER_MARK = b"\xef\xbb\xbf"  # some editors put it at the start of a text


def lines_of(data):
    """The lines that have words, in turn, so that the first error in the text is the one that is told."""
    for number, raw in enumerate(data.removeprefix(BYTE_ORDER_MARK).split(b"\n"), 1):
        try:
            line = Line(number, raw.decode())
        except UnicodeDecodeError:
            raise TextError(number, "this is no text: it is not UTF-8") from None
        if line.words:
            yield line


def read_bytes(lines):
    data = bytearray()
    for line in lines:
        if line.words[0] != BYTES:
            raise line.error(f"'{line.words[0]}' stands in a text of bytes: all its lines begin with '{BYTES}'")
        for word in line.words[1:]:
            if not re.fullmatch("[0-9A-Fa-f]{2}", word):
                raise line.refuse(word, "a byte", "two hex digits, as in 0E")
            data.append(int(word, 16))
    return bytes(data)


def first_word(line):
    return line.take_name("the first word of a line", f"one of {', '.join(FIRST_WORDS)}", FIRST_WORDS)


def read_session(lines):
    """The profile, in one line or more, and then the steps."""
    said, profile, session = {}, None, None
    for line in lines:
        word = first_word(line)
        if word == PROFILE and session is None:
            read_items(line, said)
            profile = line
            continue
        if profile is None:
            raise line.error(f"'{word}' comes too early: a '{PROFILE}' line is wanted before the first step")
        session = session or session_of(said, profile)
        session.steps.append(step_in(line, len(session.steps)))
    return session or session_of(said, profile)


def step_in(line, before):
    """A line behind the profile, whose first word is taken, as the step that comes after 'before' others."""
    word = line.words[0]
    if word == PROFILE:
        raise line.error(f"'{word}' stands behind a step: the profile comes before the first step")
    if word == BYTES:
        raise line.error(f"'{word}' stands in a session: a text has a profile and steps, or '{word}' lines only")
    if before == MOST_STEPS:
        raise line.error(f"'{word}' is a step too many: a file has at most {MOST_STEPS}")
    return read_step(line)


def pack(data):
    """The session file of a text; a TextError where the text is wrong."""
    lines = lines_of(data)
    first = next(lines, None)
    if first is None:
        raise TextError(1, f"the text is empty: a '{PROFILE}' line is wanted")
    lines = itertools.chain([first], lines)
    return read_bytes(lines) if first.words[0] == BYTES else to_file(read_session(lines))


def show(data):
    """The text of a session file, one for each file; Malformed where it is none."""
    session = from_file(data)
    return "".join(line + "\n" for line in [show_profile(session), *map(show_step, session.steps)])
