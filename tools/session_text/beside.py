"""The lines of a run, each with its step beside it."""
import itertools

from .names import LACKS, NEEDS
from .session import Malformed, from_file
from .steps import BY_WORD, show_step

STEPS_AT = 12  # the column of the steps; the line of a step is shorter
WHY_AT = 32  # where a comment begins behind a step, as in the examples

COLOUR_VALUE, _ = BY_WORD["colour-value"]


def told(line, step):
    """A step in words; where its line is '~', also what the gear lacks for the colour value."""
    words, kind, value = show_step(step), step[0], step[1]
    if line.endswith(" ~") and kind == COLOUR_VALUE and NEEDS.get(value) in LACKS:
        return f"{words:<{WHY_AT}}# {LACKS[NEEDS[value]]}"
    return words


def beside(file, lines):
    """The lines that the program printed for a session file, with its steps; a malformed file has run none."""
    try:
        steps = from_file(file).steps
    except Malformed:
        steps = []
    rows = itertools.zip_longest(lines.decode(errors="replace").splitlines(), steps, fillvalue="")
    rows = (f"{line}\t{told(line, step) if step else ''}" for line, step in rows)
    return "".join(row.expandtabs(STEPS_AT).rstrip(" ") + "\n" for row in rows)
