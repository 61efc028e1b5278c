"""The language of a text and its names, as the help shows them."""
from .names import COLOUR_VALUES, NEEDS, QUERIES, ROW, STORES_DTR0, WRITES

LANGUAGE = """\
The text of a session is the profile of a gear and then the steps to run on it, one a line. A comment goes from
# to the end of its line. Numbers are decimal, or hex after 0x.

  profile ITEM..              in one line or more, each item at most once:
    type N.. | type none        the device types, at most 13; always wanted
    short N | short none        the short address, 0 to 63; none where left out
    random N                    the random address; 0 where left out
    tc COOLEST..WARMEST         the gear can do Tc, within these physical limits
    limits COOLEST..WARMEST     the limits of a gear that can't; 0..0 where left out
    xy, adjustable, holds-dtr0, no-indicator    a flag that is on
    channels N                  0 to 6; 0 where left out
    minimum N                   the physical minimum, 1 to 254; 1 where left out

  arc LEVEL                   arc power asks for a level
  write NAME [INDEX] [DTR0]   a command that sets something. INDEX: the scene or the group, 0 to 15, where it has
                              one. DTR0: always wanted for the commands Set.., else 0 where left out
  query NAME [INDEX]          a command that asks something
  read BANK OFFSET            what the memory has there
  write-memory BANK OFFSET VALUE
  colour-value NAME|ID        a number of the active, the staged or the reported colour, or a Tc limit; prints ~
                              where this gear can't have the value, and - where no gear has the id
  tc-limit WHICH TC           stores a limit: coolest, warmest, physical-coolest, physical-warmest, or a
                              selector's number
  tc-step cooler|warmer       moves the active Tc by one
  stage-tc TC                 prepares a colour temperature, for 'activate', arc power or a scene
  activate                    the staged colour becomes the active one
  power-cycle                 power goes and comes back
  copy-report                 the reported colour is staged
  features N                  the gear features; bit 0 lets arc power and scenes activate colours
  step KIND A B C             any step by its four bytes, also one that has no words

For example:

  profile type 8 short 5 random 1 tc 153..400 minimum 1
  write SetMaxLevel 200
  arc 254                     # more than the limit
  query ActualLevel
  write GoToScene 3
  power-cycle

A text of 'bytes' lines alone is a file byte by byte, two hex digits each, and may well be malformed:

  bytes 01 08 0B
"""


def command_lines(first, commands, with_value):
    """Each command as a line begins with it, and its byte, or its sixteen; in the order of the bytes."""
    for name, byte in sorted(commands.bytes.items(), key=lambda item: item[1]):
        words = [first, name]
        words += [commands.indexed[name].upper()] if name in commands.indexed else []
        words += ["VALUE"] if name in with_value else []
        last = f"..{byte + ROW - 1}" if name in commands.indexed else ""
        yield f"{' '.join(words):<36}{byte}{last}"


def colour_value_lines():
    """Each colour value as a line begins with it, its id, and what a gear needs for it."""
    for name, value in COLOUR_VALUES.items():
        yield f"{f'colour-value {name}':<36}{value:<5}needs {NEEDS[value]}"


def word_list():
    """Every name that stands for a byte."""
    writes, queries = command_lines("write", WRITES, STORES_DTR0), command_lines("query", QUERIES, ())
    return "".join(line + "\n" for line in [*writes, *queries, *colour_value_lines()])
