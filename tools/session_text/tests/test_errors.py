"""Every error in a text, with its line, its word and what is wanted instead."""
import unittest

from . import done
from .. import text
from ..line import TextError

STEP_WORDS = (
    "arc, write, query, read, write-memory, colour-value, tc-limit, tc-step, stage-tc, activate, power-cycle, "
    "copy-report, features, step, bytes"
)
ITEMS = "type, short, random, tc, limits, channels, minimum, xy, adjustable, holds-dtr0, no-indicator"
LISTED = "a name is wanted ('session-text words' lists them)"
PAIR = "COOLEST..WARMEST, as in 153..400"

# Second lines of a text whose first is 'profile type 8', and what is said of them.
STEPS = [
    ("wirte Off", f"'wirte' is not the first word of a line: one of profile, {STEP_WORDS}; perhaps write is meant"),
    ("7", f"'7' is not the first word of a line: one of profile, {STEP_WORDS}"),
    ("arc", "after 'arc' a level is wanted: a number from 0 to 255"),
    ("arc 256", "'256' is not a level: a number from 0 to 255"),
    ("arc full", "'full' is not a level: a number from 0 to 255"),
    ("arc -1", "'-1' is not a level: a number from 0 to 255"),
    ("arc 1_0", "'1_0' is not a level: a number from 0 to 255"),
    ("arc 0x", "'0x' is not a level: a number from 0 to 255"),
    ("arc 0x100", "'0x100' is not a level: a number from 0 to 255"),
    ("arc 99999999999", "'99999999999' is not a level: a number from 0 to 255"),
    ("arc 1 2", "'2' is a word too many: after '1' the line ends"),
    ("write", f"after 'write' a write is wanted: {LISTED}"),
    ("write SetMax 1", f"'SetMax' is not a write: {LISTED}; perhaps SetMaxLevel is meant"),
    ("write off", f"'off' is not a write: {LISTED}; perhaps Off is meant"),
    ("write 42 200", f"'42' is not a write: {LISTED}"),
    ("write SetMaxLevel", "after 'SetMaxLevel' a value (DTR0) is wanted: a number from 0 to 255"),
    ("write SetScene 3", "after '3' a value (DTR0) is wanted: a number from 0 to 255"),
    ("write Off x", "'x' is not a value (DTR0): a number from 0 to 255"),
    ("write Off 1 2", "'2' is a word too many: after '1' the line ends"),
    ("write GoToScene", "after 'GoToScene' a scene is wanted: a number from 0 to 15"),
    ("write GoToScene 16", "'16' is not a scene: a number from 0 to 15"),
    ("write AddToGroup 16", "'16' is not a group: a number from 0 to 15"),
    ("query", f"after 'query' a query is wanted: {LISTED}"),
    ("query Actual", f"'Actual' is not a query: {LISTED}; perhaps ActualLevel is meant"),
    ("query SceneLevel 16", "'16' is not a scene: a number from 0 to 15"),
    ("query Status 1", "'1' is a word too many: after 'Status' the line ends"),
    ("read 1", "after '1' an offset is wanted: a number from 0 to 255"),
    ("read x 1", "'x' is not a bank: a number from 0 to 255"),
    ("write-memory 1", "after '1' an offset is wanted: a number from 0 to 255"),
    ("write-memory 1 2", "after '2' a value is wanted: a number from 0 to 255"),
    ("colour-value tcc", "'tcc' is not a colour value: a name ('session-text words' lists them) or a number from 0 to "
     "255; perhaps tc is meant"),
    ("colour-value 256", "'256' is not a colour value: a number from 0 to 255"),
    ("tc-limit cool 1", "'cool' is not a Tc limit: coolest, warmest, physical-coolest, physical-warmest or a number "
     "from 0 to 255; perhaps coolest is meant"),
    ("tc-limit 256 1", "'256' is not a Tc limit: a number from 0 to 255"),
    ("tc-limit coolest 65536", "'65536' is not a Tc: a number from 0 to 65535"),
    ("tc-step 1", "'1' is not a direction: cooler or warmer"),
    ("tc-step", "after 'tc-step' a direction is wanted: cooler or warmer"),
    ("stage-tc 0x10000", "'0x10000' is not a Tc: a number from 0 to 65535"),
    ("activate now", "'now' is a word too many: after 'activate' the line ends"),
    ("power-cycle 1", "'1' is a word too many: after 'power-cycle' the line ends"),
    ("copy-report 1", "'1' is a word too many: after 'copy-report' the line ends"),
    ("features on", "'on' is not a features byte: a number from 0 to 255"),
    ("step 256 0 0 0", "'256' is not a kind: a number from 0 to 255"),
    ("step 1 2 3", "after '3' byte c is wanted: a number from 0 to 255"),
    ("step 1 2 3 4 5", "'5' is a word too many: after '4' the line ends"),
    ("bytes 00", "'bytes' stands in a session: a text has a profile and steps, or 'bytes' lines only"),
]

# What follows 'profile ' in the second line of a text whose first is a comment.
PROFILES = [
    ("", f"after 'profile' an item of a profile is wanted: {ITEMS}"),
    ("types 8", f"'types' is not an item of a profile: {ITEMS}; perhaps type is meant"),
    ("type", "after 'type' a device type is wanted: a number from 0 to 255, or none"),
    ("type six", "'six' is not a device type: a number from 0 to 255, or none"),
    ("type 6 256", "'256' is not a device type: a number from 0 to 255, or none"),
    ("type 6, 8", "'6,' is not a device type: a number from 0 to 255, or none"),
    ("type 1 2 3 4 5 6 7 8 9 10 11 12 13 14", "'14' is a device type too many: a file has at most 13"),
    ("type 6 type 8", "'type' is said twice: a profile says it once"),
    ("xy xy", "'xy' is said twice: a profile says it once"),
    ("short 64", "'64' is not a short address: a number from 0 to 63, or none"),
    ("random 16777216", "'16777216' is not a random address: a number from 0 to 16777215"),
    ("channels 7", "'7' is not a number of channels: a number from 0 to 6"),
    ("minimum 0", "'0' is not a physical minimum: a number from 1 to 254"),
    ("minimum 255", "'255' is not a physical minimum: a number from 1 to 254"),
    ("tc", f"after 'tc' a pair of Tc limits is wanted: {PAIR}"),
    ("tc 153", f"'153' is not a pair of Tc limits: {PAIR}"),
    ("tc 153-400", f"'153-400' is not a pair of Tc limits: {PAIR}"),
    ("tc 1..2..3", f"'1..2..3' is not a pair of Tc limits: {PAIR}"),
    ("tc 153..", f"'153..' is not a pair of Tc limits: {PAIR}"),
    ("tc 400..153", "'400..153' is not a pair of Tc limits: the coolest limit, the smaller number, comes first"),
    ("limits 1..65535", "'1..65535' is not a pair of Tc limits: the warmest limit is at most 65534"),
    ("limits 1..2 tc 1..2", "'tc' says the limits twice: 'tc' and 'limits' exclude each other"),
    ("tc 1..2 limits 1..2", "'limits' says the limits twice: 'tc' and 'limits' exclude each other"),
    ("short 5", "'profile' says no device type: 'type NUMBER..' or 'type none' is wanted"),
]

# Whole texts, the line that is wrong, and what is said of it.
TEXTS = [
    (b"", 1, "the text is empty: a 'profile' line is wanted"),
    (b"# only this\n\n", 1, "the text is empty: a 'profile' line is wanted"),
    (b"\narc 1\n", 2, "'arc' comes too early: a 'profile' line is wanted before the first step"),
    (b"profile type 6\narc 1\nprofile short 5", 3,
     "'profile' stands behind a step: the profile comes before the first step"),
    (b"profile type 6\nprofile short 5\nprofile type 8", 3, "'type' is said twice: a profile says it once"),
    (b"profile short 5\n\nprofile random 1\narc 1\narc x", 3,
     "'profile' says no device type: 'type NUMBER..' or 'type none' is wanted"),
    (b"profile type 6\n" + b"activate\n" * 4096 + b"# one more\nactivate\n", 4099,
     "'activate' is a step too many: a file has at most 4096"),
    (b"bytes 00\n\nprofile type 6", 3, "'profile' stands in a text of bytes: all its lines begin with 'bytes'"),
    (b"bytes 00\nbytes 0x10", 2, "'0x10' is not a byte: two hex digits, as in 0E"),
    (b"bytes 0E F", 1, "'F' is not a byte: two hex digits, as in 0E"),
    (b"profile type 6\n\narc \xff", 3, "this is no text: it is not UTF-8"),
    (b"profile type 6\narc x\narc y", 2, "'x' is not a level: a number from 0 to 255"),
]


class Errors(unittest.TestCase):
    def refused(self, written, line, message):
        with self.assertRaises(TextError, msg=written) as caught:
            text.pack(written)
        self.assertEqual(str(caught.exception), f"line {line}: {message}")
        done["errors"] += 1

    def test_steps(self):
        for words, message in STEPS:
            self.refused(f"profile type 8\n{words} # why\nactivate".encode(), 2, message)

    def test_profiles(self):
        for words, message in PROFILES:
            self.refused(f"# a gear\nprofile {words}\nactivate".encode(), 2, message)

    def test_texts(self):
        for written, line, message in TEXTS:
            self.refused(written, line, message)
