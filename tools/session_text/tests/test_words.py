"""The words mean the bytes that document 01 says. What is shown is compared too, so both ways are held."""
import re
import unittest

from . import ROOT, done
from .files import file_of
from .. import text
from ..language import LANGUAGE, word_list
from ..names import LACKS, QUERIES, WRITES
from ..steps import BY_WORD

# Kind, a, b, c of document 01 ('Kinds') and the line that stands for them.
STEPS = [
    ("arc 254", (0, 254, 0, 0)),
    ("write Off", (1, 0, 0, 0)),
    ("write Off 7", (1, 0, 7, 0)),
    ("write SetMaxLevel 200", (1, 42, 200, 0)),
    ("write SetMinLevel 0", (1, 43, 0, 0)),
    ("write GoToScene 3", (1, 19, 0, 0)),
    ("write GoToScene 3 9", (1, 19, 9, 0)),
    ("write SetScene 15 100", (1, 79, 100, 0)),
    ("write SetScene 0 0", (1, 64, 0, 0)),
    ("write RemoveScene 2", (1, 82, 0, 0)),
    ("write AddToGroup 5", (1, 101, 0, 0)),
    ("write RemoveFromGroup 15", (1, 127, 0, 0)),
    ("query Status", (2, 144, 0, 0)),
    ("query ActualLevel", (2, 160, 0, 0)),
    ("query SceneLevel 3", (2, 179, 0, 0)),
    ("query NextDeviceType", (2, 167, 0, 0)),
    ("read 1 2", (3, 1, 2, 0)),
    ("write-memory 1 2 85", (4, 1, 2, 85)),
    ("colour-value tc", (5, 2, 0, 0)),
    ("colour-value warmest", (5, 130, 0, 0)),
    ("colour-value staged-tc", (5, 194, 0, 0)),
    ("colour-value staged-type", (5, 208, 0, 0)),
    ("colour-value report-control", (5, 239, 0, 0)),
    ("colour-value 63", (5, 63, 0, 0)),
    ("tc-limit coolest 300", (6, 0, 1, 44)),
    ("tc-limit warmest 250", (6, 1, 0, 250)),
    ("tc-limit physical-coolest 65535", (6, 2, 255, 255)),
    ("tc-limit physical-warmest 1", (6, 3, 0, 1)),
    ("tc-limit 4 256", (6, 4, 1, 0)),
    ("tc-step cooler", (7, 0, 0, 0)),
    ("tc-step warmer", (7, 1, 0, 0)),
    ("stage-tc 300", (8, 0, 1, 44)),
    ("activate", (9, 0, 0, 0)),
    ("power-cycle", (10, 0, 0, 0)),
    ("copy-report", (11, 0, 0, 0)),
    ("features 1", (12, 1, 0, 0)),
    # What has no words: a byte that is no command, a kind that is none, an ignored byte that is not 0.
    ("step 1 9 0 0", (1, 9, 0, 0)),
    ("step 2 152 0 0", (2, 152, 0, 0)),
    ("step 200 1 2 3", (200, 1, 2, 3)),
    ("step 0 254 1 0", (0, 254, 1, 0)),
    ("step 1 42 200 1", (1, 42, 200, 1)),
    ("step 7 2 0 0", (7, 2, 0, 0)),
    ("step 8 1 1 44", (8, 1, 1, 44)),
]

# Part 209's table 11, the ids that have names: what a gear needs for their values.
NEEDS = {
    "needs xy": [0, 1, 192, 193, 224, 225],
    "needs Tc": [2, *range(128, 132), 194, 226],
    "needs a channel": [*range(9, 16), *range(201, 208), *range(233, 240)],
    "needs nothing": [82, 208, 240],
}

# Profile bytes of document 01 (section b) and the items that stand for them, after 'profile type 6 '.
PROFILES = [
    ("short none random 0 limits 0..0 minimum 1", "FF 000000 00 00 0000 0000 01"),
    ("short 63 random 66051 limits 258..772 minimum 254", "3F 010203 00 00 0102 0304 FE"),
    ("short 0 random 16777215 tc 0..65534 minimum 1", "00 FFFFFF 01 00 0000 FFFE 01"),
    ("short 0 random 0 limits 1..2 xy channels 6 minimum 9", "00 000000 02 06 0001 0002 09"),
    ("short 0 random 0 limits 1..2 adjustable minimum 9", "00 000000 04 00 0001 0002 09"),
    ("short 0 random 0 limits 1..2 holds-dtr0 minimum 9", "00 000000 08 00 0001 0002 09"),
    ("short 0 random 0 limits 1..2 no-indicator minimum 9", "00 000000 10 00 0001 0002 09"),
    ("short 0 random 0 tc 1..2 xy adjustable holds-dtr0 no-indicator minimum 9", "00 000000 1F 00 0001 0002 09"),
]


class Words(unittest.TestCase):
    def both_ways(self, lines, file):
        self.assertEqual(text.pack(lines.encode()), file, lines)
        self.assertEqual(text.show(file), lines)
        done["lines of words"] += 1

    def test_steps(self):
        profile = text.show(file_of([]))
        for words, step in STEPS:
            self.both_ways(f"{profile}{words}\n", file_of([bytes(step)]))

    def test_profiles(self):
        for words, data in PROFILES:
            self.both_ways(f"profile type 6 {words}\n", file_of([], b"\x06", bytes.fromhex(data)))
        self.both_ways("profile type none short 5 random 1 tc 153..400 minimum 1\n", file_of([], b""))
        self.both_ways("profile type 255 6 6 short 5 random 1 tc 153..400 minimum 1\n", file_of([], b"\xff\x06\x06"))

    def test_what_a_profile_leaves_out(self):
        data = bytes.fromhex("FF 000000 00 00 0000 0000 01")
        self.assertEqual(text.pack(b"profile type 6"), file_of([], b"\x06", data))

    def test_a_text_of_bytes(self):
        self.assertEqual(text.pack(b"# not a session\nbytes 0E ff # two\n\nbytes\nbytes 00"), b"\x0e\xff\x00")
        self.assertEqual(text.pack(b"bytes"), b"")

    def test_commands_are_those_of_the_stand_in(self):
        """oracle/standins/standard.rs has document 01's names and bytes, for the Rust."""
        source = (ROOT / "oracle/standins/standard.rs").read_text()
        found = re.findall(r"(\d+)(?:\.\.=(\d+))? => Self::(Query)?(\w+)", source)
        for commands, is_query in ((WRITES, ""), (QUERIES, "Query")):
            wanted = {name: (int(low), int(high or low)) for low, high, query, name in found if query == is_query}
            named = {}
            for byte, (name, _) in sorted(commands.by_byte.items()):
                named[name] = (named.get(name, (byte,))[0], byte)
            self.assertEqual(named, wanted)
            done["commands"] += len(named)

    def test_the_help_has_every_word(self):
        for word in BY_WORD:
            self.assertRegex(LANGUAGE, rf"(?m)^  {word}\b")
        listed = word_list().splitlines()
        self.assertIn("write SetScene SCENE VALUE          64..79", listed)
        self.assertIn("query Status                        144", listed)
        self.assertIn("colour-value staged-tc              194  needs Tc", listed)

    def test_each_colour_value_has_its_need(self):
        listed = re.findall(r"(?m)^colour-value \S+ +(\d+) +(.+)$", word_list())
        wanted = {str(value): need for need, values in NEEDS.items() for value in values}
        self.assertEqual(sorted(listed), sorted(wanted.items()))
        done["colour values"] += len(listed)

    def test_the_help_says_why_a_colour_value_is_absent(self):
        words = "prints ~ where this gear can't have the value, and - where no gear has the id"
        self.assertIn(words, " ".join(LANGUAGE.split()))

    def test_a_host_has_the_same_words(self):
        for name in ("host/include/dali_gear.h", "host/rust/dali_gear.rs"):
            source = (ROOT / name).read_text()
            for words in LACKS.values():
                self.assertEqual(source.count(f'"{words}"'), 1, f"{name}: {words}")
