"""Every well-formed file has a text, and the text makes the same file again."""
import unittest

from . import done
from .files import EXAMPLE, EXAMPLE_TEXT, file_of, random_files, steps_of_every_byte
from .. import text

MOST_STEPS = 4096


class RoundTrips(unittest.TestCase):
    def there_and_back(self, file):
        shown = text.show(file)
        self.assertEqual(text.pack(shown.encode()), file, shown)
        done["files"] += 1
        done["steps"] += shown.count("\n") - 1

    def test_document_01s_example(self):
        self.assertEqual(text.pack(EXAMPLE_TEXT.encode()), EXAMPLE)
        self.assertEqual(text.show(EXAMPLE), EXAMPLE_TEXT)

    def test_every_byte_of_every_kind(self):
        steps = list(steps_of_every_byte())
        for at in range(0, len(steps), MOST_STEPS):
            self.there_and_back(file_of(steps[at:at + MOST_STEPS]))

    def test_random_files(self):
        for file in random_files(1, 4000):
            self.there_and_back(file)

    def test_the_smallest_and_the_longest(self):
        self.there_and_back(file_of([], types=b""))
        self.there_and_back(file_of([bytes([200, 201, 202, 203])] * MOST_STEPS, types=bytes(range(13))))

    def test_a_text_has_a_normal_form(self):
        loose = (
            "\ufeff# a comment\r\n\r\n  profile minimum 0x01 tc 0x99..400\r\nprofile type 0x8 random 1 # more\n"
            "profile short 05\nwrite\tSetMaxLevel 0xC8\narc 0xFe#\nstep 2 160 0 0\n\nquery Status\nstep 10 0 0 0"
        )
        self.assertEqual(text.show(text.pack(loose.encode())), EXAMPLE_TEXT)
