"""The examples: each text packs, its comments say what its lines have, and its steps stand beside them."""
import textwrap
import unittest

from . import ROOT, done
from .files import EXAMPLE
from .. import text
from ..beside import beside
from ..session import Malformed
from ..text import BYTES, PROFILE


def told(written):
    """The comment beside each step of a text."""
    steps = [line for line in written.splitlines() if line.split("#")[0].strip()]
    return [line.partition("#")[2].strip() for line in steps if line.split()[0] not in (PROFILE, BYTES)]


class Examples(unittest.TestCase):
    def setUp(self):
        self.examples = sorted((ROOT / "examples").glob("*.session"))

    def test_there_are_some_and_each_has_its_lines(self):
        self.assertTrue(self.examples)
        for example in self.examples:
            lines = example.with_suffix(".lines").read_text().splitlines()
            comments = told(example.read_text())
            self.assertEqual(lines[:-1], comments, example.name)
            self.assertRegex(lines[-1], "^end " if comments else "^bad ")
            done["examples"] += 1

    def test_the_steps_beside_the_lines_make_the_session_again(self):
        for example in self.examples:
            file, lines = text.pack(example.read_bytes()), example.with_suffix(".lines").read_bytes()
            *rows, last = beside(file, lines).splitlines()
            self.assertEqual([row[:12].rstrip() for row in rows] + [last], lines.decode().splitlines(), example.name)
            if last.startswith("end "):
                profile = text.show(file).splitlines()[0]
                self.assertEqual(text.pack("\n".join([profile, *(row[12:] for row in rows)]).encode()), file)

    def test_the_tour_shows_the_first_as_it_is(self):
        shown = beside(EXAMPLE, (ROOT / "examples/first.lines").read_bytes())
        self.assertIn(textwrap.indent(shown, "    "), (ROOT / "docs/TOUR.md").read_text())

    def test_the_first_is_document_01s(self):
        self.assertEqual(text.pack((ROOT / "examples/first.session").read_bytes()), EXAMPLE)

    def test_the_malformed_one_has_the_fault_that_its_line_names(self):
        with self.assertRaises(Malformed) as caught:
            text.show(text.pack((ROOT / "examples/malformed.session").read_bytes()))
        line = (ROOT / "examples/malformed.lines").read_text()
        self.assertEqual(line, f"bad {caught.exception.offset}\n")
