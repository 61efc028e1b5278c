"""The program itself: what it reads, what it writes, and its exit status."""
import pathlib
import subprocess
import tempfile
import unittest

from . import ROOT, done
from .files import EXAMPLE, EXAMPLE_TEXT, file_of

PROGRAM = str(ROOT / "tools/session-text")

# The steps of a session, what was printed for it, and both side by side. No gear gives the last two '~', and nothing
# is said of them.
STEPS = "00FE0000 05020000 05000000 05090100 053F0000 05520000 02900000"
LINES = "1 .\n2 65535\n3 ~\n4 ~\n5 -\n6 ~\n7 ~\nend 254 1 254\n"
BESIDE = """\
1 .         arc 254
2 65535     colour-value tc
3 ~         colour-value x                  # this gear has no xy colour
4 ~         step 5 9 1 0                    # this gear has no colour channels
5 -         colour-value 63
6 ~         colour-value primary-count
7 ~         query Status
end 254 1 254
"""


def run(*words, given=b""):
    ended = subprocess.run([PROGRAM, *words], input=given, stdout=subprocess.PIPE, stderr=subprocess.PIPE)
    done["runs of the program"] += 1
    return ended.returncode, ended.stdout, ended.stderr.decode()


class CommandLine(unittest.TestCase):
    def test_pack_and_show(self):
        for words in (["pack"], ["pack", "-"]):
            self.assertEqual(run(*words, given=EXAMPLE_TEXT.encode()), (0, EXAMPLE, ""))
        for words in (["show"], ["show", "-"]):
            self.assertEqual(run(*words, given=EXAMPLE), (0, EXAMPLE_TEXT.encode(), ""))

    def test_files_by_name(self):
        with tempfile.TemporaryDirectory() as folder:
            written, packed = pathlib.Path(folder, "a.session"), pathlib.Path(folder, "a.bin")
            written.write_text(EXAMPLE_TEXT)
            packed.write_bytes(EXAMPLE)
            self.assertEqual(run("pack", str(written)), (0, EXAMPLE, ""))
            self.assertEqual(run("show", str(packed)), (0, EXAMPLE_TEXT.encode(), ""))
            written.write_text("profile type 8\narc x\n")
            message = f"session-text: {written}, line 2: 'x' is not a level: a number from 0 to 255\n"
            self.assertEqual(run("pack", str(written)), (1, b"", message))

    def test_beside(self):
        steps = [bytes.fromhex(step) for step in STEPS.split()]
        with tempfile.TemporaryDirectory() as folder:
            packed, printed = f"{folder}/a.bin", f"{folder}/a.lines"
            for file, lines, wanted in [
                (file_of(steps), LINES, BESIDE),
                (file_of(steps[:2]), "1 .\n", "1 .         arc 254\n            colour-value tc\n"),
                (EXAMPLE + b"\0", "bad 36\n", "bad 36\n"),
            ]:
                pathlib.Path(packed).write_bytes(file)
                pathlib.Path(printed).write_text(lines)
                self.assertEqual(run("beside", packed, printed), (0, wanted.encode(), ""))
            message = f"session-text: {folder}/none can't be read: No such file or directory\n"
            self.assertEqual(run("beside", packed, f"{folder}/none"), (2, b"", message))

    def test_errors_leave_the_output_empty(self):
        message = "session-text: standard input, line 3: 'y' is not a level: a number from 0 to 255\n"
        self.assertEqual(run("pack", given=b"profile type 8\narc 1\narc y\n"), (1, b"", message))
        message = "session-text: standard input, malformed at offset 36: the file should end here\n"
        self.assertEqual(run("show", given=EXAMPLE + bytes(100000)), (1, b"", message))

    def test_wrong_use(self):
        absent = "/nowhere/at all"
        for words in ([], ["unpack"], ["pack", "a", "b"], ["show", "--x"], ["pack", absent], ["beside", absent, "a"]):
            status, output, message = run(*words)
            self.assertEqual((status, output), (2, b""), words)
            self.assertIn("session-text: ", message)

    def test_help(self):
        for command in ([], ["pack"], ["show"], ["beside"], ["words"]):
            status, output, message = run(*command, "--help")
            self.assertEqual((status, message), (0, ""))
            self.assertIn(b"session-text", output)
        self.assertIn(b"write SetMaxLevel VALUE", run("words")[1])
