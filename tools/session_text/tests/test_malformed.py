"""A file that is not well-formed: the offset is document 01's."""
import unittest

from . import done
from .files import EXAMPLE
from .. import text
from ..session import Malformed

REACH = "the coolest limit, and at most 65534 is wanted"

# Where in document 01's example a field is made bad, with what, and the offset that is then wanted. Fields:
# 0 count, 1 type, 2 count, 3 short, 4 random, 7 flags, 8 channels, 9 coolest, 11 warmest, 13 minimum, 14 count.
BAD_FIELDS = [
    (0, "0E", 0, "the count of device types is 14, and 0 to 13 is wanted"),
    (2, "0A", 2, "the length of the profile is 10, and 11 is wanted"),
    (3, "40", 3, "the short address is 64, and 0 to 63 or 255 is wanted"),
    (3, "FE", 3, "the short address is 254, and 0 to 63 or 255 is wanted"),
    (7, "20", 7, "the flags byte is 32, and 0 to 31 is wanted"),
    (8, "07", 8, "the number of channels is 7, and 0 to 6 is wanted"),
    (9, "0191", 11, f"the warmest limit is 400, and at least 401, {REACH}"),
    (9, "FFFF", 11, f"the warmest limit is 400, and at least 65535, {REACH}"),
    (9, "FFFFFFFF", 11, f"the warmest limit is 65535, and at least 65535, {REACH}"),
    (11, "FFFF", 11, f"the warmest limit is 65535, and at least 153, {REACH}"),
    (13, "00", 13, "the physical minimum is 0, and 1 to 254 is wanted"),
    (13, "FF", 13, "the physical minimum is 255, and 1 to 254 is wanted"),
    (14, "1001", 14, "the count of steps is 4097, and 0 to 4096 is wanted"),
    (14, "0004", 32, "the file should end here"),
    (14, "0006", 36, "the file ends where step 6 should go on"),
]


class MalformedFiles(unittest.TestCase):
    def refused(self, file, offset, reason=None):
        with self.assertRaises(Malformed) as caught:
            text.show(file)
        self.assertEqual(caught.exception.offset, offset, file.hex(" "))
        if reason is not None:
            self.assertEqual(str(caught.exception), f"malformed at offset {offset}: {reason}")
        done["malformed files"] += 1

    def test_bad_fields(self):
        for at, data, offset, reason in BAD_FIELDS:
            new = bytes.fromhex(data)
            self.refused(EXAMPLE[:at] + new + EXAMPLE[at + len(new):], offset, reason)

    def test_cut_short(self):
        for length in range(len(EXAMPLE)):
            self.refused(EXAMPLE[:length], length)

    def test_a_field_that_is_cut_off_is_not_judged(self):
        self.refused(EXAMPLE[:11] + b"\x00", 12, "the file ends where the warmest limit should go on")
        self.refused(EXAMPLE[:14] + b"\xff", 15, "the file ends where the count of steps should go on")

    def test_surplus(self):
        self.refused(EXAMPLE + b"\0", 36, "the file should end here")
        self.refused(EXAMPLE + bytes(20000), 36)

    def test_the_lowest_offset_counts(self):
        self.refused(b"\x0e", 0)
        self.refused(EXAMPLE[:3] + b"\x40" + EXAMPLE[4:13] + b"\x00", 3)
