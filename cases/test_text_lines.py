"""Texts that begin with no line of a trace."""
import unittest

from cases import run

# The line feed is missing, or comes too early.
TORN = [
    b"", b"end", b"\n", b"\nend\n", b"ask 1 1 r\n X\n",
]

# What is no word, or the wrong one.
WORDS = [
    b"End\n", b"en\n", b"ends\n", b"end \n", b" end\n", b"end\r\n", b"end\x00\n", b"\xffend\n", b"trace 4 2 0\n",
    b"trace 0 2 0\n", b"trace 12 2 0\n", b"trace 01 2 0\n", b"trace\t1 2 0\n", b"trace 2 0\n", b"asks 1 1 r X\n",
    b"deliver 1 2 r X 1\n", b"deliver answer 1 2 r X 1\n", b"drop reply 2 1 r 1\n", b"reply 2 1 r 1\n", b"repeat 1 2 r X 1\n",
    b"repeats request 1 2 r X 1\n", b"repeat answer 1 2 r X 1\n",
]

# Fields are missing, left over, or not one space apart.
FIELDS = [
    b"ask 1 1 r\n", b"ask 1 1 r X 1\n", b"ask 1 1 r X \n", b"ask  1 1 r X\n", b"ask 1  1 r X\n", b"ask 1\t1 r X\n",
    b"ask 1 1 r X\r\n", b"ask 1 1  X\n", b"release 1 1 r X\n", b"deliver request 1 2 r 1\n", b"deliver reply 2 1 r X 1\n",
    b"repeat request 1 2 r 1\n", b"repeat reply 2 1 r X 1\n", b"enter 1 1 r X\n", b"enter 1 1 r X 1 1\n", b"trace 1 2\n",
    b"trace 1 2 0 0\n",
]

# Numbers out of their ranges, or not as they are written.
NUMBERS = [
    b"ask 0 1 r X\n", b"ask 65 1 r X\n", b"ask 01 1 r X\n", b"ask +1 1 r X\n", b"ask -1 1 r X\n", b"ask 1 4294967296 r X\n",
    b"ask 1 00 r X\n", b"ask 1 1x r X\n", b"ask 1 18446744073709551617 r X\n", b"trace 1 0 0\n", b"trace 1 17 0\n",
    b"trace 1 64 0\n", b"trace 2 0 0\n", b"trace 2 65 0\n", b"trace 2 016 0\n", b"trace 1 2 18446744073709551616\n",
    b"trace 1 2 36893488147419103232\n", b"deliver reply 2 0 r 1\n", b"deliver reply 2 65 r 1\n", b"deliver reply 2 1 r 0\n",
    b"deliver reply 2 1 r 18446744073709551616\n", b"enter 1 1 r X 0\n", b"enter 1 1 r X 18446744073709551616\n",
    b"trace 1 2 00\n", b"deliver request 0 1 r X 1\n", b"deliver request 65 1 r X 1\n", b"deliver reply 2 1 r 01\n",
    b"repeat request 1 65 r X 1\n", b"repeat reply 2 1 r 0\n",
]

# No names, and no modes.
NAMES = [
    b"ask 1 1 r/s X\n", b"ask 1 1 r\x00 X\n", b"ask 1 1 \xc3\xa9 X\n", b"ask 1 1 abcdefghijklmnopqrstuvwxyz0123456 X\n",
    b"ask 1 1 r x\n", b"ask 1 1 r XS\n", b"ask 1 1 r I\n", b"ask 1 1 r SI\n", b"ask 1 1 r XI\n", b"ask 1 1 r SIXX\n",
    b"ask 1 1 r six\n", b"ask 1 1 r S IX\n",
]

# Lines of version 2 that version 1 does not have.
NEWER = [
    b"ask 17 1 r X\n", b"ask 64 1 r X\n", b"ask 1 1 r IS\n", b"ask 1 1 r IX\n", b"ask 1 1 r SIX\n", b"release 17 1 r\n",
    b"deliver request 17 1 r X 1\n", b"deliver request 1 17 r X 1\n", b"deliver request 1 2 r IX 1\n",
    b"deliver reply 17 1 r 1\n", b"lose request 1 2 r IS 1\n", b"lose reply 1 17 r 1\n", b"repeat request 1 2 r X 1\n",
    b"repeat reply 2 1 r 1\n", b"request 17 1 r X 1\n", b"request 1 1 r SIX 1\n", b"enter 17 1 r X 1\n", b"leave 1 1 r IX 1\n",
]

# The first line of a trace of each version, with as many nodes as there may be.
FIRST, SECOND = b"trace 1 16 0\n", b"trace 2 64 0\n"
# What `ra check` says of a text of which the first or the second line is none.
FIRST_WRONG, SECOND_WRONG = (3, b"invalid 1 Line\n"), (3, b"invalid 2 Line\n")


def verdict_on(trace):
    """Returns the status and standard output of `ra check`."""
    return run("check", trace)[:2]


class Lines(unittest.TestCase):
    def assert_no_line(self, line):
        """Asserts that no line begins a text, neither as the first one nor after the first one of each version."""
        with self.subTest(line[:64]):
            self.assertEqual(FIRST_WRONG, verdict_on(line))
            self.assertEqual(SECOND_WRONG, verdict_on(FIRST + line))
            self.assertEqual(SECOND_WRONG, verdict_on(SECOND + line))

    def test_words_are_apart_by_one_space_and_end_with_a_line_feed(self):
        for line in [*TORN, *WORDS, *FIELDS]:
            self.assert_no_line(line)

    def test_numbers_names_and_modes_are_as_they_are_written(self):
        for line in [*NUMBERS, *NAMES]:
            self.assert_no_line(line)

    def test_version_1_has_fewer_nodes_and_modes_and_no_repeats(self):
        """Each begins with a line of version 2 and with none of version 1. None is a whole trace."""
        for line in NEWER:
            with self.subTest(line):
                self.assertEqual(SECOND_WRONG, verdict_on(FIRST + line))
                status, output = verdict_on(SECOND + line)
                self.assertEqual((3, b"invalid"), (status, output.split(b" ")[0]))
                self.assertNotEqual(SECOND_WRONG, (status, output))

    def test_a_long_line_is_refused(self):
        for words in [b"", b"ask ", b"trace 1 2 ", b"ask 1 1 "]:
            for byte in [b"1", b" ", b"a"]:
                self.assert_no_line(words + 100_000 * byte + b"\n")
