"""Traces that are changed at a line, cut off after each byte, or written in version 1."""
import unittest

from cases import TEXTS, run

# Changes of a trace: its name, whether lines come before the line with this number or instead of it, the number, the lines, and
# which line is the first wrong one then.
ENDS = [
    ("TRACE_ONE_LOCK", "instead", 1, "", 1),
    ("TRACE_ONE_LOCK", "before", 2, "trace 1 2 0\n", 2),
    ("TRACE_ONE_LOCK", "before", 2, "trace 2 2 0\n", 2),
    # A mark is due here.
    ("TRACE_ONE_LOCK", "before", 3, "trace 1 2 0\n", 3),
    ("TRACE_ONE_LOCK", "before", 3, "trace 2 2 0\n", 3),
    ("TRACE_TWO_LOCKS", "instead", 20, "", 20),
    ("TRACE_ONE_LOCK", "instead", 9, "end\nx", 10),
    ("TRACE_ONE_LOCK", "instead", 9, "end\nend\n", 10),
    ("TRACE_ONE_LOCK", "before", 4, "\n", 4),
]

NO_LINES = [
    ("TRACE_ONE_LOCK", "instead", 4, "\n", 4),
    ("TRACE_ONE_LOCK", "instead", 4, "deliver request 1 2 r X 1\r\n", 4),
    ("TRACE_ONE_LOCK", "instead", 4, "deliver\trequest 1 2 r X 1\n", 4),
    ("TRACE_ONE_LOCK", "instead", 4, "deliver  request 1 2 r X 1\n", 4),
    ("TRACE_ONE_LOCK", "instead", 4, "deliver request 1 2 r X 1 \n", 4),
    ("TRACE_ONE_LOCK", "instead", 4, "deliver request 1 2 r\u0000 X 1\n", 4),
    ("TRACE_ONE_LOCK", "instead", 4, "deliver request 1 2 \u00e9 X 1\n", 4),
    ("TRACE_ONE_LOCK", "instead", 4, "deliver request 1 2 r X 01\n", 4),
    ("TRACE_ONE_LOCK", "instead", 4, "deliver request 1 65 r X 1\n", 4),
    ("TRACE_ONE_LOCK", "instead", 4, "deliver request 1 2 r X 18446744073709551616\n", 4),
]

WRONG_MARKS = [
    # Lines 5 and 6 are exchanged.
    ("TRACE_ONE_LOCK", "instead", 5, "enter 1 1 r X 1\ndeliver reply 2 1 r 1\n", 5),
    # No mark is due.
    ("TRACE_ONE_LOCK", "before", 5, "request 2 1 q X 1\n", 5),
    # Another mark is due.
    ("TRACE_ONE_LOCK", "instead", 3, "request 1 1 r X 2\n", 3),
    ("TRACE_ONE_LOCK", "instead", 3, "request 1 1 r S 1\n", 3),
    # A mark is missing, in front of a step that the world takes and of ones that it refuses, and in front of the last line.
    ("TRACE_ONE_LOCK", "instead", 3, "", 3),
    ("TRACE_ONE_LOCK", "instead", 3, "ask 3 1 r X\n", 3),
    ("TRACE_ONE_LOCK", "instead", 3, "deliver reply 1 2 r 1\n", 3),
    ("TRACE_ONE_LOCK", "instead", 8, "", 8),
    ("TRACE_TWO_LOCKS", "instead", 12, "", 12),
]

REFUSED_BY_THE_TABLE = [
    ("TRACE_TWO_LOCKS", "before", 13, "enter 2 2 r X 1\n", 13),
    # Another mark is due.
    ("TRACE_ONE_LOCK", "instead", 3, "leave 1 1 r X 1\n", 3),
    # A mark that came is repeated.
    ("TRACE_ONE_LOCK", "before", 4, "request 1 1 r X 1\n", 4),
]

REFUSED_BY_THE_WORLD = [
    ("TRACE_TWO_LOCKS", "instead", 2, "ask 4 1 r X\n", 2),
    ("TRACE_ONE_LOCK", "before", 4, "ask 1 1 r X\n", 4),
    ("TRACE_ONE_LOCK", "before", 4, "release 1 1 r\n", 4),
    ("TRACE_ONE_LOCK", "before", 4, "release 3 1 r\n", 4),
]

NOT_UNDER_WAY = [
    # A message was delivered already.
    ("TRACE_TWO_LOCKS", "before", 8, "deliver request 1 3 r X 1\n", 8),
    # It was lost.
    ("TRACE_ONE_LOCK", "instead", 4, "lose request 1 2 r X 1\ndeliver request 1 2 r X 1\n", 5),
    # It was never sent, some of them to or from nodes that there are not.
    ("TRACE_ONE_LOCK", "before", 5, "deliver reply 2 1 r 2\n", 5),
    ("TRACE_ONE_LOCK", "before", 5, "deliver reply 3 1 r 1\n", 5),
    ("TRACE_ONE_LOCK", "before", 5, "deliver reply 1 16 r 1\n", 5),
    ("TRACE_ONE_LOCK", "before", 5, "deliver request 2 1 r X 1\n", 5),
    ("TRACE_ONE_LOCK", "before", 5, "deliver request 1 2 r X 1\n", 5),
    ("TRACE_ONE_LOCK", "before", 5, "lose reply 1 2 r 1\n", 5),
    ("TRACE_ONE_LOCK", "before", 5, "lose request 1 3 r X 1\n", 5),
]

# The changes, and the cause for which each line is wrong.
CHANGES = [
    (ENDS, "Line"),
    (NO_LINES, "Line"),
    (WRONG_MARKS, "Marks"),
    (REFUSED_BY_THE_TABLE, "Table"),
    (REFUSED_BY_THE_WORLD, "Refused"),
    (NOT_UNDER_WAY, "NotUnderWay"),
]


def changed(trace, how, number, lines):
    """Returns a trace with these lines before the line with this number, counted from 1, or instead of it."""
    old = trace.splitlines(keepends=True)
    kept = old[number - 1 :] if how == "before" else old[number:]
    return "".join([*old[: number - 1], lines, *kept])


def in_version_1(trace):
    """Returns a trace of version 2 as one of version 1, and any other text as it is."""
    return trace.replace("trace 2 ", "trace 1 ", 1) if trace.startswith("trace 2 ") else trace


class Traces(unittest.TestCase):
    def assert_verdict(self, trace, expected):
        """Asserts the status and standard output of `ra check`."""
        with self.subTest(trace):
            self.assertEqual(expected, run("check", trace.encode())[:2])

    def assert_in_both(self, trace, expected):
        """Asserts the same in version 2, in which the trace is written, and in version 1."""
        self.assert_verdict(trace, expected)
        self.assert_verdict(in_version_1(trace), expected)

    def test_changed_traces_are_wrong_at_the_first_wrong_line(self):
        for changes, cause in CHANGES:
            for name, how, number, lines, wrong in changes:
                trace = changed(TEXTS[name], how, number, lines)
                self.assert_in_both(trace, (3, f"invalid {wrong} {cause}\n".encode()))

    def test_traces_of_version_1_stay_valid(self):
        self.assert_in_both(TEXTS["TRACE_ONE_LOCK"], (0, b"valid\nrequests 1\nmessages 2\n"))
        self.assert_in_both(TEXTS["TRACE_TWO_LOCKS"], (0, b"valid\nrequests 2\nmessages 8\n"))

    def test_a_trace_of_version_2_is_wrong_in_version_1_at_its_first_repeat(self):
        self.assert_verdict(in_version_1(TEXTS["TRACE_REPEATED_REQUEST"]), (3, b"invalid 4 Line\n"))

    def test_no_prefix_of_a_trace_is_valid(self):
        for name in ("TRACE_ONE_LOCK", "TRACE_REPEATED_REQUEST"):
            trace = TEXTS[name]
            for length in range(len(trace)):
                line = trace[:length].count("\n") + 1
                self.assert_verdict(trace[:length], (3, f"invalid {line} Line\n".encode()))
