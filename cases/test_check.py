"""Traces that `ra sim` prints, and traces with one line edited, judged by `ra check`."""
import itertools

from cases import TEXTS, RaTest, run
from state_model import CONFLICTS, MODES

# What is expected of the first trace, in either version.
VALID = "valid\nrequests 2\nmessages 8\n"

# Traces, a first line in version 1 for each, and the verdict.
OLDER = [
    ("ONE_CLIENT_TRACE", "trace 1 2 0\n", "valid\nrequests 1\nmessages 2\n"),
    ("TWO_CLIENTS_TRACE", "trace 1 3 0\n", VALID),
    ("LOST_TRACE", "trace 1 2 0\n", "valid\nrequests 1\nmessages 1\n"),
]

# A line of the two clients' trace, counted from 1, a text that comes before it, whether the line stays, and the verdict.
EDITS = [
    (13, "enter 2 2 r X 1\n", True, "invalid 13 Table\n"),
    (12, "", False, "invalid 12 Marks\n"),
    (8, "deliver request 1 3 r X 1\n", True, "invalid 8 NotUnderWay\n"),
    (2, "ask 4 1 r X\n", False, "invalid 2 Refused\n"),
    (20, "", False, "invalid 20 Line\n"),
]

POLICIES = [
    "sim --trace --policy oldest",
    "sim --trace --policy newest",
    "sim --trace --policy seeded --seed 1",
    "sim --trace --policy seeded --seed 99",
    "sim --trace --policy faulty --seed 1",
]

# Scripts, and the verdict on the trace of each of their runs.
TRACED = [
    ("TWO_CLIENTS", VALID),
    ("ONE_ORDER", "valid\nrequests 4\nmessages 8\n"),
    ("A_WRITER", "valid\nrequests 3\nmessages 12\n"),
    ("A_QUEUE", "valid\nrequests 2\nmessages 4\n"),
    ("A_TABLE", "valid\nrequests 5\nmessages 20\n"),
]


def edited(trace, place, before, stays):
    """Returns a trace with a text before the line at this place, which stays or does not."""
    lines = trace.splitlines(keepends=True)
    lines[place - 1] = before + (lines[place - 1] if stays else "")
    return "".join(lines)


class Traces(RaTest):
    def expect_valid(self, words, script, status, verdict):
        """Fails unless a command ends with this status, and prints a trace with this verdict."""
        with self.subTest(words=words, script=script):
            given, trace, note = run(words, TEXTS[script].encode())
            self.assertEqual(given, status, note)
            self.expect(words="check", input=trace, output=verdict)

    def test_the_same_traces_are_valid_in_version_1(self):
        for trace, line, verdict in OLDER:
            with self.subTest(trace=trace):
                self.expect(words="check", input=edited(TEXTS[trace], 1, line, False), output=verdict)

    def test_the_first_wrong_line_is_named_in_both_versions(self):
        trace = TEXTS["TWO_CLIENTS_TRACE"]
        for version, whole in ((2, trace), (1, edited(trace, 1, "trace 1 3 0\n", False))):
            for place, before, stays, verdict in EDITS:
                with self.subTest(version=version, place=place):
                    self.expect(words="check", input=edited(whole, place, before, stays), status=3, output=verdict)

    def test_each_trace_that_sim_prints_is_valid(self):
        for script, verdict in TRACED:
            for words in POLICIES:
                self.expect_valid(words, script, 0, verdict)

    def test_the_trace_of_a_deadlock_is_valid(self):
        self.expect_valid("sim --trace", "A_DEADLOCK", 3, "valid\nrequests 4\nmessages 6\n")


class Logs(RaTest):
    def test_requests_are_granted_at_once_if_their_modes_go_together(self):
        """Node 2 asks after node 1. If the modes conflict it enters neither before that one nor beside it."""
        for first, second in itertools.product(MODES, MODES):
            with self.subTest(first=first, second=second):
                asks = f"request 1 1 r {first} 1\nrequest 2 2 r {second} 2\n"
                enters = [f"enter 1 1 r {first} 1\n", f"enter 2 2 r {second} 2\n"]
                is_held = second in CONFLICTS[first].split()
                for order, cause in ((enters, "4 Held"), (enters[::-1], "3 Earlier")):
                    output = f"invalid {cause}\n" if is_held else "valid\nrequests 2\ngrants 2\n"
                    self.expect(words="check --marks", input=asks + "".join(order), status=3 if is_held else 0, output=output)


class Ends(RaTest):
    """What is said of the end of a text of many clients."""

    def expect_log(self, count, note):
        """Fails unless this is said of a log in which so many clients wait, each for a name of its own."""
        log = "".join(f"request 1 7 r{it} X 1\n" for it in range(count))
        verdict = f"valid\nrequests {count}\ngrants 0\n"
        self.expect(words="check --marks", input=log, output=verdict, note=f"ra: the log ends with {count} requests waiting{note}\n")

    def test_each_client_that_waits_is_known(self):
        waits = [f"client 7 at node 1 has waited for 'r{it}' (X) since line {it + 1}: no client blocks it" for it in range(4)]
        for count in (4, 70_000):
            self.expect_log(count, "".join(f"\nra: {it}" for it in waits))

    def test_what_came_long_before_the_end_is_said(self):
        done = "".join(f"request 2 8 r X {it}\nenter 2 8 r X {it}\nleave 2 8 r X {it}\n" for it in range(1, 4000))
        given = f"request 1 7 a X 1\n{done}request 3 9 a X 2\n"
        note = "ra: the log ends with 2 requests waiting\nra: client 7 at node 1 has waited for 'a' (X) since line 1: "
        note += "no client blocks it\nra: client 9 at node 3 has waited for 'a' (X) since line 11999: "
        note += "client 7 at node 1 asked for 'a' (X) in line 1\n"
        self.assertGreater(len(given), 65_537)
        self.expect(words="check --marks", input=given, output="valid\nrequests 4001\ngrants 3999\n", note=note)
