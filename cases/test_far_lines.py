"""What is said of a wrong line that comes far on in a long text, and of the end of one: the same as of a short one."""
from cases import RaTest

# How often a client locks a name before the wrong line.
ROUNDS = 5000
# How often a message is repeated before the wrong line of a trace, which takes 25 bytes each time.
REPEATS = 2700
# How many clients wait, how many requests were released, and how many messages were delivered or lost, in a short text and in a
# long one.
WAITING = (1, 70_000)
RELEASED = (1, 3000)
TAKEN = (1, 5000)
# The most bytes that a text may have.
LIMIT = 16_777_216
NOT_UNDER_WAY = "this message is not under way: "

# Lines after those of a mark log, the cause for which the last of them is wrong, and what is said of it.
WRONG_MARKS = [
    (
        ["request 1 8 r X 5001", "enter 1 8 r X 5001", "request 2 9 r X 5002", "enter 2 9 r X 5002"],
        "Held",
        "a conflicting request holds the name: client 8 at node 1 has held 'r' (X) since line 15002",
    ),
    (
        ["request 1 8 r X 5001", "request 2 9 r X 5002", "enter 2 9 r X 5002"],
        "Earlier",
        "an earlier request that conflicts waits for the name: "
        "client 8 at node 1 asked for 'r' (X) in line 15001 and goes first, since number 5001 is below 5002",
    ),
    (
        ["request 1 8 r X 5001", "request 1 9 r X 5002"],
        "NodeBusy",
        "the node of this request already waits for the name or holds it: "
        "client 8 at node 1 asked for 'r' (X) in line 15001",
    ),
    (
        ["request 2 9 r X 5000"],
        "NotAbove",
        "the number of this request is not above every number granted for the name: 5000 was granted in line 14999",
    ),
    # The greatest number is held, and not released.
    (
        ["request 1 8 r X 5001", "enter 1 8 r X 5001", "request 2 9 r X 5001"],
        "NotAbove",
        "the number of this request is not above every number granted for the name: 5001 was granted in line 15002",
    ),
    (
        ["enter 1 8 r X 5000"],
        "NotWaiting",
        "no such request waits for the name: "
        "client 7 at node 1 last released 'r' (X) in line 15000, with number 5000",
    ),
    (
        ["leave 1 7 r X 5000"],
        "NotHeld",
        "no such request holds the name: it was released in line 15000",
    ),
    (
        ["request 1 8 r X 5001", "leave 1 8 r X 5001"],
        "NotHeld",
        "no such request holds the name: it has waited since line 15001",
    ),
    (
        ["request 1 8 r X 5001", "enter 1 9 r X 5001"],
        "NotWaiting",
        "no such request waits for the name: client 8 at node 1 asked for 'r' (X) in line 15001, with number 5001",
    ),
    (
        ["leave 1 7 s X 1"],
        "NotHeld",
        "no such request holds the name: it was never requested",
    ),
    (
        ["leave 1 7 r X 2953"],
        "NotHeld",
        "no such request holds the name: it was released in line 8859",
    ),
    (
        ["leave 1 7 r X 1"],
        "NotHeld",
        "no such request holds the name: it was released in line 3",
    ),
]

# The same for a trace.
WRONG_STEPS = [
    (
        ["ask 1 1 r S"],
        "Refused",
        "client 1 has waited for 'r' (X) at node 1 since line 3 and may not ask for it again",
    ),
    (
        ["release 1 1 r"],
        "Refused",
        "client 1 has waited for 'r' (X) at node 1 since line 3 and does not hold it",
    ),
    (
        ["ask 3 1 r X"],
        "Refused",
        "there is no node 3: the highest node of the trace is 2",
    ),
    (
        ["ask 1 2 r X", "ask 1 2 r S"],
        "Refused",
        "client 2 has been queued for 'r' (X) at node 1 since line 2704 and may not ask for it again",
    ),
    (
        ["request 1 2 r S 2"],
        "Table",
        "the lock table does not allow this mark: its node already waits for the name or holds it: "
        "client 1 at node 1 asked for 'r' (X) in line 3",
    ),
    (
        ["deliver reply 2 1 r 1"],
        "NotUnderWay",
        NOT_UNDER_WAY + "its request has not come to node 2",
    ),
    (
        ["deliver request 1 2 r X 1", "deliver reply 2 1 r 1", "enter 1 1 r X 1", "deliver reply 2 1 r 1"],
        "NotUnderWay",
        NOT_UNDER_WAY + "it was last delivered in line 2705; a copy needs a repeat line before that",
    ),
    (
        (REPEATS + 1) * ["lose request 1 2 r X 1"] + ["lose request 1 2 r X 1"],
        "NotUnderWay",
        NOT_UNDER_WAY + "it was lost in line 5404",
    ),
    (
        ["ask 2 2 r X", "request 2 2 r X 1", "deliver request 2 1 r X 1", "deliver reply 1 2 r 1"],
        "NotUnderWay",
        NOT_UNDER_WAY + "node 1 deferred it in line 2706, as its own request 1 is earlier",
    ),
]


def rounds(names, numbers):
    """Returns the lines of a mark log in which a client locks these names with these numbers, one after the other."""
    return [
        f"{mark} 1 7 {name} X {number}"
        for name in names
        for number in numbers
        for mark in ("request", "enter", "leave")
    ]


class SaidOfLines(RaTest):
    """A test of what is said of the last line of a text."""

    def expect_said(self, words, lines, cause, said):
        """Fails unless the last of these lines is wrong for this cause, and this is said of it."""
        with self.subTest(words=words, last=lines[-1]):
            self.expect(
                words=words,
                input="".join(f"{line}\n" for line in lines),
                status=3,
                output=f"invalid {len(lines)} {cause}\n",
                note=f"ra: line {len(lines)}, '{lines[-1]}': {said}\n",
            )


class FarLines(SaidOfLines):
    def test_a_wrong_mark_far_on_is_explained(self):
        before = rounds(["r"], range(1, ROUNDS + 1))
        for after, cause, said in WRONG_MARKS:
            self.expect_said("check --marks", before + after, cause, said)
            self.expect_said("draw --marks", before + after, cause, said)

    def test_a_wrong_step_far_on_is_explained(self):
        before = ["trace 2 2 0", "ask 1 1 r X", "request 1 1 r X 1"] + REPEATS * ["repeat request 1 2 r X 1"]
        for after, cause, said in WRONG_STEPS:
            self.expect_said("check", before + after, cause, said)
            self.expect_said("draw", before + after, cause, said)

    def test_a_mark_that_is_not_due_far_on_is_explained(self):
        before = ["trace 2 2 0", "ask 1 1 r X", "request 1 1 r X 1"] + REPEATS * ["repeat request 1 2 r X 1"]
        for words in ("check", "draw"):
            early = "expected no mark here: client 1 at node 1 still awaits the REPLY of node 2"
            self.expect_said(words, before + ["enter 1 1 r X 1"], "Marks", early)
            due = "expected the mark 'request 2 2 r X 1' here"
            self.expect_said(words, before + ["ask 2 2 r X", "end"], "Marks", due)

    def test_each_client_that_waits_is_known(self):
        busy = "the node of this request already waits for the name or holds it: client 7 at node 1 asked for 'n0' (X) in line 1"
        held = "no such request holds the name: it has waited since line 1"
        for count in WAITING:
            waiting = [f"request 1 7 n{place} X 1" for place in range(count)]
            self.expect_said("check --marks", waiting + ["request 1 8 n0 X 2"], "NodeBusy", busy)
            self.expect_said("check --marks", waiting + ["leave 1 7 n0 X 1"], "NotHeld", held)

    def test_each_release_is_known(self):
        low = "the number of this request is not above every number granted for the name: 1 was granted in line 2"
        waits, holds = "no such request waits for the name: ", "no such request holds the name: "
        for count in RELEASED:
            past = rounds([f"n{place}" for place in range(count)], [1])
            self.expect_said("check --marks", past + ["request 2 9 n0 X 1"], "NotAbove", low)
            self.expect_said("check --marks", past + ["leave 1 7 s X 1"], "NotHeld", f"{holds}it was never requested")
            self.expect_said("check --marks", past + ["leave 1 7 n0 X 1"], "NotHeld", f"{holds}it was released in line 3")
            other = "client 7 at node 1 last released 'n0' (X) in line 3, with number 1"
            self.expect_said("check --marks", past + ["enter 1 8 n0 X 2"], "NotWaiting", waits + other)

    def expect_not_under_way(self, lines, said):
        """Fails unless this is said of the last of these lines, of which the message is not under way."""
        for words in ("check", "draw"):
            self.expect_said(words, lines, "NotUnderWay", NOT_UNDER_WAY + said)

    def test_each_message_that_was_delivered_or_lost_is_known(self):
        begins = ["trace 2 2 0", "ask 1 1 r X", "request 1 1 r X 1"]
        again = "; a copy needs a repeat line before that"
        for count in TAKEN:
            came = count * ["repeat request 1 2 r X 1", "deliver request 1 2 r X 1"]
            near = f"it was never sent, but reply 2 1 r 1 was, by the step in line {3 + 2 * count}"
            self.expect_not_under_way(begins + came + ["deliver reply 2 1 s 1"], near)
            late = count * ["repeat request 2 1 s X 1", "lose request 2 1 s X 1"]
            asked = ["deliver request 1 2 r X 1", "ask 2 2 s X", "request 2 2 s X 1"]
            lines = begins + asked + late + ["deliver request 1 2 r X 1"]
            self.expect_not_under_way(lines, f"it was last delivered in line 4{again}")
            lost = ["lose request 1 2 r X 1", "ask 2 2 s X", "request 2 2 s X 1"]
            self.expect_not_under_way(begins + lost + late + ["deliver request 1 2 r X 1"], "it was lost in line 4")

    def test_a_deferral_and_a_request_that_has_not_come_are_known(self):
        begins = ["trace 2 3 0", "ask 1 1 r X", "request 1 1 r X 1"]
        for count in TAKEN:
            came = count * ["repeat request 1 3 r X 1", "deliver request 1 3 r X 1"]
            lines = begins + came + ["deliver reply 2 1 r 1"]
            self.expect_not_under_way(lines, "its request has not come to node 2")
            deferred = ["ask 2 2 r X", "request 2 2 r X 1", "deliver request 2 1 r X 1"]
            lines = begins + deferred + came + ["deliver reply 1 2 r 1"]
            self.expect_not_under_way(lines, "node 1 deferred it in line 6, as its own request 1 is earlier")

    def test_a_reply_that_came_is_known(self):
        begins = ["trace 2 3 0", "ask 1 1 r X", "request 1 1 r X 1", "deliver request 1 2 r X 1", "deliver reply 2 1 r 1"]
        early = "expected no mark here: client 1 at node 1 still awaits the REPLY of node 3"
        for count in TAKEN:
            lost = count * ["repeat request 1 3 r X 1", "lose request 1 3 r X 1"]
            for words in ("check", "draw"):
                self.expect_said(words, begins + lost + ["enter 1 1 r X 1"], "Marks", early)


class LongestTexts(SaidOfLines):
    """Texts with as many bytes as one may have."""

    def full(self, before, line, after):
        """Returns these lines with as many of one line between them as fit into a text, and how many these are."""
        room = LIMIT - sum(len(it) + 1 for it in before + after)
        count = room // (len(line) + 1)
        return before + count * [line] + after, count

    def test_a_wrong_step_of_the_longest_trace_is_explained(self):
        begins = ["trace 2 2 0", "ask 1 1 r X", "request 1 1 r X 1"]
        lines, _ = self.full(begins, "repeat request 1 2 r X 1", ["ask 1 1 r S"])
        busy = "client 1 has waited for 'r' (X) at node 1 since line 3 and may not ask for it again"
        for words in ("check", "draw"):
            self.expect_said(words, lines, "Refused", busy)

    def test_a_wrong_mark_of_the_longest_log_is_explained(self):
        # Each name has 32 bytes, as many as one may have.
        names = [f"n{place:031}" for place in range(117_300)]
        lines = rounds(["r"], [1]) + rounds(names, [1]) + ["request 2 9 r X 1"]
        size = sum(len(it) + 1 for it in lines)
        self.assertTrue(LIMIT - 10_000 < size <= LIMIT, size)
        low = "the number of this request is not above every number granted for the name: 1 was granted in line 2"
        for words in ("check --marks", "draw --marks"):
            self.expect_said(words, lines, "NotAbove", low)

    def test_what_is_left_of_the_longest_trace_is_said(self):
        begins = ["trace 2 2 0", "ask 1 1 r X", "request 1 1 r X 1"]
        lines, count = self.full(begins, "repeat request 1 2 r X 1", ["end"])
        waits = "client 1 at node 1 has waited for 'r' (X) since line 3: no client blocks it, "
        waits += "but its REQUEST to node 2, sent in line 2, is under way"
        self.expect(
            words="check",
            input="".join(f"{line}\n" for line in lines),
            output="valid\nrequests 1\nmessages 1\n",
            note=f"ra: the trace ends with {count + 1} messages under way, 1 request waiting\nra: {waits}\n",
        )

    def test_a_line_after_the_end_of_the_longest_trace_is_shown(self):
        begins = ["trace 2 2 0", "ask 1 1 r X", "request 1 1 r X 1"]
        lines, _ = self.full(begins, "repeat request 1 2 r X 1", ["end", "end of the trace"])
        for words in ("check", "draw"):
            self.expect_said(words, lines, "Line", "nothing may follow end, the last line of a trace")
