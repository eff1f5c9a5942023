"""Frames as `ra node` reads and writes them: each byte at each place, each part of a frame, and of two faults the first."""
import itertools
import re
from collections import namedtuple

from cases import RaTest
from settle_model import LAST_CLOCK, LAST_NUMBER, MODES, Ask, Frame, Message, Node, Receive, Release, decoded, encoded

# The word of the line of each event.
WORDS = {Ask: "ask", Release: "release", Receive: "receive"}

# The REQUEST of node 1 to node 2 for `r`, exclusively, with number 1 and clock 1.
REQUEST = Frame(Message("request", 1, 2, "r", "X", 1), 1)
BYTES = {version: encoded(REQUEST, version) for version in (1, 2)}
# The size of a node's number, the greatest one, and how many modes there are.
VERSIONS = {1: (1, 16, 2), 2: (2, 64, 5)}
LONGEST_NAME = "AZaz09_-.bcdefghijklmnopqrstuvwx"
# The bytes of that REQUEST in a version with other bytes at some places, of which there are only so many, and their fault.
Wrong = namedtuple("Wrong", "version changes fault count", defaults=[None])

FIRST_FAULTS = [
    # Of two wrong fields, the first counts.
    Wrong(1, {0: 3, 1: 0}, "Version"),
    Wrong(1, {1: 0, 2: 17}, "Kind"),
    Wrong(1, {2: 17, 3: 17}, "From"),
    Wrong(1, {3: 1, 4: 2}, "SameNode"),
    Wrong(1, {4: 2, 12: 0}, "Mode"),
    Wrong(1, {12: 0, 20: 0}, "Seq"),
    Wrong(1, {20: 0, 21: 0}, "Clock"),
    Wrong(1, {21: 33, 22: 32}, "NameLength"),
    Wrong(1, {21: 2, 22: 32}, "Short"),
    Wrong(2, {0: 3, 1: 0}, "Version"),
    Wrong(2, {1: 0, 3: 65}, "Kind"),
    Wrong(2, {3: 65, 5: 65}, "From"),
    Wrong(2, {4: 1, 5: 1}, "To"),
    Wrong(2, {5: 1, 6: 5}, "SameNode"),
    Wrong(2, {6: 5, 14: 0}, "Mode"),
    Wrong(2, {14: 0, 22: 0}, "Seq"),
    Wrong(2, {22: 0, 23: 0}, "Clock"),
    Wrong(2, {23: 33, 24: 32}, "NameLength"),
    Wrong(2, {23: 2, 24: 32}, "Short"),
    # A REPLY has no mode.
    Wrong(1, {1: 2, 3: 1}, "SameNode"),
    Wrong(1, {1: 2, 12: 0}, "Mode"),
    Wrong(2, {1: 2, 3: 1}, "Mode"),
    Wrong(2, {1: 2, 5: 1}, "SameNode"),
    # What is there is looked at before what is missing, and a number once all of its bytes are there.
    Wrong(1, {0: 3}, "Version", 1),
    Wrong(1, {3: 1}, "SameNode", 4),
    Wrong(1, {11: 1}, "Short", 12),
    Wrong(1, {13: 0x41}, "Short", 20),
    Wrong(1, {13: 0x41}, "Clock", 21),
    Wrong(1, {21: 33}, "NameLength", 22),
    Wrong(2, {2: 1}, "Short", 3),
    Wrong(2, {2: 1}, "From", 4),
    Wrong(2, {4: 1}, "Short", 5),
    Wrong(2, {4: 1}, "To", 6),
    Wrong(2, {15: 0x41}, "Short", 22),
    Wrong(2, {15: 0x41}, "Clock", 23),
    Wrong(2, {3: 40, 6: 3}, "Short", 24),
]


def changed(data, changes):
    """Returns bytes with other ones at some places."""
    return bytes(changes.get(place, byte) for place, byte in enumerate(data))


def fault(data):
    """Returns the first fault of bytes, or `None` if they are a frame, by the table of the format."""
    if not data:
        return "Short"
    if data[0] not in VERSIONS:
        return "Version"
    size, nodes, modes = VERSIONS[data[0]]
    at, read = 1, {}
    fields = [
        ("Kind", 1, lambda it: it in (1, 2)),
        ("From", size, lambda it: 1 <= it <= nodes),
        ("To", size, lambda it: 1 <= it <= nodes),
        ("SameNode", 0, lambda _: read["From"] != read["To"]),
        ("Mode", 1, lambda it: it < (modes if read["Kind"] == 1 else 1)),
        ("Seq", 8, lambda it: it >= 1),
        ("Clock", 8, lambda it: 1 <= it <= LAST_CLOCK),
        ("NameLength", 1, lambda it: 1 <= it <= 32),
    ]
    for name, count, is_right in fields:
        if len(data) < at + count:
            return "Short"
        read[name] = int.from_bytes(data[at:at + count], "big")
        at += count
        if not is_right(read[name]):
            return name
    name, rest = data[at:at + read["NameLength"]], data[at + read["NameLength"]:]
    if len(name) < read["NameLength"]:
        return "Short"
    if not re.fullmatch(rb"[A-Za-z0-9_.-]*", name):
        return "NameByte"
    return "Trailing" if rest else None


def answers(step):
    """Returns the lines with which a node answers an event that it takes."""
    return [*(f"send {it.receiver} {encoded(Frame(it, step.clock)).hex()}" for it in step.sends), *step.marks, "ok"]


def answers_to(node, data):
    """Returns the lines with which a node answers these bytes."""
    cause = fault(data)
    if cause:
        return [f"refused {cause}"]
    frame = decoded(data)
    if frame.message.receiver != node.me:
        return ["refused WrongNode"]
    step = node.take(Receive(frame))
    return answers(step) if step else ["refused ClockFull"]


class Frames(RaTest):
    def expect_lines(self, given, expected):
        """Fails unless lines are answered with these lines."""
        self.expect(words="node", input="".join(f"{it}\n" for it in given), output="".join(f"{it}\n" for it in expected))

    def expect_answers(self, me, nodes, texts):
        """Fails unless an idle node answers these bytes by the format and the rules of the algorithm, one after the other."""
        node = Node(me, nodes, 0)
        given = [f"book 1 {me} {nodes} 0", *(f"receive {it.hex()}" for it in texts)]
        self.expect_lines(given, ["ok", *(line for it in texts for line in answers_to(node, it))])

    def test_each_byte_at_each_place_is_read_by_the_format(self):
        for version, data in BYTES.items():
            for place in range(len(data)):
                with self.subTest(version=version, place=place):
                    self.expect_answers(2, 64, [changed(data, {place: byte}) for byte in range(256)])

    def test_the_first_wrong_field_is_named(self):
        for wrong in FIRST_FAULTS:
            with self.subTest(wrong):
                digits = changed(BYTES[wrong.version], wrong.changes)[:wrong.count].hex()
                self.expect_lines(["book 1 2 3 0", f"receive {digits}"], ["ok", f"refused {wrong.fault}"])

    def test_each_part_of_a_frame_is_short(self):
        for version, data in BYTES.items():
            with self.subTest(version):
                given = [f"receive {data[:count].hex()}" for count in range(len(data))]
                self.expect_lines(["book 1 2 3 0", *given], ["ok", *len(data) * ["refused Short"]])

    def test_nothing_follows_the_name(self):
        given = [f"receive {data.hex()}{more}" for data in BYTES.values() for more in ("00", "72")]
        self.expect_lines(["book 1 2 3 0", *given], ["ok", *4 * ["refused Trailing"]])

    def test_the_greatest_numbers_clocks_and_nodes_are_read(self):
        """A frame with the last clock is read, though no clock is left for its event."""
        for version, (_, nodes, _) in VERSIONS.items():
            for clock, number in ((1, 2**56 + 2), (1, LAST_NUMBER), (LAST_CLOCK - 1, 1), (LAST_CLOCK, LAST_NUMBER)):
                with self.subTest(version=version, clock=clock, number=number):
                    for sender, me in ((1, 2), (nodes, nodes - 1), (nodes - 1, nodes)):
                        frame = Frame(Message("request", sender, me, "r", "X", number), clock)
                        self.expect_answers(me, nodes, [encoded(frame, version)])

    def test_the_longest_frames_are_read(self):
        """A client enters by the REPLY of node 16, after those of the others. The next REQUEST of node 16 is deferred until it
        leaves."""
        number, clock = 0x0102030405060708, 0x1112131415161718
        for version in VERSIONS:
            with self.subTest(version):
                replies = [Frame(Message("reply", it, 1, LONGEST_NAME, "", number), clock) for it in range(2, 17)]
                request = Frame(Message("request", 16, 1, LONGEST_NAME, "S", number + 1), clock)
                self.expect_taken(1, 16, number - 1, version, [
                    Ask(7, LONGEST_NAME, "X"), *(Receive(it) for it in [*replies, request]), Release(7, LONGEST_NAME),
                ])

    def test_modes_are_read_in_both_versions(self):
        """A client of node 2 holds a name in a mode. A REQUEST in another one is answered at once or deferred."""
        for version, (_, _, modes) in VERSIONS.items():
            for own, mode in itertools.product(MODES, MODES[:modes]):
                with self.subTest(version=version, own=own, mode=mode):
                    reply = Frame(Message("reply", 1, 2, "r", "", 1), 1)
                    request = Frame(Message("request", 1, 2, "r", mode, 2), 1)
                    self.expect_taken(2, 2, 0, version, [Ask(7, "r", own), Receive(reply), Receive(request)])

    def expect_taken(self, me, nodes, start, version, events):
        """Fails unless a node takes these events, in frames of a version, by the rules of the algorithm."""
        node, given, expected = Node(me, nodes, start), [f"book 1 {me} {nodes} {start}"], ["ok"]
        for event in events:
            words = [f"{it}" for it in event]
            if isinstance(event, Receive):
                words = [encoded(event.frame, version).hex()]
            given.append(" ".join([WORDS[type(event)], *words]))
            expected += answers(node.take(event))
        self.expect_lines(given, expected)
