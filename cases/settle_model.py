"""A model of `ra settle`: what it prints of a text of books, by the formats and by the rules of the algorithm."""
import collections
import dataclasses
import re

LAST_CLOCK = 2**62
LAST_NUMBER = 2**64 - 1
# The longest line, without its line feed.
LONGEST = 256
MODES = ("S", "X", "IS", "IX", "SIX")
# The modes that conflict with each mode.
CONFLICTS = {"S": "X IX SIX", "X": "S X IS IX SIX", "IS": "X", "IX": "S X SIX", "SIX": "S X IX SIX"}
NUMBER = rb"(0|[1-9][0-9]*)"
NAME = rb"([A-Za-z0-9_.-]{1,32})"
FIRST_LINE = re.compile(rb"book 1 %b %b %b" % (NUMBER, NUMBER, NUMBER))
ASK_LINE = re.compile(rb"ask %b %b (S|X|IS|IX|SIX)" % (NUMBER, NAME))
RELEASE_LINE = re.compile(rb"release %b %b" % (NUMBER, NAME))

# A message: its kind is `request` or `reply`, and the mode of a reply is empty.
Message = collections.namedtuple("Message", "kind sender receiver name mode number")
Frame = collections.namedtuple("Frame", "message clock")
# The events of a book. If the digits of a line are no frame, its `Receive` has none.
Ask = collections.namedtuple("Ask", "client name mode")
Release = collections.namedtuple("Release", "client name")
Receive = collections.namedtuple("Receive", "frame")
# What came of an event: its clock, its node, the event, the messages that it sent, and the lines of its marks.
Step = collections.namedtuple("Step", "clock node event sends marks")


def decoded(data):
    """Returns the frame that these bytes are, or `None`."""
    # How many bytes a node has, the highest node, and how many modes there are.
    size, nodes, modes = {b"\x01": (1, 16, 2), b"\x02": (2, 64, 5)}.get(data[:1], (0, 0, 0))
    at = 2 + 2 * size
    if size == 0 or len(data) < at + 18:
        return None
    kind, length, name = data[1], data[at + 17], data[at + 18:]
    fields = (data[2:2 + size], data[2 + size:at], data[at + 1:at + 9], data[at + 9:at + 17])
    sender, receiver, number, clock = (int.from_bytes(it, "big") for it in fields)
    is_frame = (
        kind in (1, 2) and 1 <= sender <= nodes and 1 <= receiver <= nodes and sender != receiver
        and data[at] < (modes if kind == 1 else 1) and number >= 1 and 1 <= clock <= LAST_CLOCK
        and len(name) == length and re.fullmatch(NAME, name)
    )
    if not is_frame:
        return None
    word, mode = ("request", MODES[data[at]]) if kind == 1 else ("reply", "")
    return Frame(Message(word, sender, receiver, name.decode(), mode, number), clock)


def encoded(frame, version=2):
    """Returns the bytes of a frame."""
    message, name = frame.message, frame.message.name.encode()
    mode = MODES.index(message.mode) if message.mode else 0
    nodes = b"".join(it.to_bytes(version, "big") for it in (message.sender, message.receiver))
    head = bytes([version, 1 if message.kind == "request" else 2]) + nodes + bytes([mode])
    return head + message.number.to_bytes(8, "big") + frame.clock.to_bytes(8, "big") + bytes([len(name)]) + name


def first_of(line):
    """Returns the node, the number of nodes and the start that a first line gives, or `None` if it is none."""
    found = FIRST_LINE.fullmatch(line)
    node, nodes, start = map(int, found.groups()) if found else (0, 0, 0)
    return (node, nodes, start) if 1 <= node <= nodes <= 64 and start <= LAST_NUMBER else None


def event_of(line):
    """Returns the event that a line is, or `None` if it has none of their forms."""
    asks, releases = ASK_LINE.fullmatch(line), RELEASE_LINE.fullmatch(line)
    found = asks or releases
    if found and int(found[1]) < 2**32:
        fields = (int(found[1]), *(it.decode() for it in found.groups()[1:]))
        return Ask(*fields) if asks else Release(*fields)
    if line.startswith(b"receive "):
        digits = line[len(b"receive "):]
        is_hex = re.fullmatch(rb"([0-9A-Fa-f]{2})*", digits)
        return Receive(decoded(bytes.fromhex(digits.decode())) if is_hex else None)
    return None


@dataclasses.dataclass
class Resource:
    """A name at a node: `own` is the client that waits or is inside, and its mode and number."""
    highest: int
    own: tuple | None = None
    awaited: set = dataclasses.field(default_factory=set)
    deferred: dict = dataclasses.field(default_factory=dict)
    queue: list = dataclasses.field(default_factory=list)


class Node:
    """A node, its clock and what it did."""

    def __init__(self, me, nodes, start):
        self.me, self.nodes, self.start = me, nodes, start
        self.others = [it for it in range(1, nodes + 1) if it != me]
        self.clock, self.names, self.steps = 0, {}, []

    def take(self, event):
        """Makes an event happen and returns its step, or `None` if the node refuses it, and is as before."""
        frame = event.frame if isinstance(event, Receive) else None
        if isinstance(event, Receive) and frame is None:
            return None
        clock = 1 + max(self.clock, frame.clock if frame else 0)
        if clock > LAST_CLOCK:
            return None
        came = self.receive(frame.message) if frame else self.of_client(event)
        if came is None:
            return None
        self.clock = clock
        self.steps.append(Step(clock, self.me, event, *came))
        return self.steps[-1]

    def resource(self, name):
        return self.names.setdefault(name, Resource(self.start))

    def of_client(self, event):
        """Takes an ask or a release. The client of an ask is in the queue at first."""
        at = self.resource(event.name)
        if isinstance(event, Ask):
            if event.client in [it[0] for it in [at.own, *at.queue] if it] or at.highest == LAST_NUMBER:
                return None
            at.queue.append((event.client, event.mode))
            return ([], []) if at.own else self.request(event.name, at)
        if not at.own or at.awaited or at.own[0] != event.client:
            return None
        marks = [self.mark("leave", event.name, at)]
        sends = [Message("reply", self.me, it, event.name, "", at.deferred[it]) for it in sorted(at.deferred)]
        at.own, at.deferred = None, {}
        more = self.request(event.name, at) if at.queue and at.highest < LAST_NUMBER else ([], [])
        return sends + more[0], marks + more[1]

    def request(self, name, at):
        """The first client of the queue requests the name."""
        client, mode = at.queue.pop(0)
        at.highest += 1
        at.own, at.awaited = (client, mode, at.highest), set(self.others)
        sends = [Message("request", self.me, it, name, mode, at.highest) for it in self.others]
        return sends, [self.mark("request", name, at), *self.enters(name, at)]

    def receive(self, message):
        if message.receiver != self.me or message.sender not in self.others:
            return None
        at = self.resource(message.name)
        client, mode, number = at.own or (0, "", 0)
        if message.kind == "reply":
            if message.number != number or message.sender not in at.awaited:
                return [], []
            at.awaited.remove(message.sender)
            return [], self.enters(message.name, at)
        at.highest = max(at.highest, message.number)
        is_earlier = (number, self.me) < (message.number, message.sender)
        if at.own and message.mode in CONFLICTS[mode].split() and is_earlier:
            at.deferred[message.sender] = max(at.deferred.get(message.sender, 0), message.number)
            return [], []
        return [Message("reply", self.me, message.sender, message.name, "", message.number)], []

    def enters(self, name, at):
        return [] if at.awaited else [self.mark("enter", name, at)]

    def mark(self, word, name, at):
        client, mode, number = at.own
        return f"{word} {self.me} {client} {name} {mode} {number}"


class Books:
    """The books of a text, up to its first wrong line."""

    def __init__(self):
        # By their nodes; the node whose book is read; and the frames that came, each with the number of its line.
        self.nodes, self.node, self.came = {}, None, []

    def take(self, number, line):
        """Takes a line, and returns the cause if it is wrong."""
        first = first_of(line) if len(line) <= LONGEST else None
        if first:
            others = self.nodes.values()
            if first[0] in self.nodes or any((it.nodes, it.start) != first[1:] for it in others):
                return "Books"
            self.node = self.nodes[first[0]] = Node(*first)
            return None
        event = event_of(line) if len(line) <= LONGEST and self.node else None
        if event is None:
            return "Line"
        if self.node.take(event) is None:
            return "Refused"
        if isinstance(event, Receive):
            self.came.append((number, event.frame))
        return None

    def sent(self):
        """Returns the frames that were sent."""
        steps = [step for node in self.nodes.values() for step in node.steps]
        return {Frame(it, step.clock) for step in steps for it in step.sends}

    def fault(self, after, repeats):
        """Returns the line and the cause if the books don't settle, or `None`. `after` is the number of lines plus 1."""
        if len(self.nodes) < self.node.nodes:
            return after, "Books"
        sent, messages = self.sent(), set()
        for number, frame in self.came:
            if frame not in sent:
                return number, "NotSent"
        for number, frame in self.came:
            if frame.message in messages and not repeats:
                return number, "Twice"
            messages.add(frame.message)
        return None

    def steps(self):
        """Returns the steps of the run in order."""
        return sorted((step for node in self.nodes.values() for step in node.steps), key=lambda it: (it.clock, it.node))

    def report(self):
        """Returns the lines of the marks and of the totals."""
        steps = self.steps()
        marks = [it for step in steps for it in step.marks]
        words = collections.Counter(it.split(" ")[0] for it in marks)
        sent = sum(len(step.sends) for step in steps)
        asks = sum(isinstance(step.event, Ask) for step in steps)
        totals = {
            "requests": words["request"], "messages": sent, "under-way": sent - len({frame for _, frame in self.came}), "lost": 0,
            "waiting": words["request"] - words["enter"], "queued": asks - words["request"],
        }
        return marks + [f"{word} {count}" for word, count in totals.items()]

    def trace(self):
        """Returns the lines of the trace."""
        left = collections.Counter(frame for _, frame in self.came)
        lines = [f"trace 2 {self.node.nodes} {self.node.start}"]
        for step in self.steps():
            event = step.event
            if isinstance(event, Receive):
                it = event.frame.message
                fields = [it.kind, it.sender, it.receiver, it.name, it.mode, it.number]
                delivered = " ".join(f"{each}" for each in fields if each != "")
                left[event.frame] -= 1
                lines += [f"repeat {delivered}"] * (left[event.frame] > 0) + [f"deliver {delivered}"]
            else:
                word = "ask" if isinstance(event, Ask) else "release"
                lines.append(f"{word} {step.node} " + " ".join(f"{it}" for it in event))
            lines += step.marks
        return [*lines, "end"]


def settled(text, repeats=False, traces=False):
    """Returns the status and the standard output of `ra settle`, with the options `--repeats` and `--trace` or without."""
    books, lines = Books(), text.split(b"\n")[:-1]
    fault = None if lines else (1, "Line")
    for number, line in enumerate(lines, 1):
        cause = books.take(number, line)
        if cause:
            fault = number, cause
            break
    fault = fault or books.fault(len(lines) + 1, repeats)
    if fault:
        return 3, f"invalid {fault[0]} {fault[1]}\n".encode()
    printed = books.trace() if traces else books.report()
    return 0, "".join(f"{it}\n" for it in printed).encode()
