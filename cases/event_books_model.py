"""A model of the books of nodes whose clients may give up and which may forget names: what `ra node` and `ra settle` print, by
the formats and by the rules of the algorithm."""
import collections
import re

from events_model import Act, Ask, Cancel, Done, Forget, Move, Node, Release, Resource, World, invalid
from settle_model import LAST_CLOCK, LAST_NUMBER, LONGEST, NAME, NUMBER, Frame, decoded, encoded

# A frame comes: an event of a book. Its other events are those of a node.
Receive = collections.namedtuple("Receive", "frame")
# An event with its clock, its node, what it sent, and the lines of its marks.
Taken = collections.namedtuple("Taken", "clock node event sends marks")

# ---- Lines

FIRST_LINE = re.compile(rb"book ([12]) %b %b %b" % (NUMBER, NUMBER, NUMBER))
ASK_LINE = re.compile(rb"ask %b %b (S|X|IS|IX|SIX)" % (NUMBER, NAME))
CLIENT_LINE = re.compile(rb"(release|cancel) %b %b" % (NUMBER, NAME))


def first_of(line):
    """Returns the version, the node, the number of nodes and the start that a first line gives, or `None`."""
    found = FIRST_LINE.fullmatch(line) if len(line) <= LONGEST else None
    version, node, nodes, start = map(int, found.groups()) if found else (0, 0, 0, 0)
    return (version, node, nodes, start) if 1 <= node <= nodes <= 64 and start <= LAST_NUMBER else None


def event_of(line, version):
    """Returns the event that a line of a book of this version is, or the word with which it is refused."""
    asks, others = ASK_LINE.fullmatch(line), CLIENT_LINE.fullmatch(line)
    if len(line) > LONGEST:
        return "Line"
    if asks and int(asks[1]) < 2**32:
        return Ask(int(asks[1]), asks[2].decode(), asks[3].decode())
    if others and int(others[2]) < 2**32 and (version == 2 or others[1] == b"release"):
        return (Release if others[1] == b"release" else Cancel)(int(others[2]), others[3].decode())
    if line == b"forget" and version == 2:
        return Forget()
    return frame_of(line[len(b"receive "):]) if line.startswith(b"receive ") else "Line"


def frame_of(digits):
    if not re.fullmatch(rb"([0-9A-Fa-f]{2})*", digits):
        return "Hex"
    data = bytes.fromhex(digits.decode())
    return fault_of(data) or Receive(decoded(data))


def fault_of(data):
    """Returns the word of the first fault of these bytes, or `None` if they are a frame."""
    if not data:
        return "Short"
    # How many bytes a node has, the highest node, and how many modes there are.
    size, nodes, modes = {1: (1, 16, 2), 2: (2, 64, 5)}.get(data[0], (0, 0, 0))
    if not size:
        return "Version"
    at, values = 1, {}
    for word, length in {"Kind": 1, "From": size, "To": size, "Mode": 1, "Seq": 8, "Clock": 8, "NameLength": 1}.items():
        if len(data) < at + length:
            return "Short"
        values[word] = value = int.from_bytes(data[at:at + length], "big")
        limit = {"Kind": 2, "From": nodes, "To": nodes, "Mode": modes - 1, "Seq": LAST_NUMBER, "Clock": LAST_CLOCK}.get(word, 32)
        if not (word != "Mode") <= value <= limit or word == "Mode" and value and values["Kind"] == 2:
            return word
        if word == "To" and value == values["From"]:
            return "SameNode"
        at += length
    name = data[at:at + value]
    if len(name) < value:
        return "Short"
    if not re.fullmatch(NAME, name):
        return "NameByte"
    return "Trailing" if len(data) > at + value else None


# ---- `ra node`

class Book:
    """A node, its clock, and what it did."""

    def __init__(self, version, me, nodes, start):
        self.version, self.me, self.nodes, self.start = version, me, nodes, start
        self.node, self.clock, self.taken = Node(me, nodes, start), 0, []

    def take(self, event):
        """Makes an event happen, and returns it with what came of it, or the word with which it is refused."""
        frame = event.frame if isinstance(event, Receive) else None
        clock = 1 + max(self.clock, frame.clock if frame else 0)
        # The refusals of the node come before that of the clock. A copy of the node takes the event.
        before = self.kept()
        came = self.node.receive(frame.message) if frame else self.node.take(event)
        if isinstance(came, str) or clock > LAST_CLOCK:
            self.node = before
            return came if isinstance(came, str) else "ClockFull"
        self.clock = clock
        self.taken.append(Taken(clock, self.me, event, *came))
        return self.taken[-1]

    def kept(self):
        """Returns a copy of the node."""
        node = type(self.node)(self.me, self.nodes, self.node.start)
        for name, at in self.node.names.items():
            node.names[name] = Resource(at.highest, at.own, set(at.awaited), dict(at.deferred), list(at.queue))
        return node

    def answer(self, line):
        """Returns the lines with which a line is answered."""
        event = event_of(line, self.version)
        taken = event if isinstance(event, str) else self.take(event)
        if isinstance(taken, str):
            return [f"refused {taken}"]
        sends = [f"send {it.receiver} {encoded(Frame(it, taken.clock)).hex()}" for it in taken.sends]
        return [*sends, *taken.marks, "ok"]


def answered(text):
    """Returns the status and the standard output of `ra node`."""
    lines = text.split(b"\n")[:-1]
    first = first_of(lines[0]) if lines else None
    if not first:
        return 2, b"refused Line\n"
    book = Book(*first)
    printed = ["ok", *(it for line in lines[1:] for it in book.answer(line))]
    return 0, "".join(f"{it}\n" for it in printed).encode()


# ---- `ra settle`

class Books:
    """The books of a text, up to its first wrong line."""

    def __init__(self):
        # By their nodes; the book that is read; and the frames that came, each with the number of its line.
        self.books, self.book, self.came = {}, None, []

    def take(self, number, line):
        """Takes a line, and returns the cause if it is wrong."""
        first = first_of(line)
        if first:
            # Versions are not compared.
            others = self.books.values()
            if first[1] in self.books or any((it.nodes, it.start) != first[2:] for it in others):
                return "Books"
            self.book = self.books[first[1]] = Book(*first)
            return None
        event = event_of(line, self.book.version) if self.book else "Line"
        if event == "Line":
            return "Line"
        if isinstance(event, str) or isinstance(self.book.take(event), str):
            return "Refused"
        if isinstance(event, Receive):
            self.came.append((number, event.frame))
        return None

    def fault(self, after, repeats):
        """Returns the line and the cause if the books don't settle, or `None`. `after` is the number of lines plus 1."""
        if len(self.books) < self.book.nodes:
            return after, "Books"
        sent = {Frame(it, taken.clock) for taken in self.taken() for it in taken.sends}
        for number, frame in self.came:
            if frame not in sent:
                return number, "NotSent"
        messages = set()
        for number, frame in self.came:
            if frame.message in messages and not repeats:
                return number, "Twice"
            messages.add(frame.message)
        return None

    def taken(self):
        """Returns the events of the run in order."""
        return sorted((it for book in self.books.values() for it in book.taken), key=lambda it: (it.clock, it.node))

    def totals(self):
        """Returns the totals. A cancel of a client that waits has a mark, and that of a queued client has none."""
        taken = self.taken()
        words = collections.Counter(mark.split(" ")[0] for it in taken for mark in it.marks)
        events = collections.Counter(type(it.event) for it in taken)
        sent = sum(len(it.sends) for it in taken)
        totals = {
            "requests": words["request"], "messages": sent, "under-way": sent - len({frame for _, frame in self.came}), "lost": 0,
            "waiting": words["request"] - words["enter"] - words["withdraw"],
            "queued": events[Ask] + words["withdraw"] - words["request"] - events[Cancel],
        }
        return {**totals, "withdrawn": words["withdraw"]} if words["withdraw"] else totals

    def report(self):
        """Returns the lines of the marks and of the totals."""
        marks = [mark for it in self.taken() for mark in it.marks]
        return marks + [f"{word} {count}" for word, count in self.totals().items()]

    def trace(self):
        """Returns the lines of the trace."""
        left = collections.Counter(frame for _, frame in self.came)
        # The steps are written as they are in the books, and no node takes them again.
        world = World(self.book.nodes, self.book.start)
        for it in self.taken():
            if isinstance(it.event, Receive):
                frame = it.event.frame
                left[frame] -= 1
                repeated = [Done(Move("repeat", frame.message), [], [])] if left[frame] else []
                world.steps += [*repeated, Done(Move("deliver", frame.message), it.sends, it.marks)]
            else:
                world.steps.append(Done(Act(it.node, it.event), it.sends, it.marks))
        return world.trace()


def settled(text, repeats=False, traces=False):
    """Returns the status and the standard output of `ra settle`, with the options `--repeats` and `--trace` or without."""
    books, lines = Books(), text.split(b"\n")[:-1]
    fault = None if lines else (1, "Line")
    for number, line in enumerate(lines, 1):
        cause = books.take(number, line)
        if cause:
            fault = number, cause
            break
    fault = fault or books.fault(len(lines) + 1, repeats)
    if fault:
        return invalid(*fault)
    printed = books.trace() if traces else books.report()
    return 0, "".join(f"{it}\n" for it in printed).encode()
