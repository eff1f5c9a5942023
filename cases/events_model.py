"""A model of a cluster whose clients may give up and whose nodes may forget names: its nodes, its lock table, its runs, and
what `ra check` prints of traces and mark logs, by the formats and by the rules of the algorithm."""
import collections
import dataclasses
import re

from settle_model import CONFLICTS, LAST_NUMBER, MODES, NAME, NUMBER, Message

# The events of a node.
Ask = collections.namedtuple("Ask", "client name mode")
Release = collections.namedtuple("Release", "client name")
Cancel = collections.namedtuple("Cancel", "client name")
Forget = collections.namedtuple("Forget", "")
# An entry of the lock table, in the order of the fields of a mark.
Entry = collections.namedtuple("Entry", "node client name mode number")
# A step of a run: an event of a client, a forget, or what happens to a message: `deliver`, `lose` or `repeat`.
Act = collections.namedtuple("Act", "node event")
Move = collections.namedtuple("Move", "word message")
# A step, what it sent, and the lines of its marks.
Done = collections.namedtuple("Done", "step sends marks")

MARKS = ("request", "enter", "leave", "withdraw")
EVENTS = {Ask: "ask", Release: "release", Cancel: "cancel", Forget: "forget"}


# ---- A node

@dataclasses.dataclass
class Resource:
    """A name at a node: `own` is the client that waits or is inside, and its mode and number."""
    highest: int
    own: tuple | None = None
    awaited: set = dataclasses.field(default_factory=set)
    deferred: dict = dataclasses.field(default_factory=dict)
    queue: list = dataclasses.field(default_factory=list)


class Node:
    """A node. Each event answers what it sends and the lines of its marks, or the word with which it is refused."""

    def __init__(self, me, nodes, start):
        self.me, self.start = me, start
        self.others = [it for it in range(1, nodes + 1) if it != me]
        self.names = {}

    def resource(self, name):
        return self.names.setdefault(name, Resource(self.start))

    def take(self, event):
        """Makes an event of a client happen, or a forget."""
        if isinstance(event, Forget):
            return self.forget()
        at = self.resource(event.name)
        if isinstance(event, Ask):
            return self.ask(event, at)
        return self.cancel(event, at) if isinstance(event, Cancel) else self.release(event, at)

    def ask(self, event, at):
        if event.client in [it[0] for it in [at.own, *at.queue] if it]:
            return "Busy"
        if at.highest == LAST_NUMBER:
            return "Exhausted"
        at.queue.append((event.client, event.mode))
        return ([], []) if at.own else self.request(event.name, at)

    def request(self, name, at):
        """The first client of the queue requests the name."""
        client, mode = at.queue.pop(0)
        at.highest += 1
        at.own, at.awaited = (client, mode, at.highest), set(self.others)
        sends = [Message("request", self.me, it, name, mode, at.highest) for it in self.others]
        return sends, [self.mark("request", name, at), *self.enters(name, at)]

    def release(self, event, at):
        is_inside = at.own and not at.awaited
        return self.end("leave", event.name, at) if is_inside and at.own[0] == event.client else "NotHeld"

    def cancel(self, event, at):
        """A queued client leaves the queue, and nothing else happens. One that waits ends its request."""
        if event.client in [it[0] for it in at.queue]:
            at.queue = [it for it in at.queue if it[0] != event.client]
            return [], []
        is_waiting = at.own and at.awaited
        return self.end("withdraw", event.name, at) if is_waiting and at.own[0] == event.client else "NotWaiting"

    def end(self, word, name, at):
        """The request ends, by a leave or a withdrawal: each deferred node gets its REPLY, and then the next client of the
        queue requests the name, if a number is left."""
        marks, sends = [self.mark(word, name, at)], self.replies(name, at)
        at.own, at.awaited, at.deferred = None, set(), {}
        more = self.request(name, at) if at.queue and at.highest < LAST_NUMBER else ([], [])
        return sends + more[0], marks + more[1]

    def replies(self, name, at):
        return [Message("reply", self.me, it, name, "", at.deferred[it]) for it in sorted(at.deferred)]

    def forget(self):
        """Numbers at the end stay, and don't count. All others become the greatest of them, and so does the start."""
        below = [it for it in [self.start, *(at.highest for at in self.names.values())] if it < LAST_NUMBER]
        if below:
            self.raise_to(max(below))
        return [], []

    def raise_to(self, number):
        self.start = number
        self.names = {name: at for name, at in self.names.items() if at.own or at.queue or at.highest == LAST_NUMBER}
        for at in self.names.values():
            at.highest = LAST_NUMBER if at.highest == LAST_NUMBER else number

    def receive(self, message):
        if message.receiver != self.me:
            return "WrongNode"
        if message.sender not in self.others:
            return "Stranger"
        at = self.resource(message.name)
        if message.kind == "request":
            return self.receive_request(message, at)
        if not self.is_awaited(message, at):
            return [], []
        at.awaited.remove(message.sender)
        return [], self.enters(message.name, at)

    def is_awaited(self, message, at):
        return bool(at.own) and message.number == at.own[2] and message.sender in at.awaited

    def receive_request(self, message, at):
        at.highest = max(at.highest, message.number)
        _, mode, number = at.own or (0, "", 0)
        is_earlier = (number, self.me) < (message.number, message.sender)
        if at.own and message.mode in CONFLICTS[mode].split() and is_earlier:
            at.deferred[message.sender] = max(at.deferred.get(message.sender, 0), message.number)
            return [], []
        return [Message("reply", self.me, message.sender, message.name, "", message.number)], []

    def enters(self, name, at):
        return [] if at.awaited else [self.mark("enter", name, at)]

    def mark(self, word, name, at):
        client, mode, number = at.own
        return f"{word} {self.me} {client} {name} {mode} {number}"


# ---- The lock table

def excludes(one, other):
    return one.name == other.name and one.mode in CONFLICTS[other.mode].split()


def stamp(entry):
    return entry.number, entry.node


class Table:
    """Who waits and who holds, and what was granted. Each call answers the cause if it is refused."""

    def __init__(self):
        self.waiting, self.holding, self.granted = [], [], []

    def take(self, word, entry):
        return {"request": self.request, "enter": self.enter, "leave": self.leave, "withdraw": self.withdraw}[word](entry)

    def request(self, entry):
        if any((it.node, it.name) == (entry.node, entry.name) for it in self.waiting + self.holding):
            return "NodeBusy"
        if any(it.name == entry.name and it.number >= entry.number for it in self.granted):
            return "NotAbove"
        self.waiting.append(entry)
        return None

    def enter(self, entry):
        if entry not in self.waiting:
            return "NotWaiting"
        if any(excludes(it, entry) for it in self.holding):
            return "Held"
        if any(excludes(it, entry) and stamp(it) < stamp(entry) for it in self.waiting):
            return "Earlier"
        self.waiting.remove(entry)
        self.holding.append(entry)
        self.granted.append(entry)
        return None

    def leave(self, entry):
        if entry not in self.holding:
            return "NotHeld"
        self.holding.remove(entry)
        return None

    def withdraw(self, entry):
        if entry not in self.waiting:
            return "NotWaiting"
        self.waiting.remove(entry)
        return None


# ---- A run

def words_of(message):
    """Returns a message as a line of a trace has it, after its first word."""
    return " ".join(str(it) for it in message if it != "")


def line_of(step):
    if isinstance(step, Move):
        return f"{step.word} {words_of(step.message)}"
    return " ".join(str(it) for it in [EVENTS[type(step.event)], step.node, *step.event])


class World:
    """All nodes, the messages under way in the order of sending, and the steps so far."""

    def __init__(self, nodes, start):
        self.nodes, self.start = nodes, start
        self.each = {it: Node(it, nodes, start) for it in range(1, nodes + 1)}
        self.under_way, self.steps = [], []

    def make(self, step):
        """Makes a step, and answers it with what it sent and marked, or the word with which it is refused."""
        came = self.move(step) if isinstance(step, Move) else self.act(step)
        if isinstance(came, str):
            return came
        self.under_way += came[0]
        self.steps.append(Done(step, *came))
        return self.steps[-1]

    def act(self, step):
        return self.each[step.node].take(step.event) if step.node in self.each else "NoNode"

    def move(self, step):
        if step.message not in self.under_way:
            return "NotUnderWay"
        if step.word == "repeat":
            self.under_way.append(step.message)
            return [], []
        self.under_way.remove(step.message)
        return ([], []) if step.word == "lose" else self.each[step.message.receiver].receive(step.message)

    def marks(self):
        return [mark for done in self.steps for mark in done.marks]

    def sent(self):
        return [message for done in self.steps for message in done.sends]

    def trace(self, with_sends=False):
        """Returns the lines of the trace. It is of version 2 if that suffices."""
        events = [it.step.event for it in self.steps if isinstance(it.step, Act)]
        version = 3 if with_sends or any(isinstance(it, (Cancel, Forget)) for it in events) else 2
        lines = [f"trace {version} {self.nodes} {self.start}" + " sends" * with_sends]
        for done in self.steps:
            lines += [line_of(done.step), *[f"send {words_of(it)}" for it in done.sends if with_sends], *done.marks]
        return [*lines, "end"]


# ---- Lines of traces and mark logs

FIRST_TRACE_LINE = re.compile(rb"trace ([123]) %b %b( sends)?" % (NUMBER, NUMBER))
# What follows each first word, and the version with which it comes. Lines of sends are a matter of the first line.
ENTRY = "NODE CLIENT NAME MODE SEQ"
FORMS = {
    "ask": ("NODE CLIENT NAME MODE", 1), "release": ("NODE CLIENT NAME", 1), "end": ("", 1),
    "request": (ENTRY, 1), "enter": (ENTRY, 1), "leave": (ENTRY, 1), "withdraw": (ENTRY, 3),
    "cancel": ("NODE CLIENT NAME", 3), "forget": ("NODE", 3),
}
for _word, _version in (("deliver", 1), ("lose", 1), ("repeat", 2), ("send", 3)):
    FORMS[f"{_word} request"] = ("NODE NODE NAME MODE SEQ", _version)
    FORMS[f"{_word} reply"] = ("NODE NODE NAME SEQ", _version)


def field_of(kind, word, version):
    """Returns the value of a field, or `None` if it is none of this kind."""
    if kind == "NAME":
        return word if re.fullmatch(NAME, word.encode()) else None
    if kind == "MODE":
        return word if word in (MODES if version > 1 else MODES[:2]) else None
    low, high = {"NODE": (1, 64 if version > 1 else 16), "CLIENT": (0, 2**32 - 1), "SEQ": (1, LAST_NUMBER)}[kind]
    return int(word) if re.fullmatch(NUMBER, word.encode()) and low <= int(word) <= high else None


def form_of(line, version):
    """Returns the first word of a line, with the kind of its message if it has one, and its fields, or `None`."""
    words = line.decode("latin-1").split(" ")
    for count in (1, 2):
        kinds, since = FORMS.get(" ".join(words[:count]), ("", 4))
        kinds, rest = kinds.split(), words[count:]
        if since <= version and len(kinds) == len(rest):
            fields = [field_of(kind, word, version) for kind, word in zip(kinds, rest)]
            return None if None in fields else (" ".join(words[:count]), fields)
    return None


def message_of(kind, fields):
    sender, receiver, name, *mode, number = fields
    return Message(kind, sender, receiver, name, mode[0] if mode else "", number)


def lines_of(text):
    """Returns the lines of a text. One without a line feed is `None`."""
    *lines, last = text.split(b"\n")
    return [*lines, None] if last else lines


# ---- `ra check`

class Checker:
    """Follows a trace, up to its first wrong line."""

    def __init__(self):
        self.world, self.table, self.version = None, Table(), 0
        self.has_sends = self.is_ended = False
        # The sends and the marks of the last step that have not come.
        self.sends, self.marks = [], []

    def take(self, line):
        """Takes a line, and returns the cause if it is wrong."""
        if self.world is None:
            return self.take_first(line)
        found = None if line is None or self.is_ended else form_of(line, self.version)
        word, kind = (found[0].split() + [""])[:2] if found else ("", "")
        if not found or word == "send" and not self.has_sends:
            return "Line"
        if word == "send":
            return self.take_send(message_of(kind, found[1]))
        if self.sends:
            return "Sends"
        if word in MARKS:
            return self.take_mark(word, line.decode(), Entry(*found[1]))
        if self.marks:
            return "Marks"
        self.is_ended = word == "end"
        return None if self.is_ended else self.take_step(word, kind, found[1])

    def take_first(self, line):
        found = FIRST_TRACE_LINE.fullmatch(line or b"")
        version, nodes, start = map(int, found.groups()[:3]) if found else (0, 0, 0)
        if not found or not 1 <= nodes <= (16 if version == 1 else 64) or start > LAST_NUMBER:
            return "Line"
        if found[4] and version < 3:
            return "Line"
        self.world, self.version, self.has_sends = World(nodes, start), version, bool(found[4])
        return None

    def take_send(self, message):
        if self.sends[:1] != [message]:
            return "Sends"
        self.sends.pop(0)
        return None

    def take_mark(self, word, line, entry):
        if self.table.take(word, entry):
            return "Table"
        if self.marks[:1] != [line]:
            return "Marks"
        self.marks.pop(0)
        return None

    def take_step(self, word, kind, fields):
        if kind:
            step = Move(word, message_of(kind, fields))
        else:
            event = {"ask": Ask, "release": Release, "cancel": Cancel, "forget": Forget}[word]
            step = Act(fields[0], event(*fields[1:]))
        done = self.world.make(step)
        if isinstance(done, str):
            return "NotUnderWay" if kind else "Refused"
        self.sends, self.marks = (list(done.sends) if self.has_sends else []), list(done.marks)
        return None


def invalid(line, cause):
    return 3, f"invalid {line} {cause}\n".encode()


def checked(text):
    """Returns the status and the standard output of `ra check`."""
    checker, lines = Checker(), lines_of(text)
    for number, line in enumerate(lines, 1):
        cause = checker.take(line)
        if cause:
            return invalid(number, cause)
    if not checker.is_ended:
        return invalid(len(lines) + 1, "Line")
    requests = sum(it.startswith("request ") for it in checker.world.marks())
    return 0, f"valid\nrequests {requests}\nmessages {len(checker.world.sent())}\n".encode()


def checked_marks(text):
    """Returns the status and the standard output of `ra check --marks`."""
    table, words = Table(), collections.Counter()
    for number, line in enumerate(lines_of(text), 1):
        word, fields = (form_of(line, 3) or ("", [])) if line is not None else ("", [])
        cause = table.take(word, Entry(*fields)) if word in MARKS else "Line"
        if cause:
            return invalid(number, cause)
        words[word] += 1
    return 0, f"valid\nrequests {words['request']}\ngrants {words['enter']}\n".encode()


CAUSES = ("Line", "NodeBusy", "NotAbove", "NotWaiting", "Held", "Earlier", "NotHeld")


def checked_all_marks(text):
    """Returns the status and the standard output of `ra check --marks --all`."""
    table, words, causes, firsts = Table(), collections.Counter(), collections.Counter(), {}
    for number, line in enumerate(lines_of(text), 1):
        word, fields = (form_of(line, 3) or ("", [])) if line is not None else ("", [])
        is_mark = word in MARKS
        cause = table.take(word, Entry(*fields)) if is_mark else "Line"
        if cause:
            firsts.setdefault(Entry(*fields).name if is_mark else None, f"invalid {number} {cause}")
            causes[cause] += 1
        else:
            words[word] += 1
    counts = [f"requests {words['request']}", f"grants {words['enter']}"]
    told = [*firsts.values(), *(f"{it} {causes[it]}" for it in CAUSES if causes[it])] if firsts else ["valid"]
    return (3 if firsts else 0), "".join(f"{it}\n" for it in told + counts).encode()
