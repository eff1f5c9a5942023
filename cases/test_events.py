"""Random runs whose clients give up and whose nodes forget names, beside the models of `ra node`, `ra settle` and `ra check`:
their books, traces and mark logs, many with lines that are gone, doubled, exchanged or changed."""
import concurrent.futures
import os
import random
import unittest

from cases import run, shown
from event_books_model import Book, Receive, answered, settled
from events_model import Act, Ask, Cancel, EVENTS, Forget, Move, Release, World, checked, checked_all_marks, checked_marks
from settle_model import LAST_CLOCK, LAST_NUMBER, MODES, Frame, Message, encoded

# Each command, and what the model says of a text.
COMMANDS = {
    "settle": settled,
    "settle --trace": lambda text: settled(text, traces=True),
    "settle --repeats": lambda text: settled(text, repeats=True),
    "settle --repeats --trace": lambda text: settled(text, repeats=True, traces=True),
    "node": answered,
    "check": checked,
    "check --marks": checked_marks,
    "check --marks --all": checked_all_marks,
}
RUNS = 400
# Bytes that a line has, and some that it has not.
BYTES = b"0123456789abcdefXS krx\r\n\x00\xff"


def event_at(choice, node):
    """Returns what a client does at a node, or a forget. It often is a client that has asked for the name."""
    name, kind = choice.choice("rrrk"), choice.choice((Ask, Ask, Ask, Release, Release, Cancel, Cancel, Forget))
    at = node.resource(name)
    there = [it[0] for it in [at.own, *at.queue] if it]
    client = choice.choice(there) if there and kind is not Ask and choice.random() < 0.8 else choice.randint(1, 3)
    return Forget() if kind is Forget else Ask(client, name, choice.choice(MODES)) if kind is Ask else kind(client, name)


# ---- Books

def line_of(choice, event):
    """Returns the line of an event. Its frame is in either version, if version 1 has it, and in digits of either case."""
    if not isinstance(event, Receive):
        return " ".join(str(it) for it in [EVENTS[type(event)], *event]).encode()
    version = choice.choice((1, 2)) if event.frame.message.mode in ("S", "X", "") else 2
    digits = encoded(event.frame, version).hex()
    return f"receive {digits.upper() if choice.random() < 0.3 else digits}".encode()


def step_of_books(choice, cluster, under_way):
    """Returns a node's number, and its event. Of a frame that comes, a copy may stay under way."""
    if under_way and choice.random() < 0.6:
        place = choice.randrange(len(under_way))
        frame = under_way[place] if choice.random() < 0.03 else under_way.pop(place)
        return frame.message.receiver, Receive(frame)
    node = choice.choice(list(cluster))
    return node, event_at(choice, cluster[node].node)


def books_of_a_run(choice, is_one=False):
    """Returns the books of a random run, each as its lines. If only one of them is read, it may have lines that are refused, and
    one of the last clocks may come in a frame."""
    nodes, start = choice.choice((1, 2, 2, 3)), choice.choice((0, 0, 0, 7, LAST_NUMBER - 2))
    cluster = {it: Book(2, it, nodes, start) for it in range(1, nodes + 1)}
    books, under_way = {it: [] for it in cluster}, []
    if is_one and nodes > 1 and choice.random() < 0.1:
        under_way.append(Frame(Message("request", 2, 1, "k", "S", 3), LAST_CLOCK - choice.randint(1, 4)))
    for _ in range(choice.randint(0, 30)):
        node, event = step_of_books(choice, cluster, under_way)
        taken = cluster[node].take(event)
        if is_one or not isinstance(taken, str):
            books[node].append(line_of(choice, event))
        under_way += [] if isinstance(taken, str) else [Frame(it, taken.clock) for it in taken.sends]
    return [[first_line(choice, node, nodes, start, lines), *lines] for node, lines in books.items()]


def first_line(choice, node, nodes, start, lines):
    """Returns a first line of version 2, or of version 1 if that suffices, and seldom if it does not."""
    is_new = any(it.startswith((b"cancel", b"forget")) for it in lines)
    version = 1 if choice.random() < (0.05 if is_new else 0.6) else 2
    return f"book {version} {node} {nodes} {start}".encode()


# ---- Traces

def step_of_a_run(choice, world):
    if world.under_way and choice.random() < 0.6:
        word = choice.choices(("deliver", "lose", "repeat"), (8, 1, 1))[0]
        return Move(word, choice.choice(world.under_way))
    node = choice.randint(1, world.nodes)
    return Act(node, event_at(choice, world.each[node]))


def world_of(choice):
    """Returns a random run."""
    world = World(choice.choice((1, 2, 2, 3, 4)), choice.choice((0, 0, 0, 7, LAST_NUMBER - 2)))
    for _ in range(choice.randint(0, 40)):
        world.make(step_of_a_run(choice, world))
    return world


# ---- Texts

def change(choice, lines):
    """Changes some lines: one of them goes, comes twice, changes places with another one, or has another byte."""
    place, other = choice.randrange(len(lines)), choice.randrange(len(lines))
    kind = choice.randrange(4)
    if kind == 0:
        lines.pop(place)
    elif kind == 1:
        lines.insert(other, lines[place])
    elif kind == 2:
        lines[place], lines[other] = lines[other], lines[place]
    else:
        line = bytearray(lines[place] or b" ")
        line[choice.randrange(len(line))] = choice.choice(BYTES)
        lines[place] = bytes(line)


def changed(choice, lines):
    """Returns the text of these lines, in which up to two are changed, and which may be cut off."""
    for _ in range(choice.choice((0, 0, 0, 1, 2))):
        if lines:
            change(choice, lines)
    whole = b"".join(it + b"\n" for it in lines)
    return whole[:-choice.randint(1, 40)] if choice.random() < 0.06 else whole


def text_for(words, seed):
    """Returns a text for a command."""
    choice = random.Random(f"{words} {seed}")
    if words == "node":
        return changed(choice, choice.choice(books_of_a_run(choice, is_one=True)))
    if words.startswith("settle"):
        books = books_of_a_run(choice)
        choice.shuffle(books)
        return changed(choice, [line for book in books for line in book])
    world = world_of(choice)
    lines = world.marks() if "--marks" in words else world.trace(choice.random() < 0.5)
    return changed(choice, [it.encode() for it in lines])


class Events(unittest.TestCase):
    def expect_of(self, words):
        """Fails unless the command prints of its random texts what the model does, and returns what it printed."""
        texts = [text_for(words, it) for it in range(RUNS)]
        with concurrent.futures.ThreadPoolExecutor(os.cpu_count()) as pool:
            came = list(pool.map(lambda it: run(words, it), texts))
        for given, (status, output, _) in zip(texts, came):
            expected = COMMANDS[words](given)
            if (status, output) != expected:
                said = f"expected status {expected[0]} and\n{shown(expected[1])}\nbut it is {status} and\n{shown(output)}"
                self.fail(f"ra {words}, of\n{shown(given)}\n{said}")
        return [output.decode() for _, output, _ in came]

    def test_books_of_all_nodes(self):
        words = {"settle": {"Twice"}, "settle --trace": {"Twice"}, "settle --repeats": set(), "settle --repeats --trace": set()}
        for command, more in words.items():
            with self.subTest(command):
                came = self.expect_of(command)
                found = {it.split()[-1] for it in came if it.startswith("invalid")}
                self.assertEqual(found, {"Line", "Books", "Refused", "NotSent"} | more)
                self.assertGreater(sum("\nwithdraw " in it for it in came), RUNS // 20)

    def test_a_node(self):
        lines = [line for it in self.expect_of("node") for line in it.split("\n")]
        found = {it.split()[-1] for it in lines if it.startswith("refused")}
        self.assertLessEqual({"Line", "Busy", "Exhausted", "NotHeld", "NotWaiting", "ClockFull"}, found)
        self.assertTrue(any(it.startswith("withdraw ") for it in lines))

    def test_traces(self):
        found = {it.split()[-1] for it in self.expect_of("check") if it.startswith("invalid")}
        self.assertEqual(found, {"Line", "Sends", "Table", "Marks", "Refused", "NotUnderWay"})

    def test_mark_logs(self):
        found = {it.split()[-1] for it in self.expect_of("check --marks") if it.startswith("invalid")}
        self.assertLessEqual({"Line", "NodeBusy", "NotWaiting", "NotHeld"}, found)

    def test_mark_logs_with_all_wrong_lines(self):
        found = {line.split()[0] for it in self.expect_of("check --marks --all") for line in it.splitlines()}
        self.assertLessEqual({"valid", "invalid", "Line", "NodeBusy", "NotWaiting", "NotHeld"}, found)
