"""Texts of books, each cut off after every byte, and those of random runs with a few changes, beside a model of `ra settle`."""
import concurrent.futures
import os
import random
import subprocess
import tempfile
import unittest

from cases import LIMIT, RA, TEXTS, run, shown, text
from settle_model import MODES, Ask, Frame, Node, Receive, Release, encoded, settled

# Each command, and the options of the model.
COMMANDS = {
    "settle": {},
    "settle --trace": {"traces": True},
    "settle --repeats": {"repeats": True},
    "settle --repeats --trace": {"repeats": True, "traces": True},
}
RUNS = 600
# The most bytes that a text of books may have, which `ra settle` keeps, and the memory that a test with it should find.
MOST = 1_073_741_824
ENOUGH = 2 * MOST
# Books of two nodes. The REQUEST of client 7, for which client 8 waits in the queue, comes to node 2 twice, in both versions;
# client 7 does not hold there. After each number of lines the verdict was worked out by hand.
CUT_OFF = ["ASKS", "ask 8 r S\n", "ANSWERS", "REQUEST_AT_1", "ask 9 k IS\n", "REQUEST_AT_1_OF_1", "LEAVES"]
NO_LINE = "invalid 1 Line\n"
NO_SECOND_BOOK = [f"invalid {it} Books\n" for it in (2, 3, 4)]
CUT_OFF_VERDICTS = {
    "settle": [NO_LINE, *NO_SECOND_BOOK, *["settled"] * 3, "invalid 7 Twice\n", "invalid 8 Refused\n"],
    "settle --repeats --trace": [NO_LINE, *NO_SECOND_BOOK, *["settled"] * 4, "invalid 8 Refused\n"],
}
# Bytes that a line has, and some that it has not.
BYTES = b"0123456789abcdefXS krx\r\n\x00\xff"


def line_of(choice, event):
    """Returns the line of an event. Its frame is in either version, if version 1 has it, and in digits of either case."""
    if isinstance(event, Ask):
        return f"ask {event.client} {event.name} {event.mode}".encode()
    if isinstance(event, Release):
        return f"release {event.client} {event.name}".encode()
    version = choice.choice((1, 2)) if event.frame.message.mode in ("S", "X", "") else 2
    digits = encoded(event.frame, version).hex()
    return f"receive {digits.upper() if choice.random() < 0.3 else digits}".encode()


def event_at(choice, under_way):
    """Returns a node's number as far as the event decides it, and an event: what a client does, or that a frame comes, of
    which a copy may stay under way."""
    if under_way and choice.random() < 0.7:
        place = choice.randrange(len(under_way))
        frame = under_way[place] if choice.random() < 0.15 else under_way.pop(place)
        return frame.message.receiver, Receive(frame)
    client, name = choice.randint(1, 2), choice.choice("rk")
    return None, Release(client, name) if choice.random() < 0.5 else Ask(client, name, choice.choice(MODES))


def books_of_a_run(choice):
    """Returns the lines of the books of a random run, in a random order of the nodes."""
    nodes, start = choice.randint(1, 3), choice.choice((0, 0, 7, 2**64 - 3))
    cluster = {it: Node(it, nodes, start) for it in range(1, nodes + 1)}
    books = {it: [f"book 1 {it} {nodes} {start}".encode()] for it in cluster}
    under_way = []
    for _ in range(choice.randint(0, 25)):
        node, event = event_at(choice, under_way)
        node = node or choice.randint(1, nodes)
        step = cluster[node].take(event)
        if step:
            books[node].append(line_of(choice, event))
            under_way += [Frame(it, step.clock) for it in step.sends]
    order = list(books)
    choice.shuffle(order)
    return [line for node in order for line in books[node]]


def change(choice, lines):
    """Changes some lines: one of them goes, comes twice, changes places with another one, or has another byte."""
    place, other = choice.randrange(len(lines)), choice.randrange(len(lines))
    kind = choice.randrange(4)
    if kind == 0:
        lines.pop(place)
    elif kind == 1:
        lines.insert(other, lines[place])
    elif kind == 2:
        lines[place], lines[other] = lines[other], lines[place]
    else:
        line = bytearray(lines[place])
        line[choice.randrange(len(line))] = choice.choice(BYTES)
        lines[place] = bytes(line)


def changed_books(seed):
    """Returns the books of a random run, in which up to two lines are changed, and which may be cut off."""
    choice = random.Random(seed)
    lines = books_of_a_run(choice)
    for _ in range(choice.choice((0, 0, 1, 1, 2))):
        if lines:
            change(choice, lines)
    whole = b"".join(it + b"\n" for it in lines)
    return whole[:-choice.randint(1, 40)] if choice.random() < 0.1 else whole


class Settling(unittest.TestCase):
    def expect_of(self, pairs):
        """Fails unless each of these commands prints of its text what the model does, and returns what each printed, or
        `settled`."""
        with concurrent.futures.ThreadPoolExecutor(os.cpu_count()) as pool:
            came = list(pool.map(lambda it: run(*it), pairs))
        for (words, given), (status, output, _) in zip(pairs, came):
            expected = settled(given, **COMMANDS[words])
            if (status, output) != expected:
                said = f"expected status {expected[0]} and\n{shown(expected[1])}\nbut it is {status} and\n{shown(output)}"
                self.fail(f"ra {words}, of\n{shown(given)}\n{said}")
        return [output.decode() if status else "settled" for status, output, _ in came]

    def test_books_that_are_cut_off_after_any_byte(self):
        """All that counts is how many lines are left."""
        whole = text([TEXTS[it] if it in TEXTS else it for it in CUT_OFF])
        for words, verdicts in CUT_OFF_VERDICTS.items():
            with self.subTest(words):
                texts = [whole[:it] for it in range(len(whole) + 1)]
                expected = [verdicts[it.count(b"\n")] for it in texts]
                self.assertEqual(self.expect_of([(words, it) for it in texts]), expected)

    def test_books_with_copies_that_are_cut_off_after_any_byte(self):
        whole = text(TEXTS["AROUND_A_LEAVE"])
        came = self.expect_of([("settle --repeats", whole[:it]) for it in range(len(whole) + 1)])
        self.assertEqual([came[0], came[-1]], ["invalid 1 Line\n", "settled"])

    def test_books_of_random_runs(self):
        words = list(COMMANDS)
        came = self.expect_of([(words[it % len(words)], changed_books(it)) for it in range(RUNS)])
        # Each verdict comes.
        found = {it.split()[-1] for it in came}
        self.assertEqual(found, {"settled", "Line", "Books", "Refused", "NotSent", "Twice"})

    def test_a_text_that_is_too_long(self):
        """The file takes no room on the disk. All its bytes are zeros, which are no first line."""
        if os.sysconf("SC_AVPHYS_PAGES") * os.sysconf("SC_PAGE_SIZE") < ENOUGH:
            self.skipTest("too little memory is free")
        rows = [(MOST, 3, b"invalid 1 Line\n"), (MOST + 1, 2, b"refused Limit\n")]
        with tempfile.TemporaryFile() as zeros:
            for size, *expected in rows:
                zeros.truncate(size)
                zeros.seek(0)
                done = subprocess.run([RA, "settle"], stdin=zeros, capture_output=True, timeout=LIMIT, check=False)
                with self.subTest(size):
                    self.assertEqual([done.returncode, done.stdout], expected)
