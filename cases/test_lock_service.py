"""Which files a host of the lock service takes for its book, by their first lines, and how its clients give up."""
import os
import socket
import subprocess
import sys
import tempfile
import time
import unittest

from cases import FOLDER, LIMIT, RA

HOST = f"{FOLDER}/../examples/lock-service/host.py"
# The first lines of other files, and what is said of each.
OTHERS = {
    b"[Unit]\n": "is no book of a node: it begins with '[Unit]', and not with a line such as 'book 2 2 3 0'",
    b"\x7fELF\x02\n": r"is no book of a node: it begins with '\x7fELF\x02', and not with a line such as 'book 2 2 3 0'",
    b"book 1 2 3 0\r\n": r"is no book of a node: it begins with 'book 1 2 3 0\r', and not with a line such as 'book 2 2 3 0'",
    b"book 1 2 65 0\n": "is no book of a node: it begins with 'book 1 2 65 0', and not with a line such as 'book 2 2 3 0'",
    b"book 1 4 3 0\n": "is no book of a node: it begins with 'book 1 4 3 0', and not with a line such as 'book 2 2 3 0'",
    b"book 1 2 3 18446744073709551616\n":
        "is no book of a node: it begins with 'book 1 2 3 18446744073709551616', and not with a line such as 'book 2 2 3 0'",
    b"book 1 1 3 0\n": "is of node 1 of 3 with numbers from 0 on, and not of node 2 of 3 with numbers from 0 on",
    b"book 1 2 64 0\n": "is of node 2 of 64 with numbers from 0 on, and not of node 2 of 3 with numbers from 0 on",
    b"book 1 2 3 7\nask 1 r X\n": "is of node 2 of 3 with numbers from 7 on, and not of node 2 of 3 with numbers from 0 on",
}
# Whole books of the node, in either version, and two that were cut off in their first lines.
OWN = [b"book 2 2 3 0\n", b"book 2 2 3 0\nask 1 r X\n", b"book 2 2", b"book 1 2 3 0\n", b"book 1 2 3 0\nask 1 r X\n", b"book 1 2", b""]


class FirstLines(unittest.TestCase):
    def said_of(self, text):
        """Returns what the host of node 2 of 3 says of a file with this text, with its path as BOOK, and the file after that."""
        with tempfile.TemporaryDirectory() as folder:
            book = os.path.join(folder, "file")
            with open(book, "wb") as file:
                file.write(text)
            # There is no such program, so that a host that takes the book ends, too.
            words = [HOST, "--node", "2", "--nodes", "3", "--book", book, "--ra", f"{folder}/ra"]
            done = subprocess.run([sys.executable, *words], stderr=subprocess.PIPE, timeout=LIMIT, check=False)
            self.assertEqual(done.returncode, 1)
            with open(book, "rb") as file:
                return done.stderr.decode().replace(book, "BOOK"), file.read()

    def test_another_file_is_left_alone_and_it_is_said_what_it_is(self):
        for text, expected in OTHERS.items():
            with self.subTest(text=text):
                said, left = self.said_of(text)
                self.assertIn(f"BOOK {expected}\n", said)
                self.assertEqual(left, text)

    def test_the_book_of_the_node_is_taken(self):
        for text in OWN:
            with self.subTest(text=text):
                said, _ = self.said_of(text)
                self.assertIn("host: there is no program ", said)


class Client:
    """A client of a host, by a connection of its own."""

    def __init__(self, port):
        self.socket = socket.create_connection(("127.0.0.1", port), timeout=LIMIT)
        self.lines = self.socket.makefile("rb")

    def say(self, *lines):
        self.socket.sendall("".join(f"{line}\n" for line in lines).encode())

    def ask(self, line):
        self.say(line)
        return self.lines.readline().decode().rstrip("\n")

    def end(self):
        self.lines.close()
        self.socket.close()


class GivingUp(unittest.TestCase):
    """At a cluster of one node, whose clients are numbered in the order in which they connect."""

    def setUp(self):
        folder = tempfile.TemporaryDirectory()
        self.addCleanup(folder.cleanup)
        self.book = os.path.join(folder.name, "book")
        with socket.socket() as free:
            free.bind(("127.0.0.1", 0))
            self.port = free.getsockname()[1]
        words = [HOST, "--node", "1", "--nodes", "1", "--book", self.book, "--clients", f"127.0.0.1:{self.port}", "--ra", RA]
        self.host = subprocess.Popen([sys.executable, *words], stderr=subprocess.PIPE)
        self.addCleanup(self.host.wait)
        self.addCleanup(self.host.stderr.close)
        self.addCleanup(self.host.kill)
        for line in self.host.stderr:
            if b" is ready" in line:
                return
        self.fail("the host has ended before it was ready")

    def connect(self):
        client = Client(self.port)
        self.addCleanup(client.end)
        return client

    def events(self):
        with open(self.book, encoding="ascii") as book:
            return book.read().splitlines()[1:]

    def wait_for(self, event):
        """Waits until the book has this event."""
        end = time.monotonic() + LIMIT
        while event not in self.events():
            self.assertLess(time.monotonic(), end, f"expected '{event}' in the book, which has {self.events()}")
            time.sleep(0.01)

    def test_a_client_whose_time_is_over_holds_nothing_and_may_ask_again(self):
        holder, other = self.connect(), self.connect()
        self.assertEqual(holder.ask("lock r X"), "granted 1")
        self.assertEqual(other.ask("lock r X within 0"), "timeout")
        began = time.monotonic()
        self.assertEqual(other.ask("lock r S within 0.2"), "timeout")
        self.assertGreaterEqual(time.monotonic() - began, 0.2)
        self.assertEqual(other.ask("unlock r"), "refused NotHeld")
        self.assertEqual(holder.ask("unlock r"), "unlocked")
        self.assertEqual(other.ask("lock r X within 1000000"), "granted 2")
        gave_up = ["ask 2 r X", "cancel 2 r", "ask 2 r S", "cancel 2 r"]
        self.assertEqual(self.events(), ["ask 1 r X", *gave_up, "release 1 r", "ask 2 r X"])

    def test_a_free_name_is_granted_within_no_time(self):
        self.assertEqual(self.connect().ask("lock r X within 0"), "granted 1")

    def test_only_decimal_seconds_up_to_a_million_are_a_time(self):
        client = self.connect()
        for time_given in ("1000001", "1000000.5", "x", "-1", "+1", "1e3", ".5", "2.", "1,5", "0x1", "12345678", "1 2"):
            with self.subTest(time=time_given):
                self.assertEqual(client.ask(f"lock r X within {time_given}"), "refused Line")
        self.assertEqual(client.ask("lock r X within"), "refused Line")
        self.assertEqual(self.events(), [])

    def test_a_client_that_is_gone_gives_up_and_its_later_lines_are_not_done(self):
        holder, gone, last = self.connect(), self.connect(), self.connect()
        self.assertEqual(holder.ask("lock r X"), "granted 1")
        gone.say("lock q X", "lock r X", "unlock q", "lock other X")
        self.wait_for("ask 2 r X")
        gone.end()
        self.wait_for("release 2 q")
        self.assertEqual(last.ask("lock q X within 0"), "granted 2")
        self.assertEqual(holder.ask("unlock r"), "unlocked")
        self.assertEqual(last.ask("lock r X within 0"), "granted 2")
        gone_is = ["ask 2 q X", "ask 2 r X", "cancel 2 r", "release 2 q"]
        self.assertEqual(self.events(), ["ask 1 r X", *gone_is, "ask 3 q X", "release 1 r", "ask 3 r X"])
