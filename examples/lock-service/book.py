"""The book of a node, in a file, and the node that it determines."""
import fcntl
import os
import re
import select
import subprocess

from failing import fail

FIRST = re.compile(r"book [12] ([1-9][0-9]?) ([1-9][0-9]?) (0|[1-9][0-9]{0,19})\n")


def node_of(line):
    """Returns the node, the number of nodes and the start that the first line of a book names, or `None` if the line is none."""
    fields = FIRST.fullmatch(line)
    node, nodes, start = map(int, fields.groups()) if fields else (0, 0, 0)
    return (node, nodes, start) if 1 <= node <= nodes <= 64 and start < 1 << 64 else None


class Book:
    """What was handed to a node, line by line, in a file. No two hosts can have it open."""

    def __init__(self, options):
        self.path, self.fsync = options.book, options.fsync
        self.added = []  # lines that are not in the file yet
        first = f"book 2 {options.node} {options.nodes} {options.start}"
        try:
            self.file = open(self.path, "ab")
            fcntl.flock(self.file, fcntl.LOCK_EX | fcntl.LOCK_NB)
            self.check_first(f"{first}\n")
            # A crash may have cut the last line off. Nothing that it caused went out, so it never happened.
            with open(self.path, "rb") as file:
                whole = sum(len(line) for line in file if line.endswith(b"\n"))
            self.file.truncate(whole)
            if not whole:
                self.add(first)
                self.write()
                if self.fsync:
                    self.sync_folder()
        except BlockingIOError:
            fail(f"another host has the book {self.path} open")
        except OSError as why:
            fail(f"cannot open the book: {why}")

    def check_first(self, first):
        """Ends the host before it changes a file that is no book of this node. A first line may have been cut off."""
        with open(self.path, encoding="latin-1", newline="\n") as file:
            found = file.readline(256)
        older = first.replace("book 2 ", "book 1 ", 1)
        if first.startswith(found) or older != found and older.startswith(found):
            return
        if found == older:
            # A book of version 1, without cancels, is one of version 2 from now on: only this digit differs.
            with open(self.path, "r+b") as file:
                file.seek(len("book "))
                file.write(b"2")
            return
        named = node_of(found)
        if not named:
            found = ascii(found.rstrip("\n")[:60])
            fail(f"{self.path} is no book of a node: it begins with {found}, and not with a line such as '{first.rstrip()}'")
        other, this = ("node {} of {} with numbers from {} on".format(*it) for it in (named, node_of(first)))
        fail(f"the book {self.path} is of {other}, and not of {this}")

    def sync_folder(self):
        folder = os.open(os.path.dirname(os.path.abspath(self.path)), os.O_RDONLY)
        os.fsync(folder)
        os.close(folder)

    def add(self, line):
        self.added.append(line)

    def write(self):
        """Writes the lines that were added. After this they are in the file, even if the host is killed. They outlast a
        power cut only with fsync."""
        if not self.added:
            return
        try:
            self.file.write("".join(f"{line}\n" for line in self.added).encode("latin-1"))
            self.file.flush()
            if self.fsync:
                os.fsync(self.file.fileno())
        except OSError as why:
            fail(f"cannot write to the book {self.path}: {why}")
        self.added.clear()

    def lines(self):
        """Returns the lines of the file, without their line feeds."""
        with open(self.path, encoding="latin-1", newline="\n") as file:
            yield from (line[:-1] for line in file)


class Node:
    """The program `ra node`, as a child process: lines of a book go in, and their answers come out. When the host dies,
    its standard input ends, and so does the node."""

    def __init__(self, program):
        try:
            self.process = subprocess.Popen([program, "node"], stdin=subprocess.PIPE, stdout=subprocess.PIPE)
        except FileNotFoundError:
            fail(
                f"there is no program {program}: at the top of the repository, `./ra --help` builds crates/ra/out/ra, once,"
                " in 11 to 24 minutes on four processors"
            )
        except OSError as why:
            fail(f"cannot start the node: {why}")

    def answers(self, lines):
        """Hands these lines to the node, and returns the answer to each: its lines, as lists of words. The last one is
        `ok` or `refused WORD`. The lines must fit into any pipe together, or both processes could wait for each other."""
        try:
            self.process.stdin.write("".join(f"{line}\n" for line in lines).encode("latin-1"))
            self.process.stdin.flush()
            return [self.read_answer() for _ in lines]
        except OSError as why:
            fail(f"the node has ended: {why}")

    def read_answer(self):
        answer = []
        while not answer or answer[-1][0] not in ("ok", "refused"):
            words = self.process.stdout.readline().decode("latin-1").split()
            if not words:
                fail("the node has ended")
            answer.append(words)
        return answer

    def replay(self, lines):
        """Hands a whole book to the node. Returns the answers in turn."""
        some, size = [], 0
        for line in lines:
            if size + len(line) >= select.PIPE_BUF:
                yield from self.answers(some)
                some, size = [], 0
            some.append(line)
            size += len(line) + 1
        yield from self.answers(some)
