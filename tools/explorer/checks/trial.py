"""What the checks of the page share: what was tried so far, the program that the page is compared with, and the server."""
import contextlib
import os
import re
import subprocess
import sys

ROOT = os.path.dirname(os.path.dirname(os.path.dirname(os.path.dirname(os.path.realpath(__file__)))))
EXAMPLES = os.path.join(ROOT, "examples")
EXPLORE = os.path.join(ROOT, "tools", "explore")
FOLDERS = {".toml": "scripts", ".trace": "traces", ".marks": "logs"}
SECONDS = 60
TWO = "nodes = 2\nclient = [{ node = 1, ops = [\"X r\", \"U r\"] }, { node = 2, ops = [\"X r\", \"U r\"] }]\n"


def example(name):
    with open(os.path.join(EXAMPLES, FOLDERS[os.path.splitext(name)[1]], name), encoding="utf-8") as it:
        return it.read()


class Trial:
    """What was tried so far."""

    def __init__(self):
        self.passed = self.failed = 0

    def same(self, what, expected, came):
        if expected == came:
            self.passed += 1
            return
        self.failed += 1
        print(f"check-explorer: {what}\n  expected: {expected!r}\n  came:     {came!r}", flush=True)

    def has(self, what, part, came):
        """Checks that a text has a part."""
        self.same(what, f"a text with: {part}", f"a text with: {part}" if part in (came or "") else came)

    def is_true(self, what, fact):
        self.same(what, True, bool(fact))

    def attempt(self, each, *args):
        """Does some checks. If they cannot go on, as the page lacks a button or the browser ends, that is a failure, too."""
        try:
            each(*args)
        except (OSError, subprocess.TimeoutExpired) as why:
            self.failed += 1
            print(f"check-explorer: {each.__name__} cannot go on: {why}", flush=True)


class Ra:
    """The program whose output is compared with the page."""

    def __init__(self, path):
        self.path = path

    def run(self, words, given):
        done = subprocess.run([self.path, *words], input=given.encode(), stdout=subprocess.PIPE, stderr=subprocess.PIPE, timeout=SECONDS)
        return done.stdout.decode(), done.stderr.decode()

    def state(self, script, choices):
        """Returns the lines of a state but the first, in ascending order."""
        return sorted(self.run(["sim", "--policy", "listed", f"--choices={' '.join(choices)}", "--state"], script)[0].splitlines()[1:])

    def trace(self, script, choices):
        return self.run(["sim", "--policy", "listed", f"--choices={' '.join(choices)}", "--trace"], script)[0]


@contextlib.contextmanager
def serving(*words):
    """Starts tools/explore, and yields its process and the address that it prints."""
    process = subprocess.Popen([sys.executable, EXPLORE, "--no-browser", *words], stdout=subprocess.PIPE, text=True)
    try:
        found = re.match(r"explore: (http://127\.0\.0\.1:([0-9]+)/#([A-Za-z0-9_-]+)) ", process.stdout.readline())
        if not found:
            sys.exit("check-explorer: tools/explore did not print its address")
        yield process, found[1], int(found[2]), found[3]
    finally:
        if process.poll() is None:
            process.kill()
        process.wait()
        process.stdout.close()


def steps_of(trace):
    """Returns the lines of the steps."""
    return [line for line, _ in beginnings(trace)]


def beginnings(trace):
    """Yields the line of each step, and the trace that ends after its marks."""
    lines = trace.splitlines()
    words = ("ask", "release", "cancel", "forget", "deliver", "lose", "repeat")
    places = [place for place, line in enumerate(lines) if line.split(" ")[0] in words]
    ends = [*places[1:], len(lines) - (lines[-1:] == ["end"])]
    for place, end in zip(places, ends):
        yield lines[place], "\n".join([*lines[:end], "end", ""])
