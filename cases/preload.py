"""Runs of the program with two libraries loaded before it, by which its standard streams fail or go in pieces, and memory is
refused."""
import concurrent.futures
import dataclasses
import functools
import itertools
import os
import shlex
import shutil
import struct
import subprocess
import tempfile
import unittest

# The program itself, not RA: the libraries would also be loaded before the script `ra`, and before what that runs.
from cases import FOLDER, LIMIT, PROGRAM, RaTest, shown, text

TOOLS = f"{FOLDER}/../tools"
LIBRARIES = ("fail-streams", "refuse-growth")
COMPILER = shlex.split(os.environ.get("CC") or "cc")
# How many numbers `struct stream` of fail-streams.c has.
FIELDS = 7
NUMBERS = itertools.count()


@dataclasses.dataclass(frozen=True)
class Stream:
    """How a standard stream behaves. Each call gives or takes at most `piece` bytes, or any number if that is 0. If `before`
    is not negative, the call after so many bytes fails: with the error of this number, or by giving or taking nothing if
    that is 0. All calls after that go on as if nothing had failed."""
    before: int = -1
    fault: int = 0
    piece: int = 1


@dataclasses.dataclass(frozen=True)
class Run:
    """A run, and what is expected of it: some fields of `Done` by their names, each with its value."""
    words: str | list
    given: str | bytes = b""
    reader: Stream = Stream(piece=0)
    writer: Stream = Stream(piece=0)
    notes: Stream = Stream(piece=0)
    refused: int = 0
    expected: dict = dataclasses.field(default_factory=dict)


@dataclasses.dataclass(frozen=True)
class Done:
    """What came of a run. Of the input, standard output and standard error it also has how many bytes they gave or took,
    whether they failed, and how many calls came after that or after the end of the input."""
    status: int
    output: bytes
    note: bytes
    is_refused: bool
    read: int
    read_failed: bool
    read_after: int
    written: int
    write_failed: bool
    written_after: int
    noted: int
    note_failed: bool
    noted_after: int


@functools.cache
def folder():
    """Builds the libraries in a folder that is removed when Python ends."""
    made = tempfile.TemporaryDirectory(prefix="ra-cases-")
    for it in LIBRARIES:
        subprocess.run([*COMPILER, "-O2", "-shared", "-fPIC", "-o", f"{made.name}/{it}.so", f"{TOOLS}/{it}.c"], check=True)
    return made


def packed(run):
    """Returns the contents of the file that FAILED_STREAMS names."""
    streams = (run.reader, run.writer, run.notes)
    return b"".join(struct.pack(f"{FIELDS}q", it.piece, it.before, it.fault, 0, 0, 0, 0) for it in streams)


def used(content):
    """Returns what the library wrote into the file: for each stream its bytes, whether it failed, and the calls after."""
    streams = struct.iter_unpack(f"{FIELDS}q", content)
    return [it for _, _, _, count, failed, _, after in streams for it in (count, bool(failed), after)]


def do(run):
    """Makes a run, and returns what came of it."""
    words = run.words.split() if isinstance(run.words, str) else run.words
    at = folder().name
    name = f"{at}/{next(NUMBERS)}"
    met = f"{name}.met"
    with open(name, "wb") as it:
        it.write(packed(run))
    # Paths relative to the folder of the run, since a space in a full path would end it.
    loaded = ":".join(f"./{it}.so" for it in LIBRARIES)
    more = {"LD_PRELOAD": loaded, "FAILED_STREAMS": name, "REFUSED_GROWTH": str(run.refused), "REFUSED_NOTE": met}
    how = {"capture_output": True, "timeout": LIMIT, "check": False, "cwd": at, "env": {**os.environ, **more}}
    done = subprocess.run([PROGRAM, *words], input=text(run.given), **how)
    with open(name, "rb") as it:
        streams = used(it.read())
    os.remove(name)
    is_refused = os.path.exists(met)
    if is_refused:
        os.remove(met)
    return Done(done.returncode, done.stdout, done.stderr, is_refused, *streams)


def wrong(run, done):
    """Returns what is wrong with what came of a run, as a text, or nothing."""
    said = []
    for name, expected in run.expected.items():
        found = getattr(done, name)
        if found != expected:
            said.append(f"\n{name}: expected {expected}, but it is {shown(found) if isinstance(found, bytes) else found}")
    if said:
        said.append(f"\nstatus {done.status}, standard output:\n{shown(done.output)}\nand standard error:\n{shown(done.note)}")
    return "".join(said)


class PreloadTest(RaTest):
    """A test with these libraries. Without a C compiler, which builds them, it is skipped."""

    def setUp(self):
        if not shutil.which(COMPILER[0]):
            self.skipTest(f"{COMPILER[0]} is missing")
        folder()
        self.pool = concurrent.futures.ThreadPoolExecutor(os.cpu_count())
        self.addCleanup(self.pool.shutdown, cancel_futures=True)

    def expect_of(self, runs):
        """Makes runs, several at a time, fails if something is wrong with one of them, and returns what came of them."""
        came = list(self.pool.map(do, runs))
        self.assertTrue(came)
        for run, done in zip(runs, came):
            said = wrong(run, done)
            if said:
                how = f"reader {run.reader}\nwriter {run.writer}\nnotes {run.notes}\nallocation refused: {run.refused}"
                self.fail(f"ra {run.words}\n{how}{said}")
        return came
