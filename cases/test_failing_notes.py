"""What is said on standard error of a standard stream that fails, and what becomes of a command that cannot say anything."""
import errno

from cases import TEXTS
from preload import PreloadTest, Run, Stream

ANSWER = "answer --node 2 --nodes 3"
NO_MEMORY = b"ra: out of memory\n"
NO_UTF_8 = b"ra: a command-line argument is not valid UTF-8\n"
UNREAD = b"ra: cannot read standard input\n"
UNWRITTEN = b"ra: cannot write to standard output\n"

# How a writer fails, or 0 if it takes nothing, and the note for that.
SAID = [
    (errno.EPIPE, b""),
    (errno.ENOSPC, b"ra: cannot write to standard output: no space left on device\n"),
    (errno.EINTR, UNWRITTEN),
    (errno.EAGAIN, UNWRITTEN),
    (errno.EIO, UNWRITTEN),
    (0, UNWRITTEN),
]

# Commands of each kind, the name of the input or its bytes, how the output begins, and the note of the command itself.
BROKEN = [
    (ANSWER, "REQUEST", "020200020001", ""),
    ("sim", "ONE_CLIENT", "request 1 1 r X 1\n", ""),
    ("sim --trace", "ONE_CLIENT", "trace 2 2 0\n", ""),
    ("sim --as-choices", "ONE_CLIENT", "c1 m0 m0 c1\n", ""),
    ("sim --state", "ONE_CLIENT", "steps 4\n", ""),
    ("sim --policy seeded --seeds 1..2", "ONE_CLIENT", "finished 2 first 1\n", ""),
    ("sim --policy seeded --seeds 1..2 --find finished", "ONE_CLIENT", "trace 2 2 0\n", ""),
    ("cluster", "ONE_CLIENT", "request 1 1 r X 1\n", ""),
    ("cluster --books", "ONE_CLIENT", "book 1 1 2 0\n", ""),
    ("check", "ONE_CLIENT_TRACE", "valid\nrequests 1\n", ""),
    ("check", None, "invalid 1 Line\n", ""),
    # Of a verdict that was not printed it is not said what is left at the end, or that a log has no mark.
    ("check", "LOST_TRACE", "valid\nrequests 1\n", ""),
    ("check --marks", None, "valid\nrequests 0\n", ""),
    ("check --marks", b"no mark\n", "invalid 1 Line\n", ""),
    ("draw", "ONE_CLIENT_TRACE", "<svg xmlns=", ""),
    ("draw", None, "invalid 1 Line\n", ""),
    ("node", b"book 1 1 1 0\nask 7 r X\n", "ok\nrequest 1 7 r X 1\n", ""),
    ("settle", b"book 1 1 1 0\nask 7 r X\n", "request 1 7 r X 1\n", ""),
    ("settle", "BOOKS_UNASKED", "invalid 3 NotSent\n", ""),
    ("settle --repeats", "ALL_TWICE", "request 1 7 r X 1\n", ""),
    ("settle --repeats --trace", "ALL_TWICE", "trace 2 2 0\n", ""),
    ("settle --repeats", "BOOKS_UNASKED", "invalid 3 NotSent\n", ""),
    ("--help", None, "Simulate, run, check", ""),
    ("sim --help", None, "Run a script", ""),
    ("--version", None, "ra 0.2.0", ""),
    ("sim --find stuck", "ONE_CLIENT", "refused Usage\n", "ra: --find requires --seeds; see ra sim --help\n"),
    ("answer --node 4 --nodes 3", "REQUEST", "refused BadNode\n", "ra: --node is 4: must be 1 to 3\n"),
]

# The note on the line of a trace that is not a mark.
NO_MARK = "ra: line 1, 'trace 2 2 0': this looks like a trace, which is read without --marks\n"
# The note on the end of the log of one request.
ONE_LEFT = "ra: the log ends with 1 request waiting\nra: "
ONE_LEFT += "client 1 at node 1 has waited for 'r' (X) since line 1: no client blocks it\n"
# The note on the line of books by which a frame comes that was not sent.
UNSENT = "ra: line 3, 'receive 02020002000100000000000000000100000000000000020172', in the book of node 1, "
UNSENT += "a frame of node 2 with clock 2: its sender's book did not send this frame with this clock: "
UNSENT += "expected one that ra node prints for that book\n"


def breaks_off(words, given, printed, fault, note, refused=0):
    """Returns a run whose output fails after 7 bytes."""
    came = {"status": 1, "output": printed.encode()[:7], "write_failed": True, "written_after": 0, "note": note}
    return Run(words, given, writer=Stream(7, fault), refused=refused, expected=came)


class FailingNotes(PreloadTest):
    def test_a_reader_that_fails_is_said(self):
        came = {"status": 1, "output": b"refused Read\n", "note": UNREAD}
        self.expect_of([Run("sim", TEXTS["ONE_CLIENT"], Stream(0, errno.EAGAIN), expected=came)])

    def test_a_writer_that_fails_is_said_unless_nobody_reads_on(self):
        for fault, said in SAID:
            runs = []
            for words, given, printed, note in BROKEN:
                given = TEXTS[given] if isinstance(given, str) else given or b""
                runs.append(breaks_off(words, given, printed, fault, note.encode() + said))
            self.expect_of(runs)

    def test_a_reader_and_a_writer_that_fail_are_said_both(self):
        came = {"status": 1, "output": b"refused", "note": UNREAD + UNWRITTEN}
        fault = {"reader": Stream(0, errno.EIO), "writer": Stream(7, errno.EIO)}
        self.expect_of([Run("sim", "", **fault, expected=came)])

    def test_why_words_are_not_there_is_said(self):
        usage = {"status": 2, "output": b"refused Usage\n", "note": NO_UTF_8}
        memory = {"status": 2, "output": b"refused Memory\n", "note": NO_MEMORY, "is_refused": True}
        self.expect_of([Run(["sim", b"\xff"], expected=usage), Run("sim", refused=1, expected=memory)])

    def test_a_writer_that_fails_is_said_of_words_that_are_not_there(self):
        for fault, said in SAID:
            runs = [
                breaks_off("sim", "", "refused Memory\n", fault, NO_MEMORY + said, refused=1),
                breaks_off(["sim", b"\xff"], "", "refused Usage\n", fault, NO_UTF_8 + said),
            ]
            self.expect_of(runs)

    def test_a_fault_of_the_notes_changes_nothing_else(self):
        runs = []
        for fault, _ in SAID:
            for place in range(len(NO_MARK)):
                came = {"status": 3, "output": b"invalid 1 Line\n", "note": NO_MARK.encode()[:place]}
                came |= {"note_failed": True, "noted_after": 0}
                runs.append(Run("check --marks", TEXTS["ONE_CLIENT_TRACE"], notes=Stream(place, fault), expected=came))
        self.expect_of(runs)

    def test_a_fault_of_the_note_on_an_end_changes_nothing_else(self):
        runs = []
        for fault, _ in SAID:
            for place in range(0, len(ONE_LEFT), 7):
                came = {"status": 0, "output": b"valid\nrequests 1\ngrants 0\n", "note": ONE_LEFT.encode()[:place]}
                came |= {"note_failed": True, "noted_after": 0}
                runs.append(Run("check --marks", "request 1 1 r X 1\n", notes=Stream(place, fault), expected=came))
        self.expect_of(runs)

    def test_a_fault_of_the_note_on_books_changes_nothing_else(self):
        runs = []
        for fault, _ in SAID:
            for place in range(0, len(UNSENT), 7):
                came = {"status": 3, "output": b"invalid 3 NotSent\n", "note": UNSENT.encode()[:place]}
                came |= {"note_failed": True, "noted_after": 0}
                notes = Stream(place, fault)
                runs += [Run(it, TEXTS["BOOKS_UNASKED"], notes=notes, expected=came) for it in ("settle", "settle --repeats")]
        self.expect_of(runs)
