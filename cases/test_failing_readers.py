"""Standard input that fails once, in place of each of its bytes or of its end, and how much of it a command reads."""
import dataclasses
import errno

from cases import TEXTS
from preload import PreloadTest, Run, Stream

FAULTS = (errno.EINTR, errno.EAGAIN, errno.EPIPE, errno.EIO)
ANSWER = "answer --node 2 --nodes 3"
# The lines of a book, each with its answer.
BOOK = [
    ("book 1 1 1 0\n", "ok\n"),
    ("ask 7 r X\n", "request 1 7 r X 1\nenter 1 7 r X 1\nok\n"),
    ("ask 7\n", "refused Line\n"),
    ("release 7 r\n", "leave 1 7 r X 1\nok\n"),
]
# The most bytes that are read of a frame, a script and a trace.
FRAME_LIMIT = 258
SCRIPT_LIMIT = 65_537
TRACE_LIMIT = 16_777_217


def fails_after(words, given, before, fault, piece=1):
    """Returns a run whose input fails after so many bytes. It would go on after that, but is not asked again."""
    is_fault = {"status": 1, "output": b"refused Read\n", "note": b"ra: cannot read standard input\n"}
    is_over = {"read": before, "read_failed": True, "read_after": 0}
    return Run(words, given, reader=Stream(before, fault, piece), expected={**is_fault, **is_over})


def fails_at_each_byte(words, given):
    """Returns runs of which the input fails before its first byte, and after each. It goes byte by byte, and whole."""
    places = range(len(given) + 1)
    whole = [fails_after(words, given, it, errno.EINTR, piece=0) for it in places]
    return [fails_after(words, given, it, fault) for fault in FAULTS for it in places] + whole


def fails_at_the_end(words, given):
    return [fails_after(words, given, len(given), it) for it in FAULTS]


def long_queue():
    """Returns the lines of a trace that is longer than a trace may be: one client enters, and many ask after it."""
    name = "a_name_that_has_thirty_two_bytes"
    first = f"trace 1 1 0\nask 1 1 {name} X\nrequest 1 1 {name} X 1\nenter 1 1 {name} X 1\n"
    return first + "".join(f"ask 1 {it} {name} X\n" for it in range(1_000_000_000, 1_000_322_640))


class FailingReaders(PreloadTest):
    def test_a_reader_that_fails_once_at_any_byte_of_a_frame_is_a_fault(self):
        self.expect_of(fails_at_each_byte(ANSWER, TEXTS["REQUEST_LINE"]))

    def test_a_reader_that_fails_after_any_byte_of_a_script_is_a_fault(self):
        sims = ("sim", "sim --trace", "sim --trace --sends", "sim --as-choices", "sim --shrink", "sim --state")
        for words in (*sims, "cluster"):
            self.expect_of(fails_at_each_byte(words, TEXTS["ONE_CLIENT"]))

    def test_a_reader_that_fails_after_any_byte_of_a_trace_is_a_fault(self):
        for words in ("check", "draw"):
            self.expect_of(fails_at_each_byte(words, TEXTS["ONE_CLIENT_TRACE"]))

    def test_a_reader_that_fails_after_any_byte_of_a_log_is_a_fault(self):
        for words in ("check --marks", "draw --marks"):
            self.expect_of(fails_at_each_byte(words, TEXTS["IN_TURN_LOG"]))

    def test_a_reader_that_fails_after_any_byte_of_books_is_a_fault(self):
        for words, given in (("settle", "BOOKS_UNASKED"), ("settle --repeats", "BOOKS_TWO_AGAIN")):
            self.expect_of(fails_at_each_byte(words, TEXTS[given]))

    def test_a_reader_that_fails_after_any_byte_of_a_book_is_a_fault_after_the_answers(self):
        given = "".join(line for line, _ in BOOK)
        runs = []
        for run in fails_at_each_byte("node", given):
            answers = "".join(answer for _, answer in BOOK[:given[:run.reader.before].count("\n")])
            runs.append(dataclasses.replace(run, expected={**run.expected, "output": f"{answers}refused Read\n".encode()}))
        self.expect_of(runs)

    def test_each_prefix_of_a_book_has_its_answers_in_whatever_pieces_it_comes(self):
        given = "".join(line for line, _ in BOOK)
        runs = []
        for length in range(len(given) + 1):
            lines = given[:length].count("\n")
            came = {"status": 0, "output": "".join(answer for _, answer in BOOK[:lines]).encode()}
            if not lines:
                # The line of the book is not there.
                came = {"status": 2, "output": b"refused Line\n"}
            runs += [Run("node", given[:length], Stream(piece=piece), expected=came) for piece in range(1, 6)]
        self.expect_of(runs)

    def test_a_fault_of_the_reader_comes_before_what_is_wrong_with_the_line(self):
        line = TEXTS["REQUEST_LINE"]
        for given in ("0" * (FRAME_LIMIT - 1), line + "0", line + "\n", "zz\nzz", "zz"):
            self.expect_of(fails_at_the_end(ANSWER, given))

    def test_a_fault_of_the_reader_comes_before_what_is_wrong_with_the_script(self):
        for given in (TEXTS["ONE_CLIENT"], "nodes = ", TEXTS["A_KEEPER"], TEXTS["TWO_NAMES"]):
            self.expect_of(fails_at_the_end("cluster", given))

    def test_a_fault_of_the_reader_comes_before_what_is_wrong_with_the_books(self):
        for words in ("settle", "settle --trace", "settle --repeats", "settle --repeats --trace"):
            for given in ("", "what\n", TEXTS["BOOKS_ONE"], TEXTS["BOOKS_UNASKED"], TEXTS["BOOKS_ONE"] + TEXTS["BOOKS_TWO"]):
                self.expect_of(fails_at_the_end(words, given))


class UnaskedReaders(PreloadTest):
    """Readers that would fail if they were asked, or asked again."""

    def test_a_reader_is_not_asked_after_its_end(self):
        for piece in (0, 1):
            came = {"output": TEXTS["REPLY"].encode(), "read": len(TEXTS["REQUEST_LINE"]), "read_after": 0}
            given = {"given": TEXTS["REQUEST_LINE"], "reader": Stream(piece=piece)}
            self.expect_of([Run(ANSWER, **given, expected={"status": 0, "note": b"", **came})])

    def test_words_and_choices_are_refused_before_anything_is_read(self):
        rows = [("sim --choices q1", "Choice"), ("sim --policy latest", "Usage"), ("sim --seed x", "Usage")]
        for words, refusal in rows:
            came = {"status": 2, "output": f"refused {refusal}\n".encode(), "read": 0, "read_failed": False}
            self.expect_of([Run(words, TEXTS["ONE_CLIENT"], Stream(0, errno.EPIPE), expected=came)])

    def expect_a_limit(self, words, given, limit, refusal, piece):
        """Fails if a text is not refused, or more than its first bytes are read."""
        came = {"status": 2, "output": f"refused {refusal}\n".encode(), "read": limit, "read_failed": False}
        self.expect_of([Run(words, given, Stream(limit, errno.EPIPE, piece), expected=came)])

    def test_a_line_that_is_too_long_is_refused_before_a_fault_after_it(self):
        for piece in (0, 1):
            self.expect_a_limit(ANSWER, "0" * (FRAME_LIMIT + 2), FRAME_LIMIT, "Line", piece)

    def test_a_text_that_is_too_long_is_refused_before_a_fault_after_it(self):
        for words in ("sim", "sim --trace", "cluster"):
            for piece in (0, 1):
                self.expect_a_limit(words, " " * (SCRIPT_LIMIT + 3), SCRIPT_LIMIT, "Limit", piece)

    def test_a_trace_that_is_too_long_is_refused(self):
        # Byte by byte it would take some 30 seconds. 257 divides the limit.
        for piece in (0, 257):
            self.expect_a_limit("check", long_queue(), TRACE_LIMIT, "Limit", piece)
