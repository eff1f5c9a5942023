"""Standard output that fails once after each byte that a command prints: it has the bytes before that, and no more."""
import errno

from cases import TEXTS, text
from preload import PreloadTest, Run, Stream

# A fault of 0 takes nothing.
FAULTS = (errno.EINTR, errno.EAGAIN, errno.EPIPE, errno.EIO, 0)
ANSWER = "answer --node 2 --nodes 3"
# A REPLY to an idle node, which is taken in silence.
SILENT = "0102010200000000000000000100000000000000010172"
VERDICT = "valid\nrequests 1\nmessages 2\n"
LOG_VERDICT = "valid\nrequests 2\ngrants 2\n"
# The log of a service that lets the second in beside the first.
BOTH_INSIDE = """request 1 17 orders X 41
enter 1 17 orders X 41
request 2 8 orders X 42
enter 2 8 orders X 42
leave 1 17 orders X 41
leave 2 8 orders X 42
"""
# The book of a node that is alone, with a line of no form.
LONELY_BOOK = "book 1 1 1 0\nask 7 r X\nask 7\nrelease 7 r\n"
# Books in which a REQUEST comes twice, and is answered twice; nothing comes back to the client.
ANSWERED_TWICE = ("ASKS", "ANSWERS", "REQUEST_AT_1", "REQUEST_AT_1_OF_1")
ANSWERED_TWICE_PRINTED = """request 1 7 r X 1
requests 1
messages 3
under-way 2
lost 0
waiting 1
queued 0
"""
ANSWERED_TWICE_TRACE = """trace 2 2 0
ask 1 7 r X
request 1 7 r X 1
repeat request 1 2 r X 1
deliver request 1 2 r X 1
deliver request 1 2 r X 1
end
"""


def fails_after(words, given, printed, before, fault, piece=1):
    """Returns a run whose output fails after so many bytes of what it prints, and is not asked again."""
    came = {"status": 1, "output": printed.encode()[:before], "write_failed": True, "written_after": 0}
    return Run(words, given, writer=Stream(before, fault, piece), expected=came)


class FailingWriters(PreloadTest):
    def expect_prefixes(self, words, given, printed):
        """Fails if the output has anything but a prefix of these bytes when it fails before the last of them. It goes byte by
        byte, and whole."""
        places = range(len(printed))
        whole = [fails_after(words, given, printed, it, errno.EINTR, piece=0) for it in places]
        self.expect_of([fails_after(words, given, printed, it, fault) for fault in FAULTS for it in places] + whole)

    def expect_written(self, words, given, printed, status):
        """Fails if the output has not all when it would fail after the last byte."""
        came = {"status": status, "output": printed.encode(), "written": len(printed), "write_failed": False}
        places = [Stream(len(printed), fault, piece) for fault in FAULTS for piece in (0, 1)]
        self.expect_of([Run(words, given, writer=it, expected=came) for it in places])

    def test_a_writer_that_fails_has_a_prefix_of_an_answer(self):
        self.expect_prefixes(ANSWER, TEXTS["REQUEST"], TEXTS["REPLY"])
        self.expect_prefixes(ANSWER, "zz", "refused Hex\n")
        self.expect_prefixes("", TEXTS["REQUEST"], "refused Usage\n")
        self.expect_prefixes("--help", "", "Simulate, run, check")

    def test_a_writer_fails_only_if_something_is_to_be_written(self):
        self.expect_written(ANSWER, TEXTS["REQUEST"], TEXTS["REPLY"], 0)
        self.expect_written(ANSWER, SILENT, "", 0)

    def test_a_writer_that_fails_has_a_prefix_of_the_lines(self):
        outputs = (
            ("sim", TEXTS["ONE_CLIENT_PRINTED"]),
            ("sim --trace", TEXTS["ONE_CLIENT_TRACE"]),
            ("sim --trace --sends", TEXTS["ONE_LOCK_SENDS"]),
            ("sim --as-choices", "c1 m0 m0 c1\n"),
            ("sim --shrink", "none\n"),
            ("sim --state", "steps 4\nnode 1 r 1 idle\nnode 2 r 1 idle\nclient 1 1 done\n"),
        )
        for words, printed in outputs:
            self.expect_prefixes(words, TEXTS["ONE_CLIENT"], printed)
            self.expect_written(words, TEXTS["ONE_CLIENT"], printed, 0)

    def test_a_writer_that_fails_has_a_prefix_of_what_the_threads_did(self):
        outputs = (
            ("cluster", "ONE_CLIENT_PRINTED"),
            ("cluster --trace", "ONE_CLIENT_TRACE"),
            ("cluster --books", "ONE_CLIENT_BOOKS"),
        )
        for words, printed in outputs:
            self.expect_prefixes(words, TEXTS["ONE_CLIENT"], TEXTS[printed])
            self.expect_written(words, TEXTS["ONE_CLIENT"], TEXTS[printed], 0)
        self.expect_prefixes("cluster", TEXTS["TWO_NAMES"], "refused OutOfOrder\n")

    def test_a_writer_that_fails_has_a_prefix_of_the_verdict(self):
        self.expect_prefixes("check", TEXTS["ONE_CLIENT_TRACE"], VERDICT)
        self.expect_written("check", TEXTS["ONE_CLIENT_TRACE"], VERDICT, 0)

    def test_a_writer_that_fails_has_a_prefix_of_the_verdict_on_marks(self):
        self.expect_prefixes("check --marks", TEXTS["IN_TURN_LOG"], LOG_VERDICT)
        self.expect_written("check --marks", TEXTS["IN_TURN_LOG"], LOG_VERDICT, 0)
        self.expect_prefixes("check --marks", BOTH_INSIDE, "invalid 4 Held\n")

    def test_a_writer_that_fails_has_the_first_bytes_of_a_picture(self):
        for words, given in (("draw", "ONE_CLIENT_TRACE"), ("draw --marks", "IN_TURN_LOG")):
            self.expect_prefixes(words, TEXTS[given], '<svg xmlns="http://www.w3.org/2000/svg"')

    def test_a_writer_that_fails_has_a_prefix_of_the_answers_to_a_book(self):
        answers = "ok\nrequest 1 7 r X 1\nenter 1 7 r X 1\nok\nrefused Line\nleave 1 7 r X 1\nok\n"
        self.expect_prefixes("node", LONELY_BOOK, answers)
        self.expect_written("node", LONELY_BOOK, answers, 0)
        self.expect_prefixes("node", "what\n", "refused Line\n")
        self.expect_written("node", "what\n", "refused Line\n", 2)

    def test_a_writer_that_fails_has_a_prefix_of_what_books_come_to(self):
        books = TEXTS["BOOKS_ONE"] + TEXTS["BOOKS_TWO"]
        self.expect_prefixes("settle", books, TEXTS["BOOKS_DONE"])
        self.expect_written("settle", books, TEXTS["BOOKS_DONE"], 0)
        self.expect_prefixes("settle --trace", books, TEXTS["BOOKS_DONE_TRACE"])
        self.expect_prefixes("settle", TEXTS["BOOKS_UNASKED"], "invalid 3 NotSent\n")
        self.expect_written("settle", TEXTS["BOOKS_UNASKED"], "invalid 3 NotSent\n", 3)

    def test_a_writer_that_fails_has_a_prefix_of_what_books_with_copies_come_to(self):
        books = text([TEXTS[it] for it in ANSWERED_TWICE])
        outputs = (("settle --repeats", ANSWERED_TWICE_PRINTED), ("settle --repeats --trace", ANSWERED_TWICE_TRACE))
        for words, printed in outputs:
            self.expect_prefixes(words, books, printed)
            self.expect_written(words, books, printed, 0)
        self.expect_prefixes("settle", books, "invalid 5 Twice\n")
        self.expect_written("settle", books, "invalid 5 Twice\n", 3)
        self.expect_prefixes("settle --repeats", TEXTS["BOOKS_UNASKED"], "invalid 3 NotSent\n")
