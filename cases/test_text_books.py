"""Books of 64 nodes, lines of any bytes, and what is said of wrong lines far on in a long text."""
import unittest

from cases import RaTest, run


def answer(book):
    """Returns the status and standard output of `ra node`."""
    return run("node", book)[:2]


def highest_books(count):
    """Returns so many books of 64 nodes, those of the highest nodes, from the highest down. At each, a client asks for a name
    of its own."""
    return "".join(f"book 1 {node} 64 7\nask {node} n{node} S\n" for node in range(64, 64 - count, -1)).encode()


class Books(unittest.TestCase):
    def test_a_request_goes_to_63_nodes(self):
        sends = [f"send {to} 02010040{to:04x}010000000000000001000000000000000104646f6f72\n" for to in range(1, 64)]
        answers = "".join(["ok\n", *sends, "request 64 7 door X 1\nok\n"])
        self.assertEqual((0, answers.encode()), answer(b"book 1 64 64 0\nask 7 door X\n"))

    def test_lines_of_any_bytes_are_answered(self):
        """Each byte in place of a digit has an answer."""
        for number in range(256):
            byte = bytes([number])
            if byte.isdigit():
                answers = b"ok\nrequest 1 %b a X 1\nenter 1 %b a X 1\nok\n" % (byte, byte)
            elif byte == b"\n":
                answers = b"ok\nrefused Line\nrefused Line\n"
            else:
                answers = b"ok\nrefused Line\n"
            with self.subTest(byte):
                self.assertEqual((0, answers), answer(b"book 1 1 1 0\nask %b a X\n" % byte))

    def test_sixty_four_books_settle(self):
        """Each of 64 nodes asks all others, and nobody answers."""
        status, output, _ = run("settle", highest_books(64))
        self.assertEqual(0, status, output)
        for line in (b"requests 64", b"messages 4032", b"under-way 4032", b"waiting 64"):
            self.assertIn(line, output.split(b"\n"))
        status, trace, _ = run("settle --trace", highest_books(64))
        self.assertEqual((0, b"trace 2 64 7"), (status, trace.split(b"\n")[0]))

    def test_a_grant_by_63_nodes_settles(self):
        """Client 7 at node 64 asks at clock 1, each other node replies at clock 2, and the client leaves. The books and the
        replies may come in any order."""
        end = "000000000000000100000000000000{clock}0172"
        request, reply = "020100400{to}01" + end, "02020{sender}004000" + end
        others = [f"{it:03x}" for it in range(1, 64)]
        heard = [f"book 1 {int(it, 16)} 64 0\nreceive {request.format(to=it, clock='01')}\n" for it in others]
        came = [f"receive {reply.format(sender=it, clock='02')}\n" for it in others]
        marks = [f"{it} 64 7 r X 1" for it in ("request", "enter", "leave")]
        printed = "\n".join([*marks, "requests 1", "messages 126", "under-way 0", "lost 0", "waiting 0", "queued 0", ""]).encode()
        for step in (1, -1):
            asks = "".join(["book 1 64 64 0\nask 7 r X\n", *came[::step], "release 7 r\n"])
            books = "".join([*heard, asks][::step]).encode()
            self.assertEqual((0, printed), run("settle", books)[:2])
            self.assertEqual((0, printed), run("settle --repeats", books)[:2])
            trace = run("settle --trace", books)[1]
            self.assertEqual((0, b"valid\nrequests 1\nmessages 126\n"), run("check", trace)[:2])

    def test_the_book_of_each_node_is_needed(self):
        self.assertEqual((3, b"invalid 127 Books\n"), run("settle", highest_books(63))[:2])


# Client 0 of node 1 of 2 asks at clock 1, and 5999 others are queued: 6001 lines of 76903 bytes. Notes on other commands remember
# 65537 bytes of an input.
LONG = "book 1 1 2 0\n" + "".join(f"ask {client} r X\n" for client in range(6000))
# The REQUEST of client 0 with its clock, and with another one.
REQUEST = "receive 02010001000201000000000000000100000000000000010172"
REQUEST_AT_2 = "receive 02010001000201000000000000000100000000000000020172"
NO_LINE = "not a line of a book (see ra settle --help); each line ends with a line feed alone, and the text begins with the \
first line of a book"
NOT_GRANTED = "and does not hold it: expected its grant first"
ONE_EACH = "expected one book of each node"
NOT_SENT = "its sender's book did not send this frame with this clock: expected one that ra node prints for that book"
TWICE = "this message came by an earlier line: expected each message once, unless --repeats is given"


class LongBooks(RaTest):
    """What is said of a wrong line does not depend on how long the text before it is."""

    def expect_note(self, books, line, cause, note, words="settle"):
        """Fails unless this line of the books is wrong for this cause, and this is said of it."""
        self.expect(words=words, input=books, status=3, output=f"invalid {line} {cause}\n", note=f"ra: line {line}{note}\n")

    def test_the_text_is_long(self):
        self.assertEqual((6001, 76903), (LONG.count("\n"), len(LONG)))

    def test_a_line_of_no_form(self):
        self.expect_note(f"{LONG}what\n", 6002, "Line", f", 'what', in the book of node 1: {NO_LINE}")
        # The first 60 bytes of a line are quoted.
        for count in (60, 61, 256, 257, 100000):
            shown = "w" * 60 + (".." if count > 60 else "")
            self.expect_note(f"{LONG}{'w' * count}\n", 6002, "Line", f", '{shown}', in the book of node 1: {NO_LINE}")

    def test_an_event_that_is_refused(self):
        # Client 0 asked in line 2, and so on.
        queued = f"in the book of node 1: client 9 has been queued for 'r' (X) since line 11 {NOT_GRANTED}"
        self.expect_note(f"{LONG}release 9 r\n", 6002, "Refused", f", 'release 9 r', {queued}")
        waits = f"in the book of node 1: client 0 has waited for 'r' (X) since line 2 {NOT_GRANTED}"
        self.expect_note(f"{LONG}release 0 r\n", 6002, "Refused", f", 'release 0 r', {waits}")
        frame = f", '{REQUEST}', in the book of node 1, a frame of node 1 with clock 1"
        self.expect_note(f"{LONG}{REQUEST}\n", 6002, "Refused", f"{frame}: the frame is for node 2: expected one for node 1")
        # The book of node 1 comes after a long one of node 2.
        other = "".join(f"ask {client} k X\n" for client in range(6000))
        books = f"book 1 2 2 0\n{other}book 1 1 2 0\nask 9 r S\nrelease 9 r\n"
        waits = f"in the book of node 1: client 9 has waited for 'r' (S) since line 6003 {NOT_GRANTED}"
        self.expect_note(books, 6004, "Refused", f", 'release 9 r', {waits}")

    def test_a_second_book(self):
        again = "this node has a book already, which begins at line"
        self.expect_note(f"{LONG}book 1 1 2 0\n", 6002, "Books", f", 'book 1 1 2 0': {again} 1: {ONE_EACH}")
        books = f"book 1 2 2 0\n{LONG}book 1 1 2 0\n"
        self.expect_note(books, 6003, "Books", f", 'book 1 1 2 0': {again} 2: {ONE_EACH}")

    def test_a_book_of_another_cluster(self):
        expected = "expected NODES 2 and START 0, as at line 1"
        for first in ("book 1 2 3 0", "book 1 2 2 5"):
            self.expect_note(f"{LONG}{first}\n", 6002, "Books", f", '{first}': {expected}")

    def test_a_book_is_missing(self):
        expected = "expected one book of each of 2 nodes"
        self.expect_note(LONG, 6002, "Books", f": the book of node 2 is missing: {expected}")
        # A line without a line feed is passed over.
        self.expect_note(f"{LONG}what", 6002, "Books", f": the book of node 2 is missing: {expected}")

    def test_a_frame_that_was_not_sent(self):
        frame = f", '{REQUEST_AT_2}', in the book of node 2, a frame of node 1 with clock 2: {NOT_SENT}"
        books = f"{LONG}book 1 2 2 0\n{REQUEST_AT_2}\n"
        self.expect_note(books, 6003, "NotSent", frame)
        self.expect_note(books, 6003, "NotSent", frame, "settle --repeats --trace")

    def test_a_message_that_comes_again(self):
        books = f"{LONG}book 1 2 2 0\n{REQUEST}\n{REQUEST}\n"
        self.expect_note(books, 6004, "Twice", f", '{REQUEST}', in the book of node 2, a frame of node 1 with clock 1: {TWICE}")
