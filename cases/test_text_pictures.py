"""Pictures of traces and mark logs: how often words stand in them, and when there is none."""
import unittest

from cases import TEXTS, run

# The trace of a request that is repeated, of which one is lost and the other is under way at the end.
LOST_AND_REPEATED = """\
trace 2 2 0
ask 1 7 disk.2 SIX
request 1 7 disk.2 SIX 1
repeat request 1 2 disk.2 SIX 1
lose request 1 2 disk.2 SIX 1
end
"""

# What stands in each picture, which is one element without a script or another file.
IN_EACH = [
    ("<svg", 1),
    ("</svg>", 1),
    ("<script", 0),
    ("href", 0),
    ("url(http", 0),
]

# What stands in the picture of the one client that locks and unlocks.
ONE_LOCK_WORDS = [
    ("<title>2 nodes, 1 request, 2 messages</title>", 1),
    ("<title>node 1</title>", 1),
    ("<title>node 2</title>", 1),
    ("<title>client 1 at node 1 asks for r, exclusive</title>", 1),
    ("<title>request 1 from node 1 to node 2 for r, exclusive, sent at line 2, delivered at line 4</title>", 1),
    ("<title>reply 1 from node 2 to node 1 for r, sent at line 4, delivered at line 5</title>", 1),
    ("<title>client 1 at node 1 waits for r, exclusive, number 1, from line 2 to line 5</title>", 1),
    ("<title>client 1 at node 1 holds r, exclusive, number 1, from line 5 to line 7</title>", 1),
    ("<title>client 1 at node 1 leaves r</title>", 1),
    (">request 1 r X</text>", 1),
    (">reply 1 r</text>", 1),
    (">asks r X</text>", 1),
    (">leaves r</text>", 1),
    # Each message has its line, and a wide one beneath it that is not seen. So have dots and bars.
    (" class=\"arrow request\"/></g>", 1),
    (" class=\"arrow reply\"/></g>", 1),
    (" class=\"hit\"/>", 2),
    (" r=\"10\" class=\"touch\"/>", 2),
    (" width=\"24\" height=\"48\" class=\"touch\"/>", 1),
    (" width=\"24\" height=\"24\" class=\"touch\"/>", 1),
    # The bars are named once, as they belong to one request.
    (")rotate(90)\" class=\"label bar-name\">r X</text>", 1),
    (" defers ", 0),
    (" is queued for ", 0),
    (">copies</text>", 0),
    (">end</text>", 0),
    (">At the end:</text>", 0),
    (">node 1</text>", 1),
]

# What stands in that of two clients: the lower node goes first, and the REPLY to the other one waits until it leaves.
TWO_LOCKS_WORDS = [
    ("<title>3 nodes, 2 requests, 8 messages</title>", 1),
    (", delivered at line ", 8),
    (" class=\"lane\"/>", 3),
    ("<title>reply 1 from node 1 to node 2 for r, sent at line 13, delivered at line 16</title>", 1),
    ("<title>client 1 at node 1 holds r, exclusive, number 1, from line 11 to line 13</title>", 1),
    ("<title>client 2 at node 2 waits for r, exclusive, number 1, from line 4 to line 16</title>", 1),
    # It waits there from the delivery of the REQUEST on.
    ("<title>node 1 defers its reply to request 1 of node 2 for r, from line 8 to line 13</title>", 1),
    (", delivered at line 8, deferred</title>", 1),
    (">request 1 r X deferred</text>", 1),
    (" defers ", 1),
    (", still under way", 0),
    (", lost at ", 0),
]

# What stands in that of the request that is lost and repeated.
LOST_AND_REPEATED_WORDS = [
    ("<title>2 nodes, 1 request, 1 message</title>", 1),
    ("<title>request 1 from node 1 to node 2 for disk.2, shared and intent exclusive, sent at line 2, lost at line 5</title>", 1),
    ("<title>request 1 from node 1 to node 2 for disk.2, shared and intent exclusive, repeated at line 4</title>", 1),
    ("<title>request 1 from node 1 to node 2 for disk.2, shared and intent exclusive, repeated at line 4, still under way</title>", 1),
    ("<title>client 7 at node 1 waits for disk.2, shared and intent exclusive, number 1, from line 2 on</title>", 1),
    (">At the end:</text>", 1),
    (">client 7 at node 1 waits for disk.2 (SIX), number 1, since line 2</text>", 1),
    (" holds ", 0),
    (", delivered at ", 0),
    (">copies</text>", 1),
    (">request 1 disk.2 SIX, 1 to 2</text>", 1),
    (">request 1 disk.2 SIX lost</text>", 1),
    (">request 1 disk.2 SIX to node 2</text>", 1),
    (">end</text>", 1),
]

# The trace of two clients of a node: the second one is queued until the first one leaves, and has a number from then on.
QUEUED = """\
trace 2 1 0
ask 1 1 r X
request 1 1 r X 1
enter 1 1 r X 1
ask 1 2 r S
ask 1 3 r S
release 1 1 r
leave 1 1 r X 1
request 1 2 r S 2
enter 1 2 r S 2
end
"""

# What stands in that of the two clients.
QUEUED_WORDS = [
    ("<title>client 2 at node 1 is queued for r, shared, from line 5 to line 7</title>", 1),
    ("<title>client 3 at node 1 is queued for r, shared, from line 6 on</title>", 1),
    (" waits for ", 0),
    (" holds r, shared, number 2, from line 7 on</title>", 1),
    (">asks r S</text>", 2),
    (">client 2 at node 1 holds r (S), number 2, since line 7</text>", 1),
    (">client 3 at node 1 is queued for r (S), since line 6: client 2 at node 1 holds it</text>", 1),
    (" is queued for ", 3),
]

# The trace of two names that differ in the middle, where the longer one has fourteen letters.
LONG_NAMES = """\
trace 2 1 0
ask 1 1 rows.aa.locks X
request 1 1 rows.aa.locks X 1
enter 1 1 rows.aa.locks X 1
ask 1 1 rows.bbb.locks S
request 1 1 rows.bbb.locks S 1
enter 1 1 rows.bbb.locks S 1
release 1 1 rows.aa.locks
leave 1 1 rows.aa.locks X 1
end
"""

# What stands in that of the two names: the shorter one keeps eight letters, and words have all of them.
LONG_NAMES_WORDS = [
    (">asks ..aa.locks X</text>", 1),
    (">asks ..bbb.locks S</text>", 1),
    (">leaves ..aa.locks</text>", 1),
    (" asks for rows.aa.locks, exclusive</title>", 1),
    # No bar is as long as its name.
    (")rotate(90)", 0),
]

# A mark log of two clients: the second one is at node 3, and still inside at the end.
LOG = """\
request 1 7 r X 3
request 3 8 r S 5
enter 1 7 r X 3
leave 1 7 r X 3
enter 3 8 r S 5
"""

# What stands in the picture of that log.
LOG_WORDS = [
    ("<title>3 nodes, 2 requests, 2 grants</title>", 1),
    # A group for the name, and a column for each client that asks for it.
    (" class=\"group\"/>", 1),
    (" class=\"name\">r</text>", 1),
    (" class=\"column\"/>", 2),
    (" class=\"lane\"/>", 0),
    (">n1 c7</text>", 1),
    (">n3 c8</text>", 1),
    ("<title>client 7 at node 1 waits for r, exclusive, number 3, from line 1 to line 3</title>", 1),
    ("<title>client 7 at node 1 holds r, exclusive, number 3, from line 3 to line 4</title>", 1),
    ("<title>client 8 at node 3 waits for r, shared, number 5, from line 2 to line 5</title>", 1),
    ("<title>client 8 at node 3 holds r, shared, number 5, from line 5 on</title>", 1),
    (">X 3</text>", 1),
    (">S 5</text>", 1),
    (" class=\"row\">", 5),
    (">At the end:</text>", 1),
    (">client 8 at node 3 holds r (S), number 5, since line 5</text>", 1),
    ("Deadlock", 0),
    # The legend says nothing of messages.
    ("still under way", 0),
    (" is queued for ", 0),
    ("<title>request ", 0),
    ("<title>reply ", 0),
]

# A mark log of two clients that lock two names in opposite orders, and a third one that waits for the first.
DEADLOCK_LOG = """\
request 1 1 a X 1
enter 1 1 a X 1
request 2 2 b X 1
enter 2 2 b X 1
request 1 1 b X 2
request 2 2 a X 2
request 3 3 a S 3
"""

# What stands in the picture of that log.
DEADLOCK_WORDS = [
    (" class=\"group\"/>", 2),
    (" class=\"column\"/>", 5),
    (">client 1 at node 1 holds a (X), number 1, since line 2</text>", 1),
    (">client 2 at node 2 holds b (X), number 1, since line 4</text>", 1),
    (">client 1 at node 1 waits for b (X), number 2, since line 5: client 2 at node 2 holds it</text>", 1),
    (">client 2 at node 2 waits for a (X), number 2, since line 6: client 1 at node 1 holds it</text>", 1),
    (">client 3 at node 3 waits for a (S), number 3, since line 7: client 1 at node 1 holds it</text>", 1),
    (">Deadlock: client 1 at node 1 waits for client 2 at node 2</text>", 1),
    (">which waits for client 1 at node 1</text>", 1),
    # The bars of the two requests are marked.
    (" class=\"waiting X stuck\"/>", 2),
    (" class=\"waiting S\"/>", 1),
]

# A mark log of two clients, of whom each goes first for one of two names.
NOBODY_HOLDS = """\
request 1 1 a X 1
request 2 2 b X 1
request 2 2 a X 2
request 1 1 b X 2
"""


class Pictures(unittest.TestCase):
    def assert_picture(self, words, given, counts):
        """Asserts that a picture is drawn in which words stand so often, and that is one element without a script or another
        file."""
        status, output, _ = run(words, given.encode())
        picture = output.decode()
        with self.subTest(words, given=given):
            self.assertEqual(0, status, output)
            self.assertTrue(picture.startswith('<svg xmlns="http://www.w3.org/2000/svg" '), picture[:100])
            self.assertTrue(picture.endswith("</svg>\n"), picture[-100:])
        for text, count in [*IN_EACH, *counts]:
            with self.subTest(words, given=given, text=text):
                self.assertEqual(count, picture.count(text))

    def test_each_shape_says_what_it_is(self):
        self.assert_picture("draw", TEXTS["TRACE_ONE_LOCK"], ONE_LOCK_WORDS)
        self.assert_picture("draw", TEXTS["TRACE_TWO_LOCKS"], TWO_LOCKS_WORDS)
        self.assert_picture("draw", LOST_AND_REPEATED, LOST_AND_REPEATED_WORDS)
        self.assert_picture("draw", QUEUED, QUEUED_WORDS)
        self.assert_picture("draw", LONG_NAMES, LONG_NAMES_WORDS)

    def test_a_mark_log_has_bars_alone(self):
        self.assert_picture("draw --marks", LOG, LOG_WORDS)
        self.assert_picture("draw --marks --from 4 --to 4", LOG, [
            ("<title>3 nodes, 2 requests, 2 grants, from line 4, to line 4</title>", 1),
            (" holds r, exclusive, number 3, from line 3 to line 4</title>", 1),
            (" waits for r, shared, number 5, from line 2 on</title>", 1),
            (" class=\"row\">", 1),
            (">After line 4:</text>", 1),
        ])

    def test_a_deadlock_is_told_below_the_rows(self):
        self.assert_picture("draw --marks", DEADLOCK_LOG, DEADLOCK_WORDS)
        # A client that waits for another name, too, still gives nothing back.
        self.assert_picture("draw --marks", DEADLOCK_LOG + "request 2 2 c X 1\n", [
            (">Deadlock: client 1 at node 1 waits for client 2 at node 2</text>", 1),
            (">which waits for client 1 at node 1</text>", 1),
            (" class=\"waiting X stuck\"/>", 2),
        ])
        # Nobody holds a name, so of each two requests the first is let in.
        self.assert_picture("draw --marks", NOBODY_HOLDS, [("Deadlock", 0), (" stuck", 0)])
        # Before the last request of the two, nobody waits in a circle.
        self.assert_picture("draw --marks --to 5", DEADLOCK_LOG, [("Deadlock", 0), (" stuck", 0)])

    def test_a_part_has_what_reaches_into_it(self):
        # What was sent before is drawn where it comes in the part, and what is sent in it and comes after it is under way.
        self.assert_picture("draw --from 4 --to 4", TEXTS["TRACE_ONE_LOCK"], [
            ("<title>2 nodes, 1 request, 2 messages, from line 4, to line 4</title>", 1),
            (", sent at line 2, delivered at line 4</title>", 1),
            (", sent at line 4, still under way</title>", 1),
            (" waits for r, exclusive, number 1, from line 2 on</title>", 1),
            # A bar that began before has its name at the top.
            (")rotate(90)\" class=\"label bar-name\">r X</text>", 1),
            (" asks for ", 0),
            (" holds ", 0),
        ])
        # What came before, and a client that left before, are not drawn.
        self.assert_picture("draw --from 8 --to 9", TEXTS["TRACE_ONE_LOCK"], [
            ("<title>request ", 0),
            ("<title>reply ", 0),
            (" leaves r", 0),
        ])
        # The marks of the last step are drawn with it.
        self.assert_picture("draw --from 5 --to 5", QUEUED, [
            ("<title>client 1 at node 1 holds r, exclusive, number 1, from line 2 on</title>", 1),
            (" is queued for r, shared, from line 5 on</title>", 1),
            (" is queued for r (S), since line 5: client 1 at node 1 holds it</text>", 1),
            (" is queued for ", 2),
        ])
        self.assert_picture("draw --from 7 --to 7", QUEUED, [
            (" holds r, exclusive, number 1, from line 2 to line 7</title>", 1),
            (" holds r, shared, number 2, from line 7 on</title>", 1),
            (" is queued for r, shared, from line 5 to line 7</title>", 1),
        ])

    def test_a_text_that_is_no_trace_is_refused_with_its_line(self):
        """A line that is not drawn counts as well."""
        wrong = b"trace 2 2 0\nask 1 1 r X\nrequest 1 1 r X 1\nenter 1 1 r X 1\nend\n"
        self.assertEqual((3, b"invalid 4 Marks\n"), run("draw", wrong)[:2])
        self.assertEqual((3, b"invalid 4 Marks\n"), run("draw --from 1 --to 2", wrong)[:2])

    def assert_repeats(self, times, words, part):
        """Asserts that the trace of a message that is repeated so often, which has four lines more, is drawn with this part in its
        title, or that it is too long if the part is `None`."""
        given = b"trace 2 2 0\nask 1 1 r X\nrequest 1 1 r X 1\n" + times * b"repeat request 1 2 r X 1\n" + b"end\n"
        status, output, _ = run(words, given)
        with self.subTest(words, times=times):
            if part is None:
                self.assertEqual((2, b"refused TooLong\n"), (status, output))
            else:
                self.assertEqual(0, status, output[:100])
                self.assertIn(f"<title>2 nodes, 1 request, 1 message{part}</title>".encode(), output[:1000])

    def test_no_more_than_4096_lines_are_drawn(self):
        self.assert_repeats(4092, "draw", "")
        self.assert_repeats(4093, "draw", None)
        self.assert_repeats(4093, "draw --from 2 --to 4097", ", from line 2, to line 4097")
        self.assert_repeats(4094, "draw --from 2 --to 4098", None)
