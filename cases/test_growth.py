"""Refused memory: each allocation of a command in turn, until a run makes no more. `ra` does what it should without it,
or says less on standard error, or prints `refused Memory` and nothing else, with status 2."""
import itertools

from cases import TEXTS, text
from preload import PreloadTest, Run, Stream

ANSWER = "answer --node 2 --nodes 3"
# A script of one client at the first of two nodes.
SCRIPT = "nodes = 2\nclient = [{ node = 1, ops = [\"X r\", \"U r\"] }]\n"
MARKS = "request 1 1 r X 1\nenter 1 1 r X 1\nleave 1 1 r X 1\n"
# What is said if memory ran out, or threads did, for a node.
STOPPED = [
    b"ra: a node was stopped: out of memory\n",
    b"ra: a node was stopped: cannot start a thread (each node and each client needs one)\n",
]
NO_MORE = "ra: standard output says what came of it; no memory is left to say more\n"
# Two clients at two nodes that lock two names in opposite orders.
CROSSED = """nodes = 2
client = [
    { node = 1, ops = ["X a", "X b", "U b", "U a"] },
    { node = 2, ops = ["X b", "X a", "U a", "U b"] },
]
"""
# The only node takes a lock, queues a client, and gives the lock back, each line twice. The answers to each line: when it comes
# first, and after that.
TWICE = [
    ("ask 7 door X\n", "request 1 7 door X 1\nenter 1 7 door X 1\nok\n", "refused Busy\n"),
    ("ask 8 door S\n", "ok\n", "refused Busy\n"),
    ("release 7 door\n", "leave 1 7 door X 1\nrequest 1 8 door S 2\nenter 1 8 door S 2\nok\n", "refused NotHeld\n"),
    ("release 8 door\n", "leave 1 8 door S 2\nok\n", "refused NotHeld\n"),
]
# Node 1 of 2 asks, has the REPLY, defers a REQUEST and leaves.
DEFERS = """book 1 1 2 0
ask 7 door X
receive <reply 2 1 door 1 at 2>
receive <request 2 1 door X 2 at 5>
release 7 door
"""
ASKED = "send 2 <request 1 2 door X 1 at 1>\nrequest 1 7 door X 1\nok\n"
ENTERED = "enter 1 7 door X 1\nok\n"
# What it answers, and what if there is no memory for one of the lines: what came before has happened, and the line has not.
DEFERRED = [
    f"{ASKED}{ENTERED}ok\nsend 2 <reply 1 2 door 2 at 7>\nleave 1 7 door X 1\nok\n",
    "refused Memory\nok\nsend 2 <reply 1 2 door 2 at 6>\nok\nrefused NotHeld\n",
    f"{ASKED}refused Memory\nok\nrefused NotHeld\n",
    f"{ASKED}{ENTERED}refused Memory\nleave 1 7 door X 1\nok\n",
    f"{ASKED}{ENTERED}ok\nrefused Memory\n",
]
# How many runs are made before it is looked whether one met a refusal: of threads, one run may ask for less memory than another.
GROUP = 16

REFUSED = """the step may not come here: the node does not exist, the client already waits, is queued or holds the name, it \
releases a name that it does not hold or cancels one for which it does not wait, or no number is left
"""
NOT_DUE = "these are not the marks of the step: one is missing before this line, or this one does not belong here\n"
NOT_UNDER_WAY = "this message is not under way: it was never sent, or was already delivered or lost\n"
NOT_ALLOWED = """the lock table does not allow this mark: a conflicting request holds the name or came earlier, its own request \
does not wait or hold, its node already waits or holds, or its number is not above every number granted
"""
NOT_A_MARK = """not a mark: expected request, enter, leave or withdraw and then NODE CLIENT NAME MODE SEQ, separated by single \
spaces and ended by a line feed alone
"""
NOT_A_LINE = "not a line that a trace may have here (see ra check --help); each line ends with a line feed alone, and the last line is end\n"
NOT_SENT = "its sender's book did not send this frame with this clock: expected one that ra node prints for that book\n"
NOT_TAKEN = "the node of this book does not take this event: give the book to ra node to see why\n"
NO_CLUSTER = """a node has two books, or books name different numbers of nodes or starts, or the book of a node is missing: \
expected one book of each node, with one NODES and one START
"""


def locks(count):
    """Returns a mark log in which a client locks a name so many times."""
    return "".join(f"request 1 1 r X {it}\nenter 1 1 r X {it}\nleave 1 1 r X {it}\n" for it in range(1, count + 1))


def is_refused(words, done):
    """Returns whether a run says that memory ran out. Of threads it may stop a node."""
    if done.status != 2:
        return False
    if done.output == b"refused Memory\n":
        return done.note == b"ra: out of memory\n"
    first = words.split()[0] if isinstance(words, str) else words[0]
    return first == "cluster" and done.output == b"refused Fault\n" and done.note in STOPPED


class Growth(PreloadTest):
    def expect_all(self, words, given, is_answer, expected, **how):
        """Refuses each allocation of a command. Fails if a run neither comes to its answer nor says that memory ran out, or
        if no run met a refusal."""
        count = 0
        for first in itertools.count(1, GROUP):
            runs = [Run(words, given, refused=it, **how) for it in range(first, first + GROUP)]
            came = self.expect_of(runs)
            for run, done in zip(runs, came):
                if not (is_answer(done) or done.is_refused and is_refused(words, done)):
                    self.fail(f"ra {words}, allocation {run.refused} refused: expected {expected}, but it is {done}")
            met = sum(it.is_refused for it in came)
            count += met
            if not met:
                self.assertGreater(count, 0, f"ra {words}: no allocation was refused")
                return

    def expect_growth(self, words, given, output, status=0, note="", less=()):
        """Refuses each allocation of a command that answers this, with this note, or says less if memory was refused."""

        def is_answer(done):
            notes = [note, *less] if done.is_refused else [note]
            return (done.status, done.output) == (status, output.encode()) and done.note in [it.encode() for it in notes]

        self.expect_all(words, given, is_answer, f"status {status}, {output!r} and {[note, *less]}, or that memory ran out")

    def expect_of_line(self, words, given, output, line, cause, general, quotes=True, less=None):
        """Refuses each allocation of a command that says what is wrong with a line, and may say less: a general cause of the
        line, which it quotes or not, or another cause, if one is given."""
        number = output.split(" ")[1]
        said = [f"ra: line {number}: {general}"]
        if quotes:
            said.append(f"ra: line {number}, '{line}': {general}")
        if less:
            said.append(f"ra: line {number}, '{line}'{less}\n")
        self.expect_growth(words, given, output, 3, f"ra: line {number}, '{line}'{cause}\n", said)

    def test_growth_of_answer(self):
        self.expect_growth(ANSWER, TEXTS["REQUEST"], TEXTS["REPLY"])

    def test_growth_of_sim(self):
        self.expect_growth("sim", SCRIPT, TEXTS["ONE_CLIENT_PRINTED"])
        self.expect_growth("sim --trace", SCRIPT, TEXTS["ONE_CLIENT_TRACE"])
        self.expect_growth("sim --as-choices", SCRIPT, "c1 m0 m0 c1\n")
        self.expect_growth("sim --state", SCRIPT, "steps 4\nnode 1 r 1 idle\nnode 2 r 1 idle\nclient 1 1 done\n")

    def test_growth_of_sim_with_choices(self):
        self.expect_growth(["sim", "--policy", "listed", "--choices", "c1 m0 m0 c1"], SCRIPT, TEXTS["ONE_CLIENT_PRINTED"])
        note = "ra: choice 3 of --choices, m3, is not possible: one message is under way at that point, at place 0\n"
        words = ["sim", "--policy", "listed", "--choices", "c1 m0 m3"]
        self.expect_growth(words, SCRIPT, "refused BadPlace\n", 2, note, [NO_MORE])

    def test_growth_of_sim_with_shrink(self):
        self.expect_growth("sim --shrink", SCRIPT, "none\n")
        waits = "ra: the run did not finish: client 1 at node 1 waits for 'r' (X): no client blocks it, but "
        note, known = f"{waits}its REQUEST to node 2, sent in step 1, was lost in step 2\n", f"{waits}a message was lost\n"
        none = "ra: none of the 2 choices can be left out\n"
        less = [f"{none}{known}", f"{none}{NO_MORE}", note, known, NO_MORE]
        words = ["sim", "--policy", "listed", "--choices", "c1 l0", "--shrink"]
        self.expect_growth(words, SCRIPT, "c1 l0\n", 3, f"{none}{note}", less)

    def test_growth_of_sim_by_chance(self):
        """Two clients lock one name. By seed 2, client 2 asks first, and a copy of the REPLY to it comes."""

        def is_done(done):
            return (done.status, done.note) == (0, b"") and b"\nrequests 2\nmessages 4\n" in done.output

        given = 'nodes = 2\nclient = [{ node = 1, ops = ["X r", "U r"] }, { node = 2, ops = ["X r", "U r"] }]\n'
        for words in ("sim --policy seeded --seed 1", "sim --policy faulty --repeat 100 --seed 2", "sim"):
            self.expect_all(words, given, is_done, "a run with four messages, or that memory ran out")
        self.expect_growth("sim --as-choices", given, "c1 c2 m0 m0 m0 c1 m0 c2\n")

    def test_growth_of_sim_with_many_seeds(self):
        # The client asks, has its answer and leaves, whatever the seed.
        words = "sim --policy seeded --seeds 5..7"
        self.expect_growth(words, SCRIPT, "finished 3 first 5\nturns 4 4\nmessages 2 2\n")
        # The seed is a hint, and is not said if there is no memory for that.
        found = {"note": "ra: this run has seed 5: to make it again, use --seed 5 in place of --seeds and --find\n", "less": [""]}
        self.expect_growth(f"{words} --find finished", SCRIPT, TEXTS["ONE_CLIENT_TRACE"], **found)
        self.expect_growth(f"{words} --find finished --as-choices", SCRIPT, "c1 m0 m0 c1\n", **found)
        self.expect_growth(f"{words} --find stuck", SCRIPT, "none\n")

    def test_growth_of_the_version(self):
        self.expect_growth("--version", "", "ra 0.2.0 (frames 1 and 2, traces 1 to 3, books 1 and 2)\n")

    def test_growth_of_draw(self):
        begins = b'<svg xmlns="http://www.w3.org/2000/svg"'

        def is_begun(done):
            return done.status == 1 and len(done.output) == 4096 and done.output.startswith(begins)

        def is_whole(done):
            return (done.status, done.note) == (0, b"") and done.output.startswith(begins) and done.output.endswith(b"</svg>\n")

        given = TEXTS["ONE_CLIENT_TRACE"]
        self.expect_all("draw", given, is_begun, "the first bytes of a picture, or that memory ran out", writer=Stream(4096))
        # In the second trace a REQUEST is deferred.
        for words, given in (("draw", given), ("draw", TEXTS["TRACE_TWO_LOCKS"]), ("draw --marks", TEXTS["LOG_TWO_WRITERS"])):
            self.expect_all(words, given, is_whole, "a picture, or that memory ran out")

    def test_growth_of_check(self):
        # Without memory for the text, it is not known what is left at its end.
        self.expect_growth("check", TEXTS["ONE_CLIENT_TRACE"], "valid\nrequests 1\nmessages 2\n", less=[NO_MORE])
        self.expect_growth("check --marks", MARKS, "valid\nrequests 1\ngrants 1\n", less=[NO_MORE])
        self.expect_growth("check --marks", TEXTS["LOG_TWO_WRITERS"], "valid\nrequests 2\ngrants 2\n", less=[NO_MORE])
        self.expect_growth("check --marks --json", MARKS, '{"grants":1,"requests":1,"verdict":"valid"}\n', less=[NO_MORE])

    def allocations(self, words, given):
        """Returns how many allocations a command makes."""
        for first in itertools.count(1, GROUP):
            came = self.expect_of([Run(words, given, refused=it) for it in range(first, first + GROUP)])
            for place, done in enumerate(came):
                if not done.is_refused:
                    return first + place - 1

    def test_the_text_that_is_kept_grows_by_doubling(self):
        few, many = (self.allocations("check --marks", locks(count)) for count in (1, 20_000))
        # The longer text has 1.2 million bytes, and the buffer 8,192.
        self.assertLess(few, many)
        self.assertLess(many, few + 16)

    def test_growth_of_cluster(self):
        # The one client's marks have one order.
        self.expect_growth("cluster", SCRIPT, TEXTS["ONE_CLIENT_PRINTED"])
        self.expect_growth("cluster --trace", SCRIPT, TEXTS["ONE_CLIENT_TRACE"])
        self.expect_growth("cluster --books", SCRIPT, TEXTS["ONE_CLIENT_BOOKS"])

    def test_growth_of_settle(self):
        books = TEXTS["BOOKS_ONE"] + TEXTS["BOOKS_TWO"]
        self.expect_growth("settle", books, TEXTS["BOOKS_DONE"])
        self.expect_growth("settle --trace", books, TEXTS["BOOKS_DONE_TRACE"])
        # The REQUEST came twice and was answered twice. One of the two REPLYs came.
        again = TEXTS["MARKS_OF_7"] + TEXTS["THREE_ONE_LEFT"]
        self.expect_growth("settle --repeats", TEXTS["BOOKS_ONE"] + TEXTS["BOOKS_TWO_AGAIN"], again)
        twice = text(TEXTS["ALL_TWICE"]).decode()
        self.expect_growth("settle --repeats --trace", twice, TEXTS["ALL_TWICE_TRACE"])

    def test_growth_of_node(self):
        """A line for which there is no memory has not happened, and comes again."""
        given = "book 1 1 1 0\n" + "".join(2 * line for line, _, _ in TWICE)
        normal = [first + after for _, first, after in TWICE]
        with_one = [[*normal[:it], f"refused Memory\n{TWICE[it][1]}", *normal[it + 1 :]] for it in range(len(TWICE))]
        answers = {f"ok\n{''.join(it)}".encode() for it in (normal, *with_one)}
        self.expect_all("node", given, lambda done: done.status == 0 and done.output in answers, "a line is refused at most once")
        answers = {text({"frames": f"ok\n{it}"}) for it in DEFERRED}
        given = text({"frames": DEFERS})
        self.expect_all("node", given, lambda done: done.status == 0 and done.output in answers, "what is refused has not happened")

    def test_growth_of_a_note_on_a_frame(self):
        note = "ra: the version at offset 0 is 03: must be 01 or 02\n"
        self.expect_growth(ANSWER, "0301", "refused Version\n", 2, note, [NO_MORE])

    def test_growth_of_a_note_on_digits(self):
        note = "ra: not a hexadecimal digit at offset 2 of the line: 'g'\n"
        self.expect_growth(ANSWER, "01g1", "refused Hex\n", 2, note, [NO_MORE])

    def test_growth_of_a_note_on_a_frame_for_another_node(self):
        note = "ra: the receiver at offset 3 is 03: the frame is for node 3, but --node is 2\n"
        given = "0101010300000000000000000100000000000000010172\n"
        self.expect_growth(ANSWER, given, "refused WrongNode\n", 2, note, [NO_MORE])

    def test_growth_of_a_note_on_a_script(self):
        note = "ra: client 1, operation 2, 'S r': the client already holds this name\n"
        given = 'nodes = 1\nclient = [{ node = 1, ops = ["X r", "S r"] }]\n'
        self.expect_growth("sim", given, "refused AlreadyHeld\n", 2, note, [NO_MORE])
        note = "ra: client 1: ops is missing: a client has node (an integer) and ops (an array of strings)\n"
        self.expect_growth("sim", "nodes = 1\nclient = [{ node = 1 }]\n", "refused Shape\n", 2, note, [NO_MORE])

    def test_growth_of_a_note_on_an_order(self):
        note = "ra: client 2, operation 2: locks 'a' while holding 'b', which does not sort before it, so clients could deadlock: "
        note += "lock names in ascending byte order, or run the script with ra sim\n"
        self.expect_growth("cluster", CROSSED, "refused OutOfOrder\n", 2, note, [NO_MORE])

    def test_growth_of_a_note_on_the_words(self):
        note = "ra: unrecognized subcommand 'simm'; a similar subcommand exists: 'sim'; see ra --help\n"
        less = ["ra: out of memory; see ra --help\n", "ra: out of memory\n"]
        self.expect_growth("simm", "", "refused Usage\n", 2, note, less)

    def test_growth_of_a_note_on_a_run(self):
        output = "request 1 1 r X 1\nrequests 1\nmessages 1\nunder-way 1\nlost 0\nwaiting 1\nqueued 0\n"
        waits = "ra: the run did not finish: client 1 at node 1 waits for 'r' (X): no client blocks it, but "
        note = f"{waits}its REQUEST to node 2, sent in step 1, is under way\n"
        # Without memory to make the run again, it is not known which message that is.
        less = [f"{waits}a message is under way\n", NO_MORE]
        self.expect_growth("sim --policy listed --choices=c1", SCRIPT, output, 3, note, less)

    def test_growth_of_a_note_on_a_deadlock(self):
        waits = "ra: the run did not finish: client 1 at node 1 waits for 'b' (X): client 2 holds it (X); "
        waits += "client 2 at node 2 waits for 'a' (X): client 1 holds it (X)\n"
        circle = "ra: a deadlock: client 1 at node 1 waits for client 2 at node 2, which waits for client 1 at node 1\n"
        # Without memory for the circle, it is not said.
        self.expect_growth("sim", CROSSED, TEXTS["STUCK_PRINTED"], 3, f"{waits}{circle}", [waits, NO_MORE])

    def test_growth_of_a_note_on_a_name_that_stays_locked(self):
        output = "request 1 1 r X 1\nenter 1 1 r X 1\nrequests 1\nmessages 0\nunder-way 0\nlost 0\nwaiting 0\nqueued 0\n"
        note = "ra: the run finished with names still locked: client 1 holds 'r' (X)\n"
        # Without memory for the script, it is not known which names are locked.
        self.expect_growth("sim", TEXTS["A_KEEPER"], output, 0, note, [""])

    def test_growth_of_a_note_on_a_wrong_line(self):
        self.expect_of_line(
            "check", "trace 2 2 0\nask 3 1 r X\n", "invalid 2 Refused\n",
            "ask 3 1 r X", ": there is no node 3: the highest node of the trace is 2", REFUSED)

    def test_growth_of_a_note_on_a_field(self):
        cause = ": MODE is 'x': must be S, X, IS, IX or SIX"
        given = "trace 2 2 0\nask 1 1 r x\n"
        self.expect_of_line("check", given, "invalid 2 Line\n", "ask 1 1 r x", cause, NOT_A_LINE, quotes=False)

    def test_growth_of_a_note_on_a_client_that_waits(self):
        given = "trace 2 2 0\nask 1 1 r X\nrequest 1 1 r X 1\nask 1 1 r S\n"
        cause = ": client 1 has waited for 'r' (X) at node 1 since line 3 and may not ask for it again"
        self.expect_of_line("check", given, "invalid 4 Refused\n", "ask 1 1 r S", cause, REFUSED)

    def test_growth_of_a_note_on_the_last_number(self):
        given = "trace 2 2 18446744073709551615\nask 1 1 r X\n"
        cause = ": no sequence number is left for 'r': the greatest is 18446744073709551615"
        self.expect_of_line("check", given, "invalid 2 Refused\n", "ask 1 1 r X", cause, REFUSED)

    def test_growth_of_a_note_on_a_mark_that_is_not_due(self):
        for words in ("check", "draw"):
            self.expect_of_line(
                words, "trace 2 2 0\nask 1 1 r X\nask 2 2 r X\n", "invalid 3 Marks\n",
                "ask 2 2 r X", ": expected the mark 'request 1 1 r X 1' here", NOT_DUE)

    def test_growth_of_a_note_on_a_reply_that_is_awaited(self):
        given = "trace 2 2 0\nask 1 1 r X\nrequest 1 1 r X 1\nenter 1 1 r X 1\n"
        cause = ": expected no mark here: client 1 at node 1 still awaits the REPLY of node 2"
        # Without memory for the request, it is not known that the client waits.
        less = ": expected no mark here"
        self.expect_of_line("check", given, "invalid 4 Marks\n", "enter 1 1 r X 1", cause, NOT_DUE, less=less)

    def test_growth_of_a_note_on_a_message_that_is_not_under_way(self):
        given = "trace 2 2 0\nask 1 1 r X\nrequest 1 1 r X 1\ndeliver reply 2 1 r 1\n"
        cause = ": this message is not under way: its request has not come to node 2"
        # Without memory for the request, only that the REPLY was never sent is known.
        less = ": this message is not under way: it was never sent"
        self.expect_of_line("check", given, "invalid 4 NotUnderWay\n", "deliver reply 2 1 r 1", cause, NOT_UNDER_WAY, less=less)

    def test_growth_of_a_note_on_a_mark_that_the_table_does_not_allow(self):
        given = "trace 2 2 0\nask 1 1 r S\nrequest 1 1 r S 1\nrequest 1 2 r S 2\n"
        cause = ": the lock table does not allow this mark: its node already waits for the name or holds it: "
        cause += "client 1 at node 1 asked for 'r' (S) in line 3"
        self.expect_of_line("check", given, "invalid 4 Table\n", "request 1 2 r S 2", cause, NOT_ALLOWED)

    def test_growth_of_a_note_on_a_line_of_no_log(self):
        cause = ": SEQ is missing: expected request NODE CLIENT NAME MODE SEQ"
        line = "request 1 1 r X"
        self.expect_of_line("check --marks", f"{line}\n", "invalid 1 Line\n", line, cause, NOT_A_MARK, quotes=False)

    def test_growth_of_a_note_on_the_end_of_a_trace(self):
        counts = "ra: the trace ends with 1 client queued, 1 request holding"
        queued = "client 2 at node 1 has been queued for 'r' (S) since line 5: client 1 at node 1 has held 'r' (X) since line 4"
        note = f"{counts}\nra: {queued}\nra: client 1 at node 1 has held 'r' (X) since line 4\n"
        less = [f"{counts}; there was no room to name them\n", NO_MORE]
        self.expect_growth("check", TEXTS["A_QUEUED_TRACE"], "valid\nrequests 1\nmessages 0\n", 0, note, less)

    def test_growth_of_a_note_on_a_log_without_a_mark(self):
        note = "ra: the log has no mark, so nothing was judged\n"
        self.expect_growth("check --marks", "", "valid\nrequests 0\ngrants 0\n", 0, note, [NO_MORE])

    def test_growth_of_a_note_on_a_line_of_books(self):
        line = "receive 02020002000100000000000000000100000000000000020172"
        cause = f", in the book of node 1, a frame of node 2 with clock 2: {NOT_SENT.rstrip()}"
        self.expect_of_line("settle", TEXTS["BOOKS_UNASKED"], "invalid 3 NotSent\n", line, cause, NOT_SENT, quotes=False)

    def test_growth_of_a_note_on_a_refused_line_of_books(self):
        """To tell why, a node takes the lines of the book once more. Without memory for that, the cause is not named."""
        waits = "client 7 has waited for 'r' (X) since line 2 and does not hold it: expected its grant first"
        books, line, at = "book 1 1 2 0\nask 7 r X\nrelease 7 r\n", "release 7 r", ", in the book of node 1: "
        less = f"{at}{NOT_TAKEN.rstrip()}"
        self.expect_of_line("settle", books, "invalid 3 Refused\n", line, f"{at}{waits}", NOT_TAKEN, quotes=False, less=less)

    def test_growth_of_a_note_on_a_second_book(self):
        line = "book 1 1 2 0"
        cause = ": this node has a book already, which begins at line 1: expected one book of each node"
        self.expect_of_line("settle", f"{line}\n{line}\n", "invalid 2 Books\n", line, cause, NO_CLUSTER, quotes=False)

    def test_growth_of_a_note_on_a_frame_with_another_clock(self):
        line = "receive 02020002000100000000000000000100000000000000090172"
        cause = f", in the book of node 1, a frame of node 2 with clock 9: {NOT_SENT.rstrip()}"
        given = TEXTS["BOOKS_TWO"] + TEXTS["BOOKS_ONE_AT_9"]
        self.expect_of_line("settle", given, "invalid 5 NotSent\n", line, cause, NOT_SENT, quotes=False)
        self.expect_of_line("settle --repeats", given, "invalid 5 NotSent\n", line, cause, NOT_SENT, quotes=False)
