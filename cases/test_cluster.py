"""`ra cluster` on scripts for which the order of the marks is up to the threads: what does not depend on it."""
import subprocess
import tomllib

from cases import LIMIT, RA, TEXTS, RaTest, run, shown

# How often a script is run if the order of its marks is up to the threads.
RUNS = 10

# Scripts with the requests and total messages of a run and, for each client in order, how its marks begin, up to their numbers.
IN_ORDER = [
    ("TWO_CLIENTS", 2, 8, [
        ["request 1 1 r X ", "enter 1 1 r X ", "leave 1 1 r X "],
        ["request 2 2 r X ", "enter 2 2 r X ", "leave 2 2 r X "],
    ]),
    ("A_WRITER", 3, 12, [
        ["request 1 1 r S ", "enter 1 1 r S ", "leave 1 1 r S "],
        ["request 2 2 r X ", "enter 2 2 r X ", "leave 2 2 r X "],
        ["request 3 3 r S ", "enter 3 3 r S ", "leave 3 3 r S "],
    ]),
    ("A_QUEUE", 2, 4, [
        ["request 1 1 r X ", "enter 1 1 r X ", "leave 1 1 r X "],
        ["request 1 2 r X ", "enter 1 2 r X ", "leave 1 2 r X "],
    ]),
    ("TWO_READERS", 2, 4, [
        ["request 1 1 r S ", "enter 1 1 r S ", "leave 1 1 r S "],
        ["request 2 2 r S ", "enter 2 2 r S ", "leave 2 2 r S "],
    ]),
    ("APART", 2, 4, [
        ["request 1 1 a X ", "enter 1 1 a X ", "leave 1 1 a X "],
        ["request 2 2 b X ", "enter 2 2 b X ", "leave 2 2 b X "],
    ]),
    ("ONE_ORDER", 4, 8, [
        ["request 1 1 a X ", "enter 1 1 a X ", "request 1 1 b X ", "enter 1 1 b X ", "leave 1 1 b X ", "leave 1 1 a X "],
        ["request 2 2 a X ", "enter 2 2 a X ", "request 2 2 b X ", "enter 2 2 b X ", "leave 2 2 b X ", "leave 2 2 a X "],
    ]),
    ("A_TABLE", 5, 20, [
        ["request 1 1 t IX ", "enter 1 1 t IX ", "request 1 1 t.1 X ", "enter 1 1 t.1 X ", "leave 1 1 t.1 X ", "leave 1 1 t IX "],
        ["request 2 2 t IX ", "enter 2 2 t IX ", "request 2 2 t.2 X ", "enter 2 2 t.2 X ", "leave 2 2 t.2 X ", "leave 2 2 t IX "],
        ["request 3 3 t S ", "enter 3 3 t S ", "leave 3 3 t S "],
    ]),
]

# What the queue at one node prints if the second client goes first. The client that goes second has the next number.
SECOND_FIRST = """request 1 2 r X 1
enter 1 2 r X 1
leave 1 2 r X 1
request 1 1 r X 2
enter 1 1 r X 2
leave 1 1 r X 2
requests 2
messages 4
under-way 0
lost 0
waiting 0
queued 0
"""

# Scripts, and the verdict on the trace of a run.
TRACED = [
    ("TWO_CLIENTS", "valid\nrequests 2\nmessages 8\n"),
    ("A_QUEUE", "valid\nrequests 2\nmessages 4\n"),
    ("A_TABLE", "valid\nrequests 5\nmessages 20\n"),
]


def marks_of(lines, client):
    """Returns the marks of a client. The line of a mark has its kind, node, client, name, mode and number."""
    return [it for it in lines if len(it.split(" ")) > 2 and it.split(" ")[2] == client]


def are_writers_alone(lines):
    """Returns whether the next mark after each enter of a writer, except for requests, is its leave. With one name, this
    always holds."""
    writer = None
    for line in lines:
        fields = line.split(" ")
        if len(fields) < 3 or fields[0] == "request":
            continue
        if writer is not None and (fields[0], fields[2]) != ("leave", writer):
            return False
        writer = fields[2] if fields[0] == "enter" and fields[4] == "X" else None
    return writer is None


def totals_of(requests, messages):
    """Returns the totals of a run that ended with nothing left to do."""
    return f"requests {requests}\nmessages {messages}\nunder-way 0\nlost 0\nwaiting 0\nqueued 0\n"


def events_of(books):
    """Returns the lines of each book after its first, and the first lines, in order."""
    firsts, events = [], []
    for line in books.splitlines():
        if line.startswith("book "):
            firsts.append(line)
            events.append([])
        else:
            events[-1].append(line)
    return firsts, events


def line_of(client, op):
    """Returns the line of a book that an operation of a client is."""
    word, name = op.split(" ")
    return f"release {client} {name}" if word == "U" else f"ask {client} {name} {word}"


def settled(script):
    """Returns what `ra settle` prints while it reads, by a pipe, the books that `ra cluster` prints of a script."""
    with subprocess.Popen([RA, "cluster", "--books"], stdin=subprocess.PIPE, stdout=subprocess.PIPE) as threads:
        threads.stdin.write(TEXTS[script].encode())
        threads.stdin.close()
        done = subprocess.run([RA, "settle"], stdin=threads.stdout, capture_output=True, timeout=LIMIT, check=False)
    return done.stdout.decode()


class Clusters(RaTest):
    def run_cluster(self, script, words="cluster"):
        """Returns what a run prints, which ends with status 0."""
        status, output, note = run(words, TEXTS[script].encode())
        self.assertEqual(status, 0, shown(note))
        return output.decode()

    def expect_marks(self, output, clients):
        """Fails unless each client has exactly one mark for each of these texts, in order, and each begins with its text."""
        lines = output.splitlines()
        for number, begins in enumerate(clients, 1):
            marks = marks_of(lines, str(number))
            self.assertEqual([mark[:len(it)] for mark, it in zip(marks, begins)], begins, output)
            self.assertEqual(len(marks), len(begins), output)
        # Each lock has two marks, each unlock has one, and there are six totals. So no mark names another client.
        self.assertEqual(len(lines), sum(map(len, clients)) + 6, output)

    def test_each_client_does_its_operations_in_order(self):
        for script, requests, messages, clients in IN_ORDER:
            for number in range(RUNS):
                with self.subTest(script=script, run=number):
                    output = self.run_cluster(script)
                    self.assertTrue(output.endswith(totals_of(requests, messages)), output)
                    self.expect_marks(output, clients)

    def test_no_two_conflicting_clients_are_inside_together(self):
        for script in ("TWO_CLIENTS", "A_WRITER", "A_QUEUE"):
            for number in range(RUNS):
                with self.subTest(script=script, run=number):
                    output = self.run_cluster(script)
                    self.assertTrue(are_writers_alone(output.splitlines()), output)

    def test_clients_of_one_node_take_turns(self):
        for number in range(RUNS):
            with self.subTest(run=number):
                self.assertIn(self.run_cluster("A_QUEUE"), (TEXTS["A_QUEUE_PRINTED"], SECOND_FIRST))

    def test_the_trace_of_threads_is_valid(self):
        for script, verdict in TRACED:
            with self.subTest(script=script):
                self.expect(words="check", input=self.run_cluster(script, "cluster --trace"), output=verdict)

    def expect_books(self, books, script, messages):
        """Fails unless the books are those of the script's nodes, in order. In them each client does its operations in order,
        at its node, and as many frames come as messages are sent, each in version 2."""
        firsts, events = events_of(books)
        nodes = script["nodes"]
        self.assertEqual(firsts, [f"book 1 {node} {nodes} 0" for node in range(1, nodes + 1)], books)
        ops = 0
        for number, client in enumerate(script["client"], 1):
            expected = [line_of(number, op) for op in client["ops"]]
            done = [it for it in events[client["node"] - 1] if it.split(" ")[:2] in (["ask", f"{number}"], ["release", f"{number}"])]
            self.assertEqual(done, expected, books)
            ops += len(expected)
        came = [it for lines in events for it in lines if it.startswith("receive 02")]
        self.assertEqual(len(came), messages, books)
        # So no line is anything else.
        self.assertEqual(sum(map(len, events)), ops + messages, books)

    def test_the_books_of_threads_settle(self):
        for script, requests, messages, clients in IN_ORDER:
            for number in range(RUNS):
                with self.subTest(script=script, run=number):
                    books = self.run_cluster(script, "cluster --books")
                    self.expect_books(books, tomllib.loads(TEXTS[script]), messages)
                    status, output, note = run("settle", books.encode())
                    self.assertEqual(status, 0, shown(note))
                    output = output.decode()
                    self.assertTrue(output.endswith(totals_of(requests, messages)), output)
                    self.expect_marks(output, clients)

    def test_the_books_of_threads_settle_through_a_pipe(self):
        for script in ("ALONE", "ONE_CLIENT"):
            with self.subTest(script=script):
                self.assertEqual(settled(script), TEXTS[f"{script}_PRINTED"])
