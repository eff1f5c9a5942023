"""Scripts and lists of choices that are read, or refused for their first fault."""
import unittest

from cases import TEXTS, run

# Texts that are no TOML.
NO_TOML = [
    "nodes = ",
    "nodes = 1\nnodes = 1\n",
    "nodes = 9223372036854775808\n",
    "nodes = -9223372036854775809\n",
]

# Documents of another shape.
OTHER_SHAPES = [
    "nodes.x = 1\nclient = []\n",
    "",
    "nodes = 2\n",
    "client = []\n",
    "nodes = 2\nclients = []\n",
    "nodes = 2\nclient = 3\n",
    "nodes = 2\nclient = [3]\n",
    "nodes = 2\n[client]\nnode = 1\nops = []\n",
    "nodes = 2\nclient = [{node = 1}]\n",
    "nodes = 2\nclient = [{ops = []}]\n",
    "nodes = 2\nclient = [{node = '1', ops = []}]\n",
    "nodes = 2\nclient = [{node = 1, ops = 'X r'}]\n",
    "nodes = 2\nclient = [{node = 1, ops = ['X r', 1]}]\n",
]

OTHER_NUMBERS = [
    "client = []\nnodes = 2.0\n",
    "client = []\nnodes = true\n",
    "client = []\nnodes = 2024-05-06\n",
    "client = []\nnodes = \"2\"\n",
]

THIRD_KEYS = [
    "nodes = 2\nname = 'a'\nclient = []\n",
    "nodes = 2\nclient = [{node = 1, ops = [], name = 'a'}]\n",
    # The whole shape is checked before the nodes.
    "nodes = 0\nclient = [{node = 9, ops = ['?']}, {node = 1, ops = [], z = 1}]\n",
]

# A script of one client, around its node.
NODE = ("nodes = 1\nclient = [{node = ", ", ops = []}]\n")
# A script of one client, around its only operation.
ONLY_OP = ("nodes = 1\nclient = [{node = 1, ops = [", "]}]\n")
# Values that are neither integers nor strings.
VALUES = [
    "1.0", "true", "2024-05-06", "[]", "{}",
]

# The same document in other ways.
OTHER_WAYS = [
    "\"client\" = [{ops = [\"X r\"], node = 1}]\nnodes = 0x2\n",
    "'nodes' = 2\r\n[[ client ]] # one\r\n\"n\\u006fde\" = +1\r\nops = ['''X r''']\r\n",
]

# Deeply nested texts, and how many bytes each has.
DEEP = [
    (b"nodes = " + 32764 * b"[", 32772),
    (b"nodes = " + 32764 * b"[" + 32764 * b"]", 65536),
    # None of these tables is closed.
    (b"nodes = " + 21842 * b"{a=", 65534),
    (b"nodes" + 32765 * b".a", 65535),
    (b"[nodes" + 32765 * b".a", 65536),
    (b"nodes = 1\n[[client" + 32759 * b".a", 65536),
    (b"client = [" + 16381 * b"[{a=", 65534),
]

# Properly closed tables: the text before them, what opens a level, what the last level has, what closes a level, the text after
# them, and the most levels that the parser takes. It takes 80 nested inline tables, and keys of 80 parts. They are inline
# tables, and those of a dotted key, a dotted header and an array's dotted header.
CLOSED_TABLES = [
    (b"client = []\nnodes = ", b"{a=", b"1", b"}", b"\n", 80),
    (b"client = []\nnodes", b".a", b" = 1\n", b"", b"", 79),
    (b"client = []\n[nodes", b".a", b"]\n", b"", b"", 79),
    (b"nodes = 1\n[[client", b".a", b"]]\nnode = 1\nops = []\n", b"", b"", 79),
]

# Numbers of nodes that there may not be.
WRONG_NODES = [
    # The nodes are looked at before the clients.
    "nodes = 0\nclient = []\n",
    "nodes = -1\nclient = []\n",
    "nodes = 65\nclient = []\n",
    "nodes = 65537\nclient = []\n",
]

# Lists of clients that there may not be.
WRONG_CLIENTS = [
    "nodes = 2\nclient = []\n",
    "nodes = 2\nclient = [{node = 0, ops = []}]\n",
    "nodes = 2\nclient = [{node = -1, ops = []}]\n",
    # Each client's node is looked at before an operation.
    "nodes = 2\nclient = [{node = 1, ops = ['?']}, {node = 3, ops = []}]\n",
]

# 64 nodes and 64 clients are accepted, and one more is refused before its operation is looked at. 1,024 operations of a client are
# accepted, and one more is refused before any is looked at, and before the next client is. The word of a text is `None` if it
# is accepted.
LIMITS = [
    (b"nodes = 1\nclient = [{node = 1, ops = []}]\n", None),
    (b"nodes = 64\nclient = [{node = 64, ops = []}]\n", None),
    (b"nodes = 2\n" + 64 * b"[[client]]\nnode = 2\nops = []\n", None),
    (b"nodes = 2\n" + 64 * b"[[client]]\nnode = 2\nops = []\n" + b"[[client]]\nnode = 2\nops = ['?']\n", "Clients"),
    (b"nodes = 1\nclient = [{node = 1, ops = [\n" + 512 * b"'X r', 'U r',\n" + b"]}]\n", None),
    (b"nodes = 1\nclient = [{node = 1, ops = [\n" + 512 * b"'X r', 'U r',\n" + b"'?']}, {node = 1, ops = ['?']}]\n", "Limit"),
]

# A script of one client, around its operations.
OPS = ("client = [{node = 1, ops = [", "]}]\nnodes = 1\n")
# Lists of operations of which one is none.
NO_OPS = [
    "'X  r'", "'X r '", "' X r'", "'x r'", "''", "'X'", "'X '", "'Xr'", "\"X\\tr\"", "'Y r'", "'X r', 'X \u00e9'",
    # Words that are nearly those of modes.
    "'SI r'", "'XI r'", "'SX r'", "'SIXX r'", "'ISX r'", "'I r'", "'six r'", "'US r'",
    # A word with no space or more than one after it.
    "'SIX'", "'SIX '", "'SIXr'", "'IS  r'", "'S IX r'",
    # A name of 33 bytes.
    "'X 0123456789abcdef0123456789abcdefg'",
]

# A name of 32 bytes is locked twice.
LONGEST = "'X 0123456789abcdef0123456789abcdef', 'X 0123456789abcdef0123456789abcdef'"
# Lists of operations by which a name is unlocked that is not held.
NOT_HELD = [
    "'U r'",
    "'X r', 'U s'",
    "'X r', 'U r', 'U r'",
    # The first fault of the first client that has one.
    "'U r', '?'",
]

# Lists of operations by which a name is locked that is held.
ALREADY_HELD = [
    "'X r', 'X r'",
    "'S r', 'X s', 'X r'",
]

# The first client is refused before the second is looked at.
FIRST_OF_TWO = "nodes = 1\nclient = [{node = 1, ops = ['U r']}, {node = 1, ops = ['?']}]\n"
# Two clients lock one name, and one of them locks it again in turn.
IN_TURN = "nodes = 1\nclient = [{node = 1, ops = ['S r', 'X s', 'U r', 'X r']}, {node = 1, ops = ['X s']}]\n"

# The least and the greatest length of some prefixes of a script, and why they are refused. These are all that are: the last line
# may lack its line feed.
PREFIXES = [
    # There is no `nodes`, no `client`, or a client without its node or its operations.
    (0, 0, "Shape"),
    (9, 11, "Shape"),
    (21, 22, "Shape"),
    (30, 31, "Shape"),
    # They end in the middle of a line.
    (1, 8, "Toml"),
    (12, 20, "Toml"),
    (23, 29, "Toml"),
    (32, 50, "Toml"),
]

# What `ra sim` prints of a run without a step, and of the run of the script of one client.
NO_STEP = b"requests 0\nmessages 0\nunder-way 0\nlost 0\nwaiting 0\nqueued 0\n"
ONE_LOCK = b"request 1 1 r X 1\nenter 1 1 r X 1\nleave 1 1 r X 1\nrequests 1\nmessages 2\nunder-way 0\nlost 0\nwaiting 0\nqueued 0\n"

# Texts that are no lists of choices.
NO_CHOICES = [
    " ", " c1", "c1 ", "c1  c2", "c01", "c00", "c1234567890", "C1", "c", "c+1", "c-1", "x1", "1", "c1,c2", "c1\tc2", "c1\nc2",
    "c1\n", "cc1", "c1c", "c ", "\u00e91", "c\u0661",
]


def as_bytes(script):
    """Returns a text as its bytes."""
    return script.encode() if isinstance(script, str) else script


class Scripts(unittest.TestCase):
    def assert_refused(self, scripts, word, around=("", "")):
        """Asserts that `ra sim` refuses each of these texts, put into the text around it, with this word."""
        for script in scripts:
            with self.subTest(as_bytes(script)[:200]):
                given = as_bytes(around[0]) + as_bytes(script) + as_bytes(around[1])
                self.assertEqual((2, f"refused {word}\n".encode()), run("sim", given)[:2])

    def assert_accepted(self, script, status):
        """Asserts that a text is a script: it is run without a step, so that its operations, if any, are left."""
        with self.subTest(as_bytes(script)[:200]):
            self.assertEqual((status, NO_STEP), run("sim --policy listed", as_bytes(script))[:2])

    def test_a_text_has_at_most_65536_bytes(self):
        self.assert_refused([65536 * b" "], "Shape")
        self.assert_refused([65537 * b" "], "Limit")

    def test_a_text_that_is_no_toml_is_refused(self):
        self.assert_refused(NO_TOML, "Toml")
        self.assert_refused([b"# \xff\n", b"nodes = \"\xc3\"\n"], "Toml")

    def test_deep_nesting_is_refused(self):
        for script, length in DEEP:
            self.assertEqual(length, len(script))
            self.assert_refused([script], "Toml")

    def test_tables_in_tables_are_refused(self):
        """As invalid TOML if the parser takes fewer levels, otherwise as another shape."""
        for levels in (1, 2, 78, 79, 80, 81, 100, 16_000):
            for before, opens, last, closes, after, most in CLOSED_TABLES:
                script = before + levels * opens + last + levels * closes + after
                with self.subTest(before=before, levels=levels):
                    self.assert_refused([script], "Toml" if levels > most else "Shape")

    def test_another_shape_is_refused(self):
        self.assert_refused([*OTHER_SHAPES, *OTHER_NUMBERS, *THIRD_KEYS], "Shape")
        self.assert_refused(VALUES, "Shape", NODE)
        self.assert_refused(VALUES, "Shape", ONLY_OP)

    def test_the_same_document_may_be_written_in_other_ways(self):
        for script in OTHER_WAYS:
            self.assert_accepted(script, 3)

    def test_there_are_so_many_nodes_clients_and_operations(self):
        self.assert_refused(WRONG_NODES, "Nodes")
        self.assert_refused(WRONG_CLIENTS, "Clients")
        for script, word in LIMITS:
            if word is None:
                self.assert_accepted(script, 3 if b"'X r'" in script else 0)
            else:
                self.assert_refused([script], word)

    def test_an_operation_is_a_word_a_space_and_a_name(self):
        self.assert_refused(NO_OPS, "Op", OPS)
        self.assert_refused([LONGEST], "AlreadyHeld", OPS)

    def test_a_name_is_locked_and_unlocked_in_turn(self):
        self.assert_refused(NOT_HELD, "NotHeld", OPS)
        self.assert_refused(ALREADY_HELD, "AlreadyHeld", OPS)
        self.assert_refused([FIRST_OF_TWO], "NotHeld")
        self.assert_accepted(IN_TURN, 3)

    def test_each_prefix_of_a_script_has_its_answer(self):
        script = TEXTS["SCRIPT_ONE_LOCK"]
        for length in range(len(script)):
            words = [it for least, greatest, it in PREFIXES if least <= length <= greatest]
            expected = (2, f"refused {words[0]}\n".encode()) if words else (0, ONE_LOCK)
            with self.subTest(script[:length]):
                self.assertEqual(expected, run("sim", script[:length].encode())[:2])

    def test_other_words_are_no_choices(self):
        for choices in NO_CHOICES:
            with self.subTest(choices):
                self.assertEqual((2, b"refused Choice\n"), run(["sim", "--policy", "listed", "--choices", choices])[:2])
