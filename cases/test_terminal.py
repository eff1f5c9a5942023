"""Commands at a terminal: what is said of what they wait for, and that the end of the input, one Ctrl-D, is met once."""
import os
import pty
import subprocess

from cases import LIMIT, RA, TEXTS, RaTest, run

CTRL_D = "\x04"

# Commands, what is typed before Ctrl-D, the status, and what is printed.
TYPED = [
    ("check --marks", "request 1 7 r X 1\n", 0, "valid\nrequests 1\ngrants 0\n"),
    ("check --marks", "", 0, "valid\nrequests 0\ngrants 0\n"),
    ("check", "trace 2 2 0\n", 3, "invalid 2 Line\n"),
    ("check", "trace 2 2 0\nend\n", 0, "valid\nrequests 0\nmessages 0\n"),
    # The first Ctrl-D hands over the line without an end, and the second is the end.
    ("check", "trace 2 2 0\nask 1 1 r" + CTRL_D, 3, "invalid 2 Line\n"),
]

# Commands, the name of a text that is typed, and what the command says that it waits for.
WAITING = [
    ("answer --node 1 --nodes 2", "REPLY", "a frame from standard input: type its digits and Enter, then Ctrl-D"),
    ("sim", "ONE_CLIENT", "a script from standard input: type it and then Ctrl-D, or name a file"),
    ("cluster", "ONE_CLIENT", "a script from standard input: type it and then Ctrl-D, or name a file"),
    ("check", "ONE_CLIENT_TRACE", "a trace from standard input: type it and then Ctrl-D, or name a file"),
    ("draw", "ONE_CLIENT_TRACE", "a trace from standard input: type it and then Ctrl-D, or name a file"),
    ("check --marks", "ONE_TURN_LOG", "a mark log from standard input: type it and then Ctrl-D, or name a file"),
    ("draw --marks", "ONE_TURN_LOG", "a mark log from standard input: type it and then Ctrl-D, or name a file"),
    ("node", "A_BOOK", "a book from standard input: type its lines, and Ctrl-D at the end"),
    ("settle", "A_BOOK", "books from standard input: name their files, as in ra settle FILE .."),
]


def run_at_terminal(words, typed):
    """Returns the status, standard output and standard error of `ra` with these words, when this is typed at a terminal. A
    command that asks for more after its end gets a line that is neither a mark nor one of a trace."""
    terminal, end = pty.openpty()
    try:
        os.write(terminal, f"{typed}{CTRL_D}asked again\n{CTRL_D}".encode())
        with subprocess.Popen([RA, *words.split()], stdin=end, stdout=subprocess.PIPE, stderr=subprocess.PIPE) as process:
            try:
                output, note = process.communicate(timeout=LIMIT)
            except subprocess.TimeoutExpired:
                process.kill()
                raise
    finally:
        os.close(terminal)
        os.close(end)
    return process.returncode, output.decode(), note.decode()


class Terminals(RaTest):
    def test_the_end_is_asked_for_once(self):
        for words, typed, status, printed in TYPED:
            with self.subTest(words=words, typed=typed):
                self.assertEqual(run_at_terminal(words, typed)[:2], (status, printed))

    def test_what_a_command_waits_for_is_said_on_a_terminal(self):
        for words, name, said in WAITING:
            with self.subTest(words=words):
                status, _, note = run_at_terminal(words, TEXTS[name])
                self.assertEqual((status, note), (0, f"ra: reading {said}\n"))

    def test_a_command_that_reads_nothing_says_the_same_on_a_terminal(self):
        for words in ("sim --help", "", "simm", "check --no-such-option"):
            with self.subTest(words=words):
                self.assertEqual(run_at_terminal(words, "")[2], run(words)[2].decode())
        self.assertEqual(run_at_terminal("sim --help", "")[2], "")
