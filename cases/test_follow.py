"""What `ra check --follow` says of a text that is still being written."""
import subprocess

from cases import LIMIT, RA, RaTest

# The lines of a mark log, each with what is said after it.
LINES = [
    ("request 1 1 r X 1", "ra: valid so far: 1 requests, 0 grants"),
    ("request 2 2 r X 2", "ra: valid so far: 2 requests, 0 grants"),
    ("enter 1 1 r X 1", "ra: valid so far: 2 requests, 1 grants"),
]


class Following(RaTest):
    def test_each_line_is_judged_when_it_comes(self):
        """The text is not at its end when the program says what came and ends at the wrong line."""
        words = [RA, "check", "--marks", "--follow", "--every", "1"]
        with subprocess.Popen(words, stdin=subprocess.PIPE, stdout=subprocess.PIPE, stderr=subprocess.PIPE, text=True) as ra:
            for line, said in LINES:
                ra.stdin.write(f"{line}\n")
                ra.stdin.flush()
                self.assertEqual(ra.stderr.readline(), f"{said}\n")
            ra.stdin.write("enter 2 2 r X 2\n")
            ra.stdin.flush()
            self.assertEqual(ra.wait(timeout=LIMIT), 3)
            self.assertEqual(ra.stdout.read(), "invalid 4 Held\n")
