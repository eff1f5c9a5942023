"""What the scripts of this folder share: lines of a log come in, and marks go out at once."""
import os
import re
import signal
import sys

LONGEST = 1 << 20  # bytes of a line
NAME = re.compile(r"[A-Za-z0-9_-][A-Za-z0-9_.-]{0,31}")


class Refused(Exception):
    """A line cannot be translated; holds why."""


class Ended(Exception):
    """The last mark is wrong, so what follows does not matter."""


class Names:
    """Names that `ra` reads, one for each lock."""

    def __init__(self):
        self.given, self.made = set(), 0

    def fresh(self, text):
        """Returns the name of another lock: this text if `ra` reads it, or a full stop and a number."""
        if text in self.given or not NAME.fullmatch(text):
            self.made += 1
            text = f".{self.made}"
        self.given.add(text)
        return text


def translate(take):
    """Calls `take` for each line of standard input, with its number, its bytes and a function that writes marks. Ends the
    program. If anything goes wrong, it prints a line that is no mark, so that `ra` does not call valid what comes before."""
    signal.signal(signal.SIGPIPE, signal.SIG_DFL)  # `ra check` stops reading at a wrong mark
    signal.signal(signal.SIGTERM, signal.default_int_handler)
    number, rest, marks, status = 0, b"", [], 0
    try:
        while some := os.read(0, 1 << 16):
            *lines, rest = (rest + some).split(b"\n")
            for line in lines:
                number += 1
                take(number, line[:-1] if line.endswith(b"\r") else line, marks.append)
            write(marks)
            if len(rest) > LONGEST:
                break
        if rest:
            number += 1
            raise Refused("it is too long, or has no line feed")
    except Ended:
        pass
    except Refused as why:
        marks.append(f"log line {number}: {why}")
        status = 1
    except (Exception, KeyboardInterrupt) as why:
        marks.append(f"log line {number}: {ascii(why)}")
        status = 1
    write(marks)
    sys.exit(status)


def write(marks):
    """Writes these lines, and empties the list."""
    text = "".join(f"{it}\n" for it in marks).encode()
    while text:
        text = text[os.write(1, text):]
    marks.clear()
