"""Mark logs, mark by mark: who holds and who waits for each name, by the rules of the lock table."""
import os
import random
import tempfile

from checks.trial import example, serving

# The rows of the lock table as a person reads them.
ROWS = """[...document.querySelectorAll("#table tr[data-name]")].map((row) => [row.querySelector("th").textContent,
    ...["holding", "waiting"].map((word) => [...row.querySelectorAll(`.${word}`)].map((it) => it.textContent))])"""
WAITS = "[...document.querySelectorAll('#waits li')].map((it) => it.textContent)"

ONE, TWO = "client 1 at node 1: X, number 1", "client 2 at node 2: X, number 1"
# After each mark of two-clients.marks: the lock table, who waits for whom, and what is said of the mark.
TWO_CLIENTS = [
    ([["r", [], [ONE]]], ["client 1 waits for r (X): nobody is in its way, so it may be let in"],
     "Client 1 at node 1 asks for r (X, exclusive), with number 1. Nobody is in its way."),
    ([["r", [], [ONE, TWO]]], ["client 1 waits for r (X): nobody is in its way, so it may be let in",
                               "client 2 waits for r (X): client 1 at node 1 asked earlier (X)"], "It has to wait: client 1 at node 1 asked earlier (X)."),
    ([["r", [ONE], [TWO]]], ["client 2 waits for r (X): client 1 at node 1 holds it (X)"],
     "Client 1 at node 1 is let in, and holds r (X, exclusive). Nobody else holds it."),
    ([["r", [], [TWO]]], ["client 2 waits for r (X): nobody is in its way, so it may be let in"],
     "Client 1 at node 1 leaves r. Now nobody is in the way of client 2 at node 2."),
    ([["r", [TWO], []]], [], "Client 2 at node 2 is let in"),
    ([["r", [], []]], [], "Client 2 at node 2 leaves r."),
]
# Wrong logs: the wrong line and its cause by docs/FORMATS.md, and facts that the page has to name.
WRONG = [
    ("two hold at once", example("lock-service.marks"), 6, "Held", "enter 2 8 orders X 42", ["client 17 at node 1"]),
    ("no mark", "request 1 1 r X 1\nasks 1 1 r\n", 2, "Line", "asks 1 1 r", []),
    ("a leave of nobody", "request 1 1 r X 1\nleave 1 1 r X 1\n", 2, "NotHeld", "leave 1 1 r X 1", []),
    ("a token that does not rise", "request 1 1 r X 5\nenter 1 1 r X 5\nleave 1 1 r X 5\nrequest 2 2 r X 5\n", 4, "NotAbove", "request 2 2 r X 5", []),
    ("wrong at once", "enter 1 1 r X 1\n", 1, "NotWaiting", "enter 1 1 r X 1", []),
]
HELD = ["request 1 1 a X 1", "enter 1 1 a X 1", "request 2 2 b X 1", "enter 2 2 b X 1"]
CIRCLE = "A deadlock: client 1 at node 1 \u2192 client 2 at node 2 \u2192 client 1 at node 1."


def text_of_marks(lines):
    return "".join(f"{line}\n" for line in lines)


def try_mark_log(page):
    """Steps through a mark log, mark by mark."""
    same, has, text = page.trial.same, page.trial.has, example("two-clients.marks")
    page.open(text)
    same("a mark log: where it begins", "mark 0 of 6", page.position())
    page.compare_marks("a mark log, at the beginning", "")
    for place, (rows, waits, said) in enumerate(TWO_CLIENTS, 1):
        page.press("ArrowRight")
        same(f"a mark log, mark {place}: the lock table", rows, page.see(ROWS))
        same(f"a mark log, mark {place}: who waits", waits, page.see(WAITS))
        has(f"a mark log, mark {place}: what is said", said, page.text("#now"))
        page.compare_marks(f"a mark log, mark {place}", text_of_marks(text.splitlines()[:place]))
        if place == 3:
            page.keep("a-mark-log")
    same("a mark log: what it has no use for", [None] * 4, [page.text(it) for it in ("#nodes", "#typing", "#chosen", "#rules")])
    same("a mark log: nothing can be found or shrunk", (True, True),
         (page.see("document.getElementById('find').disabled"), page.see("document.getElementById('shrink').disabled")))
    same("a mark log: downloaded", text, page.download("#trace"))
    page.click("#steps li:nth-child(3) button")
    same("a mark log, back by a click: the lock table", TWO_CLIENTS[2][0], page.see(ROWS))


def try_wrong_logs(page):
    """Opens wrong logs at their last mark before the wrong line."""
    same, has = page.trial.same, page.trial.has
    for what, text, number, cause, line, facts in WRONG:
        page.open(text)
        same(f"{what}: where it opens", f"mark {number - 1} of {number - 1}", page.position())
        same(f"{what}: the note", f"Line {number} is wrong ({cause}). What comes before it is shown.", page.text("#opened"))
        for part in [f"Line {number} cannot come next: {line}", *facts]:
            has(f"{what}: the wrong line", part, page.text("#wrong"))
        same(f"{what}: its place among the marks", f"\u2717 line {number}: {line} ({cause})", page.text("#steps li:last-child.wrong"))
        page.check_words(what)
        page.compare_lines(what, [*text.splitlines()[:number - 1]], text_of_marks(text.splitlines()[:number - 1]), ["--marks"])
        if cause == "Held":
            page.keep("a-wrong-mark-log")
            same("a wrong mark log: the lock table", [
                ["orders", ["client 17 at node 1: X, number 41"], ["client 8 at node 2: X, number 42"]],
                ["stock", ["client 3 at node 3: S, number 43"], []]], page.see(ROWS))


def try_circles(page):
    """Opens logs in which clients wait for each other, and one in which two clients have one number."""
    both = [*HELD, "request 1 1 b X 2", "request 2 2 a X 2"]
    page.open(text_of_marks(both))
    page.press("End")
    page.trial.has("a deadlock in a log: named at the top", CIRCLE, page.text("#quiet"))
    page.trial.has("a deadlock in a log: its links", "client 1 waits for b, and client 2 holds it", page.text("#waits"))
    page.press("ArrowLeft")
    page.trial.same("before the deadlock: it is not named", False, "deadlock" in page.text("#left"))
    # Client 1 waits for two names, of which the second closes the circle.
    page.open(text_of_marks([*HELD, "request 3 3 c X 1", "enter 3 3 c X 1", "request 1 1 b X 2", "request 1 1 c X 2", "request 2 2 a X 2"]))
    page.press("End")
    page.trial.has("a client that waits for two names: the deadlock", CIRCLE, page.text("#quiet"))
    # Of each two requests the first goes first, and nobody holds a name: client 1 gets a, and client 2 gets b.
    page.open(text_of_marks(["request 1 1 a X 1", "request 2 2 b X 1", "request 2 2 a X 2", "request 1 1 b X 2"]))
    page.press("End")
    page.trial.same("clients that hold nothing: no deadlock", False, "deadlock" in page.text("#left"))
    page.open(text_of_marks(["request 1 7 a X 1", "enter 1 7 a X 1", "request 2 7 b X 1", "enter 2 7 b X 1", "request 1 7 b X 2"]))
    page.press("End")
    page.trial.same("two clients with one number: no deadlock", False, "deadlock" in page.text("#left"))


def random_log(seed):
    """Returns a random valid log: its marks, and after each of them who holds and who waits, by the rules of the lock table."""
    choice, compatible = random.Random(seed), {("S", "S"), ("S", "IS"), ("IS", "S"), ("IS", "IS"), ("IS", "IX"), ("IX", "IS"), ("IX", "IX"),
                                               ("IS", "SIX"), ("SIX", "IS")}
    marks, waiting, holding, tables = [], [], [], []
    # Tokens such as times in nanoseconds, of which a number of JavaScript has not all digits.
    token = 1795788030120000000
    while len(marks) < 60:
        name, node = choice.choice(["a", "b.1", "c"]), choice.randint(1, 5)
        token += 1
        if choice.random() < 0.5:
            entry = (node, choice.randint(0, 2**32 - 1), name, choice.choice(["S", "X", "IS", "IX", "SIX"]), token)
            if not any(it[0] == node and it[2] == name for it in waiting + holding):
                marks.append(("request", entry))
                waiting = [*waiting, entry]
        elif waiting and choice.random() < 0.6:
            entry = choice.choice(waiting)
            is_free = not any(it[2] == entry[2] and (it[3], entry[3]) not in compatible for it in
                              [*holding, *[it for it in waiting if (it[4], it[0]) < (entry[4], entry[0])]])
            marks.append(("enter" if is_free else "withdraw", entry))
            waiting = [it for it in waiting if it != entry]
            holding = [*holding, entry] if is_free else holding
        elif holding:
            entry = choice.choice(holding)
            marks.append(("leave", entry))
            holding = [it for it in holding if it != entry]
        if len(marks) > len(tables):
            tables.append((holding, waiting))
    return [f"{word} {' '.join(map(str, entry))}" for word, entry in marks], tables


def rows_of(marks, holding, waiting):
    """Returns the rows of the lock table: all names so far, in order, with who holds, and who waits, the earliest first."""
    names = sorted({it.split(" ")[3] for it in marks})
    text = "client {1} at node {0}: {3}, number {4}"
    earliest = sorted(waiting, key=lambda it: (it[4], it[0]))
    return [[name, sorted(text.format(*it) for it in holding if it[2] == name), [text.format(*it) for it in earliest if it[2] == name]]
            for name in names]


def try_random_logs(page):
    """Opens random valid logs."""
    for seed in range(1, 5):
        marks, tables = random_log(seed)
        page.open(text_of_marks(marks))
        page.press("End")
        for count in (60, 59, 37, 14):
            page.click(f"#steps li:nth-child({count}) button")
            came = [[name, sorted(holds), waits] for name, holds, waits in page.see(ROWS)]
            page.trial.same(f"random log {seed}, mark {count}: no fault", None, page.text("#fault"))
            page.trial.same(f"random log {seed}, mark {count}: the lock table", rows_of(marks[:count], *tables[count - 1]), came)
            page.compare_marks(f"random log {seed}, mark {count}", text_of_marks(marks[:count]))


def try_long_log(page):
    """Opens a log of more marks than are shown as steps."""
    marks = [f"{word} 1 {token} r X {token}" for token in range(1, 501) for word in ("request", "enter", "leave")]
    page.open(text_of_marks(marks))
    same = page.trial.same
    same("a long log: what is told of it", "Of 1500 marks, the last 1000 are shown.", page.text("#opened"))
    same("a long log: where it begins", "mark 500 of 1500", page.position())
    same("a long log: who holds at the beginning", [["r", ["client 167 at node 1: X, number 167"], []]], page.see(ROWS))
    page.press("ArrowRight")
    same("a long log: the first mark that is shown", "leave 1 167 r X 167", page.text("#steps li button"))
    same("a long log: its number", 501, page.see("document.getElementById('steps').start"))
    page.press("End")
    same("a long log: where it ends", "mark 1500 of 1500", page.position())
    page.trial.has("a long log: the verdict", "valid, requests 500, grants 500", page.text("#check"))


def try_marks_option(page, address):
    """Starts with a text that is read as a mark log, whatever it looks like."""
    with tempfile.TemporaryDirectory() as folder:
        name = os.path.join(folder, "a.log")
        with open(name, "w", encoding="utf-8") as it:
            it.write(example("tie.trace"))
        with serving("--ra", page.ra.path, "--marks", name) as (_, other, _, _):
            page.go(other)
            page.trial.same("--marks: where it opens", "mark 0 of 0", page.position())
            page.trial.has("--marks: the wrong line", "Line 1 cannot come next: trace 2 2 0", page.text("#wrong"))
            page.check_words("--marks")
    page.go(address)
    page.open(example("tie.trace"), is_marks=True)
    page.trial.same("read as a mark log: where it opens", "mark 0 of 0", page.position())
    page.trial.has("read as a mark log: the wrong line", "Line 1 cannot come next: trace 2 2 0", page.text("#wrong"))
    page.check_words("read as a mark log")
