"""Wrong traces, which are opened at their last step before the wrong line, and traces with few clients."""
import re

from checks.page import SEEN, button_of
from checks.trial import beginnings, example, steps_of

TIE = example("tie.trace")
# Of the tie: its text, the wrong line and its cause by docs/FORMATS.md, the line itself, how many steps come before it, and facts that
# the page has to name.
WRONG = [
    ("two hold at once", example("damaged.trace"), 13, "Table", "enter 2 2 r X 1", 8, ["client 1 at node 1 has held 'r' (X)", "line 12"]),
    ("no line of a trace", TIE.replace("release 1 1 r", "releases 1 1 r"), 10, "Line", "releases 1 1 r", 5, []),
    ("a mark is missing", TIE.replace("enter 1 1 r X 1\n", ""), 9, "Marks", "release 1 1 r", 5, ["enter 1 1 r X 1"]),
    ("a mark too many", TIE.replace("release 1 1 r\n", ""), 10, "Marks", "leave 1 1 r X 1", 5, []),
    ("a client that does not hold", TIE.replace("release 1 1 r", "release 1 2 r"), 10, "Refused", "release 1 2 r", 5, ["client 2"]),
    ("a message that was not sent", TIE.replace("deliver reply 1 2 r 1", "deliver reply 1 2 r 2"), 12, "NotUnderWay",
     "deliver reply 1 2 r 2", 6, []),
    ("the text ends early", TIE.replace("end\n", ""), 16, "Line", None, 8, []),
    ("a name that looks like an option", TIE.replace("release 1 1 r", "release 1 1 --find"), 10, "Refused", "release 1 1 --find", 5, []),
    ("a node that replies late", example("late-reply.trace"), 6, "Sends", "ask 2 2 k X", 2, ["send reply 2 1 r 1"]),
]


def try_wrong_traces(page):
    """Opens wrong traces. The wrong line comes after their last step, and it cannot be made."""
    same, has = page.trial.same, page.trial.has
    for what, text, number, cause, line, count, facts in WRONG:
        page.open(text)
        same(f"{what}: where it opens", f"step {count} of {count}", page.position())
        same(f"{what}: the note", f"Line {number} is wrong ({cause}). What comes before it is shown.", page.text("#opened"))
        shown = line or "the text ends here."
        for part in [f"Line {number} cannot come next: {shown}", *facts]:
            has(f"{what}: the wrong line", part, page.text("#wrong"))
        same(f"{what}: its place among the steps", f"\u2717 line {number}: {shown} ({cause})", page.text("#steps li:last-child.wrong"))
        same(f"{what}: it is no step", False, page.see("!!document.querySelector('#steps .wrong button')"))
        if cause == "Table":
            page.keep("a-wrong-trace")
        page.press("ArrowRight")
        same(f"{what}: nothing comes after it", f"step {count} of {count}", page.position())
        page.press("ArrowLeft")
        same(f"{what}: it is not shown at an earlier step", (None, None), (page.text("#wrong"), page.text("#steps .wrong")))
        page.press("End")
        page.trial.is_true(f"{what}: it is shown again at the end", page.text("#wrong"))


def try_otherwise(page):
    """Makes another step in place of the wrong line, which is gone then."""
    page.open(example("damaged.trace"))
    page.click(button_of("release 1 1 r"))
    page.trial.same("in place of the wrong line: where it is", "step 9 of 9", page.position())
    page.trial.same("in place of the wrong line: what is told of it", (None, None, None),
                    (page.text("#opened"), page.text("#wrong"), page.text("#steps .wrong")))
    lines = example("damaged.trace").replace("trace 1", "trace 2").splitlines()
    page.compare_trace("in place of the wrong line", "\n".join([*lines[:12], "release 1 1 r", "leave 1 1 r X 1", "end", ""]))


def try_sends(page):
    """Opens a trace with sends, whose node answers too late: the state before the wrong line is by the rules."""
    page.open(example("late-reply.trace"))
    right = example("late-reply.trace").splitlines()[:5] + ["send reply 2 1 r 1", "end", ""]
    page.compare_trace("a late REPLY", "\n".join(right))
    page.trial.same("a late REPLY: the state", ["awaits 1 r 2", "client 1 1 can cancel r", "message 0 reply 2 1 r 1",
                    "node 1 r 1 waiting 1 X 1", "node 2 r 1 idle", "waiting 1 1 r X 1"], page.see(SEEN))


def try_few_clients(page):
    """Opens a trace with clients 3 and 4 alone. A script for it has clients 1 and 2, too, and the page must not show these."""
    clients = "[...document.querySelectorAll('.client')].map((it) => it.dataset.client).sort()"
    trace = re.sub(r"^(ask|request|enter|release|leave) ([12]) [12]", lambda it: f"{it[1]} {it[2]} {int(it[2]) + 2}", TIE, flags=re.M)
    page.open(trace)
    for place, (_, beginning) in enumerate([(None, "trace 2 2 0\nend\n"), *beginnings(trace)]):
        page.trial.same(f"few clients, step {place}: its clients", ["3", "4"], page.see(clients))
        page.compare_trace(f"few clients, step {place}", beginning)
        page.press("ArrowRight")
    page.trial.same("few clients: nothing is told of another one", 0, page.see("document.body.innerText.match(/client [12]\\b/g)?.length ?? 0"))
    page.see("document.getElementById('word').value = 'c1'; document.getElementById('word').focus()")
    page.press("Enter")
    page.trial.same("few clients: client 1 has no step", "there is no client 1", page.text("#fault"))
    page.open("trace 2 3 0\nend\n")
    page.trial.same("no clients: none is shown", [], page.see(clients))
    page.trial.same("no clients: how many steps", f"step 0 of {len(steps_of('trace 2 3 0'))}", page.position())
