"""Goes through a run by keys, buttons and the slider, opens texts, and opens each example."""
from checks.page import button_of, text_of
from checks.trial import TWO, example, steps_of

# What cannot be done after client 1 of two has asked, and its message was lost.
WRONG_WORDS = [
    ("m7", "no message is under way, so there is none to deliver"),
    ("l0", "no message is under way, so there is none to lose"),
    ("c1", "client 1 waits for r, and can do nothing until it is let in"),
    ("c3", "there is no client 3"),
    ("x1", "a step is c, m, l or r and a number, such as c1 or m0"),
]


def try_walk(page):
    """Goes through a run by keys, buttons and the slider, and chooses otherwise."""
    same = page.trial.same
    page.open(TWO)
    page.press("c", "1", "Enter")
    same("keys: a typed choice", "step 1 of 1", page.position())
    page.see("document.activeElement.blur()")
    page.press("m", "0", "Enter")
    page.see("document.activeElement.blur()")
    page.compare("keys", TWO, ["c1", "m0"])
    for keys, position in [(["ArrowLeft"], "step 1 of 2"), (["ArrowLeft", "ArrowLeft"], "step 0 of 2"), (["ArrowRight"], "step 1 of 2"),
                           (["End"], "step 2 of 2"), (["ArrowRight"], "step 2 of 2"), (["Home"], "step 0 of 2")]:
        page.press(*keys)
        same(f"keys: {keys}", position, page.position())
    for button, position in [("#forward", "step 1 of 2"), ("#last", "step 2 of 2"), ("#back", "step 1 of 2"), ("#first", "step 0 of 2")]:
        page.click(button)
        same(f"the button {button}", position, page.position())
    page.see("document.getElementById('slider').focus()")
    page.press("ArrowRight", "ArrowRight")
    same("the slider", "step 2 of 2", page.position())
    page.compare("the slider", TWO, ["c1", "m0"])
    page.click(button_of("ask 2 2 r X"))
    same("one step more", "step 3 of 3", page.position())
    page.click("#steps li:first-child button")
    same("a step of the list", "step 1 of 3", page.position())
    # A button has the focus, and Enter takes it. The next button of the same node has it then.
    page.see("document.querySelector(\".lane[data-node='2'] .lose\").focus()")
    page.press("Enter")
    same("another choice: the later steps are dropped", "step 2 of 2", page.position())
    page.compare("another choice", TWO, ["c1", "l0"])
    same("the focus stays at the node", "2", page.see("document.activeElement.closest('.lane')?.dataset.node"))
    for word, why in WRONG_WORDS:
        page.see(f"document.getElementById('word').value = {word!r}; document.getElementById('word').focus()")
        page.press("Enter")
        page.trial.same(f"{word} cannot be done: why", why, page.text("#fault"))
        page.check_words(f"{word} cannot be done")
        page.compare(f"{word} cannot be done", TWO, ["c1", "l0"])
    # The place for the next step has the focus, and is empty.
    page.press("ArrowLeft")
    same("an arrow in the empty place for the next step", "step 1 of 2", page.position())


def try_keys(page):
    """Presses the keys of the help, and goes on by the arrows after an example was chosen."""
    same = page.trial.same
    page.choose("deferral.trace")
    page.press("ArrowRight", "ArrowRight")
    same("an arrow after an example was chosen", "step 2 of 8", page.position())
    for key, dialog in [("o", "#opening"), ("f", "#finding"), ("?", "#helping")]:
        page.press(key)
        page.trial.is_true(f"{key} opens a dialog", page.see(f"document.querySelector('{dialog}').open"))
        page.keep(f"the-dialog{dialog.replace('#', '-')}")
        page.press("ArrowRight")
        same(f"{key}: an arrow in the dialog is not for the run", "step 2 of 8", page.position())
        page.press("Escape")
        same(f"Escape closes the dialog of {key}", False, page.see(f"document.querySelector('{dialog}').open"))
    for is_shown in (False, True):
        page.press("p")
        same(f"p: the picture is shown: {is_shown}", is_shown, page.see("document.getElementById('picture').checkVisibility()"))


WRONG_NUMBERS = [
    ({"policy": "seeded", "seed": "-1"}, "the seed must be a number from 0 to 18446744073709551615"),
    ({"policy": "seeded", "seed": "18446744073709551616"}, "the seed must be a number from 0 to 18446744073709551615"),
    ({"policy": "faulty", "lose": "1001"}, "the messages lost must be a number from 0 to 1000"),
    ({"policy": "faulty", "lose": "0", "repeat": "401"}, "the messages repeated must be a number from 0 to 400"),
    ({"policy": "faulty", "lose": "900", "repeat": "101"}, "at most 1000 of 1,000 messages can be lost or repeated"),
]


def try_opening(page):
    """Opens traces, and texts that are refused."""
    same, has = page.trial.same, page.trial.has
    faults, script = example("two-clients-with-faults.trace"), example("two-clients.toml")
    seed = {"policy": "faulty", "seed": "19", "lose": "50", "repeat": "100"}
    for what, text, how in [("a trace", faults, {}), ("a seed with faults", script, seed)]:
        page.open(text, **how)
        same(f"{what}: where it begins", f"step 0 of {len(steps_of(faults))}", page.position())
        page.press("End")
        page.compare_trace(what, faults)
        same(f"{what}: downloaded", faults, page.download("#trace"))
    page.open(example("two-clients-1.trace"))
    page.press("End")
    same("a trace of version 1", example("two-clients.trace"), page.download("#trace"))
    page.open(example("tie.trace").replace("1 1 r", "1 70 r").replace("2 2 r", "2 70 r"))
    has("a trace whose clients have other numbers", "client 2 is client 70 at node 1 in the trace", page.see(text_of("#opened")))
    page.press("End")
    has("a trace whose clients have other numbers: its end", "Finished", page.see(text_of("#quiet")))
    position = page.position()
    for what, text, word in [("no script", "nodes = 0\nclient = []\n", "refused Nodes"), ("no TOML", "nodes\n", "refused Toml"),
                             ("no trace", "trace 9 2 0\nend\n", "invalid 1 Line"), ("a start above 0", "trace 2 2 7\nend\n", "begin above 0"),
                             ("a script that is too long", "#" * 65_537, "refused Limit"), ("a text that is too long", "#" * 70_001, "more than 70,000 bytes")]:
        page.open(text)
        has(f"{what}: the refusal", word, page.text("#refusal"))
        page.check_words(what)
        page.press("Escape")
        same(f"{what}: the run is as before", position, page.position())
    for how, why in WRONG_NUMBERS:
        page.open(script, **how)
        same(f"{how}: the refusal", why, page.text("#refusal"))
        page.press("Escape")


def try_offered(page):
    """Opens each example, and steps to its end."""
    for name in page.see("[...document.getElementById('offered').options].slice(1).map((it) => it.value)"):
        page.choose(name)
        page.press("End")
        page.trial.same(f"{name}: no fault", None, page.text("#fault"))
        # Of a wrong one, the wrong lines are tried elsewhere.
        if name.endswith(".trace") and name != "damaged.trace":
            page.compare_trace(name, example(name))
        page.trial.same(f"{name}: nothing is wider than its place", [], page.see("""
            [document.documentElement, ...document.querySelectorAll(".lane, #left, #right, header, footer, #facts section")]
                .filter((it) => it.scrollWidth > it.clientWidth + 1).map((it) => it.id || it.className || it.tagName)"""))
