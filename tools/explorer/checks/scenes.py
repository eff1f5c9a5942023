"""Scripts: a tie, a deferral, two readers, a lost message, a late copy, and a deadlock."""
import re

from checks.page import SEEN, button_of, choice_of, text_of
from checks.trial import TWO, beginnings, example, steps_of

TWICE = "nodes = 2\nclient = [{ node = 1, ops = [\"X r\", \"U r\", \"X r\"] }]\n"


def try_scene(page, what, script, trace, said):
    """Clicks through the steps of a trace without repeats. `said` has, for some steps, what the page says then: an element and a part of
    its text. These are facts of the algorithm."""
    page.open(script)
    choices = []
    page.compare(f"{what}, at the beginning", script, choices)
    for place, line in enumerate(steps_of(trace), 1):
        choices.append(choice_of(page.ra, script, choices, line))
        page.click(button_of(line))
        page.compare(f"{what}, step {place}", script, choices)
        for selector, part in said.get(place, []):
            page.trial.has(f"{what}, step {place}: {selector}", part, page.see(text_of(selector)))
        if place in said:
            page.keep(f"{what}-{place}".replace(" ", "-"))
    page.trial.same(f"{what}: the trace", trace, page.download("#trace"))
    page.trial.same(f"{what}: the script", script, page.download("#script"))
    page.trial.same(f"{what}: the picture", page.ra.run(["draw"], trace)[0], page.download("#svg"))
    return choices


def try_scenes(page):
    tie = "of equal numbers, the lower node goes first"
    try_scene(page, "a tie", TWO, example("tie.trace"), {
        2: [("#waits", "client 2 waits for r (X): client 1 at node 1 asked earlier (X)"), ("#quiet", "Not quiet: 2 messages under way.")],
        3: [("#now", tie), ("#now", "it defers its REPLY")],
        4: [("#now", tie), ("#now", "so it replies at once")],
        5: [("#now", "It was the last one that it awaited. Client 1 enters."), ("#waits", "client 1 at node 1 holds it (X)")],
        8: [("#rules .now dt", "leave"), ("#quiet", "Finished: every operation is done, and nothing is left.")],
    })
    try_scene(page, "a deferral", TWO, example("deferral.trace"), {
        4: [("#now", "Client 2 gets the number 2, one above the highest of node 2")],
        5: [("#now", "Its highest number rises from 1 to 2."), ("#now", "it defers its REPLY"), ("#quiet", "Quiet"),
            (".lane[data-node='2'] .awaits", "(deferred there)")],
        6: [("#now", "Now the deferred REPLY goes to node 2.")],
        8: [("#quiet", "Finished")],
    })
    try_scene(page, "two readers", TWO.replace("X r", "S r"), example("readers.trace"), {
        3: [("#now", "does not conflict, so it replies at once"), ("#waits", "client 2 waits for r (S): nobody is in its way")],
    })
    lost = "trace 2 2 0\nask 1 1 r X\nrequest 1 1 r X 1\nlose request 1 2 r X 1\nend\n"
    choices = try_scene(page, "a lost message", example("lost-message.toml"), lost, {
        2: [("#now", "is lost"), (".lane[data-node='1'] .awaits", "(lost on the way)"), ("#waits", "nobody is in its way"),
            ("#quiet", "1 message was lost. Stuck: no step is left.")],
    })
    page.trial.same("a lost message: its choices", ["c1", "l0"], choices)


def try_deadlock(page):
    """Opens a seed of the deadlock: the choices are those that COMMANDS shows."""
    script = example("deadlock-across-two-names.toml")
    page.open(script, policy="seeded", seed="3")
    page.trial.same("a seed: where it begins", "step 0 of 10", page.position())
    page.press("End")
    page.compare("a seed", script, "c2 c1 m0 m0 m1 c1 m1 m0 c2 m0".split(" "))
    page.trial.has("a seed: the deadlock", "A deadlock: client ", page.see(text_of("#waits")))
    page.trial.has("a seed: it is stuck", "Stuck: no step is left.", page.see(text_of("#quiet")))
    page.keep("a-deadlock")
    page.browser.call("Emulation.setEmulatedVisionDeficiency", type="achromatopsia")
    page.keep("a-deadlock-in-grey")
    page.browser.call("Emulation.setEmulatedVisionDeficiency", type="none")


# The state after each step of the late copy, by the rules. A copy has its place after all others.
LATE = [
    ["awaits 1 r 2", "client 1 1 waits r X 1", "message 0 request 1 2 r X 1", "node 1 r 1 waiting 1 X 1", "node 2 r 0 idle",
     "waiting 1 1 r X 1"],
    ["awaits 1 r 2", "client 1 1 waits r X 1", "message 0 request 1 2 r X 1", "message 1 request 1 2 r X 1", "node 1 r 1 waiting 1 X 1",
     "node 2 r 0 idle", "waiting 1 1 r X 1"],
    ["awaits 1 r 2", "client 1 1 waits r X 1", "message 0 reply 2 1 r 1", "message 1 request 1 2 r X 1", "node 1 r 1 waiting 1 X 1",
     "node 2 r 1 idle", "waiting 1 1 r X 1"],
    ["client 1 1 next unlock r enabled", "holding 1 1 r X 1", "message 0 request 1 2 r X 1", "node 1 r 1 inside 1 X 1", "node 2 r 1 idle"],
    ["client 1 1 next lock r X enabled", "message 0 request 1 2 r X 1", "node 1 r 1 idle", "node 2 r 1 idle"],
    ["awaits 1 r 2", "client 1 1 waits r X 6", "message 0 request 1 2 r X 2", "message 1 request 1 2 r X 1", "node 1 r 2 waiting 1 X 2",
     "node 2 r 1 idle", "waiting 1 1 r X 2"],
    ["awaits 1 r 2", "client 1 1 waits r X 6", "message 0 request 1 2 r X 2", "message 1 reply 2 1 r 1", "node 1 r 2 waiting 1 X 2",
     "node 2 r 1 idle", "waiting 1 1 r X 2"],
    ["awaits 1 r 2", "client 1 1 waits r X 6", "message 0 request 1 2 r X 2", "node 1 r 2 waiting 1 X 2", "node 2 r 1 idle",
     "waiting 1 1 r X 2"],
    ["awaits 1 r 2", "client 1 1 waits r X 6", "message 0 reply 2 1 r 2", "node 1 r 2 waiting 1 X 2", "node 2 r 2 idle",
     "waiting 1 1 r X 2"],
    ["client 1 1 done", "holding 1 1 r X 2", "node 1 r 2 inside 1 X 2", "node 2 r 2 idle"],
]
# The steps of which pictures are kept.
LATE_PICTURES = (2, 7, 8, 10)


def try_late_copy(page):
    """Clicks through the late copy. No choice is a repeat, so `ra sim --state` is not asked for it."""
    trace = example("late-copy.trace")
    page.open(TWICE)
    for place, ((line, beginning), state) in enumerate(zip(beginnings(trace), LATE), 1):
        page.click(button_of(line))
        page.compare_trace(f"a late copy, step {place}", beginning)
        page.trial.same(f"a late copy, step {place}: the state", state, page.see(SEEN))
        if place in LATE_PICTURES:
            page.keep(f"a-late-copy-{place}")
    page.trial.is_true("a late copy: the page says of which run the nodes are", page.see("!document.getElementById('without').hidden"))
    page.press("ArrowLeft", "ArrowLeft")
    page.trial.has("a late copy: the stray", "it is a stray, and nothing changes", page.see(text_of("#now")))
    page.press("ArrowLeft")
    page.trial.has("a late copy: the copy", "Node 2 receives REQUEST 1 of node 1 for r (X, exclusive), again.", page.see(text_of("#now")))
    page.press("End")
    page.trial.same("a late copy: its trace", trace, page.download("#trace"))
    page.trial.same("a late copy: its choices", "c1", page.see("document.getElementById('choices').value"))


# Scripts and seeds of runs with losses and repeats. In the last run of each, a REPLY that was lost is sent again, for a copy.
FAULTY = [("two-clients.toml", (2, 3, 7)), ("queue-at-one-node.toml", (3, 65)), ("deadlock-across-two-names.toml", (3, 6)), ("lost-message.toml", (12,))]


def try_copies(page):
    """Opens runs with losses and repeats. `ra sim --state` prints the state at their ends, copies included, which the page has to find by
    the run without the copies."""
    for name, seeds in FAULTY:
        for seed in seeds:
            script, faults = example(name), ["--policy", "faulty", "--seed", str(seed), "--lose", "80", "--repeat", "250"]
            page.open(script, policy="faulty", seed=str(seed), lose="80", repeat="250")
            page.press("End")
            trace = page.ra.run(["sim", *faults, "--trace"], script)[0]
            page.compare_trace(f"{name} with copies, seed {seed}", trace)
            state = page.ra.run(["sim", *faults, "--state"], script)[0].splitlines()[1:]
            page.trial.same(f"{name} with copies, seed {seed}: the state", without_places(state), without_places(page.see(SEEN)))


def without_places(lines):
    """Returns the lines of a state without the places of messages: the page has copies after all others."""
    return sorted(re.sub(r"^message [0-9]+ ", "message ", line) for line in lines)
