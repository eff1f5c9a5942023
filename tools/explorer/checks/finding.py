"""Finds runs by their seeds, and shrinks those that are stuck."""
from checks.trial import example


def find(page, shrinks=False, **fields):
    """Fills in the dialog for finding a run, and sends it."""
    page.browser.click("#find")
    page.fill(**{"from": "1", "to": "1000", "ends": "stuck", "find_lose": "0", "find_repeat": "0", **fields})
    page.see(f"document.getElementById('shrinks').checked = {str(shrinks).lower()}")
    page.click("#finds button")


def try_finding(page):
    """Finds the first seed that gets stuck, and one that finishes. COMMANDS has the first seeds of both, and which clients wait."""
    same, has, script = page.trial.same, page.trial.has, example("deadlock-across-two-names.toml")
    page.open(script)
    find(page)
    choices = page.ra.run(["sim", "--policy", "seeded", "--seed", "1", "--as-choices"], script)[0].split()
    same("the first run that is stuck: what is told", "Seed 1 is the first of 1 to 1000 whose run gets stuck.", page.text("#opened"))
    same("the first run that is stuck: where it opens", f"step {len(choices)} of {len(choices)}", page.position())
    page.compare("the first run that is stuck", script, choices)
    circles = ["A deadlock: client 1 \u2192 client 2 \u2192 client 1.", "A deadlock: client 2 \u2192 client 1 \u2192 client 2."]
    page.trial.is_true("a deadlock: it is named at the top", any(it in page.text("#quiet") for it in circles))
    for part in ("client 1 waits for b, and client 2 holds it", "client 2 waits for a, and client 1 holds it"):
        has("a deadlock: who waits for whom", part, page.text("#waits .circle"))
    page.keep("found-and-stuck")
    page.click("#shrink")
    shorter = page.ra.run(["sim", "--policy", "listed", f"--choices={' '.join(choices)}", "--shrink"], script)[0].split()
    told = f"It was shrunk from {len(choices)} steps to {len(shorter)}." if len(shorter) < len(choices) else \
        f"None of its {len(shorter)} steps can be left out."
    same("shrunk: what is told", f"Seed 1 is the first of 1 to 1000 whose run gets stuck. {told}", page.text("#opened"))
    page.compare("shrunk", script, shorter)
    has("shrunk: it is a deadlock, too", "A deadlock: ", page.text("#quiet"))
    find(page, ends="finished")
    same("the first run that finishes: what is told", "Seed 5 is the first of 1 to 1000 whose run finishes.", page.text("#opened"))
    has("the first run that finishes: its end", "Finished", page.text("#quiet"))
    same("a run that finishes cannot be shrunk", True, page.see("document.getElementById('shrink').disabled"))


def try_losses(page):
    """Finds and shrinks a run with losses at once: COMMANDS shows its choices."""
    script = example("readers-beside-a-writer.toml")
    page.open(script)
    find(page, shrinks=True, find_lose="50")
    page.trial.same("with losses: what is told", "Seed 8 is the first of 1 to 1000 whose run gets stuck. It was shrunk from 16 steps to 4.",
                    page.text("#opened"))
    page.compare("with losses", script, "c3 l1 m0 m0".split())
    page.trial.has("with losses: no deadlock", "1 message was lost", page.text("#quiet"))
    page.trial.same("with losses: it is no deadlock", False, "deadlock" in page.text("#left"))
    page.press("ArrowLeft")
    page.trial.same("a step before: it cannot be shrunk", True, page.see("document.getElementById('shrink').disabled"))
    page.browser.click(".lane .deliver")
    page.settle()
    # Runs with repeats are told as traces.
    find(page, find_lose="80", find_repeat="250")
    page.trial.has("with repeats: what is told", "whose run gets stuck.", page.text("#opened"))
    seed = page.text("#opened").split(" ")[1]
    faults = ["--policy", "faulty", "--lose", "80", "--repeat", "250"]
    out, _ = page.ra.run(["sim", *faults, "--seeds", "1..1000"], script)
    first = next(it.split(" ")[3] for it in out.splitlines() if it.startswith("stuck "))
    page.trial.same("with repeats: the seed", first, seed)
    page.compare_trace("with repeats", page.ra.run(["sim", *faults, "--seed", seed, "--trace"], script)[0])


def try_nothing_found(page):
    """Looks for runs that there are not, and fills in what cannot be."""
    page.open(example("two-names-in-one-order.toml"))
    rows = [
        ({}, "of the runs with seeds 1 to 1000, none gets stuck"),
        ({"from": "7", "to": "6"}, "the first seed must not be above the last one"),
        ({"from": "-1"}, "the first seed must be a number from 0 to 18446744073709551615"),
        ({"to": "many"}, "the last seed must be a number from 0 to 18446744073709551615"),
        ({"find_lose": "1001"}, "the messages lost must be a number from 0 to 1000"),
    ]
    for fields, why in rows:
        find(page, **fields)
        page.trial.same(f"{fields}: what is told", why, page.text("#unfound"))
        page.check_words(str(fields))
        page.press("Escape")
        page.trial.same(f"{fields}: the run is as before", "step 0 of 0", page.position())
