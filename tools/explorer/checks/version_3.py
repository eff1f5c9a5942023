"""Traces of version 3: a withdrawal, and random runs with cancels and forgets."""
import os
import random
import sys

from checks.page import SEEN, button_of, text_of
from checks.trial import ROOT, beginnings, example

# The state after each step of the withdrawal, by the rules.
WITHDRAWAL = [
    ["awaits 2 r 1", "client 7 1 can lock r X", "client 8 2 can cancel r", "message 0 request 2 1 r X 1", "node 1 r 0 idle",
     "node 2 r 1 waiting 8 X 1", "waiting 2 8 r X 1"],
    ["awaits 2 r 1", "client 7 1 can lock r X", "client 8 2 can cancel r", "message 0 reply 1 2 r 1", "node 1 r 1 idle",
     "node 2 r 1 waiting 8 X 1", "waiting 2 8 r X 1"],
    ["client 7 1 can lock r X", "client 8 2 can unlock r", "holding 2 8 r X 1", "node 1 r 1 idle", "node 2 r 1 inside 8 X 1"],
    ["awaits 1 r 2", "client 7 1 can cancel r", "client 8 2 can unlock r", "holding 2 8 r X 1", "message 0 request 1 2 r X 2",
     "node 1 r 2 waiting 7 X 2", "node 2 r 1 inside 8 X 1", "waiting 1 7 r X 2"],
    ["client 7 1 can lock r X", "client 8 2 can unlock r", "holding 2 8 r X 1", "message 0 request 1 2 r X 2", "node 1 r 2 idle",
     "node 2 r 1 inside 8 X 1"],
    ["awaits 1 r 2", "client 7 1 can cancel r", "client 8 2 can unlock r", "holding 2 8 r X 1", "message 0 request 1 2 r X 2",
     "message 1 request 1 2 r X 3", "node 1 r 3 waiting 7 X 3", "node 2 r 1 inside 8 X 1", "waiting 1 7 r X 3"],
    ["awaits 1 r 2", "client 7 1 can cancel r", "client 8 2 can unlock r", "defers 2 r 1 2", "holding 2 8 r X 1",
     "message 0 request 1 2 r X 3", "node 1 r 3 waiting 7 X 3", "node 2 r 2 inside 8 X 1", "waiting 1 7 r X 3"],
    ["awaits 1 r 2", "client 7 1 can cancel r", "client 8 2 can unlock r", "defers 2 r 1 3", "holding 2 8 r X 1",
     "node 1 r 3 waiting 7 X 3", "node 2 r 3 inside 8 X 1", "waiting 1 7 r X 3"],
    ["awaits 1 r 2", "client 7 1 can cancel r", "client 8 2 can lock r X", "message 0 reply 2 1 r 3", "node 1 r 3 waiting 7 X 3",
     "node 2 r 3 idle", "waiting 1 7 r X 3"],
    ["client 7 1 can unlock r", "client 8 2 can lock r X", "holding 1 7 r X 3", "node 1 r 3 inside 7 X 3", "node 2 r 3 idle"],
    ["client 7 1 can lock r X", "client 8 2 can lock r X", "node 1 r 3 idle", "node 2 r 3 idle"],
]
# What the page says after some of these steps, and the steps of which pictures are kept.
WITHDRAWAL_SAYS = {
    5: [("#now", "Client 7 at node 1 gives up r. Its request is withdrawn, and no other node is told."),
        ("#now", "A REPLY 2 that comes now is a stray. No REPLY was deferred."), ("#rules .now dt", "cancel")],
    8: [("#now", "it still defers its REPLY"), ("#quiet", "Quiet: nothing is under way")],
    9: [("#now", "Now the deferred REPLY goes to node 1."), ("#quiet", "Not quiet: 1 message under way.")],
    11: [("#quiet", "Finished")],
}
WITHDRAWAL_PICTURES = (5, 8)


def try_withdrawal(page):
    """Steps through the withdrawal, and clicks through it. Then its clients and nodes do otherwise."""
    same, has = page.trial.same, page.trial.has
    trace = example("withdrawal.trace")
    for what, open_step in [("a withdrawal", lambda line: page.press("ArrowRight")),
                            ("a withdrawal, clicked", lambda line: page.click(button_of(line, True)))]:
        page.open(trace)
        for place, ((line, beginning), state) in enumerate(zip(beginnings(trace), WITHDRAWAL), 1):
            open_step(line)
            page.compare_trace(f"{what}, step {place}", beginning)
            same(f"{what}, step {place}: the state", state, page.see(SEEN))
            for selector, part in WITHDRAWAL_SAYS.get(place, []):
                has(f"{what}, step {place}: {selector}", part, page.see(text_of(selector)))
            if place in WITHDRAWAL_PICTURES:
                page.keep(f"a-withdrawal-{place}")
        same(f"{what}: where it ends", "step 11 of 11", page.position())
        same(f"{what}: its trace", trace, page.download("#trace"))
    page.trial.is_true("a withdrawal: the page says who makes its steps", page.see("!document.getElementById('confirmed').hidden"))
    page.trial.is_true("a withdrawal: it has no choices", page.see("document.getElementById('chosen').hidden"))
    page.press("Home", "ArrowRight", "ArrowRight", "ArrowRight")
    page.click(button_of("forget 1", True))
    same("otherwise: the later steps are dropped", "step 4 of 4", page.position())
    has("otherwise: the forget", "All its highest numbers were the same.", page.see(text_of("#now")))
    page.see("document.activeElement.blur()")
    page.press("c", "1", "Enter")
    has("otherwise: a choice", "a step of this trace is a click, or m, l or r and a number", page.see(text_of("#fault")))
    page.see("document.activeElement.blur()")
    page.click(button_of("ask 1 7 r X", True))
    page.press("r", "0", "Enter")
    page.see("document.activeElement.blur()")
    page.click(button_of("release 2 8 r", True))
    state = ["awaits 1 r 2", "client 7 1 can cancel r", "client 8 2 can lock r X", "message 0 request 1 2 r X 2",
             "message 1 request 1 2 r X 2", "node 1 r 2 waiting 7 X 2", "node 2 r 1 idle", "waiting 1 7 r X 2"]
    same("otherwise: the state", state, page.see(SEEN))
    steps = ["forget 1", "ask 1 7 r X", "request 1 7 r X 2", "repeat request 1 2 r X 2", "release 2 8 r", "leave 2 8 r X 1", "end", ""]
    page.compare_trace("otherwise", "\n".join([*trace.splitlines()[:6], *steps]))


def state_of(world, whole):
    """Returns what the page shows of the beginning of a run of the model: lines as those of `ra sim --state`, and what its clients can do.
    Names and clients are those of the whole run."""
    import events_model
    asks = [it.step for it in whole.steps if isinstance(it.step, events_model.Act) and isinstance(it.step.event, events_model.Ask)]
    names, lines = sorted({it.event.name for it in asks}), []
    for me, node in world.each.items():
        for name in names:
            at = node.names.get(name, events_model.Resource(node.start))
            phase = "idle"
            if at.own:
                client, mode, number = at.own
                phase = f"{'waiting' if at.awaited else 'inside'} {client} {mode} {number}"
                lines.append(f"{'waiting' if at.awaited else 'holding'} {me} {client} {name} {mode} {number}")
            lines.append(f"node {me} {name} {at.highest} {phase}")
            lines += [f"awaits {me} {name} {it}" for it in at.awaited]
            lines += [f"defers {me} {name} {it} {number}" for it, number in at.deferred.items()]
            lines += [f"queued {me} {name} {client} {mode}" for client, mode in at.queue]
    lines += [f"message {place} {events_model.words_of(it)}" for place, it in enumerate(world.under_way)]
    return sorted(lines + [line for ask in asks for line in wish_of(world, ask, asks)])


def wish_of(world, ask, asks):
    """Returns what a client can do with a name, if this is its first ask for it."""
    node, (client, name, mode) = ask.node, ask.event
    if ask is not next(it for it in asks if (it.node, it.event.client, it.event.name) == (node, client, name)):
        return []
    at = world.each[node].names.get(name)
    if at and at.own and at.own[0] == client and not at.awaited:
        does = f"unlock {name}"
    elif at and client in [it[0] for it in [at.own, *at.queue] if it]:
        does = f"cancel {name}"
    else:
        does = f"lock {name} {mode}"
    return [f"client {client} {node} can {does}"]


def random_world(seed):
    """Returns a random run of the model with cancels and forgets, by the rules of a node alone."""
    import events_model
    choice = random.Random(seed)
    nodes, names = choice.randint(1, 4), ["a", "b.1"][:choice.randint(1, 2)]
    world = events_model.World(nodes, 0)
    while len(world.steps) < 60:
        node, name, client = choice.randint(1, nodes), choice.choice(names), choice.randint(1, 3)
        if world.under_way and choice.random() < 0.55:
            step = events_model.Move(choice.choices(["deliver", "lose", "repeat"], [30, 1, 3])[0], choice.choice(world.under_way))
        else:
            step = events_model.Act(node, choice.choices([
                events_model.Ask(client, name, choice.choice(["S", "X", "IX"])), events_model.Release(client, name),
                events_model.Cancel(client, name), events_model.Forget()], [6, 6, 3, 1])[0])
        # A step that is refused changes nothing.
        world.make(step)
    return world


def try_random_runs(page):
    """Opens random runs with cancels, forgets and repeats, and compares some of their states with those of the model."""
    sys.path.insert(0, os.path.join(ROOT, "cases"))
    import events_model
    for seed in range(1, 7):
        whole = random_world(seed)
        page.open("\n".join([*whole.trace(with_sends=seed % 2 == 0), ""]))
        page.press("End")
        for count in (60, 41, 22):
            page.click(f"#steps li:nth-child({count}) button")
            world = events_model.World(whole.nodes, 0)
            for done in whole.steps[:count]:
                world.make(done.step)
            page.trial.same(f"random run {seed}, step {count}: no fault", "", page.see(text_of("#fault")))
            page.trial.same(f"random run {seed}, step {count}: the state", state_of(world, whole), page.see(SEEN))
            page.compare_trace(f"random run {seed}, step {count}", "\n".join([*world.trace(with_sends=seed % 2 == 0), ""]))
