"""A model of `ra sim --policy listed --state`: the state at the end of a run, by the formats and by the rules of the algorithm."""
import dataclasses
import random

MODES = ("S", "X", "IS", "IX", "SIX")
# The modes that conflict with each mode.
CONFLICTS = {"S": "X IX SIX", "X": "S X IS IX SIX", "IS": "X", "IX": "S X SIX", "SIX": "S X IX SIX"}


@dataclasses.dataclass
class Name:
    """What one node knows of one name. The request of `client`, if there is one, waits or is granted."""
    highest: int = 0
    phase: str = "idle"
    client: int = 0
    mode: str = ""
    number: int = 0
    awaited: set = dataclasses.field(default_factory=set)
    deferred: dict = dataclasses.field(default_factory=dict)
    queue: list = dataclasses.field(default_factory=list)


@dataclasses.dataclass
class Client:
    """A client, its operations, how many of them it has made, and the step since which it waits, or 0."""
    node: int
    operations: list
    made: int = 0
    since: int = 0


class Cluster:
    """A cluster that follows a script: `nodes`, and for each client its node and its operations, as (word, name)."""

    def __init__(self, nodes, clients):
        self.nodes = nodes
        self.clients = [Client(node, operations) for node, operations in clients]
        self.names = sorted({name.encode() for client in self.clients for _, name in client.operations})
        self.known = {(node, name): Name() for node in range(1, nodes + 1) for name in self.names}
        # Messages as (kind, sender, receiver, name, mode, number), in the order of sending.
        self.under_way = []
        self.steps = 0

    def enabled(self):
        """Returns the clients that can go on: those that don't wait and have something left to do."""
        return [at for at, it in enumerate(self.clients, 1) if not it.since and it.made < len(it.operations)]

    def choices(self):
        """Returns all words that can come next, but for losses."""
        return [f"c{at}" for at in self.enabled()] + [f"m{at}" for at in range(len(self.under_way))]

    def is_finished(self):
        return not self.under_way and all(not it.since and it.made == len(it.operations) for it in self.clients)

    def make(self, word):
        """Makes a choice that can be made."""
        self.steps += 1
        number = int(word[1:])
        if word[0] == "c":
            self.go_on(number)
            return
        message = self.under_way.pop(number)
        if word[0] == "m":
            self.receive(*message)

    def go_on(self, at):
        client = self.clients[at - 1]
        word, name = client.operations[client.made]
        client.made += 1
        known = self.known[client.node, name.encode()]
        if word == "U":
            self.leave(client.node, name.encode(), known)
            return
        client.since = self.steps
        if known.phase == "idle":
            self.request(client.node, name.encode(), known, at, word)
        else:
            known.queue.append((at, word))

    def request(self, me, name, known, client, mode):
        known.highest += 1
        known.number, known.client, known.mode = known.highest, client, mode
        others = [node for node in range(1, self.nodes + 1) if node != me]
        known.awaited = set(others)
        self.under_way += [("request", me, node, name, mode, known.number) for node in others]
        known.phase = "waiting"
        if not others:
            self.enter(known)

    def enter(self, known):
        known.phase = "inside"
        self.clients[known.client - 1].since = 0

    def leave(self, me, name, known):
        self.under_way += [("reply", me, node, name, "", known.deferred[node]) for node in sorted(known.deferred)]
        known.deferred, known.phase = {}, "idle"
        if known.queue:
            self.request(me, name, known, *known.queue.pop(0))

    def receive(self, kind, sender, me, name, mode, number):
        known = self.known[me, name]
        if kind == "request":
            known.highest = max(known.highest, number)
            goes_first = (
                known.phase != "idle" and mode in CONFLICTS[known.mode].split() and (known.number, me) < (number, sender)
            )
            if goes_first:
                known.deferred[sender] = max(number, known.deferred.get(sender, 0))
            else:
                self.under_way.append(("reply", me, sender, name, "", number))
        elif known.phase == "waiting" and known.number == number and sender in known.awaited:
            known.awaited.remove(sender)
            if not known.awaited:
                self.enter(known)

    def lines(self):
        """Returns the lines of the state, without line feeds."""
        yield "steps", self.steps
        for (node, name), known in sorted(self.known.items()):
            place = (node, name.decode())
            request = () if known.phase == "idle" else (known.client, known.mode, known.number)
            yield "node", *place, known.highest, known.phase, *request
            yield from (("awaits", *place, other) for other in sorted(known.awaited))
            yield from (("defers", *place, other, known.deferred[other]) for other in sorted(known.deferred))
            yield from (("queued", *place, *queued) for queued in known.queue)
        for at, (kind, sender, receiver, name, mode, number) in enumerate(self.under_way):
            yield "message", at, kind, sender, receiver, name.decode(), *([mode] if mode else []), number
        for at, client in enumerate(self.clients, 1):
            yield "client", at, client.node, *self.state_of(client)
        for (node, name), known in sorted(self.known.items()):
            if known.phase != "idle":
                word = "waiting" if known.phase == "waiting" else "holding"
                yield word, node, known.client, name.decode(), known.mode, known.number

    def state_of(self, client):
        if client.since:
            word, name = client.operations[client.made - 1]
            return "waits", name, word, client.since
        if client.made == len(client.operations):
            return ("done",)
        word, name = client.operations[client.made]
        # A client that does not wait can always go on here: no number is ever the last one.
        return ("next", "unlock", name, "enabled") if word == "U" else ("next", "lock", name, word, "enabled")

    def text(self):
        return "".join(" ".join(map(str, line)) + "\n" for line in self.lines())


def random_script(rng):
    """Returns how many nodes there are, and for each client its node and its operations."""
    nodes = rng.randint(1, 5)
    names = rng.sample(["r", "q", "R", "a-b", "a.b", "_", "r10", "r9", "x" * 32], rng.randint(1, 3))
    return nodes, [(rng.randint(1, nodes), random_operations(rng, names)) for _ in range(rng.randint(1, 6))]


def random_operations(rng, names):
    operations, held = [], set()
    for _ in range(rng.randint(0, 6)):
        name = rng.choice(names)
        operations.append(("U" if name in held else rng.choice(MODES), name))
        held ^= {name}
    return operations


def script_text(nodes, clients):
    tables = [
        "\n[[client]]\nnode = %d\nops = [%s]\n" % (node, ", ".join(f'"{word} {name}"' for word, name in operations))
        for node, operations in clients
    ]
    return f"nodes = {nodes}\n" + "".join(tables)


def random_run(seed):
    """Returns a script, choices that can be made, and the cluster after them."""
    rng = random.Random(seed)
    nodes, clients = random_script(rng)
    cluster, made = Cluster(nodes, clients), []
    for _ in range(rng.choice([0, 3, 10, 30, 200])):
        words = cluster.choices()
        if not words:
            break
        word = rng.choice(words)
        if word[0] == "m" and rng.random() < 0.05:
            word = "l" + word[1:]
        cluster.make(word)
        made.append(word)
    return script_text(nodes, clients), " ".join(made), cluster
