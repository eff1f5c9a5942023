"""A model of `ra sim --shrink`: runs of a script by choices, and how one that is stuck is made shorter."""
import tomllib

from settle_model import Ask, Node, Receive, Release, Frame


def script_of(text):
    """Returns the number of nodes of a script, and its clients, each with its node and its operations."""
    table = tomllib.loads(text)
    return table["nodes"], [(it["node"], [op.split(" ") for op in it["ops"]]) for it in table["client"]]


class Cluster:
    """A cluster that goes through a script, and the steps that were made, each with the choice that made it."""

    def __init__(self, script):
        count, self.clients = script
        self.nodes = {it: Node(it, count, 0) for it in range(1, count + 1)}
        self.done, self.waiting = [0] * len(self.clients), set()
        self.under_way, self.steps = [], []

    def can_go_on(self, client):
        return client not in self.waiting and self.done[client - 1] < len(self.clients[client - 1][1])

    def make(self, word, number):
        """Makes a choice, such as `c` and 1, if it can be made."""
        if word == "c":
            if self.can_go_on(number):
                self.steps.append((f"c{number}", ("c", number)))
                self.take_operation(number)
        elif number < len(self.under_way):
            message = self.under_way[number]
            self.steps.append((f"{word}{number}", (word, message)))
            if word in "ml":
                # The first of equal ones, as in the definition of what is under way.
                self.under_way.remove(message)
            if word == "m":
                self.happen(message.receiver, Receive(Frame(message, 1)))
            if word == "r":
                self.under_way.append(message)

    def take_operation(self, client):
        node, operations = self.clients[client - 1]
        mode, name = operations[self.done[client - 1]]
        self.done[client - 1] += 1
        if mode != "U":
            self.waiting.add(client)
        self.happen(node, Release(client, name) if mode == "U" else Ask(client, name, mode))

    def happen(self, node, event):
        step = self.nodes[node].take(event)
        self.under_way += step.sends
        self.waiting -= {int(it.split(" ")[2]) for it in step.marks if it.startswith("enter ")}

    def oldest(self):
        """Returns the oldest choice of those that have begun, or `None`."""
        begun = [it for it in range(1, len(self.clients) + 1) if self.done[it - 1] and self.can_go_on(it)]
        return ("c", begun[0]) if begun else ("m", 0) if self.under_way else None

    def is_stuck(self):
        return self.oldest() is None and bool(self.waiting)


def listed(script, choices):
    """Returns the cluster after these choices."""
    cluster = Cluster(script)
    for it in choices.split():
        cluster.make(it[0], int(it[1:]))
    return cluster


def without(steps, place):
    """Returns what is left of steps without the one at a place and, if it is a client's, without its later ones."""
    gone = steps[place][1]
    return steps[:place] + [it for it in steps[place + 1:] if gone[0] != "c" or it[1] != gone]


def replayed(script, steps, limit):
    """Returns the cluster in which these steps were made again, and then the oldest choices, up to so many steps."""
    cluster = Cluster(script)
    for _, (word, what) in steps:
        if word == "c":
            cluster.make(word, what)
            continue
        alike = [place for place, it in enumerate(cluster.under_way) if it[:5] == what[:5]]
        if alike:
            cluster.make(word, alike[0])
    while len(cluster.steps) < limit and cluster.oldest():
        cluster.make(*cluster.oldest())
    return cluster


def shorter(script, steps, first):
    """Returns the steps of the first shorter run that is stuck, and the place without which it was found, or `None`.

    The places are tried from the first one on, and then those before it."""
    for place in [*range(first, len(steps)), *range(min(first, len(steps)))]:
        cluster = replayed(script, without(steps, place), len(steps))
        if len(cluster.steps) < len(steps) and cluster.is_stuck():
            return cluster.steps, place
    return None


def shrunk(text, choices):
    """Returns the line that `ra sim --shrink` prints of the run that these choices make of a script."""
    script = script_of(text)
    cluster = listed(script, choices)
    if not cluster.is_stuck():
        return "none\n"
    steps, place = cluster.steps, 0
    while found := shorter(script, steps, place):
        steps, place = found
    return " ".join(word for word, _ in steps) + "\n"
