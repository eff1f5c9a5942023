"""What `ra node` answers by rules of many cases: each pair of modes, up to 64 nodes, many names, and long queues."""
import itertools

from cases import RaTest
from state_model import CONFLICTS, MODES

# How the stamp of a REQUEST compares with number 5 of node 2: its node, its number, and whether it is later.
ORDERS = {
    "a lower number": (3, 4, False), "a lower node": (1, 5, False), "a higher node": (3, 5, True), "a higher number": (1, 6, True),
}
# The first and the last nodes of clusters, and some between them: a node, and how many there are.
MEMBERS = [
    (1, 64), (2, 64), (33, 64), (63, 64), (64, 64), (1, 63), (62, 63), (63, 63), (1, 33), (33, 33), (1, 2), (2, 2), (1, 1),
]


class Nodes(RaTest):
    def expect_answers(self, first, events):
        """Fails unless a node with this first line answers so. An event is a line, and the lines of its answer."""
        given = "".join(f"{it}\n" for it in [first, *(line for line, _ in events)])
        answers = ["ok", *(line for _, answer in events for line in answer)]
        self.expect(words="node", input={"frames": given}, output={"frames": "".join(f"{it}\n" for it in answers)})

    def test_an_idle_node_answers_requests_of_each_mode(self):
        """The next request of the node has a greater number."""
        for mode in MODES:
            with self.subTest(mode):
                sends = [f"send {it} <request 2 {it} r X 7 at 3>" for it in (1, 3)]
                self.expect_answers("book 1 2 3 4", [
                    (f"receive <request 3 2 r {mode} 6 at 1>", ["send 3 <reply 2 3 r 6 at 2>", "ok"]),
                    ("ask 7 r X", [*sends, "request 2 7 r X 7", "ok"]),
                ])

    def test_a_node_defers_later_requests_that_conflict(self):
        """A client of node 2 waits for a name or is inside, with number 5, when a REQUEST for it comes."""
        for is_inside, own, mode, order in itertools.product((False, True), MODES, MODES, ORDERS):
            with self.subTest(is_inside=is_inside, own=own, mode=mode, order=order):
                self.expect_met(is_inside, own, mode, *ORDERS[order])

    def expect_met(self, is_inside, own, mode, sender, number, is_later):
        """Fails unless node 2 answers such a REQUEST at once or defers it. It awaits the same nodes before and after, and its own
        next request has a greater number than all that it met."""
        is_deferred = is_later and mode in CONFLICTS[own].split()
        reply = f"send {sender} <reply 2 {sender} r {number} at {{clock}}>"
        replies = [("receive <reply 1 2 r 5 at 1>", ["ok"]), ("receive <reply 3 2 r 5 at 1>", [f"enter 2 7 r {own} 5", "ok"])]
        came = [] if is_deferred else [reply.format(clock=4 if is_inside else 2)]
        comes = [(f"receive <request {sender} 2 r {mode} {number} at 1>", [*came, "ok"])]
        left = [reply.format(clock=5)] if is_deferred else []
        following = max(5, number) + 1
        self.expect_answers("book 1 2 3 4", [
            (f"ask 7 r {own}", [*(f"send {it} <request 2 {it} r {own} 5 at 1>" for it in (1, 3)), f"request 2 7 r {own} 5", "ok"]),
            *(replies + comes if is_inside else comes + replies),
            ("release 7 r", [*left, f"leave 2 7 r {own} 5", "ok"]),
            ("ask 7 r S", [
                *(f"send {it} <request 2 {it} r S {following} at 6>" for it in (1, 3)), f"request 2 7 r S {following}", "ok",
            ]),
        ])

    def test_up_to_sixty_four_nodes_ask_and_defer_each_other(self):
        """A client enters by the REPLYs of all other nodes, and another one queues. Each other node sends a REQUEST, with a number
        one above its own. At the leave each gets its REPLY, and then the REQUEST of the queued client."""
        for me, nodes in MEMBERS:
            with self.subTest(me=me, nodes=nodes):
                others = [it for it in range(1, nodes + 1) if it != me]
                enters = [f"enter {me} 7 r X 1"]
                asks = [*(f"send {it} <request {me} {it} r X 1 at 1>" for it in others), f"request {me} 7 r X 1"]
                # The clocks of the leave, and the number of the queued client's request.
                left, following = 3 + 2 * len(others), max([0, *others]) + 2
                self.expect_answers(f"book 1 {me} {nodes} 0", [
                    ("ask 7 r X", [*asks, *([] if others else enters), "ok"]),
                    *((f"receive <reply {it} {me} r 1 at 1>", [*(enters if it == others[-1] else []), "ok"]) for it in others),
                    ("ask 8 r X", ["ok"]),
                    *((f"receive <request {it} {me} r X {it + 1} at 1>", ["ok"]) for it in others),
                    ("release 7 r", [
                        *(f"send {it} <reply {me} {it} r {it + 1} at {left}>" for it in others),
                        *(f"send {it} <request {me} {it} r X {following} at {left}>" for it in others),
                        f"leave {me} 7 r X 1", f"request {me} 8 r X {following}",
                        *([] if others else [f"enter {me} 8 r X {following}"]), "ok",
                    ]),
                ])

    def test_each_of_a_thousand_names_is_found(self):
        """A client holds each name. It leaves one, and can ask for that one alone again."""
        def granted(at, number):
            return [f"request 1 1 n{at} X {number}", f"enter 1 1 n{at} X {number}", "ok"]

        asks = [f"ask 1 n{at} X" for at in range(1000)]
        self.expect_answers("book 1 1 1 0", [
            *((line, granted(at, 1)) for at, line in enumerate(asks)),
            *((line, ["refused Busy"]) for line in asks),
            ("release 1 n500", ["leave 1 1 n500 X 1", "ok"]),
            *((line, granted(at, 2) if at == 500 else ["refused Busy"]) for at, line in enumerate(asks)),
        ])

    def test_forty_clients_of_a_node_take_turns(self):
        """Each of them holds in its turn, and then queues again, twice. Meanwhile all others are known as busy."""
        events = [("ask 1 r X", ["request 1 1 r X 1", "enter 1 1 r X 1", "ok"]), *((f"ask {it} r X", ["ok"]) for it in range(2, 41))]
        for number in range(1, 81):
            client, following = (number - 1) % 40 + 1, number % 40 + 1
            events += [(f"ask {it} r S", ["refused Busy"]) for it in range(1, 41)]
            events.append((f"release {client} r", [
                f"leave 1 {client} r X {number}", f"request 1 {following} r X {number + 1}", f"enter 1 {following} r X {number + 1}", "ok",
            ]))
            events.append((f"ask {client} r X", ["ok"]))
        self.expect_answers("book 1 1 1 0", events)

    def test_a_client_in_a_long_queue_is_found_without_a_search(self):
        """A program that goes through the queue at each ask does not end in time."""
        asks = "".join(f"ask {client} r X\n" for client in range(1_000_000))
        first = b"ok\nrequest 1 0 r X 1\nenter 1 0 r X 1\nok\n"
        self.expect(
            words="node", input=f"book 1 1 1 0\n{asks}{asks}", output=first + 999_999 * b"ok\n" + 1_000_000 * b"refused Busy\n",
        )
