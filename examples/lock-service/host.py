#!/usr/bin/env python3
"""A host: one machine of a lock service.

A host runs a node of the cluster, the program `ra node`, and does what a node cannot do by itself: it carries the node's
frames to the other machines, keeps its book in a file, and lets the clients of its machine lock names. A client connects
to 127.0.0.1, at port 7100 plus the number of the node, and sends lines:

    lock NAME MODE                  the answer is `granted NUMBER`, as soon as the client holds the name
    lock NAME MODE within SECONDS   the same, or `timeout` after so long, 0 to 1000000 such as 2.5: then it holds nothing
    unlock NAME                     the answer is `unlocked`

If the node refuses a line, the answer is `refused WORD`. A client holds a name only while its connection lasts. When the
connection ends, the host releases what the client holds, and cancels what it waits for. It notices the end also if the
client has sent more lines ahead.

A host may be killed at any moment, and be started again with its book. Three rules make that safe:

1. Nothing leaves the host before the lines that caused it are in the file (`flush`).
2. The frames for each other node are numbered from 1 on. A book determines all that its node sends, so after a restart
   the same frames have the same numbers.
3. A host takes the frames of each other node in the order of their numbers, and each once. So the book says how many it
   has taken. This number is all that it acknowledges, and the other host goes on after it.

The hosts send each other messages of the form `CLUSTER FROM TO KIND NUMBER`, with the nodes of the sender and of the
receiver. A carrier may lose and repeat them:

    frame K HEX     the frame with number K
    ack K           I have taken your first K frames
    hello K         the same; now tell me how many of mine you have taken, and send what I have not

It needs Python 3.8 or later and nothing more. `--carrier mqtt` also needs a broker and the package paho-mqtt: on Debian,
`apt install mosquitto python3-paho-mqtt`.
"""
import asyncio
import collections
import contextlib
import re
import signal
import sys

sys.dont_write_bytecode = True
from book import Book, Node
from failing import fail
from options import parse

DELAY = 0.05  # seconds until a frame is acknowledged
AHEAD = 1 << 20  # bytes of lines that a client can send before they are answered
SECONDS = re.compile(r"[0-9]{1,7}(\.[0-9]+)?")
LONGEST = 1_000_000  # seconds that a client can wait within
MESSAGE = re.compile(r"([A-Za-z0-9_.-]+) ([0-9]{1,2}) ([0-9]{1,2}) (frame|ack|hello) ([0-9]{1,19})(?: ([0-9a-f]{1,112}))?\n?")


class Peer:
    """What a host knows of another one."""

    def __init__(self):
        self.taken = 0  # how many of its frames are in our book
        self.sent = 0  # how many frames our node has made for it
        self.has = None  # how many of them it has acknowledged, once it has said anything
        self.unacknowledged = collections.deque()  # the other ones, in order


class Lines:
    """The lines of a client. They are read as they come, so that the end of its connection is noticed while it waits."""

    def __init__(self, reader):
        self.ahead, self.size = collections.deque(), 0
        self.came = asyncio.Event()  # set when a line or the end has come
        self.ended = asyncio.ensure_future(self.read(reader))

    async def read(self, reader):
        """Reads until the connection ends. A last line that was cut off is none."""
        # It ends as well if it breaks, if a line is far too long, or if too many lines wait.
        with contextlib.suppress(OSError, ValueError):
            while self.size <= AHEAD:
                line = await reader.readline()
                if not line.endswith(b"\n"):
                    break
                self.ahead.append(line)
                self.size += len(line)
                self.came.set()
        self.came.set()

    async def next(self):
        """Returns the words of the next line, or `None` after the last one."""
        while not self.ahead:
            if self.ended.done():
                return None
            self.came.clear()
            await self.came.wait()
        line = self.ahead.popleft()
        self.size -= len(line)
        return line.decode("latin-1").split()


class Host:
    def __init__(self, options):
        self.options = options
        self.book = Book(options)
        self.node = Node(options.ra)
        self.is_back = False  # whether the node has come back to where it was
        self.peers = {number: Peer() for number in range(1, options.nodes + 1) if number != options.node}
        self.clients = 0  # the greatest number of a client
        self.asks = 0  # those since the host started
        self.waiting = {}  # the future of each client and name that waits
        self.outbox = []  # calls that send something
        self.owed = set()  # the peers that an acknowledgement is due to
        self.all_known = asyncio.Event()  # set when each peer has said how many of our frames it has
        self.is_confused = False  # whether messages for other nodes came
        self.scan()

    def scan(self):
        """Finds in the book what must be known before its replay. The third and fourth byte of a frame are its sender."""
        for line in self.book.lines():
            words = line.split(" ")
            if words[0] == "receive":
                self.peers[int(words[1][4:8], 16)].taken += 1
            elif words[0] == "ask":
                self.clients = max(self.clients, int(words[1]))

    # What leaves the host

    def later(self, send, *what):
        """Calls `send` once the file has all lines that the node has taken so far."""
        if not self.outbox:
            asyncio.get_running_loop().call_soon(self.flush)
        self.outbox.append((send, what))

    def flush(self):
        self.book.write()
        outbox, self.outbox = self.outbox, []
        for send, what in outbox:
            send(*what)

    def tell(self, number, message):
        self.later(self.carrier.send, number, f"{self.options.cluster} {self.options.node} {number} {message}".encode())

    def send(self, number, frame):
        """Sends a frame of our node, unless the peer is known to have it."""
        peer = self.peers[number]
        peer.sent += 1
        if peer.sent > peer.has:
            peer.unacknowledged.append(frame)
            self.tell(number, f"frame {peer.sent} {frame}")

    def send_again(self, number):
        """Sends all that the peer has not acknowledged, since it may be lost."""
        peer = self.peers[number]
        if peer.has is None:
            self.tell(number, f"hello {peer.taken}")
        for place, frame in enumerate(peer.unacknowledged, (peer.has or 0) + 1):
            self.tell(number, f"frame {place} {frame}")

    async def keep_sending(self):
        """Sends again from time to time what was not acknowledged meanwhile."""
        while True:
            before = {number: peer.has for number, peer in self.peers.items()}
            await asyncio.sleep(self.carrier.patience)
            for number, peer in self.peers.items():
                if peer.has == before[number]:
                    self.send_again(number)

    # What comes from other hosts

    def reached(self, number):
        """Goes on with a peer, after messages in both directions may have been lost."""
        self.tell(number, f"hello {self.peers[number].taken}")
        self.send_again(number)

    def heard(self, message):
        """Takes a message, which may have come before. Messages of other clusters are passed over."""
        found = MESSAGE.fullmatch(message.decode("latin-1"))
        if not found or found[1] != self.options.cluster or int(found[2]) not in self.peers:
            return
        sender, receiver, kind, count, frame = int(found[2]), int(found[3]), found[4], int(found[5]), found[6] or ""
        if receiver != self.options.node:
            self.confused(sender, receiver)
            return
        if kind == "frame":
            self.take(sender, count, frame)
        else:
            self.acknowledged(sender, count)
        if kind == "hello":
            self.acknowledge(sender)
            self.send_again(sender)

    def confused(self, sender, receiver):
        """Says once that the addresses of the hosts are not in order. Their messages are passed over, so nothing breaks."""
        if not self.is_confused:
            self.is_confused = True
            print(
                f"host: node {self.options.node} gets messages of node {sender} that are for node {receiver}: every host"
                " needs the same --peers, in the order of the nodes",
                file=sys.stderr,
            )

    def take(self, sender, count, frame):
        """Takes a frame if it is the next one. If not, it will come again, or has come before."""
        peer = self.peers[sender]
        if self.is_back and count == peer.taken + 1 and frame[4:8] == f"{sender:04x}":
            if self.step(f"receive {frame}") == "ok":
                peer.taken += 1
        if sender not in self.owed:
            # Those that come in the meantime are acknowledged together.
            self.owed.add(sender)
            asyncio.get_running_loop().call_later(DELAY, self.acknowledge, sender)

    def acknowledge(self, number):
        self.owed.discard(number)
        self.tell(number, f"ack {self.peers[number].taken}")

    def acknowledged(self, number, count):
        peer = self.peers[number]
        if peer.has is None:
            peer.has = count
            if all(each.has is not None for each in self.peers.values()):
                self.all_known.set()
        elif self.is_back:
            self.check(number, count)
            while peer.has < count:
                peer.unacknowledged.popleft()
                peer.has += 1

    def check(self, number, count):
        """No peer can have more of our frames than our book has sent, unless lines of the book are lost."""
        if count > self.peers[number].sent:
            fail(
                f"node {number} has {count} frames of this node, but by the book {self.options.book} only"
                f" {self.peers[number].sent} were sent. Lines of the book are lost, and this cluster must not go on: end"
                " all its clients and hosts, and start a new cluster, with new books and another name by --cluster"
            )

    # The node

    def step(self, line):
        """Hands a line to the node, and does what the node answers. Returns `ok`, or the word of the refusal."""
        (answer,) = self.node.answers([line])
        if answer[-1][0] == "refused":
            return answer[-1][1]
        self.book.add(line)
        if line.startswith("ask "):
            self.asks += 1
            if self.asks % self.options.forget_after == 0:
                # If there is no memory for it now, the names go the next time.
                asyncio.get_running_loop().call_soon(self.step, "forget")
        for words in answer:
            if words[0] == "send":
                self.send(int(words[1]), words[2])
            elif words[0] == "enter":
                self.let_in(int(words[2]), words[3], words[5])
        return "ok"

    def let_in(self, client, name, number):
        if (client, name) in self.waiting:
            self.waiting.pop((client, name)).set_result(number)
        else:
            # Its connection has ended. With a single node, the next client enters at once: so this is not done within the step.
            asyncio.get_running_loop().call_soon(self.give_back, client, name)

    def give_back(self, client, name):
        """Releases a name for a client that is gone."""
        if self.step(f"release {client} {name}") == "Memory":
            asyncio.get_running_loop().call_later(1, self.give_back, client, name)

    def give_up(self, client, name):
        """Cancels what a client that is gone waited for. If it was let in meanwhile, `let_in` has given the name back."""
        if self.step(f"cancel {client} {name}") == "Memory":
            asyncio.get_running_loop().call_later(1, self.give_up, client, name)

    def replay(self):
        """Brings the node back to where it was. Clients have lost with their connections what they held or waited for."""
        inside, waiting = set(), {}
        for place, (line, answer) in enumerate(zip(self.book.lines(), self.node.replay(self.book.lines())), 1):
            if answer[-1][0] == "refused":
                fail(f"the node refuses line {place} of the book {self.options.book}: {answer[-1][1]}")
            asked = line.split(" ")
            if asked[0] == "ask":
                waiting[int(asked[1]), asked[2]] = place
            elif asked[0] == "cancel":
                del waiting[int(asked[1]), asked[2]]
            for words in answer:
                if words[0] == "send":
                    self.send(int(words[1]), words[2])
                elif words[0] == "enter":
                    inside.add((int(words[2]), words[3]))
                    del waiting[int(words[2]), words[3]]
                elif words[0] == "leave":
                    inside.remove((int(words[2]), words[3]))
        self.is_back = True
        for number, peer in self.peers.items():
            self.check(number, peer.has)
            self.reached(number)
        # The last ones first, so that none of those that are gone asks because of another one.
        for client, name in reversed(list(waiting)):
            self.give_up(client, name)
        for client, name in inside:
            self.give_back(client, name)

    # Clients

    async def serve(self, reader, writer):
        """Answers the lines of one client in turn. While it waits for a name, its next lines wait too."""
        self.clients += 1
        client, held, lines = self.clients, set(), Lines(reader)
        with contextlib.suppress(OSError):  # The connection broke, or the client is gone.
            while (words := await lines.next()) is not None:
                answer = await self.answer(client, held, words, lines.ended)
                self.later(writer.write, f"{answer}\n".encode())
                # A client that does not read its answers gets no more.
                await writer.drain()
        lines.ended.cancel()
        for name in held:
            self.give_back(client, name)
        self.later(writer.close)

    async def answer(self, client, held, words, ended):
        if len(words) == 3 and words[0] == "lock":
            return await self.lock(client, held, words[1], words[2], None, ended)
        if len(words) == 5 and words[0] == "lock" and words[3] == "within" and SECONDS.fullmatch(words[4]):
            seconds = float(words[4])
            return await self.lock(client, held, words[1], words[2], seconds, ended) if seconds <= LONGEST else "refused Line"
        if len(words) == 2 and words[0] == "unlock":
            said = self.step(f"release {client} {words[1]}")
            if said == "ok":
                held.remove(words[1])
                return "unlocked"
            return f"refused {said}"
        return "refused Line"

    async def lock(self, client, held, name, mode, seconds, ended):
        """Locks a name, for so many seconds at most if any are given, and until the connection has ended."""
        granted = self.waiting[client, name] = asyncio.get_running_loop().create_future()
        said = self.step(f"ask {client} {name} {mode}")
        if said != "ok":
            del self.waiting[client, name]
            return f"refused {said}"
        if not granted.done():
            await asyncio.wait([granted, ended], timeout=seconds, return_when=asyncio.FIRST_COMPLETED)
        while not granted.done():
            # Nothing else runs since that look, so a name that is cancelled now was not granted.
            if self.step(f"cancel {client} {name}") != "Memory":
                del self.waiting[client, name]
                if ended.done():
                    raise ConnectionError
                return "timeout"
            # The node lacks memory for it, so the client waits on, and may be let in.
            await asyncio.wait([granted], timeout=1)
        held.add(name)
        return f"granted {granted.result()}"

    # From start to end

    async def come_back(self):
        """Replays the book once all peers are there, and then serves clients."""
        options = self.options
        if self.peers:
            print(f"host: node {options.node} waits for the other hosts", file=sys.stderr)
            await self.all_known.wait()
        self.replay()
        try:
            server = await asyncio.start_server(self.serve, *options.clients)
        except OSError as why:
            fail(f"cannot listen to clients: {why}")
        where = "{} {}".format(*options.clients)
        print(f"host: node {options.node} of {options.nodes} is ready, and its clients connect to {where}", file=sys.stderr)
        await server.serve_forever()


async def run(options):
    if options.carrier == "mqtt":
        from mqtt import Mqtt as Carrier
    else:
        from tcp import Tcp as Carrier
    host = Host(options)
    host.carrier = Carrier(options, host)
    await asyncio.gather(host.carrier.run(), host.keep_sending(), host.come_back())


if __name__ == "__main__":
    # A host may end anywhere, so Ctrl-C simply ends it.
    signal.signal(signal.SIGINT, signal.SIG_DFL)
    asyncio.run(run(parse()))
