#!/usr/bin/env python3
"""Watches a lock service under load, and says at once if it lets in two clients that exclude each other:

    monitor.py [--ra PROGRAM] [--grants N] [--plant]

Sixteen threads lock and unlock four names of a small lock service, until N locks were granted (20,000). The service
writes a mark of each request, grant and release into a pipe, and `ra check --marks --follow --json` judges each line as
it comes. With --plant, the service lets in a client once, after half of the grants, while another one holds the name;
then it goes on. The program reads the verdict, a JSON object on a line, and prints it, and on a second line what it
means.

Status 0: the verdict is what it should be: that the log is valid, with as many requests and grants as there were; or,
with --plant, that the planted grant is wrong, within a second. 1: it is another one, or came later. 2: the arguments
are wrong."""
import argparse
import collections
import json
import os
import random
import subprocess
import sys
import threading
import time

ROOT = os.path.dirname(os.path.dirname(os.path.dirname(os.path.realpath(__file__))))
CLIENTS = range(1, 17)
NAMES = ("orders", "stock", "bills", "mail")
# The most seconds that may pass from the planted grant to its verdict.
MOST = 1

Request = collections.namedtuple("Request", "node number let_in")


class Service:
    """Locks names, exclusively, for clients in the order in which they ask, and writes a mark of what happens. Each
    client has a node of its own. The locks are given out with `mutex` held, so that the log has their order."""

    def __init__(self, log, grants, plants):
        self.log = log
        self.left = grants
        self.plant_at = grants // 2 if plants else -1
        self.mutex = threading.Lock()
        self.numbers = dict.fromkeys(NAMES, 0)
        self.waiting = {name: collections.deque() for name in NAMES}
        self.holding = {name: set() for name in NAMES}
        self.lines = self.requests = self.grants = 0
        # The line of the planted grant, and when it was written.
        self.planted = None

    def write(self, word, name, node, number):
        self.log.write(f"{word} {node} {node} {name} X {number}\n")
        self.lines += 1

    def lock(self, node, name):
        """Waits until the client of this node has the name, and returns the number of its request."""
        with self.mutex:
            self.numbers[name] += 1
            request = Request(node, self.numbers[name], threading.Event())
            self.write("request", name, node, request.number)
            self.requests += 1
            self.waiting[name].append(request)
            self.let_in(name)
        request.let_in.wait()
        return request.number

    def unlock(self, node, name, number):
        with self.mutex:
            self.write("leave", name, node, number)
            self.holding[name].discard(node)
            self.let_in(name)

    def let_in(self, name):
        """Lets in the first client that waits for a name if nobody holds it, or if the planted grant is due."""
        is_due = self.planted is None and 0 <= self.plant_at <= self.grants
        if not self.waiting[name] or (self.holding[name] and not is_due):
            return
        request = self.waiting[name].popleft()
        self.write("enter", name, request.node, request.number)
        if self.holding[name]:
            self.planted = (self.lines, time.monotonic())
        self.holding[name].add(request.node)
        self.grants += 1
        request.let_in.set()

    def takes_one(self):
        """Returns whether one more lock is to be taken."""
        with self.mutex:
            self.left -= 1
            return self.left >= 0

    def stop(self):
        """Lets all clients go on, since nobody reads the log any more."""
        with self.mutex:
            self.left = 0
            for request in (it for waiting in self.waiting.values() for it in waiting):
                request.let_in.set()


def use(service, node):
    """Locks and unlocks names, one after the other."""
    try:
        while service.takes_one():
            name = random.choice(NAMES)
            service.unlock(node, name, service.lock(node, name))
    except OSError:
        service.stop()


def load(service):
    """Lets all clients use the service, and then ends its log."""
    clients = [threading.Thread(target=use, args=(service, node)) for node in CLIENTS]
    for client in clients:
        client.start()
    for client in clients:
        client.join()
    try:
        service.log.close()
    except OSError:
        pass


def main():
    parser = argparse.ArgumentParser(description=__doc__, formatter_class=argparse.RawDescriptionHelpFormatter)
    parser.add_argument("--ra", default=f"{ROOT}/ra")
    parser.add_argument("--grants", type=int, default=20_000)
    parser.add_argument("--plant", action="store_true")
    given = parser.parse_args()
    words = [given.ra, "check", "--marks", "--follow", "--json"]
    # The log has a buffer of one line, as that of a service that is to be watched should.
    pipes = {"stdin": subprocess.PIPE, "stdout": subprocess.PIPE, "stderr": subprocess.DEVNULL, "bufsize": 1}
    with subprocess.Popen(words, text=True, **pipes) as ra:
        service = Service(ra.stdin, given.grants, given.plant)
        loading = threading.Thread(target=load, args=(service,))
        loading.start()
        # This waits for the line, and for nothing else.
        line = ra.stdout.readline()
        came = time.monotonic()
        loading.join()
    print(line, end="")
    verdict = json.loads(line)
    if service.planted is None:
        expected = {"verdict": "valid", "requests": service.requests, "grants": service.grants}
        is_right = not given.plant
        print(f"no double grant among {service.grants}")
    else:
        number, written = service.planted
        expected = {"verdict": "invalid", "line": number, "cause": "Held"}
        is_right = came - written < MOST
        print(f"the double grant in line {number} was reported {'in time' if is_right else 'late'}")
    return 0 if is_right and verdict.items() >= expected.items() else 1


if __name__ == "__main__":
    sys.exit(main())
