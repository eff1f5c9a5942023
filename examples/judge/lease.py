#!/usr/bin/env python3
"""Makes a mark log, for `ra check --marks`, of the log of a service whose locks are leases. Any number of workers may
wait. The log is in the order of the service's clock, in milliseconds:

    1795788030120 wait    lock=orders worker=w008
    1795788030121 grant   lock=orders worker=w017 token=41 ttl=30000
    1795788050000 renew   lock=orders worker=w017 token=41 ttl=30000
    1795788071900 release lock=orders worker=w017 token=41

A lease runs from its grant to its release, or until the ttl of its last grant or renewal is over. With mode=read, a
grant is shared. Other events are passed over, if they have no token. README.md says what is judged, and why the verdict
is exact.

The client of a mark is the line of the grant, or of a renewal that came too late. The marks of different locks are
unrelated, so a lease that ends by itself ends in them before the next event of its lock. Then its node is free again."""
import bisect
import re
import sys

sys.dont_write_bytecode = True
from lines import Ended, Names, Refused, translate

NUMBER = re.compile(rb"[0-9]{1,20}")
# What looks like an event, but is not in the form above. Words within names are no events.
EVENT = re.compile(rb"(?<![\w=/.-])(?:grant|renew|release|token)", re.IGNORECASE)
MODES = {None: "X", b"write": "X", b"read": "S"}


class Lock:
    """A lock: its leases that run, as (end, node, mark) by their tokens; and all its tokens, as the first and the last
    ones of rows without a gap."""

    def __init__(self, name):
        self.name, self.leases, self.firsts, self.lasts = name, {}, [], []

    def was_granted(self, token):
        at = bisect.bisect(self.firsts, token)
        return at > 0 and token <= self.lasts[at - 1]

    def keep(self, token):
        if self.lasts and token == self.lasts[-1] + 1:
            self.lasts[-1] = token
        else:
            self.firsts.append(token)
            self.lasts.append(token)

    def end(self, now, write):
        """Writes the ends of the leases that have run out."""
        for token in [it for it, (end, _, _) in self.leases.items() if end <= now]:
            write(f"leave {self.leases.pop(token)[2]}")

    def grant(self, line, token, end, mode, write):
        """Writes a grant, at the first node that holds nothing."""
        used = {node for _, node, _ in self.leases.values()}
        node = next(it for it in range(1, len(used) + 2) if it not in used)
        if node > 64:
            raise Refused("more than 64 hold this lock at once")
        mark = f"{node} {line} {self.name} {mode} {token}"
        write(f"request {mark}")
        write(f"enter {mark}")
        if self.lasts and token <= self.lasts[-1]:
            raise Ended
        self.keep(token)
        self.leases[token] = end, node, mark


class Leases:
    """All locks of a log."""

    def __init__(self):
        self.now, self.names, self.locks = 0, Names(), {}

    def take(self, line, text, write):
        """Writes the marks of a line."""
        words = text.split()
        if len(words) < 2 or words[1] not in (b"grant", b"renew", b"release"):
            if EVENT.search(text):
                raise Refused("it looks like an event, but is in no known form")
            return
        values = {}
        for each in words[2:]:
            key, _, value = each.partition(b"=")
            values[key] = value
        if len(values) < len(words) - 2:
            raise Refused("it says something twice")
        now, token = number(words[0], "its time in milliseconds"), number(values.get(b"token"), "token=NUMBER")
        if not values.get(b"lock"):
            raise Refused("lock=NAME is missing")
        if not 0 < token < 1 << 64:
            raise Refused("its token is not 1 to 18446744073709551615")
        if now < self.now:
            raise Refused("its time is before that of an earlier line")
        self.now, name = now, values[b"lock"]
        if name not in self.locks:
            self.locks[name] = Lock(self.names.fresh(name.decode("latin-1")))
        lock = self.locks[name]
        lock.end(now, write)
        end = now if words[1] == b"release" else now + number(values.get(b"ttl"), "ttl=NUMBER")
        if words[1] == b"grant":
            if values.get(b"mode") not in MODES:
                raise Refused("its mode is neither read nor write")
            lock.grant(line, token, end, MODES[values.get(b"mode")], write)
        elif token in lock.leases:
            lock.leases[token] = end, *lock.leases[token][1:]
            lock.end(now, write)
        elif not lock.was_granted(token):
            raise Refused("the grant of its token is missing")
        elif words[1] == b"renew":
            write(f"leave 1 {line} {lock.name} X {token}")
            raise Ended


def number(text, what):
    if not text or not NUMBER.fullmatch(text):
        raise Refused(f"{what} is missing")
    return int(text)


translate(Leases().take)
