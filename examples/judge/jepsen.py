#!/usr/bin/env python3
"""Makes a mark log, for `ra check --marks`, of the history of a mutex. Standard input has a line for each call and each
outcome, in the order in which the clients made and got them: as EDN or in a log, which Jepsen writes, or as JSON.

    {:type :invoke, :f :acquire, :value nil, :process 0}        INFO  jepsen.util - 0	:invoke	:acquire	nil
    {:type :ok, :f :acquire, :value nil, :process 0}            {"type": "ok", "f": "acquire", "process": 0}

After `fail` a call had no effect, and after `info` that is unknown. The `value`, or its first part, names the lock. Other
functions are passed over, and so are other lines of a log. README.md says what is judged, and why the verdict is exact.
The client of a mark is the line of the history at which the lock was acquired."""
import json
import re
import sys

sys.dont_write_bytecode = True
from lines import Ended, Names, Refused, translate

# A line of a log, or of history.txt, which has only its end.
LOGGED = re.compile(r"(?:INFO\s+jepsen\.util\s+-\s+)?(\d+|:nemesis)\s+(:\w+)\s+(:[\w-]+)(?:\s+(.*))?", re.ASCII)
# A map of EDN with nothing but these within it is words alone.
PLAIN = bytes(range(ord(" "), ord("~") + 1)).translate(None, b'"#();[\\]{}')
WORD = re.compile(r'#\{|"(?:\\.|[^"\\])*"|[^\s,"(){};\[\\\]]+|["(){};\[\\\]]', re.ASCII)
CLOSING = {"{": "}", "#{": "}", "[": "]", "(": ")"}
MUTEX, NEMESIS = (":acquire", ":release"), (":nemesis", "nemesis")
# Functions and lines that could be calls of a mutex, but are in no known form.
CALL = re.compile("acquire|release|(?<![bc])lock", re.IGNORECASE)
LINE = re.compile(r'[:"](?:invoke|acquire|release)\b')


class Text(str):
    """A string of EDN. Its other words are of the type `str`, keywords with their colons."""


def values_of(text):
    """Returns the values of a text in EDN. Lists and sets are lists, and tags are passed over."""
    values, outer = [], []
    for word in WORD.findall(text):
        if word[0] not in '"#(){};[\\]':
            values.append(None if word == "nil" else word)
        elif word in CLOSING:
            outer.append((word, values))
            values = []
        elif word in ("}", "]", ")"):
            opening, around = outer.pop()
            if CLOSING[opening] != word:
                raise Refused("its brackets do not match")
            around.append(map_of(values) if opening == "{" else values)
            values = around
        elif word[0] == '"':
            values.append(Text(STRINGS.decode(word)))
        elif word.startswith("##"):
            values.append(word)
        elif word[0] != "#" or word.startswith("#_"):
            raise Refused("comments and single characters are not read")
    if outer:
        raise Refused("a bracket is open")
    return values


def map_of(values):
    """Returns a map of EDN, without the keys that are no keywords."""
    keys = [it if type(it) is str else None for it in values[::2]]
    words = [it for it in keys if it]
    if len(values) % 2 or len(set(words)) < len(words):
        raise Refused("a map has a key twice, or one without a value")
    return {key: value for key, value in zip(keys, values[1::2]) if key}


def object_of(pairs):
    """Returns an object of JSON."""
    found = dict(pairs)
    if len(found) < len(pairs):
        raise Refused("an object has a key twice")
    return found


def no_number(text):
    raise Refused(f"{text} is no number")


STRINGS = json.JSONDecoder(strict=False)
JSON = json.JSONDecoder(object_pairs_hook=object_of, parse_constant=no_number)


def operation(line):
    """Returns process, type, function, value and time of an operation, or `None` for another line of a log."""
    text = line.decode()
    if text.startswith("{:") and text.endswith("}") and not line[1:-1].translate(None, PLAIN):
        words = text[1:-1].replace(",", " ").split()
        found = dict(zip(words[::2], words[1::2]))
        if len(words) != 2 * len(found):
            raise Refused("a map has a key twice, or one without a value")
        if found.get(":value") == "nil":
            found[":value"] = None
    elif text.startswith("{") and text[1:].lstrip().startswith('"'):
        found = {f":{key}": value for key, value in JSON.decode(text).items()}
        found[":type"], found[":f"] = ":" + found[":type"], ":" + found[":f"]
    elif text.startswith(("{", "#")):
        (found,) = values_of(text)
    else:
        return logged(text)
    return found[":process"], found[":type"], found[":f"], found.get(":value"), found.get(":time")


def logged(text):
    found = LOGGED.fullmatch(text)
    if found:
        process, kind, function, value = found.groups()
        return process, kind, function, values_of(value or "nil")[0] if function in MUTEX else None, None
    if LINE.search(text):
        raise Refused("it looks like a call, but is in no known form")
    return None


class Lock:
    """A lock: the process that holds it, the line at which that acquired it, its mark, and its call of a release, until
    that has an outcome."""

    def __init__(self, name):
        self.name, self.holder, self.line, self.mark, self.releasing = name, None, 0, "", None

    def leave(self, write):
        write(f"leave {self.mark}")
        self.holder, self.releasing = None, None


class Call:
    """A call. If it releases what its process holds, it knows the line at which that acquired the lock, and the one at
    which another process did so since."""

    def __init__(self, line, function, value, lock):
        self.line, self.function, self.value, self.lock = line, function, value, lock
        self.acquired, self.overtaken, self.is_unknown = 0, 0, False


class History:
    """What the lines so far tell: the locks, and the last call of each process until its outcome is known."""

    def __init__(self):
        self.names, self.locks, self.calls, self.grants, self.time = Names(), {}, {}, 0, 0
        self.lock_of(None)

    def take(self, line, text, write):
        """Writes the marks of a line."""
        found = operation(text)
        if not found:
            return
        process, kind, function, value, time = found
        if function not in MUTEX:
            if process not in NEMESIS and CALL.search(function):
                raise Refused("its function is neither acquire nor release")
            return
        if type(process) not in (str, int):
            raise Refused("its process is no number and no word")
        if time is not None:
            if int(time) < self.time:
                raise Refused("its time is before that of an earlier line")
            self.time = int(time)
        if kind == ":invoke":
            self.call(line, process, function, value)
        else:
            self.end(line, process, kind, function, value, write)

    def lock_of(self, value):
        """Returns the lock that a value names."""
        if isinstance(value, list) and value:
            value = value[0]
        if value is not None and type(value) not in (str, Text, int):
            raise Refused("its value names no lock")
        key = type(value), value
        if key not in self.locks:
            self.locks[key] = Lock(self.names.fresh("mutex" if value is None else str(value).lstrip(":")))
        return self.locks[key]

    def call(self, line, process, function, value):
        if process in self.calls:
            raise Refused("the outcome of the last call of its process is not known")
        lock = self.lock_of(value)
        call = self.calls[process] = Call(line, function, value, lock)
        if function == ":release" and lock.holder == process:
            call.acquired, lock.releasing = lock.line, call

    def end(self, line, process, kind, function, value, write):
        call = self.calls.get(process)
        if kind not in (":ok", ":fail", ":info") or not call or call.is_unknown or call.function != function:
            raise Refused("it is the outcome of no call")
        if isinstance(value, list) and isinstance(call.value, list) and value[:1] != call.value[:1]:
            raise Refused("it names another lock than its call")
        if kind == ":info":
            call.is_unknown = True
        else:
            del self.calls[process]
        if function == ":acquire":
            if kind == ":ok":
                self.acquire(line, process, call.lock, write)
        elif kind == ":fail":
            self.fail(call, write)
        elif call.lock.releasing is call:
            call.lock.leave(write)
        elif kind == ":ok" and not call.acquired:
            write(f"leave 2 {call.line} {call.lock.name} X {self.grants + 1}")
            raise Ended

    def acquire(self, line, process, lock, write):
        """Writes that a process holds a lock. If another one was about to release it, that has had its effect."""
        if lock.releasing:
            lock.releasing.overtaken = line
            lock.leave(write)
        mark = self.enter(1 if lock.holder is None else 2, line, lock, write)
        if lock.holder is not None:
            raise Ended
        lock.holder, lock.line, lock.mark = process, line, mark

    def fail(self, call, write):
        """A release had no effect. If another process acquired the lock since, two held it."""
        if not call.overtaken:
            if call.lock.releasing is call:
                call.lock.releasing = None
            return
        if call.lock.holder is not None:
            call.lock.leave(write)
        self.enter(1, call.acquired, call.lock, write)
        self.enter(2, call.overtaken, call.lock, write)
        raise Ended

    def enter(self, node, line, lock, write):
        self.grants += 1
        mark = f"{node} {line} {lock.name} X {self.grants}"
        write(f"request {mark}")
        write(f"enter {mark}")
        return mark


translate(History().take)
