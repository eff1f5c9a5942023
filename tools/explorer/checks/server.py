"""Sends the server what no page of ours sends, and tries its limits."""
import contextlib
import http.client
import json
import os
import signal
import socket
import sys
import tempfile
import threading
import time

from checks.trial import SECONDS, TWO, serving


def request(port, method, path, body=None, **headers):
    """Sends a request, and returns the status and the text of the answer."""
    connection = http.client.HTTPConnection("127.0.0.1", port, timeout=SECONDS)
    with contextlib.closing(connection):
        names = {name.replace("_", "-"): value for name, value in headers.items()}
        connection.request(method, path, body if body is None or isinstance(body, bytes) else json.dumps(body).encode(), names)
        answer = connection.getresponse()
        return answer.status, answer.read().decode(), answer.headers


def try_server(trial, ra):
    """Sends what no page of ours sends."""
    with serving("--ra", ra.path) as (_, _, port, token):
        given = {"script": TWO, "choices": "c1"}
        wanted = {"script": TWO, "policy": "seeded", "from": "1", "to": "2", "ends": "stuck", "lose": "0", "repeat": "0"}
        rows = [
            ("the page", 200, "GET", "/", None, {}),
            ("another file", 404, "GET", "/page.html", None, {}),
            ("a path out of the folder", 404, "GET", "/../explore", None, {}),
            ("the page by another name", 403, "GET", "/", None, {"Host": f"example.org:{port}"}),
            ("a question", 200, "POST", "/state", given, {"X_Token": token}),
            ("a question by another name", 403, "POST", "/state", given, {"X_Token": token, "Host": "example.org"}),
            ("a question of another page", 403, "POST", "/state", given, {"X_Token": token, "Origin": "http://example.org"}),
            ("a question without the token", 403, "POST", "/state", given, {}),
            ("a question with another token", 403, "POST", "/state", given, {"X_Token": token[:-1]}),
            ("another question", 404, "POST", "/cluster", given, {"X_Token": token}),
            ("a question with a field more", 400, "POST", "/state", {**given, "path": "/etc/passwd"}, {"X_Token": token}),
            ("a question with a field less", 400, "POST", "/state", {"script": TWO}, {"X_Token": token}),
            ("choices that are an option", 400, "POST", "/state", {**given, "choices": "--help"}, {"X_Token": token}),
            ("choices that are no text", 400, "POST", "/state", {**given, "choices": ["c1"]}, {"X_Token": token}),
            ("choices that are too long", 413, "POST", "/state", {**given, "choices": "c1 " * 40_000}, {"X_Token": token}),
            ("a policy that is an option", 400, "POST", "/run", {"script": TWO, "policy": "--trace", "seed": "1", "lose": "0", "repeat": "0"}, {"X_Token": token}),
            ("a run that is looked for", 200, "POST", "/find", wanted, {"X_Token": token}),
            ("a run that is looked for, by a policy without seeds", 400, "POST", "/find", {**wanted, "policy": "oldest"}, {"X_Token": token}),
            ("a run that is looked for, with another end", 400, "POST", "/find", {**wanted, "ends": "--trace"}, {"X_Token": token}),
            ("a run that is looked for, from a text on", 400, "POST", "/find", {**wanted, "from": "1..2"}, {"X_Token": token}),
            ("marks", 200, "POST", "/check-marks", {"trace": "request 1 1 r X 1\n"}, {"X_Token": token}),
            ("a script with half a character", 400, "POST", "/state", b'{"script": "\\ud800", "choices": ""}', {"X_Token": token}),
            ("no JSON", 400, "POST", "/state", b"{", {"X_Token": token}),
            ("a request that is too long", 413, "POST", "/state", None, {"X_Token": token, "Content_Length": "5000001"}),
            ("a request of unknown length", 411, "POST", "/state", None, {"X_Token": token, "Transfer_Encoding": "chunked"}),
        ]
        for what, status, method, path, body, headers in rows:
            trial.same(f"{what}: the status", status, request(port, method, path, body, **headers)[0])
        trial.has("the page runs only its own scripts", "default-src 'none'; script-src 'self';", request(port, "GET", "/")[2]["Content-Security-Policy"])
        with socket.socket() as other:
            trial.is_true("it is bound to 127.0.0.1 alone", other.connect_ex(("127.0.0.2", port)))


SLOW = """#!{python}
import fcntl, sys, time
with open(__file__ + ".log", "a") as log:
    for sign in "+-":
        fcntl.flock(log, fcntl.LOCK_EX)
        log.write(sign)
        log.flush()
        fcntl.flock(log, fcntl.LOCK_UN)
        time.sleep({seconds})
"""


def slow_program(folder, seconds):
    """Makes a program that takes some seconds, and adds `+` and `-` to a file as it begins and ends."""
    name = os.path.join(folder, f"slow-{seconds}")
    with open(name, "w", encoding="utf-8") as it:
        it.write(SLOW.format(python=sys.executable, seconds=seconds))
    os.chmod(name, 0o755)
    return name


def running(name):
    """Tells whether a process runs this program."""
    for it in os.listdir("/proc"):
        with contextlib.suppress(OSError), open(f"/proc/{it}/cmdline", "rb") as words:
            if name.encode() in words.read().split(b"\0")[:2]:
                return True
    return False


def try_limits(trial):
    """Tries that a process is ended in time, that only a few run at once, and that none is left."""
    with tempfile.TemporaryDirectory() as folder:
        name = slow_program(folder, 60)
        with serving("--ra", name, "--seconds", "1") as (_, _, port, token):
            status, text, _ = request(port, "POST", "/check", {"trace": ""}, X_Token=token)
            trial.same("a process that takes too long: the status", 504, status)
            trial.has("a process that takes too long: the reason", "it may take 1 seconds", text)
        trial.is_true("a process that takes too long is ended", not running(name))
        name = slow_program(folder, 0.3)
        with serving("--ra", name) as (_, _, port, token):
            asking = [threading.Thread(target=request, args=(port, "POST", "/check", {"trace": ""}), kwargs={"X_Token": token}) for _ in range(12)]
            for each in asking:
                each.start()
            for each in asking:
                each.join()
        with open(name + ".log", encoding="utf-8") as it:
            signs = it.read()
        most = max(signs[:count].count("+") - signs[:count].count("-") for count in range(len(signs) + 1))
        trial.same("twelve questions at once: the processes", (12, True), (signs.count("+"), most <= 4))
        name = slow_program(folder, 59)
        with serving("--ra", name) as (process, _, port, token):
            asking = threading.Thread(target=ask_in_vain, args=(port, token))
            asking.start()
            while not running(name):
                time.sleep(0.02)
            process.send_signal(signal.SIGINT)
            trial.same("Ctrl-C while a process runs: the status", 0, process.wait(SECONDS))
            asking.join()
        trial.is_true("Ctrl-C ends the process", not running(name))


def ask_in_vain(port, token):
    """Asks a server that ends meanwhile."""
    with contextlib.suppress(OSError, http.client.HTTPException):
        request(port, "POST", "/check", {"trace": ""}, X_Token=token)
