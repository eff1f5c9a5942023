"""A browser that a program drives: Debian's chromium without a window, by its DevTools protocol, with Python's standard library alone."""
import base64
import contextlib
import http.client
import itertools
import json
import os
import shutil
import socket
import struct
import subprocess
import tempfile
import time

BROWSERS = ("chromium", "chromium-browser", "google-chrome")
SECONDS = 120  # for the browser to start, and for each answer
TEXT, CLOSE, PING, PONG = 1, 8, 9, 10
KEYS = {"Enter": ("\r", 13), "Tab": ("", 9), " ": (" ", 32), "ArrowLeft": ("", 37), "ArrowRight": ("", 39), "Home": ("", 36), "End": ("", 35),
        "Escape": ("", 27)}


def find_browser():
    """Returns the path of a browser, or None."""
    return next(filter(None, map(shutil.which, BROWSERS)), None)


def remove(folder):
    """Removes a folder, into which processes of a browser that has just ended may still write."""
    for _ in range(100):
        shutil.rmtree(folder, ignore_errors=True)
        if not os.path.exists(folder):
            return
        time.sleep(0.1)


class WebSocket:
    """A connection of texts, as RFC 6455 has it."""

    def __init__(self, port, path):
        self.socket = socket.create_connection(("127.0.0.1", port), SECONDS)
        key = base64.b64encode(os.urandom(16)).decode()
        self.socket.sendall(f"GET {path} HTTP/1.1\r\nHost: 127.0.0.1:{port}\r\nUpgrade: websocket\r\nConnection: Upgrade\r\n"
                            f"Sec-WebSocket-Key: {key}\r\nSec-WebSocket-Version: 13\r\n\r\n".encode())
        self.input = self.socket.makefile("rb")
        status = self.input.readline()
        if b" 101 " not in status:
            raise OSError(f"no WebSocket: {status!r}")
        while self.input.readline().strip():
            pass

    def send(self, data, kind=TEXT):
        count = len(data)
        if count < 126:
            head = struct.pack("!BB", 0x80 | kind, 0x80 | count)
        elif count < 1 << 16:
            head = struct.pack("!BBH", 0x80 | kind, 0xFE, count)
        else:
            head = struct.pack("!BBQ", 0x80 | kind, 0xFF, count)
        # A client masks what it sends. The mask 0 changes nothing.
        self.socket.sendall(head + bytes(4) + data)

    def receive(self):
        """Returns the next text, whose frames are put together."""
        whole = b""
        while True:
            first, second = self.take(2)
            count = second & 0x7F
            if count >= 126:
                count = int.from_bytes(self.take(2 if count == 126 else 8), "big")
            data, kind = self.take(count), first & 0xF
            if kind == PING:
                self.send(data, PONG)
            elif kind == CLOSE:
                raise OSError("the browser has closed the connection")
            else:
                whole += data
                if first & 0x80:
                    return whole

    def take(self, count):
        data = self.input.read(count)
        if len(data) < count:
            raise OSError("the browser has ended the connection")
        return data

    def close(self):
        self.input.close()
        self.socket.close()


class Browser:
    """A browser with one page. It has no network but 127.0.0.1. As a context it is ended, and its folder is removed."""

    def __init__(self, path, width, height):
        self.path, self.size = path, f"{width},{height}"
        self.ids = itertools.count(1)
        self.events = []

    def __enter__(self):
        with contextlib.ExitStack() as stack:
            folder = tempfile.mkdtemp(prefix="explorer-")
            stack.callback(remove, folder)
            self.process = subprocess.Popen(self.words(folder), stdin=subprocess.DEVNULL, stdout=subprocess.DEVNULL, stderr=subprocess.DEVNULL)
            stack.callback(self.end)
            port = self.find_port(folder)
            self.socket = WebSocket(port, self.find_page(port))
            stack.callback(self.socket.close)
            for domain in ("Page", "Runtime", "Log", "Network"):
                self.call(f"{domain}.enable")
            self.stack = stack.pop_all()
        return self

    def __exit__(self, *_):
        self.stack.close()

    def words(self, folder):
        words = [self.path, "--headless", "--disable-gpu", "--disable-background-networking", "--disable-component-update",
                 "--disable-extensions", "--disable-sync", "--no-first-run", "--hide-scrollbars", "--force-device-scale-factor=1", "--remote-debugging-port=0",
                 "--host-resolver-rules=MAP * ~NOTFOUND , EXCLUDE 127.0.0.1", f"--window-size={self.size}", f"--user-data-dir={folder}", "about:blank"]
        # Chromium has no sandbox for root.
        if os.geteuid() == 0:
            words.insert(1, "--no-sandbox")
        return words

    def find_port(self, folder):
        """Returns the port that the browser has written into its folder."""
        for _ in range(SECONDS * 10):
            with contextlib.suppress(OSError, ValueError), open(f"{folder}/DevToolsActivePort", encoding="ascii") as it:
                return int(it.readline())
            if self.process.poll() is not None:
                raise OSError(f"the browser ended with status {self.process.returncode}")
            time.sleep(0.1)
        raise OSError("the browser does not start")

    @staticmethod
    def find_page(port):
        for _ in range(SECONDS * 10):
            connection = http.client.HTTPConnection("127.0.0.1", port, timeout=SECONDS)
            connection.request("GET", "/json/list")
            pages = [it for it in json.load(connection.getresponse()) if it["type"] == "page"]
            connection.close()
            if pages:
                return "/" + pages[0]["webSocketDebuggerUrl"].split("/", 3)[3]
            time.sleep(0.1)
        raise OSError("the browser opens no page")

    def end(self):
        self.process.terminate()
        try:
            self.process.wait(10)
        except subprocess.TimeoutExpired:
            self.process.kill()
            self.process.wait()

    def call(self, method, **params):
        """Calls a method of the protocol, and returns its result. Events that come meanwhile are kept."""
        number = next(self.ids)
        self.socket.send(json.dumps({"id": number, "method": method, "params": params}).encode())
        while True:
            told = json.loads(self.socket.receive())
            if told.get("id") != number:
                self.events.append(told)
            elif "error" in told:
                raise OSError(f"{method}: {told['error']['message']}")
            else:
                return told["result"]

    def evaluate(self, text):
        """Returns the value of JavaScript in the page."""
        told = self.call("Runtime.evaluate", expression=text, returnByValue=True, awaitPromise=True)
        if "exceptionDetails" in told:
            raise OSError(f"{text}: {told['exceptionDetails'].get('exception', {}).get('description', told['exceptionDetails']['text'])}")
        return told["result"].get("value")

    def wait_for(self, text):
        """Waits until JavaScript in the page is true."""
        end = time.monotonic() + SECONDS
        while not self.evaluate(text):
            if time.monotonic() > end:
                raise OSError(f"this does not become true: {text}")
            time.sleep(0.02)

    def click(self, selector):
        """Clicks the middle of an element, as a person does: what lies over it is clicked instead."""
        place = self.evaluate(f"""(() => {{
            const it = document.querySelector({json.dumps(selector)});
            if (!it) return null;
            it.scrollIntoView({{block: "center", inline: "center"}});
            const box = it.getBoundingClientRect();
            return [box.x + box.width / 2, box.y + box.height / 2];
        }})()""")
        if not place:
            raise OSError(f"the page has no {selector}")
        for kind in ("mousePressed", "mouseReleased"):
            self.call("Input.dispatchMouseEvent", type=kind, x=place[0], y=place[1], button="left", clickCount=1)

    def press(self, key):
        """Presses a key: one of KEYS, or a character."""
        text, code = KEYS.get(key, (key, ord(key[0].upper())))
        name = {" ": "Space"}.get(key, key if key in KEYS else f"Key{key.upper()}")
        has = {"key": key, "code": name, "windowsVirtualKeyCode": code}
        self.call("Input.dispatchKeyEvent", type="keyDown", text=text, **has)
        self.call("Input.dispatchKeyEvent", type="keyUp", **has)

    def picture(self):
        """Returns what the page looks like, as a PNG."""
        return base64.b64decode(self.call("Page.captureScreenshot", format="png")["data"])
