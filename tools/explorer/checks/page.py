"""The page in a browser, beside the program."""
import json
import os
import re
import tempfile
import time

from checks.trial import SECONDS

IS_IDLE = "document.readyState === 'complete' && document.getElementById('main')?.getAttribute('aria-busy') === 'false'"
# What the page shows of a state, as the lines of `ra sim --state` say it. It is read from the texts that a person sees.
SEEN = r"""(() => {
    const lines = [], all = (from, selector) => [...from.querySelectorAll(selector)];
    const parts = (text, pattern) => {
        const found = pattern.exec(text.replace(/\s+/g, " ").trim());
        if (!found) throw new Error(`this text has another form: ${text}`);
        return found.slice(1);
    };
    const entry = (word, name) => (it) => {
        const [client, node, mode, number] = parts(it.textContent, /^client (\d+) at node (\d+): (\w+), number (\d+)$/);
        lines.push(`${word} ${node} ${client} ${name} ${mode} ${number}`);
    };
    for (const lane of all(document, ".lane")) {
        const [node] = parts(lane.querySelector("h3").textContent, /^node (\d+)$/);
        for (const cell of all(lane, ".cell")) {
            const name = cell.querySelector(".name").textContent, phase = cell.querySelector(".phase").textContent;
            const [highest] = parts(cell.querySelector(".highest").textContent, /^highest (\d+)$/);
            if (phase === "idle") lines.push(`node ${node} ${name} ${highest} idle`);
            else {
                const [word, number, mode] = parts(phase, /^(waiting|inside) \((\d+), (\w+)\)$/);
                const [client] = parts(cell.querySelector(".who").textContent, /^for client (\d+)$/);
                lines.push(`node ${node} ${name} ${highest} ${word} ${client} ${mode} ${number}`);
            }
            for (const it of all(cell, ".awaits"))
                for (const other of parts(it.textContent, /^awaits nodes? ([\d, and]+) \(/)[0].match(/\d+/g))
                    lines.push(`awaits ${node} ${name} ${other}`);
            for (const it of all(cell, ".defers"))
                lines.push(`defers ${node} ${name} ${parts(it.textContent, /^defers node (\d+) \(its request (\d+)\)$/).join(" ")}`);
            for (const it of all(cell, ".queued"))
                lines.push(`queued ${node} ${name} ${parts(it.textContent, /^queued: client (\d+) \((\w+)\)$/).join(" ")}`);
        }
        for (const it of all(lane, ".message")) {
            const [place] = parts(it.querySelector("kbd").textContent, /^m(\d+)$/);
            const form = /^(REQUEST|REPLY) (\d+) (\S+)(?: (\w+))? from node (\d+)$/;
            const [kind, number, name, mode, from] = parts(it.querySelector("p").textContent, form);
            lines.push(["message", place, kind.toLowerCase(), from, node, name, ...(mode ? [mode] : []), number].join(" "));
        }
        for (const it of all(lane, ".wishes button")) {
            const [client, does, name, mode] = parts(it.textContent, /^client (\d+): (lock|unlock|cancel) (\S+)(?: \((\w+)\))?$/);
            lines.push(["client", client, node, "can", does, name, ...(mode ? [mode] : [])].join(" "));
        }
        for (const it of all(lane, ".client:not(.wishes)")) {
            const text = it.textContent.replace(/\s+/g, " ").trim();
            const done = /^client (\d+) is done$/.exec(text);
            const next = /^client (\d+): (?:lock (\S+) \((\w+)\)|unlock (\S+)) c(\d+)$/.exec(text);
            const waits = /^client (\d+) waits for (\S+) \((\w+)\), asked in step (\d+)$/.exec(text);
            if (done) lines.push(`client ${done[1]} ${node} done`);
            else if (waits) lines.push(`client ${waits[1]} ${node} waits ${waits[2]} ${waits[3]} ${waits[4]}`);
            else if (next && next[1] === next[5])
                lines.push(`client ${next[1]} ${node} next ${next[4] ? `unlock ${next[4]}` : `lock ${next[2]} ${next[3]}`} enabled`);
            else throw new Error(`this text has another form: ${text}`);
        }
    }
    for (const row of all(document, "#table tr[data-name]")) {
        const name = row.querySelector("th").textContent;
        for (const word of ["holding", "waiting"]) all(row, `.${word}`).forEach(entry(word, name));
    }
    return lines.sort();
})()"""
# The lines of the trace that the page lists, and the titles of its picture.
STEPS = "[...document.querySelectorAll('#steps button, #steps .mark')].map((it) => it.textContent)"
TITLES = "[...document.getElementById('picture').shadowRoot.querySelectorAll('title')].map((it) => it.textContent)"


def text_of(selector):
    return f"document.querySelector({json.dumps(selector)}).textContent"


class Page:
    """The page in a browser, beside the program."""

    def __init__(self, browser, trial, ra, folder):
        self.browser, self.trial, self.ra, self.folder = browser, trial, ra, folder
        # The servers whose pages were loaded.
        self.origins = set()

    def settle(self):
        self.browser.wait_for(IS_IDLE)

    def go(self, address):
        """Loads the page anew."""
        # The address differs in the part after `#` alone, with which a browser would only scroll.
        self.origins.add(address.split("#")[0])
        self.browser.call("Page.navigate", url="about:blank")
        self.browser.call("Page.navigate", url=address)
        self.settle()

    def resize(self, width, height):
        self.browser.call("Emulation.setDeviceMetricsOverride", width=width, height=height, deviceScaleFactor=1, mobile=False)

    def see(self, text):
        return self.browser.evaluate(text)

    def click(self, selector):
        self.browser.click(selector)
        self.settle()

    def press(self, *keys):
        for key in keys:
            self.browser.press(key)
            self.settle()

    def keep(self, name):
        """Keeps a picture of the page."""
        if self.folder:
            with open(os.path.join(self.folder, f"{name}.png"), "wb") as it:
                it.write(self.browser.picture())

    def fill(self, **fields):
        """Fills in fields by their ids, in which `_` is a hyphen."""
        values = {name.replace("_", "-"): value for name, value in fields.items()}
        self.see(f"for (const [id, value] of Object.entries({json.dumps(values)})) document.getElementById(id).value = value")

    def open(self, text, is_marks=False, **how):
        """Opens a text by the dialog, with what a script begins with."""
        self.browser.click("#open")
        self.fill(**{"text": text, "policy": "", "seed": "1", "lose": "50", "repeat": "0", **how})
        if is_marks:
            self.browser.click("#is-marks")
        self.click("#start")

    def text(self, selector):
        """Returns what is seen of an element: nothing, if it is hidden."""
        it = f"document.querySelector({json.dumps(selector)})"
        return self.see(f"{it}?.checkVisibility() ? {it}.textContent.replace(/\\s+/g, ' ').trim() : null")

    def choose(self, name):
        """Chooses an example by the keyboard, as a person may."""
        self.see("document.getElementById('offered').focus()")
        self.see(f"document.getElementById('offered').value = {json.dumps(name)}")
        self.see("document.getElementById('offered').dispatchEvent(new Event('change'))")
        self.settle()

    def check_words(self, what):
        """Checks that nothing that went wrong is told by options of `ra`, which a reader who clicks has not typed."""
        for selector in ("#fault", "#opened", "#wrong", "#refusal", "#unfound"):
            self.trial.same(f"{what}: options of ra in {selector}", [], re.findall(r"--[a-z-]+", self.text(selector) or ""))

    def position(self):
        return self.see(text_of("#position"))

    def download(self, link):
        """Clicks a link, and returns the file that it downloads."""
        with tempfile.TemporaryDirectory() as folder:
            self.browser.call("Browser.setDownloadBehavior", behavior="allow", downloadPath=folder, eventsEnabled=False)
            self.browser.click(link)
            name = os.path.join(folder, self.see(f"document.querySelector({json.dumps(link)}).download"))
            end = time.monotonic() + SECONDS
            while not os.path.exists(name):
                if time.monotonic() > end:
                    return None
                time.sleep(0.02)
            with open(name, encoding="utf-8") as it:
                return it.read()

    def compare(self, what, script, choices):
        """Compares what the page shows with what `ra` prints of the run by these choices."""
        same, trace = self.trial.same, self.ra.trace(script, choices)
        same(f"{what}: the state", self.ra.state(script, choices), self.see(SEEN))
        same(f"{what}: the choices", " ".join(choices), self.see("document.getElementById('choices').value"))
        self.compare_trace(what, trace)

    def compare_trace(self, what, trace):
        """Compares the steps, the verdict and the picture with those of a trace."""
        self.compare_lines(what, trace.splitlines()[1:-1], trace, [])

    def compare_marks(self, what, text):
        """Compares them with those of a mark log, of which the page shows all marks."""
        self.compare_lines(what, text.splitlines(), text, ["--marks"])

    def compare_lines(self, what, lines, text, words):
        same = self.trial.same
        same(f"{what}: the steps", lines, self.see(STEPS))
        out, err = self.ra.run(["check", *words], text)
        same(f"{what}: the verdict", f"{', '.join(out.splitlines())}\n{err}".strip(), self.see(text_of("#check")))
        if lines:
            drawn = re.findall(r"<title>(.*?)</title>", self.ra.run(["draw", *words], text)[0])
            same(f"{what}: the titles of the picture", drawn, self.see(TITLES))


def button_of(line, is_by_rules=False):
    """Returns the selector of the button for a step: a line of a trace."""
    word, *rest = line.split(" ")
    if is_by_rules and word not in ("deliver", "lose", "repeat"):
        return f".lane[data-node='{rest[0]}'] button[data-word='{line}']"
    if word in ("ask", "release"):
        return f".lane[data-node='{rest[0]}'] .client[data-client='{rest[1]}'] button"
    kind, sender, receiver, *about = rest
    text = f"{kind.upper()} {about[-1]} {' '.join(about[:-1])} from node {sender}"
    # A selector has no texts, so the label says which message it is.
    return f".lane[data-node='{receiver}'] button[aria-label^='{word} {text},']"


def choice_of(ra, script, choices, line):
    """Returns the choice that is this step after these choices, by the places that `ra sim --state` prints."""
    word, *rest = line.split(" ")
    if word in ("ask", "release"):
        return f"c{rest[1]}"
    wanted = " ".join(rest)
    found = [it.split(" ", 2)[1] for it in ra.state(script, choices) if it.startswith("message ") and it.split(" ", 2)[2] == wanted]
    return {"deliver": "m", "lose": "l"}[word] + min(found, key=int)
