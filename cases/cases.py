"""What cases/check does, and what the tests in test_*.py use."""
import collections
import concurrent.futures
import json
import os
import re
import subprocess
import sys
import tomllib
import unittest

from settle_model import Frame, Message, encoded

FOLDER = os.path.dirname(os.path.realpath(__file__))
# The command, and the program that it runs. Both are another program if the first word is --ra or --unproved.
RA = f"{FOLDER}/../ra"
PROGRAM = os.path.abspath(f"{FOLDER}/../crates/ra/out/ra")
KEEP = (f"{FOLDER}/../tools/unproved", "--keep")
# The most seconds that one run may take.
LIMIT = 100
# How much of a text a name has, in characters.
LONGEST = 60
STREAMS = {"output": "standard output", "note": "standard error"}
PARTS = ("begins", "has", "ends")
KEYS = {"shows", "words", "input", "status", "row", "objects", *STREAMS, *(f"{it}_{part}" for it in STREAMS for part in PARTS)}
# A frame in a text: its message, as in a trace, and its clock.
FRAME = re.compile(r"<(request|reply) ([0-9]+) ([0-9]+) ([^ >]+)(?: ([A-Z]+))? ([0-9]+) at ([0-9]+)>")
# The texts of all tables, by their names.
TEXTS = {}


def digits(found):
    """Returns the digits of a frame that was found in a text, in version 2."""
    kind, sender, receiver, name, mode, number, clock = found.groups()
    message = Message(kind, int(sender), int(receiver), name, mode or "", int(number))
    return encoded(Frame(message, int(clock))).hex()


def text(value):
    """Returns the bytes that a text of a table is. A test may also have bytes in its place."""
    if isinstance(value, bytes):
        return value
    if isinstance(value, str):
        return value.encode()
    if isinstance(value, list):
        return b"".join(text(it) for it in value)
    if set(value) == {"of"}:
        return text(TEXTS[value["of"]])
    if set(value) == {"hex"}:
        return bytes.fromhex(value["hex"])
    if set(value) == {"times", "text"}:
        return value["times"] * text(value["text"])
    if set(value) == {"frames"}:
        return FRAME.sub(digits, value["frames"]).encode()
    raise ValueError(f"not a text: {value}")


def run(words, given=b""):
    """Returns the status, standard output and standard error of `ra` with these words and this standard input."""
    words = words.split() if isinstance(words, str) else words
    done = subprocess.run([RA, *words], input=given, capture_output=True, timeout=LIMIT, check=False)
    return done.returncode, done.stdout, done.stderr


def shown(found):
    """Returns bytes as they are shown to a person."""
    shortened = found if len(found) <= 4000 else found[:2000] + b" .. " + found[-2000:]
    return shortened.decode(errors="backslashreplace")


def is_utf8(found):
    try:
        found.decode()
    except UnicodeDecodeError:
        return False
    return True


def differences(case, name, found):
    """Returns what is wrong with what a case printed to the stream of this name."""
    begins, has, ends = (case.get(f"{name}_{part}") for part in PARTS)
    has_parts = (begins, has, ends) != (None, None, None)
    said = []

    def expect(is_so, where, expected):
        if not is_so:
            said.append(f"{STREAMS[name]}: expected{where}\n{shown(expected)}\nbut it is\n{shown(found)}")

    if name in case or (name == "output" and not has_parts and "objects" not in case):
        exact = text(case.get(name, ""))
        expect(found == exact, "", exact)
    if begins is not None:
        expect(found.startswith(text(begins)), " at the beginning", text(begins))
    for it in has or []:
        expect(text(it) in found, " somewhere", text(it))
    if ends is not None:
        expect(found.endswith(text(ends)), " at the end", text(ends))
    if has_parts:
        expect(is_utf8(found), "", b"UTF-8")
    return said


def wrong_objects(case, found):
    """Returns what is wrong with the objects that a case printed, a line each, if it expects objects."""
    if "objects" not in case:
        return []
    try:
        lines = found.decode().split("\n")
        read = [{name: it for name, it in json.loads(line).items() if it is not None} for line in lines[:-1]]
    except ValueError as fault:
        return [f"standard output: {fault} in\n{shown(found)}"]
    if (read, lines[-1]) == (case["objects"], ""):
        return []
    return [f"standard output: expected the objects\n{case['objects']}\nbut it is\n{shown(found)}"]


def wrong(case):
    """Returns what is wrong with a case, as a list of texts."""
    unknown = set(case) - KEYS
    if unknown:
        return [f"unknown keys: {', '.join(sorted(unknown))}"]
    try:
        status, output, note = run(case["words"], text(case.get("input", "")))
    except subprocess.TimeoutExpired:
        return [f"it did not end within {LIMIT} seconds"]
    expected = case.get("status", 0)
    said = [] if status == expected else [f"status: expected {expected}, but it is {status}"]
    return said + differences(case, "output", output) + wrong_objects(case, output) + differences(case, "note", note)


class RaTest(unittest.TestCase):
    """A test that runs `ra`."""

    def expect(self, **case):
        """Fails if something is wrong with a case, which is as in a table."""
        said = wrong(case)
        if said:
            self.fail("\n".join([f"ra {case['words']}", *said]))


def tables():
    """Returns the tables by their names, and keeps their texts."""
    found = {}
    for file in sorted(os.listdir(FOLDER)):
        if file.endswith(".toml"):
            with open(f"{FOLDER}/{file}", "rb") as it:
                found[file.removesuffix(".toml")] = table = tomllib.load(it)
            extra = set(table) - {"texts", "case"}
            twice = set(table.get("texts", {})) & set(TEXTS)
            if extra or twice:
                sys.exit(f"cases/check: {file}: unknown keys, or texts of another table: {', '.join(sorted(extra | twice))}")
            TEXTS.update(table.get("texts", {}))
    return found


def beginning(value):
    """Returns the beginning of a text of a table, on one line and in quotation marks, or the name of a named text."""
    if isinstance(value, dict) and "of" in value:
        return value["of"]
    whole = shown(text(value)).replace("\n", " ").strip()
    return f"'{whole if len(whole) <= LONGEST else whole[:LONGEST] + '..'}'"


def row_name(row):
    """Returns what a row shows, or its own words, the beginning of its own input, and its own output if that is one line."""
    if "shows" in row:
        return row["shows"]
    words, output = row.get("words", []), text(row.get("output", ""))
    named = [f"ra {words if isinstance(words, str) else ' '.join(words)}"] if "words" in row else []
    named += [beginning(row["input"])] if "input" in row else []
    return ", ".join(named + ([output.decode().strip()] if output.count(b"\n") == 1 else []))


def cases_of(found):
    """Returns each case of the tables, and in place of one with rows each row, with its name."""
    listed = []
    for table, content in found.items():
        for case in content.get("case", []):
            name = f"{table}: {case['shows']}"
            if "row" not in case:
                listed.append((name, case))
            for row in case.get("row", []):
                full = {**case, **row}
                del full["row"]
                listed.append((f"{name}, {row_name(row)}", full))
    alike = sorted(name for name, count in collections.Counter(name for name, _ in listed).items() if count > 1)
    if alike:
        sys.exit("\n".join(["cases/check: several cases have these names:", *alike]))
    return listed


def run_cases(chosen):
    """Runs cases, several at a time, and returns how many passed and how many failed."""
    failed = 0
    with concurrent.futures.ThreadPoolExecutor(os.cpu_count()) as pool:
        for (name, case), said in zip(chosen, pool.map(lambda it: wrong(it[1]), chosen)):
            failed += bool(said)
            for it in said:
                print(f"case {name}: ra {case['words']}: {it}", file=sys.stderr)
    return len(chosen) - failed, failed


def each_test(suite):
    """Returns the tests of a suite and of those within it."""
    return [it for each in suite for it in (each_test(each) if isinstance(each, unittest.TestSuite) else [each])]


def run_tests(is_chosen):
    """Runs the chosen tests of test_*.py, and returns how many passed and how many failed."""
    chosen = [it for it in each_test(unittest.defaultTestLoader.discover(FOLDER)) if is_chosen(it.id())]
    if not chosen:
        return 0, 0
    result = unittest.TextTestRunner(verbosity=0).run(unittest.TestSuite(chosen))
    for reason, count in sorted(collections.Counter(why for _, why in result.skipped).items()):
        print(f"cases/check: tests skipped, since {reason}: {count}", file=sys.stderr)
    failed = len({id(getattr(it, "test_case", it)) for it, _ in [*result.failures, *result.errors]})
    return result.testsRun - failed - len(result.skipped), failed


def take_program(words):
    """Takes the program that the first words name, if they do, and returns the other words, or `None` if there is none."""
    global RA, PROGRAM
    if words[:1] == ["--unproved"]:
        kept = subprocess.run(KEEP, stdin=subprocess.DEVNULL, stdout=subprocess.PIPE, check=False)
        if kept.returncode != 0:
            return None
        words = ["--ra", os.fsdecode(kept.stdout).rstrip("\n"), *words[1:]]
    if words[:1] != ["--ra"]:
        return words
    if len(words) < 2 or not os.access(words[1], os.X_OK):
        print("cases/check: --ra: expected the path of a program", file=sys.stderr)
        return None
    RA = PROGRAM = os.path.abspath(words[1])
    print(f"cases/check: this is about {RA}, and not about the program that ./ra proves", file=sys.stderr)
    return words[2:]


def main(words):
    """Runs the cases and tests with one of these words in their names, or all, and returns the status."""
    words = take_program(words)
    # If the program is to be built, that is done once, before several runs at a time.
    if words is None or subprocess.run([RA, "--version"], stdout=subprocess.DEVNULL, check=False).returncode != 0:
        print("cases/check: the program cannot be run", file=sys.stderr)
        return 1

    def is_chosen(name):
        return not words or any(it in name for it in words)

    counted = [run_cases([it for it in cases_of(tables()) if is_chosen(it[0])]), run_tests(is_chosen)]
    passed, failed = (sum(it[at] for it in counted) for at in (0, 1))
    print(f"{passed} cases passed, {failed} failed")
    return 1 if failed or not passed else 0
