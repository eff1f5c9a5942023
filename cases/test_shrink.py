"""Random runs that are shrunk by `ra sim --shrink`, beside a model of it."""
from cases import TEXTS, RaTest, run
from shrink_model import shrunk

# Scripts of which some runs are stuck: two clients cross, twice, beside two others; and any, if messages are lost.
CROSSED_TWICE = """
nodes = 3
client = [
    { node = 1, ops = ["X a", "X b", "U b", "U a", "X a", "X b", "U b", "U a"] },
    { node = 2, ops = ["X b", "X a", "U a", "U b", "X b", "X a", "U a", "U b"] },
    { node = 3, ops = ["X c", "U c", "X a", "U a"] },
    { node = 3, ops = ["S d", "U d", "S b", "U b"] },
]
"""
POLICIES = ["--policy seeded", "--policy faulty --lose 50"]


def note_on(script, choices, expected):
    """Returns what is said of a run of these choices that is shrunk to the expected ones: by how much, and then what is said of
    the shorter run."""
    if expected == "none\n":
        return ""
    before, after = len(choices.split()), len(expected.split())
    counts = f"shrunk from {before} choices to {after}" if after < before else f"none of the {before} choices can be left out"
    _, _, left = run(["sim", "--policy", "listed", "--choices", expected.strip()], script.encode())
    return f"ra: {counts}\n{left.decode()}"


class Shrunk(RaTest):
    def test_runs_are_shrunk_as_by_a_model(self):
        for script in (CROSSED_TWICE, *(TEXTS[it] for it in ("A_WRITER", "A_TABLE", "A_QUEUE", "A_DEADLOCK"))):
            for policy in (f"{it} --seed {seed}" for it in POLICIES for seed in range(10)):
                with self.subTest(script=script, policy=policy):
                    status, choices, _ = run(f"sim {policy} --as-choices", script.encode())
                    expected = shrunk(script, choices.decode())
                    note = note_on(script, choices.decode(), expected)
                    self.expect(words=f"sim {policy} --shrink", input=script, status=status, output=expected, note=note)
