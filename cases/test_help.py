"""How wide the help is."""
from cases import RaTest, run, shown

HELPS = [
    "--help",
    "answer --help",
    "sim --help",
    "cluster --help",
    "check --help",
    "draw --help",
    "node --help",
    "sim -h",
]


class Helps(RaTest):
    def test_each_help_keeps_within_80_columns(self):
        for words in HELPS:
            with self.subTest(words=words):
                status, output, note = run(words)
                self.assertEqual(status, 0, shown(note))
                self.assertEqual([it for it in output.decode().splitlines() if len(it) > 80], [])
