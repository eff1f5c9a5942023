"""`ra draw` says of a text that is wrong what `ra check` says."""
import tomllib

from cases import FOLDER, RaTest, cases_of

# What draws what these words check.
DRAWN = {"check": "draw", "check --marks": "draw --marks"}


class CheckAndDraw(RaTest):
    def test_a_wrong_text_gets_the_same_words(self):
        with open(f"{FOLDER}/explained_lines.toml", "rb") as it:
            table = {"explained_lines": tomllib.load(it)}
        told = [(name, case) for name, case in cases_of(table) if case["words"] in DRAWN]
        self.assertGreater(len(told), 50)
        for name, case in told:
            with self.subTest(case=name):
                self.expect(**{**case, "words": DRAWN[case["words"]]})
