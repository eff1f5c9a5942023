"""Runs of `ra sim`: by chance, by each pair of modes, and made again by their choices and by their seeds."""
import itertools

from cases import TEXTS, RaTest, run
from state_model import CONFLICTS, MODES, script_text

# The last six lines of a run of these scripts to its end.
TOTALS = {
    "TWO_CLIENTS": "requests 2\nmessages 8\nunder-way 0\nlost 0\nwaiting 0\nqueued 0\n",
    "A_WRITER": "requests 3\nmessages 12\nunder-way 0\nlost 0\nwaiting 0\nqueued 0\n",
}

# Each way of choosing steps, without repeated messages.
POLICIES = ["--policy oldest", "--policy newest"]
for seed in range(10):
    POLICIES += [f"--policy seeded --seed {seed}", f"--policy faulty --lose 200 --seed {seed}"]

# Runs by chance. Each client locks `r` exclusively and unlocks it: their nodes, how many nodes there are, the options, the steps, how many
# messages are sent, and the status. A digit is a step of the client with that number; `d`, `l` and `r` deliver, lose and repeat a message.
#
# The steps were computed by a separate model of the algorithm, the policies and the generator PCG XSL RR 128/64, which is written from the
# rules in docs/ALGORITHM.md and docs/FORMATS.md and is not in this repository. With seed 0, the second random word names the REQUEST of
# one client, and the third one is 81 modulo 1,000.
BY_CHANCE = [
    ([1], 2, "faulty --seed 0", "1dd1", 2, 0),
    ([1], 2, "faulty --seed 0 --lose 81", "1dd1", 2, 0),
    ([1], 2, "faulty --seed 0 --lose 82", "1l", 1, 3),
    ([1], 2, "faulty --seed 0 --repeat 81", "1dd1", 2, 0),
    ([1], 2, "faulty --seed 0 --repeat 82", "1rdddd1", 3, 0),
    ([1], 2, "faulty --seed 0 --lose 81 --repeat 1", "1rdddd1", 3, 0),
    ([1], 2, "faulty --seed 0 --lose 80 --repeat 1", "1dd1", 2, 0),
    ([1], 2, "faulty --seed 0 --lose 82 --repeat 1", "1l", 1, 3),
    ([1], 2, "faulty --seed 0 --lose 600 --repeat 400", "1l", 1, 3),
    # A word is drawn for each message even if there are no faults, so that the runs of one seed differ by the policy.
    ([1, 2], 2, "seeded --seed 0", "2dd12dd1", 4, 0),
    ([1, 2], 2, "faulty --seed 0", "2d1dd2d1", 4, 0),
    ([1, 2], 2, "seeded --seed 1", "2d1dd2d1", 4, 0),
    ([1, 2], 2, "faulty --seed 1", "2dd1d2d1", 4, 0),
    ([1, 2], 2, "seeded --seed 6", "21dd1dd2", 4, 0),
    ([1, 2], 2, "faulty --seed 6", "21ddd1d2", 4, 0),
    ([1, 2], 2, "faulty --seed 0 --repeat 100", "2r1dddd1d2", 4, 0),
    ([1, 2], 2, "faulty --seed 0 --lose 100", "2l1dd1", 3, 3),
    ([1, 2], 2, "faulty --seed 2 --lose 100 --repeat 300", "2rld1d2rdrddd1l", 5, 0),
    ([1, 2], 2, "faulty --seed 3 --lose 100 --repeat 300", "21drddrddr1rddrddd2", 5, 0),
    ([1, 2], 2, "faulty --seed 9 --lose 100 --repeat 300", "21lrdrdrr1dddddddd", 7, 3),
    ([1, 2], 2, "faulty --seed 7 --lose 100 --repeat 300", "2rdrd12drrrlrddddrdddr1rddrrdrdlrrddddd", 7, 0),
    ([1], 3, "faulty --seed 5 --lose 1000", "1ll", 2, 3),
]


def lockers(nodes, at):
    """Returns the script of a client at each of these nodes that locks `r` exclusively and unlocks it."""
    return script_text(nodes, [(node, [("X", "r"), ("U", "r")]) for node in at])


def letters(trace):
    """Returns a letter or a digit for each step of a trace."""
    words = [line.split(" ") for line in trace.decode().splitlines()]
    return "".join(it[2] if it[0] in ("ask", "release") else it[0][0] for it in words if it[0] in STEPS)


STEPS = ("ask", "release", "deliver", "lose", "repeat")


class Choosing(RaTest):
    def test_chance_loses_and_repeats_messages(self):
        for at, nodes, options, steps, sent, status in BY_CHANCE:
            with self.subTest(at=at, options=options):
                script = lockers(nodes, at).encode()
                ended, trace, _ = run(f"sim --trace --policy {options}", script)
                self.assertEqual((status, steps), (ended, letters(trace)))
                parts = [f"messages {sent}\n", f"lost {steps.count('l')}\n"]
                self.expect(words=f"sim --policy {options}", input=script, status=status, output_has=parts)

    def test_one_seed_means_one_run(self):
        script, traces = TEXTS["A_WRITER"].encode(), set()
        for seed in range(100):
            words = f"sim --trace --policy seeded --seed {seed}"
            _, trace, _ = run(words, script)
            self.expect(words=words, input=script, output=trace)
            traces.add(trace)
        self.assertGreater(len(traces), 1)

    def test_the_first_word_names_the_first_client(self):
        """The first word of seed 0 is the one that the Rust crate `rand_pcg` has in its own tests."""
        for count in range(1, 65):
            script, status = script_text(1, [(1, [("X", "r")])] * count), 0 if count == 1 else 3
            first = 2_354_861_276_966_075_475 % count + 1
            self.expect(words="sim --policy seeded", input=script, status=status, output_begins=f"request 1 {first} r X 1\n")

    def test_sixteen_writers_enter_in_the_order_of_their_nodes(self):
        marks = [f"{{}} {node} {node} r X 1\n" for node in range(1, 17)]
        asks, turns = [it.format("request") for it in marks], [it.format("enter") + it.format("leave") for it in marks]
        totals = "requests 16\nmessages 480\nunder-way 0\nlost 0\nwaiting 0\nqueued 0\n"
        self.expect(words="sim", input=lockers(16, range(1, 17)), output="".join([*asks, *turns, totals]))

    def test_each_pair_of_modes_is_held_at_once_or_not(self):
        """A client of each of two nodes asks. If the modes go together both have the name: they leave it with no message in between.
        Otherwise node 1, whose request comes first, defers its REPLY until its client leaves."""
        totals = "requests 2\nmessages 4\nunder-way 0\nlost 0\nwaiting 0\nqueued 0\n"
        for first, second in itertools.product(MODES, MODES):
            with self.subTest(first=first, second=second):
                one, two = (f"{{}} {node} {node} r {mode} 1\n" for node, mode in ((1, first), (2, second)))
                asks, leaves = one.format("request") + two.format("request"), one.format("leave")
                if second in CONFLICTS[first].split():
                    choices, marks = "c1 c2 m0 m0 m0 c1 m0 c2", one.format("enter") + leaves + two.format("enter")
                else:
                    choices, marks = "c1 c2 m0 m0 m0 m0 c1 c2", one.format("enter") + two.format("enter") + leaves
                script = script_text(2, [(1, [(first, "r"), ("U", "r")]), (2, [(second, "r"), ("U", "r")])])
                words = ["sim", "--policy", "listed", "--choices", choices]
                self.expect(words=words, input=script, output=asks + marks + two.format("leave") + totals)


class Runs(RaTest):
    def test_the_choices_of_a_run_make_it_again(self):
        for script in ("A_WRITER", "TWO_CLIENTS", "A_QUEUE"):
            given = TEXTS[script].encode()
            for policy in POLICIES:
                with self.subTest(script=script, policy=policy):
                    status, choices, _ = run(f"sim {policy} --as-choices", given)
                    traced, trace, _ = run(f"sim {policy} --trace", given)
                    self.assertEqual(status, traced)
                    self.assertTrue(choices.endswith(b"\n"), choices)
                    again = ["sim", "--trace", "--policy", "listed", "--choices", choices[:-1].decode()]
                    self.expect(words=again, input=given, status=traced, output=trace)

    def test_each_seed_leads_to_the_end(self):
        for script, totals in TOTALS.items():
            for seed in range(100):
                with self.subTest(script=script, seed=seed):
                    words = f"sim --policy seeded --seed {seed}"
                    _, output, _ = run(words, TEXTS[script].encode())
                    self.expect(words=words, input=TEXTS[script], output=output, output_ends=totals)
