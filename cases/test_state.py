"""The state at the end of a run, as `ra sim --state` prints it, of a model."""
from cases import RaTest, run
from state_model import Cluster, random_run, random_script, script_text
import random


class State(RaTest):
    def test_the_state_is_that_of_a_model(self):
        for seed in range(300):
            script, choices, cluster = random_run(seed)
            with self.subTest(seed=seed, script=script, choices=choices):
                words = ["sim", "--state", "--policy", "listed", f"--choices={choices}"]
                self.expect(words=words, input=script, status=0 if cluster.is_finished() else 3, output=cluster.text())

    def test_under_chance_the_state_is_that_of_the_choices(self):
        for seed in range(50):
            nodes, clients = random_script(random.Random(seed))
            script = script_text(nodes, clients)
            policy = f"--policy faulty --lose {20 * (seed % 3)} --seed {seed}"
            with self.subTest(seed=seed, script=script):
                _, choices, _ = run(f"sim {policy} --as-choices", script.encode())
                cluster = Cluster(nodes, clients)
                for word in choices.decode().split():
                    cluster.make(word)
                status = 0 if cluster.is_finished() else 3
                self.expect(words=f"sim {policy} --state", input=script, status=status, output=cluster.text())
