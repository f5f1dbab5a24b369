"""bin/gate, over crates that count how often they are asked."""

import importlib.machinery
import importlib.util
import os
import unittest

BIN = os.path.dirname(os.path.dirname(os.path.abspath(__file__)))


def loaded():
    loader = importlib.machinery.SourceFileLoader("gate_of_bin", f"{BIN}/gate")
    made = importlib.util.module_from_spec(importlib.util.spec_from_loader("gate_of_bin", loader))
    loader.exec_module(made)
    return made


class Crate:
    """Like the kit's: what is below a crate is asked of each that it stands on."""

    def __init__(self, *deps):
        self.deps, self.asked = deps, 0

    def below(self):
        self.asked += 1
        found = []
        for dep in self.deps:
            found += [it for it in [*dep.below(), dep] if it not in found]
        return found


class Asked(Crate):
    below = loaded().once_a_question(Crate.below)


def tower(kind):
    """Twenty crates, each of which stands on all before it."""
    made = []
    for _ in range(20):
        made.append(kind(*made))
    return made


class Gate(unittest.TestCase):
    def test_each_crate_is_asked_once_a_question(self):
        crates = tower(Asked)
        self.assertEqual(crates[-1].below(), crates[:-1])
        self.assertEqual([it.asked for it in crates], [1] * 20)
        self.assertEqual(crates[-2].below(), crates[:-2])
        self.assertEqual([it.asked for it in crates], [2] * 19 + [1])

    def test_the_kit_asks_along_each_path(self):
        crates = tower(Crate)[:15]
        crates[-1].below()
        self.assertEqual(crates[0].asked, 2**13)

    def test_only_tests_that_a_crate_lacks_wait_for_its_proof(self):
        tasks = {
            ("low", "proof"): ([], 9, 1, None),
            ("low", "tests"): ([], 0, 1, None),
            ("high", "proof"): ([("low", "proof")], 7, 1, None),
            ("high", "tests"): ([("low", "proof")], 7, 1, None),
            ("high", "edits", 0): ([("high", "proof"), ("high", "tests")], 0, 1, None),
        }
        given = loaded().without_empty_tests(lambda tasks: tasks)(tasks)
        changed = {key: given[key] for key in tasks if given[key] != tasks[key]}
        self.assertEqual(changed, {("low", "tests"): ([("low", "proof")], 0, 1, None)})
        self.assertEqual([*given], [*tasks])

    def test_the_proofs_of_the_longest_chain_get_more_jobs(self):
        def task(lines, *below):
            return [(it, "proof") for it in below], lines, 2, lambda given, jobs: jobs

        tasks = {("low", "proof"): task(9), ("aside", "proof"): task(1), ("beside", "proof"): task(9)}
        tasks["high", "proof"] = task(45, "low", "aside", "beside")
        tasks["high", "tests"] = task(45, "low", "aside", "beside")

        class Kit:
            memory = 4

            @staticmethod
            def processors():
                return 4

            @classmethod
            def free(cls):
                return cls.memory

        lanes = loaded().with_chains_shared(lambda tasks: {key: task[3](None, 1) for key, task in tasks.items()}, Kit)
        several = {("low", "proof"): 3, ("beside", "proof"): 3, ("high", "proof"): 3}
        self.assertEqual(lanes(tasks), {key: several.get(key, 1) for key in tasks})
        Kit.memory = 3
        self.assertEqual(lanes(tasks), dict.fromkeys(tasks, 1))


if __name__ == "__main__":
    unittest.main()
