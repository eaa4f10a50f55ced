"""Signals at random moments: OUT is as it was before or as a whole call leaves it. `stops.py` tries more of them by hand."""
import os
import pathlib
import random
import shutil
import tempfile
import unittest

import stops

TRIES = 6


class Stops(unittest.TestCase):
    def test_a_stop_at_any_moment_leaves_no_half_of_a_page(self):
        seed = int(os.environ.get("SEED", random.randrange(10**6)))
        root = pathlib.Path(tempfile.mkdtemp())
        self.addCleanup(shutil.rmtree, root, ignore_errors=True)
        project = stops.Project(root, stops.MANUAL, "manual.ditamap")
        chance = random.Random(seed)
        for number in stops.SIGNALS:
            _, faults = stops.tried(project, number, TRIES, chance)
            self.assertEqual(faults, [], f"SEED={seed}")


if __name__ == "__main__":
    unittest.main()
