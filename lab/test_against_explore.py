"""The drivers beside `rmelab explore`: what is printed, and the exit status, byte for byte. Left out without RMELAB, the program."""

import glob
import os
import subprocess
import sys
import tempfile
import unittest

HERE = os.path.dirname(os.path.abspath(__file__))
TEXTS = os.path.join(HERE, "..", "examples", "algorithms", "*.lock")
PROGRAM = os.environ.get("RMELAB", "")
# Sizes of variants, of which some go wrong.
SIZES = [
    "--variant right --procs 2 --crashes 1",
    "--variant right --procs 2 --crashes 2 --limit 6",
    "--variant right --procs 3 --limit 1",
    "--variant right --procs 2 --calls lock,unlock,recover,withdraw --crashes 1 --limit 2",
    "--variant no-look --procs 2",
    "--variant no-ties --procs 2 --crashes 1",
    "--variant renumber --procs 2 --crashes 1",
    "--variant exit-on-crash --procs 2 --crashes 1",
    "--variant count-up --procs 2 --crashes 1 --limit 3",
    "--variant last-skipped --procs 2 --calls lock,unlock,append --crashes 1 --limit 2",
]


def printed(command: list[str]) -> tuple[int, str]:
    done = subprocess.run(command, stdout=subprocess.PIPE, stderr=subprocess.DEVNULL, text=True)
    return done.returncode, done.stdout


def explored(words: list[str], *more: str) -> tuple[int, str]:
    return printed([PROGRAM, "explore", *words, "--jobs", "1", *more])


@unittest.skipUnless(PROGRAM, "RMELAB names no program")
class Answers(unittest.TestCase):
    def sorted_way(self, words: list[str]) -> tuple[int, str]:
        with tempfile.TemporaryDirectory() as folder:
            command = [sys.executable, os.path.join(HERE, "explore_sorted.py"), "--rmelab", PROGRAM, "--folder", folder]
            return printed([*command, "--parts", "2", "--", *words])

    def test_variants(self) -> None:
        statuses = set()
        for size in SIZES:
            with self.subTest(size):
                wanted = explored(size.split(), "--all-variables")
                self.assertEqual(self.sorted_way(size.split()), wanted)
                statuses.add(wanted[0])
        self.assertEqual(statuses, {0, 1})

    def test_texts(self) -> None:
        """A bound that no search comes to leaves out promises of progress, which `rmelab states` knows nothing of."""
        compared = 0
        for text in sorted(glob.glob(TEXTS)):
            with self.subTest(os.path.basename(text)):
                words = ["--algorithm", text, "--procs", "2"]
                wanted = explored(words, "--moves", "1000000")
                if wanted[0] < 2 and "left out" not in wanted[1]:
                    self.assertEqual(self.sorted_way(words), wanted)
                    compared += 1
        self.assertGreaterEqual(compared, 8)

    def test_over_dask(self) -> None:
        cluster = [sys.executable, os.path.join(HERE, "explore_cluster.py"), "--local", "2", "--rmelab", PROGRAM]
        for size in (SIZES[1], SIZES[5]):
            with self.subTest(size):
                self.assertEqual(printed([*cluster, "--checks", "2", "--", *size.split()]), explored(size.split(), "--all-variables"))


if __name__ == "__main__":
    unittest.main()
