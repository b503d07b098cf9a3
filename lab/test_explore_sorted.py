"""Tests of explore_sorted.py, with the states of two jugs. Run by `python3 -m unittest` in this folder."""

import contextlib
import os
import resource
import shutil
import subprocess
import sys
import unittest
from collections.abc import Callable, Iterable
from unittest import mock

try:
    import numpy

    import explore_sorted
    import fingerprints
    import search_folder
    import state_filter
    from jugs_tests import ALL, FILTER, FOUR_LITRES, HERE, STATES, JugsTest
    from state_filter import Ended, pack, unpack, with_whole_paths
except ImportError:
    raise unittest.SkipTest("numpy is not installed") from None

LEVEL = explore_sorted.name_of


class Searches(JugsTest):
    main = explore_sorted.main
    kind = explore_sorted.Search

    def search(self, wanted: str, *options: str, folder: str | None = None) -> tuple[int, str, str]:
        return self.printed(explore_sorted.main, *options, words=[wanted], folder=folder)

    def test_all_states(self) -> None:
        status, out, err = self.search("9")
        self.assertEqual((status, out), ALL)
        self.assertIn("level 1 states 3 new 2", err)
        self.assertIn(f"closed: {STATES} states, part 0 of 1, sha256 ", err)

    def test_shortest_schedules(self) -> None:
        self.assertEqual(self.search("4")[:2], (1, FOUR_LITRES))
        self.assertEqual(self.search("5", folder=self.at("5"))[:2], (1, "fill big\n"))

    def test_small_blocks_side_by_side(self) -> None:
        with mock.patch.multiple(explore_sorted, FEWEST=1, MOST=1):
            self.assertEqual(self.search("9", "--parallel", "3")[:2], ALL)
            self.assertEqual(self.search("4", "--parallel", "3", folder=self.at("4"))[:2], (1, FOUR_LITRES))

    def test_without_zstd(self) -> None:
        with mock.patch.object(state_filter, "zstandard", None):
            self.assertEqual(self.search("9")[:2], ALL)
            with open(self.at(LEVEL(0)), "rb") as file:
                self.assertEqual(file.read(2), b"\x1f\x8b")

    def test_refused_words(self) -> None:
        status, out, err = self.search("many")
        self.assertEqual((status, out), (2, ""))
        self.assertIn("--wanted", err)
        self.search("9")
        self.assertEqual(self.search("4"), (2, "", "another search is in this folder\n"))

    def test_goes_on(self) -> None:
        """Stopped in each level, also in the midst of a line of the ledger, it goes on to the same answer."""
        for stop in range(1, 9):
            folder = self.at(str(stop))
            self.stop_at(stop, folder)
            with open(os.path.join(folder, "ledger"), "a", encoding="ascii") as ledger:
                ledger.write('{"states": 1')
            self.assertEqual(self.search("9", folder=folder)[:2], ALL)

    def test_a_killed_search_goes_on(self) -> None:
        command = [sys.executable, os.path.join(HERE, "explore_sorted.py"), "--folder", self.folder, "--rmelab", FILTER]
        with subprocess.Popen([*command, "--", "--wanted", "9"], stdout=subprocess.PIPE, stderr=subprocess.PIPE, text=True) as process:
            assert process.stderr
            while not process.stderr.readline().startswith("level 3 "):
                pass
            process.kill()
        self.assertEqual(self.search("9")[:2], ALL)

    def test_a_killed_filter(self) -> None:
        """A run of the filter that is killed ends the search by its name; begun anew it goes on."""
        for tool, which in (("expand", 3), ("check", 1)):
            with self.killed(tool, which):
                self.fails(f"status -9 of {tool}")
        self.assertEqual(self.search("9")[:2], ALL)

    def test_a_lost_or_damaged_line(self) -> None:
        """A level that has lost a line is found out, not taken for a smaller search."""
        for digest in (True, False):
            self.spoil_stopped(lambda text: text[:-3], "level.2", digest)
        self.spoil_stopped(lambda text: text[:-3] + b"~~\n", "is not the file that was written", True)
        self.spoil_stopped(lambda text: text[:-3] + b"~~\n", "fault 2", False)
        self.spoil_stopped(lambda text: text[:-1], "a line is cut off", False)

    def spoil_stopped(self, spoil: Callable[[bytes], bytes], reason: str, digest: bool) -> None:
        """A level's lines are spoiled while the search is stopped: with digests, and where these are made to agree."""
        self.renew()
        self.stop_at(3)
        folder = search_folder.Folder(self.folder)
        folder.write(LEVEL(2), [pack(spoil(unpack(folder.read(LEVEL(2)))))])
        with contextlib.nullcontext() if digest else mock.patch.object(search_folder.Folder, "demand"):
            self.fails(reason)

    def test_damaged_and_swapped_files(self) -> None:
        self.stop_at(5)
        self.check_damage(LEVEL(1), LEVEL(2))
        os.rename(self.at(LEVEL(2)), self.at("other"))
        os.rename(self.at(LEVEL(3)), self.at(LEVEL(2)))
        os.rename(self.at("other"), self.at(LEVEL(3)))
        self.fails(f"{LEVEL(2)} is not the file that was written")

    def test_two_states_with_one_fingerprint(self) -> None:
        """One of them is lost, and the certificate finds it out. Other fingerprints find all."""
        numbers = fingerprints.fingerprints

        def alike(rows: fingerprints.Rows, salt: int) -> fingerprints.Numbers:
            found = numbers(rows, salt)
            if salt == 0:
                found[(rows[:, :2] == numpy.frombuffer(b"32", numpy.uint8)).all(axis=1)] = 7
                found[(rows[:, :2] == numpy.frombuffer(b"04", numpy.uint8)).all(axis=1)] = 7
            return found

        with mock.patch.object(fingerprints, "fingerprints", alike):
            self.fails("the certificate is refused: open: state")
            self.assertEqual(self.search("9", "--salt", "1", folder=self.at("1"))[:2], ALL)

    def test_the_certificate(self) -> None:
        """What is lost or changed before the certificate is refused by it, whole and in parts."""
        refused = "the certificate is refused: open: state"
        for options in ((), ("--parts", "3")):
            self.refuses(lambda _: self.change(LEVEL(2), b"35\n", b""), refused, *options)
            self.refuses(lambda _: self.change(LEVEL(2), b"35\n", b"11\n"), refused, *options)
            self.refuses(lambda _: self.change(LEVEL(0), b"00\n", b""), "open: the first state is not in the set", *options)
            self.refuses(lambda _: self.change(LEVEL(2), b"35\n", b"~~\n"), "fault 2", *options)
            twice = f"the certificate is of {STATES + 1} states, not {STATES}"
            self.refuses(lambda _: self.change(LEVEL(2), b"35\n", b"35\n35\n"), twice, *options)

    def test_the_certificate_of_lost_levels(self) -> None:
        self.refuses(lambda search: os.remove(search.folder.at(LEVEL(3))), "No such file")
        self.refuses(lambda search: os.truncate(search.folder.at(LEVEL(3)), 9), "")
        self.refuses(lambda search: shutil.copy(search.folder.at(LEVEL(4)), search.folder.at(LEVEL(3))), "open: state")

    def test_the_certificate_goes_on(self) -> None:
        """Stopped before the last part, it goes on with that. What was said of another text is asked again."""
        check = search_folder.Certificate.check_part

        def stopped(certificate: search_folder.Certificate, part: int) -> tuple[int, str]:
            if part == 2:
                raise Ended("stopped")
            return check(certificate, part)

        with mock.patch.object(search_folder.Certificate, "check_part", stopped):
            self.assertEqual(self.search("9", "--parts", "3")[0], 3)
        status, _, err = self.search("9", "--parts", "3")
        self.assertEqual((status, err.count("closed:")), (0, 1))
        with open(self.at("closed.0.3"), "r+b") as file:
            file.write(b"closed: 9")
        status, _, err = self.search("9", "--parts", "3")
        self.assertEqual((status, err.count("closed:")), (0, 2))

    def test_a_swapped_set(self) -> None:
        """Parts of a certificate that are of different sets are found out, also where each of these is closed."""
        lines = explore_sorted.Search.all_lines
        reads = 0

        def turned(search: explore_sorted.Search) -> Iterable[bytes]:
            nonlocal reads
            reads += 1
            header, *blocks = lines(search)
            return [header, *(reversed(blocks) if reads == 2 else blocks)]

        with mock.patch.object(explore_sorted.Search, "all_lines", turned):
            self.fails("different sets", "--parts", "2")

    def test_a_full_disk(self) -> None:
        """At whatever size a file may not grow, the search ends by a device's name, and goes on once there is room."""
        command = [sys.executable, os.path.join(HERE, "explore_sorted.py"), "--folder", self.folder, "--rmelab", FILTER]
        for most in (8, 16, 64, 256, 512):

            def bounded() -> None:
                resource.setrlimit(resource.RLIMIT_FSIZE, (most, most))

            done = subprocess.run([*command, "--", "--wanted", "9"], capture_output=True, text=True, preexec_fn=bounded)
            self.assertEqual((done.returncode, done.stdout), (3, ""), most)
            self.assertIn("a device failed: [Errno 27] File too large", done.stderr)
        self.assertEqual(self.search("9")[:2], ALL)

    def test_too_little_memory(self) -> None:
        """Memory that is refused is named, and the search goes on once there is some."""
        with mock.patch.object(explore_sorted, "pack", side_effect=[pack(b"00\n"), pack(b"30\n05\n"), MemoryError]):
            self.fails("out of memory")
        self.assertEqual(self.search("9")[:2], ALL)

    def test_whole_paths(self) -> None:
        words = with_whole_paths(["--algorithm", "a.lock", "--procs", "2"])
        self.assertEqual(words, ("--algorithm", os.path.abspath("a.lock"), "--procs", "2"))


class Numbers(unittest.TestCase):
    """Fingerprints, and sets of them."""

    def test_lines_that_differ_in_two_characters_have_different_fingerprints(self) -> None:
        """Also where both are high bytes, or low ones, of the words that are summed."""
        for width in (3, 8, 24):
            pairs = [(one, other) for one in range(width) for other in range(one)]
            rows = numpy.full((len(pairs) * 64, width), ord("0"), numpy.uint8)
            for at, (one, other) in enumerate(pairs):
                own = rows[at * 64 : at * 64 + 64]
                own[:, one] += numpy.repeat(numpy.arange(1, 9, dtype=numpy.uint8) * 7, 8)
                own[:, other] += numpy.tile(numpy.arange(1, 9, dtype=numpy.uint8) * 7, 8)
            for salt in (0, 1):
                self.assertEqual(len(numpy.unique(fingerprints.fingerprints(rows, salt))), len(rows))

    def test_a_set(self) -> None:
        """The same as a set of Python's."""
        drawn = numpy.random.default_rng(1)
        seen, known = fingerprints.Seen(), set[int]()
        for turn in range(200):
            drawn_now = drawn.integers(0, 2000, drawn.integers(0, 60), numpy.uint64) << numpy.uint64(53)
            numbers = numpy.unique(drawn_now)
            marks, more = seen.lacks(numbers), fingerprints.Seen()
            self.assertEqual([int(number) not in known for number in numbers], marks.tolist())
            if turn % 2:
                self.assertTrue(more.add(numbers[marks]).all())
                seen.join(more)
            else:
                self.assertEqual(seen.add(numbers).tolist(), marks.tolist())
            known.update(map(int, numbers))
            self.assertEqual(len(seen), len(known))
        self.assertLess(max(len(part.runs) for part in seen.parts), 8)

    def test_lines_by_their_text(self) -> None:
        rows = fingerprints.rows_of(b"35\n00\n3o\n11\n", 3)
        self.assertEqual(fingerprints.by_text(rows).tobytes(), b"00\n11\n35\n3o\n")
        self.assertEqual(fingerprints.by_text(rows[:0]).tobytes(), b"")

    def test_each_line_once_in_their_order(self) -> None:
        rows = fingerprints.rows_of(b"35\n00\n35\n11\n00\n", 3)
        lines = fingerprints.Lines.of(rows, 0)
        self.assertEqual(lines.marked(numpy.ones(3, numpy.bool_)).tobytes(), b"35\n00\n11\n")
        marks = lines.numbers != fingerprints.fingerprints(rows[1:2], 0)[0]
        self.assertEqual(lines.marked(marks).tobytes(), b"35\n11\n")

    def test_lines_that_are_cut_off(self) -> None:
        for text in (b"00\n1", b"00\n1\n1", b"000\n0\n"):
            with self.assertRaises(Ended):
                fingerprints.rows_of(text, 3)


if __name__ == "__main__":
    unittest.main()
