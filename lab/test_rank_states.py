"""Tests of rank_states.py, with the states of two jugs. Run by `python3 -m unittest` in this folder."""

import os
import shutil
import tempfile
import unittest
from collections.abc import Iterable
from unittest import mock

try:
    import explore_sorted
    import rank_states
    from jugs_tests import STATES, JugsTest
    from state_filter import Ended
except ImportError:
    raise unittest.SkipTest("numpy is not installed") from None

NEVER = (0, f"never stuck: all {STATES} states\n")
# Where nobody lifts a full big jug it stays full, however much is in the small one.
STUCK = (1, f"stuck: 4 of {STATES} states\n")
RANK, LEVEL = rank_states.name_of, explore_sorted.name_of


class Ranks(JugsTest):
    main = rank_states.main
    kind = rank_states.Ranking

    @classmethod
    def setUpClass(cls) -> None:
        cls.searched = tempfile.mkdtemp()
        cls.addClassCleanup(shutil.rmtree, cls.searched)
        cls().printed(explore_sorted.main, folder=cls.searched)

    def setUp(self) -> None:
        """A search has ended in the folder."""
        super().setUp()
        self.renew()

    def renew(self) -> None:
        shutil.rmtree(self.folder)
        shutil.copytree(self.searched, self.folder)

    def search(self, *words: str) -> None:
        """Searches anew."""
        shutil.rmtree(self.folder)
        self.printed(explore_sorted.main, words=words)

    def rank(self, *options: str, words: Iterable[str] = ("9",)) -> tuple[int, str, str]:
        return self.printed(rank_states.main, *options, words=words)

    def test_all_states_have_a_rank(self) -> None:
        """In pieces of any size the ranks are the same."""
        status, out, err = self.rank("--parts", "2")
        self.assertEqual((status, out, err.count(f"closed: {STATES} states")), (*NEVER, 2))
        self.assertIn("rank 5 states 3 left 0 ", err)
        texts = [self.text(RANK(rank)) for rank in range(7)]
        self.assertEqual((texts[1], texts[6]), (b"10\n20\n30\n", b""))
        self.renew()
        with mock.patch.multiple(rank_states, TRIED=1, MOST=1):
            self.assertEqual(self.rank("--parallel", "3")[:2], NEVER)
        self.assertEqual([self.text(RANK(rank)) for rank in range(7)], texts)

    def test_stuck_states(self) -> None:
        """Also where the ranks are there already."""
        self.search("9", "--heavy")
        for _ in range(2):
            self.assertEqual(self.rank(words=("9", "--heavy"))[:2], STUCK)

    def test_no_search_that_found_nothing(self) -> None:
        self.assertEqual(self.rank(words=("9", "--heavy")), (2, "", "another search is in this folder\n"))
        with mock.patch.object(explore_sorted.Search, "expand", side_effect=Ended("stopped")):
            self.search("9")
        self.fails("no search that found nothing", status=2)
        self.search("4")
        self.assertEqual(self.rank(words=("4",))[:2], (2, ""))

    def test_goes_on(self) -> None:
        """Stopped in each rank, also in the midst of a line of the ledger, it goes on to the same ranks."""
        for stop in range(7):
            self.stop_at(stop)
            with open(self.at("ranks"), "a", encoding="ascii") as ledger:
                ledger.write('{"states": 1')
            self.assertEqual(self.rank()[:2], NEVER)
            self.assertEqual([len(self.text(RANK(rank))) // 3 for rank in range(7)], [1, 3, 3, 3, 3, 3, 0])
            self.renew()

    def test_a_killed_filter(self) -> None:
        """A run of the filter that is killed ends it by its name; begun anew it goes on."""
        for tool, which in (("home", 2), ("home", 8), ("check", 1)):
            with self.killed(tool, which):
                self.fails(f"status -9 of {tool}")
        self.assertEqual(self.rank()[:2], NEVER)

    def test_damaged_files(self) -> None:
        self.stop_at(4)
        self.check_damage(LEVEL(2), LEVEL(5), RANK(0), RANK(3))
        self.assertEqual(self.rank()[:2], NEVER)

    def test_lost_and_foreign_states(self) -> None:
        """What is lost, not of the search, or there twice, is found out also where digests are made to agree."""
        self.stop_at(3)
        for lines in (b"", b"21\n", b"10\n", b"00\n"):
            self.change(RANK(1), b"30\n", lines)
            with mock.patch.object(rank_states.Folder, "demand"):
                self.fails("the ranks are not of states of the search, each once")
            self.change(RANK(1), b"20\n" + lines, b"20\n30\n")

    def moves(self, old: int, new: int, line: bytes) -> None:
        self.change(RANK(old), line, b"")
        self.change(RANK(new), b"\n", b"\n" + line)

    def test_the_certificate(self) -> None:
        """What is lost or changed before the certificate is refused by it, whole and in parts."""
        twice = f"the certificate is of {STATES + 1} states, not {STATES}"
        for options in ((), ("--parts", "3")):
            self.refuses(lambda _: self.change(RANK(5), b"35\n", b""), "the certificate is refused: open: state", *options)
            self.refuses(lambda _: self.change(RANK(1), b"10\n", b""), "a state of rank 2 has no move", *options)
            self.refuses(lambda _: self.change(RANK(2), b"02\n", b"03\n02\n"), twice, *options)
        self.refuses(lambda _: self.change(RANK(4), b"05\n", b"~~\n"), "fault 2")
        self.refuses(lambda _: self.moves(4, 2, b"05\n"), "a state of rank 2 has no move")
        self.refuses(lambda _: self.moves(1, 0, b"30\n"), "a state of rank 0 has no move")
        self.refuses(lambda _: self.moves(1, 3, b"20\n"), "a state of rank 2 has no move")

    def test_the_certificate_of_lost_ranks(self) -> None:
        self.refuses(lambda ranking: os.remove(ranking.folder.at(RANK(3))), "No such file")
        self.refuses(lambda ranking: ranking.folder.write(RANK(3), []), "a state of rank 4 has no move")
        self.refuses(lambda ranking: ranking.folder.write(RANK(0), []), "a state of rank 1 has no move")
        self.refuses(lambda ranking: ranking.folder.write(RANK(5), []), "the certificate is refused: open: state")
        self.refuses(lambda ranking: ranking.ledger.entries.__delitem__(slice(5, 7)), "the certificate is refused: open: state")

    def test_the_certificate_of_another_text(self) -> None:
        """The ranks that were tried, and the set that is closed, are one text."""
        lines = rank_states.Ranking.all_lines

        def turned(ranking: rank_states.Ranking) -> Iterable[bytes]:
            header, *blocks = lines(ranking)
            return [header, *reversed(blocks)]

        with mock.patch.object(rank_states.Ranking, "all_lines", turned):
            self.fails("the ranks have changed meanwhile")


if __name__ == "__main__":
    unittest.main()
