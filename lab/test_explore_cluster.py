"""Tests of the drivers over Dask, with the states of two jugs and workers of this machine. Without Dask they are left out."""

import contextlib
import hashlib
import io
import os
import signal
import subprocess
import sys
import tempfile
import unittest
from collections.abc import Callable
from unittest import mock

try:
    import numpy
    from dask.distributed import Client, LocalCluster

    import cluster
    import cluster_tasks
    import explore_cluster
    import hunt_cluster
    from fingerprints import fingerprints, part_of, rows_of
    from jugs_tests import ALL, FILTER, FOUR_LITRES, HERE, STATES
    from state_filter import Ended, StateFilter, pack, states_of, unpack
except ImportError:
    raise unittest.SkipTest("Dask or numpy is not installed") from None


class Clusters(unittest.TestCase):
    """Two workers, which the tests share."""

    @classmethod
    def setUpClass(cls) -> None:
        cls.cluster = LocalCluster(n_workers=2, threads_per_worker=1, dashboard_address=None)
        cls.client = Client(cls.cluster)
        for module in cluster.MODULES:
            cls.client.upload_file(os.path.join(HERE, module))

    @classmethod
    def tearDownClass(cls) -> None:
        cls.client.close()
        cls.cluster.close()

    def search(self, wanted: str, *options: str) -> tuple[int, str, str]:
        """The exit status, and what is printed."""
        out, err = io.StringIO(), io.StringIO()
        opened = contextlib.nullcontext(self.client)
        with contextlib.redirect_stdout(out), contextlib.redirect_stderr(err):
            with mock.patch.object(explore_cluster, "open_cluster", lambda given: opened):
                words = ["--rmelab", FILTER, "--parts", "3", *options, "--", "--wanted", wanted]
                status = explore_cluster.main(words)
        return status, out.getvalue(), err.getvalue()

    def test_all_states(self) -> None:
        status, out, err = self.search("9", "--checks", "2")
        self.assertEqual((status, out), ALL)
        self.assertIn("level 1 states 3 new 2", err)
        self.assertIn(f"closed: {STATES} states, 2 parts", err)

    def test_shortest_schedules(self) -> None:
        self.assertEqual(self.search("4")[:2], (1, FOUR_LITRES))
        self.assertEqual(self.search("5")[:2], (1, "fill big\n"))

    def test_small_blocks(self) -> None:
        """A level as many blocks, of which some are joined, has the same states."""
        with mock.patch.object(explore_cluster, "FEWEST", 1), mock.patch.object(explore_cluster, "MOST", 2):
            self.assertEqual(self.search("9")[:2], ALL)
            self.assertEqual(self.search("4")[:2], (1, FOUR_LITRES))

    def test_a_killed_worker(self) -> None:
        """A worker that is killed in a level changes nothing, with one copy of all, and with two."""
        advance = explore_cluster.Search.advance

        def loses(search: explore_cluster.Search) -> bytes:
            if len(search.levels) == 5:
                process = next(iter(self.client.run(os.getpid).values()))
                os.kill(process, signal.SIGKILL)
            return advance(search)

        with mock.patch.object(explore_cluster.Search, "advance", loses):
            self.assertEqual(self.search("9")[:2], ALL)
            self.assertEqual(self.search("9", "--replicas", "2")[:2], ALL)

    def test_a_lost_state(self) -> None:
        """An engine that loses a state, wherever it comes, is found out by the certificate."""
        states = StateFilter(FILTER, ("--wanted", "9"))
        lost = fingerprints(rows_of(b"35\n", 3), 0)

        def loses(part: int, parts: int, runs: list[cluster_tasks.Numbers], reports: list[cluster_tasks.Report]) -> cluster_tasks.Fresh:
            return cluster_tasks.fresh(part, parts, [*runs, lost], reports)

        self.assertEqual(states.first()[1], b"00\n")
        with mock.patch.object(explore_cluster, "fresh", loses):
            status, out, err = self.search("9")
        self.assertEqual((status, out), (3, ""))
        self.assertIn("the certificate is refused: open: state", err)

    def spoiled(self, spoil: Callable[[bytes], bytes]) -> tuple[int, str, str]:
        """A search that finds all states, whose lines are changed before they are checked."""
        certify = explore_cluster.Search.certify

        def certifies(search: explore_cluster.Search) -> None:
            for level in search.levels:
                for at, block in enumerate(level):
                    [spoilt] = self.client.scatter([pack(spoil(unpack(block.future.result())))])
                    level[at] = explore_cluster.Sized(spoilt, block.size)
            certify(search)

        with mock.patch.object(explore_cluster.Search, "certify", certifies):
            return self.search("9", "--checks", "2")

    def refuses(self, old: bytes, new: bytes, reason: str) -> None:
        status, out, err = self.spoiled(lambda lines: lines.replace(old, new))
        self.assertEqual((status, out), (3, ""))
        self.assertIn(reason, err)

    def test_the_certificate(self) -> None:
        """States that are lost, or changed, before the certificate are found out by it."""
        self.refuses(b"35\n", b"", "the certificate is refused: open: state")
        self.refuses(b"00\n", b"", "open: the first state is not in the set")
        self.refuses(b"35\n", b"11\n", "the certificate is refused: open: state")
        self.refuses(b"35\n", b"~~\n", "fault 2")

    def test_the_certificate_of_a_lost_block(self) -> None:
        certify = explore_cluster.Search.certify

        def loses(search: explore_cluster.Search) -> None:
            search.levels[4].pop()
            certify(search)

        with mock.patch.object(explore_cluster.Search, "certify", loses):
            status, out, err = self.search("9")
        self.assertEqual((status, out), (3, ""))
        self.assertIn("the certificate is refused: open:", err)

    def test_parts_of_different_sets(self) -> None:
        """Parts of a certificate that are of different sets are found out, also where each of these is closed."""

        def checks(states: StateFilter, header: bytes, part: int, parts: int, blocks: list[bytes]) -> str:
            return cluster_tasks.check(states, header, part, parts, blocks[::-1] if part == 1 else blocks)

        with mock.patch.object(explore_cluster, "check", checks):
            status, out, err = self.search("9", "--checks", "2")
        self.assertEqual((status, out), (3, ""))
        self.assertIn("different sets", err)

    def test_a_hunt_is_that_of_one_machine(self) -> None:
        """The least round wins, whichever shard ends first."""

        def shard(program: str, words: tuple[str, ...], first: int, rounds: int) -> tuple[int, bytes, bytes]:
            found = [number for number in (42, 57) if first <= number < first + rounds]
            return (1, f"round {found[0]}\n".encode(), b"") if found else (0, b"nothing found\n", b"")

        out = mock.Mock()
        with mock.patch.object(hunt_cluster, "open_cluster", lambda given: contextlib.nullcontext(self.client)):
            with mock.patch.object(hunt_cluster, "hunt_shard", shard), mock.patch.object(hunt_cluster.sys, "stdout", out):
                status = hunt_cluster.main(["--rounds", "100", "--shard", "10", "--", "--variant", "no-look"])
        self.assertEqual(status, 1)
        out.buffer.write.assert_called_once_with(b"round 42\n")


class Schedulers(unittest.TestCase):
    """A scheduler of its own, which the test ends."""

    def begin(self, *words: str) -> subprocess.Popen[str]:
        process = subprocess.Popen([sys.executable, *words], stderr=subprocess.PIPE, stdout=subprocess.PIPE, text=True)
        self.addCleanup(process.communicate)
        self.addCleanup(process.kill)
        return process

    def test_a_restarted_scheduler(self) -> None:
        """A scheduler that is killed in a search, and begun again at the same place, gives the same answer or an error's name."""
        with tempfile.TemporaryDirectory() as folder:
            port = "38786"
            scheduler = ["-m", "distributed.cli.dask_scheduler", "--host", "127.0.0.1", "--port", port, "--no-dashboard"]
            first = self.begin(*scheduler)
            where = f"tcp://127.0.0.1:{port}"
            self.begin("-m", "distributed.cli.dask_worker", where, "--nthreads", "1", "--no-dashboard", "--local-directory", folder)
            search = self.begin(os.path.join(HERE, "explore_cluster.py"), "--scheduler", where, "--rmelab", FILTER, "--", "--wanted", "9")
            assert search.stderr and search.stdout
            while not search.stderr.readline().startswith("level 3 "):
                pass
            first.kill()
            first.wait()
            self.begin(*scheduler)
            out, err = search.communicate(timeout=300)
        self.assertIn((search.returncode, out), [ALL, (3, "")])
        if search.returncode:
            self.assertIn("the cluster was lost", err)


class Tasks(unittest.TestCase):
    """What a worker does, without a cluster."""

    def setUp(self) -> None:
        self.states = StateFilter(FILTER, ("--wanted", "9"))
        self.header, _ = self.states.first()

    def test_parts_share_out_all_numbers(self) -> None:
        numbers = numpy.array([0, 1, (1 << 63) - 1, 1 << 63, (1 << 64) - 1], numpy.uint64)
        for parts in (1, 2, 3, 7):
            shares = [numbers[part_of(numbers, part, parts)] for part in range(parts)]
            self.assertEqual(numpy.concatenate(shares).tolist(), numbers.tolist())
            for part, share in enumerate(shares):
                self.assertTrue(all(int(number) * parts >> 64 == part for number in share))

    def test_new_states(self) -> None:
        """Of two blocks' successors those that no run has, each once, in the first block that has it."""
        blocks = [b"00\n", b"05\n30\n"]
        expanded = [cluster_tasks.expand(self.states, self.header, 0, [pack(text)]) for text in blocks]
        reports = [cluster_tasks.report(one) for one in expanded]
        for parts in (1, 3):
            run = fingerprints(rows_of(b"00\n", 3), 0)
            made = [cluster_tasks.fresh(part, parts, [run], reports) for part in range(parts)]
            new = [unpack(cluster_tasks.choose(one, at, made, slice(None))) for at, one in enumerate(expanded)]
            self.assertEqual(new, [b"30\n05\n", b"35\n32\n03\n"])
            self.assertEqual(unpack(cluster_tasks.choose(expanded[1], 1, made, slice(1, 2))), b"32\n")
            grown = cluster_tasks.grow([run], made[-1])
            self.assertEqual(len(grown), 1 + len(made[-1][0]))
            counted, wrong, sizes, _ = cluster_tasks.count(reports, made)
            self.assertEqual((counted, wrong, sizes), (3, False, [2, 3]))
            self.assertEqual(sum(len(numbers) for numbers, _ in made), 5)

    def test_a_check_of_one_part(self) -> None:
        """The first state alone is open, but not in the part to which no move of its leads."""
        text = self.header + b"00\n"
        said = cluster_tasks.check(self.states, self.header, 1, 4, [pack(b"00\n"), b""])
        self.assertEqual(states_of(said, 1, 4), (1, hashlib.sha256(text).hexdigest()))
        with self.assertRaises(Ended):
            states_of(cluster_tasks.check(self.states, self.header, 0, 4, [pack(b"00\n")]), 0, 4)

    def test_what_is_refused(self) -> None:
        with self.assertRaises(Ended):
            cluster_tasks.expand(self.states, self.header, 0, [pack(b"~~\n")])
        with self.assertRaises(Ended):
            StateFilter(FILTER, ("--wanted", "many")).first()


if __name__ == "__main__":
    unittest.main()
