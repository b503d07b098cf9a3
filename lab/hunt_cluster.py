#!/usr/bin/python3
"""A hunt as shards of rounds over Dask distributed. The least round that finds a schedule wins, so the answer is that of one machine.

hunt_cluster.py [--scheduler ADDRESS | --local N] [--rmelab PROGRAM] --rounds R [--shard S] -- WORDS..

A shard is `rmelab hunt WORDS --first-round A --rounds S`: rounds A to A + S - 1 of the same seed. WORDS have neither of these options.
The exit status is that of `rmelab hunt`: 0 with `nothing found`, 1 with a schedule, 2 where WORDS are refused, 3 where a device failed.
"""

import argparse
import sys
from collections.abc import Iterator

from dask.distributed import Client, Future, as_completed

from cluster import add_options, open_cluster
from cluster_tasks import hunt_shard
from state_filter import FAILED, FOUND


class Hunt:
    """A hunt over a cluster: the shards that are under way, and the least one that has found a schedule."""

    def __init__(self, client: Client, given: argparse.Namespace) -> None:
        self.client = client
        self.given = given
        self.starts = iter(range(0, given.rounds, given.shard))
        self.begun: dict[str, int] = {}
        self.least: tuple[int, bytes] | None = None

    def is_wanted(self, first: int) -> bool:
        """Whether a shard could still come before the one that has found a schedule."""
        return self.least is None or first < self.least[0]

    def next_shards(self, many: int) -> Iterator[Future]:
        for _ in range(many):
            first = next(self.starts, None)
            if first is None or not self.is_wanted(first):
                return
            rounds = min(self.given.shard, self.given.rounds - first)
            shard = self.client.submit(hunt_shard, self.given.rmelab, tuple(self.given.words), first, rounds, pure=False)
            self.begun[shard.key] = first
            yield shard

    def run(self) -> int:
        """Hunts to the end, and answers the exit status."""
        workers = max(1, len(self.client.scheduler_info()["workers"]))
        shards = as_completed(list(self.next_shards(self.given.ahead * workers)))
        for shard in shards:
            first = self.begun[shard.key]
            status, out, err = shard.result()
            if status not in (0, FOUND):
                sys.stderr.buffer.write(err)
                return status
            if status == FOUND and self.is_wanted(first):
                self.least = first, out
            for more in self.next_shards(1):
                shards.add(more)
        sys.stdout.buffer.write(self.least[1] if self.least else b"nothing found\n")
        return FOUND if self.least else 0


def main(arguments: list[str]) -> int:
    parser = argparse.ArgumentParser(description="Hunts over Dask distributed.")
    add_options(parser)
    parser.add_argument("--rounds", type=int, required=True, help="rounds of the hunt")
    parser.add_argument("--shard", type=int, default=1000, help="rounds of a shard")
    parser.add_argument("--ahead", type=int, default=4, help="shards under way for each worker")
    parser.add_argument("words", nargs="*", help="the words of `rmelab hunt`, without its rounds")
    given = parser.parse_args(arguments)
    if given.rounds < 1 or given.shard < 1 or given.ahead < 1:
        parser.error("--rounds, --shard and --ahead are at least 1")
    try:
        with open_cluster(given) as client:
            return Hunt(client, given).run()
    except OSError as error:
        print(f"an engine failed: {error}", file=sys.stderr)
        return FAILED


if __name__ == "__main__":
    sys.exit(main(sys.argv[1:]))
