"""The options of the drivers over Dask, and the cluster that they name."""

import argparse
import os
from collections.abc import Iterator
from contextlib import contextmanager

from dask.distributed import Client, LocalCluster

# The modules that a worker needs.
MODULES = ("state_filter.py", "fingerprints.py", "cluster_tasks.py")


def add_options(parser: argparse.ArgumentParser) -> None:
    parser.add_argument("--rmelab", default="rmelab", help="the program, at the same path on each worker")
    where = parser.add_mutually_exclusive_group()
    where.add_argument("--scheduler", help="the address of a scheduler, or a file that it wrote")
    where.add_argument("--local", type=int, default=0, help="this many workers here")


@contextmanager
def open_cluster(given: argparse.Namespace) -> Iterator[Client]:
    """A client of the cluster that is named. Its dashboard is Dask's own."""
    local = LocalCluster(n_workers=given.local, threads_per_worker=1) if given.local else None
    where = given.scheduler
    is_file = where is not None and os.path.exists(where)
    client = Client(scheduler_file=where) if is_file else Client(local or where)
    try:
        here = os.path.dirname(os.path.abspath(__file__))
        for module in MODULES:
            client.upload_file(os.path.join(here, module))
        yield client
    finally:
        client.close()
        if local:
            local.close()
