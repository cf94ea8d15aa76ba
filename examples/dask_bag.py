"""python3 dask_bag.py SCHEDULER FOLDER [--batch N] < NAMES: rows and groups of equal meaning, made by the workers alone.

The form for more than ten million files: each batch is written by its worker as one file of FOLDER/rows, which all workers
reach, and nothing but the names, and the digests with their counts, goes through the scheduler or to here. FOLDER/groups.csv
then has each digest that more than one file has. Scheduler and workers are started as for dask_job.py. A batch that was written
by the same library is not computed again: begin another FOLDER where files have changed.
"""

import argparse
import csv
import hashlib
import os
import sys

import dask.bag
from distributed import Client

from yamlcanon.many import batches, names
from yamlcanon.table import DONE, library_key, rows


def part(paths, folder, within):
    """Writes the rows of a batch, and gives the digest of each file that has one."""
    key = hashlib.sha256("\0".join([library_key(), within, *paths]).encode("utf-8", "surrogateescape")).hexdigest()[:32]
    name = os.path.join(folder, key + ".csv")
    if not os.path.exists(name):
        own = f"{name}.{os.getpid()}"
        with open(own, "w", newline="", errors="surrogateescape") as file:
            found = zip(paths, rows([os.path.join(within, path) for path in paths]))
            csv.writer(file).writerows(one._replace(path=path) for path, one in found)
        # At once or not at all: two workers may have the same batch where one was thought dead.
        os.replace(own, name)
    with open(name, newline="", errors="surrogateescape") as file:
        return [(row[2], 1) for row in csv.reader(file) if int(row[1]) == DONE]


def main():
    words = argparse.ArgumentParser(prog="dask_bag", description=__doc__, formatter_class=argparse.RawDescriptionHelpFormatter)
    words.add_argument("scheduler", metavar="SCHEDULER")
    words.add_argument("folder", metavar="FOLDER")
    words.add_argument("--batch", type=int, default=256, metavar="N")
    given = words.parse_args()
    folder = os.path.abspath(given.folder)
    os.makedirs(os.path.join(folder, "rows"), exist_ok=True)
    some = [list(batch) for batch in batches(names(sys.stdin.buffer.read()), given.batch)]
    where = {"scheduler_file": given.scheduler} if os.path.exists(given.scheduler) else {"address": given.scheduler}
    with Client(**where):
        parts = dask.bag.from_sequence(some, partition_size=1).map(part, os.path.join(folder, "rows"), os.getcwd())
        counts = parts.flatten().foldby(lambda one: one[0], lambda n, one: n + one[1], 0, lambda n, m: n + m, 0).compute()
    groups = sorted(((count, digest) for digest, count in counts if count > 1), key=lambda group: (-group[0], group[1]))
    with open(os.path.join(folder, "groups.csv"), "w", newline="", encoding="ascii") as file:
        csv.writer(file).writerows(groups)
    print(f"{sum(count for _, count in counts):,} done; {len(groups):,} groups", file=sys.stderr)


if __name__ == "__main__":
    main()
