"""python3 dask_job.py SCHEDULER TABLE [--batch N] [--ahead N] < NAMES: yamlcanon.many over the workers of a dask scheduler.

Run with dask.distributed 2022.12.1 (Debian's python3-distributed), on one machine, as tools/many does:

    ulimit -s 8192
    dask-scheduler --host 127.0.0.1 --scheduler-file scheduler.json &
    dask-worker --scheduler-file scheduler.json --nthreads 1 --nanny &      # once for each processor
    find . -name '*.yaml' -print0 | python3 dask_job.py scheduler.json table.db

SCHEDULER is an address or the scheduler's file. Each worker reads the files itself, so the names have to mean the same files
there, and each has the wheel installed: a worker of one thread, since calls on threads of one process wait for each other, and
with a nanny, which starts it again when it dies. What comes back are rows, never texts. A batch whose worker dies is run again
on another; its rows are the same, so the table is. A batch of which workers die again and again is halved until the file is
found: its row says so. The same command goes on where an earlier one was ended.

Status: that of yamlcanon.many; 3 where the scheduler or all of its workers are gone.
"""

import argparse
import os
import sys
from concurrent.futures import CancelledError

from distributed import Client, TimeoutError, as_completed
from distributed.comm import CommClosedError
from distributed.scheduler import KilledWorker

from yamlcanon.many import Progress, batches, finish, names, say
from yamlcanon.table import UNREAD, OtherLibrary, Row, Table, library_key, rows

FAILED = 3
BATCH = 256
# How long a job waits where no worker is left, in seconds.
WITHOUT_WORKERS = 60


def rows_in(folder, paths):
    """The key of the worker's library, and the rows of a batch. A name that is relative is so to the client's folder, which is not
    the worker's."""
    found = rows([os.path.join(folder, path) for path in paths])
    return library_key(), [one._replace(path=path) for path, one in zip(paths, found)]


class Job:
    """Batches at the workers, no more than `ahead` at a time, so that neither scheduler nor client keeps them all."""

    def __init__(self, client, paths, size, ahead):
        self.client, self.batch_of, self.waiting = client, {}, batches(paths, size)
        self.answers = as_completed()
        for _ in range(ahead):
            self.give_next()

    def give_next(self):
        batch = next(self.waiting, None)
        if batch is not None:
            self.give(batch)

    def give(self, batch):
        # A key of its own (pure=False), not one hashed from all its names.
        future = self.client.submit(rows_in, os.getcwd(), batch, pure=False)
        self.batch_of[future] = batch
        self.answers.add(future)

    def rows(self):
        """The rows of each batch, in whatever order they come."""
        for future in self.answers:
            batch = self.batch_of.pop(future)
            try:
                key, found = future.result()
                if key != library_key():
                    raise OtherLibrary(f"a worker has the library {key}, and this is {library_key()}")
                yield found
            except KilledWorker:
                if len(batch) > 1:
                    self.give(batch[::2])
                    self.give(batch[1::2])
                else:
                    yield [Row(batch[0], UNREAD, None, None, "Workers died with it", None, None)]
            future.release()
            self.give_next()


def client_of(scheduler):
    if os.path.exists(scheduler):
        return Client(scheduler_file=scheduler, timeout=30)
    return Client(scheduler, timeout=30)


def run(given):
    table = Table(given.table)
    paths = table.missing(names(sys.stdin.buffer.read()))
    progress = Progress(len(paths))
    with client_of(given.scheduler) as client:
        client.wait_for_workers(1, timeout=WITHOUT_WORKERS)
        for some in Job(client, paths, given.batch, given.ahead).rows():
            table.add(some)
            progress.add(len(some))
    progress.end()
    return finish(table)


def main():
    words = argparse.ArgumentParser(prog="dask_job", description=__doc__, formatter_class=argparse.RawDescriptionHelpFormatter)
    words.add_argument("scheduler", metavar="SCHEDULER")
    words.add_argument("table", metavar="TABLE")
    words.add_argument("--batch", type=int, default=BATCH, metavar="N")
    words.add_argument("--ahead", type=int, default=2000, metavar="N", help="batches given to the scheduler at a time")
    try:
        return run(words.parse_args())
    except OtherLibrary as fault:
        say(f"{fault}: begin another table, with one library everywhere")
    except (CancelledError, CommClosedError, TimeoutError, OSError) as fault:
        say(f"the scheduler or its workers are gone: the same command goes on from here ({type(fault).__name__})")
    return FAILED


if __name__ == "__main__":
    sys.exit(main())
