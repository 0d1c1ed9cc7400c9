"""Runs a function over many files: in processes of this machine, or on a Dask cluster."""

from __future__ import annotations

import logging
import multiprocessing
import uuid
from concurrent.futures import FIRST_COMPLETED, Future, ProcessPoolExecutor, wait
from concurrent.futures.process import BrokenProcessPool
from itertools import islice
from typing import Any, Callable, Dict, Iterator, List, Optional

from .judging import Row
from .repeats import visible
from .streams import Stop

Judge = Callable[[str, Optional[str]], Row]

# How many files a task has at most, and how many tasks wait for each process.
FILES_A_TASK, TASKS_A_PROCESS = 16, 4


def judge_each(judge: Judge, files: List[str], prefer: Optional[str]) -> List[Row]:
    """Judges the files of one task."""
    return [judge(file, prefer) for file in files]


def tasks_of(files: List[str], jobs: int) -> Iterator[List[str]]:
    """Deals the files out to tasks, so that each of so many processes gets several."""
    size = max(1, min(FILES_A_TASK, len(files) // (max(1, jobs) * TASKS_A_PROCESS)))
    rest = iter(files)
    task = list(islice(rest, size))
    while task:
        yield task
        task = list(islice(rest, size))


def pool(jobs: int) -> ProcessPoolExecutor:
    """Returns processes that share nothing with this one."""
    return ProcessPoolExecutor(max(1, jobs), mp_context=multiprocessing.get_context('spawn'))


def run_here(jobs: int, judge: Judge, files: List[str], prefer: Optional[str]) -> Iterator[Row]:
    """Gives a row for each file. If a process ends in the middle, as one that the system stops for its memory does, the files
    that were under way are judged one at a time, and one that ends its process again has that as its verdict."""
    left = files
    while left:
        done = set()
        under_way: Dict[Future, List[str]] = {}
        try:
            with pool(min(jobs, len(left))) as processes:
                for rows in in_turn(processes, under_way, jobs, judge, tasks_of(left, jobs), prefer):
                    done.update(row.file for row in rows)
                    yield from rows
            return
        except BrokenProcessPool:
            for file in [file for task in under_way.values() for file in task if file not in done]:
                done.add(file)
                yield alone(judge, file, prefer)
        left = [file for file in left if file not in done]


def in_turn(processes: ProcessPoolExecutor, under_way: Dict[Future, List[str]], jobs: int, judge: Judge,
            tasks: Iterator[List[str]], prefer: Optional[str]) -> Iterator[List[Row]]:
    """Keeps a few tasks waiting for each process, and gives their rows as they come."""
    while True:
        for task in islice(tasks, max(0, max(1, jobs) * TASKS_A_PROCESS - len(under_way))):
            under_way[processes.submit(judge_each, judge, task, prefer)] = task
        if not under_way:
            return
        for future in wait(under_way, return_when=FIRST_COMPLETED).done:
            rows = future.result()
            del under_way[future]
            yield rows


def alone(judge: Judge, file: str, prefer: Optional[str]) -> Row:
    """Judges one file in a process of its own."""
    try:
        with pool(1) as process:
            return process.submit(judge, file, prefer).result()
    except BrokenProcessPool:
        return Row(file, 'the process ended')


def client_of(client: Callable[[str], Any], address: str) -> Any:
    """Returns a client of the cluster, or stops if none can be had. What the package writes into its log on the way, such as one more
    line for each try, is no output of this command."""
    logging.getLogger('distributed').setLevel(logging.CRITICAL)
    logging.getLogger('asyncio').setLevel(logging.CRITICAL)
    try:
        return client(address)
    except (OSError, ValueError) as error:
        raise Stop(f'no scheduler answers at {visible(address)}: {type(error).__name__}') from None


def run_on_cluster(address: str, judge: Judge, files: List[str], prefer: Optional[str]) -> Iterator[Row]:
    """Gives a row for each file, judged by the workers of a Dask cluster. The files of a task that failed as a whole are judged
    one at a time, and one that fails again has the failure as its verdict."""
    try:
        from distributed import Client, as_completed
    except ImportError:
        raise Stop("--scheduler needs the package distributed: python -m pip install 'erd[cluster]' installs it") from None

    run = uuid.uuid4().hex
    with client_of(Client, address) as client:
        def submitted(task: List[str]) -> Future:
            return client.submit(judge_each, judge, task, prefer, key=f'erd-{run}-{len(task)}-{task[0]}', pure=False)

        under_way = {future: task for task in tasks_of(files, sum(client.nthreads().values()))
                     for future in [submitted(task)]}
        coming = as_completed(list(under_way))
        for future in coming:
            task = under_way.pop(future)
            if future.status == 'finished':
                yield from future.result()
            elif len(task) == 1:
                yield Row(task[0], f'{type(future.exception()).__name__}: {future.exception()}')
            else:
                for file in task:
                    again = submitted([file])
                    under_way[again] = [file]
                    coming.add(again)
            future.release()
