"""Workers of Dask, which schedules tasks: those of a scheduler that is there, or some of this
machine's own."""

from __future__ import annotations

import importlib
import logging
import os
from collections import Counter
from contextlib import ExitStack, contextmanager, suppress
from dataclasses import dataclass, field
from queue import Empty, Queue
from tempfile import TemporaryDirectory
from types import ModuleType
from typing import Any, Iterator, Mapping, NamedTuple, Sequence

from . import __version__
from .faults import Fault, Refusal
from .messages import PAUSE, bar
from .stopping import look
from .strip_library import strips
from .strip_plan import Work
from .strip_tasks import DONE, REFUSED, SPOILED, Outcome, Step, carried_out, folder_of, needs, steps
from .worker_start import leave_out_needless, told_packages

DASK = "dask"

SETTINGS = {
    "distributed.scheduler.work-stealing": False,  # a stolen task would run twice
    "distributed.scheduler.allowed-failures": 5,  # how many workers may end with one task
    "distributed.scheduler.worker-ttl": "20s",  # a worker that is silent for so long is lost
    "distributed.worker.memory.target": False,  # what goes through Dask is small: files have the rest
    "distributed.worker.memory.spill": False,
    "distributed.worker.memory.pause": False,
    "distributed.worker.memory.terminate": False,
    "distributed.comm.timeouts.connect": "30s",
}

# How a task is told of that needs no waiting for.
ENDED = ("finished", "error", "cancelled")

# What workers of this machine begin with, and what is set before they do: else they would say so.
START = f"{__package__}.worker_start"
BEFORE = "distributed.nanny.pre-spawn-environ"
QUIET = {"DASK_LOGGING__DISTRIBUTED": "critical"}

# Seconds in which a scheduler has to answer and a worker to come.
PATIENCE = 30

# How often a file is made before it counts as a fault of the folder.
TRIES = 5

# How a terminal is told what is done.
TOLD = {
    "read": "reading features",
    "scatter": "parting segments",
    "round": "rounding strips",
    "bridge": "bridging borders",
    "edges": "merging edges",
    "come": "crossing borders",
    "labels": "labelling edges",
    "reach": "following edges",
    "close": "making polygons",
    "join": "joining strips",
    "write": "ordering polygons",
}


def distributed() -> ModuleType:
    """Dask's package `distributed`, if it is there."""
    try:
        return importlib.import_module("distributed")
    except ImportError as error:
        way = "apt-get install python3-distributed, or pip install distributed"
        raise Fault(DASK, f"--engine dask needs its package distributed ({error}): {way}") from error


class Seen(NamedTuple):
    """What a worker tells of itself: the version of this tool, why it has no proved library, whether
    it sees a file, how many bytes of memory are free there, and how many tasks it does at once."""

    version: str
    lacks: str
    sees: bool
    free: int
    threads: int


def looked(path: str, dask_worker: Any) -> Seen:
    """What a worker tells, where it has a file of that path to see."""
    lacks = ""
    try:
        if not all(hasattr(strips(), call) for call in ("labels", "going_on", "polygons", "closed", "written")):
            lacks = "overlay_grid is too old: it has no polygons of strips"
    except Fault as fault:
        lacks = str(fault)
    return Seen(__version__, lacks, os.path.isfile(path), free_memory(), dask_worker.state.nthreads)


def free_memory() -> int:
    with open("/proc/meminfo", encoding="ascii") as file:
        return next((1024 * int(line.split()[1]) for line in file if line.startswith("MemAvailable:")), 0)


def host_of(address: str) -> str:
    """The machine of a worker."""
    return address.rpartition(":")[0]


@contextmanager
def clients(scheduler: str | None, count: int) -> Iterator[Any]:
    """A client of the scheduler that is named, or of one with so many workers that ends with it."""
    package = distributed()
    with ExitStack() as held:
        held.enter_context(importlib.import_module(DASK).config.set(SETTINGS))
        where: Any = scheduler or held.enter_context(own_cluster(package, count))
        try:
            client = package.Client(where, timeout=PATIENCE, set_as_default=False)
        except (OSError, ValueError) as error:
            raise Fault(scheduler or DASK, f"no scheduler of Dask answers: {error}") from error
        held.callback(client.close)
        try:
            client.wait_for_workers(1, PATIENCE)
        except package.TimeoutError as error:
            raise Fault(scheduler or DASK, "no worker comes: dask-worker starts one") from error
        yield client


@contextmanager
def lean() -> Iterator[None]:
    """Within, a run tells Dask of the same packages as its workers do: else it is warned of them."""
    told = told_packages()
    held = list(told)
    leave_out_needless()
    try:
        yield
    finally:
        told[:] = held


@contextmanager
def own_cluster(package: ModuleType, count: int) -> Iterator[Any]:
    """A scheduler and workers on this machine, to which nobody else has access where Python can make
    certificates."""
    security = package.Security()
    with suppress(ImportError):
        security = package.Security.temporary()
    config = importlib.import_module(DASK).config
    quiet = config.set({BEFORE: {**config.get(BEFORE), **QUIET}})
    with quiet, lean(), TemporaryDirectory(prefix="overlay-gis-") as space:
        cluster = package.LocalCluster(
            n_workers=count,
            threads_per_worker=1,
            dashboard_address=None,
            memory_limit=0,
            local_directory=space,
            silence_logs=logging.CRITICAL,
            preload=[START],
            security=security,
        )
        with cluster:
            yield cluster


@dataclass
class Crew:
    """The workers of a run: `most` bytes is what one of them had at most, `made_again` how many files
    weren't what they should be."""

    client: Any
    most: int = 0
    seconds: float = 0.0
    made_again: int = 0
    tries: Counter[str] = field(default_factory=Counter)

    def look(self, path: str) -> int:
        """Refuses workers that don't see a file, or haven't what tasks need; answers how many bytes
        each task may take where all do one."""
        found: dict[str, Seen] = self.client.run(looked, path)
        for address, seen in found.items():
            if seen.version != __version__:
                raise Refusal(f"worker {address}", f"has version {seen.version} of overlay-gis, and not {__version__}")
            if seen.lacks:
                raise Refusal(f"worker {address}", seen.lacks)
            if not seen.sees:
                raise Refusal(f"worker {address}", f"doesn't see {path}: --dir names a folder that all workers see")
        tasks = Counter[str]()
        for address, seen in found.items():
            tasks[host_of(address)] += max(1, seen.threads)
        return min(seen.free // tasks[host_of(address)] for address, seen in found.items())

    def notes(self, work: Work, phases: Sequence[str]) -> dict[Step, Any]:
        """Has all tasks of these phases done, and answers their notes. Files of theirs that are there
        are taken; one that isn't what its maker wrote is made again."""
        wanted = [step for phase in phases for step in steps(work, phase)]
        while True:
            notes = {step: folder_of(work, step.phase).note(step.file) for step in wanted}
            missing = [step for step in wanted if notes[step] is None]
            if not missing:
                return notes
            spoiled = {}
            for outcome in self.outcomes(work, wanted, missing):
                self.most = max(self.most, outcome.memory)
                self.seconds += outcome.seconds
                if outcome.kind == SPOILED:
                    spoiled[outcome.name] = outcome.reason
                elif outcome.kind != DONE:
                    raise (Refusal if outcome.kind == REFUSED else Fault)(outcome.name, outcome.reason)
            lost = {step.file: "isn't there" for step in missing if folder_of(work, step.phase).note(step.file) is None}
            self.remove(work, spoiled or lost)

    def remove(self, work: Work, files: Mapping[str, str]) -> None:
        """Takes spoiled files away, of which it is told what is wrong with each, so that they are made
        again."""
        for name, reason in files.items():
            self.tries[name] += 1
            self.made_again += 1
            if self.tries[name] >= TRIES:
                raise Fault(os.path.join(work.folder, name), f"{reason}, each time that it is made")
            folder_of(work, name.partition(".")[0]).remove(name)

    def outcomes(self, work: Work, wanted: Sequence[Step], missing: Sequence[Step]) -> Iterator[Outcome]:
        """How these tasks end, as they do; a terminal shows how many of each phase are done."""
        futures = self.submitted(work, missing)
        ended: Queue[Any] = Queue()
        for future in futures.values():
            future.add_done_callback(ended.put)
        left = Counter(step.phase for step in missing)
        totals = Counter(step.phase for step in wanted)
        waiting = len(futures)
        try:
            while waiting:
                look()
                tell(left, totals)
                found = []
                for future in drained(ended):
                    if future.status in ENDED:
                        found.append(future)
                    else:  # who did it ended since, so that it is done again
                        future.add_done_callback(ended.put)
                waiting -= len(found)
                for outcome in self.gathered(found):
                    left[outcome.step.phase] -= 1
                    yield outcome
        finally:
            tell(Counter(), totals)
            undone = [future for future in futures.values() if not future.done()]
            if undone:
                self.client.cancel(undone)

    def submitted(self, work: Work, missing: Sequence[Step]) -> dict[Step, Any]:
        futures: dict[Step, Any] = {}
        attempt = sum(self.tries.values())
        for step in missing:
            before = [futures[other] for other in needs(work, step) if other in futures]
            key = f"{step.phase}-{step.number}-{folder_of(work, step.phase).plan}-{attempt}"
            futures[step] = self.client.submit(carried_out, work, step, *before, key=key, pure=False)
        return futures

    def gathered(self, futures: Sequence[Any]) -> list[Outcome]:
        """What these futures have told, unless Dask gave one of them up."""
        for future in futures:
            if future.status != "finished":
                step = future.key.rpartition("-")[0].rpartition("-")[0]
                error = future.exception() if future.status == "error" else None
                if error is None or type(error).__name__ == "KilledWorker":
                    raise Fault(DASK, f"workers end, or are lost, each time that one does {step}")
                raise error
        found: list[Outcome] = self.client.gather(list(futures))
        return found


def drained(ended: Queue[Any]) -> list[Any]:
    """All that has come, or comes in a moment."""
    found = []
    with suppress(Empty):
        found.append(ended.get(timeout=PAUSE))
        while True:
            found.append(ended.get_nowait())
    return found


def tell(left: Counter[str], totals: Counter[str]) -> None:
    """Shows the first phase that isn't done."""
    phase = next((phase for phase in totals if left[phase]), None)
    if phase is None:
        bar("", 0, 0)
    else:
        bar(TOLD[phase], totals[phase] - left[phase], totals[phase])
