"""What workers of a test begin with, in place of `overlay_gis.worker_start`: they die or wait where the
test wants them to, and leave marks in a folder. The environment names what they do, the phases of
the tasks in which they do it, and the folder."""

import os
import signal
import time
from pathlib import Path
from threading import Event

import dask

from overlay_gis import strip_tasks, worker_start
from overlay_gis.faults import Fault

NAMES = ("OVERLAY_TEST_WORKERS", "OVERLAY_TEST_PHASES", "OVERLAY_TEST_MARKS")

# When a worker dies: as a task begins, while its file has not its name yet, and before it is told
# that the task is done.
MOMENTS = ("begun", "unnamed", "untold")


def is_first(mark):
    """Whether no worker made this mark before."""
    try:
        os.close(os.open(marks / mark, os.O_CREAT | os.O_EXCL))
    except FileExistsError:
        return False
    return True


def die(phase, moment):
    """Once in each phase, whoever comes first to its moment."""
    if phase in phases and moment == MOMENTS[phases.index(phase) % len(MOMENTS)] and is_first(phase):
        os.kill(os.getpid(), signal.SIGKILL)
        Event().wait()  # nothing is done behind it


def dying(_):
    done, replace = strip_tasks.done, os.replace

    def done_by_a_mortal(work, step):
        die(step.phase, "begun")
        note = done(work, step)
        die(step.phase, "untold")
        return note

    def replace_or_die(source, place):
        die(os.path.basename(place).partition(".")[0], "unnamed")
        replace(source, place)

    strip_tasks.done, os.replace = done_by_a_mortal, replace_or_die


def waiting(worker):
    """One task of each phase is done, all others wait for as long as there is the run."""
    done = strip_tasks.done

    def done_or_not(work, step):
        if step.phase in phases and not is_first(step.phase):
            (marks / "waits").touch()
            while worker.status.name == "running":
                time.sleep(0.01)
            raise Fault(step.file, "waited until the run was stopped")
        return done(work, step)

    strip_tasks.done = done_or_not


def dask_setup(worker):
    """Results that are fetched of a worker that died since are given up before half a minute is over."""
    worker_start.dask_setup(worker)
    dask.config.set({"distributed.comm.timeouts.connect": "2s"})
    {"dying": dying, "waiting": waiting}[what](worker)


what, words, place = (os.environ.get(name, "") for name in NAMES)
phases, marks = words.split(), Path(place)
