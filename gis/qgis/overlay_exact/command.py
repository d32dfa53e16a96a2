"""The command `overlay-gis`, as a process of its own.

It is given a terminal to speak to, since there it tells how far it is; SIGTERM ends it when the
user cancels, and it then leaves what was there as it was.
"""

from __future__ import annotations

import os
import re
import select
import shutil
import subprocess
from typing import Sequence

from processing.core.ProcessingConfig import ProcessingConfig
from qgis.core import QgsProcessingException, QgsProcessingFeedback

SETTING = "OVERLAY_GIS"
NAME = "overlay-gis"

# Where it is in a clone or an archive that has this plugin, and where the Debian package has it.
BESIDE = os.path.join(os.path.dirname(os.path.realpath(__file__)), "..", "..", NAME)
PACKAGED = f"/usr/share/overlay/gis/{NAME}"

NOT_THERE = (
    f"{NAME} isn't found: install the package of overlay, or name the command in "
    "Settings, Options, Processing, Providers, Overlay (exact)"
)

# Seconds between two looks at whether the user cancels, and those that the command has to end then.
PAUSE = 0.1
GRACE = 10.0

# What the command writes to a terminal: a text in the place of the last line, or a line.
WRITTEN = re.compile(rb"\r([^\r\n]*)\x1b\[K|([^\r\n]*)\r?\n")

# How far something is, behind its name: a share, or a count.
REACHED = re.compile(r": ([\d,]+)(%?)$")


def located() -> str:
    """The command: what the setting names, else what stands beside this plugin, what the path has,
    or what Debian's package has."""
    named: str = ProcessingConfig.getSetting(SETTING)
    for place in (named,) if named else (BESIDE, shutil.which(NAME), PACKAGED):
        if place and os.path.isfile(place):
            return os.path.realpath(place)
    raise QgsProcessingException(f"{named}: there is no such file" if named else NOT_THERE)


class Log:
    """Hands on to QGIS what the command writes, and keeps its last line."""

    def __init__(self, feedback: QgsProcessingFeedback):
        self.feedback = feedback
        self.unread = b""
        self.doing = ""
        self.last = ""

    def take(self, part: bytes) -> None:
        self.unread += part
        end = 0
        for found in WRITTEN.finditer(self.unread):
            end = found.end()
            if found[1] is None:
                self.line(found[2].decode("utf-8", "replace"))
            else:
                self.progress(found[1].decode("utf-8", "replace"))
        self.unread = self.unread[end:]

    def line(self, text: str) -> None:
        if not text:
            return
        self.last = text.removeprefix(f"{NAME}: ")
        if ": warning: " in self.last:
            self.feedback.pushWarning(self.last)
        else:
            self.feedback.pushInfo(self.last)

    def progress(self, text: str) -> None:
        reached = REACHED.search(text)
        doing = text[: reached.start()] if reached else text
        if doing and doing != self.doing:
            self.feedback.setProgressText(doing)
            self.doing = doing
        if reached and reached[2]:
            self.feedback.setProgress(int(reached[1]))


def stop(process: subprocess.Popen[bytes]) -> None:
    """Asks the process to end, and kills it where it doesn't."""
    process.terminate()
    try:
        process.wait(GRACE)
    except subprocess.TimeoutExpired:
        process.kill()


def follow(process: subprocess.Popen[bytes], terminal: int, log: Log) -> None:
    """Reads what the process writes until it has ended, which it is asked for where the user
    cancels."""
    while True:
        if log.feedback.isCanceled():
            stop(process)
        if select.select([terminal], [], [], PAUSE)[0]:
            try:
                log.take(os.read(terminal, 1 << 16))
            except OSError:  # so Linux says that nobody writes to it any more
                return log.take(b"\n")
        elif process.poll() is not None:
            return None


def run(words: Sequence[str], folder: str, feedback: QgsProcessingFeedback, statuses: Sequence[int] = (0,)) -> int:
    """Runs the command in a folder, and answers its status, which is one of these unless the user
    cancels."""
    command = [located(), *words]
    ours, its = os.openpty()
    try:
        try:
            process = subprocess.Popen(command, cwd=folder, stdin=subprocess.DEVNULL, stdout=its, stderr=its)
        except OSError as error:
            raise QgsProcessingException(f"{command[0]}: {error.strerror}") from error
        finally:
            os.close(its)
        log = Log(feedback)
        follow(process, ours, log)
    finally:
        os.close(ours)
    status = process.wait()
    if status not in statuses and not feedback.isCanceled():
        raise QgsProcessingException(log.last or f"{NAME} ended with status {status}")
    return status
