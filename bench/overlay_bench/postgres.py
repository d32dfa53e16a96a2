"""A PostgreSQL server of our own: in a temporary folder, on a free port of this machine alone, as an unprivileged user, and ended with the run."""
from __future__ import annotations

import glob
import os
import pwd
import secrets
import shutil
import signal
import socket
import subprocess
import tempfile
import time
from typing import IO

from . import watching

SECONDS = 600  # a machine may be busy
# No other process of the server may take time meanwhile, and nothing has to survive it.
SETTINGS = ("autovacuum=off", "fsync=off", "full_page_writes=off", "synchronous_commit=off", "logging_collector=off", "shared_buffers=512MB", "work_mem=256MB")


def folder() -> str:
    """Where the newest server's programs are; nothing where none is installed."""
    found = glob.glob("/usr/lib/postgresql/*/bin/initdb")
    return os.path.dirname(max(found, key=lambda path: int(path.split("/")[4]))) if found else ""


def unprivileged() -> pwd.struct_passwd | None:
    """The user to start a program as so that it isn't root, which the server refuses; None where this process isn't root."""
    if os.getuid():
        return None
    for name in ("postgres", "nobody"):
        try:
            return pwd.getpwnam(name)
        except KeyError:
            continue
    raise OSError("no user but root to start PostgreSQL as")


def free_port() -> int:
    with socket.socket() as door:
        door.bind(("127.0.0.1", 0))
        port: int = door.getsockname()[1]
        return port


class Server:
    """Use it by `with`: it is there inside, and gone behind."""

    def __enter__(self) -> "Server":
        self.place, self.user, self.port = tempfile.mkdtemp(prefix="peers-"), unprivileged(), free_port()
        self.environment = {"PATH": os.environ["PATH"], "LC_ALL": "C.UTF-8", "HOME": self.place, "PGPASSWORD": secrets.token_hex(16), "PGCONNECT_TIMEOUT": "60"}
        self.process: subprocess.Popen[bytes] | None = None
        try:
            self.start()
        except BaseException:
            self.__exit__()
            raise
        return self

    def start(self) -> None:
        word = os.path.join(self.place, "word")
        with open(word, "w", opener=lambda path, flags: os.open(path, flags, 0o600), encoding="ascii") as file:
            file.write(self.environment["PGPASSWORD"])
        user, group, groups = (self.user.pw_uid, self.user.pw_gid, ()) if self.user else (None, None, None)
        if self.user:
            for path in (self.place, word):
                os.chown(path, self.user.pw_uid, self.user.pw_gid)
        words = ["--pgdata=data", "--username=peers", "--auth=scram-sha-256", "--pwfile=word", "--encoding=UTF8", "--no-sync"]
        subprocess.run(
            [os.path.join(folder(), "initdb"), *words], stdout=subprocess.DEVNULL, check=True,
            cwd=self.place, env=self.environment, user=user, group=group, extra_groups=groups)
        while not self.listens(user, group, groups):
            self.port = free_port()
        assert self.process is not None
        # what stays when no session is there
        self.lasting: set[int] = set()
        while (there := set(watching.tree(self.process.pid))) != self.lasting:
            self.lasting = there
            time.sleep(0.3)

    def listens(self, user: int | None, group: int | None, groups: tuple[()] | None) -> bool:
        """Whether the server has begun to; it doesn't where another program took the port meanwhile."""
        settings = [*SETTINGS, "listen_addresses=127.0.0.1", "port=%d" % self.port, "unix_socket_directories="]
        words = [word for setting in settings for word in ("-c", setting)]
        with open(os.path.join(self.place, "log"), "wb") as log:
            process = self.process = subprocess.Popen(
                [os.path.join(folder(), "postgres"), "-D", "data", *words], stdin=subprocess.DEVNULL, stdout=log, stderr=log,
                cwd=self.place, env=self.environment, user=user, group=group, extra_groups=groups)
        end = time.monotonic() + SECONDS
        while self.psql("select 1").returncode:
            if process.poll() is not None or time.monotonic() > end:
                with open(os.path.join(self.place, "log"), encoding="utf-8") as file:
                    told = file.read()
                if process.poll() is not None and "Address already in use" in told:
                    return False
                raise OSError("PostgreSQL didn't start: %s" % told[-500:])
            time.sleep(0.1)
        return True

    def __exit__(self, *_: object) -> None:
        if self.process is not None and self.process.poll() is None:
            self.process.send_signal(signal.SIGINT)  # ends its sessions too
            self.process.wait()
        shutil.rmtree(self.place, ignore_errors=True)  # it may be gone: this is also called where the start failed

    def session(self) -> dict[str, str]:
        """The environment in which `psql` finds the server."""
        return {"PGHOST": "127.0.0.1", "PGPORT": str(self.port), "PGUSER": "peers", "PGDATABASE": "postgres", "PGPASSWORD": self.environment["PGPASSWORD"]}

    def psql(self, *statements: str, source: IO[str] | int = subprocess.DEVNULL, seconds: float = 600) -> subprocess.CompletedProcess[str]:
        """Runs statements in one session; the first one that fails ends it."""
        words = ["psql", "-h", "127.0.0.1", "-p", str(self.port), "-U", "peers", "-d", "postgres", "-qAtX", "-v", "ON_ERROR_STOP=1"]
        words += [word for statement in statements for word in ("-c", statement)]
        return subprocess.run(words, stdin=source, capture_output=True, text=True, env=self.environment, timeout=seconds, check=False)

    def said(self, statement: str) -> str:
        done = self.psql(statement)
        if done.returncode:
            raise OSError(done.stderr.strip())
        return done.stdout

    def number(self) -> int:
        """The number of the process below which the sessions are."""
        assert self.process is not None
        return self.process.pid

    def processor(self) -> float:
        """Processor seconds of all sessions that have ended, and of what they started."""
        end = time.monotonic() + SECONDS
        while not self.lasting.issuperset(watching.tree(self.number())) and time.monotonic() < end:
            time.sleep(0.01)
        with open("/proc/%d/stat" % self.number(), encoding="ascii") as file:
            words = file.read().rpartition(")")[2].split()
        return (int(words[13]) + int(words[14])) / os.sysconf("SC_CLK_TCK")
