"""Where the files of a fleet are answered: by processes of this machine, or by a cluster of Dask."""

import contextlib
import ctypes
import importlib
import logging
import multiprocessing
import os
import signal
import sys
import time
import warnings
from concurrent.futures import BrokenExecutor, Executor, Future, ProcessPoolExecutor
from typing import Any, List, Optional, Tuple, Union

from ._questions import Answer, Question, answer_all, loaded
from ._sources import Source, reason_of

# Of files: the version of the library that answered, and the answers in their order.
Answers = Tuple[str, List[Answer]]
# A scheduler is waited for so many seconds.
_REACHED = 5
GONE = "the cluster's scheduler is gone"
_PR_SET_PDEATHSIG = 1
# Parameters of glibc's mallopt, and how many bytes a process keeps.
_M_TRIM_THRESHOLD, _M_MMAP_THRESHOLD = -1, -3
_KEPT, _KEPT_AT_ONCE = 256 << 20, 32 << 20


class Trouble(Exception):
    """Why no file can be answered, or none any more."""


def _end_with(parent: int) -> None:
    """Has this process end with the one that began it, which alone is interrupted."""
    signal.signal(signal.SIGINT, signal.SIG_IGN)
    for number in (signal.SIGTERM, signal.SIGHUP):
        if signal.getsignal(number) is not signal.SIG_IGN:
            signal.signal(number, signal.SIG_DFL)
    if sys.platform == "linux":
        ctypes.CDLL(None).prctl(_PR_SET_PDEATHSIG, signal.SIGKILL)
        keep_memory()
    if os.getppid() != parent:
        os._exit(1)


def keep_memory() -> None:
    """Has this process keep the memory of a file for the next one, where the C library is glibc: to give it back and take it again costs more than
    a judgement."""
    library = ctypes.CDLL(None)
    with contextlib.suppress(AttributeError):
        library.mallopt(_M_MMAP_THRESHOLD, _KEPT_AT_ONCE)
        library.mallopt(_M_TRIM_THRESHOLD, _KEPT)


class Processes:
    """Processes of this machine, which read the files themselves."""

    #: A group has so many files at most, and stops behind so many bytes.
    most_files, most_bytes = 64, 16 << 20

    def __init__(self, count: int) -> None:
        self._count = count
        # As long as there is one thread alone, a process is forked: it has the library at once.
        self._pool = self._begin(count, "fork" if sys.platform == "linux" else None)
        # One process, for files whose process ended.
        self._other: Optional[ProcessPoolExecutor] = None

    @staticmethod
    def _begin(count: int, method: Optional[str] = "spawn") -> ProcessPoolExecutor:
        return ProcessPoolExecutor(count, multiprocessing.get_context(method), _end_with, (os.getpid(),))

    def workers(self) -> int:
        return self._count

    def prepared(self, source: Source) -> Source:
        """A file as it is handed over."""
        return source

    def submit(self, question: Question, group: List[Source]) -> "Future[Answers]":
        try:
            return self._pool.submit(answer_all, question, group)
        except BrokenExecutor:
            self._pool = self._begin(self._count)
            return self._pool.submit(answer_all, question, group)

    def submit_alone(self, question: Question, source: Source) -> "Future[Answers]":
        """As submit(), in a process that has this file alone at a time."""
        try:
            self._other = self._other or self._begin(1)
            return self._other.submit(answer_all, question, [source])
        except BrokenExecutor:
            self._other = self._begin(1)
            return self._other.submit(answer_all, question, [source])

    def is_lost(self, fault: BaseException) -> bool:
        """Whether the fault is that a process ended, and not its answer."""
        return isinstance(fault, BrokenExecutor)

    def stop(self) -> None:
        """Ends the processes, whatever they do."""
        for process in multiprocessing.active_children():
            process.kill()
        for pool in filter(None, (self._pool, self._other)):
            pool.shutdown()


def _silence(*names: str) -> None:
    """Keeps packages from logging what changes no answer, such as that a worker ended and another does its work."""
    for each in [*names, *logging.root.manager.loggerDict]:
        if each.split(".")[0] in names:
            logging.getLogger(each).setLevel(logging.CRITICAL + 1)


class Cluster:
    """A cluster of Dask, by the address of its scheduler. Its workers get the files' bytes, or read them where all machines see the same files."""

    most_files, most_bytes = 128, 8 << 20

    def __init__(self, address: str, is_shared: bool) -> None:
        try:
            distributed: Any = importlib.import_module("distributed")
        except ImportError as fault:
            raise Trouble("--cluster needs Dask's package distributed (Debian's python3-distributed): %s" % fault) from None
        _silence("distributed", "tornado", "asyncio")
        # Some files are large.
        warnings.filterwarnings("ignore", module="distributed")
        self._is_shared, self._killed = is_shared, distributed.KilledWorker
        self._looked, self._threads, self._is_waiting = 0.0, 0, False
        try:
            self._client: Any = distributed.Client(address, timeout=_REACHED)
        except (OSError, ValueError) as fault:
            raise Trouble("no scheduler answers at %s: %s" % (address, reason_of(fault))) from None
        # The same files are read again in the next run.
        self._pool: Executor = self._client.get_executor(pure=False)

    def _look(self) -> None:
        """Counts the threads of its workers, which come and go."""
        try:
            self._threads = sum(self._client.nthreads().values())
        except Exception:
            raise Trouble(GONE) from None
        if self._threads == 0 and not self._is_waiting:
            print("onuctl.fleet: the cluster has no worker; waiting for one", file=sys.stderr, flush=True)
        self._is_waiting = self._threads == 0
        self._looked = time.monotonic()

    def workers(self) -> int:
        if time.monotonic() > self._looked + 1:
            self._look()
        return max(self._threads, 1)

    def prepared(self, source: Source) -> Source:
        return source if self._is_shared else loaded(source)

    def submit(self, question: Question, group: List[Source]) -> "Future[Answers]":
        try:
            return self._pool.submit(answer_all, question, group)
        except RuntimeError:
            raise Trouble(GONE) from None

    def submit_alone(self, question: Question, source: Source) -> "Future[Answers]":
        return self.submit(question, [source])

    def is_lost(self, fault: BaseException) -> bool:
        return isinstance(fault, self._killed)

    def stop(self) -> None:
        with contextlib.suppress(Exception):
            self._client.close(timeout=0.5)
        # The run ends here. Where the scheduler went, Python drops coroutines of Dask's that can't end, and would say so of each.
        sys.unraisablehook = lambda _: None


Pool = Union[Processes, Cluster]
