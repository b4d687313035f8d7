"""Files: what is wrong with one, told in a line; output that is whole or not there; and how far a long step has come."""

from __future__ import annotations

import os
import shutil
import stat
import sys
import tempfile
import time
from contextlib import contextmanager
from typing import BinaryIO, Callable, Dict, Iterator, List, Optional, TextIO


class Trouble(Exception):
    """What is wrong in a file, in one line: file, place, name of the column, reason. The command ends with ``status``."""

    status = 1

    def __init__(self, file: str, reason: str, place: str = "", column: str = "") -> None:
        super().__init__(file, reason, place, column)
        self.file, self.reason, self.place, self.column = file, reason, place, column

    def __str__(self) -> str:
        where = [named(self.file)] + [self.place] * bool(self.place) + [f"column {self.column}"] * bool(self.column)
        return f"{', '.join(where)}: {self.reason}".replace("\n", " ")


class Unusable(Trouble):
    """A file that cannot be read or written at all, or a wrong use of the command."""

    status = 2


def named(path: str) -> str:
    """A file's name, as errors have it."""
    return "standard input" if path == "-" else path


@contextmanager
def opened(path: str) -> Iterator[BinaryIO]:
    """A file to read, or standard input for ``-``."""
    try:
        file = sys.stdin.buffer if path == "-" else open(path, "rb")
    except OSError as error:
        raise Unusable(path, f"cannot be read: {error.strerror}") from None
    try:
        yield file
    except IsADirectoryError as error:
        raise Unusable(path, f"cannot be read: {error.strerror}") from None
    finally:
        if path != "-":
            file.close()


def read(path: str, file: BinaryIO, size: int) -> bytes:
    """The next bytes of a file, as many as ``size`` where there are so many. One read at a time, so that a signal is heard between them."""
    parts: List[bytes] = []
    try:
        while size > 0:
            part = file.read1(size)  # type: ignore[attr-defined]
            if not part:
                break
            parts.append(part)
            size -= len(part)
    except OSError as error:
        raise Unusable(path, f"cannot be read: {error.strerror}") from None
    return b"".join(parts)


def arriving(path: str, file: BinaryIO, size: int) -> Iterator[bytes]:
    """The bytes of a file as they arrive, in pieces of at most so many: nothing waits for a piece to be full."""
    try:
        while True:
            piece = file.read1(size)  # type: ignore[attr-defined]
            if not piece:
                return
            yield piece
    except OSError as error:
        raise Unusable(path, f"cannot be read: {error.strerror}") from None


@contextmanager
def streamed(path: str) -> Iterator[BinaryIO]:
    """Standard output for ``-``, which has what is written to it once it is flushed; a file is whole or not there, as ever."""
    if path != "-":
        with written(path) as file:
            yield file
        return
    try:
        yield sys.stdout.buffer
        sys.stdout.buffer.flush()
    except OSError as error:
        raise _unwritten(path, error) from None


@contextmanager
def written(path: str) -> Iterator[BinaryIO]:
    """A file to write, which stands at its path whole, once all went well, or not at all. ``-`` is standard output."""
    try:
        if path == "-" or (os.path.exists(path) and not stat.S_ISREG(os.stat(path).st_mode)):
            yield from _spooled(path)
        else:
            yield from _beside(os.path.realpath(path))
    except OSError as error:
        raise _unwritten(path, error) from None


def _unwritten(path: str, error: OSError) -> Unusable:
    """What is told of a file that cannot be written."""
    if isinstance(error, BrokenPipeError) and path == "-":
        # Whoever read standard output has enough. Python is kept from flushing it once more.
        os.dup2(os.open(os.devnull, os.O_WRONLY), sys.stdout.fileno())
    return Unusable("standard output" if path == "-" else path, f"cannot be written: {error.strerror}")


def _spooled(path: str) -> Iterator[BinaryIO]:
    """Kept aside first: what can be written once only is not to have half of it."""
    with tempfile.TemporaryFile() as aside:
        yield aside
        aside.seek(0)
        out = sys.stdout.buffer if path == "-" else open(path, "wb")
        try:
            shutil.copyfileobj(aside, out, 1 << 20)
            out.flush()
        finally:
            if path != "-":
                out.close()


def _beside(path: str) -> Iterator[BinaryIO]:
    """Written under another name in the same folder, and renamed."""
    descriptor, other = tempfile.mkstemp(".part", f".{os.path.basename(path)}.", os.path.dirname(path))
    try:
        with open(descriptor, "wb") as file:
            yield file
        mask = os.umask(0)
        os.umask(mask)
        os.chmod(other, 0o666 & ~mask)
        os.replace(other, path)
    except BaseException:
        os.unlink(other)
        raise


class Progress:
    """The steps of a work: how long each took, and on a terminal a bar once a step takes long.

    >>> progress = Progress()
    >>> with progress.step("reading", 100):
    ...     progress.advance(40)
    >>> list(progress.seconds)
    ['reading']
    """

    #: How wide a bar is, and how many seconds pass before it is drawn, and drawn again.
    WIDTH, WAIT = 30, 0.5

    def __init__(self, stream: Optional[TextIO] = None, wait: Optional[float] = None, clock: Callable[[], float] = time.perf_counter) -> None:
        self.stream = stream if stream is not None and stream.isatty() else None
        self.wait = self.WAIT if wait is None else wait
        self.clock = clock
        self.seconds: Dict[str, float] = {}
        self._name, self._total, self._done = "", 0, 0
        self._drawn = 0.0
        self._shown = False

    @contextmanager
    def step(self, name: str, total: int = 0) -> Iterator[None]:
        """A step of the work, of so many parts if that is known. A step within a step counts for itself."""
        outer = self._name, self._total, self._done
        began = self.clock()
        self._name, self._total, self._done = name, total, 0
        if not self._drawn:
            self._drawn = began
        self.advance(0)
        try:
            yield
        finally:
            spent = self.clock() - began
            self.seconds[name] = self.seconds.get(name, 0.0) + spent
            self._name, self._total, self._done = outer
            if self._name:
                self.seconds[self._name] = self.seconds.get(self._name, 0.0) - spent

    def advance(self, count: int) -> None:
        """So many more parts of the step are done."""
        self._done += count
        now = self.clock()
        if self.stream is None or now - self._drawn < self.wait:
            return
        self._drawn, self._shown = now, True
        full = min(1.0, self._done / self._total) if self._total else 0.0
        bar = ("#" * round(full * self.WIDTH)).ljust(self.WIDTH)
        self.stream.write(f"\r\x1b[K{self._name} [{bar}] {full:4.0%}" if self._total else f"\r\x1b[K{self._name} ...")
        self.stream.flush()

    def clear(self) -> None:
        """Takes the bar away."""
        if self._shown and self.stream is not None:
            self.stream.write("\r\x1b[K")
            self.stream.flush()
            self._shown = False
