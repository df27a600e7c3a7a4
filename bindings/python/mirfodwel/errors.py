"""What can go wrong, as exceptions below `Error`."""

from __future__ import annotations

from typing import Optional


class Error(Exception):
    """Whatever goes wrong in this package, but for wrong arguments, which are ValueError and TypeError as elsewhere."""


class NoLibrary(Error, OSError):
    """The shared library is not there, or is of another version."""


class BadInput(Error, ValueError):
    """A text or data is malformed, and nothing was asked. `line` is counted from 1, `byte` from 0, where they are known."""

    def __init__(self, reason: str, line: Optional[int] = None, byte: Optional[int] = None) -> None:
        super().__init__(reason)
        self.line = line
        self.byte = byte


class OutOfMemory(Error, MemoryError):
    """Memory was refused. A session keeps what it had: free some and ask again."""


class Fault(Error):
    """A question met a fault: `cause` is `conflict`, `validation` or `protocol`. A session keeps what it had."""

    def __init__(self, cause: str, words: str) -> None:
        super().__init__(words or cause)
        self.cause = cause


class Closed(Error):
    """The session is closed."""


class Unknown(Error, LookupError):
    """There is no such goal in the table, or there was none when the session was opened, or no such node."""


class TimedOut(Error, TimeoutError):
    """The time was out, and the child process is ended."""
