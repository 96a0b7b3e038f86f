"""A session with a store, over two streams of bytes."""

from __future__ import annotations

import os
import signal
import subprocess
from pathlib import Path
from typing import IO, Optional, Type, Union

from .messages import (
    LENGTH_BYTES,
    REPLY_BODY_MOST,
    Message,
    NotAReply,
    Refusal,
    Request,
    read_reply,
)

PROGRAM_VARIABLE = "REMIXDB_PROGRAM"
"""The environment variable that names the program to start in place of the repository's own."""


class SessionEnded(Exception):
    """The other end went away before it answered. A program that was started also has a status."""

    def __init__(self, status: Optional[int]) -> None:
        told = "" if status is None else f": the program ended with status {status}"
        super().__init__(f"the session ended before a reply{told}")
        self.status = status


class ProgramFailed(Exception):
    """The program that was started ended with a status but 0, when its session was over."""

    def __init__(self, status: int) -> None:
        super().__init__(f"the program ended with status {status}")
        self.status = status


class Connection:
    """Carries requests out and replies back, in order. Any two streams do: pipes, or a socket's."""

    def __init__(self, replies: IO[bytes], requests: IO[bytes]) -> None:
        self._replies = replies
        self._requests = requests
        self._has_ended = False

    def __enter__(self) -> Connection:
        return self

    def __exit__(self, *_: object) -> None:
        self.close()

    def ask(self, request: Request) -> Message:
        """Sends a request, waits for its reply, and raises it where it is a refusal."""
        self.send(request)
        return self.receive()

    def send(self, request: Request) -> None:
        """Sends a request and leaves its reply for later. Replies come in the requests' order.

        A program stops reading while too many of its replies are left. Then a send waits forever.
        """
        self.send_bytes(b"".join(request.pieces()))

    def send_bytes(self, data: bytes) -> None:
        """Sends bytes as they are, whether or not they are a message."""
        if self._has_ended:
            return  # As below: receive tells it.
        left = memoryview(data)
        try:
            while left:  # A stream without a buffer may take a part.
                left = left[self._requests.write(left) :]
            self._requests.flush()
        except ConnectionError:
            pass  # The other end is gone. What it replied before can be received, and then its end.

    def receive(self) -> Message:
        """Waits for the next reply, and raises it where it is a refusal."""
        length = int.from_bytes(self._take(LENGTH_BYTES), "big")
        if not 1 <= length <= REPLY_BODY_MOST:
            raise NotAReply(f"no reply has a body of {length} bytes")
        reply = read_reply(self._take(length))
        if isinstance(reply, Refusal):
            raise reply
        return reply

    def close(self) -> Optional[int]:
        """Ends the session. Waits for a program that it started, and answers its status."""
        self._has_ended = True
        # Replies first: a program that waits for them to be read takes no requests, and to close
        # these would wait until it takes what is left of them.
        self._replies.close()
        try:
            self._requests.close()
        except ConnectionError:
            pass  # The other end went first, and what was left for it is of no use.
        return self._wait()

    def _take(self, count: int) -> bytes:
        taken = b""
        while len(taken) < count:  # A stream without a buffer gives what is there.
            piece = self._next_piece(count - len(taken))
            if not piece:
                raise SessionEnded(self.close())
            taken += piece
        return taken

    def _next_piece(self, count: int) -> bytes:
        """Some of the next bytes, at most so many, and none where the session has ended."""
        if self._has_ended:
            return b""
        try:
            return self._replies.read(count)
        except ConnectionError:
            return b""  # The other end left with requests unread.

    def _wait(self) -> Optional[int]:
        return None


class Program(Connection):
    """A session with a program that it starts. The program's notes go to standard error."""

    def __init__(self, *command: str) -> None:
        # In a session of its own the program does not get the interrupt that a terminal sends to
        # its client. It ends when its input does, so also where the client is killed.
        self._child = subprocess.Popen(
            command, stdin=subprocess.PIPE, stdout=subprocess.PIPE, start_new_session=True
        )
        assert self._child.stdin is not None and self._child.stdout is not None
        super().__init__(self._child.stdout, self._child.stdin)

    def __exit__(self, kind: Optional[Type[BaseException]], *_: object) -> None:
        """Ends the session. A status but 0 is raised, unless an exception is on its way already."""
        status = self.close()
        if status and kind is None:
            raise ProgramFailed(status)

    def interrupt(self) -> None:
        """Interrupts the program, and what it started in its turn, as a terminal would."""
        if self._child.poll() is None:
            os.killpg(self._child.pid, signal.SIGINT)

    def _wait(self) -> Optional[int]:
        return self._child.wait()


def program_path() -> str:
    """The program to start: the one that the environment names, else the repository's own."""
    return os.environ.get(PROGRAM_VARIABLE) or str(Path(__file__).resolve().parents[3] / "remixdb")


MEMORY = "mem"
"""The word that stands for a store in memory. A folder of this name is ./mem."""


def place_of(dir: Optional[Union[str, "os.PathLike[str]"]]) -> str:
    """The program's word for a folder, or for memory where there is none."""
    if dir is None:
        return MEMORY
    if not os.fspath(dir):
        raise ValueError("a folder has a name, and this one is empty")
    # In this form it is neither the word for memory nor one that begins as an option does.
    return os.path.join(os.curdir, dir)


def start_program(dir: Optional[Union[str, "os.PathLike[str]"]] = None) -> Program:
    """Starts RemixDB over a folder, or over a store in memory, which lasts as long as the session.

    The folder is made where it is absent, but not the one that it lies in. One program uses it at a time.
    """
    return Program(program_path(), "script", place_of(dir))
