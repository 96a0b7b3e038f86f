"""The command line: lines of requests in, lines of replies out."""

from __future__ import annotations

import argparse
import errno
import os
import signal
import sys
from typing import IO, Iterator, List, Optional

from .connection import (
    PROGRAM_VARIABLE,
    Connection,
    ProgramFailed,
    SessionEnded,
    program_path,
    start_program,
)
from .messages import REQUESTS, Message, NotAReply, Quit, Refusal, Request
from .text import ESCAPES_TOLD, BadLine, form_of, hex_of, line_of, read_words, request_of

NAME = "remixdb-client"
PROMPT = "remixdb> "

ALL_ANSWERED = 0
REFUSED = 1
BAD_LINE = 2

EXPLANATION = f"""\
Starts RemixDB over a folder, or over a store in memory, which lasts as long as the session. Reads
requests from standard input, one a line, and prints a reply for each: at a prompt where input and
output are a terminal.

{{requests}}

A word in double quotes may hold spaces. In each word {ESCAPES_TOLD}.

exit status:
  {ALL_ANSWERED}  each request was answered
  {REFUSED}  a request was refused, the session ended before a reply, the program could not be
     started or ended badly, or the output had no room
  {BAD_LINE}  a line was no request, and was not typed at a prompt; nothing after it was read. Or the
     options are wrong

{PROGRAM_VARIABLE} in the environment names another program to start."""


def told_requests() -> str:
    """A line for each request, with what it does."""
    lines = [f"  {form_of(each):<16} {each.__doc__}" for each in REQUESTS.values()]
    return "\n".join(["requests:", *lines, f"  {'help':<16} Prints these lines."])


def complain(text: str) -> None:
    """Prints a message for people, apart from the replies. Where it has no room the status tells."""
    try:
        sys.stderr.write(f"{NAME}: {text}\n")
        sys.stderr.flush()
    except OSError:
        drop(sys.stderr)


def drop(stream: IO[str]) -> None:
    """Lets go of a stream, so that nothing tries to write to it again on the way out."""
    os.dup2(os.open(os.devnull, os.O_WRONLY), stream.fileno())


def say(line: str) -> None:
    """Prints a line of output at once, since a program may wait for it."""
    sys.stdout.write(line + "\n")
    sys.stdout.flush()


def typed_lines() -> Iterator[str]:
    """The lines that are typed at the prompt. An interrupt drops the line that was begun."""
    while True:
        try:
            yield input(PROMPT)
        except KeyboardInterrupt:
            print()
        except EOFError:
            print()
            return


def piped_lines() -> Iterator[str]:
    """The lines of standard input, each as soon as it is there. They end as on any system."""
    for line in sys.stdin:
        line = line[:-1] if line.endswith("\n") else line
        yield line[:-1] if line.endswith("\r") else line


class Session:
    """Asks what lines say and prints what comes back."""

    def __init__(self, store: Connection, shows_hex: bool, is_typed: bool) -> None:
        self._store = store
        self._shows_hex = shows_hex
        self._is_typed = is_typed
        self._was_refused = False

    def run(self) -> int:
        """Goes over the lines up to a quit, and answers the exit status."""
        lines = typed_lines() if self._is_typed else piped_lines()
        for number, line in enumerate(lines, 1):
            try:
                if self._does_quit(line):
                    break
            except BadLine as fault:
                if not self._is_typed:
                    complain(f"line {number}: {fault}")
                    return BAD_LINE
                complain(str(fault))
        return REFUSED if self._was_refused else ALL_ANSWERED

    def _does_quit(self, line: str) -> bool:
        """Does what a line says, and tells whether it was a quit."""
        words = read_words(line)
        if not words:
            return False
        if words == [b"help"]:
            say(told_requests())
            return False
        request = request_of(words)
        self._show(">", request)
        self._answer(request)
        return isinstance(request, Quit)

    def _answer(self, request: Request) -> None:
        try:
            reply: Message = self._store.ask(request)
        except Refusal as refusal:
            self._was_refused = True
            reply = refusal
        self._show("<", reply)
        say(line_of(reply))

    def _show(self, mark: str, message: Message) -> None:
        if self._shows_hex:
            print(mark, hex_of(message), file=sys.stderr, flush=True)


class Help(argparse.Action):
    """Prints the help and ends. The one of argparse ends well although the help had no room."""

    def __call__(self, parser: argparse.ArgumentParser, *_: object) -> None:  # type: ignore
        need(sys.stdout)
        say(parser.format_help().rstrip())
        parser.exit()


def a_folder(word: str) -> str:
    if not word:
        raise argparse.ArgumentTypeError("a folder's name is wanted, and this word is empty")
    return word


def read_arguments(arguments: Optional[List[str]]) -> argparse.Namespace:
    parser = argparse.ArgumentParser(
        prog=NAME,
        description="A client of RemixDB.",
        epilog=EXPLANATION.format(requests=told_requests()),
        formatter_class=argparse.RawDescriptionHelpFormatter,
        add_help=False,
    )
    parser.add_argument("-h", "--help", action=Help, nargs=0, help="show this help and end")
    parser.add_argument(
        "--dir", metavar="FOLDER", type=a_folder, help="keep the updates in this folder, not in memory"
    )
    parser.add_argument(
        "--hex", action="store_true", help="show each message in hexadecimal on standard error"
    )
    return parser.parse_args(arguments)


def need(stream: Optional[IO[str]]) -> None:
    """Raises where a stream was closed by whoever started this."""
    if stream is None:
        raise OSError(errno.EBADF, os.strerror(errno.EBADF))


def prepare_streams() -> bool:
    """Makes text stand for bytes in UTF-8 in any locale, and tells whether there is a prompt."""
    need(sys.stdin)
    need(sys.stdout)
    for stream in (sys.stdin, sys.stdout, sys.stderr):
        stream.reconfigure(encoding="utf-8", errors="surrogateescape")  # type: ignore
    is_typed = sys.stdin.isatty() and sys.stdout.isatty()
    if is_typed:
        try:
            import readline  # noqa: F401  (it gives the prompt its editing keys and its history)
        except ImportError:
            pass
    return is_typed


def die_of(number: signal.Signals) -> int:
    """Ends this process as the signal would have, so that a shell sees it and ends its loop."""
    signal.signal(number, signal.SIG_DFL)
    os.kill(os.getpid(), number)
    return 128 + number


def run(options: argparse.Namespace) -> int:
    """A whole session with a program of its own. Answers the exit status."""
    is_typed = prepare_streams()
    try:
        store = start_program(options.dir)
    except OSError as fault:
        complain(f"cannot start {program_path()}: {fault.strerror}")
        return REFUSED
    status = ALL_ANSWERED
    try:
        with store:
            try:
                status = Session(store, options.hex, is_typed).run()
                store.close()
            except (KeyboardInterrupt, NotAReply):
                store.interrupt()  # Else the wait for its end could be for ever.
                raise
    except ProgramFailed as failed:
        complain(str(failed))
        return status or REFUSED
    return status


def main(arguments: Optional[List[str]] = None) -> int:
    """Runs the command line, and answers its exit status."""
    if sys.stderr is None:  # It was closed by whoever started this.
        sys.stderr = open(os.devnull, "w")
    try:
        return run(read_arguments(arguments))
    except (SessionEnded, NotAReply) as fault:
        complain(str(fault))
        return REFUSED
    except KeyboardInterrupt:
        return die_of(signal.SIGINT)
    except BrokenPipeError:
        return die_of(signal.SIGPIPE)
    except OSError as fault:
        if sys.stdout is not None:
            drop(sys.stdout)
        complain(f"cannot go on: {fault.strerror}")
        return REFUSED
