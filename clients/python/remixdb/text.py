"""Requests and replies as lines of text.

A line is words with spaces between them. A word in double quotes may hold spaces, and may be
empty. Text stands for its bytes in UTF-8, and a backslash writes what text cannot. What is printed
here can be typed again and gives the same bytes.
"""

from __future__ import annotations

from string import hexdigits
from typing import List, Tuple, Type

from .messages import REQUESTS, Bytes, Message, Refusal, Request

SPACES = " \t"
PLAIN_ESCAPES = {"\\": "\\", '"': '"', "n": "\n"}
ESCAPES_TOLD = r'the escapes are \xHH, \n, \" and \\'


class BadLine(Exception):
    """A line is no request. The text says what was wanted."""


def to_bytes(text: str) -> bytes:
    """The bytes that text stands for. Bytes that came in and are no UTF-8 are themselves."""
    return text.encode("utf-8", "surrogateescape")


def read_escape(line: str, place: int) -> Tuple[bytes, int]:
    """What the escape whose backslash is at the place stands for, and the place after it."""
    letter = line[place + 1 : place + 2]
    if letter in PLAIN_ESCAPES:
        return to_bytes(PLAIN_ESCAPES[letter]), place + 2
    digits = line[place + 2 : place + 4]
    if letter == "x" and len(digits) == 2 and all(each in hexdigits for each in digits):
        return bytes.fromhex(digits), place + 4
    raise BadLine(f"{line[place : place + 4]} is no escape; {ESCAPES_TOLD}")


def read_word(line: str, place: int) -> Tuple[bytes, int]:
    """The word that begins at the place, and the place after it."""
    is_quoted = line[place] == '"'
    place += is_quoted
    word = bytearray()
    while place < len(line):
        letter = line[place]
        if letter == "\\":
            piece, place = read_escape(line, place)
            word += piece
        elif is_quoted and letter == '"':
            if line[place + 1 : place + 2] not in ("", *SPACES):
                raise BadLine("a space is wanted after a closing quote")
            return bytes(word), place + 1
        elif not is_quoted and letter in SPACES:
            return bytes(word), place
        elif letter == '"':
            raise BadLine(r'a quote inside a word is written \"')
        else:
            word += to_bytes(letter)
            place += 1
    if is_quoted:
        raise BadLine("a closing quote is wanted")
    return bytes(word), place


def read_words(line: str) -> List[bytes]:
    """The words of a line."""
    words = []
    place = 0
    while place < len(line):
        if line[place] in SPACES:
            place += 1
        else:
            word, place = read_word(line, place)
            words.append(word)
    return words


def form_of(request: Type[Request]) -> str:
    """How a request is typed, as put KEY VALUE."""
    return " ".join([request.word, *(name.upper() for name, _ in request.kinds())])


def forms() -> str:
    """How each request is typed."""
    return ", ".join(form_of(request) for request in REQUESTS.values())


def request_of(words: List[bytes]) -> Request:
    """The request that a line's words are, of which there is at least one."""
    name = words[0].decode("utf-8", "replace")
    if name not in REQUESTS:
        raise BadLine(f"there is no request {quoted(words[0])}; there are {forms()}")
    request = REQUESTS[name]
    if len(words) - 1 != len(request.kinds()):
        plural = "" if len(words) == 2 else "s"
        raise BadLine(
            f"{form_of(request)} is wanted, and {name} has {len(words) - 1} word{plural} after it"
        )
    try:
        return request(*words[1:])
    except ValueError as fault:
        raise BadLine(str(fault)) from None


def spelled(letter: str) -> str:
    """A letter of a quoted word: itself where it can be seen, else an escape for each byte."""
    if letter in ('"', "\\"):
        return "\\" + letter
    if letter == "\n":
        return r"\n"
    if letter.isprintable():
        return letter
    return "".join(f"\\x{byte:02x}" for byte in to_bytes(letter))


def quoted(data: bytes) -> str:
    """Bytes as a quoted word that stands for them."""
    return '"' + "".join(spelled(each) for each in data.decode("utf-8", "surrogateescape")) + '"'


def line_of(reply: Message) -> str:
    """A reply in words."""
    if isinstance(reply, Refusal):
        return f"refused: {reply}"
    words = [reply.word]
    for name, kind in reply.kinds():
        field = getattr(reply, name)
        words.append(quoted(field) if isinstance(kind, Bytes) else str(field))
    return " ".join(words)


def hex_of(message: Message) -> str:
    """The bytes of a message in hexadecimal, with a space between its fields."""
    return " ".join(piece.hex() for piece in message.pieces() if piece)
