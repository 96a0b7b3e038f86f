"""The messages of a session, and the bytes that each is written as.

A message is the length of a body, and the body. The first byte of a body says which message it is, and
fields follow. Each class below says its first byte, its word and its fields in their order, and
nothing else in this package repeats them. So a new request is a class here and a place in REQUESTS,
and a new reply a class and a place in REPLIES.
"""

from __future__ import annotations

from dataclasses import dataclass, field, fields
from typing import Any, ClassVar, Dict, List, Tuple, Type

LENGTH_BYTES = 4


class NotAReply(Exception):
    """What came is no reply that this client knows. Nothing after it can be trusted."""


class Body:
    """The body of a message that is read from left to right."""

    def __init__(self, body: bytes) -> None:
        self._body = body
        self._place = 0

    def take(self, count: int) -> bytes:
        """The next bytes, exactly so many."""
        taken = self._body[self._place : self._place + count]
        if len(taken) < count:
            raise NotAReply(f"a reply ends inside a field: {self._body.hex()}")
        self._place += count
        return taken

    def finish(self) -> None:
        """Tests that nothing is left."""
        if self._place < len(self._body):
            raise NotAReply(f"bytes follow a reply's last field: {self._body.hex()}")


@dataclass(frozen=True)
class Number:
    """A field that is a number of a fixed width."""

    width: int

    def pieces(self, number: int) -> List[bytes]:
        return [number.to_bytes(self.width, "big")]

    def read(self, body: Body) -> int:
        return int.from_bytes(body.take(self.width), "big")


@dataclass(frozen=True)
class Bytes:
    """A field that is bytes after their length. Its bounds are those of the store."""

    noun: str
    width: int
    least: int
    most: int

    def test(self, data: bytes) -> None:
        """Refuses what the store would refuse, since a refusal there ends the session."""
        # The length of other types counts letters or elements, and a message would lie about it.
        if not isinstance(data, bytes):
            raise TypeError(f"a {self.noun} is bytes, and this one is {type(data).__name__}")
        if not self.least <= len(data) <= self.most:
            raise ValueError(
                f"a {self.noun} has {self.least} to {self.most} bytes, and this one has {len(data)}"
            )

    def pieces(self, data: bytes) -> List[bytes]:
        return [len(data).to_bytes(self.width, "big"), data]

    def read(self, body: Body) -> bytes:
        return body.take(int.from_bytes(body.take(self.width), "big"))


KEY = Bytes("key", width=2, least=1, most=1_024)
VALUE = Bytes("value", width=4, least=0, most=65_535)
U8 = Number(1)
U64 = Number(8)

REPLY_BODY_MOST = 1 + U64.width + VALUE.width + VALUE.most
"""The longest body of a reply, a value's. With a greater length the other end is no RemixDB."""


def written_as(kind: Any) -> Any:
    """A field of a message, with the kind that says how it is written."""
    return field(metadata={"kind": kind})


class Message:
    """A request or a reply."""

    first_byte: ClassVar[int]
    word: ClassVar[str]

    @classmethod
    def kinds(cls) -> List[Tuple[str, Any]]:
        """The names of the fields with their kinds, in the order in which they are written."""
        return [(each.name, each.metadata["kind"]) for each in fields(cls)]  # type: ignore

    def pieces(self) -> List[bytes]:
        """The message's bytes: its length, its first byte, and what each field is written as."""
        body = [bytes([self.first_byte])]
        for name, kind in self.kinds():
            body += kind.pieces(getattr(self, name))
        length = sum(len(piece) for piece in body)
        return [length.to_bytes(LENGTH_BYTES, "big")] + body


class Request(Message):
    """What a client asks. To make one with a field out of bounds is a ValueError."""

    def __post_init__(self) -> None:
        for name, kind in self.kinds():
            kind.test(getattr(self, name))


@dataclass(frozen=True)
class Put(Request):
    """Sets the value of a key. The reply is Done."""

    first_byte = 0x01
    word = "put"
    key: bytes = written_as(KEY)
    value: bytes = written_as(VALUE)


@dataclass(frozen=True)
class Delete(Request):
    """Takes a key's value away. The reply is Done, also where the key had none."""

    first_byte = 0x02
    word = "delete"
    key: bytes = written_as(KEY)


@dataclass(frozen=True)
class Get(Request):
    """Asks for the value of a key. The reply is Value or Absent."""

    first_byte = 0x03
    word = "get"
    key: bytes = written_as(KEY)


@dataclass(frozen=True)
class Sync(Request):
    """Has the store make its updates last over a crash. The reply is Synced."""

    first_byte = 0x04
    word = "sync"


@dataclass(frozen=True)
class Quit(Request):
    """Ends the session. The reply is Bye."""

    first_byte = 0x09
    word = "quit"


@dataclass(frozen=True)
class Done(Message):
    """An update was made. The number is its place among all updates, from 0 on."""

    first_byte = 0x81
    word = "done"
    number: int = written_as(U64)


@dataclass(frozen=True)
class Value(Message):
    """The value of a key. The front says how many updates the answer takes into account."""

    first_byte = 0x82
    word = "value"
    front: int = written_as(U64)
    value: bytes = written_as(VALUE)


@dataclass(frozen=True)
class Absent(Message):
    """The key has no value. The front says how many updates the answer takes into account."""

    first_byte = 0x83
    word = "absent"
    front: int = written_as(U64)


@dataclass(frozen=True)
class Synced(Message):
    """Every update whose number is below this one lasts over a crash."""

    first_byte = 0x84
    word = "synced"
    number: int = written_as(U64)


@dataclass(frozen=True)
class Bye(Message):
    """The session has ended, as it was asked to."""

    first_byte = 0x89
    word = "bye"


class Refusal(Exception, Message):
    """The store refused a request. A connection raises it, and its fields say more."""


# Refusals are compared by identity, as exceptions are. Raising writes to them, so none is frozen.
@dataclass(eq=False)
class BadMessage(Refusal):
    """What was sent is no message. The session has ended."""

    meanings: ClassVar[Dict[int, str]] = {
        1: "the length of the message is 0 or too great",
        2: "there is no such request",
        3: "the message ends inside a field",
        4: "the length of a key is 0 or above 1024",
        5: "the length of a value is above 65535",
        7: "bytes follow the last field",
    }

    first_byte = 0xE1
    word = "bad message"
    at: int = written_as(U64)
    code: int = written_as(U8)

    def __str__(self) -> str:
        meaning = self.meanings.get(self.code, "this client does not know the code")
        return f"{self.word} at byte {self.at}, code {self.code}: {meaning}"


@dataclass(eq=False)
class DeviceFault(Refusal):
    """A device of the store failed. The session goes on, and a later request tries the device again."""

    first_byte = 0xE4
    word = "device fault"
    device: int = written_as(U8)

    def __str__(self) -> str:
        return f"{self.word} on device {self.device}"


@dataclass(eq=False)
class OutOfMemory(Refusal):
    """The store had no memory for the request. The session goes on."""

    first_byte = 0xE5
    word = "out of memory"

    def __str__(self) -> str:
        return self.word


@dataclass(eq=False)
class HistorySpent(Refusal):
    """The store took as many updates as it can number, and takes no more. The session goes on."""

    first_byte = 0xE7
    word = "history spent"
    number: int = written_as(U64)

    def __str__(self) -> str:
        return f"{self.word}: the next update would be number {self.number}"


@dataclass(eq=False)
class NumbersSpent(Refusal):
    """The store has no numbers left for files, and takes no updates. The session goes on."""

    first_byte = 0xE8
    word = "numbers spent"
    next: int = written_as(U64)

    def __str__(self) -> str:
        return f"{self.word}: the next file would be number {self.next}"


REQUESTS: Dict[str, Type[Request]] = {
    each.word: each for each in (Put, Delete, Get, Sync, Quit)
}

REPLIES: Dict[int, Type[Message]] = {
    each.first_byte: each
    for each in (
        Done,
        Value,
        Absent,
        Synced,
        Bye,
        BadMessage,
        DeviceFault,
        OutOfMemory,
        HistorySpent,
        NumbersSpent,
    )
}


def read_reply(data: bytes) -> Message:
    """The one reply whose body this is. A refusal is handed back, and raised by connections."""
    body = Body(data)
    first_byte = body.take(1)[0]
    if first_byte not in REPLIES:
        raise NotAReply(f"no reply begins with {first_byte:02x}: {data.hex()}")
    reply = REPLIES[first_byte]
    values = [kind.read(body) for _, kind in reply.kinds()]
    body.finish()
    return reply(*values)
