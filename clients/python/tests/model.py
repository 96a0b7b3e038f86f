"""What a session answers to any bytes, worked out from docs/formats.md and from nothing else.

It reads input as the format's tables say, field by field, and keeps rows in a dictionary. It shares
no code with the client, so that a mistake there does not hide one in the store.
"""

from __future__ import annotations

from typing import Dict, Optional, Tuple

KEY_MOST = 1_024
VALUE_MOST = 65_535
BODY_MOST = 1 + 2 + KEY_MOST + 4 + VALUE_MOST


class Refused(Exception):
    """A message that is none, with the code of the first test that it fails."""

    def __init__(self, code: int) -> None:
        super().__init__(code)
        self.code = code


class Fields:
    """The fields of a body, from left to right."""

    def __init__(self, body: bytes) -> None:
        self.left = body

    def bytes(self, count: int) -> bytes:
        if len(self.left) < count:
            raise Refused(3)
        taken, self.left = self.left[:count], self.left[count:]
        return taken

    def number(self, width: int) -> int:
        return int.from_bytes(self.bytes(width), "big")

    def key(self) -> bytes:
        length = self.number(2)
        if not 1 <= length <= KEY_MOST:
            raise Refused(4)
        return self.bytes(length)

    def value(self) -> bytes:
        length = self.number(4)
        if length > VALUE_MOST:
            raise Refused(5)
        return self.bytes(length)

    def finish(self) -> None:
        if self.left:
            raise Refused(7)


def message(body: bytes) -> bytes:
    return len(body).to_bytes(4, "big") + body


class Session:
    """Sessions over one map that begins empty, one after another."""

    def __init__(self) -> None:
        self.rows: Dict[bytes, bytes] = {}
        self.updates = 0

    def answer(self, body: bytes) -> bytes:
        """The body of the reply."""
        fields = Fields(body)
        code = fields.number(1)
        if code == 0x01:
            key, value = fields.key(), fields.value()
            fields.finish()
            return self.put(key, value)
        if code == 0x02:
            key = fields.key()
            fields.finish()
            return self.delete(key)
        if code == 0x03:
            key = fields.key()
            fields.finish()
            return self.get(key)
        if code == 0x04:
            fields.finish()
            return b"\x84" + self.updates.to_bytes(8, "big")
        if code == 0x09:
            fields.finish()
            return b"\x89"
        raise Refused(2)

    def put(self, key: bytes, value: bytes) -> bytes:
        self.rows[key] = value
        return self.done()

    def delete(self, key: bytes) -> bytes:
        self.rows.pop(key, None)
        return self.done()

    def done(self) -> bytes:
        number = self.updates
        self.updates += 1
        return b"\x81" + number.to_bytes(8, "big")

    def get(self, key: bytes) -> bytes:
        front = self.updates.to_bytes(8, "big")
        if key not in self.rows:
            return b"\x83" + front
        value = self.rows[key]
        return b"\x82" + front + len(value).to_bytes(4, "big") + value


def session_over(sent: bytes, session: Optional[Session] = None) -> Tuple[int, bytes]:
    """The status and the output of a session over these bytes, which may go on with a map."""
    session = session or Session()
    output = b""
    at = 0
    while at < len(sent):
        if len(sent) < at + 4:
            return 1, output
        length = int.from_bytes(sent[at : at + 4], "big")
        body = sent[at + 4 : at + 4 + length]
        try:
            if not 1 <= length <= BODY_MOST:
                raise Refused(1)
            if len(body) < length:
                return 1, output
            reply = session.answer(body)
        except Refused as refused:
            refusal = b"\xe1" + at.to_bytes(8, "big") + bytes([refused.code])
            return 1, output + message(refusal)
        output += message(reply)
        if reply == b"\x89":
            return 0, output
        at += 4 + length
    return 0, output
