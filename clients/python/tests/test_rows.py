"""Sessions of many rows, in which leaves are split and all rows are merged, beside the model."""

from __future__ import annotations

import random
import unittest
from typing import Iterable, Iterator, List

from .model import Session, message
from .support import Ended, fresh_folder, run_program

MERGE_SIZE = 4_194_304
"""How many bytes of changes one merge follows another by, at the most."""

KEYS_OF_A_LEAF = 32
LEAVES = 1_024
"""How many leaves there are, and how many rising keys stay in each."""

FILLING_KEYS = 5_000
"""Enough long keys to use up the nodes of the trie twice: one for each byte of an anchor."""


def put(key: bytes, value: bytes) -> bytes:
    return b"\x01" + len(key).to_bytes(2, "big") + key + len(value).to_bytes(4, "big") + value


def delete(key: bytes) -> bytes:
    return b"\x02" + len(key).to_bytes(2, "big") + key


def get(key: bytes) -> bytes:
    return b"\x03" + len(key).to_bytes(2, "big") + key


def numbered(number: int) -> bytes:
    """The key of a number, with up to four bytes before it."""
    return b"aaaa"[: number % 5] + number.to_bytes(4, "big")


def random_update(source: random.Random, key: bytes) -> bytes:
    """A deletion each third time, else a put of a value of up to 2,000 bytes."""
    if source.randrange(3) == 0:
        return delete(key)
    return put(key, bytes([source.randrange(256)]) * source.randrange(2_000))


def random_updates(source: random.Random, keys: List[bytes], count: int) -> Iterator[bytes]:
    """Random updates, each with a get before and after it."""
    for _ in range(count):
        key = source.choice(keys)
        yield get(key)
        yield random_update(source, key)
        yield get(key)


def puts_and_gets(keys: List[bytes]) -> Iterator[bytes]:
    """A put of each key, a deletion of each third, and then a get of each."""
    for key in keys:
        yield put(key, key[-4:])
    for key in keys[::3]:
        yield delete(key)
    for key in keys:
        yield get(key)


def filling(number: int) -> bytes:
    """A key of 1,024 bytes. Each 65 that follow each other differ at the end alone, and their front is their own."""
    group, member = divmod(number, 65)
    return group.to_bytes(2, "big") + b"x" * 1_021 + bytes([member])


class Rows(unittest.TestCase):
    def check(self, place: str, model: Session, bodies: Iterable[bytes]) -> None:
        """Runs a session over these requests, and compares each reply with the model's."""
        asked = list(bodies)
        wanted = b"".join(message(model.answer(body)) for body in asked)
        ended = run_program(b"".join(map(message, asked)), "script", place)
        self.assertEqual((ended.status, ended.notes), (0, b""))
        self.assertTrue(ended.output == wanted, "another reply")

    def test_the_sixty_fifth_put_splits_the_leaf(self) -> None:
        asked = [put(b"k%02d" % number, b"v") for number in range(65)] + [get(b"k40")]
        ended = run_program(b"".join(map(message, asked)), "script", "mem")
        done = [message(b"\x81" + number.to_bytes(8, "big")) for number in range(65)]
        value = bytes.fromhex("0000000e 82 0000000000000041 00000001 76")
        self.assertEqual(ended, Ended(0, b"".join(done) + value, b""))

    def test_random_updates_go_on_through_merges_and_a_reopening(self) -> None:
        source, folder, model = random.Random(1), fresh_folder(self), Session()
        keys = [numbered(number) for number in range(500)]
        for _ in range(2):
            before = list(random_updates(source, keys, 10_000))
            self.assertGreater(sum(map(len, before[1::3])), 1.5 * MERGE_SIZE)
            self.check(folder, model, [*before, *map(get, keys)])

    def test_keys_that_use_up_the_leaves_are_all_found(self) -> None:
        rising = [numbered(number) for number in range(KEYS_OF_A_LEAF * LEAVES + 5_000)]
        for name, keys in (("rising", rising), ("falling", rising[::-1])):
            with self.subTest(name):
                self.check("mem", Session(), puts_and_gets(keys))

    def test_keys_that_use_up_the_trie_are_all_found(self) -> None:
        self.check("mem", Session(), puts_and_gets([filling(number) for number in range(FILLING_KEYS)]))

    def test_keys_that_differ_in_the_last_bytes_alone_are_all_found(self) -> None:
        keys = [b"k" * 1_000 + number.to_bytes(24, "big") for number in range(5_000)]
        random.Random(2).shuffle(keys)
        self.check("mem", Session(), puts_and_gets(keys))

    def test_one_key_may_be_put_and_deleted_for_ever(self) -> None:
        turn = [put(b"k", b"v" * 10_000), get(b"k"), delete(b"k"), get(b"k"), delete(b"k")]
        self.check("mem", Session(), turn * 1_000)

    def test_keys_that_are_absent_may_be_deleted(self) -> None:
        absent = [delete(numbered(number)) for number in range(50_000)]
        self.check("mem", Session(), [put(b"k", b"v"), *absent, get(b"k"), get(numbered(1))])
