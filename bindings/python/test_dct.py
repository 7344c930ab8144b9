"""Holds dct.py to the stored answers of the Rust, to the cases that all bindings share, to include/dct.h, and to its own promises
on arguments and payloads; and the wheel to what pip asks of one."""
import base64
import contextlib
import copy
import ctypes
import functools
import hashlib
import importlib.util
import inspect
import io
import os
import pickle
import re
import shutil
import struct
import subprocess
import sys
import tempfile
import unittest
import zipfile
from array import array
from pathlib import Path
from typing import NamedTuple
from unittest import mock

import dct
import dct_wheel

BINDINGS = Path(__file__).resolve().parent.parent
ROOT = BINDINGS.parent
U8 = dct.Field(bytes.fromhex("02010300000000080000000000000000"), b"")


class Watched:
    """The shared object, each call of which is held to what include/dct.h asks of a caller."""

    # which slices a call writes
    WRITTEN = {
        "dct_decode": [3],
        "dct_encode": [3],
        "dct_clear": [2],
        "dct_read": [],
        "dct_fetch": [],
        "dct_class": [],
        "dct_value_read": [],
        "dct_value_write": [0],
    }

    def __init__(self, library):
        self.library = library

    def __getattr__(self, name):
        function = getattr(self.library, name)

        def watched(*arguments):
            held(function.argtypes, arguments, self.WRITTEN[name])
            return function(*arguments)

        return watched


def held(types, arguments, written):
    """Fails where a pointer could be null, does not hold what its length says, or could overlap something else.

    What is read has to be `bytes`, which is never null and which no buffer to be written shares; what is written, of ctypes.
    """
    slices = 0
    for i, argument in enumerate(arguments):
        if types[i] is ctypes.c_char_p:
            length = arguments[i + 1]
            if slices in written:
                fits = isinstance(argument, ctypes.Array) and len(argument) >= max(length, 1)
            else:
                fits = type(argument) is bytes and len(argument) == length
            slices += 1
            if not fits:
                raise AssertionError(f"slice {slices} of {length} bytes is passed as {argument!r:.40}")
        elif argument is None:
            raise AssertionError(f"argument {i} is a null pointer")


def setUpModule():
    dct._library = Watched(dct._library)


class Answer(NamedTuple):
    """All that comes of a call; what it has not to do with is 0 or empty."""

    number: int = 0
    expected: int = 0
    actual: int = 0
    bit_count: int = 0
    byte_count: int = 0
    used: int = 0  # after an encode
    place: int = 0  # of a part in the payload
    value: int = 0  # the number that was read
    data: bytes = b""  # what was read; all of the payload after the call; the record; the bytes of a value
    store: bytes = b""


class Case(NamedTuple):
    """A call with its arguments as bytes and ints, its answer, and where they are stored."""

    place: str
    call: str
    arguments: list
    answer: Answer


def place_of(part, payload):
    """Where a part starts in the payload; a copy is anywhere but there."""
    if not isinstance(part, memoryview):
        return None
    start, base = (ctypes.addressof(ctypes.c_char.from_buffer(of)) if len(of) else 0 for of in (part, payload))
    return start - base if len(part) else 0


def answered(call, arguments):
    """Makes a call that has to succeed."""
    if call == "fetch":
        field = dct.fetch(*arguments)
        return Answer(data=field.record, store=field.store)
    if call == "value_read":
        return Answer(value=dct.value_read(*arguments))
    if call == "value_write":
        return Answer(data=dct.value_write(*arguments))
    record, store, *rest = arguments
    field = dct.Field(record, store)
    if call == "decode":
        reading = dct.decode(field, *rest)
        return Answer(data=reading.data, byte_count=len(reading.data), bit_count=reading.bit_count)
    if call == "decode_value":
        return Answer(value=dct.decode_value(field, *rest))
    if call in USED:
        used = getattr(dct, call)(field, *rest)
        return Answer(used=used, data=bytes(arguments[PAYLOAD[call]]))
    if call == "clear":
        dct.clear(field, *rest)
        return Answer(data=bytes(rest[0]))
    reading = dct.read(field, *rest)
    place = place_of(reading.data, rest[0])
    return Answer(place=place, data=bytes(reading.data), byte_count=len(reading.data), bit_count=reading.bit_count)


# Where the payload is among the arguments, for the calls that write or lend it or have it behind an encoding, and where the used
# length is.
PAYLOAD = {"encode": 3, "encode_value": 5, "clear": 2, "read": 2, "decode_value": 3}
USED = {"encode": 4, "encode_value": 6}
# Those that write it.
WRITES = ("encode", "encode_value", "clear")
# The most bytes that a slice may have.
LONGEST = 65535


def unchanged(call, arguments):
    """What a call leaves that does nothing."""
    data = bytes(arguments[PAYLOAD[call]]) if call in WRITES else b""
    return Answer(used=arguments[USED[call]] if call in USED else 0, data=data)


def made(case):
    arguments = list(case.arguments)
    if case.call in PAYLOAD:
        arguments[PAYLOAD[case.call]] = bytearray(arguments[PAYLOAD[case.call]])
    try:
        return answered(case.call, arguments)
    except dct.Refusal as refusal:
        left = unchanged(case.call, arguments)
        return left._replace(number=refusal.number, expected=refusal.expected, actual=refusal.actual)


def far(number, bits):
    """A number of so many bits, of which the upper half stands for the last numbers below 2^64."""
    return number if number < 1 << bits - 1 else number + (1 << 64) - (1 << bits)


HEAD = struct.Struct(">8BIBHBIB")


def stored_answer(place, head, record, store, input, payload, after):
    """A stored answer, in the form that docs/DIFFERENTIAL.md describes."""
    code, number, _, _, _, _, lent, left, byte_pos, bit_pos, bit_count, byte_count, expected, actual = head
    position = [far(byte_pos, 32), far(bit_pos, 8)]
    answer = Answer(number, far(expected, 32), actual, bit_count, byte_count, data=after)
    changed = after + payload[len(after) :]
    if code == 1:
        return Case(place, "decode", [record, store, payload, *position, lent], answer)
    if code == 2:
        answer = answer._replace(used=left, data=changed)
        return Case(place, "encode", [record, store, input, payload, lent, *position], answer)
    if code == 3:
        return Case(place, "clear", [record, store, payload, lent, *position], answer._replace(data=changed))
    if code == 4:
        return Case(place, "read", [record, store, payload, position[0], lent], answer._replace(place=left))
    raise ValueError(f"no call {code}")


@functools.lru_cache(None)
def stored():
    """The stored answers of crates/replay/stdin."""
    listed = (ROOT / "crates/replay/stdin").read_bytes()
    cases, at = [], 0
    while at < len(listed):
        head = HEAD.unpack_from(listed, at)
        at += HEAD.size
        parts = []
        for length in (16, *head[2:6]):
            parts.append(listed[at : at + length])
            at += length
        cases.append(stored_answer(f"stored answer {len(cases)}", head, *parts))
    return cases


def bytes_of(word, names):
    pieces = [] if word == "-" else word.split("+")
    parted = [piece.partition("*") for piece in pieces]
    return b"".join((names[once] if once in names else bytes.fromhex(once)) * int(count or 1) for once, _, count in parted)


# Which arguments of a call are bytes (b) and which are numbers (n), and the same of its answer, by the answer's names.
TAKES = {
    "fetch": "bn",
    "decode": "bbbnnn",
    "encode": "bbbbnnn",
    "clear": "bbbnnn",
    "read": "bbbnn",
    "value_read": "nnb",
    "value_write": "nnn",
    "decode_value": "bbnbnn",
    "encode_value": "bbnnnbnnn",
}
GIVES = {
    "fetch": ["data", "store"],
    "decode": ["bit_count", "data"],
    "encode": ["used", "data"],
    "clear": ["data"],
    "read": ["bit_count", "place", "data"],
    "value_read": ["value"],
    "value_write": ["data"],
    "decode_value": ["value"],
    "encode_value": ["used", "data"],
}


def shared_case(place, line, names):
    """A case of bindings/cases.txt, in the form that its head describes."""
    asked, _, wanted = line.partition(" = ")
    call, *words = asked.split()
    if len(words) != len(TAKES[call]):
        raise ValueError(f"{place}: {call} takes {len(TAKES[call])} words")
    arguments = [bytes_of(word, names) if kind == "b" else int(word) for kind, word in zip(TAKES[call], words)]
    number, *words = wanted.split()
    gives = GIVES[call] if number == "0" else ["expected", "actual"] if number == "30" else []
    if len(words) != len(gives):
        raise ValueError(f"{place}: {number} gives {len(gives)} words")
    given = {name: bytes_of(word, names) if name in ("data", "store") else int(word) for name, word in zip(gives, words)}
    answer = unchanged(call, arguments)._replace(number=int(number), **given)
    if call in ("decode", "read"):
        answer = answer._replace(byte_count=len(answer.data))
    return Case(place, call, arguments, answer)


@functools.lru_cache(None)
def shared():
    """The cases of bindings/cases.txt."""
    names, cases = {}, []
    for number, line in enumerate((BINDINGS / "cases.txt").read_text().splitlines(), 1):
        if line.startswith("name "):
            _, name, meant = line.split()
            names[name] = bytes.fromhex(meant)
        elif line and not line.startswith("#"):
            cases.append(shared_case(f"line {number} of cases.txt", line, names))
    return cases


@functools.lru_cache(None)
def compared(source, call):
    """The cases of a call, each with the answer that was made."""
    return [(case, made(case)) for case in source() if case.call == call]


class Answers(unittest.TestCase):
    """Every call of the stored and the shared cases, each answer compared in full."""

    def hold(self, source, call):
        both = compared(source, call)
        self.assertTrue(both, f"no {call} among the cases")
        different = [(case, answer) for case, answer in both if answer != case.answer]
        shown = [f"{case.place}, {call}\n  gives {answer!s:.400}\n  not   {case.answer!s:.400}" for case, answer in different[:3]]
        self.assertEqual(len(different), 0, f"of {len(both)} cases of {call}\n" + "\n".join(shown))

    def test_stored_decode(self):
        self.hold(stored, "decode")

    def test_stored_encode(self):
        self.hold(stored, "encode")

    def test_stored_clear(self):
        self.hold(stored, "clear")

    def test_stored_read(self):
        self.hold(stored, "read")

    def test_case_fetch(self):
        self.hold(shared, "fetch")

    def test_case_decode(self):
        self.hold(shared, "decode")

    def test_case_encode(self):
        self.hold(shared, "encode")

    def test_case_clear(self):
        self.hold(shared, "clear")

    def test_case_read(self):
        self.hold(shared, "read")

    def test_case_value_read(self):
        self.hold(shared, "value_read")

    def test_case_value_write(self):
        self.hold(shared, "value_write")

    def test_case_decode_value(self):
        self.hold(shared, "decode_value")

    def test_case_encode_value(self):
        self.hold(shared, "encode_value")

    def test_every_number_arises(self):
        self.assertEqual(len(stored()), 20000)
        arose = {answer.number for source in (stored, shared) for call in TAKES for _, answer in compared(source, call)}
        missing = [name for name, number, _ in header() if number not in arose]
        self.assertEqual(missing, [], "these never arose")


def given(call, *arguments):
    try:
        return call(*arguments)
    except dct.Refusal as refusal:
        return refusal.args


def both_ways(case):
    """A call of a Payload, and by the function on the most room there is: what each gives, how much is used, and all bytes."""
    record, store, *rest = case.arguments
    place, writes = PAYLOAD.get(case.call, 2) - 2, case.call in WRITES
    data = rest.pop(place)
    if writes:
        data = data[: rest.pop(place)]
    elif case.call == "decode":
        rest.pop()  # how much room the output has
    data = data[:LONGEST]  # a Payload has no more
    payload, field = dct.Payload(data), dct.Field(record, store)
    by_payload = given(getattr(payload, case.call), field, *rest)
    room = bytearray(data.ljust(LONGEST, b"\0") if writes else data)
    rest[place:place] = [room, len(data)] if writes else [room]
    by_function = given(getattr(dct, case.call), field, *rest)
    used = by_function if writes and type(by_function) is int else len(data)
    return (by_payload, len(payload), bytes(payload).ljust(len(room), b"\0")), (by_function, used, room)


class Growing(unittest.TestCase):
    """A Payload answers as the functions do, and is a value of its own."""

    def hold(self, call, refusals=100):
        refused = 0
        for case in [*stored(), *shared()]:
            if case.call == call:
                by_payload, by_function = both_ways(case)
                refused += type(by_function[0]) is tuple
                if by_payload != by_function:
                    self.fail(f"{case.place}, {call}\n  gives {by_payload!s:.400}\n  not   {by_function!s:.400}")
        self.assertGreater(refused, refusals)

    def test_growing_decode(self):
        self.hold("decode")

    def test_growing_encode(self):
        self.hold("encode")

    def test_growing_clear(self):
        self.hold("clear")

    def test_growing_read(self):
        self.hold("read")

    def test_growing_decode_value(self):
        self.hold("decode_value", 7)

    def test_growing_encode_value(self):
        self.hold("encode_value", 10)

    def test_longest(self):
        payload = dct.Payload()
        self.assertEqual(payload.encode(U8, b"\1", LONGEST - 1), LONGEST)
        self.assertEqual(given(payload.encode, U8, b"\1", LONGEST), (dct.PAYLOAD_LACKS_ROOM, 0, 0))
        self.assertEqual(payload, bytes(LONGEST - 1) + b"\1")
        self.assertEqual(given(dct.Payload, bytes(LONGEST + 1)), (dct.SLICE_TOO_LONG, 0, 0))
        self.assertEqual(len(dct.Payload(bytes(LONGEST))), LONGEST)

    def test_copies(self):
        lent = bytearray(b"\x62\xF1\x90")
        payload = dct.Payload(lent)
        lent[0] = 0
        data = payload.read(U8, 1, 2).data
        self.assertEqual(payload.encode(U8, b"\xFF", 2), 3)
        self.assertEqual((type(data), data), (bytes, b"\xF1\x90"))
        self.assertEqual(bytes(payload), b"\x62\xF1\xFF")
        again = copy.copy(payload)
        again.clear(U8)
        self.assertEqual((bytes(payload), bytes(again)), (b"\x62\xF1\xFF", b"\0\xF1\xFF"))

    def test_value(self):
        payload = dct.Payload(memoryview(b"\x62\0\xF1\0\x90")[::2])
        self.assertEqual((repr(payload), repr(dct.Payload()), len(payload)), ("Payload(62F190)", "Payload()", 3))
        whole = bytes(payload)
        for same in (whole, bytearray(whole), memoryview(whole), array("B", whole), dct.Payload(whole)):
            self.assertTrue(payload == same and same == payload and not payload != same, type(same))
        for other in (b"\x62\xF1", dct.Payload(b"\x62"), "62F190", 3, None, [0x62, 0xF1, 0x90]):
            self.assertTrue(payload != other and not payload == other, other)
        with self.assertRaises(TypeError):
            hash(payload)
        for call, lent in [(dct.decode, [U8]), (dct.decode_value, [U8, dct.Encoding.TWOS_COMPLEMENT])]:
            with self.assertRaisesRegex(TypeError, "^payload is Payload, not bytes-like: it has the calls itself"):
                call(*lent, payload)
        self.assertEqual(dct.Field(U8.record), U8)


def listed(first):
    """Name, number and sentence of each line of an enum of include/dct.h, told by its first name."""
    _, start, behind = (ROOT / "include/dct.h").read_text().partition(f"    DCT_{first} = ")
    numbered = re.findall(r"^ +DCT_(\w+) = (\d+),? +/\* (.*) \*/$", start + behind.partition("\n};")[0], re.MULTILINE)
    return [(name, int(number), sentence) for name, number, sentence in numbered]


def header():
    """Name, number and sentence of each number of include/dct.h."""
    numbered = listed("OK")
    if len(numbered) + len(classes()) + len(encodings()) != (ROOT / "include/dct.h").read_text().count("    DCT_"):
        raise ValueError("a number of include/dct.h has another form")
    return numbered


def encodings():
    """Name and code of each encoding of include/dct.h."""
    return [(name, code) for name, code, _ in listed("TWOS_COMPLEMENT")]


def classes():
    """Name and letter of each class of include/dct.h."""
    return re.findall(r"^ +DCT_CLASS_(\w+) = '(.)'", (ROOT / "include/dct.h").read_text(), re.MULTILINE)


# The column of classes of RULES 10, but for B, which all other refusals have.
CLASSES = {10: "D", 30: "N", 37: "D", **dict.fromkeys([*range(39, 46), *range(58, 61)], "P")}


# Of each encoding the lowest value of 64 bits, and the highest.
RANGES = {1: (-(1 << 63), (1 << 63) - 1), 2: (1 - (1 << 63), (1 << 63) - 1), 3: (1 - (1 << 63), (1 << 63) - 1), 4: (0, 10**16 - 1)}


class Values(unittest.TestCase):
    """Ints that C has no room for, and encodings by name."""

    def refuses(self, number, call, *arguments):
        self.assertEqual(given(call, *arguments), (number, 0, 0), (call.__name__, arguments[:2]))

    def each(self, number, *asked):
        """A write that is refused, of a value and of a field; the message stays."""
        self.refuses(number, dct.value_write, *asked)
        room, message = bytearray(b"\x5A" * 8), dct.Payload(b"\x5A")
        self.refuses(number, dct.encode_value, U8, *asked, room, 0)
        self.refuses(number, message.encode_value, U8, *asked)
        self.assertEqual((room, message), (b"\x5A" * 8, b"\x5A"))

    def test_value_outside_64_bits(self):
        # each but the first two has lowest 64 bits that are in every range
        for code, (lowest, highest) in RANGES.items():
            for value in (lowest - 1, highest + 1, 1 << 64, -(1 << 64), (1 << 64) + 1, 1 << 65, -(1 << 100), 10**5000):
                self.each(dct.VALUE_OUT_OF_RANGE, code, 64, value)
                self.each(dct.VALUE_OUT_OF_RANGE, code, 8, value)
                # what else is wrong is told first
                self.each(dct.WIDTH_NOT_ALLOWED, code, 65, value)
                self.each(dct.WIDTH_NOT_ALLOWED, code + 4, 64, value)
            for value in (lowest, highest):
                self.assertEqual(dct.value_read(code, 64, dct.value_write(code, 64, value)), value)

    def test_encoding_outside_32_bits(self):
        # each but the last has lowest 32 bits that are the code of an encoding
        for code in ((1 << 32) + 1, (1 << 64) + 1, 1 - (1 << 32), (1 << 100) + 4, -1):
            self.each(dct.WIDTH_NOT_ALLOWED, code, 8, 1)
            self.refuses(dct.WIDTH_NOT_ALLOWED, dct.value_read, code, 8, b"\1")
            self.refuses(dct.SLICE_TOO_LONG, dct.value_read, code, 8, bytes(LONGEST + 1))
            self.refuses(dct.WIDTH_NOT_ALLOWED, dct.decode_value, U8, code, b"\1")
            self.refuses(dct.WIDTH_NOT_ALLOWED, GROWING.decode_value, U8, code)

    def test_encoding_before_the_field(self):
        # the payload is too short, so that the field would be refused
        for call, lent in [(dct.decode_value, [b""]), (dct.Payload().decode_value, [])]:
            with self.assertRaisesRegex(TypeError, "^encoding is str, not int"):
                call(U8, "1", *lent)
            self.assertEqual(given(call, U8, 5, *lent), (dct.NOT_ENOUGH_DATA, 1, 0))

    def test_more_width_than_memory(self):
        for width in (65, 1 << 32, 1 << 60, (1 << 64) - 1):
            for encoding in dct.Encoding:
                self.each(dct.WIDTH_NOT_ALLOWED, encoding, width, 0)
                self.refuses(dct.WIDTH_NOT_ALLOWED, dct.value_read, encoding, width, bytes(8))

    def test_encoding_by_name(self):
        patterns = {"TWOS_COMPLEMENT": b"\xFB", "ONES_COMPLEMENT": b"\xFA", "SIGN_MAGNITUDE": b"\x85"}
        message, room = dct.Payload(b"\x62"), bytearray(4)
        for place, (name, pattern) in enumerate(patterns.items(), 1):
            encoding = dct.Encoding[name]
            self.assertEqual(dct.value_write(encoding, 8, -5), pattern)
            self.assertEqual(message.encode_value(U8, encoding, 8, -5, place), place + 1)
            self.assertEqual(dct.encode_value(U8, encoding, 8, -5, room, place, place), place + 1)
            self.assertEqual(message.decode_value(U8, encoding, place), -5)
            self.assertEqual(dct.decode_value(U8, encoding, room, byte_pos=place), -5)
        self.assertEqual((bytes(message), room), (b"\x62\xFB\xFA\x85", b"\0\xFB\xFA\x85"))
        self.assertIs(type(dct.value_write(dct.Encoding.PACKED_DECIMAL, 16, 2026)), bytes)
        self.assertEqual(dct.value_read(dct.Encoding.PACKED_DECIMAL, 16, bytearray(b"\x20\x26")), 2026)


class Numbers(unittest.TestCase):
    """The numbers, their sentences, and a refusal as text."""

    def test_numbers_of_the_header(self):
        ours = {name: value for name, value in vars(dct).items() if re.fullmatch("[A-Z][A-Z0-9_]*", name)}
        self.assertEqual(ours, {name: number for name, number, _ in header()})
        for _, number, sentence in header():
            self.assertEqual(dct.Refusal(number).meaning, sentence)

    def test_classes_of_the_numbers(self):
        self.assertEqual([(class_.name, class_.value) for class_ in dct.Class], classes())
        refusals = {number for _, number, _ in header()} - {dct.OK}
        edges = [(1 << bit) + more for bit in range(32) for more in (-1, 0, 10, 30)]
        for number in [*range(1001), *edges, *range((1 << 32) - 256, 1 << 32)]:
            letter = CLASSES.get(number, "B") if number in refusals else None
            class_ = dct.Refusal(number).class_
            self.assertEqual(class_ and class_.value, letter, number)
            self.assertEqual(class_ is None, dct._library.dct_class(number) == 0, number)
        for number in ((1 << 32) + 10, 30 - (1 << 32)):
            self.assertIsNone(dct.Refusal(number).class_, number)

    def test_encodings_of_the_header(self):
        self.assertEqual([(encoding.name, encoding.value) for encoding in dct.Encoding], encodings())

    def test_refusal_as_text(self):
        short = "refusal 30: the payload is too short: expected and actual say by how much (expected 5, actual 2)"
        self.assertEqual(str(dct.Refusal(30, 5, 2)), short)
        self.assertEqual(str(dct.Refusal(12)), "refusal 12: the maximum is 0")
        self.assertEqual(str(dct.Refusal(77)), "refusal 77: an unknown number")

    def test_refusal_copied(self):
        refusal = dct.Refusal(30, 5, 2)
        for again in (pickle.loads(pickle.dumps(refusal)), copy.copy(refusal), copy.deepcopy(refusal)):
            self.assertEqual((type(again), vars(again), str(again)), (dct.Refusal, vars(refusal), str(refusal)))

    def test_unknown_number(self):
        class Later:
            """A library with a number that dct.py does not know."""

            dct_clear = staticmethod(lambda *_: 77)

        self.addCleanup(setattr, dct, "_library", dct._library)
        dct._library = Later
        with self.assertRaises(dct.Refusal) as caught:
            dct.clear(U8, bytearray(1), 1)
        self.assertEqual(caught.exception.number, 77)


GROWING = dct.Payload(b"\x5A\x5A")
# Each call with arguments that would be taken; a payload of two bytes to be written is at the ellipsis. The last two have a width
# that is refused, but only after what is no argument.
CALLS = [
    (dct.fetch, [b"DCT\0\1\0\1\0\0" + U8.record, 0]),
    (dct.decode, [U8, b"\1\2", 0, 0, 4]),
    (dct.encode, [U8, b"\1", ..., 2, 0, 0]),
    (dct.clear, [U8, ..., 2, 0, 0]),
    (dct.read, [U8, b"\1\2", 0, 1]),
    (dct.value_read, [1, 8, b"\1"]),
    (dct.value_write, [1, 8, 1]),
    (dct.decode_value, [U8, 1, b"\1\2", 0, 0]),
    (dct.encode_value, [U8, 1, 8, 1, ..., 2, 0, 0]),
    (dct.Payload, [b"\1"]),
    (GROWING.encode, [U8, b"\1", 0, 0]),
    (GROWING.encode_value, [U8, 1, 8, 1, 0, 0]),
    (GROWING.decode_value, [U8, 1, 0, 0]),
    (GROWING.clear, [U8, 0, 0]),
    (GROWING.decode, [U8, 0, 0]),
    (GROWING.read, [U8, 0, 1]),
    (dct.encode_value, [U8, 1, 65, 1, ..., 2, 0, 0]),
    (GROWING.encode_value, [U8, 1, 65, 1, 0, 0]),
]
# What an argument has to be, by its name; all others are numbers.
KINDS = {
    "field": "field",
    "table": "bytes",
    "payload": "bytes",
    "input": "bytes",
    "data": "bytes",
    "encoding": "int",
    "value": "int",
}


class Arguments(unittest.TestCase):
    """What is no argument raises before the call, and what is one keeps the duties of a caller."""

    def refuses(self, error, said, call, *arguments):
        payload, raised = bytearray(b"\x5A\x5A"), None
        try:
            call(*[payload if argument is Ellipsis else argument for argument in arguments])
        except Exception as caught:
            raised = caught
        self.assertIsInstance(raised, error, f"{call.__name__} has not said: {said}")
        self.assertTrue(str(raised).startswith(said), f"{call.__name__} says: {raised}, not: {said}")
        self.assertEqual(payload, b"\x5A\x5A")
        self.assertEqual(GROWING, b"\x5A\x5A")
        self.grow(payload)

    def grow(self, payload):
        try:
            payload.append(0)
        except BufferError:
            self.fail("the payload is still viewed")

    def each(self, kind, wrong, error, said):
        """Puts what is wrong in the place of each argument of a kind, in each call; what is said starts with its name."""
        for call, arguments in CALLS:
            names = list(inspect.signature(call).parameters)
            self.assertEqual(len(names), len(arguments), call.__name__)
            for place, name in enumerate(names):
                if KINDS.get(name, "number") == kind:
                    self.refuses(error, f"{name}{said}", call, *arguments[:place], wrong, *arguments[place + 1 :])

    def test_not_a_number(self):
        # each would do something, were it taken by its lowest 64 bits
        for wrong in (-1, 1 << 64, -(1 << 64) + 1, (1 << 64) + 1):
            self.each("number", wrong, ValueError, f" is {wrong}, not from 0 to 2^64-1")
        # of more digits than Python writes
        self.each("number", -(10**5000), ValueError, " is an int of 16610 bits, not from 0 to 2^64-1")
        for wrong in (1.0, "1", b"1", None):
            self.each("number", wrong, TypeError, f" is {type(wrong).__name__}, not int")
            self.each("int", wrong, TypeError, f" is {type(wrong).__name__}, not int")

    def test_bool_is_no_number(self):
        for wrong in (True, False):
            self.each("number", wrong, TypeError, " is bool, not int")
            self.each("int", wrong, TypeError, " is bool, not int")

    def test_not_bytes(self):
        released = memoryview(b"\1")
        released.release()
        self.each("bytes", released, ValueError, ": ")
        for wrong in (5, [1], "text", None, dct.Payload(b"\1")):
            said = f" is {type(wrong).__name__}, not bytes-like"
            self.each("bytes", wrong, TypeError, said)
            self.each("field", dct.Field(wrong, b""), TypeError, f".record{said}")
            self.each("field", [U8.record, wrong], TypeError, f".store{said}")

    def test_not_a_field(self):
        # the first three could be unpacked as a pair
        for wrong in (b"\1\2", "12", {1: 2, 3: 4}, U8.record, None, 5, (U8.record,), (*U8, b""), []):
            self.each("field", wrong, TypeError, f" is {type(wrong).__name__}, not a Field or a pair of record and store")

    def test_read_only_payload(self):
        # used lengths and a width that would be refused: the payload is looked at first
        said = "payload is read-only, and the call writes it: lend a bytearray or another writable buffer"
        for payload in (b"\1", memoryview(b"\1"), memoryview(bytearray(1)).toreadonly(), b""):
            self.refuses(TypeError, said, dct.encode, U8, b"\2", payload, 9)
            self.refuses(TypeError, said, dct.encode_value, U8, 1, 65, 2, payload, 9)
            self.refuses(TypeError, said, dct.clear, U8, payload, 9)

    def test_payload_in_steps(self):
        whole, said = bytearray(b"\x5A" * 8), "payload's bytes do not stand side by side"
        for payload in (memoryview(whole)[::2], memoryview(whole)[::-1]):
            self.refuses(BufferError, said, dct.encode, U8, b"\2", payload, 1)
            self.refuses(BufferError, said, dct.encode_value, U8, 1, 65, 2, payload, 1)
            self.refuses(BufferError, said, dct.clear, U8, payload, 1)
            self.refuses(BufferError, said, dct.read, U8, payload, 0, 1)
        self.assertEqual(whole, b"\x5A" * 8)
        self.assertEqual(dct.decode(U8, memoryview(b"\1\2\3\4")[1::2], 1).data, b"\4")

    def test_kinds_of_buffers(self):
        words = array("H", [0, 0])
        self.assertEqual(dct.encode(U8, array("B", [7]), words, 0, 3), 4)
        self.assertEqual(words.tobytes(), b"\0\0\0\7")
        self.assertEqual(dct.read(U8, words, 2, 2).data, b"\0\7")
        raw = ctypes.create_string_buffer(b"\xFF\xFF", 2)
        dct.clear(U8, raw, 2, 1)
        self.assertEqual(raw.raw, b"\xFF\0")
        whole = bytearray(b"\xFF" * 4)
        dct.clear(U8, memoryview(whole)[1:3], 2, 1)
        self.assertEqual(whole, b"\xFF\xFF\0\xFF")

    def test_empty_buffers(self):
        for empty in (bytearray(), array("H"), memoryview(bytearray(4))[2:2], memoryview(bytearray(4))[::2][1:1]):
            field = dct.Field(U8.record, empty)
            for call, arguments, number in [
                (dct.fetch, [empty, 0], 45),
                (dct.decode, [field, empty], 30),
                (dct.decode, [field, b"\1", 0, 0, 0], 41),
                (dct.encode, [field, empty, empty, 0], 40),
                (dct.clear, [field, empty, 0], 30),
                (dct.read, [field, empty, 0, 1], 30),
            ]:
                with self.assertRaises(dct.Refusal) as caught:
                    call(*arguments)
                self.assertEqual(caught.exception.number, number, call.__name__)
            self.assertEqual(dct.read(field, empty, 9, 0), (b"", 0))

    def test_one_buffer_for_all(self):
        # record, store, input and payload are the same bytes: the input's last byte is written in front of a record
        all_of_it = bytearray(U8.record[:15] + b"\x00")
        self.assertEqual(dct.encode((all_of_it, all_of_it), memoryview(all_of_it)[:8], all_of_it, 16, 4), 16)
        self.assertEqual(all_of_it, U8.record[:4] + b"\x08" + U8.record[5:])
        all_of_it[4] = 0
        dct.clear((all_of_it, all_of_it), all_of_it, 16, 0)
        self.assertEqual(all_of_it, b"\0" + U8.record[1:])

    def test_payload_can_be_resized(self):
        payload = bytearray(1)
        dct.encode(U8, b"\1", payload, 0)
        self.grow(payload)
        # inside the except clause the refusal still holds the frames that it came through
        for call, arguments in [
            (dct.encode, [U8, b"\1", payload, 0, 9]),
            (dct.clear, [U8, payload, 0, 9]),
            (dct.read, [U8, payload, 9, 1]),
            (dct.decode, [U8, payload, 9]),
        ]:
            try:
                call(*arguments)
            except dct.Refusal:
                self.grow(payload)
        self.assertEqual(payload, b"\1" + bytes(5))

    def test_read_is_a_view(self):
        payload = bytearray(b"\1\2\3\4")
        data = dct.read(U8, payload, 1, 2).data
        payload[1] = 9
        self.assertEqual(data, b"\x09\3")

    def test_more_room_than_memory(self):
        with self.assertRaises(dct.Refusal) as caught:
            dct.decode(U8, b"\1", room=(1 << 64) - 1)
        self.assertEqual(caught.exception.number, dct.SLICE_TOO_LONG)


def imported(path, library=None):
    """dct.py loaded anew from a path, with a shared object named or not."""
    before = os.environ.pop("DCT_LIBRARY", None)
    if library is not None:
        os.environ["DCT_LIBRARY"] = str(library)
    try:
        spec = importlib.util.spec_from_file_location("dct_again", path)
        module = importlib.util.module_from_spec(spec)
        spec.loader.exec_module(module)
    finally:
        os.environ.pop("DCT_LIBRARY", None)
        if before is not None:
            os.environ["DCT_LIBRARY"] = before
    return module


class Import(unittest.TestCase):
    """Where the shared object is looked for, and what is said where there is none."""

    SOURCE = Path(dct.__file__)
    BUILT = ROOT / "target/shared/libdct.so"
    ADVICE = "'bindings/shared' builds libdct.so, for x86-64; or set DCT_LIBRARY to another"

    def setUp(self):
        folder = tempfile.TemporaryDirectory()
        self.addCleanup(folder.cleanup)
        self.alone = Path(folder.name, "a", "b", "dct.py")
        self.alone.parent.mkdir(parents=True)
        shutil.copy(self.SOURCE, self.alone)

    def loads(self, path, library, loaded):
        self.assertEqual(os.path.realpath(imported(path, library)._library._name), os.path.realpath(loaded))

    def test_library_found(self):
        self.loads(self.SOURCE, None, self.BUILT)
        self.loads(self.alone, self.BUILT, self.BUILT)
        beside = shutil.copy(self.BUILT, self.alone.parent)
        self.loads(self.alone, None, beside)
        self.loads(self.alone, self.BUILT, self.BUILT)

    def says(self, library, said):
        with self.assertRaises(ImportError) as caught:
            imported(self.alone, library)
        self.assertEqual(str(caught.exception), said)
        self.assertNotIn("\n", said)

    def copied(self, change):
        """The path of a copy of the shared object with changed bytes."""
        path = self.alone.with_name("changed.so")
        path.write_bytes(change(self.BUILT.read_bytes()))
        return path

    def test_library_missing(self):
        places = "no libdct.so beside dct.py nor in target/shared of the repository"
        self.says(None, f"dct: {places}: 'bindings/shared' builds it; or set DCT_LIBRARY to another")
        for none in (self.alone.with_name("nowhere.so"), self.alone.parent):
            self.says(none, f"dct: no file {none}, which DCT_LIBRARY names: 'bindings/shared' builds libdct.so")
        self.says(self.alone, f"dct: {self.alone}: invalid ELF header; {self.ADVICE}")
        lacking = self.copied(lambda data: data.replace(b"dct_read", b"dct_rest"))
        version = f"it is of another version than dct.py, {dct.__version__}"
        self.says(lacking, f"dct: {lacking} has no dct_read: {version}; {self.ADVICE}")

    def test_library_for_another_machine(self):
        # the order of bytes, the machine's number, and how it is told
        for order, number, code in [(1, b"\xB7\0", "aarch64"), (1, b"\xF3\0", "machine 243"), (2, b"\0\x15", "machine 21")]:
            other = self.copied(lambda data: data[:5] + bytes([order]) + data[6:18] + number + data[20:])
            self.says(other, f"dct: {other} is code for {code}, and this Python runs on x86-64: {self.ADVICE}")
        emulated = "'library/x86-64 fetch python3' makes a Python that can load it (docs/MACHINES.md)"
        for machine, here in [("aarch64", "aarch64"), ("arm64", "aarch64"), ("riscv64", "riscv64")]:
            with mock.patch("platform.machine", return_value=machine):
                self.says(self.BUILT, f"dct: {self.BUILT} is code for x86-64, and this Python runs on {here}: {emulated}")
        with mock.patch("platform.machine", return_value="AMD64"):
            self.loads(self.alone, self.BUILT, self.BUILT)


class Wheel(unittest.TestCase):
    """The wheel has what pip asks of one, and works where there is no repository."""

    NAME = f"dct-{dct.__version__}-py3-none-linux_x86_64.whl"
    INFO = f"dct-{dct.__version__}.dist-info"
    MAKES = f"""#!/bin/sh\necho made\ncd "$(dirname "$0")/.." && mkdir -p target/shared && cp '{Import.BUILT}' target/shared\n"""

    def setUp(self):
        folder = tempfile.TemporaryDirectory()
        self.addCleanup(folder.cleanup)
        self.folder = Path(folder.name).resolve()

    def python(self, *arguments, **more):
        """Runs Python in a folder where nothing of the repository is found, unless more of the environment says where."""
        environment = {name: value for name, value in os.environ.items() if name not in ("DCT_LIBRARY", "PYTHONPATH")}
        environment.update((name, str(value)) for name, value in more.items())
        # an emulated Python cannot start itself
        pipe, command = subprocess.PIPE, [os.environ.get("DCT_PYTHON", sys.executable), *map(str, arguments)]
        return subprocess.run(command, cwd=str(self.folder), env=environment, stdout=pipe, stderr=pipe, universal_newlines=True)

    def repository(self, script):
        """A repository with nothing but the licence, the folder of dct.py, and a script in the place of bindings/shared."""
        python = self.folder / "repository/bindings/python"
        shutil.copytree(str(BINDINGS / "python"), str(python))
        for name in ("LICENSE", "NOTICE"):
            (self.folder / "repository" / name).write_text(f"the {name}")
        (python.parent / "shared").write_text(script)
        (python.parent / "shared").chmod(0o755)
        return python / "dct_wheel.py"

    def works(self, folder):
        """What is in a folder can be imported there, takes the library that it brought, and decodes."""
        program = "import dct; print(dct.__file__, dct._library._name, dct.decode(dct.Field(%r, b''), b'5Z', 1).data)" % U8.record
        ran = self.python("-c", program, PYTHONPATH=folder)
        self.assertEqual((ran.stdout, ran.stderr), (f"{folder}/dct/__init__.py {folder}/dct/libdct.so b'Z'\n", ""))

    @staticmethod
    def recorded(file):
        """The line that RECORD has to have of a file; of itself it has no more than the name."""
        name, data = file
        if data is None:
            return f"{name},,"
        return f"{name},sha256={base64.urlsafe_b64encode(hashlib.sha256(data).digest()).decode().rstrip('=')},{len(data)}"

    def test_wheel(self):
        maker, wheels = self.repository(self.MAKES), []
        for folder, library in [("one", {}), ("two", {"DCT_LIBRARY": Import.BUILT})]:
            ran = self.python(maker, folder, **library)
            self.assertEqual((ran.stdout, ran.stderr), (f"{folder}/{self.NAME}\n", "" if library else "made\n"))
            wheels.append((self.folder / folder / self.NAME).read_bytes())
        self.assertEqual(wheels[0], wheels[1])
        with zipfile.ZipFile(str(self.folder / "one" / self.NAME)) as archive:
            files = {name: archive.read(name) for name in archive.namelist()}
            archive.extractall(str(self.folder / "apart"))
        lines = files[f"{self.INFO}/RECORD"].decode().splitlines()
        files[f"{self.INFO}/RECORD"] = None
        self.assertEqual(sorted(lines), sorted(map(self.recorded, files.items())))
        names = [f"{self.INFO}/{name}" for name in ("LICENSE", "METADATA", "NOTICE", "RECORD", "WHEEL")]
        self.assertEqual(sorted(files), [*names, "dct/__init__.py", "dct/libdct.so"])
        self.assertIn(f"\nName: dct\nVersion: {dct.__version__}\n", files[f"{self.INFO}/METADATA"].decode())
        self.assertIn("\nTag: py3-none-linux_x86_64\n", files[f"{self.INFO}/WHEEL"].decode())
        self.works(self.folder / "apart")

    @unittest.skipUnless(importlib.util.find_spec("pip"), "this Python has no pip")
    def test_pip_install(self):
        source = self.repository(self.MAKES).parent
        before = sorted(source.rglob("*"))
        pip = ["-m", "pip", "--isolated", "--disable-pip-version-check", "install", "--no-index", "--no-cache-dir", "--target"]
        ran = self.python(*pip, self.folder / "there", source, PYTHONDONTWRITEBYTECODE=1)
        self.assertEqual(ran.returncode, 0, ran.stdout + ran.stderr)
        self.assertEqual(sorted(source.rglob("*")), before)
        self.works(self.folder / "there")

    def test_no_wheel(self):
        maker = self.repository("#!/bin/sh\necho why >&2\nexit 3\n")
        shared, nowhere = maker.parent.parent / "shared", self.folder / "nowhere.so"
        ran = self.python(maker, "none")
        self.assertEqual((ran.returncode, ran.stderr), (3, "why\n"))
        shared.unlink()
        alone = f"dct: no {shared}: the wheel is made in the repository, or DCT_LIBRARY names a libdct.so"
        named = f"dct: no file {nowhere}, which DCT_LIBRARY names: 'bindings/shared' builds libdct.so"
        for library, said in [({}, alone), ({"DCT_LIBRARY": nowhere}, named)]:
            ran = self.python(maker, "none", **library)
            self.assertEqual((ran.returncode, ran.stderr), (1, f"{said}\n"))
        self.assertEqual(list((self.folder / "none").iterdir()), [])

    def test_no_wheel_for_another_machine(self):
        with mock.patch("platform.machine", return_value="aarch64"), self.assertRaises(SystemExit) as caught:
            dct_wheel.build_wheel(str(self.folder))
        said = "dct: the library is x86-64 code, and this machine is aarch64: see docs/MACHINES.md"
        self.assertEqual(str(caught.exception), said)

    def test_no_sdist(self):
        with self.assertRaises(dct_wheel.UnsupportedOperation) as caught:
            dct_wheel.build_sdist(str(self.folder))
        self.assertIn("there is no sdist", str(caught.exception))


class Readme(unittest.TestCase):
    """The examples of bindings/README.md and of README.md."""

    def ran(self, page):
        """What the example of a page prints, and its lines."""
        (example,) = re.findall(r"^```python[^\n]*\n(.*?)^```$", page.read_text(), re.MULTILINE | re.DOTALL)
        with contextlib.redirect_stdout(io.StringIO()) as printed:
            exec(compile(example, str(page), "exec"), {})
        return printed.getvalue(), example

    def test_readme_example(self):
        self.assertIn("assert ", self.ran(BINDINGS / "README.md")[1])
        page = ROOT / "README.md"
        printed = self.ran(page)[0]
        self.assertIn("bytes used", printed)
        self.assertIn(f"first.py\n{printed}", page.read_text())


if __name__ == "__main__":
    unittest.main()
