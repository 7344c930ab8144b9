"""Ducatsatchel from Python: reading and writing the coded fields of diagnostic messages.

Every call gets an answer or raises a Refusal with a number. A refusal leaves the payload as it came, and so does every other
exception. Bytes to be read may be any bytes-like object; numbers are ints from 0 to 2^64-1, a value and an encoding are any int, and a
bool is no number. What cannot be an argument raises a TypeError, a ValueError or a BufferError that starts with the argument's name.

What surprises is told at `decode` and at `encode`, and with the ways around in the repository's README.md.
"""
import ctypes
import enum
import os
import platform
from typing import NamedTuple, Union

__version__ = "1.4.0"

_MEANINGS = {}


def _numbered(number: int, meaning: str) -> int:
    _MEANINGS[number] = meaning
    return number


# What a call answers: OK, or the number of its refusal. These lines are those of include/dct.h, written by bindings/numbers.
OK = _numbered(0, "the call did what it says")
NUMERIC_WITH_VARIABLE_LENGTH = _numbered(10, "a numeric type whose length the payload would tell")
ODD_UNICODE_LIMITS = _numbered(11, "Unicode2String with an odd minimum, an odd maximum or no maximum")
ZERO_MAXIMUM = _numbered(12, "the maximum is 0")
MAXIMUM_BELOW_MINIMUM = _numbered(13, "the maximum is below the minimum")
BYTE_TYPE_AT_BIT_POSITION = _numbered(20, "a byte type at a bit position that is not 0")
ZERO_BIT_LENGTH = _numbered(21, "the bit length is 0")
INTEGER_TOO_LONG = _numbered(22, "an integer of more than 64 bits")
FLOAT32_LENGTH = _numbered(23, "Float32 of another length than 32 bits")
FLOAT64_LENGTH = _numbered(24, "Float64 of another length than 64 bits")
UNICODE_LENGTH = _numbered(25, "Unicode2String of a length that is no multiple of 16 bits")
BIT_POSITION_ABOVE_SEVEN = _numbered(26, "the bit position is above 7")
BITS_PAST_CUT = _numbered(27, "decode: the field runs past the bytes that its length takes")
NOT_ENOUGH_DATA = _numbered(30, "the payload is too short: expected and actual say by how much")
LENGTH_FIELD_PAST_PAYLOAD = _numbered(31, "the length field runs past the payload")
LENGTH_FIELD_TOO_WIDE = _numbered(32, "the length field has more than 64 bits")
COUNT_TOO_LARGE = _numbered(33, "encode: the byte count needs more bits than the length field has")
SCAN_PAST_PAYLOAD = _numbered(34, "decode: a scan for zero ends past the payload")
EMPTY_UNTIL_END_OF_PDU = _numbered(35, "encode: an empty input where the payload's end would end it")
MASK_LONGER_THAN_LENGTH = _numbered(36, "encode, clear: a condensed mask with more bits than the field")
RUNTIME_LENGTH_NEEDED = _numbered(37, "decode: a parameter gives the length; use dct_read")
EMPTY_LENGTH_FIELD = _numbered(38, "encode: an empty input behind a length field of 0 bits")
NOT_CLEARABLE = _numbered(39, "clear: not a numeric field of a length that the record tells")
PAYLOAD_LACKS_ROOM = _numbered(40, "encode: the payload's slice ends before the field does")
OUTPUT_LACKS_ROOM = _numbered(41, "decode: the output is smaller than what was read")
MALFORMED_RECORD = _numbered(42, "the record is malformed or absent, or its mask or key name is outside the store")
SLICE_TOO_LONG = _numbered(43, "more than 65,535 bytes, or than 32,768 of the store")
USED_PAST_SLICE = _numbered(44, "the used length is above the payload's")
MALFORMED_TABLE = _numbered(45, "the table's mark, version, count, store length or total size is wrong")
WIDTH_NOT_ALLOWED = _numbered(58, "an unknown encoding, a width not allowed, or another byte count than it takes")
VALUE_OUT_OF_RANGE = _numbered(59, "value_write: the value is outside the range of its encoding and width")
DIGIT_ABOVE_NINE = _numbered(60, "value_read: a decimal digit is above 9")
# end of the numbers

_RECORD_LENGTH = 16
# The most bytes that a slice may have; a store has fewer.
_LONGEST = 65535
# The most bytes that a value has.
_VALUE_LENGTH = 8
# The machines by their numbers in an ELF header, and by what Python calls them.
_MACHINES = {62: "x86-64", "x86_64": "x86-64", "AMD64": "x86-64", 183: "aarch64", "aarch64": "aarch64", "arm64": "aarch64"}


class Field(NamedTuple):
    """What describes a field: its record, and the store with the masks and key names that records speak of."""

    record: bytes
    store: bytes = b""


class Reading(NamedTuple):
    """What was read. The bit count follows from the field, and not from how many bytes there are."""

    data: Union[bytes, memoryview]
    bit_count: int


class Class(enum.Enum):
    """The class of a refusal, with the letter of include/dct.h. The first three are the errors of the Rust that the library follows."""

    BAD_PAYLOAD = "B"
    NOT_ENOUGH_DATA = "N"
    INVALID_DATABASE = "D"
    OURS = "P"


class Encoding(enum.IntEnum):
    """How the bits of a value say a number, with the code of include/dct.h. The width w is 2 to 64 bits.

    Two's complement goes from -2^(w-1) to 2^(w-1)-1; one's complement, and sign and magnitude, from -(2^(w-1)-1), and each has a second
    zero, which is read as 0. Packed decimal has a digit in each 4 bits and no sign: from 0 to 10^(w/4)-1, w a multiple of 4.
    """

    TWOS_COMPLEMENT = 1
    ONES_COMPLEMENT = 2
    SIGN_MAGNITUDE = 3
    PACKED_DECIMAL = 4


class Refusal(Exception):
    """Why a call did nothing: its `number`, and what was `expected` and `actual`, which are 0 unless that is NOT_ENOUGH_DATA."""

    def __init__(self, number, expected=0, actual=0):
        super().__init__(number, expected, actual)
        self.number = number
        self.expected = expected
        self.actual = actual

    @property
    def meaning(self):
        """The sentence that include/dct.h has for the number."""
        return _MEANINGS.get(self.number, "an unknown number")

    @property
    def class_(self):
        """The class of the number, as the library tells it; None where the library knows no such refusal."""
        # ctypes would take the lowest 32 bits of any int
        letter = _library.dct_class(self.number) if 0 <= self.number < 1 << 32 else 0
        return next((class_ for class_ in Class if ord(class_.value) == letter), None)

    def __str__(self):
        text = f"refusal {self.number}: {self.meaning}"
        if self.number == NOT_ENOUGH_DATA:
            text += f" (expected {self.expected}, actual {self.actual})"
        return text


class _Report(ctypes.Structure):
    _fields_ = [(name, ctypes.c_size_t) for name in ("bit_count", "byte_count", "expected", "actual")]


def _found():
    """The path of the shared object; ImportError where there is none."""
    named = os.environ.get("DCT_LIBRARY")
    if named:
        path = os.path.abspath(named)
        if not os.path.isfile(path):
            raise ImportError(f"dct: no file {path}, which DCT_LIBRARY names: 'bindings/shared' builds libdct.so")
        return path
    here = os.path.dirname(os.path.abspath(__file__))
    for place in (here, os.path.join(here, "..", "..", "target", "shared")):
        path = os.path.normpath(os.path.join(place, "libdct.so"))
        if os.path.exists(path):
            return path
    places = "beside dct.py nor in target/shared of the repository"
    raise ImportError(f"dct: no libdct.so {places}: 'bindings/shared' builds it; or set DCT_LIBRARY to another")


def _for_this_machine(path, advice):
    """ImportError where a file is code for another machine: the loader would say that there is no such file."""
    with open(path, "rb") as file:
        head = file.read(20)
    if len(head) < 20 or not head.startswith(b"\x7FELF"):
        return
    number = int.from_bytes(head[18:], "big" if head[5] == 2 else "little")
    code, here = _MACHINES.get(number), _MACHINES.get(platform.machine())
    # of two machines that have no name here the loader knows more
    if code != here:
        if code == "x86-64":
            advice = "'library/x86-64 fetch python3' makes a Python that can load it (docs/MACHINES.md)"
        code, here = code or f"machine {number}", here or platform.machine()
        raise ImportError(f"dct: {path} is code for {code}, and this Python runs on {here}: {advice}")


def _loaded():
    """The shared object with its functions declared; ImportError where there is none for this machine and of this version."""
    advice = "'bindings/shared' builds libdct.so, for x86-64; or set DCT_LIBRARY to another"
    path = _found()
    slice_, number, report = [ctypes.c_char_p, ctypes.c_size_t], ctypes.c_size_t, ctypes.POINTER(_Report)
    numbers, code, value = ctypes.POINTER(ctypes.c_size_t), ctypes.c_uint32, ctypes.c_int64
    takes = {
        "dct_decode": [*slice_ * 3, number, number, *slice_, report],
        "dct_encode": [*slice_ * 4, numbers, number, number, report],
        "dct_clear": [*slice_ * 3, number, number, number, report],
        "dct_read": [*slice_ * 3, number, number, numbers, report],
        "dct_fetch": [*slice_, number, numbers],
        "dct_value_read": [code, number, *slice_, ctypes.POINTER(value)],
        "dct_value_write": [code, number, value, *slice_],
        "dct_class": [code],
    }
    try:
        _for_this_machine(path, advice)
        library = ctypes.CDLL(path)
    except OSError as error:
        raise ImportError(f"dct: {error}; {advice}") from None
    for name, types in takes.items():
        if not hasattr(library, name):
            raise ImportError(f"dct: {path} has no {name}: it is of another version than dct.py, {__version__}; {advice}")
        function = getattr(library, name)
        function.argtypes, function.restype = types, ctypes.c_uint32
    return library


_library = _loaded()


def _int(name, value):
    if not isinstance(value, int) or isinstance(value, bool):
        raise TypeError(f"{name} is {type(value).__name__}, not int")
    return value


def _code(encoding):
    # ctypes would take the lowest 32 bits of any int; 0 is no encoding either
    return encoding if 0 <= _int("encoding", encoding) < 1 << 32 else 0


def _number(name, value):
    # ctypes would take the lowest 64 bits of any int, without a word
    _int(name, value)
    if not 0 <= value < 1 << 64:
        # Python writes no number of thousands of digits
        shown = value if value.bit_length() < 1000 else f"an int of {value.bit_length()} bits"
        raise ValueError(f"{name} is {shown}, not from 0 to 2^64-1")
    return value


def _view(name, buffer):
    try:
        return memoryview(buffer)
    except TypeError:
        hint = ": it has the calls itself, and bytes() gives its bytes" if isinstance(buffer, Payload) else ""
        raise TypeError(f"{name} is {type(buffer).__name__}, not bytes-like{hint}") from None
    except (ValueError, BufferError) as error:  # it lends nothing now
        raise type(error)(f"{name}: {error}") from None


def _lent(name, buffer):
    """Pointer and length of a slice, as a call takes them. A copy overlaps nothing, and is not null where it is empty."""
    with _view(name, buffer) as view:
        return [view.tobytes(), view.nbytes]


def _described(field):
    """Pointer and length of a field's record, and of its store."""
    # two bytes could be unpacked too
    if not isinstance(field, (tuple, list)) or len(field) != 2:
        raise TypeError(f"field is {type(field).__name__}, not a Field or a pair of record and store")
    return _lent("field.record", field[0]) + _lent("field.store", field[1])


def _flat(payload, written):
    """A view of all bytes of a payload. Whoever takes it has to release it: a bytearray that is viewed cannot be resized."""
    with _view("payload", payload) as view:
        if written and view.readonly:
            raise TypeError("payload is read-only, and the call writes it: lend a bytearray or another writable buffer")
        if not view.nbytes:
            return memoryview(bytearray())  # a view of no items cannot be cast
        if not view.c_contiguous:
            raise BufferError("payload's bytes do not stand side by side")
        return view.cast("B")


def _room(view):
    """A copy of a payload to be written. It ends in a byte more than is told, so that it is never null."""
    return ctypes.create_string_buffer(view.tobytes(), view.nbytes + 1)


def _answered(number, report):
    if number != OK:
        raise Refusal(number, report.expected, report.actual)


def fetch(table, number):
    """Finds a record of a stored table by its number, from 0, and the table's store."""
    places = (ctypes.c_size_t * 3)()
    lent = _lent("table", table)
    _answered(_library.dct_fetch(*lent, _number("number", number), places), _Report())
    record, store, store_length = places
    return Field(lent[0][record : record + _RECORD_LENGTH], lent[0][store : store + store_length])


def decode(field, payload, byte_pos=0, bit_pos=0, room=65535):
    """Reads the field at a byte and a bit position of the payload. More than `room` bytes are refused.

    The most significant byte comes first, of low-high fields too. A number is right-aligned, and an Int32 is not sign-extended;
    `decode_value` gives a signed number.
    """
    position = [_number("byte_pos", byte_pos), _number("bit_pos", bit_pos)]
    # what is longer is refused alike, and may be more than there is memory for
    room = min(_number("room", room), _LONGEST + 1)
    lent = _described(field) + _lent("payload", payload)
    output, report = ctypes.create_string_buffer(room + 1), _Report()
    number = _library.dct_decode(*lent, *position, output, room, ctypes.byref(report))
    _answered(number, report)
    return Reading(output[: report.byte_count], report.bit_count)


def encode(field, input, payload, used, byte_pos=0, bit_pos=0):
    """Writes the input as the field at a byte and a bit position of the payload, of which `used` bytes are used.

    The payload is a writable buffer and is changed in place; its length is the room there is. Returns the bytes then used.

    The input is most significant byte first, for low-high fields too. In a field of StandardLength a number is right-aligned: a
    short input gets zeros in front, and of a long one the surplus is dropped there. A byte type is left-aligned. Under a condensed
    mask a bit that the input lacks is written as 1. Without a mask the bits are ORed into what is there; `clear` takes a number
    back to zero first. Of 9 or more bits that are no whole bytes some are lost: 12 bits of 0ABC are written as 0A0C. MinMaxLength
    does not look at its limits, and puts the terminator, which is no part of the input, behind it.
    """
    position = [_number("byte_pos", byte_pos), _number("bit_pos", bit_pos)]
    after = ctypes.c_size_t(_number("used", used))
    lent = _described(field) + _lent("input", input)
    report = _Report()
    with _flat(payload, written=True) as view:
        room = _room(view)
        number = _library.dct_encode(*lent, room, view.nbytes, ctypes.byref(after), *position, ctypes.byref(report))
        _answered(number, report)
        view[:] = room[: view.nbytes]
    return after.value


def clear(field, payload, used, byte_pos=0, bit_pos=0):
    """Sets the bits that a numeric field of a given length owns to zero, in place, and no others."""
    numbers = [_number("used", used), _number("byte_pos", byte_pos), _number("bit_pos", bit_pos)]
    lent = _described(field)
    report = _Report()
    with _flat(payload, written=True) as view:
        room = _room(view)
        _answered(_library.dct_clear(*lent, room, view.nbytes, *numbers, ctypes.byref(report)), report)
        view[:] = room[: view.nbytes]


def read(field, payload, byte_pos, byte_count):
    """Finds so many bytes at a byte position of the payload, for a field whose length was read before.

    The data are a memoryview of the payload and not a copy, unordered.
    """
    asked = [_number("byte_pos", byte_pos), _number("byte_count", byte_count)]
    lent = _described(field)
    place, report = ctypes.c_size_t(), _Report()
    with _flat(payload, written=False) as view:
        lent += _lent("payload", view)
        number = _library.dct_read(*lent, *asked, ctypes.byref(place), ctypes.byref(report))
        _answered(number, report)
        return Reading(view[place.value : place.value + report.byte_count], report.bit_count)


def value_read(encoding, width, data):
    """Reads the number that the data say, of so many bits.

    The data are as `decode` gives them: as many bytes as the width takes, the number right-aligned. Bits above the width are ignored.
    """
    asked = [_code(encoding), _number("width", width)]
    value = ctypes.c_int64()
    _answered(_library.dct_value_read(*asked, *_lent("data", data), ctypes.byref(value)), _Report())
    return value.value


def value_write(encoding, width, value):
    """The bytes that say a number, of so many bits.

    They are as `encode` takes them: as many as the width takes, the number right-aligned. Bits above the width are 0, and 0 is written
    as zero bits alone.
    """
    asked = [_code(encoding), _number("width", width)]
    fits = -1 << 63 <= _int("value", value) < 1 << 63
    # a width that takes more is refused with fewer too, and may be more than there is memory for
    size = min((width + 7) // 8, _VALUE_LENGTH)
    room = ctypes.create_string_buffer(size + 1)
    # 0 is in every range, so what is refused before the value is still refused
    _answered(_library.dct_value_write(*asked, value if fits else 0, room, size), _Report())
    if not fits:
        raise Refusal(VALUE_OUT_OF_RANGE)
    return room[:size]


def decode_value(field, encoding, payload, byte_pos=0, bit_pos=0):
    """Reads the field at a byte and a bit position of the payload as a number. Its width is the bit count that `decode` gives.

    Ones of a condensed mask that meet no bit of the field are counted too, and then the number may be another: give such a field
    whole bytes, and its mask no more of them.

    What `decode` refuses with a room of 8 bytes is refused first, and so a field of more bytes is refused with 41. A width that the
    encoding does not allow is refused with 58.
    """
    code = _code(encoding)
    reading = decode(field, payload, byte_pos, bit_pos, _VALUE_LENGTH)
    return value_read(code, reading.bit_count, reading.data)


def encode_value(field, encoding, width, value, payload, used, byte_pos=0, bit_pos=0):
    """Writes a number of so many bits as the field at a byte and a bit position of the payload, as `encode` does with its bytes.

    What `value_write` refuses is refused first, and then what `encode` does. Returns the bytes then used.

    The width is for the caller to tell: a field under a condensed mask holds as many bits as the mask has ones, any other as many as
    its length. Another width is not refused, and what is read back may then be another number. Without a condensed mask 9 or more bits
    that are no whole bytes lose bits, and without any mask a write ORs, as `encode` tells.
    """
    # what is no argument raises before the number is refused
    _number("byte_pos", byte_pos), _number("bit_pos", bit_pos), _number("used", used), _described(field)
    _flat(payload, written=True).release()
    return encode(field, value_write(encoding, width, value), payload, used, byte_pos, bit_pos)


class Payload:
    """A payload that grows by itself, up to the 65,535 bytes that a slice may have; all of its bytes are used.

    Its methods answer and refuse as the functions do: `encode`, `encode_value` and `clear` as on a buffer of that length, `decode`,
    `decode_value` and `read` as on the bytes that it holds. What they hand out are copies, also the data of `read`, so that the
    payload can go on growing.
    """

    __hash__ = None  # it changes

    def __init__(self, data=b""):
        """Takes a copy of the data; more than 65,535 bytes are refused as the calls would refuse them."""
        self._bytes = _lent("data", data)[0]
        if len(self._bytes) > _LONGEST:
            raise Refusal(SLICE_TOO_LONG)

    def _written(self, call, field, what, byte_pos, bit_pos):
        """Has a function write what it is given to the bytes and all the room behind them, and keeps those then used."""
        room = bytearray(self._bytes.ljust(_LONGEST, b"\0"))
        used = call(field, *what, room, len(self._bytes), byte_pos, bit_pos)
        self._bytes = bytes(room[:used])
        return used

    def encode(self, field, input, byte_pos=0, bit_pos=0):
        """Writes the input as the field, as the function does. Returns the bytes then used, which is the length."""
        return self._written(encode, field, [input], byte_pos, bit_pos)

    def encode_value(self, field, encoding, width, value, byte_pos=0, bit_pos=0):
        """Writes a number of so many bits as the field, as the function does. Returns the bytes then used, which is the length."""
        return self._written(encode_value, field, [encoding, width, value], byte_pos, bit_pos)

    def clear(self, field, byte_pos=0, bit_pos=0):
        """Sets the bits that a numeric field of a given length owns to zero, and no others."""
        room = bytearray(self._bytes)
        clear(field, room, len(room), byte_pos, bit_pos)
        self._bytes = bytes(room)

    def decode(self, field, byte_pos=0, bit_pos=0):
        """Reads the field at a byte and a bit position."""
        return decode(field, self._bytes, byte_pos, bit_pos)

    def decode_value(self, field, encoding, byte_pos=0, bit_pos=0):
        """Reads the field at a byte and a bit position as a number."""
        return decode_value(field, encoding, self._bytes, byte_pos, bit_pos)

    def read(self, field, byte_pos, byte_count):
        """Finds so many bytes at a byte position, for a field whose length was read before. The data are a copy, unordered."""
        reading = read(field, self._bytes, byte_pos, byte_count)
        return reading._replace(data=bytes(reading.data))

    def __len__(self):
        return len(self._bytes)

    def __bytes__(self):
        return self._bytes

    def __eq__(self, other):
        try:
            return self._bytes == _lent("other", other._bytes if isinstance(other, Payload) else other)[0]
        except (TypeError, ValueError, BufferError):
            return NotImplemented

    def __repr__(self):
        return f"Payload({self._bytes.hex().upper()})"
