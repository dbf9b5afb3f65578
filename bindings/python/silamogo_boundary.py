"""What silamogo.py needs of ctypes: the shared library with its calls, and the memory of objects while it is lent."""

import ctypes
import os
from array import array
from itertools import repeat
from operator import index
from pathlib import Path

SENTENCES = {
    1: "a NaN has no number to convert, and no key",
    2: "an infinity has no place in an integer kind",
    3: "a number with a fraction has no place in an integer kind",
    4: "the number lies outside the kind's range",
    5: "the float kind has no such number",
    6: "the bounds aren't lower <= upper",
    7: "the kinds or shapes don't fit each other or the call",
    8: "a NaN has no order",
    9: "the lengths don't fit, or bytes are left over",
    10: "the buffer is shorter than the key",
    11: "a record has 1 to 12 fields",
    12: "no record has this key",
    13: "minus zero, the mark of a masked pixel, has no place in an integer kind",
}


class Refusal(Exception):
    """Why a call gave no result: the first rule of its list that holds, and the index of the first field or sample it holds for, else 0."""

    def __init__(self, number, place):
        super().__init__(number, place)
        self.number = number
        self.place = place

    def __str__(self):
        sentence = SENTENCES.get(self.number, "a refusal that has no sentence here")
        return f"refused with {self.number} at {self.place}: {sentence}"


# What the boundary gives and takes, as include/silamogo.h has it.


class _Sample(ctypes.Structure):
    _fields_ = [("kind", ctypes.c_uint8), ("bits", ctypes.c_uint64)]


def _answer(*result):
    fields = [("number", ctypes.c_uint8), ("place", ctypes.c_size_t), *result]
    return type("_Answer", (ctypes.Structure,), {"_fields_": fields})


_Done = _answer()
_Ordered = _answer(("order", ctypes.c_uint8))
_Classed = _answer(("class_", ctypes.c_uint8))
_Positioned = _answer(("position", ctypes.c_int64))
_Sampled = _answer(("kind", ctypes.c_uint8), ("bits", ctypes.c_uint64))
_Measured = _answer(("length", ctypes.c_size_t))

_SLICE = [ctypes.c_void_p, ctypes.c_size_t]

_CALLS = {
    "classify": (_Classed, [_Sample]),
    "position": (_Positioned, [_Sample]),
    "compare": (_Ordered, [_Sample] * 2),
    "total_order": (_Ordered, [_Sample] * 2),
    "min": (_Sampled, [_Sample] * 2),
    "max": (_Sampled, [_Sample] * 2),
    "clamp": (_Sampled, [_Sample] * 3),
    "convert": (_Sampled, [_Sample, ctypes.c_uint8]),
    "row_clamp": (_Done, [*_SLICE, ctypes.c_float, ctypes.c_float]),
    "row_u8_to_u16": (_Done, _SLICE * 2),
    "row_u16_to_u8": (_Done, _SLICE * 2),
    "row_u16_to_f32": (_Done, _SLICE * 2),
    "row_f32_to_u16": (_Done, _SLICE * 2),
    "record_compare": (_Ordered, _SLICE * 4),
    "key_write": (_Measured, _SLICE * 3),
    "key_read": (_Done, _SLICE * 3),
}


def _library():
    here = Path(__file__).resolve().parent
    named = os.environ.get("SILAMOGO_LIBRARY")
    places = [Path(named)] if named else [here / "libsilamogo.so", here / "../../target/libsilamogo.so"]
    for place in places:
        if place.exists():
            return ctypes.CDLL(str(place.resolve()))
    raise ImportError("libsilamogo.so is in none of: " + ", ".join(map(str, places)))


_calls = _library()
for _name, (_result, _arguments) in _CALLS.items():
    _call = getattr(_calls, "silamogo_" + _name)
    _call.restype, _call.argtypes = _result, _arguments


def ask(name, *arguments):
    """What the boundary's call answers, unless it refuses."""
    answer = getattr(_calls, "silamogo_" + name)(*arguments)
    if answer.number:
        raise Refusal(answer.number, answer.place)
    return answer


def word(number, bits):
    """An integer of so many bits; ctypes would cut a longer one."""
    number = index(number)
    if not 0 <= number < 1 << bits:
        raise OverflowError(f"{number} is not a number of {bits} bits")
    return number


def words(numbers, bits):
    """Integers of 8 or 64 bits in a row."""
    numbers = [word(number, bits) for number in numbers]
    return ({8: ctypes.c_uint8, 64: ctypes.c_uint64}[bits] * len(numbers))(*numbers)


def parts(s):
    """The kind and the bits of a sample."""
    try:
        return s.kind, s.bits
    except AttributeError:
        raise TypeError(f"a sample is taken, not {s!r}") from None


def passed(s):
    kind, bits = parts(s)
    return _Sample(word(kind, 8), word(bits, 64))


# Lent memory.


class _Buffer(ctypes.Structure):
    """CPython's Py_buffer."""

    _fields_ = [
        ("buf", ctypes.c_void_p), ("obj", ctypes.c_void_p), ("len", ctypes.c_ssize_t), ("itemsize", ctypes.c_ssize_t),
        ("readonly", ctypes.c_int), ("ndim", ctypes.c_int), ("format", ctypes.c_char_p), ("shape", ctypes.POINTER(ctypes.c_ssize_t)),
        ("strides", ctypes.c_void_p), ("suboffsets", ctypes.c_void_p), ("internal", ctypes.c_void_p),
    ]


_WRITABLE, _FORMAT, _CONTIGUOUS = 0x1, 0x4, 0x38
_get_buffer = ctypes.pythonapi.PyObject_GetBuffer
_get_buffer.argtypes = [ctypes.py_object, ctypes.POINTER(_Buffer), ctypes.c_int]
_release_buffer = ctypes.pythonapi.PyBuffer_Release
_release_buffer.argtypes = [ctypes.POINTER(_Buffer)]

_BYTES = {"B": 1, "H": 2, "f": 4, "Q": 8}  # of an item, by its format


class Row:
    """An object's memory while it is lent: BufferError unless it is contiguous, and writable where it is to be written.

    bytes, bytearray and memoryviews of them are raw: their bytes are items of any kind, and in one dimension they have no shape. Every other
    object says of what items it is, and these have to be the row's own."""

    def __init__(self, row, item, writable=False):
        self.buffer, self.item, self.size = _Buffer(), item, _BYTES[item]
        self.raw = isinstance(row.obj if isinstance(row, memoryview) else row, (bytes, bytearray))
        _get_buffer(row, self.buffer, _CONTIGUOUS | _FORMAT | (_WRITABLE if writable else 0))

    def __enter__(self):
        return self

    def __exit__(self, *_):
        _release_buffer(self.buffer)

    @property
    def format(self):
        """Of an item, without the sign of this machine's byte order; `L`, which is NumPy's u64, as `Q`."""
        given = (self.buffer.format or b"B").decode()
        given = given[1:] if given[0] in "@=<" else given
        return "Q" if given == "L" else given

    @property
    def slice(self):
        """Pointer and length; TypeError for items of another kind, ValueError for bytes that aren't whole or aligned items."""
        own = self.format == self.item and self.buffer.itemsize == self.size
        if not own and not (self.raw and self.format == "B"):
            raise TypeError(f"a row of items {self.format!r}, where {self.item!r} is taken; raw bytes are those of bytes and bytearray alone")
        if self.buffer.len % self.size or (self.buffer.len and self.buffer.buf % self.size):
            raise ValueError(f"a row that isn't of whole, aligned items of {self.size} bytes")
        return self.buffer.buf, self.buffer.len // self.size

    def __len__(self):
        return self.slice[1]

    @property
    def shape(self):
        """The lengths of an array's dimensions, None for raw bytes."""
        return None if self.raw and self.buffer.ndim == 1 else tuple(self.buffer.shape[: self.buffer.ndim])

    def shaped_like(self, other):
        return None in (self.shape, other.shape) or self.shape == other.shape

    def in_lines_of(self, length):
        """ValueError for an array whose last dimension is another one: what belongs together would lie across its lines."""
        if self.buffer.ndim > 1 and self.shape[-1] != length:
            raise ValueError(f"an array of shape {self.shape}, where lines of {length} are taken")

    def overlaps(self, other):
        a, b = self.buffer, other.buffer
        return a.len and b.len and a.buf < b.buf + b.len and b.buf < a.buf + a.len

    def take(self, other):
        """Copies an array of bytes or words to the start."""
        with Row(other, self.item) as source:
            ctypes.memmove(self.buffer.buf, source.buffer.buf, source.buffer.len)


# Many keys.


def keys_of(kinds, bits, count, longest):
    """The keys of so many records, each at its multiple of the longest, and their lengths. A record costs one call, and what all calls share is
    made once. The place of a refusal is the index into the bits of all records."""
    fields, room, step = ctypes.c_size_t(len(kinds)), ctypes.c_size_t(longest), 8 * len(kinds)
    keys, lengths = bytearray(count * longest), array("Q", bytes(8 * count))
    with Row(keys, "B", writable=True) as lent:
        (start, _), (end, _) = bits.slice, lent.slice
        answers = map(
            _calls.silamogo_key_write,
            repeat(ctypes.cast(kinds, ctypes.c_void_p)), repeat(fields),
            range(start, start + count * step, step), repeat(fields),
            range(end, end + count * longest, longest), repeat(room),
        )
        for record, answer in enumerate(answers):
            if answer.number:
                raise Refusal(answer.number, record * len(kinds) + answer.place)
            lengths[record] = answer.length
    return keys, lengths
