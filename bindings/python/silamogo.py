"""Silamogo from Python: samples of eleven kinds, rows, records and keys, by ctypes alone (silamogo_boundary.py).

The shared library is looked for at the path in SILAMOGO_LIBRARY, or beside this file and in the repository's target/. To make it:

    ./build silamogo
    gcc -shared -o target/libsilamogo.so -Wl,--whole-archive target/staticlib/libsilamogo.a -Wl,--no-whole-archive

A call gives its result or raises Refusal, with the number and the place of docs/RULES.md; after it everything that was lent is as it was.
A row is any object with the buffer protocol, contiguous; it is lent, never copied, and no other thread may change it meanwhile.

- The items of array.array, NumPy arrays, ctypes arrays and memoryviews of these have to be the row's own: `H` for u16, and not `B`, `h` or `e`.
- Raw bytes, that is bytes (to read from), bytearray and memoryviews of these, are taken as items of any kind, low byte first.
"""

import struct
from collections import namedtuple
from enum import IntEnum
from fractions import Fraction
from numbers import Integral, Rational, Real

from silamogo_boundary import Refusal, Row, ask, keys_of, parts, passed, word, words

Kind = IntEnum("Kind", ["U8", "U16", "U32", "U64", "I8", "I16", "I32", "I64", "F32", "F64", "F16"], start=0)
Order = IntEnum("Order", ["LESS", "EQUAL", "GREATER", "UNORDERED"], start=0)
Class = IntEnum("Class", ["ZERO", "SUBNORMAL", "NORMAL", "INFINITE", "NAN"], start=0)

LONGEST_KEY = 96


class Sample(namedtuple("Sample", ["kind", "bits"])):
    """A kind and the bits of a number of that kind, a signed one in two's complement of its own width; the bits above are 0."""

    __slots__ = ()

    def __repr__(self):
        kind = f"Kind.{Kind(self.kind).name}" if self.kind in [*Kind] else repr(self.kind)
        bits = hex(self.bits) if isinstance(self.bits, int) else repr(self.bits)
        return f"Sample({kind}, {bits})"


# Samples.


def sample(kind, number):
    """The sample that has exactly this number: an int, a float, a Fraction, or one of NumPy's. Refused as by conversion, so with 13 for
    minus zero and 3 for a fraction in an integer kind, 4 beyond the kind's range, 5 for a number that a float kind lacks; 7 for a kind that
    names none."""
    kind = _kind(kind)
    if isinstance(number, float):
        return _from_f64(number, kind)
    try:
        exact = _exact(number)
    except OverflowError:  # an infinity
        return _from_f64(float(number), kind)
    except ValueError:  # a NaN
        raise Refusal(1, 0) from None
    if kind < Kind.F32:
        return _whole(exact, kind) if exact else _from_f64(float(number), kind)  # by its sign, zero or 13
    if abs(exact) > _LARGEST[kind]:
        raise Refusal(4, 0)
    x = float(exact or number)  # minus zero stays
    if x != exact:
        raise Refusal(5, 0)
    return _from_f64(x, kind)


def number(s):
    """The int or float that a sample stands for; 7 for a kind that names none, 4 for bits that the kind doesn't have."""
    own = passed(s)
    kind, bits = _given(ask("convert", own, own.kind))
    width = _bits(kind)
    if kind >= Kind.F32:
        layout = {16: ("<H", "<e"), 32: ("<I", "<f"), 64: ("<Q", "<d")}[width]
        return struct.unpack(layout[1], struct.pack(layout[0], bits))[0]
    negative = kind >= Kind.I8 and bits >> (width - 1)
    return bits - (1 << width) if negative else bits


def _bits(kind):
    return [8, 16, 32, 64, 8, 16, 32, 64, 32, 64, 16][kind]


_LARGEST = {Kind.F32: (2**24 - 1) << 104, Kind.F64: (2**53 - 1) << 971, Kind.F16: 65504}  # finite number of a float kind


def _kind(kind):
    try:
        return Kind(word(kind, 8))
    except ValueError:
        raise Refusal(7, 0) from None


def _exact(number):
    """A number as an int or a Fraction; ValueError for a NaN, OverflowError for an infinity. A bool is no number of a sample, nor is a string."""
    if isinstance(number, bool) or not isinstance(number, Real):
        raise TypeError(f"a number is taken, not {number!r}")
    if isinstance(number, Integral):
        return int(number)
    return Fraction(number) if isinstance(number, Rational) else Fraction(*number.as_integer_ratio())


def _from_f64(x, kind):
    return convert(Sample(Kind.F64, struct.unpack("<Q", struct.pack("<d", x))[0]), kind)


def _whole(exact, kind):
    if exact.denominator != 1:
        raise Refusal(3, 0)
    bits = _bits(kind)
    least = 0 if kind < Kind.I8 else -(1 << (bits - 1))
    if not least <= exact < least + (1 << bits):
        raise Refusal(4, 0)
    return Sample(kind, exact.numerator & ((1 << bits) - 1))


def classify(s):
    """The class of a float; 7 for an integer kind."""
    return Class(ask("classify", passed(s)).class_)


def position(s):
    """The place of a float in the total order; 7 for an integer kind."""
    return ask("position", passed(s)).position


def compare(a, b):
    """IEEE 754 comparison; 7 for two kinds."""
    return Order(ask("compare", passed(a), passed(b)).order)


def total_order(a, b):
    """The total order, in which every pattern has its own place; 7 for two kinds."""
    return Order(ask("total_order", passed(a), passed(b)).order)


def _given(answer):
    return Sample(Kind(answer.kind), answer.bits)


def minimum(a, b):
    """The lesser, of equal ones the first; 7 for two kinds, 8 for a NaN."""
    return _given(ask("min", passed(a), passed(b)))


def maximum(a, b):
    """The greater, of equal ones the second; 7 for two kinds, 8 for a NaN."""
    return _given(ask("max", passed(a), passed(b)))


def clamp(s, lower, upper):
    """The sample, or the bound that it lies beyond; 7 for kinds that differ, 6 for the bounds, 8 for a NaN."""
    return _given(ask("clamp", passed(s), passed(lower), passed(upper)))


def convert(s, to):
    """The same number in another kind, never rounded; 1, 2, 13, 3, 4, 5."""
    return _given(ask("convert", passed(s), word(to, 8)))


# Rows. Arrays of as many samples and another shape are a ValueError.


def _convert_row(name, src, src_item, dst, dst_item):
    with Row(src, src_item) as source, Row(dst, dst_item, writable=True) as target:
        slices = *source.slice, *target.slice
        if source.overlaps(target):
            raise ValueError("the rows overlap")
        if len(source) == len(target) and not source.shaped_like(target):
            raise ValueError(f"rows of shapes {source.shape} and {target.shape}")
        ask(name, *slices)


def row_u8_to_u16(src, dst):
    """9 for lengths that differ."""
    _convert_row("row_u8_to_u16", src, "B", dst, "H")


def row_u16_to_u8(src, dst):
    """9 for lengths that differ, 4 at the first sample above 255."""
    _convert_row("row_u16_to_u8", src, "H", dst, "B")


def row_u16_to_f32(src, dst):
    """9 for lengths that differ."""
    _convert_row("row_u16_to_f32", src, "H", dst, "f")


def row_f32_to_u16(src, dst):
    """9 for lengths that differ; then 1, 2, 13, 3 or 4 at the first sample that u16 doesn't have."""
    _convert_row("row_f32_to_u16", src, "f", dst, "H")


def row_clamp(row, lower, upper):
    """Each f32 clamped in place; 6 for the bounds, 8 at the first NaN. A bound that f32 doesn't have is refused with 4 or 5."""
    with Row(row, "f", writable=True) as lent:
        ask("row_clamp", *lent.slice, _bound(lower), _bound(upper))


def _bound(x):
    return float(x) if x != x else number(sample(Kind.F32, x))


# Records: any samples in order; a shape is any kinds in order.


def _record(record):
    fields = [parts(s) for s in record]
    kinds, bits = words([kind for kind, _ in fields], 8), words([bits for _, bits in fields], 64)
    return kinds, len(kinds), bits, len(bits)


def record_compare(a, b):
    """The first field that isn't equal decides; 11 for a count, 7 for a kind that names none, 4 for bits that the kind doesn't have, 7 for shapes
    that differ."""
    return Order(ask("record_compare", *_record(a), *_record(b)).order)


def key_write(record, buffer):
    """The length of the key, written at the start of a buffer of bytes; 11, 7, 4 as above, 10 for the buffer, 1 at a NaN."""
    with Row(buffer, "B", writable=True) as lent:
        return ask("key_write", *_record(record), *lent.slice).length


def key(record):
    """The key of a record as bytes."""
    buffer = bytearray(LONGEST_KEY)
    return bytes(buffer[: key_write(record, buffer)])


def key_read(shape, key):
    """The record of a key; 11 for the count, 7 for a kind that names none, 9 for the key's length, 12 at the first field that no key has."""
    kinds = words(shape, 8)
    bits = words([0] * len(kinds), 64)
    with Row(key, "B") as lent:
        ask("key_read", kinds, len(kinds), *lent.slice, bits, len(bits))
    return [Sample(Kind(kind), word) for kind, word in zip(kinds, bits)]


# The keys of many records of one shape. The bits are a row of 64-bit words, record by record (array("Q"), NumPy's uint64, raw bytes); an array
# of more dimensions has a record in each of its last lines, or is a ValueError.


def keys_write(shape, bits, buffer, lengths):
    """The keys of as many records as there are 64-bit words in `lengths`, which get the lengths. Key i begins at i times the bytes of the
    shape's longest key, with 00 behind it if it is shorter; bytes behind the last stay. 11 for the count of fields, 7 for a kind that names
    none, 9 for bits that aren't so many records, 10 for the buffer; then of the first record that has one 4 or 1, at the index of its bits."""
    kinds = words(shape, 8)
    with Row(bits, "Q") as given, Row(buffer, "B", writable=True) as lent, Row(lengths, "Q", writable=True) as told:
        if given.overlaps(lent) or given.overlaps(told) or lent.overlaps(told):
            raise ValueError("the rows overlap")
        longest = _longest_key(kinds, given, len(told))
        if len(lent) < len(told) * longest:
            raise Refusal(10, 0)
        lent.in_lines_of(longest)
        written, measured = keys_of(kinds, given, len(told), longest)
        lent.take(written)
        told.take(measured)


def keys(shape, bits):
    """The keys of all records that the bits are of, as a list of bytes; refused as by keys_write."""
    kinds = words(shape, 8)
    with Row(bits, "Q") as given:
        count = len(given) // max(len(kinds), 1)
        longest = _longest_key(kinds, given, count)
        written, lengths = keys_of(kinds, given, count, longest)
    written = bytes(written)
    return [written[at : at + length] for at, length in zip(range(0, len(written), longest), lengths)]


def _longest_key(kinds, bits, count):
    """In bytes, as the key of zeros has them; 11, 7 and 9 as in keys_write."""
    longest = len(key(Sample(kind, 0) for kind in kinds))
    if len(bits) != count * len(kinds):
        raise Refusal(9, 0)
    bits.in_lines_of(len(kinds))
    return longest
