"""A reader of keys, written from docs/KEYS.md alone: a key is the keys of a record's fields, one after the other."""

BYTES = {
    "u8": 1, "u16": 2, "u32": 4, "u64": 8,
    "i8": 1, "i16": 2, "i32": 4, "i64": 8,
    "f32": 4, "f64": 8, "f16": 2,
}

INFINITY = {"f32": 0x7F800000, "f64": 0x7FF0000000000000, "f16": 0x7C00}


class NoKey(Exception):
    """A field that no key has; its argument is the index of the field."""


def _sign(kind):
    """The highest bit of a field of this kind."""
    return 1 << (8 * BYTES[kind] - 1)


def is_minus_zero(kind, bits):
    return kind in INFINITY and bits == _sign(kind)


def has_key(kind, bits):
    """Whether a record with this field may have a key: False for a NaN."""
    return kind not in INFINITY or bits & (_sign(kind) - 1) <= INFINITY[kind]


def field(kind, number):
    """The bits of the field whose key is number; None if no key has it."""
    sign = _sign(kind)
    if kind[0] == "u":
        return number
    if kind[0] == "i":
        return number ^ sign
    bits = number - sign if number >= sign else 2 * sign - 1 - number
    return None if is_minus_zero(kind, bits) or not has_key(kind, bits) else bits


def key_length(shape):
    return sum(BYTES[kind] for kind in shape)


def read(shape, key):
    """The fields of a key as a list of (kind, bits)."""
    if len(key) != key_length(shape):
        raise ValueError("not the length of a key of this shape")
    fields, at = [], 0
    for index, kind in enumerate(shape):
        end = at + BYTES[kind]
        bits = field(kind, int.from_bytes(key[at:end], "big"))
        if bits is None:
            raise NoKey(index)
        fields.append((kind, bits))
        at = end
    return fields
