#!/usr/bin/env python3
"""Reads keys in another language: key_reader.py is written from docs/KEYS.md alone, the refusals here are those of docs/RULES.md.

keys.py read KINDS HEX         prints the record of a key, or why there is none
keys.py check CASES ANSWERS    holds the answers to read and write lines against this reader

Kinds, records and bytes are written as in case lines (oracle/README.md).
"""

import re
import sys

sys.dont_write_bytecode = True

from key_reader import BYTES, NoKey, has_key, is_minus_zero, key_length
from key_reader import read as fields_of

MOST_FIELDS = 12
MOST_ITEMS = 20  # of a record or a shape in a case line
MOST_BYTES = 512
MOST_ROOM = 128
BEFORE = 0xA5  # every byte of a buffer before a key is written


class Refused(Exception):
    """A refusal's number and place."""


class Malformed(Exception):
    """Not of the grammar of case lines."""


# A value is a pair of its kind and its bits, a record a list of values, a shape a list of kinds.


def read(shape, key):
    if not 1 <= len(shape) <= MOST_FIELDS:
        raise Refused(11, 0)
    if len(key) != key_length(shape):
        raise Refused(9, 0)
    try:
        return fields_of(shape, key)
    except NoKey as field:
        raise Refused(12, *field.args)


def holds_key(record, room, length, buffer):
    """Whether a buffer holds the key of a record: it reads as the record, and the rest is as before."""
    shape = [kind for kind, _ in record]
    if length != key_length(shape) or len(buffer) != room:
        return False
    folded = [(kind, 0 if is_minus_zero(kind, bits) else bits) for kind, bits in record]
    return read(shape, buffer[:length]) == folded and buffer[length:] == bytes([BEFORE]) * (room - length)


def write_refusal(record, room):
    """The refusal of a record that has no key in the room, or None."""
    if not 1 <= len(record) <= MOST_FIELDS:
        return Refused(11, 0)
    if room < key_length(kind for kind, _ in record):
        return Refused(10, 0)
    nans = [place for place, (kind, bits) in enumerate(record) if not has_key(kind, bits)]
    return Refused(1, nans[0]) if nans else None


# The text of case lines.


def items_in(text):
    items = [] if text == "-" else text.split(",")
    if len(items) > MOST_ITEMS:
        raise Malformed
    return items


def kind_in(text):
    if text not in BYTES:
        raise Malformed
    return text


def value_in(text):
    kind, _, digits = text.partition(":")
    if not re.fullmatch("[0-9a-f]{%d}" % (2 * BYTES[kind_in(kind)]), digits):
        raise Malformed
    return kind, int(digits, 16)


def bytes_in(text):
    if not re.fullmatch("-|([0-9a-f]{2})+", text) or len(text) > 2 * MOST_BYTES:
        raise Malformed
    return b"" if text == "-" else bytes.fromhex(text)


def room_in(text):
    if not re.fullmatch("0|[1-9][0-9]{0,2}", text) or int(text) > MOST_ROOM:
        raise Malformed
    return int(text)


def shape_in(text):
    return [kind_in(item) for item in items_in(text)]


def record_in(text):
    return [value_in(item) for item in items_in(text)]


def record_text(record):
    return ",".join("%s:%0*x" % (kind, 2 * BYTES[kind], bits) for kind, bits in record)


def refused_text(refused):
    return "refused %d %d" % refused.args


def read_answer(operands):
    if len(operands) != 2:
        raise Malformed
    shape, key = shape_in(operands[0]), bytes_in(operands[1])
    try:
        return record_text(read(shape, key))
    except Refused as refused:
        return refused_text(refused)


def write_agrees(operands, answer):
    if len(operands) != 2:
        raise Malformed
    record, room = record_in(operands[0]), room_in(operands[1])
    refused = write_refusal(record, room)
    if refused:
        return answer == refused_text(refused)
    try:
        length, buffer = answer.split(" ")
        return holds_key(record, room, room_in(length), bytes_in(buffer))
    except (ValueError, Malformed, Refused):
        return False


def agrees(word, operands, answer):
    try:
        return answer == read_answer(operands) if word == "read" else write_agrees(operands, answer)
    except Malformed:
        return answer == "malformed"


def lines_of(path):
    with open(path, encoding="latin-1", newline="\n") as file:
        lines = file.read().split("\n")
    return lines if lines[-1] else lines[:-1]


def check(cases_path, answers_path):
    cases, answers = lines_of(cases_path), lines_of(answers_path)
    counts, differ = {"read": 0, "write": 0}, 0
    if len(cases) != len(answers):
        sys.exit("%d cases, %d answers" % (len(cases), len(answers)))
    for case, answer in zip(cases, answers):
        word, *operands = case.split(" ")
        if word in counts:
            counts[word] += 1
            if not agrees(word, operands, answer):
                differ += 1
                print(ascii(case), "/", ascii(answer))
    print("keys: %(read)d read and %(write)d write lines" % counts + ", %d differ" % differ)
    return differ == 0 and all(counts.values())


def main(arguments):
    if arguments[:1] == ["read"]:
        try:
            print(read_answer(arguments[1:]))
        except Malformed:
            print("malformed")
        return True
    if arguments[:1] == ["check"] and len(arguments) == 3:
        return check(arguments[1], arguments[2])
    sys.exit(__doc__)


if __name__ == "__main__":
    sys.exit(0 if main(sys.argv[1:]) else 1)
