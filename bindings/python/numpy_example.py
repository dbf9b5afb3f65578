"""Silamogo from Python with NumPy arrays as rows: lent where they are, never copied."""

import sys

sys.dont_write_bytecode = True

import numpy
import silamogo
from silamogo import Kind, sample


def tried(call, *arguments):
    """What a call gives, or why it doesn't."""
    try:
        return call(*arguments)
    except silamogo.Refusal as refusal:
        return str(refusal)
    except (TypeError, ValueError) as error:
        return type(error).__name__


greys = numpy.array([0, 17, 255, 256, 4095, 65535], dtype=numpy.uint16)
narrow = numpy.full(6, 9, dtype=numpy.uint8)
print("six greys to 8 bits:", tried(silamogo.row_u16_to_u8, greys, narrow), narrow.tolist())
silamogo.row_u16_to_u8(greys[:3], narrow[:3])
print("the first three:", narrow.tolist())

wide, reals, back = numpy.zeros(6, numpy.uint16), numpy.zeros(6, numpy.float32), numpy.zeros(6, numpy.uint16)
silamogo.row_u8_to_u16(narrow, wide)
silamogo.row_u16_to_f32(wide, reals)
silamogo.row_f32_to_u16(reals, back)
print("to 16 bits, floats and back:", wide.tolist(), reals.tolist(), bool((wide == back).all()))

tile = numpy.arange(6, dtype=numpy.uint16).reshape(2, 3)
light = numpy.zeros((2, 3), numpy.float32)
silamogo.row_u16_to_f32(tile, light)
silamogo.row_clamp(light, 1, 4)
print("a tile of two lines, clamped:", light.tolist())

light[1, 2] = numpy.nan
print("a NaN in it:", tried(silamogo.row_clamp, light, 1, 4))
print("every other sample:", tried(silamogo.row_u16_to_f32, greys[::2], reals[:3]))
print("the tile turned:", tried(silamogo.row_u16_to_f32, tile.T, light))
print("high byte first:", tried(silamogo.row_u16_to_f32, greys.astype(">u2"), reals))
print("signed greys:", tried(silamogo.row_u16_to_f32, greys.astype(numpy.int16), reals))
wide.flags.writeable = False
print("into a row that may only be read:", tried(silamogo.row_u8_to_u16, narrow, wide))

halves = numpy.array([1.5, -0.0, 65504, 2.0**-24], dtype=numpy.float16)
print("float16 as samples:", [sample(Kind.F16, x) for x in halves])
print("and to f32:", [silamogo.number(silamogo.convert(sample(Kind.F16, x), Kind.F32)) for x in halves])
print("65505 in f16:", tried(sample, Kind.F16, numpy.uint16(65505)))
print("keys of float16:", [key.hex() for key in silamogo.keys([Kind.F16], halves.view(numpy.uint16).astype(numpy.uint64))])
print("float16 lent as greys:", tried(silamogo.row_u16_to_f32, halves, reals[:4]))
