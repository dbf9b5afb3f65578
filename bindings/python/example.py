"""Silamogo from Python: what would have saved the glass negatives, then each family of calls once."""

import sys
from array import array

sys.dont_write_bytecode = True

import silamogo
from silamogo import Kind, Sample, sample


def tried(call, *arguments):
    """What a call gives, or why it doesn't."""
    try:
        return call(*arguments)
    except silamogo.Refusal as refusal:
        return str(refusal)
    except (BufferError, TypeError, ValueError, OverflowError) as error:
        return type(error).__name__


def rows():
    """16-bit greys to 8 bits: a grey that 8 bits don't have is told with its place, and nothing is written."""
    greys = array("H", [0, 17, 255, 256, 4095, 65535])
    narrow = bytearray([9] * 6)
    try:
        silamogo.row_u16_to_u8(greys, narrow)
    except silamogo.Refusal as refusal:
        print(f"six greys to 8 bits: {refusal}; number {refusal.number}, place {refusal.place}, row {list(narrow)}")
    silamogo.row_u16_to_u8(greys[:3], memoryview(narrow)[:3])
    print("the first three:", list(narrow))
    print("from bytes:", tried(silamogo.row_u16_to_u8, greys.tobytes()[:6], memoryview(narrow)[3:]), list(narrow))
    print("three into six:", tried(silamogo.row_u16_to_u8, greys[:3], narrow))
    print("none:", tried(silamogo.row_u16_to_u8, b"", bytearray()))
    print("into bytes:", tried(silamogo.row_u16_to_u8, greys, bytes(6)))
    print("from floats:", tried(silamogo.row_u16_to_u8, array("f", [1.0]), bytearray(1)))
    print("from five bytes:", tried(silamogo.row_u16_to_u8, bytes(5), bytearray(2)))
    print("every other:", tried(silamogo.row_u16_to_u8, memoryview(greys)[::2], bytearray(3)))
    same = bytearray(8)
    print("into itself:", tried(silamogo.row_u8_to_u16, memoryview(same)[2:4], memoryview(same)[:4]))

    wide, floats, back = array("H", bytes(12)), array("f", bytes(24)), array("H", bytes(12))
    silamogo.row_u8_to_u16(narrow, wide)
    silamogo.row_u16_to_f32(wide, floats)
    silamogo.row_f32_to_u16(floats, back)
    print("to 16 bits, floats and back:", list(wide), list(floats), wide == back)
    floats[4] = 0.5
    print("a half to 16 bits:", tried(silamogo.row_f32_to_u16, floats, back))
    floats[4] = -0.0
    print("a masked pixel to 16 bits:", tried(silamogo.row_f32_to_u16, floats, back))

    light = array("f", [-0.25, 0.5, 1.5])
    silamogo.row_clamp(light, 0, 1)
    print("clamp:", list(light))
    print("clamp to 0.1, which f32 lacks:", tried(silamogo.row_clamp, light, 0, 0.1))
    print("clamp to NaN:", tried(silamogo.row_clamp, light, 0, float("nan")))


def samples():
    minus_zero, zero, nan = (sample(Kind.F32, -0.0), sample(Kind.F32, 0.0), Sample(Kind.F32, 0x7FC00000))
    print("minus zero and zero:", silamogo.compare(minus_zero, zero).name, silamogo.total_order(minus_zero, zero).name)
    print("position of minus zero:", silamogo.position(minus_zero))
    print("NaN and NaN:", silamogo.compare(nan, nan).name)
    print("class of 2^-149:", silamogo.classify(sample(Kind.F32, 2.0**-149)).name)
    print("256 to u8:", tried(silamogo.convert, sample(Kind.U16, 256), Kind.U8))
    print("16777217 to f32:", tried(silamogo.convert, sample(Kind.U32, 16777217), Kind.F32))
    print("0.1 in f32:", tried(sample, Kind.F32, 0.1))
    print("2^53 + 1 in f64:", tried(sample, Kind.F64, 2**53 + 1))
    print("-1 to f64:", silamogo.number(silamogo.convert(sample(Kind.I8, -1), Kind.F64)))
    print("1.5 in f16:", sample(Kind.F16, 1.5))
    print("1.5 from f16 to f32:", silamogo.convert(Sample(Kind.F16, 0x3E00), Kind.F32))
    print("65505 in f16:", tried(sample, Kind.F16, 65505))
    print("2049 in f16:", tried(sample, Kind.F16, 2049))
    print("least of 3 and -2:", silamogo.number(silamogo.minimum(sample(Kind.I16, 3), sample(Kind.I16, -2))))
    print("greatest of a kind each:", tried(silamogo.maximum, sample(Kind.U8, 3), sample(Kind.I8, 3)))
    print("clamp between 2 and 1:", tried(silamogo.clamp, *(sample(Kind.F64, x) for x in (1.5, 2.0, 1.0))))
    print("kind 11:", tried(silamogo.convert, Sample(11, 0), Kind.U8))
    print("u8 of nine bits:", tried(silamogo.convert, Sample(Kind.U8, 0x100), Kind.U16))
    print("bits of 65 bits:", tried(silamogo.convert, Sample(Kind.U8, 1 << 64), Kind.U16))


def records():
    shape = [Kind.U16, Kind.I16, Kind.F32]
    tile = [sample(kind, n) for kind, n in zip(shape, (258, -1, -1.0))]
    other = [sample(kind, n) for kind, n in zip(shape, (258, 0, -9.0))]
    print("two tiles:", silamogo.record_compare(tile, other).name)
    key = silamogo.key(tile)
    print("key:", key.hex(" "))
    print("read back:", [silamogo.number(s) for s in silamogo.key_read(shape, key)])
    print("a byte too few:", tried(silamogo.key_read, shape, key[1:]))
    print("a NaN:", tried(silamogo.key_read, shape, key[:4] + b"\xff" * 4))
    print("a short buffer:", tried(silamogo.key_write, tile, bytearray(7)))
    print("both keys:", [key.hex() for key in silamogo.keys(shape, array("Q", [s.bits for s in tile + other]))])
    print("key of an f16:", silamogo.key([sample(Kind.F16, 1.5)]).hex(" "))


rows()
samples()
records()
