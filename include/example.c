/* Silamogo from C: what would have saved the glass negatives, then each family of calls once. */
#include <inttypes.h>
#include <stdio.h>

#include "silamogo.h"

static void say(const char *what, silamogo_answer a) {
    if (a.number == SILAMOGO_DONE) {
        printf("%s: done\n", what);
    } else {
        printf("%s: refused %d at %zu\n", what, a.number, a.place);
    }
}

static void say_sample(const char *what, silamogo_sampled s) {
    silamogo_answer a = {s.number, s.place};
    say(what, a);
    if (s.number == SILAMOGO_DONE) {
        printf("  kind %d, bits %" PRIx64 "\n", s.kind, s.bits);
    }
}

/* 16-bit greys to 8 bits: a grey that 8 bits don't have is told with its place, and nothing is written. */
static void rows(void) {
    uint16_t greys[6] = {0, 17, 255, 256, 4095, 65535};
    uint8_t narrow[6] = {9, 9, 9, 9, 9, 9};
    say("six greys to 8 bits", silamogo_row_u16_to_u8(greys, 6, narrow, 6));
    printf("  first byte %d\n", narrow[0]);
    say("the first three", silamogo_row_u16_to_u8(greys, 3, narrow, 3));
    printf("  bytes %d %d %d, behind them %d\n", narrow[0], narrow[1], narrow[2], narrow[3]);
    say("three into six", silamogo_row_u16_to_u8(greys, 3, narrow, 6));
    say("none", silamogo_row_u16_to_u8(NULL, 0, NULL, 0));

    uint16_t wide[3], back[3];
    float floats[3];
    say("to 16 bits", silamogo_row_u8_to_u16(narrow, 3, wide, 3));
    say("to floats", silamogo_row_u16_to_f32(wide, 3, floats, 3));
    say("and back", silamogo_row_f32_to_u16(floats, 3, back, 3));
    printf("  %d %d %d, %.1f %.1f %.1f, %d %d %d\n", wide[0], wide[1], wide[2], (double)floats[0], (double)floats[1], (double)floats[2],
           back[0], back[1], back[2]);
    floats[1] = 0.5f;
    say("a half to 16 bits", silamogo_row_f32_to_u16(floats, 3, back, 3));
    floats[1] = -0.0f;
    say("a masked pixel to 16 bits", silamogo_row_f32_to_u16(floats, 3, back, 3));

    float light[3] = {-0.25f, 0.5f, 1.5f};
    say("clamp", silamogo_row_clamp(light, 3, 0.0f, 1.0f));
    printf("  %.2f %.2f %.2f\n", (double)light[0], (double)light[1], (double)light[2]);
}

static void samples(void) {
    silamogo_sample minus_zero = silamogo_f32(-0.0f), zero = silamogo_f32(0.0f);
    printf("minus zero and zero: order %d, total order %d, position %" PRId64 "\n", silamogo_compare(minus_zero, zero).order,
           silamogo_total_order(minus_zero, zero).order, silamogo_position(minus_zero).position);
    printf("class of 1e-40: %d\n", silamogo_classify(silamogo_f32(1e-40f)).class_);
    say_sample("256 to u8", silamogo_convert(silamogo_u16(256), SILAMOGO_U8));
    say_sample("16777217 to f32", silamogo_convert(silamogo_u32(16777217), SILAMOGO_F32));
    say_sample("-1 to f64", silamogo_convert(silamogo_i8(-1), SILAMOGO_F64));
    say_sample("1.5 from f16 to f32", silamogo_convert(silamogo_f16(0x3e00), SILAMOGO_F32));
    say_sample("65505 to f16", silamogo_convert(silamogo_u16(65505), SILAMOGO_F16));
    say_sample("least of 3 and -2", silamogo_min(silamogo_i16(3), silamogo_i16(-2)));
    say_sample("greatest of a kind each", silamogo_max(silamogo_u8(3), silamogo_i8(3)));
    say_sample("clamp between 2 and 1", silamogo_clamp(silamogo_f64(1.5), silamogo_f64(2.0), silamogo_f64(1.0)));
    say_sample("kind 11", silamogo_convert(silamogo_sample_of(11, 0), SILAMOGO_U8));
    say_sample("u8 of nine bits", silamogo_convert(silamogo_sample_of(SILAMOGO_U8, 0x100), SILAMOGO_U16));
}

static void records(void) {
    const uint8_t shape[3] = {SILAMOGO_U16, SILAMOGO_I16, SILAMOGO_F32};
    const uint64_t tile[3] = {silamogo_u16(258).bits, silamogo_i16(-1).bits, silamogo_f32(-1.0f).bits};
    const uint64_t next[3] = {silamogo_u16(258).bits, silamogo_i16(0).bits, silamogo_f32(-9.0f).bits};
    printf("two tiles: order %d\n", silamogo_record_compare(shape, 3, tile, 3, shape, 3, next, 3).order);

    uint8_t key[SILAMOGO_LONGEST_KEY];
    silamogo_measured written = silamogo_key_write(shape, 3, tile, 3, key, sizeof key);
    printf("key of %zu bytes:", written.length);
    for (size_t i = 0; i < written.length; i++) {
        printf(" %02x", key[i]);
    }
    uint64_t fields[3] = {0, 0, 0};
    silamogo_answer read = silamogo_key_read(shape, 3, key, written.length, fields, 3);
    printf("\n");
    say("read back", read);
    printf("  bits %" PRIx64 " %" PRIx64 " %" PRIx64 "\n", fields[0], fields[1], fields[2]);
    say("a byte too few", silamogo_key_read(shape, 3, key, written.length - 1, fields, 3));
    memset(key + 4, 0xff, 4);
    say("a NaN", silamogo_key_read(shape, 3, key, written.length, fields, 3));

    const uint8_t light[1] = {SILAMOGO_F16};
    const uint64_t bright[1] = {silamogo_f16(0x3e00).bits};
    written = silamogo_key_write(light, 1, bright, 1, key, sizeof key);
    printf("key of %zu bytes: %02x %02x\n", written.length, key[0], key[1]);
}

int main(void) {
    rows();
    samples();
    records();
    return 0;
}
