/* Silamogo from C: samples of eleven kinds classified, compared, clamped and converted exactly; records compared; keys written and read.
 *
 * Link target/staticlib/libsilamogo.a (`./build silamogo` proves the library and writes it). docs/RULES.md has the rules that are
 * cited here by their headings.
 *
 * Every call answers for any numbers that it is given. An answer begins with the number of a refusal and a place, both 0 when the call is
 * done. Of several rules that hold, the first in the order of the call's comment is the one refused with. After a refusal the rest of the
 * answer is 0, and memory that was lent is as it was.
 *
 * What C can't check stays with the caller: a pointer leads to as many aligned items as the length beside it says, readable, and writable
 * where the call writes; memory that a call writes overlaps nothing else that it is lent. With length 0 the pointer is not followed.
 * No call keeps a pointer, allocates, or has state: calls on memory of their own may run in several threads at once. */
#ifndef SILAMOGO_H
#define SILAMOGO_H

#include <stddef.h>
#include <stdint.h>
#include <string.h>

#ifdef __cplusplus
extern "C" {
#endif

/* The kinds (RULES: The kinds). No other number names one. The float kinds are 8 to 10. */
enum silamogo_kind {
    SILAMOGO_U8 = 0,
    SILAMOGO_U16 = 1,
    SILAMOGO_U32 = 2,
    SILAMOGO_U64 = 3,
    SILAMOGO_I8 = 4,
    SILAMOGO_I16 = 5,
    SILAMOGO_I32 = 6,
    SILAMOGO_I64 = 7,
    SILAMOGO_F32 = 8,
    SILAMOGO_F64 = 9,
    SILAMOGO_F16 = 10
};

/* The numbers of refusal (RULES: Refusals). The place is the index of the first field or sample that the rule holds for, else 0. */
enum silamogo_refusal {
    SILAMOGO_DONE = 0,              /* no refusal */
    SILAMOGO_NAN = 1,               /* a NaN to convert to another kind, or in a record for a key */
    SILAMOGO_INFINITY = 2,          /* an infinity to an integer kind */
    SILAMOGO_FRACTION = 3,          /* a number with a fraction to an integer kind */
    SILAMOGO_OUT_OF_RANGE = 4,      /* a number outside the target's range, or a sample with bits that its kind doesn't have */
    SILAMOGO_NO_SUCH_FLOAT = 5,     /* inside the range, but the target float has no such number */
    SILAMOGO_BOUNDS = 6,            /* bounds that aren't lower <= upper; a NaN bound is never */
    SILAMOGO_KINDS = 7,             /* kinds or shapes that differ, or a number that names no kind, or no float kind where one is asked for */
    SILAMOGO_UNORDERED = 8,         /* a NaN in min, max or clamp */
    SILAMOGO_LENGTHS = 9,           /* lengths of two lent rows that differ, or a key of wrong length */
    SILAMOGO_SHORT_BUFFER = 10,     /* a buffer shorter than the key */
    SILAMOGO_FIELD_COUNT = 11,      /* a record of no fields, or of more than 12 */
    SILAMOGO_NO_KEY = 12,           /* bytes that no record has as its key: a field would be a NaN or minus zero */
    SILAMOGO_MINUS_ZERO = 13        /* minus zero, the mark of a masked pixel, to an integer kind */
};

enum silamogo_order { SILAMOGO_LESS = 0, SILAMOGO_EQUAL = 1, SILAMOGO_GREATER = 2, SILAMOGO_NO_ORDER = 3 };

enum silamogo_class {
    SILAMOGO_CLASS_ZERO = 0,
    SILAMOGO_CLASS_SUBNORMAL = 1,
    SILAMOGO_CLASS_NORMAL = 2,
    SILAMOGO_CLASS_INFINITE = 3,
    SILAMOGO_CLASS_NAN = 4
};

/* The longest key: 12 fields of 8 bytes. */
#define SILAMOGO_LONGEST_KEY 96

/* A kind and the bits of a number of that kind, a signed one in two's complement of its own width; the bits above are 0. */
typedef struct silamogo_sample {
    uint8_t kind;
    uint64_t bits;
} silamogo_sample;

typedef struct silamogo_answer {
    uint8_t number;
    size_t place;
} silamogo_answer;

/* order: one of enum silamogo_order. */
typedef struct silamogo_ordered {
    uint8_t number;
    size_t place;
    uint8_t order;
} silamogo_ordered;

/* class_: one of enum silamogo_class. */
typedef struct silamogo_classed {
    uint8_t number;
    size_t place;
    uint8_t class_;
} silamogo_classed;

typedef struct silamogo_positioned {
    uint8_t number;
    size_t place;
    int64_t position;
} silamogo_positioned;

/* kind and bits: the sample that the call gives. */
typedef struct silamogo_sampled {
    uint8_t number;
    size_t place;
    uint8_t kind;
    uint64_t bits;
} silamogo_sampled;

typedef struct silamogo_measured {
    uint8_t number;
    size_t place;
    size_t length;
} silamogo_measured;

/* ---- one sample. Of every sample and kind: 7 for a number that names no kind, then 4 for bits that the kind doesn't have; the call's own
 * refusals come after these. */

/* The class of a float (RULES: Bits and classes). An integer kind is 7 too, before 4. */
silamogo_classed silamogo_classify(silamogo_sample s);

/* The place of a float in the total order, from the least number of its width to the greatest (RULES: Total order). An integer
 * kind is 7 too, before 4. */
silamogo_positioned silamogo_position(silamogo_sample s);

/* IEEE 754 comparison: the two zeros are equal, and a NaN has no order (RULES: Comparison). Refuses two kinds with 7. */
silamogo_ordered silamogo_compare(silamogo_sample a, silamogo_sample b);

/* The total order, in which every pattern has its own place: never SILAMOGO_NO_ORDER (RULES: Total order). Refuses two kinds with 7. */
silamogo_ordered silamogo_total_order(silamogo_sample a, silamogo_sample b);

/* The lesser or the greater, with its own bits; of equal ones min gives a and max gives b (RULES: Choosing and clamping). Refusals: 7 for
 * two kinds, 8 for a NaN. */
silamogo_sampled silamogo_min(silamogo_sample a, silamogo_sample b);
silamogo_sampled silamogo_max(silamogo_sample a, silamogo_sample b);

/* v, or the bound that it lies beyond (RULES: Choosing and clamping). Refusals: 7 for kinds that differ, 6 for the bounds, 8 for a NaN. */
silamogo_sampled silamogo_clamp(silamogo_sample v, silamogo_sample lower, silamogo_sample upper);

/* The same number in the kind `to`, never rounded; to its own kind a sample comes back as it is (RULES: Exact conversion). Refusals: 1, 2,
 * 13, 3, 4, 5. */
silamogo_sampled silamogo_convert(silamogo_sample v, uint8_t to);

/* ---- rows. A row is done whole, or refused whole and left as it was; the first sample that can't be done gives the place. Length 0 is
 * done. */

/* Clamps each sample in place. Refusals: 6 for the bounds, 8 at the first NaN. */
silamogo_answer silamogo_row_clamp(float *row, size_t length, float lower, float upper);

/* Each sample of src converted into dst. Refusals: 9 for lengths that differ; then u16_to_u8 4, f32_to_u16 1, 2, 13, 3, 4 at the first
 * such sample. */
silamogo_answer silamogo_row_u8_to_u16(const uint8_t *src, size_t src_length, uint16_t *dst, size_t dst_length);
silamogo_answer silamogo_row_u16_to_u8(const uint16_t *src, size_t src_length, uint8_t *dst, size_t dst_length);
silamogo_answer silamogo_row_u16_to_f32(const uint16_t *src, size_t src_length, float *dst, size_t dst_length);
silamogo_answer silamogo_row_f32_to_u16(const float *src, size_t src_length, uint16_t *dst, size_t dst_length);

/* ---- records. A record is a row of kinds, its shape, and a row of bits of the same length: field i is the sample {kinds[i], bits[i]}. Of
 * every record: 11 for a count of kinds that is 0 or above 12, 7 for a number that names no kind, 9 for rows of two lengths, 4 at the first
 * field with bits that its kind doesn't have; of two records each of these in both before the next. */

/* Field by field; the first that isn't equal decides (RULES: Records). Then 7 for shapes that differ. */
silamogo_ordered silamogo_record_compare(const uint8_t *a_kinds, size_t a_kinds_length, const uint64_t *a_bits, size_t a_bits_length,
                                         const uint8_t *b_kinds, size_t b_kinds_length, const uint64_t *b_bits, size_t b_bits_length);

/* Writes the key of a record at the start of the buffer and gives its length; bytes behind it stay (RULES: Keys). Keys of one shape order
 * by memcmp as their records do. Then 10 for the buffer, 1 at the first NaN. */
silamogo_measured silamogo_key_write(const uint8_t *kinds, size_t kinds_length, const uint64_t *bits, size_t bits_length,
                                     uint8_t *buffer, size_t buffer_length);

/* Writes the bits of each field of a key (RULES: Keys). Refusals: 11 for the count of kinds, 7 for a number that names no kind, 9 for kinds
 * and bits of two lengths, 9 for a key of wrong length, 12 at the first field that no key has. */
silamogo_answer silamogo_key_read(const uint8_t *kinds, size_t kinds_length, const uint8_t *key, size_t key_length,
                                  uint64_t *bits, size_t bits_length);

/* ---- samples made from C's own numbers; of f16, for which C99 has no type, from its bits */

static inline silamogo_sample silamogo_sample_of(uint8_t kind, uint64_t bits) {
    silamogo_sample s;
    s.kind = kind;
    s.bits = bits;
    return s;
}

static inline silamogo_sample silamogo_u8(uint8_t n) { return silamogo_sample_of(SILAMOGO_U8, n); }
static inline silamogo_sample silamogo_u16(uint16_t n) { return silamogo_sample_of(SILAMOGO_U16, n); }
static inline silamogo_sample silamogo_u32(uint32_t n) { return silamogo_sample_of(SILAMOGO_U32, n); }
static inline silamogo_sample silamogo_u64(uint64_t n) { return silamogo_sample_of(SILAMOGO_U64, n); }
static inline silamogo_sample silamogo_i8(int8_t n) { return silamogo_sample_of(SILAMOGO_I8, (uint8_t)n); }
static inline silamogo_sample silamogo_i16(int16_t n) { return silamogo_sample_of(SILAMOGO_I16, (uint16_t)n); }
static inline silamogo_sample silamogo_i32(int32_t n) { return silamogo_sample_of(SILAMOGO_I32, (uint32_t)n); }
static inline silamogo_sample silamogo_i64(int64_t n) { return silamogo_sample_of(SILAMOGO_I64, (uint64_t)n); }

static inline silamogo_sample silamogo_f32(float x) {
    uint32_t bits;
    memcpy(&bits, &x, sizeof bits);
    return silamogo_sample_of(SILAMOGO_F32, bits);
}

static inline silamogo_sample silamogo_f64(double x) {
    uint64_t bits;
    memcpy(&bits, &x, sizeof bits);
    return silamogo_sample_of(SILAMOGO_F64, bits);
}

static inline silamogo_sample silamogo_f16(uint16_t bits) { return silamogo_sample_of(SILAMOGO_F16, bits); }

#ifdef __cplusplus
}
#endif

#endif
