/* Decimal text to the 16 stored bytes of decimal128 and back, and which of two is greater (IEEE 754-2008, binary integer form,
 * lowest byte first).
 *
 * Every function answers on any bytes and any lengths, 0 included, and returns the number of its answer: DECIMAL128_ACCEPTED,
 * or which refusal it is; decimal128_larger alone has no number. A pointer is never null, and an output overlaps no other
 * argument: that is C's side of the bargain. Two inputs may overlap, or be the same. A length of 0 still wants a pointer that
 * is not null. */
#ifndef DECIMAL128_H
#define DECIMAL128_H

#include <stddef.h>
#include <stdint.h>

#ifdef __cplusplus
extern "C" {
#endif

enum decimal128_number {
    DECIMAL128_ACCEPTED = 0,
    DECIMAL128_EMPTY_EXPONENT = 1,
    DECIMAL128_INVALID_EXPONENT = 2,
    DECIMAL128_INVALID_COEFFICIENT = 3,
    DECIMAL128_OVERFLOW = 4,
    DECIMAL128_UNDERFLOW = 5,
    DECIMAL128_INEXACT_ROUNDING = 6,
    DECIMAL128_UNPARSEABLE = 7,
    DECIMAL128_MALFORMED_BYTES = 8,
    DECIMAL128_NO_ROOM = 9,
    /* 10 is of the programs alone */
    DECIMAL128_NOT_ORDERED = 11
};

/* No text is longer than this; every debug form has just this length. */
enum { DECIMAL128_TEXT = 42, DECIMAL128_DEBUG = 44 };

/* Reads a text of len bytes. Accepted: the value's 16 bytes are in out16, and *place is 0. Refused, 1 to 7: out16 holds 16 zero
 * bytes, and *place is where: an offset in the text, its sign counted, at most len. For 1 it is the `e`, for 3 the second
 * point, for 6 a byte other than `0`, so a byte of the text; for the others it may be len, and text[*place] not a byte of it. */
uint32_t decimal128_read(const uint8_t *text, size_t len, uint8_t out16[16], size_t *place);

/* Writes the text of a stored value. Accepted: the text is the first *len bytes of buf, and the bytes after it stand as they
 * were. NoRoom, exactly where cap is less than the text's length: *len is 0 and no byte of buf is changed. */
uint32_t decimal128_write(const uint8_t bytes16[16], uint8_t *buf, size_t cap, size_t *len);

/* Writes the debug form, Decimal128(..) with 32 hex digits; otherwise as decimal128_write. */
uint32_t decimal128_debug(const uint8_t bytes16[16], uint8_t *buf, size_t cap, size_t *len);

/* Takes 16 bytes as they are. A len other than 16 is refused with 8, MalformedBytes, and out16 holds 16 zero bytes. */
uint32_t decimal128_parse(const uint8_t *bytes, size_t len, uint8_t out16[16]);

/* Compares two stored values, canonical or not, by value: *order is -1, 0 or 1 as a is less than, equal to or greater than b,
 * and 0 is returned. Minus zero equals zero, 0.70 equals 0.7, and the infinities stand at the ends, each equal to itself. With
 * a NaN, be it a, b or both, *order is 0 and 11, NotOrdered, is returned: an order of 0 says equal only beside the number 0. */
uint32_t decimal128_compare(const uint8_t a16[16], const uint8_t b16[16], int32_t *order);

/* A part of a text that was lent: len bytes from start on, good for as long as that text is. */
struct decimal128_part {
    const uint8_t *start;
    size_t len;
};

/* Of two texts, gives the one whose value is greater, and the first when they are equal by value. *part is then that text
 * itself, as it was lent: {a, alen} or {b, blen}. Where either text is refused or is NaN, *part is {a, 0}, an empty part of the
 * first; no accepted text is empty, so a len of 0 says just that. What *part holds before is not read.
 *
 * It is in a library of its own, liblarger.a: its copy of the reader would slow decimal128_read in the same library. */
void decimal128_larger(const uint8_t *a, size_t alen, const uint8_t *b, size_t blen, struct decimal128_part *part);

#ifdef __cplusplus
}
#endif

#endif
