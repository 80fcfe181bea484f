// This library.
#include "impl.h"
#include "decimal128.h"

static int read_text(const uint8_t *text, size_t length, uint8_t *out) {
    size_t place;
    return (int)decimal128_read(text, length, out, &place);
}

static size_t write_text(const uint8_t *in, uint8_t *buf, size_t room) {
    size_t length;
    decimal128_write(in, buf, room, &length);
    return length;
}

static int less(const uint8_t *a, const uint8_t *b) {
    int32_t order;
    decimal128_compare(a, b, &order);
    return order < 0;
}

const struct impl ours_impls[] = { { .name = "ours", .read = read_text, .write = write_text, .less = less }, { 0 } };
