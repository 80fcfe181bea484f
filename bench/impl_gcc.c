// gcc's own comparison of _Decimal128 (libgcc, the same binary integer form). It reads and writes no text.
#include "impl.h"

static _Decimal128 load(const uint8_t *p) { _Decimal128 d; memcpy(&d, p, 16); return d; }
static int less(const uint8_t *a, const uint8_t *b) { return load(a) < load(b); }

const struct impl gcc_impls[] = { { .name = "gcc", .less = less }, { 0 } };
