// The Rust, unchanged, behind the functions of rust/src/lib.rs.
#include "impl.h"

int orig_read(const uint8_t *text, size_t length, uint8_t *out);
size_t orig_write(const uint8_t *in, uint8_t *buf, size_t room);
size_t orig_to_string(const uint8_t *in, uint8_t *buf, size_t room);

const struct impl rust_impls[] = {
    { .name = "rust", .read = orig_read, .write = orig_write },
    { .name = "rust_to_string", .write = orig_to_string },
    { 0 },
};
