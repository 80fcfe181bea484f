// The C functions, called as a C program calls them: each answer with its place, what is left alone, short buffers, the order
// of two values, and the larger of two texts.
#include "decimal128.h"
#include <stdio.h>
#include <string.h>

static int passed, failed;

static void expect(int holds, const char *what) {
    if (holds) {
        passed++;
    } else {
        failed++;
        printf("failed: %s\n", what);
    }
}

// A text, the number of its answer, the place, and what its bytes are written as.
static void read_as(const char *text, uint32_t number, size_t place, const char *written) {
    static const uint8_t zeros[16];
    uint8_t value[16], buf[64];
    size_t got_place = 0xaaaa, len = 99;
    memset(value, 0xaa, sizeof value);
    expect(decimal128_read((const uint8_t *)text, strlen(text), value, &got_place) == number, text);
    expect(got_place == place, text);
    if (number) {
        expect(!memcmp(value, zeros, 16), "a refusal carries 16 zero bytes");
        return;
    }
    size_t n = strlen(written);
    for (size_t cap = 0; cap <= sizeof buf; cap++) {
        memset(buf, 0x55, sizeof buf);
        uint32_t got = decimal128_write(value, buf, cap, &len);
        size_t kept = cap < n ? 0 : n;
        expect(got == (cap < n ? DECIMAL128_NO_ROOM : DECIMAL128_ACCEPTED), "NoRoom exactly where the buffer is shorter than the text");
        expect(len == kept, "the length");
        expect(!memcmp(buf, written, kept), "the text");
        for (size_t i = kept; i < sizeof buf; i++) expect(buf[i] == 0x55, "what stands after the text stays");
    }
}

static void accepted(void) {
    read_as("0.70", 0, 0, "0.70");
    read_as("-0", 0, 0, "-0");
    read_as("1E6144", 0, 0, "1.000000000000000000000000000000000E+6144");
    read_as("-9.999999999999999999999999999999999E-6143", 0, 0, "-9.999999999999999999999999999999999E-6143");
    read_as("-inf", 0, 0, "-Infinity");
    read_as("-sNaN", 0, 0, "NaN");
    read_as("0E-170141183460469231731687303715884105728", 0, 0, "0E-6176");
}

static void refused(void) {
    read_as("1e", 1, 1, 0);
    read_as("-infinitE", 1, 8, 0);
    read_as("1e+", 2, 2, 0);
    read_as("-1E5x", 2, 3, 0);
    read_as("1.2.3", 3, 3, 0);
    read_as("-0.00.1E5", 3, 5, 0);
    read_as("1E6145", 4, 2, 0);
    read_as("-1e-6178", 4, 3, 0);
    read_as("0.0E-170141183460469231731687303715884105728", 5, 4, 0);
    read_as("-.0e-170141183460469231731687303715884105728", 5, 4, 0);
    read_as("1E-6177", 6, 0, 0);
    read_as("-10.02e-6176", 6, 5, 0);
    read_as("10000000000000000000000000000000000.01", 6, 37, 0);
    read_as("", 7, 0, 0);
    read_as("-", 7, 1, 0);
    read_as("..e5", 7, 2, 0);
    read_as("-1x2e5", 7, 2, 0);
}

// 10^-6177 and less without an `e`: 0, the point, so many zeros, 1.
static void refused_below(size_t zeros, uint32_t number, size_t place) {
    char text[7000] = "0.";
    memset(text + 2, '0', zeros);
    text[2 + zeros] = '1';
    read_as(text, number, place, 0);
}

// The number and the order of two stored values, both ways round; what *order holds before does not count.
static void compared_as(const uint8_t a[16], const uint8_t b[16], uint32_t number, int32_t order, const char *what) {
    int32_t got = 0x55, turned = -0x55;
    expect(decimal128_compare(a, b, &got) == number && got == order, what);
    expect(decimal128_compare(b, a, &turned) == number && turned == -order, what);
}

// Two texts that stand end to end, with a digit behind them, and which is the larger: 1 or 2, or 0 for an empty part of the
// first. The parts beside the one that is given stay as they were.
static void larger_is(const char *first, const char *second, int larger) {
    uint8_t lent[128];
    size_t alen = strlen(first), blen = strlen(second);
    const uint8_t *a = lent, *b = lent + alen;
    snprintf((char *)lent, sizeof lent, "%s%s7", first, second);
    struct decimal128_part parts[3], as_before;
    memset(&as_before, 0xaa, sizeof as_before);
    memset(parts, 0xaa, sizeof parts);
    decimal128_larger(a, alen, b, blen, &parts[1]);
    expect(parts[1].start == (larger == 2 ? b : a), first);
    expect(parts[1].len == (larger == 2 ? blen : larger == 1 ? alen : 0), first);
    expect(!memcmp(&parts[0], &as_before, sizeof as_before) && !memcmp(&parts[2], &as_before, sizeof as_before), "the parts beside it");
}

// Two texts that are no NaN, and the order of their values.
static void ordered_as(const char *first, const char *second, int32_t order) {
    uint8_t a[16], b[16];
    size_t place;
    expect(!decimal128_read((const uint8_t *)first, strlen(first), a, &place), first);
    expect(!decimal128_read((const uint8_t *)second, strlen(second), b, &place), second);
    compared_as(a, b, 0, order, first);
    larger_is(first, second, order < 0 ? 2 : 1);
    larger_is(second, first, order > 0 ? 2 : 1);
}

#define NINES "9999999999999999999999999999999999"

static void ordered(void) {
    static const struct {
        const char *first, *second;
        int32_t order;
    } rows[] = {
        {"1", "2", -1}, {"-1", "-2", 1}, {"-1", "1", -1}, {"137.25", "137.24", 1},
        // equal by value: the first
        {"0.70", "0.7", 0}, {"+0.700", "7e-1", 0}, {"-1E+3", "-1000", 0}, {"1E6144", "1.000000000000000000000000000000000E+6144", 0},
        {"0.7000000000000000000000000000000000000000000000000000000000", "0.7", 0},
        {"-0", "0", 0}, {"-0E-6176", "0E+6111", 0}, {"0E+6111", "1E-6176", -1}, {"-0", "-1E-6176", 1},
        // one more in the last place
        {NINES, "1E34", -1}, {"1E34", "1.000000000000000000000000000000001E34", -1}, {"-" NINES, "-9999999999999999999999999999999998", -1},
        // exponents 12,287 apart, -6176 and 6111
        {NINES "E-6176", "1E6111", -1}, {"-" NINES "E-6176", "-1E6111", 1}, {"-" NINES "E6111", "1E-6176", -1},
        // infinities at the ends
        {"inf", NINES "E6111", 1}, {"-inf", "-" NINES "E6111", -1}, {"-Infinity", "Infinity", -1}, {"-inf", "0", -1},
        {"+inf", "infinity", 0}, {"-INF", "-Infinity", 0},
    };
    for (size_t i = 0; i < sizeof rows / sizeof *rows; i++) ordered_as(rows[i].first, rows[i].second, rows[i].order);
}

// An empty part of the first, whichever of the two is refused or NaN.
static void neither(void) {
    static const char *const texts[] = {"", "x", "-", "1e", "1.2.3", "1E6145", "1E-6177", "NaN", "-nan", "sNaN", "-sNaN"};
    for (size_t i = 0; i < sizeof texts / sizeof *texts; i++) {
        larger_is(texts[i], "1", 0);
        larger_is("1", texts[i], 0);
        larger_is(texts[i], "-Infinity", 0);
        larger_is("Infinity", texts[i], 0);
        larger_is(texts[i], texts[i], 0);
        larger_is(texts[i], "", 0);
        larger_is("NaN", texts[i], 0);
    }
}

// The same text lent twice, and a text with its own end.
static void one_text(void) {
    const uint8_t text[] = "-10.70x";
    struct decimal128_part part = {0, 0};
    decimal128_larger(text, 6, text, 6, &part);
    expect(part.start == text && part.len == 6, "the same text twice");
    decimal128_larger(text, 7, text, 7, &part);
    expect(part.start == text && part.len == 0, "the same refused text twice");
    decimal128_larger(text, 6, text + 1, 5, &part);
    expect(part.start == text + 1 && part.len == 5, "-10.70 and its 10.70");
    decimal128_larger(text + 2, 4, text + 2, 3, &part);
    expect(part.start == text + 2 && part.len == 4, "0.70 and its 0.7");
    decimal128_larger(text + 2, 3, text + 2, 4, &part);
    expect(part.start == text + 2 && part.len == 3, "0.7 of 0.70, and that");
}

// Stored values that no text gives.
static void bits_compared(void) {
    const uint8_t zero[16] = {[14] = 0x40, 0x30}, one[16] = {1, [14] = 0x40, 0x30};
    // -10^34 in the first finite form; in the second every coefficient is above
    const uint8_t above[16] = {[4] = 0x64, 0x8e, 0x8d, 0x37, 0xc0, 0x87, 0xad, 0xbe, 0x09, 0xed, 0x41, 0xb0};
    const uint8_t second[16] = {1, [15] = 0x6c}, second_last[16] = {[14] = 0xff, 0xf7};
    const uint8_t infinity[16] = {[15] = 0x78}, loaded_infinity[16] = {0xff, [13] = 0xff, [15] = 0x7b};
    const uint8_t quiet[16] = {[15] = 0x7c}, signalling[16] = {[15] = 0xfe}, loaded[16] = {7, [13] = 1, [15] = 0xfd};
    compared_as(zero, one, 0, -1, "0 and 1");
    compared_as(one, one, 0, 0, "a value and itself");
    compared_as(above, zero, 0, 0, "a coefficient above 10^34-1 stands for zero");
    compared_as(above, one, 0, -1, "and is less than 1");
    compared_as(second, zero, 0, 0, "the second finite form stands for zero");
    compared_as(second_last, above, 0, 0, "at any exponent");
    compared_as(second_last, one, 0, -1, "and is less than 1, too");
    compared_as(second, infinity, 0, -1, "and than infinity");
    compared_as(loaded_infinity, infinity, 0, 0, "infinity with other bits set");
    const uint8_t *const nans[] = {quiet, signalling, loaded}, *const values[] = {zero, one, above, second, infinity, loaded_infinity, quiet, signalling, loaded};
    for (size_t i = 0; i < sizeof nans / sizeof *nans; i++)
        for (size_t j = 0; j < sizeof values / sizeof *values; j++) compared_as(nans[i], values[j], 11, 0, "a NaN");
    expect(DECIMAL128_NOT_ORDERED == 11, "NotOrdered is 11");
}

int main(void) {
    accepted();
    refused();
    ordered();
    neither();
    one_text();
    bits_compared();
    // 10^-6177 is 6 at its 1; 10^-6178 is 4, at the text's length
    refused_below(6176, 6, 6178);
    refused_below(6177, 4, 6180);

    uint8_t bytes[17], out[16], buf[80];
    size_t len;
    for (int i = 0; i < 17; i++) bytes[i] = (uint8_t)(17 * i);
    expect(decimal128_parse(bytes, 16, out) == 0 && !memcmp(bytes, out, 16), "parse of 16 bytes");
    for (size_t n = 0; n <= 17; n++) {
        memset(out, 0xaa, 16);
        if (n != 16) expect(decimal128_parse(bytes, n, out) == 8 && !memcmp(out, (uint8_t[16]){0}, 16), "parse of another length");
    }
    expect(decimal128_debug(bytes, buf, 44, &len) == 0 && len == 44 && !memcmp(buf, "Decimal128(00112233445566778899aabbccddeeff)", 44), "the debug form");
    memset(buf, 0x55, sizeof buf);
    expect(decimal128_debug(bytes, buf, 43, &len) == 9 && len == 0 && buf[0] == 0x55 && buf[42] == 0x55, "the debug form without room");
    printf("%d passed, %d failed\n", passed, failed);
    return failed != 0;
}
