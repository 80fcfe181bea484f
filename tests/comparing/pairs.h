// Pairs of stored values, drawn by classes, and gcc's answer to a pair. Everything follows from the seed: no expression draws
// twice where C leaves open which comes first.
#include <stdint.h>
#include <stdio.h>
#include <stdlib.h>
#include <string.h>

// a stored value: on x86-64 its memory is the 16 bytes, lowest first
typedef unsigned __int128 u128;

struct pair {
    u128 a, b;
};

// ---- gcc's answer

// 0, and -1, 0 or 1 in *order; with a NaN 11, and 0.
static uint32_t gcc_compare(u128 a, u128 b, int32_t *order) {
    _Decimal128 x, y;
    memcpy(&x, &a, 16);
    memcpy(&y, &b, 16);
    int less = x < y, equal = x == y, greater = x > y, unordered = __builtin_isunordered(x, y) != 0;
    if (less + equal + greater + unordered != 1) {
        fprintf(stderr, "gcc says less %d, equal %d, greater %d, unordered %d of one pair\n", less, equal, greater, unordered);
        exit(1);
    }
    *order = greater - less;
    return unordered ? 11 : 0;
}

// ---- numbers

static uint64_t seed;

// splitmix64
static uint64_t word(void) {
    uint64_t z = seed += 0x9e3779b97f4a7c15;
    z = (z ^ z >> 30) * 0xbf58476d1ce4e5b9;
    z = (z ^ z >> 27) * 0x94d049bb133111eb;
    return z ^ z >> 31;
}

// 0 to n - 1
static unsigned pick(unsigned n) { return (unsigned)(word() % n); }

static u128 bits(unsigned n) {
    u128 high = word();
    u128 all = high << 64 | word();
    return all >> (128 - n);
}

// 0 to n, often an end
static unsigned up_to(unsigned n) {
    unsigned way = pick(8);
    return way == 0 ? 0 : way == 1 ? n : pick(n + 1);
}

static u128 power(unsigned n) {
    u128 p = 1;
    while (n--) p *= 10;
    return p;
}

// of n digits, often the first or the last such number
static u128 digits(unsigned n) {
    u128 first = power(n - 1);
    unsigned way = pick(8);
    return way == 0 ? first : way == 1 ? 10 * first - 1 : first + bits(127) % (9 * first);
}

// ---- values

// a coefficient's most digits, and the last exponent field
enum { DIGITS = 34, LAST = 12287 };

static u128 packed(unsigned sign, unsigned field, u128 coefficient) { return (u128)sign << 127 | (u128)field << 113 | coefficient; }

static u128 zero(void) {
    unsigned sign = pick(2);
    return packed(sign, up_to(LAST), 0);
}

static u128 ordinary(void) {
    unsigned sign = pick(2), field = up_to(LAST);
    return packed(sign, field, digits(1 + pick(DIGITS)));
}

// a coefficient from 10^34 to 2^113 - 1, which stands for zero
static u128 above(void) {
    unsigned sign = pick(2), field = up_to(LAST), first = pick(4) == 0;
    return packed(sign, field, power(DIGITS) + (first ? 0 : bits(127) % (((u128)1 << 113) - power(DIGITS))));
}

// the second finite form: its coefficient is above 2^113, so it stands for zero
static u128 second(void) {
    u128 top = 4 * pick(2) + 3, field = up_to(LAST);
    return top << 125 | field << 111 | (pick(4) ? bits(111) : 0);
}

static u128 infinity(void) {
    u128 top = 32 * pick(2) + 30;
    return top << 122 | (pick(2) ? bits(122) : 0);
}

// quiet or signalling, with a payload or none
static u128 not_a_number(void) {
    u128 top = 64 * pick(2) + 62;
    top += pick(2);
    return top << 121 | (pick(2) ? bits(121) : 0);
}

static u128 any(void) {
    static u128 (*const kinds[])(void) = {ordinary, ordinary, ordinary, zero, above, second, infinity, not_a_number};
    return kinds[pick(8)]();
}

// ---- classes

// one value twice: c·10^k at the field e, and c at e + k
struct twice {
    unsigned sign, e, k;
    u128 c;
};

static struct twice twice(unsigned least) {
    struct twice t;
    unsigned n = 1 + pick(DIGITS - least);
    t.k = least + pick(DIGITS - least - n + 1);
    t.c = digits(n);
    t.sign = pick(2);
    t.e = up_to(LAST - t.k);
    return t;
}

static struct pair equals(void) {
    struct twice t = twice(1);
    return (struct pair){packed(t.sign, t.e, t.c * power(t.k)), packed(t.sign, t.e + t.k, t.c)};
}

static struct pair last_digit(void) {
    struct twice t = twice(0);
    u128 wide = t.c * power(t.k);
    wide += wide == power(DIGITS) - 1 || pick(2) ? -1 : 1;
    return (struct pair){packed(t.sign, t.e, wide), packed(t.sign, t.e + t.k, t.c)};
}

static struct pair exponent(void) {
    struct twice t = twice(0);
    unsigned field = t.e + t.k;
    field += field == LAST || (field && pick(2)) ? -1 : 1;
    return (struct pair){packed(t.sign, t.e, t.c * power(t.k)), packed(t.sign, field, t.c)};
}

// n nines against 1 and m zeros, which stand for one more in the nines' last place
static struct pair nines(void) {
    unsigned n = 1 + pick(DIGITS), m = pick(DIGITS), sign = pick(2);
    // the lower of the two fields
    unsigned e = up_to(LAST - (unsigned)abs((int)n - (int)m));
    return (struct pair){packed(sign, m > n ? e + m - n : e, power(n) - 1), packed(sign, n > m ? e + n - m : e, power(m))};
}

// fewer and more digits with the first digit in one place; half of them begin with the same digits
static struct pair adjusted(void) {
    unsigned more = 2 + pick(DIGITS - 1), less = 1 + pick(more - 1), sign = pick(2), e = up_to(LAST - (more - less));
    u128 longer = digits(more);
    u128 shorter = pick(2) ? digits(less) : longer / power(more - less);
    return (struct pair){packed(sign, e + more - less, shorter), packed(sign, e, longer)};
}

static struct pair far_apart(void) {
    unsigned gap = DIGITS + up_to(LAST - DIGITS), e = up_to(LAST - gap), sign = pick(2);
    u128 low = digits(1 + pick(DIGITS));
    return (struct pair){packed(sign, e, low), packed(sign, e + gap, digits(1 + pick(DIGITS)))};
}

static struct pair signs(void) {
    u128 a = ordinary(), b = pick(2) ? a : ordinary();
    // b with the sign that a has not
    return (struct pair){a, b << 1 >> 1 | (~a >> 127 << 127)};
}

static struct pair zeros(void) {
    u128 a = zero();
    return (struct pair){a, pick(2) ? zero() : any()};
}

static struct pair infinities(void) {
    u128 a = infinity();
    return (struct pair){a, pick(2) ? infinity() : any()};
}

static struct pair nans(void) {
    u128 a = not_a_number();
    unsigned way = pick(4);
    return (struct pair){a, way == 0 ? a : way == 1 ? not_a_number() : any()};
}

static struct pair seconds(void) {
    u128 a = second();
    return (struct pair){a, any()};
}

static struct pair aboves(void) {
    u128 a = above();
    return (struct pair){a, any()};
}

static struct pair one_word(void) {
    u128 a = any(), by = pick(2) ? 1u << pick(32) : (uint32_t)word();
    return (struct pair){a, a ^ by << 32 * pick(4)};
}

static struct pair random_bits(void) {
    u128 a = bits(128);
    return (struct pair){a, bits(128)};
}

static const struct {
    const char *name;
    struct pair (*draw)(void);
} classes[] = {
    {"equal, exponents differ", equals},
    {"last digit one off", last_digit},
    {"exponent one off", exponent},
    {"9..9 and 10..0", nines},
    {"same adjusted exponent", adjusted},
    {"exponents far apart", far_apart},
    {"opposite signs", signs},
    {"zeros", zeros},
    {"infinities", infinities},
    {"NaNs", nans},
    {"second finite form", seconds},
    {"coefficient above 10^34-1", aboves},
    {"one bit or word apart", one_word},
    {"random bits", random_bits},
};
enum { CLASSES = sizeof classes / sizeof *classes };
