// against_gcc PAIRS SEED <VALUES: decimal128_compare and decimal128_larger beside gcc's comparison, both ways round. VALUES are
// lines of 32 hex digits, of which every two are compared; so many pairs of values, and a quarter as many of texts, are drawn.
#include "decimal128.h"
#include "pairs.h"

// ---- two values

enum { LESS, EQUAL, GREATER, NOT_ORDERED, ANSWERS };

static void hex(const char *what, u128 value) {
    const uint8_t *bytes = (const uint8_t *)&value;
    printf("%s ", what);
    for (int i = 0; i < 16; i++) printf("%02x", bytes[i]);
    printf("\n");
}

static int values(u128 a, u128 b) {
    int32_t theirs, ours;
    uint32_t their_number = gcc_compare(a, b, &theirs);
    memset(&ours, 0xaa, sizeof ours);
    uint32_t number = decimal128_compare((const uint8_t *)&a, (const uint8_t *)&b, &ours);
    if (number != their_number || ours != theirs) {
        hex("a:   ", a);
        hex("b:   ", b);
        printf("gcc:  number %u, order %d\nours: number %u, order %d\n", their_number, theirs, number, ours);
        exit(1);
    }
    return number ? NOT_ORDERED : LESS + 1 + ours;
}

static void both_ways(struct pair p, long answers[ANSWERS]) {
    answers[values(p.a, p.b)]++;
    values(p.b, p.a);
}

static void show(const char *name, const long answers[ANSWERS]) {
    long sum = 0;
    for (int i = 0; i < ANSWERS; i++) sum += answers[i];
    printf("%-26s%8ld pairs: %7ld less, %7ld equal, %7ld greater, %7ld not ordered\n", name, sum, answers[LESS], answers[EQUAL], answers[GREATER], answers[NOT_ORDERED]);
}

// every two of the values on standard input; how many pairs
static long listed(void) {
    static u128 list[4096];
    long answers[ANSWERS] = {0};
    int n = 0;
    char line[64];
    while (n < 4096 && fgets(line, sizeof line, stdin)) {
        for (int i = 0; i < 16; i++) sscanf(line + 2 * i, "%2hhx", (uint8_t *)&list[n] + i);
        n++;
    }
    for (int i = 0; i < n; i++)
        for (int j = 0; j <= i; j++) both_ways((struct pair){list[i], list[j]}, answers);
    show("listed values, every two", answers);
    return (long)n * (n + 1) / 2;
}

static void drawn(long pairs) {
    static long answers[CLASSES][ANSWERS];
    for (long i = 0; i < pairs; i++) both_ways(classes[i % CLASSES].draw(), answers[i % CLASSES]);
    for (int i = 0; i < CLASSES; i++) show(classes[i].name, answers[i]);
}

// ---- two texts

enum { FIRST, SECOND, REFUSED, NAN_, PARTS };

struct text {
    size_t len;
    char bytes[128];
};

static void insert(struct text *t, size_t at, const char *more) {
    size_t n = strlen(more);
    memmove(t->bytes + at + n, t->bytes + at, t->len - at);
    memcpy(t->bytes + at, more, n);
    t->len += n;
}

// zeros behind the digits, and behind a point, so that the value stays
static void more_zeros(struct text *t) {
    const char *e = memchr(t->bytes, 'E', t->len);
    size_t end = e ? (size_t)(e - t->bytes) : t->len;
    if (!memchr(t->bytes, '.', end)) insert(t, end++, ".");
    for (unsigned n = pick(40); n; n--) insert(t, end, "0");
}

// a value's text, often in other words, and now and then damaged
static void worded(struct text *t, u128 value) {
    decimal128_write((const uint8_t *)&value, (uint8_t *)t->bytes, sizeof t->bytes, &t->len);
    if (pick(3) == 0) more_zeros(t);
    if (pick(3) == 0 && t->bytes[0] != '-') insert(t, 0, pick(2) ? "+" : "+000");
    unsigned other_case = pick(2);
    for (size_t i = 0; i < t->len; i++)
        if (other_case && t->bytes[i] >= 'A' && pick(2)) t->bytes[i] ^= 32;
    if (pick(32) == 0) t->bytes[pick((unsigned)t->len)] = " .eE+-0x"[pick(8)];
}

static void text(struct text *t, u128 value) {
    static const char *const refused[] = {
        "", "-", "+", ".", "1e", "1e+", "1E6145", "1E-6177", "-1E-6178", "1.2.3", "12x", " 1", "1 ", "--1", "infinit", "infinite", "0.0E-170141183460469231731687303715884105728",
    };
    static const char *const nan_words[] = {"NaN", "nan", "NAN", "+NaN", "-nan", "sNaN", "snan", "-sNaN", "+SNAN"};
    unsigned way = pick(24);
    t->len = 0;
    if (way == 0) insert(t, 0, refused[pick(sizeof refused / sizeof *refused)]);
    else if (way == 1) insert(t, 0, nan_words[pick(sizeof nan_words / sizeof *nan_words)]);
    else worded(t, value);
}

// what gcc's comparison of the two readings asks for
static int asked(const uint8_t *a, size_t alen, const uint8_t *b, size_t blen) {
    u128 v, w;
    size_t place;
    int32_t order;
    if (decimal128_read(a, alen, (uint8_t *)&v, &place) || decimal128_read(b, blen, (uint8_t *)&w, &place)) return REFUSED;
    if (gcc_compare(v, w, &order)) return NAN_;
    return order < 0 ? SECOND : FIRST;
}

static int larger(const uint8_t *a, size_t alen, const uint8_t *b, size_t blen) {
    int answer = asked(a, alen, b, blen);
    struct decimal128_part theirs = {answer == SECOND ? b : a, answer == SECOND ? blen : answer == FIRST ? alen : 0}, ours;
    // what it holds before does not count
    memset(&ours, 0xaa, sizeof ours);
    decimal128_larger(a, alen, b, blen, &ours);
    if (ours.start != theirs.start || ours.len != theirs.len) {
        printf("a:    %zu bytes at %p: \"%.*s\"\nb:    %zu bytes at %p: \"%.*s\"\n", alen, (void *)a, (int)alen, (char *)a, blen, (void *)b, (int)blen, (char *)b);
        printf("gcc:  %zu bytes at %p\nours: %zu bytes at %p\n", theirs.len, (void *)theirs.start, ours.len, (void *)ours.start);
        exit(1);
    }
    return answer;
}

static void drawn_texts(long pairs) {
    static long answers[PARTS];
    static struct text a, b;
    static uint8_t lent[sizeof a.bytes + sizeof b.bytes + 1];
    for (long i = 0; i < pairs; i++) {
        struct pair p = classes[i % CLASSES].draw();
        text(&a, p.a);
        text(&b, p.b);
        // end to end, with a digit behind them: a byte too many would make another value
        memcpy(lent, a.bytes, a.len);
        memcpy(lent + a.len, b.bytes, b.len);
        lent[a.len + b.len] = '7';
        answers[larger(lent, a.len, lent + a.len, b.len)]++;
        larger(lent + a.len, b.len, lent, a.len);
    }
    printf("%-26s%8ld pairs: %7ld the first, %7ld the second, %7ld none: refused, %7ld none: NaN\n", "texts", pairs, answers[FIRST], answers[SECOND], answers[REFUSED], answers[NAN_]);
}

int main(int argc, char **argv) {
    long pairs = argc == 3 ? atol(argv[1]) : 0, texts = pairs / 4;
    if (pairs < 1) {
        fprintf(stderr, "usage: against_gcc PAIRS SEED <VALUES\n");
        return 2;
    }
    seed = strtoull(argv[2], 0, 10);
    long list = listed();
    drawn(pairs);
    drawn_texts(texts);
    printf("%ld pairs of values and %ld of texts compared, each both ways round: no difference (seed %s, gcc " __VERSION__ ")\n", list + pairs, texts, argv[2]);
    return 0;
}
