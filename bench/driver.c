// driver count FILE, or driver time FILE ROUNDS: measures the operations of all implementations over the lines of FILE, by classes.
//
// A line of FILE is CLASS, TEXT, BYTES, DENSE, separated by tabs: the 16 stored bytes as hexadecimal digits, and those of the same
// value densely packed. A `-` or a missing field says that there are none. The lines of a class stand together.
// `count` marks each measurement for count.c, and prints MARK, NAME, OPERATION, CLASS, and how many operations it was. The name `nop`
// is an empty call.
// `time` prints NAME, OPERATION, CLASS, and the nanoseconds per operation, the call included: the best of ROUNDS rounds in which the
// implementations take turns.
#define _GNU_SOURCE
#include "impl.h"
#include <stdio.h>
#include <stdlib.h>
#include <sys/syscall.h>
#include <time.h>
#include <unistd.h>
#define MARK 61453L // a system call that no kernel has
enum { MAX_LINES = 4096, MAX_IMPLS = 16 };
enum { READ, WRITE, LESS, TO_DPD, FROM_DPD, TO_DOUBLE, OPERATIONS };
static const char *const operation_names[] = { "read", "write", "less", "to_dpd", "from_dpd", "to_double" };

static void fail(const char *what, const char *which) { fprintf(stderr, "driver: %s%s\n", what, which); exit(2); }

// ---- the implementations

static int nop_read(const uint8_t *text, size_t length, uint8_t *out) { (void)text; (void)length; (void)out; return 0; }
static size_t nop_write(const uint8_t *in, uint8_t *buf, size_t room) { (void)in; (void)buf; (void)room; return 0; }
static int nop_less(const uint8_t *a, const uint8_t *b) { (void)a; (void)b; return 0; }
static int nop_convert(const uint8_t *in, uint8_t *out) { (void)in; (void)out; return 0; }
static const struct impl nop_impls[] = { { "nop", nop_read, nop_write, nop_less, nop_convert, nop_convert, nop_convert }, { 0 } };

// A peer that could not be had is not linked into the program: its table is weak, and then null.
extern __attribute__((weak)) const struct impl ours_impls[], rust_impls[], bson_impls[], intel_impls[], gcc_impls[];
static const struct impl *const tables[] = { nop_impls, ours_impls, rust_impls, bson_impls, intel_impls, gcc_impls };

static int has(const struct impl *m, int operation) {
    switch (operation) {
    case READ: return m->read != NULL;
    case WRITE: return m->write != NULL;
    case LESS: return m->less != NULL;
    case TO_DPD: return m->to_dpd != NULL;
    case FROM_DPD: return m->from_dpd != NULL;
    default: return m->to_double != NULL;
    }
}

// those that have the operation, `nop` first
static const struct impl *impls[MAX_IMPLS];
static int nimpls;

static void choose_impls(int operation) {
    nimpls = 0;
    for (size_t t = 0; t < sizeof tables / sizeof *tables; t++)
        for (const struct impl *m = tables[t]; m && m->name; m++) if (has(m, operation)) impls[nimpls++] = m;
}

// ---- the lines

static struct line {
    char class[16];
    uint8_t *text;
    size_t length;
    int has_bytes, has_dense;
    uint8_t bytes[16], dense[16];
} lines[MAX_LINES];
static int nlines;

static int parse_bytes(const char *digits, uint8_t out[16]) {
    if (!digits || strlen(digits) != 32) return 0;
    for (int i = 0; i < 16; i++) if (sscanf(digits + 2 * i, "%2hhx", &out[i]) != 1) return 0;
    return 1;
}

static void load(const char *file) {
    static char row[1 << 17];
    FILE *f = fopen(file, "r");
    if (!f) fail("cannot read ", file);
    while (fgets(row, sizeof row, f)) {
        row[strcspn(row, "\n")] = 0;
        char *rest = row, *class = strsep(&rest, "\t"), *text = strsep(&rest, "\t");
        char *bytes = strsep(&rest, "\t"), *dense = strsep(&rest, "\t");
        if (!text || nlines == MAX_LINES) fail("no text, or too many lines: ", file);
        struct line *line = &lines[nlines++];
        snprintf(line->class, sizeof line->class, "%s", class);
        line->text = (uint8_t *)strdup(text); // with the NUL that Intel's reader needs
        line->length = strlen(text);
        line->has_bytes = parse_bytes(bytes, line->bytes);
        line->has_dense = parse_bytes(dense, line->dense);
    }
    fclose(f);
}

// what one measurement works on: texts for reading, values for all other operations
static const uint8_t *texts[MAX_LINES];
static size_t lengths[MAX_LINES];
static uint8_t values[MAX_LINES][16];
static int count;

static void choose_lines(int operation, const struct line *from, const struct line *end) {
    count = 0;
    for (const struct line *line = from; line < end; line++) {
        if (operation == READ) texts[count] = line->text, lengths[count++] = line->length;
        else if (operation == FROM_DPD && line->has_dense) memcpy(values[count++], line->dense, 16);
        else if (operation != FROM_DPD && line->has_bytes) memcpy(values[count++], line->bytes, 16);
    }
}

// ---- the measured loops

volatile int sink; // takes the answers, so that they are wanted

// noipa: no copy of it is made for one implementation, so that the loops are the same for all
static __attribute__((noipa)) void pass(const struct impl *m, int operation, long repetitions) {
    static uint8_t buf[64];
    uint8_t out[16] = { 0 };
    int sum = 0;
#define REPEAT(call) for (long r = 0; r < repetitions; r++) for (int i = 0; i < count; i++) sum += (int)(call)
    switch (operation) {
    case READ: REPEAT(m->read(texts[i], lengths[i], out)); break;
    case WRITE: REPEAT(m->write(values[i], buf, sizeof buf)); break;
    case LESS: REPEAT(m->less(values[i], values[i + 1 < count ? i + 1 : 0])); break;
    case TO_DPD: REPEAT(m->to_dpd(values[i], out)); break;
    case FROM_DPD: REPEAT(m->from_dpd(values[i], out)); break;
    case TO_DOUBLE: REPEAT(m->to_double(values[i], out)); break;
    }
    sink = sum + out[0];
}

static void count_all(int operation, const char *class) {
    static long mark = 1;
    for (int m = 0; m < nimpls; m++) {
        pass(impls[m], operation, 1); // what is done only once is done here
        syscall(MARK, 0L, 0L);
        pass(impls[m], operation, 1);
        syscall(MARK, mark, (long)count);
        printf("%ld\t%s\t%s\t%s\t%d\n", mark++, impls[m]->name, operation_names[operation], class, count);
    }
}

static double now(void) { struct timespec t; clock_gettime(CLOCK_MONOTONIC, &t); return t.tv_sec * 1e9 + t.tv_nsec; }

static double time_of(const struct impl *m, int operation, long repetitions) {
    double start = now();
    pass(m, operation, repetitions);
    return now() - start;
}

static void time_all(int operation, const char *class, int rounds) {
    enum { FIRST = 1 }; // after `nop`
    double best[MAX_IMPLS];
    long repetitions[MAX_IMPLS];
    for (int m = FIRST; m < nimpls; m++) {
        best[m] = 1e300;
        for (repetitions[m] = 1; time_of(impls[m], operation, repetitions[m]) < 4e5;) repetitions[m] *= 2;
    }
    for (int round = 0; round < rounds; round++) for (int m = FIRST; m < nimpls; m++) {
        double each = time_of(impls[m], operation, repetitions[m]) / repetitions[m] / count;
        if (each < best[m]) best[m] = each;
    }
    for (int m = FIRST; m < nimpls; m++) printf("%s\t%s\t%s\t%.2f\n", impls[m]->name, operation_names[operation], class, best[m]);
}

int main(int argc, char **argv) {
    int counting = argc == 3 && !strcmp(argv[1], "count"), timing = argc == 4 && !strcmp(argv[1], "time");
    if (!counting && !timing) fail("usage: driver count FILE, or driver time FILE ROUNDS", "");
    load(argv[2]);
    for (const struct line *from = lines, *end = lines; from < lines + nlines; from = end) {
        while (end < lines + nlines && !strcmp(end->class, from->class)) end++;
        for (int operation = 0; operation < OPERATIONS; operation++) {
            choose_impls(operation);
            choose_lines(operation, from, end);
            if (!count) continue;
            if (counting) count_all(operation, from->class);
            else time_all(operation, from->class, atoi(argv[3]));
        }
    }
    return 0;
}
