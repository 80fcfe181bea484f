// gcc_orders list: a fixed list of pairs of stored values, 32 bytes a pair, a then b. gcc_orders answers <PAIRS: what gcc's
// comparison says of each, number TAB order LF.
#include "pairs.h"

static void put(struct pair p) { fwrite(&p, sizeof p, 1, stdout); }

// Every two of these, each with either sign; how many pairs.
static int edges(void) {
    const u128 one = 1, limit = power(DIGITS);
    const u128 values[] = {
        // zeros, and what stands for zero
        packed(0, 0, 0), packed(0, 6176, 0), packed(0, LAST, 0),
        packed(0, 6176, limit), packed(0, LAST, (one << 113) - 1), 3 * one << 125, (one << 127) - (one << 123) - 1,
        // 1 and 0.7, each with two exponents
        packed(0, 6176, 1), packed(0, 6143, power(33)), packed(0, 6175, 7), packed(0, 6174, 70),
        // the least and the greatest, and one less in the last place than a power of ten
        packed(0, 0, 1), packed(0, 0, limit - 1), packed(0, 34, 1), packed(0, LAST, 1), packed(0, LAST, limit - 1), packed(0, LAST - 34, limit - 1),
        // where a limb ends
        packed(0, 6176, (one << 32) - 1), packed(0, 6176, one << 32), packed(0, 6176, (one << 64) - 1), packed(0, 6176, one << 64), packed(0, 6175, 10 * (one << 64) + 1),
        packed(0, 6176, one << 112), packed(0, 6176, (one << 112) + (one << 63)),
        // infinity without and with other bits; NaN: quiet, signalling, with a payload
        30 * one << 122, (30 * one << 122) + 1, 31 * one << 122, 63 * one << 121, (31 * one << 122) + 1,
    };
    const int n = 2 * sizeof values / sizeof *values;
    for (int i = 0; i < n; i++)
        for (int j = 0; j < n; j++) put((struct pair){values[i / 2] | (u128)(i % 2) << 127, values[j / 2] | (u128)(j % 2) << 127});
    return n * n;
}

// more than two blocks of 65,536 bytes
static void list(void) {
    seed = 20261115;
    for (int i = edges(); i < 4500; i++) put(classes[i % CLASSES].draw());
}

static void answers(void) {
    struct pair p;
    int32_t order;
    while (fread(&p, sizeof p, 1, stdin)) {
        uint32_t number = gcc_compare(p.a, p.b, &order);
        printf("%u\t%d\n", number, order);
    }
}

int main(int argc, char **argv) {
    if (argc == 2 && !strcmp(argv[1], "list")) list();
    else if (argc == 2 && !strcmp(argv[1], "answers")) answers();
    else return 2;
    return 0;
}
