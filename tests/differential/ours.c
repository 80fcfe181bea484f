// The library's answers in the oracle's form: `ours texts` and `ours values`, one hex line in, one record out.
#include "decimal128.h"
#include <stdio.h>
#include <stdlib.h>
#include <string.h>

static int digit(int c) {
    if (c >= '0' && c <= '9') return c - '0';
    if (c >= 'a' && c <= 'f') return c - 'a' + 10;
    return -1;
}

// The bytes of a line of hex digits, in place; how many there are.
static size_t unhex(char *line, size_t n) {
    uint8_t *out = (uint8_t *)line;
    for (size_t i = 0; i + 1 < n; i += 2) out[i / 2] = (uint8_t)(digit(line[i]) * 16 + digit(line[i + 1]));
    return n / 2;
}

static void hex(const uint8_t bytes[16]) {
    for (int i = 0; i < 16; i++) printf("%02x", bytes[i]);
}

// number TAB hex TAB text TAB place, or number TAB - TAB - TAB place
static void text(const uint8_t *bytes, size_t n) {
    uint8_t value[16], buf[DECIMAL128_TEXT];
    size_t len = 0, place = SIZE_MAX;
    uint32_t number = decimal128_read(bytes, n, value, &place);
    if (number) {
        printf("%u\t-\t-\t%zu\n", number, place);
        return;
    }
    decimal128_write(value, buf, sizeof buf, &len);
    printf("0\t");
    hex(value);
    printf("\t%.*s\t%zu\n", (int)len, (char *)buf, place);
}

// text TAB debug form
static void value(const uint8_t bytes[16]) {
    uint8_t buf[DECIMAL128_TEXT], debug[DECIMAL128_DEBUG];
    size_t len = 0, n = 0;
    decimal128_write(bytes, buf, sizeof buf, &len);
    decimal128_debug(bytes, debug, sizeof debug, &n);
    printf("%.*s\t%.*s\n", (int)len, (char *)buf, (int)n, (char *)debug);
}

int main(int argc, char **argv) {
    int values = argc > 1 && !strcmp(argv[1], "values");
    char *line = 0;
    size_t room = 0;
    ssize_t n;
    while ((n = getline(&line, &room, stdin)) >= 0) {
        if (n > 0 && line[n - 1] == '\n') n--;
        size_t count = unhex(line, (size_t)n);
        if (values) value((const uint8_t *)line);
        else text((const uint8_t *)line, count);
    }
    free(line);
    return 0;
}
