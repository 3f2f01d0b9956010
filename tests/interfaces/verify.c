/* Verifies records from standard input through carolsedge_verify, a line each in the independent program's form
 * (tests/independent/FORMAT.md, 13 and 14). What is refused has to leave its verdict as it was, and figures that an
 * answer does not have are 0; otherwise the program fails with a message. */
#include <inttypes.h>
#include <stdio.h>
#include <stdlib.h>
#include <string.h>

#include "carolsedge.h"

enum { LONGEST = 1 << 20, MARK = 0xC5 };
static uint8_t record[LONGEST];

static void fail(const char *what)
{
    fprintf(stderr, "verify: %s\n", what);
    exit(2);
}

static uint64_t bits(double number)
{
    uint64_t word;
    memcpy(&word, &number, sizeof word);
    return word;
}

static void print(size_t length)
{
    struct carolsedge_verdict v, before;
    memset(&v, MARK, sizeof v), before = v;
    uint32_t number = carolsedge_verify(record, length, &v);
    if (number == CAROLSEDGE_DONE) {
        if (v.mark || v.row || v.found || v.limit)
            fail("a record that could be sealed lacks a mark");
        printf("reached %" PRIu64 " %" PRIu64 " %" PRIu64 " %" PRIu64, v.unrepeated, v.pictures, v.packets, v.lost);
        printf(" %016" PRIX64 " %016" PRIX64 " %016" PRIX64 "\n", bits(v.index.ic), bits(v.index.ip),
               bits(v.index.value));
    } else if (number == CAROLSEDGE_NOT_SEALED) {
        if (v.unrepeated || v.pictures || v.packets || v.lost || bits(v.index.ic) || bits(v.index.ip) ||
            bits(v.index.value))
            fail("a record that could not be sealed has totals");
        printf("not sealed %" PRIu64 " %" PRIu64 " %" PRIu64 " %" PRIu64 "\n", v.mark, v.row, v.found, v.limit);
    } else {
        if (memcmp(&v, &before, sizeof v) != 0)
            fail("a refused record's verdict was written");
        printf("refused %" PRIu32 " 0\n", number);
    }
}

int main(void)
{
    uint8_t head[4];
    while (fread(head, 1, sizeof head, stdin) == sizeof head) {
        size_t length = head[0] | (size_t)head[1] << 8 | (size_t)head[2] << 16 | (size_t)head[3] << 24;
        if (length > sizeof record || fread(record, 1, length, stdin) != length)
            fail("the input ends inside a record");
        print(length);
    }
    return 0;
}
