/* A shelf from standard input through carolsedge_shelf_open and carolsedge_shelf_part, as `carolsedge shelf` has them:
 * without an argument `records N lost TOTAL`, with a number J the bytes of record J, or `refused N P`. All parts, if
 * they are few, have to join without gaps and to be records that the reader takes, whose lost packets make the total;
 * what is refused has to stand. carolsedge_shelf_write has to make the same shelf of its records, or to refuse the
 * same record. Otherwise the program fails with a message. */
#include <inttypes.h>
#include <stdio.h>
#include <stdlib.h>
#include <string.h>

#include "carolsedge.h"

enum { INPUT = 131400000, TRIED = 12 }; /* more than any shelf */
static uint8_t shelf[INPUT], again[INPUT];
static uint32_t lengths[CAROLSEDGE_SHELF_RECORDS_MOST];

static void fail(const char *what)
{
    fprintf(stderr, "shelf: %s\n", what);
    exit(2);
}

static uint32_t open_shelf(size_t length, struct carolsedge_shelf *figures, uint64_t *place)
{
    struct carolsedge_shelf before;
    memset(figures, 0xA5, sizeof *figures), before = *figures;
    *place = 77;
    uint32_t number = carolsedge_shelf_open(shelf, length, figures, place);
    if (number != CAROLSEDGE_DONE && memcmp(figures, &before, sizeof before) != 0)
        fail("a refused shelf's figures were written");
    if (number != CAROLSEDGE_REFUSED_SHELF_RECORD && *place != 0)
        fail("a place that is not named");
    return number;
}

static uint32_t take(size_t length, size_t j, struct carolsedge_part *part, uint64_t *place)
{
    struct carolsedge_part before;
    memset(part, 0xA5, sizeof *part), before = *part;
    *place = 77;
    uint32_t number = carolsedge_shelf_part(shelf, length, j, part, place);
    if (number != CAROLSEDGE_DONE && memcmp(part, &before, sizeof before) != 0)
        fail("a refused part was written");
    if (number == CAROLSEDGE_DONE && (part->start >= part->end || part->end > length))
        fail("a part that is not within the shelf");
    return number;
}

/* The lost packets of a record that the reader has to take. */
static uint64_t lost_of(const uint8_t *record, size_t length)
{
    struct carolsedge_header header;
    struct carolsedge_unit unit;
    if (carolsedge_read_header(record, length, &header) != CAROLSEDGE_DONE)
        fail("a part that the reader refuses");
    uint64_t lost = 0;
    for (size_t i = 0; i < header.units; i++) {
        if (carolsedge_read_unit(record, length, i, &unit) != CAROLSEDGE_DONE)
            fail("a unit that is not there");
        lost += unit.lost;
    }
    return lost;
}

/* All parts of a shelf of few records. */
static void parts(size_t length, const struct carolsedge_shelf *figures)
{
    struct carolsedge_part part;
    uint64_t place, at = 8 + 4 * figures->records, lost = 0;
    for (size_t j = 0; j < figures->records; j++) {
        if (take(length, j, &part, &place) != CAROLSEDGE_DONE || part.start != at || place != 0)
            fail("the parts do not join");
        at = part.end;
        lost += lost_of(shelf + part.start, part.end - part.start);
    }
    if (at != length || lost != figures->lost)
        fail("the parts do not make the shelf, or their lost packets not the total");
}

static size_t word(size_t at)
{
    return shelf[at] + 256 * (size_t)shelf[at + 1] + 65536 * (size_t)shelf[at + 2] + 16777216 * (size_t)shelf[at + 3];
}

/* Writes the records of a shelf that is laid out into so many bytes; what is refused has to leave them. */
static uint32_t write_again(size_t length, size_t room, uint64_t *value)
{
    size_t records = word(0), head = 8 + 4 * records;
    for (size_t j = 0; j < records; j++)
        lengths[j] = (uint32_t)((j + 1 < records ? word(8 + 4 * (j + 1)) : length) - word(8 + 4 * j));
    memset(again, 0xA5, room + 1);
    uint32_t number = carolsedge_shelf_write(shelf + head, length - head, lengths, records, again, room, value);
    for (size_t i = number == CAROLSEDGE_DONE ? length : 0; i <= room; i++)
        if (again[i] != 0xA5)
            fail("a byte behind the shelf, or of a refused buffer, was written");
    return number;
}

/* What writing the records of a shelf answers, one byte too short, with just room and with more. */
static void written(size_t length, uint32_t number, uint64_t place)
{
    uint64_t value = 77;
    if (number == CAROLSEDGE_REFUSED_SHELF_RECORD) {
        if (write_again(length, length, &value) != number || value != place)
            fail("a refused record was written");
        return;
    }
    if (write_again(length, length - 1, &value) != CAROLSEDGE_REFUSED_BUFFER || value != length)
        fail("a buffer one byte too short");
    for (size_t more = 0; more < 100; more += 99)
        if (write_again(length, length + more, &value) != CAROLSEDGE_DONE || value != length ||
            memcmp(again, shelf, length) != 0)
            fail("the shelf was written otherwise");
    size_t records = word(0), head = 8 + 4 * records;
    if (records > 0 && lengths[0]-- > 0)
        if (carolsedge_shelf_write(shelf + head, length - head, lengths, records, again, length, &value) !=
                CAROLSEDGE_REFUSED_SHELF || value != 0 || memcmp(again, shelf, length) != 0)
            fail("lengths that do not add up");
}

int main(int count, char **words)
{
    size_t length = fread(shelf, 1, sizeof shelf, stdin);
    struct carolsedge_shelf figures;
    struct carolsedge_part part;
    uint64_t place, again;
    uint32_t number = open_shelf(length, &figures, &place);
    size_t none = number == CAROLSEDGE_DONE ? figures.records : 0;
    if (take(length, none, &part, &again) != (number == CAROLSEDGE_DONE ? CAROLSEDGE_REFUSED_ROW : number))
        fail("a record past the last, or of a refused shelf");
    if (number == CAROLSEDGE_DONE && again != 0)
        fail("19 has a place");
    if (number != CAROLSEDGE_DONE && again != place)
        fail("the two calls name two places");
    if (number == CAROLSEDGE_DONE && figures.records <= TRIED)
        parts(length, &figures);
    if (number != CAROLSEDGE_REFUSED_SHELF && length < INPUT - 100)
        written(length, number, place);
    if (count < 2 && number == CAROLSEDGE_DONE) {
        printf("records %" PRIu64 " lost %" PRIu64 "\n", figures.records, figures.lost);
        return 0;
    }
    if (count > 1)
        number = take(length, strtoull(words[1], NULL, 10), &part, &place);
    if (number != CAROLSEDGE_DONE) {
        printf("refused %u %" PRIu64 "\n", (unsigned)number, place);
        return 0;
    }
    return fwrite(shelf + part.start, 1, part.end - part.start, stdout) == part.end - part.start ? 0 : 2;
}
