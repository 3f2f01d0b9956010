/* measure W H D PID CAPTURE LUMA [EDITION]: measures a sample and prints its record, as the programs measure and show
 * do together.
 *
 * Exit status: 0 printed, 1 refused (`refused NUMBER PLACE` on standard output), 2 usage, or a file or
 * standard output that fails.
 *
 *   cc -std=c11 -Iinclude examples/c/measure.c target/staticlib/libcarolsedge.a -o target/measure-c
 */
#include <errno.h>
#include <inttypes.h>
#include <stdio.h>
#include <string.h>

#include "carolsedge.h"

/* A word of the command line: decimal digits alone, below 2^32. */
static int number(const char *word, uint32_t *n)
{
    uint64_t x = 0;
    if (*word == 0)
        return 0;
    for (; *word; word++) {
        if (*word < '0' || '9' < *word)
            return 0;
        x = 10 * x + (uint64_t)(*word - '0');
        if (x > UINT32_MAX)
            return 0;
    }
    *n = (uint32_t)x;
    return 1;
}

static int failed(const char *name)
{
    fprintf(stderr, "measure: %s: %s\n", name, strerror(errno));
    return 2;
}

/* What was printed may still be on its way: only now is it known whether standard output takes it. */
static int printed(int status)
{
    return fflush(stdout) != 0 || ferror(stdout) ? failed("standard output") : status;
}

static int refused(uint32_t number, uint64_t place)
{
    printf("refused %" PRIu32 " %" PRIu64 "\n", number, place);
    return printed(1);
}

typedef uint32_t feed(struct carolsedge_sample *, const uint8_t *, size_t, uint64_t *);

/* Feeds a whole file. A refusal is kept by the sample: its seal repeats it. */
static int feed_file(struct carolsedge_sample *s, feed *side, const char *name)
{
    uint8_t piece[65536];
    uint64_t value;
    size_t n;
    FILE *file = fopen(name, "rb");
    if (!file)
        return failed(name);
    while ((n = fread(piece, 1, sizeof piece, file)) > 0)
        side(s, piece, n, &value);
    if (ferror(file)) {
        int status = failed(name);
        fclose(file);
        return status;
    }
    fclose(file);
    return 0;
}

static void print_unit(size_t j, const struct carolsedge_unit *u)
{
    printf("unit %zu %" PRIu64 " %" PRIu64 " %" PRIu64 " %" PRIu64 " %" PRIu64 "\n",
           j, u->least, u->greatest, u->size, u->packets, u->lost);
}

static void print_scene(size_t j, const struct carolsedge_scene *s)
{
    printf("scene %zu %" PRIu64 " %" PRIu64 " %" PRIu64 " %" PRIu64 " %" PRIu64 " %" PRIu64 " %" PRIu64 "\n",
           j, s->first, s->pictures, s->repeated, s->longest, s->score, s->peak, s->change);
}

static int print_record(const uint8_t *record, size_t length)
{
    static struct carolsedge_unit units[CAROLSEDGE_UNITS_MOST];
    static struct carolsedge_scene scenes[CAROLSEDGE_SCENES_MOST];
    struct carolsedge_header h;
    uint64_t count;
    uint32_t k = carolsedge_read_header(record, length, &h);
    if (k == CAROLSEDGE_DONE)
        k = carolsedge_read_units(record, length, units, CAROLSEDGE_UNITS_MOST, &count);
    if (k == CAROLSEDGE_DONE)
        k = carolsedge_read_scenes(record, length, scenes, CAROLSEDGE_SCENES_MOST, &count);
    if (k != CAROLSEDGE_DONE)
        return refused(k, 0);
    printf("sample %" PRIu64 " %" PRIu64 " %" PRIu64 " %" PRIu64 " %" PRIu64 " %" PRIu64 " %" PRIu64 " %" PRIu64
           " %016" PRIX64 "\n",
           h.width, h.height, h.time, h.pid, h.pictures, h.frames, h.skipped, h.bad, h.index);
    for (size_t j = 0; j < h.units; j++)
        print_unit(j, &units[j]);
    for (size_t j = 0; j < h.scenes; j++)
        print_scene(j, &scenes[j]);
    return printed(0);
}

int main(int words, char **word)
{
    static struct carolsedge_sample s;
    static uint8_t record[CAROLSEDGE_RECORD_MOST];
    uint32_t opening[4], edition = 1;
    uint64_t value;
    int good = words == 7 || (words == 8 && number(word[7], &edition));
    for (int i = 0; good && i < 4; i++)
        good = number(word[1 + i], &opening[i]);
    if (!good) {
        fprintf(stderr, "usage: measure W H D PID CAPTURE LUMA [EDITION] "
                        "(D: microseconds a picture; EDITION: 1 if missing)\n");
        return 2;
    }
    carolsedge_sample_open(&s, opening[0], opening[1], opening[2], opening[3], edition);
    int status = feed_file(&s, carolsedge_sample_feed_capture, word[5]);
    if (status == 0)
        status = feed_file(&s, carolsedge_sample_feed_luma, word[6]);
    if (status != 0)
        return status;
    uint32_t k = carolsedge_sample_seal(&s, record, sizeof record, &value);
    if (k != CAROLSEDGE_DONE)
        return refused(k, value);
    return print_record(record, (size_t)value);
}
