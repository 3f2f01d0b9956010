/* Repeats in a passage: the counts of true samples with known repeats, and every refusal of a count. The exit status
 * is the number of the first case that does not hold. */
#include <stdint.h>
#include <string.h>

#include "carolsedge.h"

enum { SIDE = 30, PICTURE = SIDE * SIDE, MOST = 750 };

static struct carolsedge_sample sample;
static uint8_t picture[PICTURE];

/* Runs of pictures alike, one behind the other; 75 in all, so that they fill a word of the map and begin the next. */
static const uint32_t runs[] = {1, 2, 3, 57, 2, 6, 4};
enum { RUNS = sizeof runs / sizeof *runs, PICTURES = 75 };

/* Whether picture i is the first of a run, and so no repeat. */
static int first(uint32_t i)
{
    uint32_t at = 0;
    for (int run = 0; run < RUNS && at < i; run++)
        at += runs[run];
    return at == i;
}

/* The repeats from a up to but without b, picture by picture. */
static uint64_t repeats(uint32_t a, uint32_t b)
{
    uint64_t n = 0;
    for (uint32_t i = a; i < b; i++)
        n += !first(i);
    return n;
}

static int given(uint32_t a, uint32_t b, uint64_t count)
{
    uint64_t value = 77;
    return carolsedge_sample_repeats(&sample, a, b, &value) == CAROLSEDGE_DONE && value == count;
}

static int refused(uint32_t a, uint32_t b, uint32_t number)
{
    uint64_t value = 77;
    return carolsedge_sample_repeats(&sample, a, b, &value) == number && value == 0;
}

/* Feeds n pictures of one shade, the last one without its last bytes. */
static uint32_t feed(uint8_t shade, uint32_t n, size_t missing)
{
    uint64_t value;
    uint32_t number = CAROLSEDGE_DONE;
    memset(picture, shade, sizeof picture);
    for (uint32_t i = 0; i < n; i++)
        number = carolsedge_sample_feed_luma(&sample, picture, i + 1 < n ? PICTURE : PICTURE - missing, &value);
    return number;
}

/* A sample of the runs, each of another shade; the last pixel alone tells two of them apart. */
static void feed_runs(void)
{
    uint64_t value;
    memset(picture, 9, sizeof picture);
    for (int run = 0; run < RUNS; run++) {
        picture[PICTURE - 1] = (uint8_t)run;
        for (uint32_t i = 0; i < runs[run]; i++)
            carolsedge_sample_feed_luma(&sample, picture, sizeof picture, &value);
    }
}

static int every_passage(void)
{
    for (uint32_t a = 0; a <= PICTURES; a++)
        for (uint32_t b = a; b <= PICTURES; b++)
            if (!given(a, b, repeats(a, b)))
                return 0;
    return 1;
}

/* 26 for a above b, and for b above the whole pictures fed, so many. */
static int refusals(uint32_t pictures)
{
    return refused(1, 0, CAROLSEDGE_REFUSED_PASSAGE) && refused(pictures, pictures - 1, CAROLSEDGE_REFUSED_PASSAGE) &&
           refused(0, pictures + 1, CAROLSEDGE_REFUSED_PASSAGE) &&
           refused(pictures + 1, pictures + 1, CAROLSEDGE_REFUSED_PASSAGE) &&
           refused(UINT32_MAX, 0, CAROLSEDGE_REFUSED_PASSAGE) && refused(0, UINT32_MAX, CAROLSEDGE_REFUSED_PASSAGE) &&
           refused(UINT32_MAX, UINT32_MAX, CAROLSEDGE_REFUSED_PASSAGE);
}

/* 750 pictures of two shades by turns, 5 of each, and a byte more, which is refused. */
static int full(void)
{
    for (uint32_t i = 0; i < MOST / 5; i++)
        feed((uint8_t)(i % 2), 5, 0);
    if (!given(0, MOST, MOST - MOST / 5) || !given(749, MOST, 1) || !given(745, 746, 0) || !refusals(MOST))
        return 0;
    uint64_t value;
    uint32_t number = carolsedge_sample_feed_luma(&sample, picture, 1, &value);
    return number == CAROLSEDGE_REFUSED_LUMA_LENGTH && value == (uint64_t)MOST * PICTURE;
}

/* The opening's number goes before 26. */
static int refused_openings(void)
{
    if (carolsedge_sample_open(&sample, SIDE, 29, 40000, 256, 1) != CAROLSEDGE_REFUSED_SIZE ||
        !refused(0, 0, CAROLSEDGE_REFUSED_SIZE) || !refused(1, 0, CAROLSEDGE_REFUSED_SIZE))
        return 0;
    if (carolsedge_sample_open(&sample, SIDE, SIDE, 40000, 256, 5) != CAROLSEDGE_REFUSED_OPENING_EDITION)
        return 0;
    feed(3, 2, 0);
    return refused(0, 0, CAROLSEDGE_REFUSED_OPENING_EDITION) && refused(0, 9, CAROLSEDGE_REFUSED_OPENING_EDITION);
}

int main(void)
{
    static const uint8_t wrong[4] = {1, 2, 3, 4};
    uint64_t value;

    carolsedge_sample_open(&sample, SIDE, SIDE, 40000, 256, 1);
    if (!given(0, 0, 0) || !refused(0, 1, CAROLSEDGE_REFUSED_PASSAGE) || !refused(1, 0, CAROLSEDGE_REFUSED_PASSAGE))
        return 1;
    /* a picture counts once its last byte is there */
    feed(3, 2, 1);
    if (!given(0, 1, 0) || !refused(0, 2, CAROLSEDGE_REFUSED_PASSAGE))
        return 2;
    carolsedge_sample_feed_luma(&sample, picture, 1, &value);
    if (!given(0, 2, 1) || !given(1, 2, 1) || !given(0, 1, 0) || !given(2, 2, 0))
        return 3;
    for (uint32_t edition = 1; edition <= CAROLSEDGE_NEWEST_EDITION; edition++) {
        carolsedge_sample_open(&sample, SIDE, SIDE, 40000, 256, edition);
        feed_runs();
        if (!every_passage() || !refusals(PICTURES))
            return 4;
    }
    /* worked by hand: firsts are 0, 1, 3, 6, 63, 65 and 71 */
    if (!given(0, 75, 68) || !given(1, 3, 1) || !given(6, 63, 56) || !given(62, 66, 2) || !given(63, 64, 0) ||
        !given(64, 65, 1) || !given(71, 75, 3))
        return 5;
    /* the capture's refusals do not stop it */
    if (carolsedge_sample_feed_capture(&sample, wrong, 4, &value) != CAROLSEDGE_REFUSED_MAGIC || !every_passage() ||
        !refusals(PICTURES))
        return 6;
    /* nor does the luma's: the 750 pictures before it are there */
    carolsedge_sample_open(&sample, SIDE, SIDE, 40000, 256, 4);
    if (!full() || !given(0, MOST, MOST - MOST / 5) || !given(60, 70, 8) || !given(745, MOST, 4) || !refusals(MOST))
        return 7;
    return refused_openings() ? 0 : 8;
}
