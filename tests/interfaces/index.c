/* The index while feeding: its three parts, its refusals in order, and that a refusal leaves every bit of them, also
 * of NaNs. The exit status is the number of the first case that does not hold. */
#include <stdint.h>
#include <string.h>

#include "carolsedge.h"

static struct carolsedge_sample sample;

/* Whether the index is refused so, and what is lent stands: numbers, and NaNs with payloads, quiet and signalling, of
 * both signs. */
static int refused(uint32_t number, uint64_t place)
{
    static const uint64_t lent[][3] = {{0x401C000000000000, 0x8000000000000000, 1},
                                       {0x7FF80000000000A5, 0xFFF8000000000001, 0x7FFFFFFFFFFFFFFF},
                                       {0x7FF0000000000001, 0xFFF00000DEADBEEF, 0xFFF7FFFFFFFFFFFF}};
    for (size_t i = 0; i < sizeof lent / sizeof *lent; i++) {
        struct carolsedge_index index;
        uint64_t at = 77;
        memcpy(&index, lent[i], sizeof index);
        if (carolsedge_sample_index(&sample, &index, &at) != number || at != place ||
            memcmp(&index, lent[i], sizeof index) != 0)
            return 0;
    }
    return 1;
}

static int given(double ic, double ip, double value)
{
    struct carolsedge_index index;
    uint64_t at = 77;
    return carolsedge_sample_index(&sample, &index, &at) == CAROLSEDGE_DONE && at == 0 && index.ic == ic &&
           index.ip == ip && index.value == value;
}

static const uint8_t magic[4] = {0xD4, 0xC3, 0xB2, 0xA1};
static uint8_t capture[24 + 16 + 42 + 376];

/* A capture of one frame with two packets, the second with a gap of 5. */
static void make_capture(void)
{
    memcpy(capture, magic, 4);
    capture[20] = 1;
    uint8_t *frame = capture + 24, *body = frame + 16, *cells = body + 42;
    frame[8] = (42 + 376) & 255, frame[9] = (42 + 376) >> 8;
    body[12] = 8, body[14] = 0x45, body[16] = (28 + 376) >> 8, body[17] = (28 + 376) & 255, body[23] = 17;
    body[38] = (8 + 376) >> 8, body[39] = (8 + 376) & 255;
    cells[0] = cells[188] = 0x47, cells[1] = 0x41, cells[189] = 1, cells[191] = 5;
}

int main(void)
{
    static const uint8_t dark[901], bright[899] = {1};
    static const double third = 1.0 / 3, most = 4.0 * (2.0 / 3);
    uint64_t value;

    make_capture();
    carolsedge_sample_open(&sample, 640, 29, 40000, 256, 1);
    if (!refused(CAROLSEDGE_REFUSED_SIZE, 0))
        return 1;
    carolsedge_sample_open(&sample, 30, 30, 40000, 256, 1);
    if (!refused(CAROLSEDGE_REFUSED_NO_PACKET, 0))
        return 2;
    /* all but the last byte of the second packet: an unfinished frame */
    carolsedge_sample_feed_capture(&sample, capture, sizeof capture - 1, &value);
    if (!refused(CAROLSEDGE_REFUSED_NO_PICTURE, 0))
        return 3;
    /* one picture and a byte of the next */
    carolsedge_sample_feed_luma(&sample, dark, 901, &value);
    if (!given(4, 1, 5))
        return 4;
    /* the second packet, before which four were lost: two of six */
    carolsedge_sample_feed_capture(&sample, capture + sizeof capture - 1, 1, &value);
    if (!given(4, third, 1 + 4 * third))
        return 5;
    carolsedge_sample_feed_luma(&sample, bright, 899, &value);
    carolsedge_sample_feed_luma(&sample, bright, 0, &value);
    if (!given(4, third, 1 + 4 * third))
        return 6;
    /* a repeated picture: two of three */
    carolsedge_sample_feed_luma(&sample, dark, 1, &value);
    carolsedge_sample_feed_luma(&sample, bright, 899, &value);
    if (!given(most, third, 1 + most * third))
        return 7;
    carolsedge_sample_feed_capture(&sample, magic, 4, &value);
    carolsedge_sample_feed_capture(&sample, magic, 4, &value);
    if (!refused(CAROLSEDGE_REFUSED_MICROSECONDS, sizeof capture + 7))
        return 8;
    return 0;
}
