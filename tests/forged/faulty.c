/* Functions with one fault each (FAULT, 1 to 32) in the place of the library's own, by the linker's --wrap: the forged
 * calls have to notice every one. */
#include <stddef.h>
#include <stdint.h>

struct carolsedge_header;
struct carolsedge_unit;
struct carolsedge_shelf;
struct carolsedge_index { double ic, ip, value; };
uint32_t __real_carolsedge_feed_capture(uint64_t *, uint8_t *, uint64_t *, uint64_t *, const uint8_t *, size_t,
                                        uint64_t *);
uint32_t __real_carolsedge_feed_luma(uint64_t *, uint32_t *, uint32_t *, uint8_t *, const uint8_t *, size_t,
                                     uint64_t *);
uint32_t __real_carolsedge_seal(const uint64_t *, const uint8_t *, const uint64_t *, const uint64_t *,
                                const uint64_t *, uint8_t *, size_t, uint64_t *);
uint32_t __real_carolsedge_index(const uint64_t *, const uint64_t *, struct carolsedge_index *, uint64_t *);
uint32_t __real_carolsedge_repeats(const uint64_t *, uint32_t, uint32_t, uint64_t *);
uint32_t __real_carolsedge_sheet(const uint8_t *, size_t, uint8_t *, size_t, uint64_t *);
uint32_t __real_carolsedge_feed_survey(uint64_t *, uint8_t *, uint32_t *, const uint8_t *, size_t, uint64_t *);
uint32_t __real_carolsedge_ask_survey(const uint64_t *, const uint32_t *, uint64_t *, uint64_t *);
uint32_t __real_carolsedge_effective_loss(uint32_t, const uint32_t *, size_t, const double *, size_t, double *, size_t,
                                          double *, size_t);
uint32_t __real_carolsedge_gap_runs(uint32_t, uint64_t *, size_t, uint64_t *);
uint32_t __real_carolsedge_verify(const uint8_t *, size_t, uint64_t *);
uint32_t __real_carolsedge_read_header(const uint8_t *, size_t, struct carolsedge_header *);
uint32_t __real_carolsedge_read_unit(const uint8_t *, size_t, size_t, struct carolsedge_unit *);
uint32_t __real_carolsedge_read_units(const uint8_t *, size_t, uint64_t (*)[6], size_t, uint64_t *);
uint32_t __real_carolsedge_read_scenes(const uint8_t *, size_t, uint64_t (*)[7], size_t, uint64_t *);
uint32_t __real_carolsedge_busiest_luma(uint32_t, uint32_t, uint32_t, uint32_t, uint64_t, uint8_t *, size_t,
                                        uint64_t *);
uint32_t __real_carolsedge_shelf_open(const uint8_t *, size_t, struct carolsedge_shelf *, uint64_t *);
uint32_t __real_carolsedge_shelf_part(const uint8_t *, size_t, size_t, uint64_t *, uint64_t *);
uint32_t __real_carolsedge_shelf_write(const uint8_t *, size_t, const uint32_t *, size_t, uint8_t *, size_t,
                                       uint64_t *);
uint32_t __real_carolsedge_rtp_units(const uint16_t *, size_t, const uint8_t *, size_t, const uint64_t *, size_t,
                                     const uint16_t *, size_t, uint8_t *, size_t, uint64_t *);

static const volatile double zero = 0;

uint32_t __wrap_carolsedge_feed_capture(uint64_t *walk, uint8_t *kept, uint64_t *numbers, uint64_t *table,
                                        const uint8_t *piece, size_t length, uint64_t *value)
{
    if (FAULT == 1) /* reads the byte behind a piece */
        (void)*(const volatile uint8_t *)(piece + length);
    if (FAULT == 2) /* writes the word behind an array */
        table[3750] = 0;
    if (FAULT == 3 && length) /* writes to a piece */
        *(volatile uint8_t *)(uintptr_t)piece = 0;
    if (FAULT == 4) /* does not end */
        for (;;)
            *(volatile uint64_t *)value = 0;
    return __real_carolsedge_feed_capture(walk, kept, numbers, table, piece, length, value);
}

uint32_t __wrap_carolsedge_feed_luma(uint64_t *luma, uint32_t *sums, uint32_t *bins, uint8_t *picture,
                                     const uint8_t *piece, size_t length, uint64_t *value)
{
    if (FAULT == 5) /* writes in front of an array */
        sums[-1] = 7;
    return __real_carolsedge_feed_luma(luma, sums, bins, picture, piece, length, value);
}

uint32_t __wrap_carolsedge_seal(const uint64_t *walk, const uint8_t *kept, const uint64_t *numbers,
                                const uint64_t *table, const uint64_t *luma,
                                uint8_t *buffer, size_t length, uint64_t *value)
{
    uint32_t k = __real_carolsedge_seal(walk, kept, numbers, table, luma, buffer, length, value);
    if (FAULT == 6 && k && length) /* writes to a refused seal's buffer */
        buffer[length / 2] = 1;
    return FAULT == 7 && k ? 999 : k; /* a number that is not in the table */
}

uint32_t __wrap_carolsedge_index(const uint64_t *numbers, const uint64_t *luma, struct carolsedge_index *index,
                                 uint64_t *place)
{
    uint32_t k = __real_carolsedge_index(numbers, luma, index, place);
    if (FAULT == 22 && k) /* writes to a refused index */
        index->ip = 0;
    if (FAULT == 23 && !k) /* Ip without what was lost */
        index->ip = 1;
    if (FAULT == 28 && k && index->value != index->value) /* another NaN for the one that was lent */
        index->value = 0.0 / zero;
    return k;
}

uint32_t __wrap_carolsedge_repeats(const uint64_t *luma, uint32_t a, uint32_t b, uint64_t *value)
{
    uint32_t k = __real_carolsedge_repeats(luma, a, b, value);
    if (FAULT == 25 && !k && b < 750) /* counts picture b too */
        *value += luma[64 + b / 64] >> b % 64 & 1;
    return k;
}

uint32_t __wrap_carolsedge_read_header(const uint8_t *record, size_t length, struct carolsedge_header *header)
{
    if (FAULT == 8) /* reads the byte in front of a record */
        (void)*(const volatile uint8_t *)(record - 1);
    return __real_carolsedge_read_header(record, length, header);
}

uint32_t __wrap_carolsedge_read_unit(const uint8_t *record, size_t length, size_t j, struct carolsedge_unit *row)
{
    uint32_t k = __real_carolsedge_read_unit(record, length, j, row);
    return FAULT == 9 && k == 17 ? 0 : k; /* a row of a record of another edition */
}

uint32_t __wrap_carolsedge_read_units(const uint8_t *record, size_t length, uint64_t (*rows)[6], size_t room,
                                      uint64_t *count)
{
    uint32_t k = __real_carolsedge_read_units(record, length, rows, room, count);
    if (FAULT == 29 && !k && *count < room) /* writes a row after the last */
        rows[*count][5] = 0;
    if (FAULT == 30 && !k) /* another last row */
        rows[*count - 1][0] = rows[0][0] + 1;
    return FAULT == 31 && k == 18 && room < 750 ? 15 : k; /* tries 15 before 18 */
}

uint32_t __wrap_carolsedge_read_scenes(const uint8_t *record, size_t length, uint64_t (*rows)[7], size_t room,
                                       uint64_t *count)
{
    uint32_t k = __real_carolsedge_read_scenes(record, length, rows, room, count);
    if (FAULT == 32 && k == 15) /* the number of rows lent for the number needed */
        *count = room;
    return k;
}

uint32_t __wrap_carolsedge_verify(const uint8_t *record, size_t length, uint64_t *verdict)
{
    uint32_t k = __real_carolsedge_verify(record, length, verdict);
    if (FAULT == 33 && !k) /* counts a lost packet more */
        verdict[7]++;
    if (FAULT == 34 && k == 18) /* writes to a refused record's verdict */
        verdict[0] = 1;
    return FAULT == 35 && k == 100 ? 0 : k; /* takes a record that no seal leaves */
}

uint32_t __wrap_carolsedge_sheet(const uint8_t *record, size_t length, uint8_t *buffer, size_t room, uint64_t *value)
{
    uint32_t k = __real_carolsedge_sheet(record, length, buffer, room, value);
    if (FAULT == 10 && !k && *value < room) /* writes behind the pages */
        buffer[*value] = 0;
    if (FAULT == 11 && k == 15) /* forgets the length needed */
        *value = 1;
    return k;
}

uint32_t __wrap_carolsedge_feed_survey(uint64_t *walk, uint8_t *kept, uint32_t *counts, const uint8_t *piece,
                                       size_t length, uint64_t *value)
{
    if (FAULT == 12) /* counts an identifier past the last */
        counts[8192]++;
    return __real_carolsedge_feed_survey(walk, kept, counts, piece, length, value);
}

uint32_t __wrap_carolsedge_ask_survey(const uint64_t *walk, const uint32_t *counts, uint64_t *value, uint64_t *count)
{
    uint32_t k = __real_carolsedge_ask_survey(walk, counts, value, count);
    if (FAULT == 13 && k == 21) /* identifier 0 where no packet is good */
        *value = 0, k = 0;
    return k;
}

uint32_t __wrap_carolsedge_effective_loss(uint32_t units, const uint32_t *losses, size_t a,
                                          const double *probabilities, size_t b, double *keys, size_t c,
                                          double *plain, size_t d)
{
    uint32_t k = __real_carolsedge_effective_loss(units, losses, a, probabilities, b, keys, c, plain, d);
    if (FAULT == 14 && k == 23) /* clears a list although it refuses */
        plain[0] = 0;
    return FAULT == 15 && k == 23 ? 0 : k; /* lets a probability pass */
}

uint32_t __wrap_carolsedge_busiest_luma(uint32_t w, uint32_t h, uint32_t d, uint32_t n, uint64_t from, uint8_t *piece,
                                        size_t length, uint64_t *value)
{
    return __real_carolsedge_busiest_luma(w, FAULT == 16 ? w : h, d, n, from, piece, length, value); /* w rows for h */
}

uint32_t __wrap_carolsedge_gap_runs(uint32_t n, uint64_t *table, size_t length, uint64_t *value)
{
    uint32_t k = __real_carolsedge_gap_runs(n, table, length, value);
    if (FAULT == 17 && !k && *value < length) /* writes an entry past 14 n */
        table[*value] = 0;
    return FAULT == 18 && k == 24 && length < 225 ? 15 : k; /* tries 15 before 24 */
}

uint32_t __wrap_carolsedge_shelf_open(const uint8_t *shelf, size_t length, struct carolsedge_shelf *figures,
                                      uint64_t *place)
{
    uint32_t k = __real_carolsedge_shelf_open(shelf, length, figures, place);
    if (FAULT == 19) /* reads the byte behind a shelf */
        (void)*(const volatile uint8_t *)(shelf + length);
    if (FAULT == 20 && k) /* writes to a refused shelf's figures */
        *(uint64_t *)(void *)figures = 1;
    return k;
}

uint32_t __wrap_carolsedge_shelf_part(const uint8_t *shelf, size_t length, size_t j, uint64_t *part, uint64_t *place)
{
    uint32_t k = __real_carolsedge_shelf_part(shelf, length, j, part, place);
    if (FAULT == 21 && !k) /* a part that ends behind the shelf */
        part[1] = length + 1;
    return k;
}

uint32_t __wrap_carolsedge_shelf_write(const uint8_t *records, size_t size, const uint32_t *lengths, size_t count,
                                       uint8_t *buffer, size_t room, uint64_t *value)
{
    uint32_t k = __real_carolsedge_shelf_write(records, size, lengths, count, buffer, room, value);
    if (FAULT == 26 && !k && *value < room) /* writes behind the shelf */
        buffer[*value] = 0;
    if (FAULT == 27 && k == 15 && room) /* writes to a buffer that is too short */
        buffer[0] = 0;
    return k;
}

uint32_t __wrap_carolsedge_rtp_units(const uint16_t *s, size_t a, const uint8_t *m, size_t b, const uint64_t *t,
                                     size_t c, const uint16_t *l, size_t d, uint8_t *buffer, size_t room,
                                     uint64_t *value)
{
    uint32_t k = __real_carolsedge_rtp_units(s, a, m, b, t, c, l, d, buffer, room, value);
    if (FAULT == 24 && !k && 32 * *value < room) /* writes behind the rows */
        buffer[32 * *value] = 0;
    return k;
}
