/* Runs of gaps by the C interface. gaps N: an entry a line, or `refused N P`. gaps N ROOM: a table of ROOM entries,
 * each byte 0xA5 before; prints `gaps LENGTH HEX` or `gaps refused N P HEX`, HEX the whole table afterwards, every
 * entry as 8 bytes, little-endian. */
#include <inttypes.h>
#include <stdio.h>
#include <stdlib.h>
#include <string.h>

#include "carolsedge.h"

enum { MOST = 1000 };
static uint64_t table[MOST];

int main(int words, char **word)
{
    if (words < 2)
        return 2;
    int whole = words > 2;
    uint64_t n = strtoull(word[1], NULL, 10), room = n > 15 ? 0 : 14 * n + 1, value = 0;
    if (whole)
        room = strtoull(word[2], NULL, 10);
    if (n > UINT32_MAX || room > MOST)
        return 2;
    memset(table, 0xA5, sizeof table);
    uint32_t number = carolsedge_gap_runs((uint32_t)n, table, (size_t)room, &value);
    if (whole)
        printf("gaps ");
    if (number != CAROLSEDGE_DONE)
        printf("refused %" PRIu32 " %" PRIu64 "%s", number, value, whole ? " " : "\n");
    else if (whole)
        printf("%" PRIu64 " ", value);
    for (uint64_t i = 0; i < 8 * room && whole; i++)
        printf("%02x", (unsigned)(table[i / 8] >> 8 * (i % 8) & 255));
    for (uint64_t i = 0; i < value && !whole && number == CAROLSEDGE_DONE; i++)
        printf("%" PRIu64 "\n", table[i]);
    if (whole)
        printf("\n");
    return 0;
}
