/* rtp-c ROOM: RTP packets on standard input, a 32-bit count and 14 bytes a packet, little-endian: sequence number and
 * marker (16 bits each), time (64 bits), length (16 bits). Their unit rows go to a buffer of ROOM bytes, each 0xA5
 * before; prints `rtp ROWS HEX` or `rtp refused N P HEX`, HEX the whole buffer afterwards. */
#include <inttypes.h>
#include <stdio.h>
#include <stdlib.h>
#include <string.h>

#include "carolsedge.h"

enum { MOST = 5000 };
static uint8_t input[4 + 14 * MOST], marker[MOST + 1], buffer[32 * MOST];
static uint16_t sequence[MOST + 1], size[MOST + 1];
static uint64_t time_of[MOST + 1];

int main(int words, char **word)
{
    size_t room = words > 1 ? strtoull(word[1], NULL, 10) : 0, length = fread(input, 1, sizeof input, stdin);
    uint32_t rows = 0;
    uint64_t value = 0;
    uint16_t mark;
    if (length >= 4)
        memcpy(&rows, input, 4);
    if (room > sizeof buffer || length < 4 || rows > MOST || length != 4 + 14 * (size_t)rows)
        return 2;
    for (uint32_t i = 0; i < rows; i++) {
        const uint8_t *p = input + 4 + 14 * (size_t)i;
        memcpy(&sequence[i], p, 2), memcpy(&mark, p + 2, 2);
        memcpy(&time_of[i], p + 4, 8), memcpy(&size[i], p + 12, 2);
        marker[i] = mark != 0; /* a cast would lose 256 */
    }
    memset(buffer, 0xA5, room);
    uint32_t k = carolsedge_rtp_units(sequence, rows, marker, rows, time_of, rows, size, rows, buffer, room, &value);
    printf("rtp ");
    if (k)
        printf("refused %" PRIu32 " ", k);
    printf("%" PRIu64 " ", value);
    for (size_t i = 0; i < room; i++)
        printf("%02x", buffer[i]);
    printf("\n");
    return 0;
}
