/* busiest-c W H D N: what the program `busiest` writes, by carolsedge_busiest_luma in pieces of many lengths, each
 * behind the one before. busiest-c most D N: the greatest number of scenes, or `refused N P`. An argument that is
 * missing, or is not 1 to 9 decimal digits alone, counts as 0. */
#include <inttypes.h>
#include <stdio.h>
#include <string.h>

#include "carolsedge.h"

static uint32_t number(int words, char **word, int i)
{
    size_t n = i < words ? strlen(word[i]) : 0;
    uint32_t x = 0;
    if (n < 1 || n > 9 || strspn(word[i], "0123456789") != n)
        return 0;
    for (size_t k = 0; k < n; k++)
        x = 10 * x + (uint32_t)(word[i][k] - '0');
    return x;
}

int main(int words, char **word)
{
    static uint8_t piece[70000];
    uint64_t value, at = 0;
    if (words > 1 && strcmp(word[1], "most") == 0) {
        uint32_t k = carolsedge_most_scenes(number(words, word, 2), number(words, word, 3), &value);
        if (k)
            printf("refused %" PRIu32 " ", k);
        printf("%" PRIu64 "\n", value);
        return k != 0;
    }
    uint32_t w = number(words, word, 1), h = number(words, word, 2), d = number(words, word, 3),
             n = number(words, word, 4);
    for (size_t size = 1;; size = size * 7 % 69997 + 1) {
        memset(piece, 0xA5, sizeof piece);
        uint32_t k = carolsedge_busiest_luma(w, h, d, n, at, piece, size, &value);
        size_t wrote = k ? 0 : (size_t)value;
        if (wrote > size || (k && value))
            return 3;
        for (size_t i = wrote; i < sizeof piece; i++)
            if (piece[i] != 0xA5)
                return 4;
        if (k)
            return printf("refused %" PRIu32 "\n", k) < 0;
        if (wrote == 0)
            return 0;
        fwrite(piece, 1, wrote, stdout);
        at += wrote;
    }
}
