/* The effective loss by the C interface. Standard input: N, N losses (32 bits each), N probabilities (binary64),
 * little-endian. Prints a line a unit, the bits of both elements in 16 hexadecimal digits each, the key-frame list
 * first; or `refused N P`. */
#include <inttypes.h>
#include <stdio.h>
#include <string.h>

#include "carolsedge.h"

enum { MOST = 1000 };
static uint8_t input[4 + 12 * MOST];
static uint32_t losses[MOST + 1];
static double probabilities[MOST + 1], keys[MOST + 1], plain[MOST + 1];

int main(void)
{
    uint32_t units = 0;
    uint64_t bits[2];
    size_t length = fread(input, 1, sizeof input, stdin);
    if (length < 4) {
        fprintf(stderr, "loss: no count\n");
        return 2;
    }
    memcpy(&units, input, 4);
    if (units > MOST || length != 4 + 12 * (size_t)units) {
        fprintf(stderr, "loss: %zu bytes are no lists of %" PRIu32 "\n", length, units);
        return 2;
    }
    memcpy(losses, input + 4, 4 * (size_t)units);
    memcpy(probabilities, input + 4 + 4 * (size_t)units, 8 * (size_t)units);
    uint32_t number = carolsedge_effective_loss(units, losses, units, probabilities, units, keys, units, plain, units);
    if (number != CAROLSEDGE_DONE) {
        printf("refused %" PRIu32 " 0\n", number);
        return 0;
    }
    for (uint32_t i = 0; i < units; i++) {
        memcpy(&bits[0], &keys[i], 8), memcpy(&bits[1], &plain[i], 8);
        printf("%016" PRIX64 " %016" PRIX64 "\n", bits[0], bits[1]);
    }
    return 0;
}
