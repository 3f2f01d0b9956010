/* Runs a survey's script from standard input through the carolsedge_survey_ functions: `C`, a 32-bit length and as
 * many bytes, or `Q`; a line a call (tests/independent/FORMAT.md, 7). Every question is asked twice, and has to
 * leave the state as it was. */
#include <stdio.h>
#include <stdlib.h>
#include <string.h>

#include "carolsedge.h"

static struct carolsedge_survey survey, before;

static void fail(const char *what)
{
    fprintf(stderr, "survey: %s\n", what);
    exit(2);
}

static void ask(void)
{
    uint64_t value, count, again, more;
    memcpy(&before, &survey, sizeof survey);
    uint32_t number = carolsedge_survey_ask(&survey, &value, &count);
    if (carolsedge_survey_ask(&survey, &again, &more) != number || again != value || more != count)
        fail("a question that is asked twice");
    if (memcmp(&before, &survey, sizeof survey) != 0)
        fail("a question changed the state");
    if (number != CAROLSEDGE_DONE && count != 0)
        fail("a refused question with a count");
    if (number != CAROLSEDGE_DONE)
        printf("survey refused %u %llu\n", (unsigned)number, (unsigned long long)value);
    else
        printf("survey %llu %llu\n", (unsigned long long)value, (unsigned long long)count);
}

static void feed(const uint8_t *piece, size_t length)
{
    uint64_t value;
    uint32_t number = carolsedge_survey_feed(&survey, length ? piece : NULL, length, &value);
    if (number != CAROLSEDGE_DONE)
        printf("capture refused %u %llu\n", (unsigned)number, (unsigned long long)value);
    else
        printf("capture %llu\n", (unsigned long long)value);
}

int main(void)
{
    static uint8_t piece[1048576];
    memset(&survey, 0xC5, sizeof survey);
    carolsedge_survey_open(&survey);
    for (int call; (call = getchar()) == 'C' || call == 'Q';) {
        uint8_t word[4];
        if (call == 'Q') {
            ask();
            continue;
        }
        if (fread(word, 1, 4, stdin) != 4)
            break;
        size_t n = word[0] | word[1] << 8 | word[2] << 16 | (size_t)word[3] << 24;
        if (n > sizeof piece || fread(piece, 1, n, stdin) != n)
            break;
        feed(piece, n);
    }
    return 0;
}
