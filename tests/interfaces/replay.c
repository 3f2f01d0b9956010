/* Runs a script of calls from standard input through carolsedge_replay, and prints what replay_main prints: a line a
 * call (tests/independent/FORMAT.md). */
#include <stdio.h>
#include <stdlib.h>
#include <string.h>

#include "carolsedge.h"

static uint8_t *script;
static size_t size, most = 1 << 16;

static void *larger(void *p, size_t n)
{
    p = realloc(p, n);
    if (p == NULL) {
        perror("replay");
        exit(2);
    }
    return p;
}

static uint64_t number(const uint8_t *p, int bytes)
{
    uint64_t x = 0;
    while (bytes-- > 0)
        x = x << 8 | p[bytes];
    return x;
}

/* An answer's 17 bytes: the word, and the result or the refusal. An opening that is done prints ok. */
static void print(const char *word, const uint8_t *p)
{
    unsigned long long first = number(p + 1, 8), place = number(p + 9, 8);
    if (p[0] == 1)
        printf("%s refused %llu %llu", word, first, place);
    else if (strcmp(word, "open") == 0)
        printf("open ok");
    else
        printf("%s %llu", word, first);
}

/* An index's 25 bytes: the bits of the index, the last of the three; or the refusal. */
static void print_index(const uint8_t *p)
{
    if (p[0] == 1)
        print("index", p);
    else
        printf("index %016llX", (unsigned long long)number(p + 17, 8));
}

/* How many bytes of the script a call takes, 0 where there is no call, and how many its outcome. */
static size_t call_at(size_t at, size_t *room)
{
    *room = 25;
    if (size - at >= 1 && script[at] == 'I')
        return 1;
    *room = 17;
    if (size - at >= 9 && script[at] == 'R')
        return 9;
    if (size - at < 5)
        return 0;
    size_t n = number(script + at + 1, 4);
    *room = 17 + (script[at] == 'S' ? n : 0);
    if (script[at] == 'S')
        return n > 65536 ? 0 : 5;
    if ((script[at] != 'C' && script[at] != 'L') || n > 1048576 || size - at - 5 < n)
        return 0;
    return 5 + n;
}

int main(void)
{
    script = larger(NULL, most);
    for (size_t n; (n = fread(script + size, 1, most - size, stdin)) > 0;)
        if ((size += n) == most)
            script = larger(script, most *= 2);
    if (size < 20)
        return 0;
    /* the script as far as replay_main takes it, and the room that its calls need */
    size_t end = 20, room = 17, taken, needed;
    while ((taken = call_at(end, &needed)) > 0)
        end += taken, room += needed;
    uint8_t *out = larger(NULL, room + 1);
    out[room] = 0xC5;
    if (carolsedge_replay(script, end, out, room - 1) || !carolsedge_replay(script, end, out, room) ||
        out[room] != 0xC5)
        return 1;
    print("open", out);
    putchar('\n');
    const uint8_t *p = out + 17;
    for (size_t at = 20; at < end; putchar('\n')) {
        taken = call_at(at, &needed);
        if (script[at] == 'I')
            print_index(p);
        else
            print(script[at] == 'S'   ? "seal"
                  : script[at] == 'C' ? "capture"
                  : script[at] == 'L' ? "luma"
                                      : "repeats",
                  p);
        if (script[at] == 'S') {
            putchar(' ');
            for (size_t i = 17; i < needed; i++)
                printf("%02x", p[i]);
        }
        p += needed;
        at += taken;
    }
    return 0;
}
