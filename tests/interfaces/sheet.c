/* Prints the sheet of a record from standard input through carolsedge_sheet, as the program sheet does: the pages, or
 * `refused N`. The call is made with no room, a buffer one byte short, an exact one and a longer one; where one of
 * them gets something else than the others allow, the program fails with a message. */
#include <stdio.h>
#include <stdlib.h>
#include <string.h>

#include "carolsedge.h"

enum { INPUT = 65536, MORE = 77, MARK = 0xC5 };
static uint8_t record[INPUT], buffer[CAROLSEDGE_SHEET_MOST + MORE], first[CAROLSEDGE_SHEET_MOST];

static void fail(const char *what)
{
    fprintf(stderr, "sheet: %s\n", what);
    exit(2);
}

/* The answer for a room of so many bytes; the bytes from `from` on have to stand. */
static uint32_t call(size_t length, size_t room, size_t from, uint64_t *value)
{
    memset(buffer, MARK, sizeof buffer);
    uint32_t number = carolsedge_sheet(record, length, buffer, room, value);
    for (size_t i = from; i < sizeof buffer; i++)
        if (buffer[i] != MARK)
            fail("a byte that has to stand was written");
    return number;
}

int main(void)
{
    size_t length = fread(record, 1, sizeof record, stdin);
    uint64_t needed, value;
    uint32_t number = call(length, 0, 0, &needed);
    if (number != CAROLSEDGE_REFUSED_BUFFER) {
        if (needed != 0 || call(length, sizeof buffer, 0, &value) != number || value != 0)
            fail("a refused record's answer depends on the room");
        printf("refused %u\n", (unsigned)number);
        return 0;
    }
    if (needed == 0 || needed % 6060 || needed > CAROLSEDGE_SHEET_MOST)
        fail("the length needed is no number of pages");
    if (call(length, needed - 1, 0, &value) != CAROLSEDGE_REFUSED_BUFFER || value != needed)
        fail("a buffer one byte short");
    if (call(length, needed, needed, &value) != CAROLSEDGE_DONE || value != needed)
        fail("a buffer of the length needed");
    memcpy(first, buffer, needed);
    if (call(length, needed + MORE, needed, &value) != CAROLSEDGE_DONE || value != needed)
        fail("a longer buffer");
    if (memcmp(first, buffer, needed) != 0)
        fail("a longer buffer gets another sheet");
    return fwrite(first, 1, needed, stdout) == needed ? 0 : 2;
}
