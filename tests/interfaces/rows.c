/* The row calls test the record that they are handed: 16, 17, 18 and 19 in order, and a refused row stands; those of
 * all rows 16, 17, 18 and 15. The exit status is the number of the first case that does not hold. */
#include <stdint.h>
#include <string.h>

#include "carolsedge.h"

/* The record of document 01's example of `show`: one unit and one scene. */
static const uint8_t shown[128] = {
    1, 0, 0, 0, 128, 0, 0, 0, 1, 0, 0, 0, 64, 0, 0, 0, 1, 0, 0, 0, 96, 0, 0, 0, 30, 0, 0, 0, 30, 0, 0, 0,
    0x40, 0x9C, 0, 0, 0, 1, 0, 0, 2, 0, 0, 0, 1, 0, 0, 0, 0, 0, 0, 0, 0, 0, 0, 0, 0, 0, 0, 0, 0, 0, 8, 0x40,
    0x85, 0x96, 0x98, 0, 0, 0, 0, 0, 0x85, 0x96, 0x98, 0, 0, 0, 0, 0, 184, 0, 0, 0, 1, 0, 0, 0, 0, 0, 0, 0, 0, 0, 0, 0,
    0, 0, 0, 0, 2, 0, 0, 0, 1, 0, 0, 0, 1, 0, 0, 0, 0, 0, 0, 0, 0, 0, 0, 0, 0, 0, 0, 0, 0, 0, 0, 0};

/* Whether both row calls answer so, and leave their rows where they are refused. */
static int both(const uint8_t *record, size_t length, size_t j, uint32_t number)
{
    struct carolsedge_unit u, u0;
    struct carolsedge_scene s, s0;
    memset(&u, 0xA5, sizeof u), u0 = u;
    memset(&s, 0xA5, sizeof s), s0 = s;
    if (carolsedge_read_unit(record, length, j, &u) != number)
        return 0;
    if (carolsedge_read_scene(record, length, j, &s) != number)
        return 0;
    return number == CAROLSEDGE_DONE || (memcmp(&u, &u0, sizeof u) == 0 && memcmp(&s, &s0, sizeof s) == 0);
}

/* The cases of refused records, up to 3. */
static int refused(void)
{
    uint8_t r[128];

    /* 128 bytes, edition 0, counts of 1: edition first, whatever the counts say */
    memset(r, 0, sizeof r);
    r[8] = r[16] = 1;
    if (!both(r, 128, 0, 17) || !both(r, 128, 1, 17))
        return 1;
    r[0] = CAROLSEDGE_NEWEST_EDITION + 1;
    if (!both(r, 128, 0, 17) || !both(r, 128, 1, 17))
        return 1;
    if (!both(r, 63, 0, 16))
        return 2;

    memcpy(r, shown, sizeof r);
    r[92] = 1;
    if (!both(r, 128, 0, 18) || !both(r, 128, 9, 18) || !both(shown, 127, 0, 18))
        return 3;
    return 0;
}

/* The cases of a record that is read, from 4 to 6. */
static int given(void)
{
    struct carolsedge_unit u;
    struct carolsedge_scene s;

    if (!both(shown, 128, 0, 0) || !both(shown, 128, 1, 19) || !both(shown, 128, SIZE_MAX, 19))
        return 4;
    if (carolsedge_read_unit(shown, 128, 0, &u) != CAROLSEDGE_DONE)
        return 5;
    if (u.least != 10000005 || u.greatest != 10000005 || u.size != 184 || u.packets != 1 || u.lost || u.damaged)
        return 5;
    if (carolsedge_read_scene(shown, 128, 0, &s) != CAROLSEDGE_DONE)
        return 6;
    if (s.first != 0 || s.pictures != 2 || s.repeated != 1 || s.longest != 1 || s.score != 0)
        return 6;
    return 0;
}

/* Case 7: a unit's word 28 is let through in edition 4 alone, a scene's never. */
static int damaged(void)
{
    uint8_t r[128];
    struct carolsedge_unit u;

    memcpy(r, shown, sizeof r);
    r[92] = 1, r[0] = 3;
    if (!both(r, 128, 0, 18))
        return 7;
    r[0] = 4;
    if (carolsedge_read_unit(r, 128, 0, &u) != CAROLSEDGE_DONE || u.lost != 0 || u.damaged != 1)
        return 7;
    r[92] = 0, r[124] = 1;
    if (!both(r, 128, 0, 18))
        return 7;
    return 0;
}

/* Whether both calls of all rows answer so into so many rows, of which at most three are there, with the count. */
static int both_of_all(const uint8_t *record, size_t length, size_t room, uint32_t number, uint64_t count)
{
    struct carolsedge_unit u[3], u0[3];
    struct carolsedge_scene s[3], s0[3];
    uint64_t units = 77, scenes = 77;
    memset(u, 0xA5, sizeof u), memset(s, 0xA5, sizeof s);
    memcpy(u0, u, sizeof u), memcpy(s0, s, sizeof s);
    if (number == CAROLSEDGE_DONE && carolsedge_read_unit(record, length, 0, &u0[0]))
        return 0;
    if (number == CAROLSEDGE_DONE && carolsedge_read_scene(record, length, 0, &s0[0]))
        return 0;
    if (carolsedge_read_units(record, length, u, room, &units) != number || units != count)
        return 0;
    if (carolsedge_read_scenes(record, length, s, room, &scenes) != number || scenes != count)
        return 0;
    return memcmp(u, u0, sizeof u) == 0 && memcmp(s, s0, sizeof s) == 0;
}

/* The cases of all rows at once, from 8 to 10: of refused records before the number of rows counts, of too few rows,
 * and of as many and more, whose rows behind the last stand. */
static int all_rows(void)
{
    uint8_t r[128];
    memcpy(r, shown, sizeof r);
    r[0] = CAROLSEDGE_NEWEST_EDITION + 1;
    for (size_t room = 0; room <= 3; room++)
        if (!both_of_all(shown, 63, room, 16, 0) || !both_of_all(r, 128, room, 17, 0) ||
            !both_of_all(shown, 127, room, 18, 0))
            return 8;
    if (!both_of_all(shown, 128, 0, 15, 1))
        return 9;
    for (size_t room = 1; room <= 3; room++)
        if (!both_of_all(shown, 128, room, 0, 1))
            return 10;
    return 0;
}

int main(void)
{
    int (*const cases[])(void) = {refused, given, damaged, all_rows};
    for (size_t i = 0; i < sizeof cases / sizeof *cases; i++) {
        int failed = cases[i]();
        if (failed)
            return failed;
    }
    return 0;
}
