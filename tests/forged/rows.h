/* All rows of a record at once, into any number of rows. Part of main.c. */
enum { LENT_ROWS_MOST = CAROLSEDGE_UNITS_MOST + 10 };
static struct room row_room, count_room;

/* Whether lent row j is the one that is read by its number. */
static int as_read_alone(const uint8_t *record, size_t length, int scenes, const void *rows, size_t j)
{
    struct carolsedge_unit unit;
    struct carolsedge_scene scene;
    if (scenes)
        return carolsedge_read_scene(record, length, j, &scene) == CAROLSEDGE_DONE &&
               memcmp((const struct carolsedge_scene *)rows + j, &scene, sizeof scene) == 0;
    return carolsedge_read_unit(record, length, j, &unit) == CAROLSEDGE_DONE &&
           memcmp((const struct carolsedge_unit *)rows + j, &unit, sizeof unit) == 0;
}

/* Some rows, or one fewer than the record has, as many, or one more. */
static size_t rows_to_lend(uint64_t has)
{
    if (below(3) == 0 || has == 0 || has > CAROLSEDGE_UNITS_MOST)
        return below(LENT_ROWS_MOST + 1);
    return (size_t)has - 1 + below(3);
}

/* Units or scenes: refused as the header is, then with 15 and the number needed; the rows after the last, and all of a
 * refused call, stay as they were. The first, the last and some row between are those that are read alone. */
static void call_all_rows(int scenes)
{
    struct carolsedge_header h = {0};
    size_t length, done = 0, size = scenes ? sizeof(struct carolsedge_scene) : sizeof(struct carolsedge_unit);
    const uint8_t *p = forge_record(&length);
    uint32_t right = carolsedge_read_header(p, length, &h);
    uint64_t has = scenes ? h.scenes : h.units;
    size_t room = rows_to_lend(has);
    uint8_t *rows = lend(&row_room, room * size);
    uint64_t *count = (uint64_t *)(void *)lend(&count_room, 8);
    if (right == CAROLSEDGE_DONE && room < has)
        right = CAROLSEDGE_REFUSED_BUFFER;
    protect(&out, PROT_READ);
    begin(scenes ? READ_SCENES : READ_UNITS);
    uint32_t k = scenes ? carolsedge_read_scenes(p, length, (struct carolsedge_scene *)(void *)rows, room, count)
                        : carolsedge_read_units(p, length, (struct carolsedge_unit *)(void *)rows, room, count);
    if (end(k) != right)
        fail("another answer than reading's, or than 15");
    if (*count != has)
        fail("a number of rows that is none");
    if (k == CAROLSEDGE_DONE)
        done = (size_t)has;
    for (size_t i = 0; i < 3 && done; i++)
        if (!as_read_alone(p, length, scenes, rows, i == 0 ? 0 : i == 1 ? done - 1 : below(done)))
            fail("a row that is another one where it is read alone");
    protect(&out, PROT_READ | PROT_WRITE);
    if (!untouched(rows + done * size, (room - done) * size))
        fail("a row after the last, or of a refused call, was written");
    check_slack(&row_room), check_slack(&count_room);
}
