/* Runs of gaps, for any n and into a table of any length. Part of main.c. */
enum { TABLE_MOST = 260 };
static struct room gap_table;

static void call_gap_runs(void)
{
    uint32_t n = below(8) ? (uint32_t)below(18) : (uint32_t)figure();
    size_t size = 14 * (size_t)n + 1, room = below(TABLE_MOST + 1), done = 0;
    if (below(3) == 0 && size <= TABLE_MOST - 4)
        room = size + below(4) - 1;
    uint8_t *lent_table = lend(&gap_table, 8 * room);
    uint64_t *value = (uint64_t *)(void *)lend(&lent, 8);
    begin(GAP_RUNS);
    uint32_t k = end(carolsedge_gap_runs(n, (uint64_t *)(void *)lent_table, room, value));
    if (k != (n > 15 ? CAROLSEDGE_REFUSED_GAPS : room < size ? CAROLSEDGE_REFUSED_BUFFER : CAROLSEDGE_DONE))
        fail("another answer than document 02's");
    if (*value != (n > 15 ? 0 : size))
        fail("a number of entries that is none");
    if (k == CAROLSEDGE_DONE)
        done = size;
    if (!untouched(lent_table + 8 * done, 8 * (room - done)))
        fail("an entry behind the last, or of a refused table, was written");
    check_slack(&gap_table), check_slack(&lent);
}
