/* RTP rows of any kind: wraps, steps back, duplicates; lists and buffers of any length. Part of main.c. */
enum { ROWS_MOST = 4100 };
static struct room sequences, markers, times, lengths, rows;

static void make_rtp_rooms(void)
{
    sequences = room_of(2 * ROWS_MOST), markers = room_of(ROWS_MOST), times = room_of(8 * ROWS_MOST);
    lengths = room_of(2 * ROWS_MOST), rows = room_of(32 * (ROWS_MOST + 2));
}

static void guard_rows(int way)
{
    protect(&sequences, way), protect(&markers, way), protect(&times, way), protect(&lengths, way);
}

/* The next sequence number: a little on, now and then back, or by about half of all numbers. */
static uint16_t step(uint16_t last)
{
    if (below(20))
        return (uint16_t)(last + below(3));
    return below(3) ? (uint16_t)(last - below(10)) : (uint16_t)(last + 32766 + below(4));
}

/* The four lists that are lent, whether a call may take them, and how many units there are but the last. */
struct rtp_lists {
    size_t length[4], units;
    int good;
    uint16_t *sequence, *size;
    uint8_t *marker;
    uint64_t *time;
};

static struct rtp_lists lend_rtp_lists(size_t n)
{
    struct rtp_lists l = {.units = 0, .good = 1};
    for (int i = 0; i < 4; i++) {
        l.length[i] = below(60) ? n : below(ROWS_MOST + 1);
        l.good = l.good && l.length[i] == l.length[0];
    }
    l.good = l.good && l.length[0] >= 1 && l.length[0] <= 4096;
    l.sequence = (uint16_t *)(void *)lend(&sequences, 2 * l.length[0]);
    uint16_t last = (uint16_t)chance();
    l.marker = lend(&markers, l.length[1]);
    l.time = (uint64_t *)(void *)lend(&times, 8 * l.length[2]);
    l.size = (uint16_t *)(void *)lend(&lengths, 2 * l.length[3]);
    for (size_t i = 0; i < l.length[0]; i++)
        l.sequence[i] = last = step(last);
    for (size_t i = 0; i < l.length[1]; i++)
        l.marker[i] = below(4) ? 0 : (uint8_t)chance(), l.units += l.marker[i] != 0;
    for (size_t i = 0; i < l.length[2]; i++)
        l.time[i] = figure();
    for (size_t i = 0; i < l.length[3]; i++)
        l.size[i] = (uint16_t)figure();
    return l;
}

/* What a call answered of good or bad lists, and left of its buffer. */
static void check_rtp_units(uint32_t k, uint64_t value, int good, const uint8_t *buffer, size_t room)
{
    if ((k == CAROLSEDGE_REFUSED_ROWS) == good)
        fail("another answer than document 02's");
    if (k != CAROLSEDGE_DONE && k != CAROLSEDGE_REFUSED_ROWS && k != CAROLSEDGE_REFUSED_BUFFER)
        fail("a refusal that is none of RTP's");
    if (k == CAROLSEDGE_REFUSED_BUFFER && (value <= room || value % 32))
        fail("a length needed that is none");
    if (k == CAROLSEDGE_DONE && (value < 1 || 32 * value > room))
        fail("a number of rows that is none");
    size_t done = k == CAROLSEDGE_DONE ? 32 * (size_t)value : 0;
    if (!untouched(buffer + done, room - done))
        fail("a byte behind the rows, or of a refused buffer, was written");
}

static void call_rtp_units(void)
{
    size_t n = below(50) ? below(40) : below(10) ? below(700) : below(ROWS_MOST + 1);
    int guarded = below(16) == 0;
    struct rtp_lists l = lend_rtp_lists(n);
    size_t room = below(2) ? 32 * (l.units + 1) : below(32 * (l.units + 2));
    uint8_t *buffer = lend(&rows, room);
    uint64_t *value = (uint64_t *)(void *)lend(&lent, 8);
    if (guarded)
        guard_rows(PROT_READ);
    begin(RTP_UNITS);
    uint32_t k = end(carolsedge_rtp_units(l.sequence, l.length[0], l.marker, l.length[1], l.time, l.length[2], l.size,
                                          l.length[3], buffer, room, value));
    if (guarded)
        guard_rows(PROT_READ | PROT_WRITE);
    check_rtp_units(k, *value, l.good, buffer, room);
    check_slack(&sequences), check_slack(&markers), check_slack(&times), check_slack(&lengths);
    check_slack(&rows), check_slack(&lent);
}
