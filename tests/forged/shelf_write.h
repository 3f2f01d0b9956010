/* Shelves of some of the smaller true records, some altered or with lengths that do not add up, written into buffers
 * of any length. What the answer has to be is worked out from the lengths and the reader. Part of main.c. */
static struct room lengths_lent, written;

static void make_writing_rooms(void)
{
    lengths_lent = room_of(4 * SHELVED), written = room_of(SHELF_MOST + 100);
}

/* Up to SHELVED records, end to end; the first two calls alter none of them. */
static size_t forge_records(uint8_t *made, uint32_t *length, size_t count)
{
    size_t size = 0;
    for (size_t j = 0; j < count; j++) {
        size_t i = below(3);
        memcpy(made + size, true_record[i], true_length[i]);
        length[j] = (uint32_t)true_length[i];
        size += true_length[i];
    }
    if (calls[SHELF_WRITE] < 2 || count == 0 || below(2))
        return size;
    if (below(2))
        made[below(size)] = (uint8_t)figure();
    else
        length[below(count)] += below(2) ? (uint32_t)figure() : below(2) ? 1u : UINT32_MAX;
    return below(8) ? size : below(size + 1);
}

/* The answer that there has to be, and its value. */
static uint32_t right_writing(const uint8_t *p, size_t size, const uint32_t *length, size_t count, size_t room,
                              uint64_t *value)
{
    struct carolsedge_header h;
    uint64_t sum = 0;
    for (size_t j = 0; j < count; j++)
        sum += length[j];
    *value = 0;
    if (sum != size)
        return CAROLSEDGE_REFUSED_SHELF;
    for (; *value < count; p += length[(*value)++])
        if (carolsedge_read_header(p, length[*value], &h) != CAROLSEDGE_DONE)
            return CAROLSEDGE_REFUSED_SHELF_RECORD;
    *value = 8 + 4 * count + size;
    return room < *value ? CAROLSEDGE_REFUSED_BUFFER : CAROLSEDGE_DONE;
}

/* Whether the buffer's front is the head of a shelf of these records, and the records. */
static int laid_out(const uint8_t *buffer, const uint8_t *p, size_t size, const uint32_t *length, size_t count)
{
    size_t start = 8 + 4 * count;
    uint8_t word[4];
    put32(word, (uint32_t)count);
    int same = memcmp(buffer, word, 4) == 0;
    put32(word, (uint32_t)(start + size));
    same = same && memcmp(buffer + 4, word, 4) == 0 && memcmp(buffer + start, p, size) == 0;
    for (size_t j = 0; j < count; start += length[j++]) {
        put32(word, (uint32_t)start);
        same = same && memcmp(buffer + 8 + 4 * j, word, 4) == 0;
    }
    return same;
}

static void call_shelf_write(void)
{
    static uint8_t made[SHELF_MOST];
    uint32_t length[SHELVED];
    size_t count = below(SHELVED + 1), size = forge_records(made, length, count), needed = 8 + 4 * count + size;
    size_t room = below(2) ? needed - 1 + below(3) : below(SHELF_MOST + 100);
    if (calls[SHELF_WRITE] < 2) /* room and one byte more, then one byte less */
        room = calls[SHELF_WRITE] == 0 ? needed + 1 : needed - 1;
    const uint8_t *p = memcpy(lend(&shelves, size), made, size);
    const uint32_t *l = memcpy(lend(&lengths_lent, 4 * count), length, 4 * count);
    uint8_t *buffer = lend(&written, room);
    uint64_t *value = (uint64_t *)(void *)lend(&lent, 8), right;
    int guarded = below(4) == 0;
    if (guarded)
        protect(&shelves, PROT_READ), protect(&lengths_lent, PROT_READ);
    uint32_t number = right_writing(p, size, l, count, room, &right);
    begin(SHELF_WRITE);
    uint32_t k = end(carolsedge_shelf_write(p, size, l, count, buffer, room, value));
    if (guarded)
        protect(&shelves, PROT_READ | PROT_WRITE), protect(&lengths_lent, PROT_READ | PROT_WRITE);
    if (k != number || *value != right)
        fail("another answer than the records have");
    size_t done = k == CAROLSEDGE_DONE ? needed : 0;
    if (done && !laid_out(buffer, p, size, l, count))
        fail("a shelf that is laid out otherwise");
    if (!untouched(buffer + done, room - done))
        fail("a byte behind the shelf, or of a refused buffer, was written");
    check_slack(&shelves), check_slack(&lengths_lent), check_slack(&written), check_slack(&lent);
}
