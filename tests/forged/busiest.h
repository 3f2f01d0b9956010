/* The busiest possible sample, of any numbers. Part of main.c. */
static uint32_t most_fault(uint32_t d, uint32_t n)
{
    if (d < 10000 || d > 200000)
        return CAROLSEDGE_REFUSED_TIME;
    if (n == 0)
        return CAROLSEDGE_REFUSED_NO_PICTURE;
    return n > 750 ? CAROLSEDGE_REFUSED_LUMA_LENGTH : CAROLSEDGE_DONE;
}

static uint32_t least_between(uint32_t d)
{
    uint32_t m = 1;
    while (m * d < 600000)
        m++;
    return m;
}

static void call_most_scenes(void)
{
    uint32_t d = below(3) ? 10000 + (uint32_t)below(190001) : (uint32_t)figure();
    uint32_t n = below(3) ? (uint32_t)below(760) : (uint32_t)figure(), fault = most_fault(d, n);
    uint64_t *value = (uint64_t *)(void *)lend(&lent, 8), scenes = 0;
    if (fault == CAROLSEDGE_DONE)
        scenes = n < 3 ? 1 : 1 + (n - 3) / least_between(d);
    begin(MOST_SCENES);
    if (end(carolsedge_most_scenes(d, n, value)) != fault || *value != scenes)
        fail("another answer than document 02's");
    check_slack(&lent);
}

/* A piece of any length from any byte on: each of its bytes is the rule's, and those behind the luma stand. */
static void call_busiest_luma(void)
{
    uint32_t w = below(8) ? 15 + (uint32_t)below(300) : (uint32_t)figure();
    uint32_t h = below(8) ? w / 4 + 30 + (uint32_t)below(40) : (uint32_t)figure();
    uint32_t d = below(8) ? 10000 + (uint32_t)below(190001) : (uint32_t)figure();
    uint32_t n = below(8) ? 1 + (uint32_t)below(750) : (uint32_t)figure();
    uint32_t fault = fault_of(w, h, d, 0, 1) ? fault_of(w, h, d, 0, 1) : most_fault(d, n);
    uint64_t picture_bytes = (uint64_t)w * h, all = fault ? 0 : n * picture_bytes;
    uint64_t from = below(8) ? below(all + 300) : figure(), left = from < all ? all - from : 0;
    size_t length = below(4) ? below(2000) : below(CAROLSEDGE_RECORD_MOST + 100);
    size_t done = left < length ? (size_t)left : length;
    uint8_t *piece = lend(&out, length);
    uint64_t *value = (uint64_t *)(void *)lend(&lent, 8);
    begin(BUSIEST_LUMA);
    if (end(carolsedge_busiest_luma(w, h, d, n, from, piece, length, value)) != fault || *value != done)
        fail("another answer than document 02's");
    for (size_t i = 0; i < done; i++)
        if (piece[i] != ((from + i) / picture_bytes / least_between(d) % 2 ? 255 : 0))
            fail("another byte of the luma than document 02's");
    if (!untouched(piece + done, length - done))
        fail("a byte behind the luma, or of a refused piece, was written");
    check_slack(&out), check_slack(&lent);
}
