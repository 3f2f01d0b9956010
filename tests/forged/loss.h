/* The effective loss on wild lists: bits of any kind among the probabilities, lists of any length. Part of main.c. */
enum { LOSS_MOST = 800 };
static struct room losses, probabilities, keys, plain;

static void make_loss_rooms(void)
{
    losses = room_of(4 * LOSS_MOST), probabilities = room_of(8 * LOSS_MOST);
    keys = room_of(8 * LOSS_MOST), plain = room_of(8 * LOSS_MOST);
}

static double forged_probability(void)
{
    static const double edges[] = {0.0, -0.0, 0.01, 0.5, 1.0, 0x1p-1074, -0x1p-1074, 0x1.0000000000001p0};
    uint64_t bits = chance();
    double p;
    memcpy(&p, &bits, 8);
    uint64_t way = below(300);
    return way == 0   ? p
           : way == 1 ? edges[below(8)]
           : way < 60 ? edges[below(5)]
                      : (double)below(1001) / (below(2) ? 1000 : 100000);
}

/* No NaN, nothing below 0, nothing above 750 times 750 times the greatest loss. */
static int sound(const double *list, size_t n)
{
    for (size_t i = 0; i < n; i++)
        if (!(list[i] >= 0 && list[i] <= 750.0 * 750.0 * 4294967296.0))
            return 0;
    return 1;
}

static void call_effective_loss(void)
{
    uint32_t units = below(40) ? 1 + (uint32_t)below(30) : below(4) ? (uint32_t)below(LOSS_MOST) : (uint32_t)figure();
    size_t length[4];
    int good = units >= 1 && units <= 750, probable = 1, guarded = below(16) == 0;
    for (int i = 0; i < 4; i++) {
        length[i] = below(60) && units <= LOSS_MOST ? units : below(LOSS_MOST + 1);
        good = good && length[i] == units;
    }
    uint32_t *l = (uint32_t *)(void *)lend(&losses, 4 * length[0]);
    double *p = (double *)(void *)lend(&probabilities, 8 * length[1]);
    double *k = (double *)(void *)lend(&keys, 8 * length[2]), *q = (double *)(void *)lend(&plain, 8 * length[3]);
    for (size_t i = 0; i < length[0]; i++)
        l[i] = below(3) ? 0 : (uint32_t)figure();
    for (size_t i = 0; i < length[1]; i++)
        p[i] = forged_probability(), probable = probable && p[i] >= 0 && p[i] <= 1;
    if (guarded)
        protect(&losses, PROT_READ), protect(&probabilities, PROT_READ);
    begin(EFFECTIVE_LOSS);
    uint32_t number = end(carolsedge_effective_loss(units, l, length[0], p, length[1], k, length[2], q, length[3]));
    if (guarded)
        protect(&losses, PROT_READ | PROT_WRITE), protect(&probabilities, PROT_READ | PROT_WRITE);
    if (number != (!good       ? CAROLSEDGE_REFUSED_LOSS_LISTS
                   : !probable ? CAROLSEDGE_REFUSED_PROBABILITY
                               : CAROLSEDGE_DONE))
        fail("another answer than document 02's");
    if (number && !(untouched((uint8_t *)k, 8 * length[2]) && untouched((uint8_t *)q, 8 * length[3])))
        fail("a refused loss wrote to a list");
    if (number == CAROLSEDGE_DONE && !(sound(k, units) && sound(q, units)))
        fail("a loss that none can be");
    check_slack(&losses), check_slack(&probabilities), check_slack(&keys), check_slack(&plain);
}
