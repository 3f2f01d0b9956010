/* Whether a record could have been sealed: refused as its header is, and otherwise one of two answers, whose figures
 * the record's rows have to bear out. */

/* The totals of a record that is allowed: repeated pictures, packets, lost. */
static void add_up(const uint8_t *p, size_t n, const struct carolsedge_header *h, uint64_t totals[3])
{
    struct carolsedge_unit unit;
    struct carolsedge_scene scene;
    totals[0] = totals[1] = totals[2] = 0;
    for (size_t j = 0; j < h->scenes; j++) {
        carolsedge_read_scene(p, n, j, &scene);
        totals[0] += scene.repeated;
    }
    for (size_t j = 0; j < h->units; j++) {
        carolsedge_read_unit(p, n, j, &unit);
        totals[1] += unit.packets, totals[2] += unit.lost;
    }
}

static void check_reached(const struct carolsedge_verdict *v, const struct carolsedge_header *h, const uint8_t *p,
                          size_t n)
{
    uint64_t totals[3], bits;
    memcpy(&bits, &v->index.value, sizeof bits);
    if (v->mark || v->row || v->found || v->limit || bits != h->index || v->pictures != h->pictures)
        fail("a record that could be sealed lacks a mark, or has another index");
    add_up(p, n, h, totals);
    if (v->unrepeated != h->pictures - totals[0] || v->packets != totals[1] || v->lost != totals[2])
        fail("other totals than those of the rows");
}

static void check_missing(const struct carolsedge_verdict *v, const struct carolsedge_header *h)
{
    uint64_t figures[11];
    memcpy(figures, v, sizeof figures);
    for (int i = 4; i < 11; i++)
        if (figures[i])
            fail("a record that could not be sealed has totals");
    int of_unit = v->mark == CAROLSEDGE_MARK_LOST || v->mark == CAROLSEDGE_MARK_TIME;
    int of_all = v->mark <= CAROLSEDGE_MARK_SCENES || v->mark == CAROLSEDGE_MARK_INDEX;
    uint64_t rows = of_all ? 1 : of_unit ? h->units : h->scenes;
    if (v->mark < 1 || v->mark > CAROLSEDGE_MARK_INDEX || v->row >= rows || v->found == v->limit)
        fail("a mark that there is not, of a row that there is not, or one that is there");
}

static void call_verify(void)
{
    size_t n;
    const uint8_t *p = forge_record(&n);
    struct carolsedge_header h;
    uint32_t refused = carolsedge_read_header(p, n, &h);
    struct carolsedge_verdict *v = (struct carolsedge_verdict *)(void *)lend(&lent, sizeof *v);
    int guarded = below(4) == 0;
    if (guarded)
        protect(&out, PROT_READ);
    begin(VERIFY);
    uint32_t k = carolsedge_verify(p, n, v);
    end(k == CAROLSEDGE_NOT_SEALED ? CAROLSEDGE_DONE : k);
    if (guarded)
        protect(&out, PROT_READ | PROT_WRITE);
    if ((k == CAROLSEDGE_NOT_SEALED ? CAROLSEDGE_DONE : k) != refused)
        fail("another refusal than the reader's");
    if (refused != CAROLSEDGE_DONE && !untouched((const uint8_t *)v, sizeof *v))
        fail("a refused record's verdict was written");
    if (k == CAROLSEDGE_DONE)
        check_reached(v, &h, p, n);
    if (k == CAROLSEDGE_NOT_SEALED)
        check_missing(v, &h);
    check_slack(&lent), check_slack(&out);
}
