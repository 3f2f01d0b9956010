/* Calls every function of the C interface on forged states, records and figures. Every lent array, piece, buffer and
 * record stands against a page that cannot be read or written, in front of it or behind it, so a single byte outside
 * ends the run. What is lent to be read only cannot be written, always or in some of the calls, and what is left of a
 * page is compared afterwards. A call that takes longer than LIMIT seconds, an answer past the table's last number, a
 * refusal that wrote to its buffer, and an opening that answers something else than the rule says end the run too.
 *
 * Usage: forged CALLS SEED. Makes so many calls of each function (of verify, sheet, all rows, effective_loss, gap_runs
 * and of a survey's and the shelf's a tenth; of replay, which makes several, and of the busiest sample's a twentieth),
 * and prints what they answered.
 */
#define _GNU_SOURCE
#include <inttypes.h>
#include <signal.h>
#include <stdio.h>
#include <stdlib.h>
#include <string.h>
#include <sys/mman.h>
#include <sys/time.h>
#include <time.h>
#include <unistd.h>

#include "carolsedge.h"

#ifndef LIMIT
#define LIMIT 5 /* seconds that a call may take */
#endif

enum { OPEN, FEED_CAPTURE, FEED_LUMA, SEAL, INDEX, REPEATS, READ_HEADER, READ_UNIT, READ_SCENE, READ_UNITS,
       READ_SCENES, VERIFY, SHEET, REPLAY,
       OPEN_SURVEY, FEED_SURVEY, ASK_SURVEY, EFFECTIVE_LOSS, MOST_SCENES, BUSIEST_LUMA, GAP_RUNS, RTP_UNITS,
       SHELF_OPEN, SHELF_PART, SHELF_WRITE, FUNCTIONS };
static const char *const name[FUNCTIONS] = {"open", "feed_capture", "feed_luma", "seal", "index", "repeats",
                                             "read_header", "read_unit", "read_scene", "read_units", "read_scenes",
                                             "verify", "sheet", "replay",
                                             "open_survey", "feed_survey", "ask_survey", "effective_loss",
                                             "most_scenes", "busiest_luma", "gap_runs", "rtp_units", "shelf_open",
                                             "shelf_part", "shelf_write"};
enum { LAST_NUMBER = 28 }; /* of the table of refusals */
static uint64_t answers[FUNCTIONS][LAST_NUMBER + 1], calls[FUNCTIONS], longest, seed;
static volatile int under_way;
static volatile sig_atomic_t ticks;

static void fail(const char *what)
{
    printf("forged: FAILED: %s, at call %" PRIu64 " of %s, seed %" PRIu64 "\n",
           what, calls[under_way], name[under_way], seed);
    fflush(stdout);
    _exit(1);
}

static void outside(int signal) { (void)signal; fail("memory outside was read or written"); }
static void tick(int signal) { (void)signal; if (++ticks > LIMIT) fail("a call does not end"); }

/* ---- chance */

static uint64_t state_of_chance;
static uint64_t chance(void)
{
    uint64_t z = (state_of_chance += 0x9E3779B97F4A7C15u);
    z = (z ^ (z >> 30)) * 0xBF58476D1CE4E5B9u;
    z = (z ^ (z >> 27)) * 0x94D049BB133111EBu;
    return z ^ (z >> 31);
}
static uint64_t below(uint64_t n) { return chance() % n; }

/* A number of any size, a small one, or one at an edge. */
static uint64_t figure(void)
{
    static const uint64_t edges[] = {0, 1, 2, 4, 16, 18, 19, 20, 23, 24, 30, 42, 58, 64, 188, 249, 250, 251, 749, 750,
                                     751, 1088, 1600, 1920, 3750, 8191, 65535, 65536, 268435455, 268435456, 268435457,
                                     UINT32_MAX, (uint64_t)1 << 32, INT64_MAX, UINT64_MAX - 1, UINT64_MAX};
    switch (below(4)) {
    case 0: return chance();
    case 1: return chance() >> below(64);
    case 2: return below(1000);
    default: return edges[below(sizeof edges / sizeof *edges)];
    }
}

/* ---- memory between two pages that nobody may touch */

struct room { uint8_t *start; size_t size, used; int back; };
enum { PAGE = 4096, SLACK = 0xC5 };

static struct room room_of(size_t most)
{
    struct room r = {NULL, (most + PAGE - 1) / PAGE * PAGE, 0, 0};
    uint8_t *all = mmap(NULL, r.size + 2 * PAGE, PROT_NONE, MAP_PRIVATE | MAP_ANONYMOUS, -1, 0);
    if (all == MAP_FAILED || mprotect(all + PAGE, r.size, PROT_READ | PROT_WRITE) != 0) {
        perror("forged: mmap");
        exit(2);
    }
    r.start = all + PAGE;
    memset(r.start, SLACK, r.size);
    return r;
}

static uint8_t *at(const struct room *r) { return r->back ? r->start + r->size - r->used : r->start; }

/* So many bytes at one of the two edges; what is left of the room is marked. */
static uint8_t *lend(struct room *r, size_t n)
{
    memset(at(r), SLACK, r->used);
    r->used = n;
    r->back = (int)below(2);
    return at(r);
}

static int untouched(const uint8_t *p, size_t n) { return n == 0 || (p[0] == SLACK && memcmp(p, p + 1, n - 1) == 0); }

static void check_slack(const struct room *r)
{
    if (!untouched(r->back ? r->start : r->start + r->used, r->size - r->used))
        fail("memory beside a lent array was written");
}

static void protect(const struct room *r, int how)
{
    if (mprotect(r->start, r->size, how) != 0) {
        perror("forged: mprotect");
        exit(2);
    }
}

/* ---- a call */

static struct timespec began;
static void begin(int function)
{
    under_way = function;
    ticks = 0;
    clock_gettime(CLOCK_MONOTONIC, &began);
}

static uint32_t end(uint32_t number)
{
    struct timespec now;
    clock_gettime(CLOCK_MONOTONIC, &now);
    uint64_t took = (uint64_t)(now.tv_sec - began.tv_sec) * 1000000000 + (uint64_t)now.tv_nsec -
                    (uint64_t)began.tv_nsec;
    if (took > longest)
        longest = took;
    if (number > LAST_NUMBER)
        fail("an answer that is not in the table");
    answers[under_way][number]++;
    calls[under_way]++;
    return number;
}

/* ---- a true sample, and its records */

enum { TRUE_STATES = 24, TRUE_RECORDS = 8 };
static struct carolsedge_sample truth[TRUE_STATES];
static struct carolsedge_survey surveyed[TRUE_STATES];
static uint8_t true_record[TRUE_RECORDS][CAROLSEDGE_RECORD_MOST];
static size_t true_length[TRUE_RECORDS];

static void put32(uint8_t *p, uint32_t x) { for (int i = 0; i < 4; i++) p[i] = (uint8_t)(x >> 8 * i); }

/* A frame with n packets of PID 256, other packets and bad ones among them; or one that is skipped. */
static size_t frame(uint8_t *p, uint32_t seconds, size_t n)
{
    size_t length = 42 + 188 * n, udp = 8 + 188 * n;
    memset(p, 0, 16 + length);
    put32(p, seconds);
    put32(p + 4, (uint32_t)below(1000000));
    put32(p + 8, (uint32_t)length);
    uint8_t *b = p + 16;
    b[12] = below(8) ? 8 : 6;
    b[14] = 0x45;
    b[16] = (uint8_t)((udp + 20) >> 8), b[17] = (uint8_t)(udp + 20);
    b[23] = 17;
    b[38] = (uint8_t)(udp >> 8), b[39] = (uint8_t)udp;
    for (size_t i = 0; i < n; i++) {
        uint8_t *cell = b + 42 + 188 * i;
        cell[0] = below(20) ? 0x47 : 0x48;
        cell[1] = (uint8_t)((below(10) ? 1 : 2) | (below(3) ? 0 : 0x40));
        cell[3] = (uint8_t)chance(), cell[4] = (uint8_t)below(3), cell[5] = (uint8_t)chance();
    }
    return 16 + length;
}

static size_t file_header(uint8_t *p)
{
    static const uint8_t magic[4] = {0xD4, 0xC3, 0xB2, 0xA1};
    memset(p, 0, 24);
    memcpy(p, magic, 4);
    p[20] = 1;
    return 24;
}

/* Feeds state i some true bytes: frames to the capture, pictures of 40 by 30 to the luma, dark and bright in turn; in
 * half of the states the last piece is cut. */
static void make_true(int i)
{
    static uint8_t piece[65536];
    uint64_t value;
    struct carolsedge_sample *s = &truth[i];
    struct carolsedge_survey *v = &surveyed[i];
    carolsedge_survey_open(v);
    carolsedge_sample_open(s, 40, 30, 200000, 256, 1 + (uint32_t)i % CAROLSEDGE_NEWEST_EDITION);
    size_t n = file_header(piece);
    carolsedge_sample_feed_capture(s, piece, n, &value);
    carolsedge_survey_feed(v, piece, n, &value);
    for (int j = 0; j < 1 + 40 * i; j++) {
        n = frame(piece, (uint32_t)j, 1 + below(7));
        carolsedge_sample_feed_capture(s, piece, n, &value);
        carolsedge_survey_feed(v, piece, n, &value);
    }
    for (int j = 0; j < 1 + 25 * i; j++) {
        memset(piece, j / 6 % 2 ? 200 : 20, 1200);
        for (int k = 0; k < 30; k++)
            piece[below(1200)] = (uint8_t)chance();
        carolsedge_sample_feed_luma(s, piece, 1200, &value);
    }
    if (i < TRUE_RECORDS) {
        if (carolsedge_sample_seal(s, true_record[i], CAROLSEDGE_RECORD_MOST, &value) != CAROLSEDGE_DONE)
            fail("a true sample is not sealed");
        true_length[i] = (size_t)value;
    } else if (i % 2) {
        carolsedge_sample_feed_capture(s, piece, 1 + below(60), &value);
        carolsedge_sample_feed_luma(s, piece, 1 + below(1199), &value);
    }
}

/* ---- forging */

static struct room walk, kept, numbers, table, luma, sums, bins, picture, out, header, lent, script, pages;
static struct room survey_walk, survey_kept, counts, shelves;

/* The words of a lent array, by one way of forging. */
static void forge(uint8_t *p, size_t size, const void *true_words, size_t word, int way)
{
    uint64_t x;
    if (way == 0)
        for (size_t i = 0; i < size; i += 8)
            x = chance(), memcpy(p + i, &x, 8);
    else if (way == 1)
        memset(p, 0, size);
    else
        memcpy(p, true_words, size);
    for (uint64_t i = way == 0 ? 0 : below(12); i > 0; i--) {
        /* the words that steer are the first ones */
        size_t w = below(2) ? below(16) : below(size / word);
        x = figure();
        memcpy(p + w * word, &x, word);
    }
}

static void forge_state(void)
{
    const struct carolsedge_sample *t = &truth[below(TRUE_STATES)];
    int way = (int)below(8);
    forge(lend(&walk, sizeof t->walk), sizeof t->walk, t->walk, 8, way);
    forge(lend(&kept, sizeof t->kept), sizeof t->kept, t->kept, 1, way);
    forge(lend(&numbers, sizeof t->numbers), sizeof t->numbers, t->numbers, 8, way);
    forge(lend(&table, sizeof t->table), sizeof t->table, t->table, 8, way);
    forge(lend(&luma, sizeof t->luma), sizeof t->luma, t->luma, 8, way);
    forge(lend(&sums, sizeof t->sums), sizeof t->sums, t->sums, 4, way);
    forge(lend(&bins, sizeof t->bins), sizeof t->bins, t->bins, 4, way);
    forge(lend(&picture, sizeof t->picture), sizeof t->picture, t->picture, 1, way);
}

/* A status refuses at once, and wild numbers soon: between two calls the words that steer are often set so that the
 * next one goes on. */
static void alter_state(void)
{
    uint64_t *w = (uint64_t *)(void *)at(&walk), *c = (uint64_t *)(void *)at(&numbers),
             *l = (uint64_t *)(void *)at(&luma);
    uint64_t *u = (uint64_t *)(void *)at(&table);
    switch (below(4)) {
    case 0: /* any way through the engines */
        c[0] = w[0] = 0, w[2] = 24 + below(1000), w[3] = below(80), w[5] = below(200);
        l[0] = 0, l[3] = below(752), l[5] = below(40), l[6] = below(8), l[7] = below(400), l[8] = below(4096);
        l[12] = 15 + below(400), l[13] = 30 + below(200), l[14] = 10000 + below(190001), l[15] = 256;
        break;
    case 1: /* ready for a seal, but for the counts */
        c[0] = w[0] = 0, w[2] = 1000, w[3] = 0, c[4] = below(800), c[6] = figure(), c[7] = figure(), l[4] = below(760);
        l[0] = 0, l[3] = below(760), l[5] = l[6] = l[7] = 0;
        break;
    case 2:
        w[below(CAROLSEDGE_WALK_WORDS)] = figure();
        c[below(CAROLSEDGE_NUMBERS)] = figure();
        u[below(CAROLSEDGE_TABLE_WORDS)] = figure();
        l[below(2) ? below(16) : below(CAROLSEDGE_LUMA_WORDS)] = figure();
        break;
    default: break;
    }
}

/* Pieces stand in rooms of their own, which are only read: wild bytes, zeros, frames, an altered file. */
enum { POOLS = 64 };
static struct room pool[POOLS];

static void make_pools(void)
{
    for (int i = 0; i < POOLS; i++) {
        size_t size = i == 0 ? 1 << 20 : PAGE * (1 + below(3)), n = 0;
        pool[i] = room_of(size);
        uint8_t *p = pool[i].start;
        memset(p, i % 4 ? 0 : (int)below(256), pool[i].size);
        if (i % 4 == 1)
            for (; n < pool[i].size; n++)
                p[n] = (uint8_t)chance();
        if (i % 4 == 2)
            n = file_header(p);
        if (i % 4 >= 2)
            while (n + 16 + 42 + 188 * 7 < pool[i].size)
                n += frame(p + n, (uint32_t)chance(), below(8));
        for (uint64_t k = below(20); k > 0; k--)
            p[below(pool[i].size)] = (uint8_t)chance();
        protect(&pool[i], PROT_READ);
    }
}

static const uint8_t *piece_of(size_t *length)
{
    struct room *r = &pool[below(2000) ? 1 + below(POOLS - 1) : 0];
    *length = below(3) ? below(300) : below(20) ? below(2500) : below(r->size + 1);
    if (*length > r->size)
        *length = r->size;
    return below(2) ? r->start : r->start + r->size - *length;
}

/* ---- the calls */

static void check_state(void)
{
    check_slack(&walk), check_slack(&kept), check_slack(&numbers), check_slack(&table), check_slack(&luma),
        check_slack(&sums), check_slack(&bins), check_slack(&picture), check_slack(&lent);
}

static uint32_t fault_of(uint32_t w, uint32_t h, uint32_t d, uint32_t pid, uint32_t edition)
{
    if (h < 30 || h > 1088 || w < 15 || w > 1920 || h > 2 * w || w > 4 * h)
        return CAROLSEDGE_REFUSED_SIZE;
    if (d < 10000 || d > 200000)
        return CAROLSEDGE_REFUSED_TIME;
    if (pid > 8191)
        return CAROLSEDGE_REFUSED_PID;
    return edition < 1 || edition > CAROLSEDGE_NEWEST_EDITION ? CAROLSEDGE_REFUSED_OPENING_EDITION : CAROLSEDGE_DONE;
}

static void call_open(void)
{
    uint32_t w = below(3) ? 15 + (uint32_t)below(1906) : (uint32_t)figure(),
             h = below(3) ? w / 4 + (uint32_t)below(1100) : (uint32_t)figure();
    uint32_t d = below(3) ? 10000 + (uint32_t)below(190001) : (uint32_t)figure(),
             pid = below(3) ? (uint32_t)below(8192) : (uint32_t)figure();
    uint32_t edition = below(4) ? (uint32_t)below(CAROLSEDGE_NEWEST_EDITION + 2) : (uint32_t)figure();
    begin(OPEN);
    uint32_t k = end(carolsedge_open((uint64_t *)(void *)at(&walk), at(&kept), (uint64_t *)(void *)at(&numbers),
                                     (uint64_t *)(void *)at(&table), (uint64_t *)(void *)at(&luma),
                                     (uint32_t *)(void *)at(&sums), (uint32_t *)(void *)at(&bins), at(&picture),
                                     w, h, d, pid, edition));
    check_state();
    if (k != fault_of(w, h, d, pid, edition))
        fail("another answer than that of documents 01 and 02");
}

static void call_feed_capture(void)
{
    size_t n;
    const uint8_t *piece = piece_of(&n);
    uint64_t *value = (uint64_t *)(void *)lend(&lent, 8);
    begin(FEED_CAPTURE);
    end(carolsedge_feed_capture((uint64_t *)(void *)at(&walk), at(&kept), (uint64_t *)(void *)at(&numbers),
                                (uint64_t *)(void *)at(&table), piece, n, value));
    check_state();
}

static void call_feed_luma(void)
{
    size_t n;
    const uint8_t *piece = piece_of(&n);
    uint64_t *value = (uint64_t *)(void *)lend(&lent, 8);
    begin(FEED_LUMA);
    end(carolsedge_feed_luma((uint64_t *)(void *)at(&luma), (uint32_t *)(void *)at(&sums),
                             (uint32_t *)(void *)at(&bins), at(&picture), piece, n, value));
    check_state();
}

/* What a seal reads cannot be written meanwhile. */
static void guard(int way)
{
    protect(&walk, way), protect(&kept, way), protect(&numbers, way), protect(&table, way), protect(&luma, way);
}

static void call_seal(void)
{
    size_t n = below(3) ? below(700) : below(CAROLSEDGE_RECORD_MOST + 100), done = 0;
    uint8_t *buffer = lend(&out, n);
    uint64_t *value = (uint64_t *)(void *)lend(&lent, 8);
    int guarded = below(16) == 0;
    if (guarded)
        guard(PROT_READ);
    begin(SEAL);
    uint32_t k = end(carolsedge_seal((const uint64_t *)(void *)at(&walk), at(&kept),
                                     (const uint64_t *)(void *)at(&numbers), (const uint64_t *)(void *)at(&table),
                                     (const uint64_t *)(void *)at(&luma), buffer, n, value));
    if (guarded)
        guard(PROT_READ | PROT_WRITE);
    if (k == CAROLSEDGE_DONE && (*value > n || *value < 128))
        fail("a record's length that is none");
    if (k == CAROLSEDGE_DONE)
        done = (size_t)*value;
    if (!untouched(buffer + done, n - done))
        fail("a byte behind the record, or of a refused seal's buffer, was written");
    check_slack(&out);
    check_state();
}

static uint32_t listed(uint64_t number) { return number < 1 || number > LAST_NUMBER ? 18 : (uint32_t)number; }

/* What an index call answers of any words: it reads the totals and the refusals kept, and nothing else. */
static uint32_t index_of(const uint64_t *c, const uint64_t *l, struct carolsedge_index *index, uint64_t *place)
{
    uint32_t unrepeated = (uint32_t)l[4], pictures = (uint32_t)l[3], packets = (uint32_t)c[6], lost = (uint32_t)c[7];
    *place = c[0] ? c[1] : l[0] ? l[1] : 0;
    if (c[0] || l[0])
        return listed(c[0] ? c[0] : l[0]);
    if (c[6] == 0 || l[3] == 0)
        return c[6] == 0 ? CAROLSEDGE_REFUSED_NO_PACKET : CAROLSEDGE_REFUSED_NO_PICTURE;
    memset(index, 0, sizeof *index);
    if (pictures == 0 || unrepeated > pictures || packets == 0)
        return CAROLSEDGE_DONE;
    index->ic = 4.0 * ((double)unrepeated / (double)pictures);
    index->ip = (double)packets / (double)((uint64_t)packets + lost);
    index->value = 1.0 + index->ic * index->ip;
    return CAROLSEDGE_DONE;
}

/* Bits of three floats: any, or NaNs with payloads, quiet and signalling. */
static void forge_floats(void *floats)
{
    uint64_t bits[3];
    int wild = below(4) == 0;
    for (int i = 0; i < 3; i++)
        bits[i] = wild ? chance() : chance() | 0x7FF0000000000001;
    memcpy(floats, bits, sizeof bits);
}

static void call_index(void)
{
    const uint64_t *c = (const uint64_t *)(void *)at(&numbers), *l = (const uint64_t *)(void *)at(&luma);
    struct carolsedge_index right, *given = (struct carolsedge_index *)(void *)lend(&header, sizeof *given);
    uint64_t place, *value = (uint64_t *)(void *)lend(&lent, 8);
    forge_floats(given);
    memcpy(&right, given, sizeof right);
    uint32_t number = index_of(c, l, &right, &place);
    int guarded = below(16) == 0;
    if (guarded)
        guard(PROT_READ);
    begin(INDEX);
    uint32_t k = end(carolsedge_index(c, l, given, value));
    if (guarded)
        guard(PROT_READ | PROT_WRITE);
    if (k != number || *value != place || memcmp(given, &right, sizeof right) != 0)
        fail("another index than that of the totals, or a refused one that was written");
    check_slack(&header);
    check_state();
}

/* What a count of repeats answers of any words: by the opening in them, their number of pictures and their map. */
static uint32_t repeats_of(const uint64_t *l, uint32_t a, uint32_t b, uint64_t *value)
{
    uint32_t number = fault_of((uint32_t)l[12], (uint32_t)l[13], (uint32_t)l[14], (uint32_t)l[15], (uint32_t)l[16]);
    *value = 0;
    if (number != CAROLSEDGE_DONE)
        return number;
    if (a > b || b > l[3])
        return CAROLSEDGE_REFUSED_PASSAGE;
    for (uint32_t i = a; i < b && b <= 750; i++)
        *value += l[64 + i / 64] >> i % 64 & 1;
    return CAROLSEDGE_DONE;
}

/* A film of 750 pictures, each repeated or not by chance: wild words seldom have a map of which a count says much. */
static void forge_map(uint64_t *l)
{
    l[3] = 750, l[12] = 64, l[13] = 48, l[14] = 40000, l[15] = 256, l[16] = 1 + below(CAROLSEDGE_NEWEST_EDITION);
    for (size_t i = 64; i < 76; i++)
        l[i] = chance();
}

static void call_repeats(void)
{
    uint64_t *l = (uint64_t *)(void *)at(&luma);
    if (calls[REPEATS] % 8 == 0)
        forge_map(l);
    uint64_t right, *value = (uint64_t *)(void *)lend(&lent, 8);
    uint32_t a = below(4) ? (uint32_t)below(752) : (uint32_t)figure();
    uint32_t b = below(4) ? a + (uint32_t)below(200) : (uint32_t)figure();
    uint32_t number = repeats_of(l, a, b, &right);
    int guarded = below(16) == 0;
    if (guarded)
        guard(PROT_READ);
    begin(REPEATS);
    uint32_t k = end(carolsedge_repeats(l, a, b, value));
    if (guarded)
        guard(PROT_READ | PROT_WRITE);
    if (k != number || *value != right)
        fail("another count than that of the map");
    check_state();
}

/* A record's bytes: true ones with a few altered, or wild ones; cut now and then. */
static const uint8_t *forge_record(size_t *length)
{
    int i = (int)below(TRUE_RECORDS);
    size_t n = below(4) ? true_length[i] : below(CAROLSEDGE_RECORD_MOST);
    if (below(8) == 0)
        n = below(200);
    uint8_t *p = lend(&out, n);
    if (below(8))
        memcpy(p, true_record[i], n);
    else
        for (size_t k = 0; k < n && k < 400; k++)
            p[k] = (uint8_t)chance();
    for (uint64_t k = n == 0 || below(3) == 0 ? 0 : below(4); k > 0; k--)
        p[below(2) ? below(n) : below(n < 64 ? n : 64)] = (uint8_t)figure();
    *length = n;
    return p;
}

static int out_guarded; /* the record cannot be written just now */

/* Reads the header: the record, its length, and what it was refused with. */
static const uint8_t *call_read_header(size_t *n, uint32_t *refused)
{
    const uint8_t *p = forge_record(n);
    struct carolsedge_header *h = (struct carolsedge_header *)(void *)lend(&header, sizeof *h);
    if ((out_guarded = below(4) == 0))
        protect(&out, PROT_READ);
    begin(READ_HEADER);
    *refused = end(carolsedge_read_header(p, *n, h));
    if (*refused != CAROLSEDGE_DONE && !untouched(at(&header), sizeof *h))
        fail("a refused reading wrote to its header");
    check_slack(&header);
    return p;
}

/* The rows of a record are refused with its header's number, or with 19 at or past the count. */
static void call_readings(void)
{
    size_t n;
    uint32_t refused;
    const uint8_t *p = call_read_header(&n, &refused);
    const struct carolsedge_header *h = (const struct carolsedge_header *)(void *)at(&header);
    for (int i = 0; i < 2; i++) {
        size_t j = below(4) ? below(40) : (size_t)figure();
        size_t size = i ? sizeof(struct carolsedge_scene) : sizeof(struct carolsedge_unit);
        uint8_t *row = lend(&lent, size);
        begin(i ? READ_SCENE : READ_UNIT);
        uint32_t k = i ? carolsedge_read_scene(p, n, j, (struct carolsedge_scene *)(void *)row)
                       : carolsedge_read_unit(p, n, j, (struct carolsedge_unit *)(void *)row);
        uint32_t right = refused;
        if (refused == CAROLSEDGE_DONE && j >= (i ? h->scenes : h->units))
            right = CAROLSEDGE_REFUSED_ROW;
        if (end(k) != right)
            fail("a row of a record that is refused, or that it has not");
        if (k != CAROLSEDGE_DONE && !untouched(row, size))
            fail("a refused reading wrote to its row");
        check_slack(&lent);
    }
    if (out_guarded)
        protect(&out, PROT_READ | PROT_WRITE);
}

#include "rows.h"

/* The sheet of a record, allowed or not, into a buffer of some pages, a byte less or a byte more, or of any length.
 * The bytes behind the pages, and all of a refused sheet's buffer, have to stand; a line feed ends every line. */
static void call_sheet(void)
{
    size_t length, some = 1 + below(below(4) ? 4 : 17), done = 0;
    size_t room = below(4) ? 6060 * some - 1 + below(3) : below(CAROLSEDGE_SHEET_MOST + 100);
    const uint8_t *p = forge_record(&length);
    uint8_t *buffer = lend(&pages, room);
    uint64_t *value = (uint64_t *)(void *)lend(&lent, 8);
    int guarded = below(4) == 0;
    if (guarded)
        protect(&out, PROT_READ);
    begin(SHEET);
    uint32_t k = end(carolsedge_sheet(p, length, buffer, room, value));
    if (guarded)
        protect(&out, PROT_READ | PROT_WRITE);
    if (k != CAROLSEDGE_DONE && (k < CAROLSEDGE_REFUSED_BUFFER || k > CAROLSEDGE_REFUSED_RECORD))
        fail("a refusal that is none of a sheet's");
    if ((k == CAROLSEDGE_DONE) != (*value != 0 && *value <= room) || *value % 6060 || *value > CAROLSEDGE_SHEET_MOST)
        fail("a sheet's length that is none");
    if (k == CAROLSEDGE_DONE)
        done = (size_t)*value;
    for (size_t i = 100; i < done; i += 101)
        if (buffer[i] != '\n')
            fail("a sheet's line that has not 100 columns");
    if (!untouched(buffer + done, room - done))
        fail("a byte behind the pages, or of a refused sheet's buffer, was written");
    check_slack(&pages), check_slack(&out), check_slack(&lent);
}

/* A shelf of up to 5 of the smaller true records, some with altered words of the head or altered bytes, some cut. */
enum { SHELVED = 5, SHELF_MOST = 8 + SHELVED * (4 + CAROLSEDGE_RECORD_MOST) };
static const uint8_t *forge_shelf(size_t *length)
{
    static uint8_t made[SHELF_MOST];
    size_t count = below(SHELVED + 1), n = 8 + 4 * count;
    for (size_t j = 0; j < count; j++) {
        size_t i = below(3);
        put32(made + 8 + 4 * j, (uint32_t)n);
        memcpy(made + n, true_record[i], true_length[i]);
        n += true_length[i];
    }
    put32(made, (uint32_t)count), put32(made + 4, (uint32_t)n);
    for (uint64_t k = below(2) ? below(3) : 0; k > 0; k--) {
        uint8_t *word = made + 4 * below(2 + count);
        if (below(3) == 0)
            put32(word, (uint32_t)figure());
        else if (below(2))
            word[0] = (uint8_t)(word[0] + (below(2) ? 1 : 255));
        else
            made[below(n)] = (uint8_t)figure();
    }
    if (below(8) == 0)
        n = below(2) ? below(n + 1) : below(40);
    *length = n;
    return memcpy(lend(&shelves, n), made, n);
}

/* A shelf, and a record of it: a part lies within; both calls refuse alike, or the second with 19 at or past the
 * count. */
static void call_shelf(void)
{
    size_t length, j = below(3) ? below(SHELVED + 1) : (size_t)figure();
    const uint8_t *p = forge_shelf(&length);
    struct carolsedge_shelf *figures = (struct carolsedge_shelf *)(void *)lend(&header, sizeof *figures);
    struct carolsedge_part *part = (struct carolsedge_part *)(void *)lend(&out, sizeof *part);
    uint64_t *place = (uint64_t *)(void *)lend(&lent, 8), first;
    int guarded = below(4) == 0;
    if (guarded)
        protect(&shelves, PROT_READ);
    begin(SHELF_OPEN);
    uint32_t k = end(carolsedge_shelf_open(p, length, figures, place)), right = k;
    if (k != CAROLSEDGE_DONE && k != CAROLSEDGE_REFUSED_SHELF && k != CAROLSEDGE_REFUSED_SHELF_RECORD)
        fail("a refusal that is none of a shelf's");
    if (k != CAROLSEDGE_DONE && !untouched(at(&header), sizeof *figures))
        fail("a refused shelf's figures were written");
    if (k == CAROLSEDGE_REFUSED_SHELF_RECORD ? *place >= SHELVED : *place != 0)
        fail("a place that is none of a shelf's");
    if (k == CAROLSEDGE_DONE && j >= figures->records)
        right = CAROLSEDGE_REFUSED_ROW;
    first = *place;
    begin(SHELF_PART);
    k = end(carolsedge_shelf_part(p, length, j, part, place));
    if (guarded)
        protect(&shelves, PROT_READ | PROT_WRITE);
    if (k != right || *place != first)
        fail("a record of a shelf that is refused, or that it has not");
    if (k == CAROLSEDGE_DONE && (part->start >= part->end || part->end > length))
        fail("a part that is not within its shelf");
    if (k != CAROLSEDGE_DONE && !untouched(at(&out), sizeof *part))
        fail("a refused part was written");
    check_slack(&shelves), check_slack(&header), check_slack(&out), check_slack(&lent);
}

/* A script of up to 12 calls, now and then wild or cut: whether it has room, and what stands where it has not. */
static void call_replay(void)
{
    static uint8_t made[4096];
    size_t n = 20;
    for (size_t i = 0; i < 20; i++)
        made[i] = (uint8_t)chance();
    if (below(4))
        put32(made, 15 + (uint32_t)below(60)), put32(made + 4, 30 + (uint32_t)below(30)), put32(made + 8, 40000),
            put32(made + 12, 256), put32(made + 16, (uint32_t)below(CAROLSEDGE_NEWEST_EDITION + 2));
    for (uint64_t i = below(12); i > 0; i--) {
        size_t length = below(200);
        made[n] = below(20) ? (uint8_t)"CLSIR"[below(5)] : (uint8_t)chance();
        if (made[n] == 'I' || made[n] == 'R') {
            n += made[n] == 'I' ? 1 : 9;
            continue;
        }
        put32(made + n + 1, below(50) ? (uint32_t)length : (uint32_t)figure());
        if (made[n] == 'S')
            length = 0;
        for (size_t k = 0; k < length; k++)
            made[n + 5 + k] = (uint8_t)chance();
        n += 5 + length;
    }
    if (below(4) == 0)
        n = below(n + 1);
    size_t room = below(2500);
    memcpy(lend(&script, n), made, n);
    uint8_t *buffer = lend(&out, room);
    begin(REPLAY);
    if (end(carolsedge_replay(at(&script), n, buffer, room) ? 0 : 1) && !untouched(buffer, room))
        fail("a replay that has no room wrote to its buffer");
    check_slack(&script), check_slack(&out);
}

/* A survey's state, forged as a sample's is. */
static void forge_survey(void)
{
    const struct carolsedge_survey *t = &surveyed[below(TRUE_STATES)];
    int way = (int)below(8);
    forge(lend(&survey_walk, sizeof t->walk), sizeof t->walk, t->walk, 8, way);
    forge(lend(&survey_kept, sizeof t->kept), sizeof t->kept, t->kept, 1, way);
    forge(lend(&counts, sizeof t->counts), sizeof t->counts, t->counts, 4, way);
}

static void alter_survey(void)
{
    uint64_t *w = (uint64_t *)(void *)at(&survey_walk);
    uint32_t *c = (uint32_t *)(void *)at(&counts);
    switch (below(4)) {
    case 0: w[0] = 0, w[2] = 24 + below(1000), w[3] = below(80), w[5] = below(200); break; /* through the walk */
    case 1: w[0] = 0, w[2] = 1000, w[3] = 0; break; /* ready for a question */
    case 2: w[below(CAROLSEDGE_WALK_WORDS)] = figure(), c[below(CAROLSEDGE_IDENTIFIERS)] = (uint32_t)figure(); break;
    default: break;
    }
}

static void check_survey(void)
{
    check_slack(&survey_walk), check_slack(&survey_kept), check_slack(&counts), check_slack(&lent);
}

static void call_feed_survey(void)
{
    size_t n;
    const uint8_t *piece = piece_of(&n);
    uint64_t *value = (uint64_t *)(void *)lend(&lent, 8);
    begin(FEED_SURVEY);
    end(carolsedge_feed_survey((uint64_t *)(void *)at(&survey_walk), at(&survey_kept), (uint32_t *)(void *)at(&counts),
                               piece, n, value));
    check_survey();
}

/* What a question reads cannot be written meanwhile. An identifier is below 8192 and has some packets. */
static void call_ask_survey(void)
{
    uint64_t *value = (uint64_t *)(void *)lend(&lent, 16), *count = value + 1;
    int guarded = below(16) == 0;
    if (guarded)
        protect(&survey_walk, PROT_READ), protect(&counts, PROT_READ);
    begin(ASK_SURVEY);
    uint32_t k = end(carolsedge_ask_survey((const uint64_t *)(void *)at(&survey_walk),
                                           (const uint32_t *)(void *)at(&counts), value, count));
    if (guarded)
        protect(&survey_walk, PROT_READ | PROT_WRITE), protect(&counts, PROT_READ | PROT_WRITE);
    if (k == CAROLSEDGE_DONE ? *value >= CAROLSEDGE_IDENTIFIERS || *count == 0 : *count != 0)
        fail("an identifier or a count that is none");
    check_survey();
}

static void call_open_survey(void)
{
    begin(OPEN_SURVEY);
    carolsedge_open_survey((uint64_t *)(void *)at(&survey_walk), at(&survey_kept), (uint32_t *)(void *)at(&counts));
    end(CAROLSEDGE_DONE);
    check_survey();
}

static void round_of_surveys(void)
{
    forge_survey();
    for (int i = 0; i < 4; i++)
        call_feed_survey(), alter_survey(), call_ask_survey(), alter_survey();
    call_open_survey();
    call_ask_survey();
    if (answers[ASK_SURVEY][CAROLSEDGE_REFUSED_CAPTURE_INSIDE] == 0)
        fail("a fresh survey is not inside its header");
    ((uint64_t *)(void *)at(&survey_walk))[2] = 24; /* a file header and no packet */
    call_ask_survey();
    if (answers[ASK_SURVEY][CAROLSEDGE_REFUSED_NO_GOOD_PACKET] == 0)
        fail("a survey of no packet names an identifier");
}

/* ---- the calls beside the sample */

#include "gaps.h"
#include "loss.h"
#include "busiest.h"
#include "rtp.h"
#include "shelf_write.h"
#include "verify.h"

/* A forged state, and a few calls on it. */
static void round_of_calls(uint64_t most)
{
    static void (*const feeds[])(void) = {call_feed_capture, call_feed_luma, call_seal, call_index, call_repeats};
    forge_state();
    for (int i = 0; i < 40; i++) {
        if (calls[FEED_CAPTURE + i % 5] < most)
            feeds[i % 5]();
        alter_state();
    }
    for (int i = 0; i < 8 && calls[OPEN] < most; i++)
        call_open();
    for (int i = 0; i < 8 && calls[READ_HEADER] < most; i++)
        call_readings();
    if (calls[READ_UNITS] < most / 10)
        call_all_rows(0), call_all_rows(1);
    if (calls[VERIFY] < most / 10)
        call_verify();
    if (calls[SHEET] < most / 10)
        call_sheet();
    if (calls[EFFECTIVE_LOSS] < most / 10)
        call_effective_loss();
    if (calls[GAP_RUNS] < most / 10)
        call_gap_runs();
    if (calls[SHELF_OPEN] < most / 10)
        call_shelf();
    if (calls[SHELF_WRITE] < most / 10)
        call_shelf_write();
    if (calls[REPLAY] < most / 20)
        call_replay();
    if (calls[FEED_SURVEY] < most / 10)
        round_of_surveys();
    if (calls[MOST_SCENES] < most / 20)
        call_most_scenes();
    if (calls[BUSIEST_LUMA] < most / 20)
        call_busiest_luma();
    if (calls[RTP_UNITS] < most / 20)
        call_rtp_units();
}

int main(int words, char **word)
{
    uint64_t most = words > 1 ? strtoull(word[1], NULL, 10) : 1000000, total = 0;
    seed = state_of_chance = words > 2 ? strtoull(word[2], NULL, 10) : 1;
    signal(SIGSEGV, outside), signal(SIGBUS, outside), signal(SIGALRM, tick);
    setitimer(ITIMER_REAL, &(struct itimerval){{1, 0}, {1, 0}}, NULL);
    for (int i = 0; i < TRUE_STATES; i++)
        make_true(i);
    make_pools();
    walk = room_of(sizeof truth->walk), kept = room_of(sizeof truth->kept), numbers = room_of(sizeof truth->numbers),
        table = room_of(sizeof truth->table);
    luma = room_of(sizeof truth->luma), sums = room_of(sizeof truth->sums), bins = room_of(sizeof truth->bins);
    picture = room_of(sizeof truth->picture), out = room_of(CAROLSEDGE_RECORD_MOST + 100), header = room_of(128),
        lent = room_of(128), script = room_of(4096);
    pages = room_of(CAROLSEDGE_SHEET_MOST + 100);
    row_room = room_of(LENT_ROWS_MOST * sizeof(struct carolsedge_scene)), count_room = room_of(8);
    survey_walk = room_of(sizeof surveyed->walk), survey_kept = room_of(sizeof surveyed->kept);
    counts = room_of(sizeof surveyed->counts);
    make_loss_rooms();
    gap_table = room_of(8 * TABLE_MOST);
    shelves = room_of(SHELF_MOST);
    make_writing_rooms();
    make_rtp_rooms();
    while (calls[SEAL] < most || calls[OPEN] < most || calls[READ_HEADER] < most ||
           calls[READ_UNITS] < most / 10 || calls[VERIFY] < most / 10 || calls[SHEET] < most / 10 ||
           calls[REPLAY] < most / 20 || calls[FEED_SURVEY] < most / 10 || calls[EFFECTIVE_LOSS] < most / 10 ||
           calls[GAP_RUNS] < most / 10 || calls[SHELF_OPEN] < most / 10 || calls[SHELF_WRITE] < most / 10)
        round_of_calls(most);
    for (int f = 0; f < FUNCTIONS; f++) {
        printf("forged: %-14s %" PRIu64 " calls; answers", name[f], calls[f]);
        for (int k = 0; k <= LAST_NUMBER; k++)
            if (answers[f][k])
                printf(" %d:%" PRIu64, k, answers[f][k]);
        printf("\n");
        total += calls[f];
    }
    printf("forged: %" PRIu64 " calls, seed %" PRIu64 ": no byte outside was touched; the longest call took %.3f ms\n",
           total, seed, (double)longest / 1e6);
    return 0;
}
