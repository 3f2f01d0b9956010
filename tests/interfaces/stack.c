/* How many bytes of stack each function of the library needs beyond a call that does nothing: each is called on a
 * stack of its own, painted before, and what is not paint any more is counted. Usage: stack, then W, H, d, PID and the
 * files of capture and luma for each of some streams, which are fed in pieces of many lengths under every edition.
 * Prints a line a function, and fails where one needs more than it may. */
#define _XOPEN_SOURCE 700
#include <stdio.h>
#include <stdlib.h>
#include <string.h>
#include <ucontext.h>

#include "carolsedge.h"

enum { PAINT = 0xC5, STACK = 1 << 18, MOST = 1 << 20, ROWS = 4096, UNITS = 750,
       STEPPED = 200, ORDERS = 300 };

static struct carolsedge_sample sample;
static struct carolsedge_survey survey;
static uint32_t width, height, display, pid, edition;
static uint8_t capture[MOST], luma[MOST], script[3 * MOST], out[MOST];
static size_t capture_length, luma_length, script_length, length;
static const uint8_t *piece;
static uint8_t record[CAROLSEDGE_RECORD_MOST], sheet[CAROLSEDGE_SHEET_MOST], shelf[16 + 2 * CAROLSEDGE_RECORD_MOST];
static uint8_t records[2 * CAROLSEDGE_RECORD_MOST];
static uint32_t lengths[2];
static size_t record_length, shelf_length;
static uint64_t value, more, table[211], times[ROWS];
static uint16_t sequence[ROWS], size[ROWS];
static uint8_t marker[ROWS], rows[32 * ROWS];
static uint32_t losses[UNITS];
static double probabilities[UNITS], keys[UNITS], plain[UNITS];
static struct carolsedge_index three;
static struct carolsedge_header header;
static struct carolsedge_unit unit;
static struct carolsedge_scene scene;
static struct carolsedge_unit all_units[CAROLSEDGE_UNITS_MOST];
static struct carolsedge_scene all_scenes[CAROLSEDGE_SCENES_MOST];
static struct carolsedge_shelf figures;
static struct carolsedge_part part;
static struct carolsedge_verdict verdict;

static void nothing(void) {}
static void open_sample(void) { carolsedge_sample_open(&sample, width, height, display, pid, edition); }
static void feed_capture(void) { carolsedge_sample_feed_capture(&sample, piece, length, &value); }
static void feed_luma(void) { carolsedge_sample_feed_luma(&sample, piece, length, &value); }
static void seal(void) { carolsedge_sample_seal(&sample, record, sizeof record, &value); }
static void ask_index(void) { carolsedge_sample_index(&sample, &three, &value); }
static void ask_repeats(void) { carolsedge_sample_repeats(&sample, 0, 1, &value); }
static void replay(void) { value = carolsedge_replay(script, script_length, out, sizeof out); }
static void open_survey(void) { carolsedge_survey_open(&survey); }
static void feed_survey(void) { carolsedge_survey_feed(&survey, piece, length, &value); }
static void ask_survey(void) { carolsedge_survey_ask(&survey, &value, &more); }
static void read_header(void) { carolsedge_read_header(record, record_length, &header); }
static void read_unit(void) { carolsedge_read_unit(record, record_length, 0, &unit); }
static void read_scene(void) { carolsedge_read_scene(record, record_length, 0, &scene); }
static void read_units(void)
{
    carolsedge_read_units(record, record_length, all_units, CAROLSEDGE_UNITS_MOST, &value);
}

static void read_scenes(void)
{
    carolsedge_read_scenes(record, record_length, all_scenes, CAROLSEDGE_SCENES_MOST, &value);
}

static void verify(void) { carolsedge_verify(record, record_length, &verdict); }
static void print_sheet(void) { carolsedge_sheet(record, record_length, sheet, sizeof sheet, &value); }
static void gap_runs(void) { carolsedge_gap_runs(15, table, 211, &value); }
static void most_scenes(void) { carolsedge_most_scenes(display, 750, &value); }
static void shelf_open(void) { carolsedge_shelf_open(shelf, shelf_length, &figures, &value); }
static void shelf_part(void) { carolsedge_shelf_part(shelf, shelf_length, 1, &part, &value); }

static void shelf_write(void)
{
    carolsedge_shelf_write(records, 2 * record_length, lengths, 2, shelf, sizeof shelf, &value);
}

static void busiest_luma(void)
{
    carolsedge_busiest_luma(width, height, display, 750, more, luma, sizeof luma, &value);
}

static void effective_loss(void)
{
    carolsedge_effective_loss(UNITS, losses, UNITS, probabilities, UNITS, keys, UNITS, plain, UNITS);
}

static void rtp_units(void)
{
    carolsedge_rtp_units(sequence, ROWS, marker, ROWS, times, ROWS, size, ROWS, rows, sizeof rows, &value);
}

/* Each function with what it may need. A replay has a whole sample there, and RTP its lists. */
static const struct {
    const char *name;
    void (*call)(void);
    size_t most;
} functions[] = {
    {"nothing", nothing, 0},
    {"open", open_sample, 2048},
    {"feed_capture", feed_capture, 2048},
    {"feed_luma", feed_luma, 2048},
    {"seal", seal, 2048},
    {"index", ask_index, 2048},
    {"repeats", ask_repeats, 2048},
    {"replay", replay, 65536},
    {"open_survey", open_survey, 2048},
    {"feed_survey", feed_survey, 2048},
    {"ask_survey", ask_survey, 2048},
    {"read_header", read_header, 2048},
    {"read_unit", read_unit, 2048},
    {"read_scene", read_scene, 2048},
    {"read_units", read_units, 2048},
    {"read_scenes", read_scenes, 2048},
    {"verify", verify, 2048},
    {"sheet", print_sheet, 2048},
    {"effective_loss", effective_loss, 2048},
    {"gap_runs", gap_runs, 2048},
    {"most_scenes", most_scenes, 2048},
    {"busiest_luma", busiest_luma, 2048},
    {"shelf_open", shelf_open, 2048},
    {"shelf_part", shelf_part, 2048},
    {"shelf_write", shelf_write, 2048},
    {"rtp_units", rtp_units, 65536 + 2048},
};
enum { FUNCTIONS = sizeof functions / sizeof *functions };
static uint8_t stacks[FUNCTIONS][STACK];

static void fail(const char *what, const char *name)
{
    fprintf(stderr, "stack: %s %s\n", what, name);
    exit(1);
}

static ucontext_t here, there;
static void (*called)(void);

/* The frame that every stack begins with. Going back needs no more of it than the call did. */
static void begin(void)
{
    called();
    swapcontext(&there, &here);
}

/* Makes a call on its function's stack. */
static void on_stack(void (*call)(void))
{
    size_t f = 0;
    while (functions[f].call != call)
        f++;
    called = call;
    getcontext(&there);
    there.uc_stack.ss_sp = stacks[f];
    there.uc_stack.ss_size = STACK;
    there.uc_link = NULL;
    makecontext(&there, begin, 0);
    swapcontext(&here, &there);
}

/* How many bytes of a stack are not paint any more, from its deepest on. */
static size_t used(const uint8_t *stack)
{
    size_t paint = 0;
    while (paint < STACK && stack[paint] == PAINT)
        paint++;
    return STACK - paint;
}

static void done(const char *name)
{
    if (value == 0)
        fail("nothing came of", name);
}

static size_t file(const char *name, uint8_t *bytes)
{
    FILE *f = fopen(name, "rb");
    size_t n = f ? fread(bytes, 1, MOST, f) : 0;
    if (n == 0 || n == MOST)
        fail("cannot be read:", name);
    fclose(f);
    return n;
}

static void feed(void (*call)(void), const uint8_t *bytes, size_t n, size_t step)
{
    for (size_t at = 0; at < n; at += step) {
        piece = bytes + at;
        length = n - at < step ? n - at : step;
        on_stack(call);
        if (value != length)
            fail("refused:", "a feed");
    }
}

static uint8_t *put(uint8_t *at, const void *bytes, size_t n)
{
    memcpy(at, bytes, n);
    return at + n;
}

/* The script that opens the sample, feeds both files, asks for the index and seals. */
static void write_script(void)
{
    const uint32_t opening[] = {width, height, display, pid, edition}, room = CAROLSEDGE_RECORD_MOST;
    const uint32_t fed[] = {(uint32_t)capture_length, (uint32_t)luma_length};
    uint8_t *at = put(script, opening, sizeof opening);
    at = put(put(put(at, "C", 1), &fed[0], 4), capture, capture_length);
    at = put(put(put(at, "L", 1), &fed[1], 4), luma, luma_length);
    at = put(put(put(at, "I", 1), "S", 1), &room, 4);
    script_length = (size_t)(at - script);
}

/* A shelf of the record, twice. */
static void write_shelf(void)
{
    put(put(records, record, record_length), record, record_length);
    lengths[0] = lengths[1] = (uint32_t)record_length;
    on_stack(shelf_write), done("a shelf");
    shelf_length = value;
}

static void read_record(void)
{
    on_stack(read_header), on_stack(read_unit), on_stack(read_scene), on_stack(read_units), on_stack(read_scenes);
    on_stack(verify);
    if (verdict.mark || verdict.pictures != header.pictures)
        fail("nothing came of", "a verdict");
    on_stack(print_sheet), done("a sheet");
    write_shelf();
    on_stack(shelf_open), on_stack(shelf_part);
    if (figures.records != 2 || part.end != shelf_length)
        fail("nothing came of", "a shelf");
}

static void measure(size_t step)
{
    on_stack(open_sample);
    feed(feed_capture, capture, capture_length, step);
    feed(feed_luma, luma, luma_length, step);
    on_stack(ask_index), on_stack(ask_repeats);
    on_stack(seal), done("a seal");
    record_length = value;
    read_record();
    on_stack(open_survey);
    feed(feed_survey, capture, capture_length, step);
    on_stack(ask_survey), done("a survey");
    write_script();
    on_stack(replay), done("a replay");
}

/* The busiest luma of the largest pictures, some of them fed as it is made. */
static void measure_busiest(void)
{
    width = 1920, height = 1088, display = 200000;
    on_stack(open_sample);
    on_stack(most_scenes), done("the greatest number of scenes");
    for (more = 0; more < 20 * MOST; more += MOST) {
        on_stack(busiest_luma), done("the busiest luma");
        feed(feed_luma, luma, sizeof luma, 65536);
    }
}

/* Puts the rows of RTP into one order of arrival: falling, rising, up and down, each odd step through them, and from
 * STEPPED on shuffled. The library's sort calls itself on parts, which are what the order makes them. */
static void order_rows(int order)
{
    static uint32_t random = 1;
    for (int i = 0; i < ROWS; i++) {
        int turned = i < ROWS / 2 ? 2 * i : 2 * (ROWS - i) - 1, stepped = i * (2 * order + 1) % ROWS;
        sequence[i] = (uint16_t)(order == 0 ? ROWS - i : order == 1 ? i : order == 2 ? turned : stepped);
    }
    for (int i = ROWS - 1; order >= STEPPED && i > 0; i--) {
        random = 1664525 * random + 1013904223;
        int j = (int)((random >> 8) % (uint32_t)(i + 1));
        uint16_t held = sequence[i];
        sequence[i] = sequence[j], sequence[j] = held;
    }
}

static void measure_lists(void)
{
    for (int i = 0; i < ROWS; i++)
        marker[i] = i % 3 == 0, times[i] = (uint64_t)i;
    for (int order = 0; order < ORDERS; order++)
        order_rows(order), on_stack(rtp_units), done("RTP");
    for (int i = 0; i < UNITS; i++)
        losses[i] = 1, probabilities[i] = i % 9 / 8.0;
    on_stack(effective_loss);
    on_stack(gap_runs), done("runs of gaps");
}

int main(int count, char **words)
{
    static const size_t steps[] = {61, 1316, MOST};
    memset(stacks, PAINT, sizeof stacks);
    on_stack(nothing);
    for (int i = 1; i + 5 < count; i += 6) {
        width = (uint32_t)atoi(words[i]), height = (uint32_t)atoi(words[i + 1]);
        display = (uint32_t)atoi(words[i + 2]), pid = (uint32_t)atoi(words[i + 3]);
        capture_length = file(words[i + 4], capture), luma_length = file(words[i + 5], luma);
        for (edition = 1; edition <= CAROLSEDGE_NEWEST_EDITION; edition++)
            for (int step = 0; step < 3; step++)
                measure(steps[step]);
    }
    edition = CAROLSEDGE_NEWEST_EDITION;
    measure_busiest();
    measure_lists();
    for (size_t f = 1; f < FUNCTIONS; f++) {
        size_t need = used(stacks[f]) - used(stacks[0]);
        printf("%s %zu\n", functions[f].name, need);
        if (need > functions[f].most)
            fail("too much of it for", functions[f].name);
    }
    return 0;
}
