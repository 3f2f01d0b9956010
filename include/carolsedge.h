/* Carolsedge: measures a sample, one packet capture and up to 750 luma pictures of a stream, into a record of 64 bytes
 * and rows of 32.
 *
 * Link target/staticlib/libcarolsedge.a (make library writes it, for x86-64 Linux). It needs memcpy and memset,
 * allocates nothing, keeps no memory of its own and does no input or output. Each function is proved to give the
 * number and the value that documents 01 and 02 give; carolsedge_shelf_write, carolsedge_read_units,
 * carolsedge_read_scenes and carolsedge_verify, which are in neither, those that docs/RULE.md gives (25, clause 6; 15;
 * 30).
 *
 * What a caller owes, of every call:
 *  - A pointer to an array or a structure is valid for the whole of it and aligned. A pointer with a length is
 *    aligned and valid for so many elements of its type, which are bytes where it points to bytes; it is not null,
 *    even where the length is 0 (the carolsedge_sample_ and carolsedge_survey_ functions take null with length 0).
 *  - Memory that a call writes to overlaps no other memory of the same call, and nobody else uses it meanwhile.
 *  - A sample or a survey is opened before its other calls. Memory that somebody else wrote on gets free answers; the
 *    calls are safe on any contents of it.
 * Calls on different samples and surveys may run at the same time. Both are plain memory: between calls they may be
 * copied, stored and moved.
 */
#ifndef CAROLSEDGE_H
#define CAROLSEDGE_H

#include <stdbool.h>
#include <stddef.h>
#include <stdint.h>

#define CAROLSEDGE_VERSION "0.1.0" /* of this header and its library; the Rust crate and the command have the same */

#ifdef __cplusplus
#define CAROLSEDGE_ASSERT(fact, words) static_assert(fact, words)
extern "C" {
#else
#define CAROLSEDGE_ASSERT(fact, words) _Static_assert(fact, words)
#endif

/* ---- what a call returns: 0, or the number of a refusal. Places count bytes from 0, but of 28 records, of a gap
 * table's 15 entries, and of 15 of all rows of a record rows; a place that is not named is 0. */
enum {
    CAROLSEDGE_DONE = 0,
    CAROLSEDGE_REFUSED_SIZE = 1,            /* H outside 30 to 1088, W outside 15 to 1920, H above 2 W, or W above
                                               4 H */
    CAROLSEDGE_REFUSED_TIME = 2,            /* d outside 10,000 to 200,000 */
    CAROLSEDGE_REFUSED_PID = 3,             /* PID above 8191 */
    CAROLSEDGE_REFUSED_CAPTURE_LENGTH = 4,  /* a byte of the capture past 268,435,456; place: that byte */
    CAROLSEDGE_REFUSED_MAGIC = 5,           /* the capture's first four bytes are not D4 C3 B2 A1; place: 3 */
    CAROLSEDGE_REFUSED_LINK_TYPE = 6,       /* the capture's link type is not 1; place: 23 */
    CAROLSEDGE_REFUSED_MICROSECONDS = 7,    /* a frame's microseconds above 999,999; place: their last byte */
    CAROLSEDGE_REFUSED_FRAME_LENGTH = 8,    /* a frame's stored length above 65,535; place: its last byte */
    CAROLSEDGE_REFUSED_UNITS = 9,           /* a 751st unit begins; place: byte 3 of the packet that begins it */
    CAROLSEDGE_REFUSED_LUMA_LENGTH = 10,    /* a byte of the luma past 750 pictures; place: that byte. Busiest sample:
                                               more than 750 pictures; place: 0 */
    CAROLSEDGE_REFUSED_CAPTURE_INSIDE = 11, /* seal, survey: it ends inside its header or a frame; place: its bytes
                                               fed */
    CAROLSEDGE_REFUSED_NO_PACKET = 12,      /* seal, index: no whole packet of PID; by edition 4 also damaged ones
                                               alone */
    CAROLSEDGE_REFUSED_LUMA_INSIDE = 13,    /* seal: the luma ends inside a picture; place: its bytes fed */
    CAROLSEDGE_REFUSED_NO_PICTURE = 14,     /* seal, index, busiest sample: no picture */
    CAROLSEDGE_REFUSED_BUFFER = 15,         /* what is lent to be written is too short; place: the length needed */
    CAROLSEDGE_REFUSED_SHORT = 16,          /* reading: under 64 bytes */
    CAROLSEDGE_REFUSED_EDITION = 17,        /* reading: an edition that there is not */
    CAROLSEDGE_REFUSED_RECORD = 18,         /* reading: not allowed */
    CAROLSEDGE_REFUSED_ROW = 19,            /* reading: a row's number, or a shelf's record's, at or past the count */
    CAROLSEDGE_REFUSED_OPENING_EDITION = 20, /* opening: an edition that there is not; tried after 3 */
    CAROLSEDGE_REFUSED_NO_GOOD_PACKET = 21,  /* survey: a complete capture without a good packet; tried after 11 */
    CAROLSEDGE_REFUSED_LOSS_LISTS = 22,     /* loss: N outside 1 to 750, or one of the four lists not N long */
    CAROLSEDGE_REFUSED_PROBABILITY = 23,    /* loss: a probability not within 0 to 1, NaN included; tried after 22 */
    CAROLSEDGE_REFUSED_GAPS = 24,           /* gap runs: above 15 gaps */
    CAROLSEDGE_REFUSED_ROWS = 25,           /* RTP: no rows, above 4,096, or unequal lists */
    CAROLSEDGE_REFUSED_PASSAGE = 26,        /* repeats: a above b, or b above the whole pictures fed */
    CAROLSEDGE_REFUSED_SHELF = 27,          /* shelf: not laid out as one; writing: above 4,096 records, or lengths
                                             * that do not add up */
    CAROLSEDGE_REFUSED_SHELF_RECORD = 28    /* shelf: a record is refused by the reader; place: its number */
};

/* ---- a sample */

enum {
    CAROLSEDGE_NEWEST_EDITION = 4, /* the editions of the rules are 1 to this one (docs/RULE.md, 1) */
    CAROLSEDGE_WALK_WORDS = 16,
    CAROLSEDGE_COLLECTED_BYTES = 64,
    CAROLSEDGE_NUMBERS = 16,
    CAROLSEDGE_TABLE_WORDS = 3750,
    CAROLSEDGE_LUMA_WORDS = 1600,
    CAROLSEDGE_SUMS = 240,
    CAROLSEDGE_BINS = 720,
    CAROLSEDGE_PICTURE_BYTES = 14104,
    CAROLSEDGE_RECORD_MOST = 32064, /* no record is longer: 64 bytes, and 32 for each of 750 units and 250 scenes */
    CAROLSEDGE_SHEET_MOST = 103020  /* no sheet is longer: 17 pages of 60 lines of 101 bytes */
};

/* The whole state of a sample. Its contents are the library's own. */
struct carolsedge_sample {
    uint64_t walk[CAROLSEDGE_WALK_WORDS]; /* capture: the walk through its frames, collected bytes, counts, the table
                                             of units */
    uint8_t kept[CAROLSEDGE_COLLECTED_BYTES];
    uint64_t numbers[CAROLSEDGE_NUMBERS];
    uint64_t table[CAROLSEDGE_TABLE_WORDS];
    uint64_t luma[CAROLSEDGE_LUMA_WORDS]; /* luma: its words, block sums, bins, picture */
    uint32_t sums[CAROLSEDGE_SUMS];
    uint32_t bins[CAROLSEDGE_BINS];
    uint8_t picture[CAROLSEDGE_PICTURE_BYTES];
};
CAROLSEDGE_ASSERT(sizeof(struct carolsedge_sample) <= 65536, "the state of a sample stays within 64 KiB");

/* The index with its two parts: ic = 4 × (unrepeated / pictures), ip = packets / (packets + lost), value = 1 + ic
 * × ip. */
struct carolsedge_index {
    double ic, ip, value;
};
CAROLSEDGE_ASSERT(sizeof(struct carolsedge_index) == 24, "the three are without gaps");

/* The functions of the library take the state's arrays apart. The carolsedge_sample_ functions below take the
 * structure. */
uint32_t carolsedge_open(uint64_t *walk, uint8_t *kept, uint64_t *numbers, uint64_t *table,
                         uint64_t *luma, uint32_t *sums, uint32_t *bins, uint8_t *picture,
                         uint32_t width, uint32_t height, uint32_t time, uint32_t pid, uint32_t edition);
uint32_t carolsedge_feed_capture(uint64_t *walk, uint8_t *kept, uint64_t *numbers, uint64_t *table,
                                 const uint8_t *piece, size_t length, uint64_t *value);
uint32_t carolsedge_feed_luma(uint64_t *luma, uint32_t *sums, uint32_t *bins, uint8_t *picture,
                              const uint8_t *piece, size_t length, uint64_t *value);
uint32_t carolsedge_seal(const uint64_t *walk, const uint8_t *kept, const uint64_t *numbers, const uint64_t *table,
                         const uint64_t *luma, uint8_t *buffer, size_t length, uint64_t *value);
uint32_t carolsedge_repeats(const uint64_t *luma, uint32_t a, uint32_t b, uint64_t *value);
uint32_t carolsedge_index(const uint64_t *numbers, const uint64_t *luma, struct carolsedge_index *index,
                          uint64_t *place);

/* Opens a sample: width W and height H of a picture, its display time d in microseconds, packet identifier PID, and
 * the edition of the rules, 1 to 4, that it is measured by. Refused: 1, 2, 3 or 20, which all its other calls then
 * repeat. */
static inline uint32_t carolsedge_sample_open(struct carolsedge_sample *s, uint32_t width, uint32_t height,
                                              uint32_t time, uint32_t pid, uint32_t edition)
{
    return carolsedge_open(s->walk, s->kept, s->numbers, s->table, s->luma, s->sums, s->bins, s->picture,
                           width, height, time, pid, edition);
}

/* Feeds a piece of the capture, of any length. *value is the length, or the refusal's place (4 to 9, which later feeds
 * of this side repeat). */
static inline uint32_t carolsedge_sample_feed_capture(struct carolsedge_sample *s, const uint8_t *piece, size_t length,
                                                      uint64_t *value)
{
    const uint8_t none = 0;
    return carolsedge_feed_capture(s->walk, s->kept, s->numbers, s->table, length ? piece : &none, length, value);
}

/* Feeds a piece of the luma, of any length. *value is the length, or the refusal's place (10). */
static inline uint32_t carolsedge_sample_feed_luma(struct carolsedge_sample *s, const uint8_t *piece, size_t length,
                                                   uint64_t *value)
{
    const uint8_t none = 0;
    return carolsedge_feed_luma(s->luma, s->sums, s->bins, s->picture, length ? piece : &none, length, value);
}

/* Seals what was fed: the record goes to the front of the buffer, and *value is its length; bytes behind it stand.
 * Refused: the opening's number, a feed's, or 11 to 15; the buffer stands, and *value is the place. The state does not
 * change, so feeding may go on, and a length of 0 asks how long the record is. Proved of any contents of the state: a
 * refused seal leaves every byte of the buffer. */
static inline uint32_t carolsedge_sample_seal(const struct carolsedge_sample *s, uint8_t *buffer, size_t length,
                                              uint64_t *value)
{
    uint8_t none = 0;
    return carolsedge_seal(s->walk, s->kept, s->numbers, s->table, s->luma, length ? buffer : &none, length, value);
}

/* The index of what was fed so far, of all whole packets and all whole pictures: the same as a seal's where a seal
 * is done. It reads four totals and the refusals kept, no row, and a packet or picture that is not whole does not
 * stop it. Refused: the opening's number, a feed's, then 12 or 14; *index stands, and *place is the refusal's
 * place (0 where it is done). Proved of any contents of the state: none of the three is a NaN, and a refusal
 * leaves *index. The proof knows one NaN; that every bit of one that was lent stays is tested. */
static inline uint32_t carolsedge_sample_index(const struct carolsedge_sample *s, struct carolsedge_index *index,
                                               uint64_t *place)
{
    return carolsedge_index(s->numbers, s->luma, index, place);
}

/* Counts the repeated pictures of a passage: from picture a up to but without b, of the whole pictures fed so far.
 * *value is the count. Refused: the opening's number, then 26; *value is the place, 0. Refusals of feeds do not
 * stop it: after 10 the 750 pictures before it are there. */
static inline uint32_t carolsedge_sample_repeats(const struct carolsedge_sample *s, uint32_t a, uint32_t b,
                                                 uint64_t *value)
{
    return carolsedge_repeats(s->luma, a, b, value);
}

/* A whole list of calls after one opening, coded in a script: five 32-bit little-endian words W, H, d, PID and the
 * edition; then calls, each a byte C or L, a 32-bit length n and n bytes (a feed of that side), a byte S and a
 * 32-bit length n (a seal into n bytes of 0xA5), a byte I (the index), or a byte R and 32-bit words a and b (the
 * repeats of a passage). The list ends where the script ends inside a call or another byte stands. What the
 * opening and every call come to goes to out, one behind the other: a byte 0 (done) or 1 (refused); the result, or
 * the refusal's number; 0, or its place, 64 bits each; and behind a seal's its whole buffer. An index has three
 * times 64 bits behind its byte: the bits of ic, ip and value, or number, place and 0. False where there is no
 * room for it all; out then stands. Proved: what is written is what the rules give for the whole list. Takes up to
 * 65,536 bytes of stack: a whole sample stands there. */
bool carolsedge_replay(const uint8_t *script, size_t length, uint8_t *out, size_t room);

/* ---- a survey: which identifier of a capture has most good packets (docs/RULE.md, 21) */

enum { CAROLSEDGE_IDENTIFIERS = 8192 };

/* The whole state of a survey. Its contents are the library's own. */
struct carolsedge_survey {
    uint64_t walk[CAROLSEDGE_WALK_WORDS]; /* the walk through the capture's frames, collected bytes, counts */
    uint8_t kept[CAROLSEDGE_COLLECTED_BYTES];
    uint32_t counts[CAROLSEDGE_IDENTIFIERS];
};
CAROLSEDGE_ASSERT(sizeof(struct carolsedge_survey) <= 65536, "the state of a survey stays within 64 KiB");

void carolsedge_open_survey(uint64_t *walk, uint8_t *kept, uint32_t *counts);
uint32_t carolsedge_feed_survey(uint64_t *walk, uint8_t *kept, uint32_t *counts, const uint8_t *piece, size_t length,
                                uint64_t *value);
uint32_t carolsedge_ask_survey(const uint64_t *walk, const uint32_t *counts, uint64_t *value, uint64_t *count);

/* Opens a fresh survey. It takes no figures, and nothing refuses it. */
static inline void carolsedge_survey_open(struct carolsedge_survey *s)
{
    carolsedge_open_survey(s->walk, s->kept, s->counts);
}

/* Feeds a piece of the capture, of any length. *value is the length, or the refusal's place (4 to 8, which later feeds
 * and questions repeat). */
static inline uint32_t carolsedge_survey_feed(struct carolsedge_survey *s, const uint8_t *piece, size_t length,
                                              uint64_t *value)
{
    const uint8_t none = 0;
    return carolsedge_feed_survey(s->walk, s->kept, s->counts, length ? piece : &none, length, value);
}

/* Asks what was fed so far: *value is the identifier with most good packets, the lowest among equals, and *count is
 * how many it has. Refused: 4 to 8, 11 or 21; *value is the place, and *count is 0. The state does not change, so
 * feeding may go on. Proved of any contents of the state: an identifier is below 8192 and its count above 0. */
static inline uint32_t carolsedge_survey_ask(const struct carolsedge_survey *s, uint64_t *value, uint64_t *count)
{
    return carolsedge_ask_survey(s->walk, s->counts, value, count);
}

/* ---- a record */

enum { CAROLSEDGE_UNITS_MOST = 750, CAROLSEDGE_SCENES_MOST = 250 };

struct carolsedge_header {
    uint64_t edition;                 /* of the rules that it was measured by */
    uint64_t units, scenes;           /* rows of each kind */
    uint64_t width, height, time, pid; /* of the opening */
    uint64_t pictures;
    uint64_t frames, skipped;         /* of the capture; skipped: those that carry nothing */
    uint64_t bad;                     /* packets without 0x47; by edition 4 also damaged ones before any unit */
    uint64_t index;                   /* the bits of a binary64 */
};

struct carolsedge_unit {
    uint64_t least, greatest; /* times of its packets, in microseconds */
    uint64_t size;            /* 184 for each packet */
    uint64_t packets, lost;
    uint64_t damaged;         /* packets marked as damaged, which count nowhere else; 0 in editions 1 to 3 */
};

struct carolsedge_scene {
    uint64_t first, pictures;   /* its first picture, how many it has */
    uint64_t repeated, longest; /* repeated pictures, the longest run of them */
    uint64_t score, peak;       /* sum and greatest of the cut scores */
    uint64_t change;            /* sum of the changes */
};
CAROLSEDGE_ASSERT(sizeof(struct carolsedge_header) == 96 && sizeof(struct carolsedge_unit) == 48 &&
                      sizeof(struct carolsedge_scene) == 56,
                  "the figures are 64-bit numbers without gaps");

/* Tests a whole record, which has the length given, and gives the figures of its header. Refused: 16, 17 or 18, and
 * *header stands. */
uint32_t carolsedge_read_header(const uint8_t *record, size_t length, struct carolsedge_header *header);

/* Tests a whole record likewise, and gives unit row j or scene row j, from 0. Refused: 16, 17 or 18, then 19 where j
 * is at or past the count, and *row stands. */
uint32_t carolsedge_read_unit(const uint8_t *record, size_t length, size_t j, struct carolsedge_unit *row);
uint32_t carolsedge_read_scene(const uint8_t *record, size_t length, size_t j, struct carolsedge_scene *row);

/* Tests a whole record likewise, once, and gives all its unit rows or all its scene rows, in order: they go to the
 * front of the `room` rows lent, and *count is how many there are; rows after them are as they were. No record has
 * more than CAROLSEDGE_UNITS_MOST and CAROLSEDGE_SCENES_MOST. Refused: 16, 17 or 18 with *count 0, then 15 where the
 * record has more rows than room, with that number in *count; all rows are then as they were. A room of 0 asks for the
 * number. Proved: row j is the one that carolsedge_read_unit or carolsedge_read_scene gives. */
uint32_t carolsedge_read_units(const uint8_t *record, size_t length, struct carolsedge_unit *rows, size_t room,
                               uint64_t *count);
uint32_t carolsedge_read_scenes(const uint8_t *record, size_t length, struct carolsedge_scene *rows, size_t room,
                                uint64_t *count);

/* What verify finds. The marks are what every sealed record has though the reader does not ask for it; they are tried
 * in this order, those of unit rows (4, 5) and of scene rows (6 to 15) row by row. A difference is 0 where it would be
 * less. Word 28 of the unit rows needs no mark: the reader refuses one that is not 0 before edition 4. */
enum {
    CAROLSEDGE_NOT_SEALED = 100,          /* returned where a mark fails; it is no refusal, so none of 1 to 28 */
    CAROLSEDGE_MARK_CAPTURE_BYTES = 1,    /* 24 + 16 * frames + 42 * carrying + 188 * counted, at most 268,435,456;
                                             carrying: frames - skipped; counted: bad, and packets and damaged of
                                             all units */
    CAROLSEDGE_MARK_FRAME_PACKETS = 2,    /* counted, at most 348 * carrying */
    CAROLSEDGE_MARK_SCENES = 3,           /* scenes, at most carolsedge_most_scenes of time and pictures */
    CAROLSEDGE_MARK_LOST = 4,             /* lost, at most 14 * packets; unit 0: 14 * (packets - 1) */
    CAROLSEDGE_MARK_TIME = 5,             /* greatest time, at most 4,294,967,295,999,999 */
    CAROLSEDGE_MARK_REPEATED = 6,         /* repeated, at most pictures - 1 */
    CAROLSEDGE_MARK_LONGEST = 7,          /* longest, at most repeated */
    CAROLSEDGE_MARK_RUNS = 8,             /* repeated, at most longest * (pictures - repeated) */
    CAROLSEDGE_MARK_PEAK_IN_SUM = 9,      /* peak, at most score */
    CAROLSEDGE_MARK_PEAK = 10,            /* peak, at most 1,000,000 */
    CAROLSEDGE_MARK_SCORE = 11,           /* score, at most peak * n; n: pictures - repeated, in scene 0 one less */
    CAROLSEDGE_MARK_CHANGE = 12,          /* change, at most 25,500 * n */
    CAROLSEDGE_MARK_CUT = 13,             /* not in scene 0: peak, at least 1001 */
    CAROLSEDGE_MARK_FIRST = 14,           /* not in scene 0: first picture, at most pictures of the record - 3 */
    CAROLSEDGE_MARK_LENGTH = 15,          /* not in the last scene: pictures * time, at least 600,000 */
    CAROLSEDGE_MARK_INDEX = 16            /* the header's index bits; limit: those of the index that the rows reach */
};

struct carolsedge_verdict {
    uint64_t mark;                    /* the first that fails; 0 where none does */
    uint64_t row;                     /* its unit or scene, from 0; 0 where it has none */
    uint64_t found, limit;            /* what the record has; the most, the least or the only value allowed */
    uint64_t unrepeated, pictures;    /* of all scenes */
    uint64_t packets, lost;           /* of all units */
    struct carolsedge_index index;    /* reached from these four */
};
CAROLSEDGE_ASSERT(sizeof(struct carolsedge_verdict) == 88, "the figures are without gaps");

/* Tests a whole record likewise, and says whether a seal could have left it. Done: it could; *verdict has the totals of
 * its rows and the index that they reach, which is the header's, bit by bit, and mark, row, found and limit are 0.
 * CAROLSEDGE_NOT_SEALED: no seal leaves such a record; *verdict has mark, row, found and limit of the first mark that
 * fails, and the others are 0. Refused: 16, 17 or 18, and *verdict is as it was. Proved, over every list of calls and
 * every edition: the answer to what a seal left is 0. The other way round nothing is proved: anyone who knows the rule
 * can write a record that no seal left and that has every mark, since a record is not signed. */
uint32_t carolsedge_verify(const uint8_t *record, size_t length, struct carolsedge_verdict *verdict);

/* A printed sheet of a record: lines of 100 columns and a line feed, on pages of 60 lines (docs/RULE.md, 20). The
 * pages go to the front of the buffer, and *value is their length; bytes behind them stand. Refused: 16, 17 or 18
 * with place 0, then 15; the buffer stands, and *value is the place, so that a room of 0 asks for the length. */
uint32_t carolsedge_sheet(const uint8_t *record, size_t length, uint8_t *buffer, size_t room, uint64_t *value);

/* ---- beside the sample */

/* How far losses spread, for streams without B frames (docs/RULE.md, 22): from the loss of each of so
 * many units, 1 to 750, and the probability that it is a key frame, each unit of the two lists gets what reaches it of
 * key-frame losses and of plain ones. Lengths count elements. Refused: 22, then 23; both leave the lists (the proof
 * knows one NaN; that every bit of one that was lent stays is tested). Otherwise no element is a NaN, negative or
 * infinite. */
uint32_t carolsedge_effective_loss(uint32_t units, const uint32_t *losses, size_t losses_length,
                                   const double *probabilities, size_t probabilities_length,
                                   double *keys, size_t keys_length, double *plain, size_t plain_length);

/* How many runs of n gaps of the counter, each 0 to 15, have one lost total (docs/RULE.md, 24): entry L
 * of the table gets the number of those that lose L, for each L from 0 to 14 n, and *value is the number of entries,
 * 14 n + 1; entries behind them stand. Refused: 24 for n above 15, then 15 for a table of fewer entries, *value being
 * the number needed; the table stands. Length and value count entries. Proved: together the entries are 16 to the
 * power n. */
uint32_t carolsedge_gap_runs(uint32_t n, uint64_t *table, size_t length, uint64_t *value);

/* ---- the busiest possible sample */

/* The greatest number of scenes that so many pictures (1 to 750) of this display time in microseconds can have, in
 * *value. Refused: 2, then 14 for no picture or 10 for more than 750; *value is 0. Proved: no sample has more, and one
 * has that many. */
uint32_t carolsedge_most_scenes(uint32_t time, uint32_t pictures, uint64_t *value);

/* Luma with that many scenes: fills the piece with its bytes from byte at on, and *value is how many were written; the
 * piece's bytes behind them stand. Refused: 1, then as above; the piece stands, and *value is 0. */
uint32_t carolsedge_busiest_luma(uint32_t width, uint32_t height, uint32_t time, uint32_t pictures, uint64_t at,
                                 uint8_t *piece, size_t length, uint64_t *value);

/* ---- a shelf: at most 4,096 records of any editions behind a head of offsets (docs/RULE.md, 25) */

enum { CAROLSEDGE_SHELF_RECORDS_MOST = 4096 };

struct carolsedge_shelf {
    uint64_t records; /* how many there are */
    uint64_t lost;    /* lost packets of all units of all of them */
};

struct carolsedge_part {
    uint64_t start, end; /* the bytes from start up to end are the record */
};
CAROLSEDGE_ASSERT(sizeof(struct carolsedge_shelf) == 16 && sizeof(struct carolsedge_part) == 16,
                  "the figures are 64-bit numbers without gaps");

/* Tests a whole shelf, which has the length given, and every record of it, and gives its figures. Refused: 27, or 28,
 * whose place is the number of the first record that the reader refuses, from 0. *place is the place, 0 where nothing
 * is refused; on a refusal *figures stands. */
uint32_t carolsedge_shelf_open(const uint8_t *shelf, size_t length, struct carolsedge_shelf *figures, uint64_t *place);

/* Tests a whole shelf likewise, and gives the part that is record j, from 0. Refused: 27, 28, then 19 where j is at or
 * past the number of records, and *part stands. Proved of every slice: a part that is given lies within it. */
uint32_t carolsedge_shelf_part(const uint8_t *shelf, size_t length, size_t j, struct carolsedge_part *part,
                               uint64_t *place);

/* Writes the shelf of some records to the front of the buffer (docs/RULE.md, 25, clause 6). The records lie end to
 * end, without gaps; `lengths` has the length of each. *value is the shelf's length, 8 + 4 * count + size; bytes
 * behind it stand. Refused: 27 where there are more than 4,096 records or their lengths do not add up to size, then
 * 28, with the number of the first record that the reader refuses in *value, then 15 for a buffer that is too short,
 * with the length needed in *value; the buffer stands. Proved: what is written is accepted by carolsedge_shelf_open,
 * and its parts are the records, byte by byte. */
uint32_t carolsedge_shelf_write(const uint8_t *records, size_t size, const uint32_t *lengths, size_t count,
                                uint8_t *buffer, size_t length, uint64_t *value);

/* ---- small-screen streams */

/* The units of RTP packets, which come without transport packets: four lists of equal length with a row for each
 * packet in arrival order: its sequence number, marker (set if not 0), time and length. The lengths of these lists
 * count rows, that of the buffer bytes. Unit rows of 32 bytes, laid out as in a record, go to the front of the buffer,
 * and *value is their number; bytes behind them stand. Refused: 25 unless there are 1 to 4,096 rows in equal lists,
 * then 15 for a buffer that is too short, with the bytes needed in *value; the buffer stands. Takes up to 67,584 bytes
 * of stack. */
uint32_t carolsedge_rtp_units(const uint16_t *sequence, size_t sequence_length, const uint8_t *marker,
                              size_t marker_length, const uint64_t *time, size_t time_length, const uint16_t *size,
                              size_t size_length, uint8_t *buffer, size_t length, uint64_t *value);

#ifdef __cplusplus
}
#endif

#endif
