/* The orchard rule monitor, for programs in C and C++.

   A rule is started once; each event and each clock notice is then taken with the state as the last call left it. The call
   that settles a point reports it. A notice is a time and no point: no event below it is still to come. A program gives one a
   minute while the field is quiet, so that points are settled then too. For a battery change a state is saved to words, an
   image, and read in again. No function has memory between calls but the state, and none uses the heap, a system call or a
   global. Two states may be used by two threads at once.

   Addresses are never null, also where the length beside them is 0, and are those of whole words; state, event, report buffer
   and image lie apart. Nothing else is asked: bytes and words may be anything, and what is out of form is refused.

   A refusal is a number with a place, which is 0 where none is named below. */
#ifndef YOKEMANGO_H
#define YOKEMANGO_H

#include <stddef.h>
#include <stdint.h>

#ifdef __cplusplus
extern "C" {
#endif

#define YOKEMANGO_VERSION "1.4.0-pre"
#define YOKEMANGO_VERSION_MAJOR 1
#define YOKEMANGO_VERSION_MINOR 4
#define YOKEMANGO_VERSION_PATCH 0

/* ---- limits */

#define YOKEMANGO_MAX_RULE_BYTES 652u      /* the longest rule file: 12 + 20 * 32 */
#define YOKEMANGO_MAX_NODES 32u            /* nodes of a rule */
#define YOKEMANGO_MAX_RELATIONS 8u         /* relations of a rule */
#define YOKEMANGO_MAX_COLUMNS 4u           /* columns of a relation; also variables of a rule */
#define YOKEMANGO_MAX_ROWS 32u             /* rows of an event, and valuations of a node at a point */
#define YOKEMANGO_MAX_OPEN_POINTS 32u      /* points accepted and not yet reported */
#define YOKEMANGO_MAX_KEPT 512u            /* kept entries */
#define YOKEMANGO_MAX_POINTS 10000000u     /* points from a start on */
#define YOKEMANGO_MAX_WINDOW 604800u       /* seconds */
#define YOKEMANGO_MAX_EVENT_WORDS 162u     /* the longest event: 2 + 5 * 32 */
#define YOKEMANGO_MAX_REPORT_WORDS 4326u   /* the longest report; a buffer of this length never meets 16 */
#define YOKEMANGO_MAX_IMAGE_WORDS 3816u    /* the longest image: 5 + 7 * 512 + 64 + 163; a buffer of this length never meets 19 */
#define YOKEMANGO_TIME_WORDS 65u           /* places for retained times; at most 64 are used */

/* ---- refusals; 0 is none */

enum yokemango_refusal {
    YOKEMANGO_REFUSED_LENGTH = 1,          /* a rule under 12 bytes, or its length not 12 + 20 * nodes */
    YOKEMANGO_REFUSED_VERSION = 2,         /* a version other than 1 */
    YOKEMANGO_REFUSED_SIZES = 3,           /* a size, an arity or the zero byte out of range */
    YOKEMANGO_REFUSED_NODE = 4,            /* an unknown kind, child, relation, variable or comparison, or an unnamed field not 0; place: the node */
    YOKEMANGO_REFUSED_WINDOW = 5,          /* a window out of range; place: the node */
    YOKEMANGO_REFUSED_FREE_VARIABLES = 6,  /* a condition on free variables broken; place: the node */
    YOKEMANGO_REFUSED_PARENT = 7,          /* a node that isn't a child exactly once; place: the node */
    YOKEMANGO_REFUSED_STATE = 8,           /* a state that isn't well formed */
    YOKEMANGO_REFUSED_EVENT = 9,           /* an event under 2 words, of more than 32 rows, or of a wrong length */
    YOKEMANGO_REFUSED_ROW = 10,            /* an unknown relation, or an unused column not 0; place: the row, from 0 */
    YOKEMANGO_REFUSED_TIME = 11,           /* a time below the latest known, of a point or a notice */
    YOKEMANGO_REFUSED_FULL = 12,           /* 10,000,000 points already */
    YOKEMANGO_REFUSED_CROWDED = 13,        /* over 32 valuations of a node at a point; place: the node */
    YOKEMANGO_REFUSED_BACKLOG = 14,        /* over 32 points not settled */
    YOKEMANGO_REFUSED_KEPT = 15,           /* over 512 kept entries */
    YOKEMANGO_REFUSED_SHORT = 16,          /* a report buffer too short; place: the words needed */
    YOKEMANGO_REFUSED_REPORT = 17,         /* not a report, or no such entry */
    YOKEMANGO_REFUSED_IMAGE = 18,          /* an image out of form, or whose rule is refused */
    YOKEMANGO_REFUSED_ROOM = 19            /* a buffer too short for the image; place: the words needed */
};

/* A refusal in words, without its place. */
static inline const char *yokemango_refusal_words(uint32_t number)
{
    switch (number) {
    case 0: return "no refusal";
    case YOKEMANGO_REFUSED_LENGTH: return "under 12 bytes, or a length that isn't 12 + 20 for each node";
    case YOKEMANGO_REFUSED_VERSION: return "the version isn't 1";
    case YOKEMANGO_REFUSED_SIZES: return "a size, an arity or the zero byte is out of range";
    case YOKEMANGO_REFUSED_NODE: return "an unknown kind, child, relation, variable or comparison, or a field without a meaning that isn't 0";
    case YOKEMANGO_REFUSED_WINDOW: return "the window is out of range";
    case YOKEMANGO_REFUSED_FREE_VARIABLES: return "a condition on the free variables is broken";
    case YOKEMANGO_REFUSED_PARENT: return "the node isn't a child exactly once";
    case YOKEMANGO_REFUSED_STATE: return "the state isn't well formed";
    case YOKEMANGO_REFUSED_EVENT: return "under 2 words, over 32 rows, or a wrong length";
    case YOKEMANGO_REFUSED_ROW: return "no such relation, or an unused column that isn't 0";
    case YOKEMANGO_REFUSED_TIME: return "the time is below the latest known";
    case YOKEMANGO_REFUSED_FULL: return "10,000,000 points were taken already";
    case YOKEMANGO_REFUSED_CROWDED: return "over 32 valuations at a point newly settled";
    case YOKEMANGO_REFUSED_BACKLOG: return "over 32 points would be open";
    case YOKEMANGO_REFUSED_KEPT: return "over 512 entries would be kept";
    case YOKEMANGO_REFUSED_SHORT: return "the report buffer is too short";
    case YOKEMANGO_REFUSED_REPORT: return "not a report, or no such entry";
    case YOKEMANGO_REFUSED_IMAGE: return "the image is out of form, or its rule is refused";
    case YOKEMANGO_REFUSED_ROOM: return "the image buffer is too short";
    default: return "no such refusal";
    }
}

/* What yokemango_row_count and yokemango_rows_word answer for 17, and past the end of the rows: no word is so large. */
#define YOKEMANGO_NONE UINT64_C(4294967296)

/* ---- the state, and answers */

/* A running rule. Plain words that point nowhere, so it may be copied and kept anywhere. A program reads `points`, `latest`
   and `count` and leaves the rest to the functions below; it need not, since a state that was changed is refused by 8 or taken
   as it stands, and harms nothing. */
struct yokemango_state {
    uint8_t rule[YOKEMANGO_MAX_RULE_BYTES];       /* the rule file */
    uint32_t bytes;                               /* its length */
    uint32_t points;                              /* points accepted */
    uint32_t latest;                              /* the latest known time, of a point or a notice; 0 before any */
    uint32_t times[YOKEMANGO_TIME_WORDS];         /* retained times */
    uint32_t retained;                            /* how many */
    uint32_t owners[YOKEMANGO_MAX_KEPT];          /* of each kept entry: node * 2, and 1 more for a pair of valuation and age */
    uint32_t numbers[YOKEMANGO_MAX_KEPT];         /* the point's number, or the age */
    uint32_t values[4u * YOKEMANGO_MAX_KEPT];     /* four words, one for each variable */
    uint32_t count;                               /* kept entries */
};

struct yokemango_checked {
    uint32_t number;                              /* 0, or the refusal */
    uint32_t place;                               /* its place */
    uint32_t reach;                               /* seconds, 0 on a refusal: in a rule without "next", a point is reported at the
                                                     latest by the first event or notice whose time is at least this much after
                                                     its own */
    uint32_t free;                                /* the pattern's free variables, bit k for variable k; 0 on a refusal */
};

struct yokemango_started {
    uint32_t number;                              /* these four as in yokemango_checked */
    uint32_t place;
    uint32_t reach;
    uint32_t free;
    struct yokemango_state state;                 /* of zeros on a refusal */
};

struct yokemango_taken {
    uint32_t number;                              /* 0, or the refusal */
    uint32_t place;                               /* its place */
    uint32_t words;                               /* words written to the front of the report buffer; 0 on a refusal */
};

struct yokemango_figures {
    uint32_t number;                              /* 0, or 8 */
    uint32_t open_points;                         /* points accepted and not yet reported: at most 32; 0 on a refusal */
    uint32_t kept;                                /* kept entries: at most 512 of a state that these functions left */
};

struct yokemango_saved {
    uint32_t number;                              /* 0, 8 or 19 */
    uint32_t place;                               /* the words needed for 19, else 0 */
    uint32_t words;                               /* words written to the front of the image's buffer; 0 on a refusal */
};

struct yokemango_restored {
    uint32_t number;                              /* 0 or 18 */
    uint32_t place;                               /* 0 */
    uint32_t words;                               /* words read: all of the image's; 0 on a refusal */
};

/* The layout that the library has. */
typedef char yokemango_state_has_13220_bytes[sizeof(struct yokemango_state) == 13220 ? 1 : -1];
typedef char yokemango_checked_has_16_bytes[sizeof(struct yokemango_checked) == 16 ? 1 : -1];
typedef char yokemango_started_has_13236_bytes[sizeof(struct yokemango_started) == 13236 ? 1 : -1];
typedef char yokemango_taken_has_12_bytes[sizeof(struct yokemango_taken) == 12 ? 1 : -1];
typedef char yokemango_figures_has_12_bytes[sizeof(struct yokemango_figures) == 12 ? 1 : -1];
typedef char yokemango_saved_has_12_bytes[sizeof(struct yokemango_saved) == 12 ? 1 : -1];
typedef char yokemango_restored_has_12_bytes[sizeof(struct yokemango_restored) == 12 ? 1 : -1];

/* ---- check a rule, start a state, take events and notices, save and restore */

/* Checks a rule, with no state and next to no stack; refusals are 1 to 7. */
struct yokemango_checked yokemango_check(const uint8_t *rule, size_t rule_len);

/* A state with no points, or a refusal 1 to 7. The rule is copied into the state. */
struct yokemango_started yokemango_start(const uint8_t *rule, size_t rule_len);

/* Takes an event in the memory of a state: `rule` to `count` are its fields, lent with their lengths. Another length than
   the field's own is refused by 8. A program calls yokemango_take_in below, which passes them. */
struct yokemango_taken yokemango_take(
    const uint8_t *rule, size_t rule_len, uint32_t bytes, uint32_t *points, uint32_t *latest, uint32_t *times, size_t times_len,
    uint32_t *retained, uint32_t *owners, size_t owners_len, uint32_t *numbers, size_t numbers_len, uint32_t *values,
    size_t values_len, uint32_t *count, const uint32_t *event, size_t event_len, uint32_t *report, size_t report_len);

/* Takes a notice in the same memory. A program calls yokemango_notice_in below. */
struct yokemango_taken yokemango_notice(
    const uint8_t *rule, size_t rule_len, uint32_t bytes, uint32_t *points, uint32_t *latest, uint32_t *times, size_t times_len,
    uint32_t *retained, uint32_t *owners, size_t owners_len, uint32_t *numbers, size_t numbers_len, uint32_t *values,
    size_t values_len, uint32_t *count, uint32_t time, uint32_t *report, size_t report_len);

/* The figures of a state whose fields are lent in the same way. A program calls yokemango_figures_in below. */
struct yokemango_figures yokemango_figures(
    const uint8_t *rule, size_t rule_len, uint32_t bytes, uint32_t points, uint32_t latest, const uint32_t *times,
    size_t times_len, uint32_t retained, const uint32_t *owners, size_t owners_len, const uint32_t *numbers,
    size_t numbers_len, const uint32_t *values, size_t values_len, uint32_t count);

/* Saves a state whose fields are lent in the same way. A program calls yokemango_save_in below. */
struct yokemango_saved yokemango_save(
    const uint8_t *rule, size_t rule_len, uint32_t bytes, uint32_t points, uint32_t latest, const uint32_t *times,
    size_t times_len, uint32_t retained, const uint32_t *owners, size_t owners_len, const uint32_t *numbers,
    size_t numbers_len, const uint32_t *values, size_t values_len, uint32_t count, uint32_t *image, size_t image_len);

/* Reads an image into the memory of a state, all of whose fields are lent to be written. Another length than the field's own
   is refused by 18. A program calls yokemango_restore_in below. */
struct yokemango_restored yokemango_restore(
    const uint32_t *image, size_t image_len, uint8_t *rule, size_t rule_len, uint32_t *bytes, uint32_t *points,
    uint32_t *latest, uint32_t *times, size_t times_len, uint32_t *retained, uint32_t *owners, size_t owners_len,
    uint32_t *numbers, size_t numbers_len, uint32_t *values, size_t values_len, uint32_t *count);

/* ---- read a report: P points, F free variables, total rows; P triples of point, time and row count; rows of F words

   Points ascend. The rows of a point ascend by their first word, and those that tie on it descend by each later word in turn.
   Words of any kind may be passed, and words past the report's end are ignored. Each call goes over the report once. */

/* 0 where the words are a report, else 17. */
uint32_t yokemango_check_report(const uint32_t *report, size_t report_len);

/* The row count of entry k, from 0, or YOKEMANGO_NONE for 17. */
uint64_t yokemango_row_count(const uint32_t *report, size_t report_len, size_t k);

/* Where in the report the rows of entry k begin; 0 for 17. */
size_t yokemango_rows_start(const uint32_t *report, size_t report_len, size_t k);

/* How many words they are; 0 for 17. */
size_t yokemango_rows_len(const uint32_t *report, size_t report_len, size_t k);

/* Word i of them, or YOKEMANGO_NONE past their end and for 17. */
uint64_t yokemango_rows_word(const uint32_t *report, size_t report_len, size_t k, size_t i);

/* ---- readings in signed hundredths, as 1250 for 12.50 and -325 for -3.25

   Events, a rule's constants and reports have a reading as a word, with 2,147,483,648 added, so that words stand in the order of
   the readings. Each word is one reading's and each reading one word's: nothing is refused, and nothing is lost. */

/* The reading that a word stores. */
int32_t yokemango_reading_of(uint32_t word);

/* The word that stores a reading. */
uint32_t yokemango_word_of(int32_t hundredths);

/* ---- what a program calls, on a state that stays where it is */

/* Starts the rule in `state`, which is left as it was on a refusal, 1 to 7. */
static inline struct yokemango_checked yokemango_start_in(struct yokemango_state *state, const uint8_t *rule, size_t rule_len)
{
    const struct yokemango_started started = yokemango_start(rule, rule_len);
    const struct yokemango_checked checked = {started.number, started.place, started.reach, started.free};
    if (started.number == 0)
        *state = started.state;
    return checked;
}

/* Takes an event into `state`: time, row count m, m relation numbers, m rows of 4 words with unused columns 0. The report
   goes to the front of `report`, words past it stay. An event that settles nothing still writes 3 words. The answer has the
   words written, or the first of the refusals 8 to 16 that applies; then no word of `state` or `report` is changed.

   Stack of a call in bytes, by the nodes of the rule, measured:
     nodes                                        2 or 4        8       16       32
     a usual event                                 9,584   10,152   11,880   12,456
     an event that settles 32 points at once      61,856  155,608  156,184  156,760
   A notice takes 16 bytes less, yokemango_start takes 13,544, yokemango_figures 1,376, yokemango_save 1,552 and
   yokemango_restore 6,352. */
static inline struct yokemango_taken yokemango_take_in(struct yokemango_state *state, const uint32_t *event, size_t event_len, uint32_t *report, size_t report_len)
{
    return yokemango_take(
        state->rule, YOKEMANGO_MAX_RULE_BYTES, state->bytes, &state->points, &state->latest, state->times,
        YOKEMANGO_TIME_WORDS, &state->retained, state->owners, YOKEMANGO_MAX_KEPT, state->numbers, YOKEMANGO_MAX_KEPT,
        state->values, 4u * YOKEMANGO_MAX_KEPT, &state->count, event, event_len, report, report_len);
}

/* Takes a clock notice into `state`: a time and no point. What it settles is reported as by an event; "next" is settled by
   events alone. The answer has the words written, at least 3, or the first of the refusals 8, 11, 13, 15 and 16 that applies;
   then no word of `state` or `report` is changed. The time may be the latest known again. A later event below it is refused by
   11, so a program takes the events that it has before it gives a notice. */
static inline struct yokemango_taken yokemango_notice_in(struct yokemango_state *state, uint32_t time, uint32_t *report, size_t report_len)
{
    return yokemango_notice(
        state->rule, YOKEMANGO_MAX_RULE_BYTES, state->bytes, &state->points, &state->latest, state->times,
        YOKEMANGO_TIME_WORDS, &state->retained, state->owners, YOKEMANGO_MAX_KEPT, state->numbers, YOKEMANGO_MAX_KEPT,
        state->values, 4u * YOKEMANGO_MAX_KEPT, &state->count, time, report, report_len);
}

/* The figures of `state`: its open points, or 8, and its kept entries. */
static inline struct yokemango_figures yokemango_figures_in(const struct yokemango_state *state)
{
    return yokemango_figures(
        state->rule, YOKEMANGO_MAX_RULE_BYTES, state->bytes, state->points, state->latest, state->times,
        YOKEMANGO_TIME_WORDS, state->retained, state->owners, YOKEMANGO_MAX_KEPT, state->numbers, YOKEMANGO_MAX_KEPT,
        state->values, 4u * YOKEMANGO_MAX_KEPT, state->count);
}

/* Saves `state`, which stays as it is, to the front of `image`; words past the image stay. The image is: version 1, points,
   latest known time, kept entries, retained times; of each entry node, 0 for a point or 1 for an age, and that number; of each
   entry four values; the retained times; the rule file, four bytes to a word. What is stored has one image. The answer has the
   words written, at most 3,816, or the first of the refusals 8 and 19 that applies; then no word of `image` is changed. */
static inline struct yokemango_saved yokemango_save_in(const struct yokemango_state *state, uint32_t *image, size_t image_len)
{
    return yokemango_save(
        state->rule, YOKEMANGO_MAX_RULE_BYTES, state->bytes, state->points, state->latest, state->times,
        YOKEMANGO_TIME_WORDS, state->retained, state->owners, YOKEMANGO_MAX_KEPT, state->numbers, YOKEMANGO_MAX_KEPT,
        state->values, 4u * YOKEMANGO_MAX_KEPT, state->count, image, image_len);
}

/* Reads an image into `state`, which may hold anything before. The rule is in the image, and `image_len` is the words that
   saving told: a word more or less is out of form. The answer has the words read, or 18; then no word of `state` is changed.
   Once an image is read in, no call meets 8, and saving gives the same words back. Where this monitor saved it, calls are
   answered as though it had gone on all the time. An image of other origin harms nothing, and what is reported then may be
   what no log gave. Words of `state` behind its counts stay as they were, and no answer depends on them: two states that hold
   the same may differ there. examples/two_images.c keeps two images, so that a loss of power in a save loses nothing. */
static inline struct yokemango_restored yokemango_restore_in(struct yokemango_state *state, const uint32_t *image, size_t image_len)
{
    return yokemango_restore(
        image, image_len, state->rule, YOKEMANGO_MAX_RULE_BYTES, &state->bytes, &state->points, &state->latest, state->times,
        YOKEMANGO_TIME_WORDS, &state->retained, state->owners, YOKEMANGO_MAX_KEPT, state->numbers, YOKEMANGO_MAX_KEPT,
        state->values, 4u * YOKEMANGO_MAX_KEPT, &state->count);
}

/* A point of a report: `rows` rows of `columns` words each, end to end from `words` on. */
struct yokemango_point {
    uint32_t number;
    uint32_t time;
    uint32_t rows;
    uint32_t columns;
    const uint32_t *words;
};

/* Entry k of the report, from 0; or 17, and `point` is left as it was. */
static inline uint32_t yokemango_point_at(const uint32_t *report, size_t report_len, size_t k, struct yokemango_point *point)
{
    const uint64_t rows = yokemango_row_count(report, report_len, k);
    if (rows == YOKEMANGO_NONE)
        return YOKEMANGO_REFUSED_REPORT;
    point->number = report[3 + 3 * k];
    point->time = report[3 + 3 * k + 1];
    point->rows = (uint32_t)rows;
    point->columns = report[1];
    point->words = report + yokemango_rows_start(report, report_len, k);
    return 0;
}

#ifdef __cplusplus
}
#endif

#endif
