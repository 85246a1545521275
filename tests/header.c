/* The header as a program in C uses it, on rule L, whose file is named: what a refusal leaves, what a report gives back, what
   notices settle, what is saved and read in again, and the constants. Built with the address and undefined-behaviour sanitizers; buffers are of exact length,
   on the heap. */
#include <stdio.h>
#include <stdlib.h>
#include <string.h>
#include "yokemango.h"

static unsigned checks;

#define CHECK(what) \
    do { \
        checks++; \
        if (!(what)) { \
            printf("line %d: not so: %s\n", __LINE__, #what); \
            exit(1); \
        } \
    } while (0)

static struct yokemango_state state, before;

static int same_state(void)
{
    return memcmp(&state, &before, sizeof state) == 0;
}

/* A heap copy, so that the sanitizer sees its end. */
static uint32_t *copy(const uint32_t *words, size_t count)
{
    uint32_t *own = malloc(count * sizeof *own + 1);
    CHECK(own != NULL);
    memcpy(own, words, count * sizeof *own);
    return own;
}

static struct yokemango_taken take(const uint32_t *event, size_t event_len, uint32_t *report, size_t report_len)
{
    uint32_t *own = copy(event, event_len);
    const struct yokemango_taken taken = yokemango_take_in(&state, own, event_len, report, report_len);
    free(own);
    return taken;
}

/* Refused by this number and place, and the state as it was. */
static int refused(struct yokemango_taken taken, uint32_t number, uint32_t place)
{
    return taken.number == number && taken.place == place && taken.words == 0 && same_state();
}

static int answers(struct yokemango_checked checked, uint32_t number, uint32_t place, uint32_t reach, uint32_t free_variables)
{
    return checked.number == number && checked.place == place && checked.reach == reach && checked.free == free_variables;
}

static void refusals(const uint8_t *rule, size_t length)
{
    uint8_t other[YOKEMANGO_MAX_RULE_BYTES];
    uint32_t report[2] = {5, 6};
    const uint32_t two_words[] = {100, 0}, no_relation[] = {100, 2, 0, 2, 7, 0, 0, 0, 7, 0, 0, 0};

    CHECK(answers(yokemango_check(rule, length), 0, 0, 61, 1));
    CHECK(answers(yokemango_start_in(&state, rule, length), 0, 0, 61, 1));
    before = state;
    CHECK(answers(yokemango_start_in(&state, rule, length - 1), YOKEMANGO_REFUSED_LENGTH, 0, 0, 0) && same_state());
    memcpy(other, rule, length);
    other[12 + 4 * 2] = 16;
    CHECK(answers(yokemango_start_in(&state, other, length), YOKEMANGO_REFUSED_NODE, 2, 0, 0) && same_state());
    CHECK(answers(yokemango_check(other, length), YOKEMANGO_REFUSED_NODE, 2, 0, 0));

    CHECK(refused(take(two_words, 2, report, 2), YOKEMANGO_REFUSED_SHORT, 3));
    CHECK(refused(take(two_words, 1, report, 2), YOKEMANGO_REFUSED_EVENT, 0));
    CHECK(refused(take(no_relation, 12, report, 2), YOKEMANGO_REFUSED_ROW, 1));
    CHECK(refused(yokemango_notice_in(&state, 100, report, 2), YOKEMANGO_REFUSED_SHORT, 3));
    CHECK(report[0] == 5 && report[1] == 6);

    /* a field lent one too short */
    for (size_t k = 0; k < 5; k++) {
        uint32_t long_enough[3] = {5, 6, 7};
        const size_t rule_len = YOKEMANGO_MAX_RULE_BYTES - (k == 0), times_len = YOKEMANGO_TIME_WORDS - (k == 1);
        const size_t owners_len = YOKEMANGO_MAX_KEPT - (k == 2), numbers_len = YOKEMANGO_MAX_KEPT - (k == 3);
        const size_t values_len = 4u * YOKEMANGO_MAX_KEPT - (k == 4);
        const struct yokemango_taken taken = yokemango_take(
            state.rule, rule_len, state.bytes, &state.points, &state.latest, state.times, times_len, &state.retained,
            state.owners, owners_len, state.numbers, numbers_len, state.values, values_len, &state.count, two_words, 2,
            long_enough, 3);
        const struct yokemango_taken noticed = yokemango_notice(
            state.rule, rule_len, state.bytes, &state.points, &state.latest, state.times, times_len, &state.retained,
            state.owners, owners_len, state.numbers, numbers_len, state.values, values_len, &state.count, 100, long_enough, 3);
        const struct yokemango_figures figures = yokemango_figures(
            state.rule, rule_len, state.bytes, state.points, state.latest, state.times, times_len, state.retained,
            state.owners, owners_len, state.numbers, numbers_len, state.values, values_len, state.count);
        CHECK(refused(taken, YOKEMANGO_REFUSED_STATE, 0) && refused(noticed, YOKEMANGO_REFUSED_STATE, 0));
        CHECK(long_enough[0] == 5 && long_enough[1] == 6 && long_enough[2] == 7);
        CHECK(figures.number == YOKEMANGO_REFUSED_STATE && figures.open_points == 0 && figures.kept == 0);
        const uint32_t nothing_taken[28] = {1};
        uint32_t *image = copy(nothing_taken, 28);
        CHECK(yokemango_save_in(&state, image, 28).words == 28);
        const struct yokemango_restored read = yokemango_restore(
            image, 28, state.rule, rule_len, &state.bytes, &state.points, &state.latest, state.times, times_len, &state.retained,
            state.owners, owners_len, state.numbers, numbers_len, state.values, values_len, &state.count);
        CHECK(read.number == YOKEMANGO_REFUSED_IMAGE && read.place == 0 && read.words == 0 && same_state());
        memset(image, 0, 28 * sizeof *image);
        const struct yokemango_saved saved = yokemango_save(
            state.rule, rule_len, state.bytes, state.points, state.latest, state.times, times_len, state.retained, state.owners,
            owners_len, state.numbers, numbers_len, state.values, values_len, state.count, image, 28);
        CHECK(saved.number == YOKEMANGO_REFUSED_STATE && saved.place == 0 && saved.words == 0);
        CHECK(image[0] == 0 && memcmp(image, image + 1, 27 * sizeof *image) == 0);
        free(image);
    }

    memset(&state, 0, sizeof state);
    before = state;
    CHECK(refused(take(two_words, 2, report, 2), YOKEMANGO_REFUSED_STATE, 0));
    CHECK(refused(yokemango_notice_in(&state, 100, report, 2), YOKEMANGO_REFUSED_STATE, 0));
    CHECK(yokemango_figures_in(&state).number == YOKEMANGO_REFUSED_STATE);
}

static void reports(const uint8_t *rule, size_t length)
{
    const uint32_t leaks[] = {100, 2, 0, 0, 9, 0, 0, 0, 7, 0, 0, 0}, later[] = {161, 0};
    const uint32_t expected[] = {1, 1, 2, 0, 100, 2, 7, 9};
    const uint32_t tied[] = {1, 2, 2, 0, 100, 2, 7, 2, 7, 1}, ascending[] = {1, 2, 2, 0, 100, 2, 7, 1, 7, 2};
    uint32_t *report = copy(expected, 8);
    struct yokemango_taken taken;
    struct yokemango_figures figures;
    struct yokemango_point point = {1, 2, 3, 4, NULL};

    CHECK(yokemango_start_in(&state, rule, length).number == 0);
    taken = take(leaks, 12, report, 8);
    CHECK(taken.number == 0 && taken.place == 0 && taken.words == 3);
    CHECK(report[0] == 0 && report[1] == 1 && report[2] == 0 && report[3] == 0);
    figures = yokemango_figures_in(&state);
    CHECK(figures.number == 0 && figures.open_points == 1 && figures.kept == 2 && state.count == 2 && state.points == 1);
    memset(report, 0, 8 * sizeof *report);
    before = state;
    CHECK(refused(take(later, 2, report, 7), YOKEMANGO_REFUSED_SHORT, 8) && report[0] == 0);
    taken = take(later, 2, report, 8);
    CHECK(taken.number == 0 && taken.words == 8 && memcmp(report, expected, sizeof expected) == 0);

    CHECK(yokemango_check_report(report, 8) == 0 && yokemango_check_report(report, 7) == YOKEMANGO_REFUSED_REPORT);
    /* rows that tie on the first word descend; in the order before request 103 they are no report */
    CHECK(yokemango_check_report(tied, 10) == 0);
    CHECK(yokemango_check_report(ascending, 10) == YOKEMANGO_REFUSED_REPORT);
    CHECK(yokemango_point_at(report, 8, 1, &point) == YOKEMANGO_REFUSED_REPORT && point.number == 1 && point.words == NULL);
    CHECK(yokemango_point_at(report, 7, 0, &point) == YOKEMANGO_REFUSED_REPORT);
    CHECK(yokemango_point_at(report, 8, 0, &point) == 0);
    CHECK(point.number == 0 && point.time == 100 && point.rows == 2 && point.columns == 1);
    CHECK(point.words == report + 6 && point.words[0] == 7 && point.words[1] == 9);
    CHECK(yokemango_rows_len(report, 8, 0) == 2 && yokemango_rows_word(report, 8, 0, 1) == 9);
    CHECK(yokemango_rows_word(report, 8, 0, 2) == YOKEMANGO_NONE && yokemango_row_count(report, 8, 1) == YOKEMANGO_NONE);
    free(report);
}

/* Taken, with a report of three words: no point. */
static int settles_nothing(struct yokemango_taken taken, const uint32_t *report)
{
    return taken.number == 0 && taken.place == 0 && taken.words == 3 && report[0] == 0 && report[1] == 1 && report[2] == 0;
}

static void notices(const uint8_t *rule, size_t length)
{
    const uint32_t leak[] = {100, 1, 0, 7, 0, 0, 0}, below[] = {160, 0}, equal[] = {161, 0};
    const uint32_t expected[] = {1, 1, 1, 0, 100, 1, 7}, nothing[7] = {0};
    uint32_t *report = copy(nothing, 7);
    struct yokemango_taken taken;
    struct yokemango_figures figures;

    CHECK(yokemango_start_in(&state, rule, length).number == 0 && state.latest == 0);
    CHECK(settles_nothing(yokemango_notice_in(&state, 50, report, 3), report) && state.points == 0 && state.latest == 50);
    CHECK(settles_nothing(take(leak, 7, report, 3), report) && state.points == 1 && state.latest == 100);
    CHECK(settles_nothing(yokemango_notice_in(&state, 160, report, 3), report) && state.points == 1 && state.latest == 160);

    /* a point is settled once the time is 61 seconds after its own; a refused notice moves nothing */
    before = state;
    memcpy(report, nothing, sizeof nothing);
    CHECK(refused(yokemango_notice_in(&state, 159, report, 7), YOKEMANGO_REFUSED_TIME, 0));
    CHECK(refused(yokemango_notice_in(&state, 161, report, 6), YOKEMANGO_REFUSED_SHORT, 7));
    CHECK(memcmp(report, nothing, sizeof nothing) == 0);
    taken = yokemango_notice_in(&state, 161, report, 7);
    CHECK(taken.number == 0 && taken.words == 7 && memcmp(report, expected, sizeof expected) == 0);
    figures = yokemango_figures_in(&state);
    CHECK(figures.number == 0 && figures.open_points == 0 && figures.kept == 0 && state.points == 1 && state.latest == 161);

    /* an event below the notice is refused, one of its time isn't, nor is the same notice again */
    before = state;
    CHECK(refused(take(below, 2, report, 7), YOKEMANGO_REFUSED_TIME, 0));
    CHECK(settles_nothing(yokemango_notice_in(&state, 161, report, 7), report) && same_state());
    CHECK(settles_nothing(take(equal, 2, report, 7), report) && state.points == 2);
    free(report);
}

/* next [0, *) leak(x): no notice settles it, and the next event does. */
static void notices_of_next(void)
{
    const uint8_t rule[52] = {1, 1, 2, 0, 1, 0, 0, 0, 0, 0, 0, 0, 1, 0, 0, 0, 8, 0, 0, 0};
    const uint32_t leak[] = {100, 1, 0, 7, 0, 0, 0}, last[] = {UINT32_MAX, 1, 0, 9, 0, 0, 0};
    const uint32_t expected[] = {1, 1, 1, 0, 100, 1, 9};
    uint32_t report[7];
    struct yokemango_taken taken;

    CHECK(answers(yokemango_start_in(&state, rule, 52), 0, 0, 0, 1));
    CHECK(settles_nothing(take(leak, 7, report, 7), report));
    CHECK(settles_nothing(yokemango_notice_in(&state, UINT32_MAX, report, 7), report));
    CHECK(yokemango_figures_in(&state).open_points == 1);
    taken = take(last, 7, report, 7);
    CHECK(taken.number == 0 && taken.words == 7 && memcmp(report, expected, sizeof expected) == 0);
}

/* Saving answers so, and leaves every word as it was. */
static int not_saved(size_t room, uint32_t number, uint32_t place)
{
    uint32_t words[40];
    memset(words, 5, sizeof words);
    uint32_t *image = copy(words, room);
    const struct yokemango_saved saved = yokemango_save_in(&state, image, room);
    const int stays = memcmp(image, words, room * sizeof *image) == 0;
    free(image);
    return saved.number == number && saved.place == place && saved.words == 0 && stays;
}

/* Reading in is refused, and the state is as it was. */
static int not_read(const uint32_t *image, size_t length)
{
    uint32_t *own = copy(image, length);
    const struct yokemango_restored restored = yokemango_restore_in(&state, own, length);
    free(own);
    return restored.number == YOKEMANGO_REFUSED_IMAGE && restored.place == 0 && restored.words == 0 && same_state();
}

static void images(const uint8_t *rule, size_t length)
{
    const uint32_t leaks[] = {100, 2, 0, 0, 9, 0, 0, 0, 7, 0, 0, 0}, closed[] = {130, 1, 1, 9, 0, 0, 0};
    /* the sizes; two leaks at point 0 and a closing at point 1; their values; the times */
    const uint32_t front[] = {
        1, 2, 130, 3, 2, 0, 0, 0, 0, 0, 0, 1, 0, 1, 7, 0, 0, 0, 9, 0, 0, 0, 9, 0, 0, 0, 100, 130};
    const uint32_t expected[] = {1, 1, 1, 0, 100, 1, 7};
    enum { FRONT = sizeof front / sizeof *front, WORDS = FRONT + 23 };
    uint32_t image[WORDS + 2], again[WORDS], report[7];
    struct yokemango_saved saved;
    struct yokemango_restored restored;
    struct yokemango_taken taken;

    CHECK(yokemango_start_in(&state, rule, length).number == 0);
    CHECK(not_saved(0, YOKEMANGO_REFUSED_ROOM, 28) && not_saved(27, YOKEMANGO_REFUSED_ROOM, 28));
    CHECK(take(leaks, 12, report, 3).number == 0 && take(closed, 7, report, 3).number == 0);
    CHECK(not_saved(40, YOKEMANGO_REFUSED_ROOM, WORDS));
    before = state;
    image[WORDS] = 5;
    image[WORDS + 1] = 6;
    saved = yokemango_save_in(&state, image, WORDS + 2);
    CHECK(saved.number == 0 && saved.place == 0 && saved.words == WORDS && same_state());
    CHECK(memcmp(image, front, sizeof front) == 0 && image[WORDS] == 5 && image[WORDS + 1] == 6);
    for (size_t k = 0; k < 23; k++)
        for (size_t b = 0; b < 4; b++)
            CHECK((image[FRONT + k] >> 8 * b & 255) == rule[4 * k + b]);

    /* a word less, a word more, none; another version; entries out of order; a rule that checking refuses */
    CHECK(not_read(image, WORDS - 1) && not_read(image, WORDS + 1) && not_read(image, 0));
    for (size_t k = 0; k < 3; k++) {
        uint32_t damaged[WORDS];
        memcpy(damaged, image, sizeof damaged);
        damaged[k == 0 ? 0 : k == 1 ? 14 : FRONT] += 2;
        CHECK(not_read(damaged, WORDS));
    }

    /* read into other words: those that the counts leave out stay */
    memset(&state, 0xa5, sizeof state);
    before = state;
    CHECK(not_saved(40, YOKEMANGO_REFUSED_STATE, 0) && not_read(image, WORDS - 1));
    restored = yokemango_restore_in(&state, image, WORDS);
    CHECK(restored.number == 0 && restored.place == 0 && restored.words == WORDS);
    CHECK(memcmp(state.rule, rule, length) == 0 && state.bytes == length && state.points == 2 && state.latest == 130);
    CHECK(state.retained == 2 && state.times[0] == 100 && state.times[1] == 130 && state.count == 3);
    CHECK(state.owners[0] == 0 && state.owners[1] == 0 && state.owners[2] == 2);
    CHECK(state.numbers[0] == 0 && state.numbers[1] == 0 && state.numbers[2] == 1);
    CHECK(memcmp(state.values, front + 14, 12 * sizeof *front) == 0);
    CHECK(memcmp(state.rule + length, before.rule + length, sizeof state.rule - length) == 0);
    CHECK(memcmp(state.times + 2, before.times + 2, sizeof state.times - 2 * sizeof *state.times) == 0);
    CHECK(memcmp(state.owners + 3, before.owners + 3, sizeof state.owners - 3 * sizeof *state.owners) == 0);
    CHECK(memcmp(state.numbers + 3, before.numbers + 3, sizeof state.numbers - 3 * sizeof *state.numbers) == 0);
    CHECK(memcmp(state.values + 12, before.values + 12, sizeof state.values - 12 * sizeof *state.values) == 0);

    /* it saves to itself, and the leak is reported */
    saved = yokemango_save_in(&state, again, WORDS);
    CHECK(saved.number == 0 && saved.words == WORDS && memcmp(again, image, sizeof again) == 0);
    taken = yokemango_notice_in(&state, 161, report, 7);
    CHECK(taken.number == 0 && taken.words == 7 && memcmp(report, expected, sizeof expected) == 0);
}

/* Readings at the edges, each word's and back. */
static void readings(void)
{
    static const struct {
        int32_t reading;
        uint32_t word;
    } edges[] = {{INT32_MIN, 0}, {INT32_MIN + 1, 1}, {-325, 2147483323u}, {-1, 2147483647u}, {0, 2147483648u}, {250, 2147483898u}, {INT32_MAX, UINT32_MAX}};
    for (size_t k = 0; k < sizeof edges / sizeof *edges; k++) {
        CHECK(yokemango_word_of(edges[k].reading) == edges[k].word);
        CHECK(yokemango_reading_of(edges[k].word) == edges[k].reading);
    }
}

int main(int argc, char **argv)
{
    uint8_t rule[YOKEMANGO_MAX_RULE_BYTES];
    FILE *file = argc == 2 ? fopen(argv[1], "rb") : NULL;
    CHECK(file != NULL);
    const size_t length = fread(rule, 1, sizeof rule, file);
    fclose(file);
    CHECK(length == 92);
    CHECK(YOKEMANGO_MAX_RULE_BYTES == 12 + 20 * YOKEMANGO_MAX_NODES && YOKEMANGO_MAX_EVENT_WORDS == 2 + 5 * YOKEMANGO_MAX_ROWS);
    CHECK(YOKEMANGO_MAX_REPORT_WORDS == 3 + 33 * 3 + 33 * YOKEMANGO_MAX_ROWS * YOKEMANGO_MAX_COLUMNS);
    CHECK(YOKEMANGO_MAX_IMAGE_WORDS == 5 + 7 * YOKEMANGO_MAX_KEPT + (YOKEMANGO_TIME_WORDS - 1) + YOKEMANGO_MAX_RULE_BYTES / 4);
    refusals(rule, length);
    reports(rule, length);
    notices(rule, length);
    notices_of_next();
    images(rule, length);
    readings();
    printf("%u checks of the header\n", checks);
    return 0;
}
