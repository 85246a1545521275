/* Rule L of the scope, a leak that no closing follows within 60 seconds, in the main loop of a unit: an event is taken as it
   comes, and after a quiet minute a clock notice. It reads the rule file that is named; four events and the clock's seconds
   stand here. It prints as the listing program does.

     cc -Iinclude -o target/leak examples/leak.c -Ltarget/staticlib -lyokemango
     target/leak examples/leak.rule */
#include <inttypes.h>
#include <stdio.h>
#include "yokemango.h"

enum { LEAK, CLOSE };
enum { MINUTE = 60 };

/* time, row count; relations; rows of four words */
static const uint32_t at_100[] = {100, 2, LEAK, LEAK, 7, 0, 0, 0, 9, 0, 0, 0};
static const uint32_t at_130[] = {130, 1, CLOSE, 9, 0, 0, 0};
static const uint32_t at_161[] = {161, 1, CLOSE, 7, 0, 0, 0};
static const uint32_t at_191[] = {191, 1, LEAK, 9, 0, 0, 0};

#define LENGTH(words) (sizeof(words) / sizeof((words)[0]))

static const struct {
    const uint32_t *words;
    size_t length;
} events[] = {
    {at_100, LENGTH(at_100)},
    {at_130, LENGTH(at_130)},
    {at_161, LENGTH(at_161)},
    {at_191, LENGTH(at_191)},
};

static struct yokemango_state state;
static uint32_t report[YOKEMANGO_MAX_REPORT_WORDS];

static int refused(uint32_t number, uint32_t place)
{
    printf("refused %" PRIu32 " place %" PRIu32 ": %s\n", number, place, yokemango_refusal_words(number));
    return 1;
}

static void print_report(size_t words)
{
    struct yokemango_point point;
    for (size_t k = 0; yokemango_point_at(report, words, k, &point) == 0; k++) {
        printf("point %" PRIu32 " time %" PRIu32 " rows %" PRIu32 "\n", point.number, point.time, point.rows);
        for (uint32_t row = 0; row < point.rows; row++) {
            for (uint32_t column = 0; column < point.columns; column++)
                printf("%s%" PRIu32, column ? " " : "", point.words[row * point.columns + column]);
            printf("\n");
        }
    }
}

int main(int argc, char **argv)
{
    uint8_t rule[YOKEMANGO_MAX_RULE_BYTES];
    FILE *file = argc == 2 ? fopen(argv[1], "rb") : NULL;
    if (file == NULL) {
        fprintf(stderr, "usage: leak RULE\n");
        return 2;
    }
    const size_t length = fread(rule, 1, sizeof rule, file);
    fclose(file);

    const struct yokemango_checked started = yokemango_start_in(&state, rule, length);
    if (started.number != 0)
        return refused(started.number, started.place);
    printf("rule ok reach %" PRIu32 "\n", started.reach);

    size_t k = 0;
    for (uint32_t now = 100; now <= 320; now++) {
        struct yokemango_taken taken;
        if (k < LENGTH(events) && events[k].words[0] == now) {
            taken = yokemango_take_in(&state, events[k].words, events[k].length, report, YOKEMANGO_MAX_REPORT_WORDS);
            k++;
        } else if (now > state.latest && now - state.latest >= MINUTE) {
            taken = yokemango_notice_in(&state, now, report, YOKEMANGO_MAX_REPORT_WORDS);
        } else {
            continue;
        }
        if (taken.number != 0)
            return refused(taken.number, taken.place);
        print_report(taken.words);
    }
    const struct yokemango_figures figures = yokemango_figures_in(&state);
    printf("open %" PRIu32 " kept %" PRIu32 "\n", figures.open_points, figures.kept);
    return 0;
}
