/* A battery change, and power that is lost at any moment: rule L of the scope in a unit that keeps two images in memory that
   outlasts the power, and what a start makes of them. It reads the rule file that is named. The log is that of leak.c with one
   event more.

     cc -Iinclude -o target/two_images examples/two_images.c -Ltarget/staticlib -lyokemango
     target/two_images examples/leak.rule

   A slot has room for the longest image, and behind it a seal: a sequence number, the image's length, and a check sum over both
   and the image. A save goes to the slot that wasn't read or written last. It wipes the seal, check sum first, so that no image
   that is half written stands under an old seal; writes the image; and then the seal, check sum last. So whichever word is the
   last that is written, the other slot is whole, and this one is either whole or has no right seal.

   A start reads the newer of the slots whose seal is right, and the other one where the seal isn't right or the image is refused.
   With neither, the rule is started anew. The image may be a call older than what the unit had done: a call that it hasn't seen
   is taken again, so the unit keeps each call until the save after it is whole.

   The unit takes a call, acts on the report, and saves. Were it to save first, a loss of power between the two would lose the
   report. As it is, a report may be given twice. A point is reported just once by a state that goes on, and in order, so it is
   known by its number: a point below the next one to act on was acted on before.

   As a test the program loses power at each word that it writes and at each point that it acts on, in turn, and forgets what was
   in RAM; once with the word as it was, once with half of it written. What it acted on must be what a run without a loss acts on,
   and the last state must save to the same image. A loss in a call is the same as one at what is written next. */
#include <inttypes.h>
#include <setjmp.h>
#include <stdio.h>
#include <stdlib.h>
#include <string.h>
#include "yokemango.h"

/* ---- the log: events, and notices after a quiet minute */

enum { LEAK, CLOSE };

/* time, row count; relations; rows of four words */
static const uint32_t at_100[] = {100, 2, LEAK, LEAK, 7, 0, 0, 0, 9, 0, 0, 0};
static const uint32_t at_130[] = {130, 1, CLOSE, 9, 0, 0, 0};
static const uint32_t at_161[] = {161, 1, CLOSE, 7, 0, 0, 0};
static const uint32_t at_191[] = {191, 1, LEAK, 9, 0, 0, 0};
static const uint32_t at_191_too[] = {191, 1, LEAK, 8, 0, 0, 0};

#define LENGTH(words) (sizeof(words) / sizeof((words)[0]))

/* An event, or a notice, which has no words but a time. */
static const struct {
    uint32_t time;
    const uint32_t *event;
    size_t length;
} calls[] = {
    {100, at_100, LENGTH(at_100)},
    {130, at_130, LENGTH(at_130)},
    {161, at_161, LENGTH(at_161)},
    {191, at_191, LENGTH(at_191)},
    {191, at_191_too, LENGTH(at_191_too)},
    {251, NULL, 0},
    {311, NULL, 0},
};

/* ---- memory that outlasts the power */

struct slot {
    uint32_t image[YOKEMANGO_MAX_IMAGE_WORDS];
    /* the seal */
    uint32_t sequence;
    uint32_t length;
    uint32_t check;
};

static struct slot slots[2];

/* What was acted on: here words that are sent to an office, which doesn't forget. A unit that acts by itself keeps `next` beside
   the slots. */
static struct acts {
    uint32_t next;                         /* the number of the next point to act on */
    uint32_t words[64];                    /* of each point: number, time, row count, rows */
    size_t length;
} acted;

/* ---- RAM, and the rule file, which is part of the program */

static struct {
    struct yokemango_state state;
    uint32_t report[YOKEMANGO_MAX_REPORT_WORDS];
    uint32_t image[YOKEMANGO_MAX_IMAGE_WORDS];
    uint32_t sequence;                     /* of the slot that was read or written last */
    unsigned slot;                         /* which one that is */
} ram;

static uint8_t rule[YOKEMANGO_MAX_RULE_BYTES];
static size_t rule_length;

static void refused(const char *what, uint32_t number, uint32_t place)
{
    printf("%s: refused %" PRIu32 " place %" PRIu32 ": %s\n", what, number, place, yokemango_refusal_words(number));
    exit(1);
}

/* ---- the power, which the test takes away */

static jmp_buf power_lost;
static uint32_t steps_left;                /* words to be written and points to be acted on until it is lost */
static uint32_t words, points;             /* how many there were */
static int half_written;                   /* whether the word at which it is lost is written to a half */

/* Writes a word; volatile, so that words are written in this order. A unit writes its flash or FRAM here. */
static void write_word(volatile uint32_t *word, uint32_t value)
{
    if (steps_left == 0) {
        if (half_written)
            *word = (*word & 0xffff0000u) | (value & 0xffffu);
        longjmp(power_lost, 1);
    }
    steps_left--;
    words++;
    *word = value;
}

/* Acts on a point, which here is done whole or not at all. */
static void act_on(const struct yokemango_point *point)
{
    const size_t length = (size_t)point->rows * point->columns;
    if (steps_left == 0)
        longjmp(power_lost, 1);
    steps_left--;
    points++;
    if (acted.length + 3 + length > LENGTH(acted.words)) {
        printf("more is reported than without a loss\n");
        exit(1);
    }
    acted.words[acted.length++] = point->number;
    acted.words[acted.length++] = point->time;
    acted.words[acted.length++] = point->rows;
    memcpy(acted.words + acted.length, point->words, length * sizeof *point->words);
    acted.length += length;
    acted.next = point->number + 1;
}

/* ---- save */

/* One word put into a CRC-32. */
static uint32_t sum_word(uint32_t sum, uint32_t word)
{
    sum ^= word;
    for (int bit = 0; bit < 32; bit++)
        sum = sum >> 1 ^ (sum & 1 ? 0xedb88320u : 0);
    return sum;
}

/* The check sum; never 0, which stands where a seal is wiped. */
static uint32_t check_of(uint32_t sequence, const uint32_t *image, uint32_t length)
{
    uint32_t sum = sum_word(sum_word(UINT32_MAX, sequence), length);
    for (uint32_t k = 0; k < length; k++)
        sum = sum_word(sum, image[k]);
    return sum == 0 ? 1 : sum;
}

static void save(void)
{
    struct slot *slot = &slots[!ram.slot];
    const uint32_t sequence = ram.sequence + 1;
    const struct yokemango_saved saved = yokemango_save_in(&ram.state, ram.image, YOKEMANGO_MAX_IMAGE_WORDS);
    if (saved.number != 0)
        refused("save", saved.number, saved.place);

    write_word(&slot->check, 0);
    write_word(&slot->length, 0);
    write_word(&slot->sequence, 0);
    for (uint32_t k = 0; k < saved.words; k++)
        write_word(&slot->image[k], ram.image[k]);
    write_word(&slot->sequence, sequence);
    write_word(&slot->length, saved.words);
    write_word(&slot->check, check_of(sequence, ram.image, saved.words));

    ram.slot = !ram.slot;
    ram.sequence = sequence;
}

/* ---- start */

/* Whether the slot has an image that could be read in. It then is. */
static int restored_from(unsigned k)
{
    const struct slot *slot = &slots[k];
    if (slot->length > YOKEMANGO_MAX_IMAGE_WORDS || slot->check != check_of(slot->sequence, slot->image, slot->length))
        return 0;
    if (yokemango_restore_in(&ram.state, slot->image, slot->length).number != 0)
        return 0;
    ram.slot = k;
    ram.sequence = slot->sequence;
    return 1;
}

static void start(void)
{
    /* the difference is taken modulo 2 to the 32nd, so that the sequence may begin again at 0 */
    const unsigned newer = slots[1].sequence - slots[0].sequence < UINT32_C(0x80000000);
    if (restored_from(newer) || restored_from(!newer))
        return;
    const struct yokemango_checked started = yokemango_start_in(&ram.state, rule, rule_length);
    if (started.number != 0)
        refused("start", started.number, started.place);
    ram.slot = 1;
    ram.sequence = 0;
}

/* The first call that the state hasn't seen. Its points are the events that it has seen; of the notices before the next event it
   has seen those up to its latest known time, and one at that very time may be taken again, since it changes nothing. A refused
   event is no point: it is left out of such a log, or counted apart. */
static size_t next_call(void)
{
    uint32_t events = 0;
    size_t k = 0;
    while (k < LENGTH(calls) && (calls[k].event ? events < ram.state.points : calls[k].time <= ram.state.latest))
        events += calls[k++].event != NULL;
    return k;
}

/* ---- the unit */

/* Calls after which the state was saved whole: what the test knows, and the unit doesn't. */
static size_t calls_saved;

static void go_on(void)
{
    for (size_t k = next_call(); k < LENGTH(calls); k++) {
        const struct yokemango_taken taken = calls[k].event
            ? yokemango_take_in(&ram.state, calls[k].event, calls[k].length, ram.report, YOKEMANGO_MAX_REPORT_WORDS)
            : yokemango_notice_in(&ram.state, calls[k].time, ram.report, YOKEMANGO_MAX_REPORT_WORDS);
        struct yokemango_point point;
        if (taken.number != 0)
            refused("call", taken.number, taken.place);
        for (size_t i = 0; yokemango_point_at(ram.report, taken.words, i, &point) == 0; i++)
            if (point.number >= acted.next)
                act_on(&point);
        save();
        calls_saved = k + 1;
    }
}

/* ---- the test */

/* What a run without a loss acts on, the image that it ends with, and how many words and points it has. */
static struct acts whole;
static uint32_t whole_image[YOKEMANGO_MAX_IMAGE_WORDS];
static uint32_t whole_length, whole_words, whole_points;

static uint32_t losses;

/* Runs to the log's end. The power is lost at the step after so many, and with `again` at that step after each start. */
static void run(uint32_t steps, int again)
{
    static uint32_t then;
    then = again ? steps : UINT32_MAX;
    steps_left = steps;
    if (setjmp(power_lost) != 0) {
        losses++;
        steps_left = then;
    }
    memset(&ram, 0xa5, sizeof ram);
    start();
    if (next_call() < calls_saved) {
        printf("power lost at step %" PRIu32 ": an image is read that isn't the last\n", steps);
        exit(1);
    }
    go_on();
}

static void begin_anew(void)
{
    memset(slots, 0xff, sizeof slots);
    memset(&acted, 0, sizeof acted);
    calls_saved = 0;
}

static void compare(const char *what, uint32_t step)
{
    const struct yokemango_saved saved = yokemango_save_in(&ram.state, ram.image, YOKEMANGO_MAX_IMAGE_WORDS);
    if (memcmp(&acted, &whole, sizeof acted) == 0 && saved.number == 0 && saved.words == whole_length
        && memcmp(ram.image, whole_image, whole_length * sizeof *whole_image) == 0)
        return;
    printf("%s %" PRIu32 ": other reports, or another image\n", what, step);
    exit(1);
}

static void lose_power(void)
{
    const uint32_t steps = whole_words + whole_points;
    for (half_written = 0; half_written < 2; half_written++) {
        for (uint32_t step = 0; step < steps; step++) {
            begin_anew();
            run(step, 0);
            compare("power lost at step", step);
        }
        /* over and over; a quarter of all steps is more than any call has, so that each start gets further */
        for (uint32_t step = steps / 4; step < steps; step++) {
            begin_anew();
            run(step, 1);
            compare("power lost over and over at step", step);
        }
    }
}

/* The newer slot is damaged in a word, or sealed with an image that is refused: the other one is read. */
static void damage(void)
{
    static struct slot kept;
    struct slot *slot;
    begin_anew();
    run(UINT32_MAX, 0);
    slot = &slots[ram.slot];
    kept = *slot;
    for (uint32_t k = 0; k < kept.length + 4; k++) {
        const unsigned newer = ram.slot;
        *slot = kept;
        if (k < kept.length)
            slot->image[k] ^= 1;
        else if (k == kept.length)
            slot->sequence ^= 1;
        else if (k == kept.length + 1)
            slot->length ^= 1;
        else if (k == kept.length + 2)
            slot->check ^= 1;
        else {
            slot->image[0] = 2;
            slot->check = check_of(kept.sequence, slot->image, kept.length);
        }
        steps_left = UINT32_MAX;
        start();
        if (ram.slot == newer || next_call() == LENGTH(calls)) {
            printf("the newer slot is read, though word %" PRIu32 " of it is damaged\n", k);
            exit(1);
        }
        go_on();
        compare("the newer slot damaged at word", k);
    }
}

int main(int argc, char **argv)
{
    FILE *file = argc == 2 ? fopen(argv[1], "rb") : NULL;
    if (file == NULL) {
        fprintf(stderr, "usage: two_images RULE\n");
        return 2;
    }
    rule_length = fread(rule, 1, sizeof rule, file);
    fclose(file);

    begin_anew();
    run(UINT32_MAX, 0);
    whole = acted;
    whole_words = words;
    whole_points = points;
    whole_length = slots[ram.slot].length;
    memcpy(whole_image, slots[ram.slot].image, whole_length * sizeof *whole_image);

    lose_power();
    damage();
    printf("power lost at each of %" PRIu32 " words and %" PRIu32 " points, %" PRIu32 " times in all: the reports are the same\n",
        whole_words, whole_points, losses);
    return 0;
}
