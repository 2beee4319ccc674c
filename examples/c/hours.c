/*
 * Dohlenwerk from C: hours run by weekday, over a week in which the clock goes forward, with a restart in the middle.
 *
 *     make lib
 *     cc -std=c11 -Iinclude examples/c/hours.c target/lib/libdohlenwerk.a -o hours
 */
#include <inttypes.h>
#include <stdint.h>
#include <stdio.h>
#include <stdlib.h>

#include "dohlenwerk.h"

/* Central European time as the registry has it: Bias, StandardBias, DaylightBias, StandardDate, DaylightDate. */
static const uint8_t zone_record[44] = {
    0xC4, 0xFF, 0xFF, 0xFF, 0, 0, 0, 0, 0xC4, 0xFF, 0xFF, 0xFF,
    0, 0, 10, 0, 0, 0, 5, 0, 3, 0, 0, 0, 0, 0, 0, 0, /* the last Sunday of October, 03:00 */
    0, 0, 3, 0, 0, 0, 5, 0, 2, 0, 0, 0, 0, 0, 0, 0,  /* the last Sunday of March, 02:00 */
};

/* A day of March 2023 and a time of it, in UTC. */
typedef struct {
    int16_t day, hour, minute;
} moment;

typedef struct {
    moment from, to;
} run;

static const run before_restart[] = {
    {{20, 5, 0}, {20, 13, 0}},
    {{21, 19, 30}, {22, 3, 15}}, /* over a local midnight */
    {{23, 5, 0}, {23, 16, 45}},
};

static const run after_restart[] = {
    {{24, 18, 0}, {25, 2, 30}},
    {{25, 12, 0}, {27, 4, 0}}, /* all of Sunday, which has 23 hours */
};

/* It starts before the end of the last run. */
static const run too_late = {{26, 0, 0}, {26, 1, 0}};

/* Stops the program at a refusal that there should not be. */
static void expect_answer(const char *what, uint32_t refusal)
{
    if (refusal == 0)
        return;
    fprintf(stderr, "%s is refused with %" PRIu32 "\n", what, refusal);
    exit(1);
}

static dohlenwerk_utc_tick tick(moment m)
{
    dohlenwerk_time_answer answer = dohlenwerk_fields_to_time(
        DOHLENWERK_REVISION_1_2,
        (dohlenwerk_time_fields){.year = 2023, .month = 3, .day = m.day, .hour = m.hour, .minute = m.minute});
    expect_answer("a date", answer.refusal);
    return (dohlenwerk_utc_tick){answer.time};
}

/* Books runs one after another. Each booking is given the tally that the one before handed back. */
static dohlenwerk_tally booked(dohlenwerk_tally tally, const dohlenwerk_rule *row, size_t count, const run *runs,
                               size_t length)
{
    for (size_t i = 0; i < length; i++) {
        dohlenwerk_tally_answer answer = dohlenwerk_book(tally, row, count, tick(runs[i].from), tick(runs[i].to));
        expect_answer("a run", answer.refusal);
        tally = answer.tally;
    }
    return tally;
}

/* What is left of a tally after a restart: 68 bytes, wherever they were kept. */
static dohlenwerk_tally restarted(dohlenwerk_tally tally)
{
    uint8_t file[68];
    dohlenwerk_length_answer saved = dohlenwerk_save_tally(tally, file, sizeof file);
    expect_answer("saving", saved.refusal);
    dohlenwerk_tally_answer read = dohlenwerk_read_tally(file, saved.length);
    expect_answer("reading", read.refusal);
    printf("saved in %zu bytes and read back\n", saved.length);
    return read.tally;
}

static void print_hours(const char *name, uint64_t ticks)
{
    uint64_t minutes = ticks / 600000000;
    printf("%-10s%5" PRIu64 ":%02" PRIu64 "\n", name, minutes / 60, minutes % 60);
}

static void print_tally(dohlenwerk_tally tally)
{
    static const char *const weekdays[7] = {"Sunday",   "Monday", "Tuesday", "Wednesday",
                                            "Thursday", "Friday", "Saturday"};
    uint64_t total = 0;
    for (int i = 0; i < 7; i++) {
        print_hours(weekdays[i], tally.totals[i]);
        total += tally.totals[i];
    }
    print_hours("total", total);
}

int main(void)
{
    /* A record of one rule is a row of one. */
    dohlenwerk_rule_answer zone = dohlenwerk_read_registry(zone_record, sizeof zone_record);
    expect_answer("the zone", zone.refusal);
    const dohlenwerk_rule *row = &zone.rule;

    dohlenwerk_tally tally = dohlenwerk_fresh_tally();
    tally = booked(tally, row, 1, before_restart, sizeof before_restart / sizeof *before_restart);
    tally = restarted(tally);
    tally = booked(tally, row, 1, after_restart, sizeof after_restart / sizeof *after_restart);

    /* Beside a refusal stands the tally as it was, so that it may be taken in any case. */
    dohlenwerk_tally_answer refused = dohlenwerk_book(tally, row, 1, tick(too_late.from), tick(too_late.to));
    tally = refused.tally;

    print_tally(tally);
    printf("a run out of order is refused with %" PRIu32 "\n", refused.refusal);

    /* A damaged record is refused, and the tally beside it does not hold: nobody starts from zero by mistake. */
    uint8_t damaged[68] = {0};
    dohlenwerk_tally_answer unread = dohlenwerk_read_tally(damaged, sizeof damaged);
    printf("a damaged record is refused with %" PRIu32 ", and what stands beside it %s\n", unread.refusal,
           dohlenwerk_tally_holds(unread.tally) ? "holds" : "does not hold");
    return 0;
}
