/*
 * Dohlenwerk from C: a zone's registry record, a UTC tick as local time, and the UTC ticks of local times that come once, twice and never.
 *
 *     make lib
 *     cc -std=c11 -Iinclude examples/c/local_time.c target/lib/libdohlenwerk.a -o local_time
 */
#include <inttypes.h>
#include <stdint.h>
#include <stdio.h>
#include <stdlib.h>

#include "dohlenwerk.h"

/* Central European time as the registry has it: Bias, StandardBias, DaylightBias, StandardDate, DaylightDate. */
static const uint8_t record[44] = {
    0xC4, 0xFF, 0xFF, 0xFF, 0, 0, 0, 0, 0xC4, 0xFF, 0xFF, 0xFF,
    0, 0, 10, 0, 0, 0, 5, 0, 3, 0, 0, 0, 0, 0, 0, 0, /* the last Sunday of October, 03:00 */
    0, 0, 3, 0, 0, 0, 5, 0, 2, 0, 0, 0, 0, 0, 0, 0,  /* the last Sunday of March, 02:00 */
};

/* Stops the program at the first value that is not as it should be. */
static void expect(const char *what, int64_t value, int64_t expected)
{
    if (value == expected)
        return;
    fprintf(stderr, "%s is %" PRId64 " and should be %" PRId64 "\n", what, value, expected);
    exit(1);
}

/* The tick of a date and time of day, of UTC or of local time: the caller says which. */
static int64_t tick(int16_t year, int16_t month, int16_t day, int16_t hour, int16_t minute)
{
    dohlenwerk_time_answer answer = dohlenwerk_fields_to_time(
        DOHLENWERK_REVISION_1_2,
        (dohlenwerk_time_fields){.year = year, .month = month, .day = day, .hour = hour, .minute = minute});
    expect("the refusal of a date", answer.refusal, 0);
    return answer.time;
}

static void print_tick(const char *kind, int64_t ticks)
{
    dohlenwerk_time_fields f = dohlenwerk_time_to_fields(DOHLENWERK_REVISION_1_2, ticks).fields;
    printf("%s %d-%02d-%02d %02d:%02d", kind, f.year, f.month, f.day, f.hour, f.minute);
}

/* UTC to local. A UTC tick and a local tick have two types, so that neither can stand for the other by mistake. */
static void local_time(const dohlenwerk_rule *row, size_t count)
{
    dohlenwerk_utc_tick utc = {tick(2023, 7, 1, 22, 30)};
    dohlenwerk_local_answer answer = dohlenwerk_utc_to_local(row, count, utc);
    expect("the refusal", answer.refusal, 0);
    expect("the local tick", answer.local.ticks, 133327314000000000);

    print_tick("UTC", utc.ticks);
    print_tick(" is local", answer.local.ticks);
    dohlenwerk_time_fields f = dohlenwerk_time_to_fields(DOHLENWERK_REVISION_1_2, answer.local.ticks).fields;
    printf(", weekday %d\n", f.weekday);
    expect("the year", f.year, 2023);
    expect("the month", f.month, 7);
    expect("the day", f.day, 2);
    expect("the hour", f.hour, 0);
    expect("the minute", f.minute, 30);
    expect("the second", f.second, 0);
    expect("the weekday", f.weekday, 0);
}

/* Local to UTC: as many ticks as there are, earliest first. */
static dohlenwerk_utc_answer utc_ticks(const dohlenwerk_rule *row, size_t count, dohlenwerk_local_tick local)
{
    dohlenwerk_utc_answer answer = dohlenwerk_local_to_utc(row, count, local);
    expect("the refusal", answer.refusal, 0);
    print_tick("local", local.ticks);
    printf(", UTC ticks that show it: %" PRIu32 "\n", answer.count);
    dohlenwerk_utc_tick ticks[] = {answer.first, answer.second, answer.third, answer.fourth};
    for (uint32_t i = 0; i < answer.count; i++) {
        print_tick("  UTC", ticks[i].ticks);
        putchar('\n');
    }
    return answer;
}

static void expect_ticks(dohlenwerk_utc_answer answer, uint32_t count, int64_t first, int64_t second)
{
    expect("the count", answer.count, count);
    expect("the first UTC tick", answer.first.ticks, first);
    expect("the second UTC tick", answer.second.ticks, second);
    expect("the third UTC tick", answer.third.ticks, 0);
    expect("the fourth UTC tick", answer.fourth.ticks, 0);
}

int main(void)
{
    /* A record of one rule is a row of one. */
    dohlenwerk_rule_answer zone = dohlenwerk_read_registry(record, sizeof record);
    expect("the record's refusal", zone.refusal, 0);
    const dohlenwerk_rule *row = &zone.rule;

    local_time(row, 1);

    dohlenwerk_local_tick midsummer = {tick(2023, 6, 21, 12, 0)};
    expect_ticks(utc_ticks(row, 1, midsummer), 1, tick(2023, 6, 21, 10, 0), 0);

    /* In October the clock goes back from 03:00 to 02:00, and the hour comes twice. */
    dohlenwerk_local_tick repeated = {tick(2023, 10, 29, 2, 30)};
    expect_ticks(utc_ticks(row, 1, repeated), 2, tick(2023, 10, 29, 0, 30), tick(2023, 10, 29, 1, 30));

    /* In March it goes on from 02:00 to 03:00. That a time never comes is an answer and no refusal. */
    dohlenwerk_local_tick skipped = {tick(2023, 3, 26, 2, 30)};
    expect_ticks(utc_ticks(row, 1, skipped), 0, 0, 0);

    /* Refusals: a UTC tick before 1602, a negative local tick, and a row without rules. */
    dohlenwerk_local_answer early = dohlenwerk_utc_to_local(row, 1, (dohlenwerk_utc_tick){tick(1601, 12, 31, 23, 59)});
    dohlenwerk_utc_answer negative = dohlenwerk_local_to_utc(row, 1, (dohlenwerk_local_tick){-1});
    dohlenwerk_utc_answer no_rule = dohlenwerk_local_to_utc(row, 0, repeated);
    expect("the refusal of 1601", early.refusal, 15);
    expect("the refusal of a negative tick", negative.refusal, 15);
    expect("the refusal of no rule", no_rule.refusal, 6);
    printf("refused: 1601 with %" PRIu32 ", a negative tick with %" PRIu32 ", no rule with %" PRIu32 "\n",
           early.refusal, negative.refusal, no_rule.refusal);
    return 0;
}
