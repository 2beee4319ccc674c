/*
 * Dohlenwerk from C: a TIME as a date, a date as a TIME, what to do with a refusal, the first two by a second calendar,
 * Unix seconds, intervals, and what an archive of revision 1.0 of the time paper has otherwise.
 *
 *     make lib
 *     cc -std=c11 -Iinclude examples/c/calendar.c target/lib/libdohlenwerk.a -o calendar
 */
#include <inttypes.h>
#include <stdint.h>
#include <stdio.h>

#include "dohlenwerk.h"

static const char *const weekdays[] = {"Sunday", "Monday", "Tuesday", "Wednesday", "Thursday", "Friday", "Saturday"};

/* A refused call hands over its number and nothing else: look at it before anything beside it. */
static const char *reason(uint32_t refusal)
{
    switch (refusal) {
    case 14:
        return "the fields are ill formed";
    case 15:
        return "the TIME is negative, or the result is not expressible";
    case 22:
        return "the revision is neither 10 nor 12";
    default:
        return "no refusal of these calls";
    }
}

/* TIME to fields. */
static void print_date(int64_t time)
{
    dohlenwerk_fields_answer answer = dohlenwerk_time_to_fields(DOHLENWERK_REVISION_1_2, time);
    if (answer.refusal != 0) {
        printf("%" PRId64 " has no date: %s\n", time, reason(answer.refusal));
        return;
    }
    dohlenwerk_time_fields f = answer.fields;
    printf("%" PRId64 " is %s %d-%02d-%02d %02d:%02d:%02d.%03d\n", time, weekdays[f.weekday], f.year, f.month, f.day,
           f.hour, f.minute, f.second, f.milliseconds);
}

/* Fields to TIME, by a revision of the time paper. */
static void print_time_by(uint32_t revision, dohlenwerk_time_fields f)
{
    printf("%d-%02d-%02d %02d:%02d:%02d ", f.year, f.month, f.day, f.hour, f.minute, f.second);
    dohlenwerk_time_answer answer = dohlenwerk_fields_to_time(revision, f);
    if (answer.refusal != 0) {
        printf("is refused with %" PRIu32 ": %s\n", answer.refusal, reason(answer.refusal));
        return;
    }
    printf("is %" PRId64 "\n", answer.time);
}

static void print_time(dohlenwerk_time_fields f)
{
    print_time_by(DOHLENWERK_REVISION_1_2, f);
}

/* TIME to fields and back by the calendar that looks years up in a table: its answers are those of the calls above. */
static void print_by_table(int64_t time)
{
    dohlenwerk_fields_answer answer = dohlenwerk_time_to_fields_by_table(DOHLENWERK_REVISION_1_2, time);
    if (answer.refusal != 0) {
        printf("by table, %" PRId64 " has no date: %s\n", time, reason(answer.refusal));
        return;
    }
    dohlenwerk_time_fields f = answer.fields;
    /* Fields of a TIME are never refused. */
    dohlenwerk_time_answer back = dohlenwerk_fields_to_time_by_table(DOHLENWERK_REVISION_1_2, f);
    printf("by table, %" PRId64 " is %s %d-%02d-%02d, and leads back to %" PRId64 "\n", time, weekdays[f.weekday], f.year,
           f.month, f.day, back.time);
}

/* TIME to Unix seconds, rounded down. They are 32 bits: a TIME before 1970, or from 2106-02-07 06:28:16 on, has none. */
static void print_unix_seconds(int64_t time)
{
    dohlenwerk_seconds_answer answer = dohlenwerk_time_to_seconds_since_1970(time);
    if (answer.refusal != 0) {
        printf("%" PRId64 " has no Unix seconds: %s\n", time, reason(answer.refusal));
        return;
    }
    printf("%" PRId64 " is Unix second %" PRIu32 "\n", time, answer.seconds);
}

/* Whether a TIME is absolute, by a revision of the time paper. */
static void print_kind_by(uint32_t revision, int64_t time)
{
    dohlenwerk_absolute_answer answer = dohlenwerk_is_absolute(revision, time);
    if (answer.refusal != 0) {
        printf("%" PRId64 " is refused with %" PRIu32 ": %s\n", time, answer.refusal, reason(answer.refusal));
        return;
    }
    printf("%" PRId64 " is %s\n", time, answer.absolute ? "absolute" : "an interval");
}

static void print_kind(int64_t time)
{
    print_kind_by(DOHLENWERK_REVISION_1_2, time);
}

int main(void)
{
    print_date(122648657102450000);
    print_date(-1);

    /* The weekday is ignored on the way in, so it can be left out, like any field that is zero. */
    print_time((dohlenwerk_time_fields){.year = 1969, .month = 7, .day = 20, .hour = 20, .minute = 17, .second = 40});
    print_time((dohlenwerk_time_fields){.year = 1900, .month = 2, .day = 29});

    /* A leap second is taken at 23:59 on the last day of a month, and is the next day's first second. */
    print_time((dohlenwerk_time_fields){.year = 2016, .month = 12, .day = 31, .hour = 23, .minute = 59, .second = 60});

    /* The last millisecond of 2000, with which the table ends, and the first of 2001, with which it starts again. */
    print_by_table(126227807999990000);
    print_by_table(126227808000000000);
    print_by_table(-1);

    /* Every 32-bit number of Unix seconds has a TIME, so this call is never refused. */
    int64_t time = dohlenwerk_seconds_since_1970_to_time(1234567890);
    print_date(time);
    print_unix_seconds(time);
    print_unix_seconds(116444735999999999);

    /* A TIME above zero is a moment. Zero and below are intervals: -36000000000 ticks are an hour. */
    print_kind(time);
    print_kind(0);
    print_kind(-36000000000);

    /* Archives of the first boxes follow revision 1.0: no second 60, and TIME 0 is a moment. All else is the same. */
    printf("by revision 1.0:\n");
    print_time_by(DOHLENWERK_REVISION_1_0, (dohlenwerk_time_fields){.year = 2016, .month = 12, .day = 31, .hour = 23,
                                                                    .minute = 59, .second = 59});
    print_time_by(DOHLENWERK_REVISION_1_0, (dohlenwerk_time_fields){.year = 2016, .month = 12, .day = 31, .hour = 23,
                                                                    .minute = 59, .second = 60});
    print_kind_by(DOHLENWERK_REVISION_1_0, 0);
    print_kind_by(DOHLENWERK_REVISION_1_0, -36000000000);

    /* There was a revision 1.1, too, and it is not offered. */
    printf("by revision 1.1:\n");
    print_kind_by(11, 0);
    return 0;
}
