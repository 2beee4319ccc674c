/*
 * Dohlenwerk: Windows clock values, by calls whose every answer is proved.
 *
 * An answer that can be refused is a struct whose first field is `refusal`:
 * 0 where the call is answered, else the number of the refusal, and then
 * every other field is zero or false, with one exception: beside a refused
 * booking stands the tally as it was handed in. (Padding between fields holds
 * anything, so compare structs field by field.) Any number, any record, any
 * rule and any tally may be handed in. A refused call changes no byte of what
 * is lent to it; an answered one changes only what it says.
 *
 * Bytes and rows of rules are lent as a pointer and a length. The pointer is
 * valid for that length, and never null, not even for length 0; an output
 * overlaps no input.
 * Every rule handed in or lent, the places of a row to be filled included, has
 * an `active` of true or false: set a new row to zeros before it is lent.
 * The calls keep no state and may be made from any thread.
 *
 * Refusals of the calls below:
 *    1  a field, a name or a stated size runs past the bytes
 *    2  a record has another length, or a stated size is wrong
 *    3  a definition's major is not 2
 *    4  its flags are not 0x0002
 *    5  its name has more than 260 units of 16 bits
 *    6  it, or a row, has no rule, or more than 1,024
 *    7  bytes of a rule that must be zero are not
 *    8  a rule's year is above 30827, or not above that of the rule before
 *    9  a bias that counts is not -1,440 to 1,440 minutes
 *   10  a set date breaks its rule
 *   11  one date set, or two set dates with different years
 *   12  not exactly one rule is active, or a rule's two flags disagree
 *   13  the output or the row is too short
 *   14  the fields are ill formed
 *   15  the TIME or the local tick is negative, the UTC tick is outside the
 *       window, or the result is not expressible
 *   16  the UTC tick, or a run's start, lies before the first rule's year
 *   17  a run ends before it starts, or starts before the tally's end
 *   18  a saved record has another length or kind, or the tally does not hold
 *   20  a definition's name has half a character: a high surrogate that is not
 *       directly followed by a low one, or a low one that has no high one
 *       directly before it
 *   22  the revision number is neither 10 nor 12
 * There is no number 19.
 */
#ifndef DOHLENWERK_H
#define DOHLENWERK_H

#include <stdbool.h>
#include <stddef.h>
#include <stdint.h>

#ifdef __cplusplus
extern "C" {
#endif

/*
 * TIME is a signed count of ticks of 100 ns from 1601-01-01 00:00, a Monday,
 * in the Gregorian calendar.
 *
 * What a TIME means stands in the NT OS/2 Time Conversion Specification. Each
 * call between TIME and fields, and the question whether a TIME is absolute,
 * takes the number of the revision that it is to go by. By revision 1.0, which
 * archives of the first boxes follow, second 60 is ill formed and TIME 0 is
 * absolute; all else is the same. Any other number, 11 too, is refused with
 * 22, before every other check.
 */
enum {
    DOHLENWERK_REVISION_1_0 = 10,
    DOHLENWERK_REVISION_1_2 = 12
};

/* The fields of a TIME. Month and day count from 1, and Sunday is weekday 0. */
typedef struct dohlenwerk_time_fields {
    int16_t year;
    int16_t month;
    int16_t day;
    int16_t hour;
    int16_t minute;
    int16_t second;
    int16_t milliseconds;
    int16_t weekday;
} dohlenwerk_time_fields;

typedef struct dohlenwerk_absolute_answer {
    uint32_t refusal;
    bool absolute;
} dohlenwerk_absolute_answer;

typedef struct dohlenwerk_fields_answer {
    uint32_t refusal;
    dohlenwerk_time_fields fields;
} dohlenwerk_fields_answer;

typedef struct dohlenwerk_time_answer {
    uint32_t refusal;
    int64_t time;
} dohlenwerk_time_answer;

typedef struct dohlenwerk_seconds_answer {
    uint32_t refusal;
    uint32_t seconds;
} dohlenwerk_seconds_answer;

/*
 * Whether a TIME is absolute, that is above zero. Any other is an interval;
 * TIME 0 is one, and still has fields. By revision 1.0 TIME 0 is absolute.
 *   22  another revision
 */
dohlenwerk_absolute_answer dohlenwerk_is_absolute(uint32_t revision, int64_t time);

/*
 * The fields of a TIME. Parts under a millisecond are dropped, so that fields
 * to TIME gives the TIME rounded down to 10,000 ticks. Second 60 never comes up.
 * They are the same by both revisions.
 *   22  another revision
 *   15  the TIME is negative
 */
dohlenwerk_fields_answer dohlenwerk_time_to_fields(uint32_t revision, int64_t time);

/*
 * The TIME of fields, whose weekday is ignored. Fields are well formed if the
 * year is 1601 or later, the month 1 to 12, the day 1 to the last of that
 * month in that year, hour 0 to 23, minute 0 to 59, milliseconds 0 to 999, and
 * second 0 to 59, or 60 at 23:59 on the last day of a month. 23:59:60.mmm is
 * then the TIME of 00:00:00.mmm on the next day. By revision 1.0 no fields with
 * second 60 are well formed.
 *   22  another revision
 *   14  the fields are ill formed
 *   15  they are well formed, and later than the last TIME,
 *       9223372036854775807, which shows 30828-09-14 02:48:05.477
 */
dohlenwerk_time_answer dohlenwerk_fields_to_time(uint32_t revision, dohlenwerk_time_fields fields);

/*
 * The same two by a second calendar, for an auditor: it looks a year up in a
 * table of the 400 years of a cycle, each with its days before the year's
 * start. For every revision, every TIME and all fields its answers are those of
 * the two calls above, refusals included.
 */
dohlenwerk_fields_answer dohlenwerk_time_to_fields_by_table(uint32_t revision, int64_t time);
dohlenwerk_time_answer dohlenwerk_fields_to_time_by_table(uint32_t revision, dohlenwerk_time_fields fields);

/*
 * Whole seconds from the start of 1970, or of 1980, to a TIME, rounded down.
 *   15  the TIME is before that start (by a tick or by more), or 4294967296
 *       seconds or more after it
 */
dohlenwerk_seconds_answer dohlenwerk_time_to_seconds_since_1970(int64_t time);
dohlenwerk_seconds_answer dohlenwerk_time_to_seconds_since_1980(int64_t time);

/*
 * The TIME that is so many seconds after the start of 1970, or of 1980. Never
 * refused.
 */
int64_t dohlenwerk_seconds_since_1970_to_time(uint32_t seconds);
int64_t dohlenwerk_seconds_since_1980_to_time(uint32_t seconds);

/*
 * SYSTEMTIME as zone records have it, for the date on which a zone switches.
 * Month 0 means not set. Year 0 means every year: then `weekday` is 0 to 6 from
 * Sunday on, and `day` 1 to 5 says which one in the month, 5 meaning the last.
 * Another year, 1601 to 30827, means once, on that day of that month. The time of
 * day is local: hour 0 to 23, minute 0 to 59, second 0 to 59, never 60, and
 * millisecond 0 to 999. It is not rounded: a switch at 23:59:59.999 is at that
 * millisecond, and not at the next midnight.
 */
typedef struct dohlenwerk_system_time {
    uint16_t year;
    uint16_t month;
    uint16_t weekday;
    uint16_t day;
    uint16_t hour;
    uint16_t minute;
    uint16_t second;
    uint16_t millisecond;
} dohlenwerk_system_time;

/*
 * A rule of a time zone. Biases are minutes: UTC = local + bias. With dates
 * set, bias + standard_bias counts in standard time and bias + daylight_bias
 * in daylight time; with dates not set, bias alone.
 */
typedef struct dohlenwerk_rule {
    uint16_t year;
    bool active;
    int32_t bias;
    int32_t standard_bias;
    int32_t daylight_bias;
    dohlenwerk_system_time standard_date;
    dohlenwerk_system_time daylight_date;
} dohlenwerk_rule;

typedef struct dohlenwerk_rule_answer {
    uint32_t refusal;
    dohlenwerk_rule rule;
} dohlenwerk_rule_answer;

/* How many bytes were written, from the start of the output. */
typedef struct dohlenwerk_length_answer {
    uint32_t refusal;
    size_t length;
} dohlenwerk_length_answer;

/* A name of a remote desktop record: 64 bytes, kept as they are. */
typedef struct dohlenwerk_name {
    uint8_t bytes[64];
} dohlenwerk_name;

typedef struct dohlenwerk_remote_desktop_answer {
    uint32_t refusal;
    dohlenwerk_rule rule;
    dohlenwerk_name standard_name;
    dohlenwerk_name daylight_name;
} dohlenwerk_remote_desktop_answer;

/*
 * The registry's record of a time zone, 44 bytes, as a rule in normal form: a
 * date that is not set is all zero, and one with a year has weekday 0. The
 * rule is active and of year 0.
 *   2, 10, 11, 9, in this order
 */
dohlenwerk_rule_answer dohlenwerk_read_registry(const uint8_t *bytes, size_t length);

/*
 * Writes a rule as such a record, in normal form: 44 bytes. The rule's year is
 * checked and not written, and its mark is ignored.
 *   8, 10, 11, 9, 13, in this order
 */
dohlenwerk_length_answer dohlenwerk_write_registry(dohlenwerk_rule rule, uint8_t *out, size_t room);

/*
 * The remote desktop record of a time zone, 172 bytes: a rule as above, and
 * both names.
 *   2, 10, 11, 9, in this order
 */
dohlenwerk_remote_desktop_answer dohlenwerk_read_remote_desktop(const uint8_t *bytes, size_t length);

/*
 * Writes a rule and two names as such a record: 172 bytes.
 *   8, 10, 11, 9, 13, in this order
 */
dohlenwerk_length_answer dohlenwerk_write_remote_desktop(dohlenwerk_rule rule, dohlenwerk_name standard_name,
                                                         dohlenwerk_name daylight_name, uint8_t *out, size_t room);

/* How many rules were stored, from the start of the row. */
typedef struct dohlenwerk_count_answer {
    uint32_t refusal;
    size_t count;
} dohlenwerk_count_answer;

/* A part of the bytes that were handed in. */
typedef struct dohlenwerk_part {
    size_t at;
    size_t length;
} dohlenwerk_part;

/*
 * Outlook's TZDEFINITION, read into a row of rules: the rules of major 2 in
 * their order, in normal form. Later places of the row, and all of it beside a
 * refusal, stay as they were.
 *   field by field as the bytes come: 3, 4, 5, 20 for the name, 2, 6, and 1
 *   where the next field, the name or the stated size is not all there (a name
 *   that is not all there is 1, not 20); for each rule 1, then, unless
 *   it is of another major and skipped, 2, 7, 8, 10, 11, 9; then 12, 2 for
 *   bytes after the last rule of a definition of minor 1, and 13
 */
dohlenwerk_count_answer dohlenwerk_read_definition(const uint8_t *bytes, size_t length, dohlenwerk_rule *row, size_t room);

/*
 * Where the name of a definition stands, in UTF-16 as it came: at place 8. An
 * empty name, and bytes that reading refuses for any cause but 13, answer 0
 * and 0.
 */
dohlenwerk_part dohlenwerk_definition_name(const uint8_t *bytes, size_t length);

/*
 * Writes a name of at most 520 bytes, UTF-16 with the low byte of each unit
 * first, and 1 to 1,024 rules as a definition, in normal form. The years rise,
 * and exactly one rule is active.
 *   2 for a name of odd length, 5, 20, 6, for each rule 8, 10, 11, 9, then 12,
 *   13
 */
dohlenwerk_length_answer dohlenwerk_write_definition(const uint8_t *name, size_t name_length, const dohlenwerk_rule *row,
                                                     size_t count, uint8_t *out, size_t room);

/*
 * Ticks of 100 ns from 1601-01-01 00:00, of UTC and of a local clock. They are
 * two kinds of number, and only the two calls below lead from one to the other.
 * The `ticks` of either are a TIME, which has fields.
 */
typedef struct dohlenwerk_utc_tick {
    int64_t ticks;
} dohlenwerk_utc_tick;

typedef struct dohlenwerk_local_tick {
    int64_t ticks;
} dohlenwerk_local_tick;

typedef struct dohlenwerk_local_answer {
    uint32_t refusal;
    dohlenwerk_local_tick local;
} dohlenwerk_local_answer;

/* None to four ticks, earliest first. Those beyond the count are zero. */
typedef struct dohlenwerk_utc_answer {
    uint32_t refusal;
    uint32_t count;
    dohlenwerk_utc_tick first;
    dohlenwerk_utc_tick second;
    dohlenwerk_utc_tick third;
    dohlenwerk_utc_tick fourth;
} dohlenwerk_utc_answer;

/*
 * The local tick that a UTC tick shows: UTC less the bias in force. The bias is
 * that of the rule with the greatest year not after the tick's UTC year; which
 * rule is active plays no part. A single rule is a row of one.
 *   the row's: 6, for each rule 8, 10, 11, 9, then 12
 *   15  the tick is outside the window, from 1602-01-01 to before 30828-01-01
 *   16  the tick lies before the first rule's year
 */
dohlenwerk_local_answer dohlenwerk_utc_to_local(const dohlenwerk_rule *row, size_t count, dohlenwerk_utc_tick utc);

/*
 * All UTC ticks of the window that have a rule and show a local tick. Most have
 * one; a tick in the hour that a switch skips has none, and one in the hour
 * that comes twice has two. Where two rules meet at a new year there may be up
 * to four.
 *   the row's, as above
 *   15  the local tick is negative; 16 is never given
 */
dohlenwerk_utc_answer dohlenwerk_local_to_utc(const dohlenwerk_rule *row, size_t count, dohlenwerk_local_tick local);

/*
 * The time run by local weekday: seven totals in ticks, from Sunday on, and the
 * end of the last run. A tally holds if its end lies from the window's start,
 * 1602-01-01, to the window's end, 30828-01-01, both included, and its totals
 * add up to no more than the time from the window's start to the tally's end.
 */
typedef struct dohlenwerk_tally {
    dohlenwerk_utc_tick end;
    uint64_t totals[7];
} dohlenwerk_tally;

/*
 * Beside a refused booking stands the tally as it was handed in; beside a
 * refused reading all is zero, and that tally does not hold.
 */
typedef struct dohlenwerk_tally_answer {
    uint32_t refusal;
    dohlenwerk_tally tally;
} dohlenwerk_tally_answer;

/* The tally to begin with: no time run, and the window's start as its end. */
dohlenwerk_tally dohlenwerk_fresh_tally(void);

/* Whether a tally holds. */
bool dohlenwerk_tally_holds(dohlenwerk_tally tally);

/*
 * Books a run from one tick to before another: `to` becomes the tally's end,
 * and each total grows by the run's ticks of that local weekday. Book the runs
 * of one zone in their order; they may touch. An empty run only moves the end.
 *   the row's: 6, for each rule 8, 10, 11, 9, then 12
 *   18  the tally does not hold
 *   15  `from` or `to` is outside the window; either may be the window's end
 *   17  `to` is before `from`, or `from` before the tally's end
 *   16  `from` lies before the first rule's year
 */
dohlenwerk_tally_answer dohlenwerk_book(dohlenwerk_tally tally, const dohlenwerk_rule *row, size_t count,
                                        dohlenwerk_utc_tick from, dohlenwerk_utc_tick to);

/*
 * Writes a tally as its saved record: 68 bytes.
 *   18, 13, in this order
 */
dohlenwerk_length_answer dohlenwerk_save_tally(dohlenwerk_tally tally, uint8_t *out, size_t room);

/*
 * The tally of a saved record.
 *   18  the bytes are no such record, or the tally does not hold
 */
dohlenwerk_tally_answer dohlenwerk_read_tally(const uint8_t *bytes, size_t length);

/*
 * A call of a script: 0 books the run from one tick to before another, 1 saves
 * into the buffer, any other number reads the record in it. The ticks count in
 * a booking only.
 */
typedef struct dohlenwerk_script_call {
    uint32_t kind;
    dohlenwerk_utc_tick from;
    dohlenwerk_utc_tick to;
} dohlenwerk_script_call;

/*
 * Makes calls on a tally, one after the other, from a fresh tally on and in one
 * row, and gives the tally after them. A booking or a reading that is answered
 * puts its tally in place. A reading is of the 68 bytes that the last answered
 * saving wrote into the buffer, while no run was booked since, and else of no
 * bytes at all, which gives 18. The log gets a byte for each call: 0 where it
 * was answered, else its refusal's number. Calls that are refused change
 * nothing.
 *   13  the log is shorter than the calls; no call is made then, neither log nor
 *       buffer is written, and beside the number stands a tally that is zero
 */
dohlenwerk_tally_answer dohlenwerk_run_script(const dohlenwerk_rule *row, size_t rules,
                                              const dohlenwerk_script_call *calls, size_t count, uint8_t *buffer,
                                              size_t room, uint8_t *log, size_t length);

#ifdef __cplusplus
}
#endif

#endif
