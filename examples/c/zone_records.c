/*
 * Dohlenwerk from C: a zone with two rules written as Outlook's definition and read back, names with a character of two units, and records of
 * the registry, one with switches a millisecond before midnight.
 *
 *     make lib
 *     cc -std=c11 -Iinclude examples/c/zone_records.c target/lib/libdohlenwerk.a -o zone_records
 */
#include <inttypes.h>
#include <stdint.h>
#include <stdio.h>

#include "dohlenwerk.h"

/* "Hall" in UTF-16, as a definition holds its name. */
static const uint8_t name[] = {'H', 0, 'a', 0, 'l', 0, 'l', 0};

/* Central European time: daylight time from the last Sunday of March, 02:00, to the last Sunday of October, 03:00. */
static dohlenwerk_rule central_europe(uint16_t year, bool active)
{
    dohlenwerk_rule rule = {
        .year = year,
        .active = active,
        .bias = -60,
        .daylight_bias = -60,
        .standard_date = {.month = 10, .weekday = 0, .day = 5, .hour = 3},
        .daylight_date = {.month = 3, .weekday = 0, .day = 5, .hour = 2},
    };
    return rule;
}

static void print_rule(dohlenwerk_rule rule)
{
    printf("  from %d on%s: bias %" PRId32 ", in daylight time %" PRId32 ", switches in months %d and %d\n", rule.year,
           rule.active ? ", active" : "", rule.bias, rule.bias + rule.daylight_bias, rule.daylight_date.month,
           rule.standard_date.month);
}

/* Written, and read back into a row with room to spare. */
static void print_definition(void)
{
    dohlenwerk_rule rules[] = {central_europe(0, false), central_europe(1996, true)};
    uint8_t bytes[512];
    dohlenwerk_length_answer written = dohlenwerk_write_definition(name, sizeof name, rules, 2, bytes, sizeof bytes);
    printf("a definition of two rules has %zu bytes (refusal %" PRIu32 ")\n", written.length, written.refusal);

    dohlenwerk_rule row[8] = {0}; /* a lent rule's `active` is true or false, also before it is filled */
    dohlenwerk_count_answer read = dohlenwerk_read_definition(bytes, written.length, row, 8);
    printf("it is read as %zu rules (refusal %" PRIu32 ")\n", read.count, read.refusal);
    for (size_t i = 0; i < read.count; i++)
        print_rule(row[i]);

    dohlenwerk_part part = dohlenwerk_definition_name(bytes, written.length);
    printf("its name has %zu bytes from place %zu on: ", part.length, part.at);
    for (size_t i = 0; i < part.length; i += 2)
        putchar(bytes[part.at + i]);
    putchar('\n');

    printf("without its last byte it is refused with %" PRIu32 "\n",
           dohlenwerk_read_definition(bytes, written.length - 1, row, 8).refusal);
    printf("for a row with one place it is refused with %" PRIu32 "\n",
           dohlenwerk_read_definition(bytes, written.length, row, 1).refusal);
}

/* "Hall" and a factory (U+1F3ED), a character outside the first plane: a high surrogate, D83C, and a low one, DFED. */
static const uint8_t factory[] = {'H', 0, 'a', 0, 'l', 0, 'l', 0, 0x3C, 0xD8, 0xED, 0xDF};

/* A definition with this name, written, and read back; then with the last unit of the name changed in its bytes. */
static void print_name(const char *what, size_t name_length)
{
    dohlenwerk_rule rule = central_europe(0, true);
    uint8_t bytes[512];
    dohlenwerk_length_answer written = dohlenwerk_write_definition(factory, name_length, &rule, 1, bytes, sizeof bytes);
    if (written.refusal != 0) {
        printf("a name that ends with %s is refused with %" PRIu32 "\n", what, written.refusal);
        return;
    }
    dohlenwerk_part part = dohlenwerk_definition_name(bytes, written.length);
    printf("a name that ends with %s is written, and read back with %zu bytes\n", what, part.length);

    bytes[part.at + part.length - 2] = 'A';
    bytes[part.at + part.length - 1] = 0;
    dohlenwerk_rule row[1] = {0};
    dohlenwerk_count_answer read = dohlenwerk_read_definition(bytes, written.length, row, 1);
    part = dohlenwerk_definition_name(bytes, written.length);
    printf("with an A for its low half it is refused with %" PRIu32 ", and its name has %zu bytes\n", read.refusal, part.length);
}

/* The registry has one rule, and no year of it. */
static void print_registry(int32_t bias)
{
    dohlenwerk_rule rule = {.bias = bias};
    uint8_t bytes[44];
    dohlenwerk_length_answer written = dohlenwerk_write_registry(rule, bytes, sizeof bytes);
    if (written.refusal != 0) {
        printf("a registry record of bias %" PRId32 " is refused with %" PRIu32 "\n", bias, written.refusal);
        return;
    }
    dohlenwerk_rule_answer read = dohlenwerk_read_registry(bytes, written.length);
    printf("a registry record of bias %" PRId32 " has %zu bytes, and is read as bias %" PRId32 "\n", bias, written.length,
           read.rule.bias);
}

/* A registry record of a zone that is put forward and back at the end of a Saturday, as the registry has it: at 23:59:59.999. */
static void print_late(uint16_t second, uint16_t millisecond)
{
    dohlenwerk_system_time at = {.weekday = 6, .hour = 23, .minute = 59, .second = second, .millisecond = millisecond};
    dohlenwerk_rule rule = {.bias = 240, .daylight_bias = -60, .standard_date = at, .daylight_date = at};
    rule.standard_date.month = 3;
    rule.standard_date.day = 4;
    rule.daylight_date.month = 10;
    rule.daylight_date.day = 1;

    uint8_t bytes[44];
    dohlenwerk_length_answer written = dohlenwerk_write_registry(rule, bytes, sizeof bytes);
    if (written.refusal != 0) {
        printf("a switch at 23:59, second %d and millisecond %d is refused with %" PRIu32 "\n", second, millisecond,
               written.refusal);
        return;
    }
    dohlenwerk_system_time read = dohlenwerk_read_registry(bytes, written.length).rule.daylight_date;
    printf("a switch at %02d:%02d:%02d.%03d is written and read\n", read.hour, read.minute, read.second, read.millisecond);
}

int main(void)
{
    print_definition();
    print_name("a factory", sizeof factory);
    print_name("half a factory", sizeof factory - 2);
    print_registry(1440);
    print_registry(1441);
    print_late(59, 999);
    print_late(60, 0);
    print_late(59, 1000);
    return 0;
}
