// The calendar calls by Howard Hinnant's date, behind the same boundary as ours.
// They take no second 60; on every other input they answer as ours do.

#include <cstdint>

#include <date/date.h>

#include "../include/dohlenwerk.h"

namespace {

using ticks = std::chrono::duration<std::int64_t, std::ratio<1, 10'000'000>>;

constexpr date::sys_days start{date::year{1601} / date::January / 1};

bool is_byte(std::int16_t number)
{
    return number >= 0 && number <= 255;
}

} // namespace

extern "C" dohlenwerk_fields_answer date_time_to_fields(std::int64_t time)
{
    if (time < 0)
        return {15, {}};
    const auto since = ticks{time};
    const auto days = date::floor<date::days>(since);
    const date::sys_days day = start + days;
    const date::year_month_day ymd{day};
    const date::hh_mm_ss clock{date::floor<std::chrono::milliseconds>(since - days)};
    return {0,
            {
                static_cast<std::int16_t>(static_cast<int>(ymd.year())),
                static_cast<std::int16_t>(static_cast<unsigned>(ymd.month())),
                static_cast<std::int16_t>(static_cast<unsigned>(ymd.day())),
                static_cast<std::int16_t>(clock.hours().count()),
                static_cast<std::int16_t>(clock.minutes().count()),
                static_cast<std::int16_t>(clock.seconds().count()),
                static_cast<std::int16_t>(clock.subseconds().count()),
                static_cast<std::int16_t>(date::weekday{day}.c_encoding()),
            }};
}

extern "C" dohlenwerk_time_answer date_fields_to_time(dohlenwerk_time_fields fields)
{
    // date keeps a month and a day in a byte, and checks no time of day.
    if (!is_byte(fields.month) || !is_byte(fields.day) || fields.hour < 0 || fields.hour > 23 || fields.minute < 0 ||
        fields.minute > 59 || fields.second < 0 || fields.second > 59 || fields.milliseconds < 0 ||
        fields.milliseconds > 999)
        return {14, 0};
    const date::year_month_day ymd{date::year{fields.year}, date::month(fields.month), date::day(fields.day)};
    if (fields.year < 1601 || !ymd.ok())
        return {14, 0};
    const auto clock = std::chrono::hours{fields.hour} + std::chrono::minutes{fields.minute} +
                       std::chrono::seconds{fields.second} + std::chrono::milliseconds{fields.milliseconds};
    // Unsigned, since the last years have more ticks than 63 bits.
    const auto days = static_cast<std::uint64_t>((date::sys_days{ymd} - start).count());
    const auto time = days * 864'000'000'000 + static_cast<std::uint64_t>(ticks{clock}.count());
    if (time > INT64_MAX)
        return {15, 0};
    return {0, static_cast<std::int64_t>(time)};
}
