/* Our UTC Julian dates beside ERFA's: every day with an added second in the table of Bulletin C, the days before and after it, and some others,
   at many times of day. It needs ERFA (Debian: liberfa-dev). It says where the two disagree, and ends with status 1.

   The midnight is ERFA's to the last bit. The fraction is ERFA's to the last bit but one: the same double or the one beside it, at every
   microsecond of every day. We divide the microsecond of the day by the day's length, and round that once. ERFA is handed the seconds of the
   minute as a double, adds the hours and minutes to them and divides, and each of the three is rounded; that comes to less than one and a half
   units in the last place, and ours to half a unit, so the two are less than two units apart. A unit is 2^-53 of a day at most, ten picoseconds.
   Of all times of day 72 in 100 have the same double, and of those of the last second 62.

   This is said of seconds that are the double nearest to the decimal number, as (seconds * 1e6 + microseconds) / 1e6 is, or what strtod reads.
   Seconds put together as seconds + microseconds * 1e-6 are rounded more often. That shows where hours and minutes are zero and the seconds few:
   in the first three seconds after midnight the fraction may then be two units away, as it is at some 1,570 microseconds of a day, nearly all of
   them in the first second. From 00:00:03 on it is one unit at most so too.

   ERFA's way from UTC to TAI gives our instant for our pair, and our reader gives it for ERFA's pair, to the microsecond. */
#include <erfa.h>
#include <inttypes.h>
#include <math.h>
#include <stdio.h>
#include <string.h>
#include "mundreff.h"

enum { RANDOM_TIMES = 1000, STEP_OF_SECONDS = 61 };
static const int64_t second = 1000000, day = 86400000000;

static mundreff_table table;
static int wrong;
static long asked, same;

/* units in the last place between two doubles that are not negative */
static int64_t units_apart(double a, double b)
{
    int64_t of_a, of_b;
    memcpy(&of_a, &a, sizeof a);
    memcpy(&of_b, &b, sizeof b);
    return of_a < of_b ? of_b - of_a : of_a - of_b;
}

/* it gives back whether it holds */
static int expect(const char *what, const mundreff_stamp *at, double seconds, int holds)
{
    if (!holds) {
        if (wrong < 20)
            printf("not as ERFA has it: %s of %04" PRIu32 "-%02" PRIu32 "-%02" PRIu32 "T%02" PRIu32 ":%02" PRIu32 ":%02" PRIu32 ".%06" PRIu32 ", seconds %.17g\n", what, at->year, at->month, at->day, at->hour, at->minute, at->second, at->microsecond, seconds);
        wrong++;
    }
    return holds;
}

/* the TAI instant of ERFA's two parts: the first is a whole number and a half, and the microseconds of the second are rounded alone */
static int64_t joined(double tai1, double tai2)
{
    return ((int64_t)(tai1 - 2451544.5)) * day - day / 2 + (int64_t)llround(tai2 * 86400e6);
}

/* ERFA calls a year that it has no announcement for dubious, with 1, and answers. */
static int answered(int status)
{
    return status == 0 || status == 1;
}

/* an instant and its pair by us */
typedef struct {
    int64_t instant;
    double midnight, fraction;
} moment;

/* ERFA's pair of the stamp whose seconds are this double beside ours, the fraction so many units away at most; and whether it is the same double */
static int compare_pairs(const mundreff_stamp *at, const moment *ours, double seconds, int64_t allowed)
{
    double midnight, fraction;
    int64_t back;
    uint32_t marks;
    if (!expect("its pair", at, seconds, answered(eraDtf2d("UTC", (int)at->year, (int)at->month, (int)at->day, (int)at->hour, (int)at->minute, seconds, &midnight, &fraction))))
        return 0;
    expect("the midnight", at, seconds, midnight == ours->midnight);
    expect("the fraction", at, seconds, units_apart(fraction, ours->fraction) <= allowed);
    expect("the instant of ERFA's pair", at, seconds, mundreff_read_julian(&table, MUNDREFF_UTC, midnight, fraction, &back, &marks) == MUNDREFF_OK && back == ours->instant);
    return fraction == ours->fraction;
}

static void compare(const mundreff_stamp *at)
{
    const double nearest = (at->second * 1e6 + at->microsecond) / 1e6, put_together = at->second + at->microsecond * 1e-6;
    const int64_t allowed = at->hour == 0 && at->minute == 0 && at->second < 3 ? 2 : 1;
    moment ours;
    double tai1, tai2;
    uint32_t marks;
    if (!expect("our pair", at, nearest, mundreff_instant_of(&table, at, &ours.instant, &marks) == MUNDREFF_OK && mundreff_write_julian(&table, ours.instant, MUNDREFF_UTC, &ours.midnight, &ours.fraction, &marks) == MUNDREFF_OK))
        return;
    asked++;
    same += compare_pairs(at, &ours, nearest, 1);
    compare_pairs(at, &ours, put_together, allowed);
    expect("TAI", at, nearest, answered(eraUtctai(ours.midnight, ours.fraction, &tai1, &tai2)) && joined(tai1, tai2) == ours.instant);
}

/* the stamp at a microsecond of a day; the 86,401st second is the 60th of the last minute */
static void compare_at(uint32_t year, uint32_t month, uint32_t date, int64_t microsecond)
{
    uint32_t whole = (uint32_t)(microsecond / second), minute = whole < 86400 ? whole / 60 : 1439;
    mundreff_stamp at = {MUNDREFF_UTC, year, month, date, minute / 60, minute % 60, whole - 60 * minute, (uint32_t)(microsecond % second)};
    compare(&at);
}

static uint64_t random_below(uint64_t n)
{
    static uint64_t state = 88172645463325252u;
    state ^= state << 13;
    state ^= state >> 7;
    state ^= state << 17;
    return (state >> 11) % n;
}

static void compare_day(uint32_t year, uint32_t month, uint32_t date, int64_t length)
{
    const int64_t ends[] = {0, 1, 2, 250000, 999999, 1000001, 2636410, 2999999, 3000000, 3000001, 59999999, 60000001};
    for (size_t k = 0; k < sizeof ends / sizeof *ends; k++) {
        compare_at(year, month, date, ends[k]);
        compare_at(year, month, date, length - 1 - ends[k]);
    }
    for (int64_t whole = 0; whole < length / second; whole += STEP_OF_SECONDS)
        compare_at(year, month, date, whole * second);
    for (int k = 0; k < RANDOM_TIMES; k++) {
        compare_at(year, month, date, (int64_t)random_below((uint64_t)length));
        compare_at(year, month, date, length - 1 - (int64_t)random_below(2000000));
        compare_at(year, month, date, (int64_t)random_below(4000000));
    }
}

int main(void)
{
    const uint32_t others[][3] = {{1972, 1, 1}, {1976, 2, 29}, {1980, 6, 30}, {1986, 4, 12}, {1999, 12, 31}, {2000, 1, 1}, {2000, 2, 29}, {2016, 6, 30}, {2017, 12, 31}, {2024, 2, 29}, {2026, 12, 31}, {2100, 2, 28}, {9999, 12, 31}};
    const size_t count_of_others = sizeof others / sizeof *others;
    mundreff_bulletin_c(&table);
    /* each entry is a January or a July, whose eve has the added second */
    for (uint32_t k = 1; k < table.count; k++) {
        uint32_t year = 1972 + table.months[k] / 12, january = table.months[k] % 12 == 0;
        uint32_t eve_year = january ? year - 1 : year, eve_month = january ? 12 : 6, eve = january ? 31 : 30;
        compare_day(eve_year, eve_month, eve - 1, day);
        compare_day(eve_year, eve_month, eve, day + second);
        compare_day(year, january ? 1 : 7, 1, day);
    }
    for (size_t k = 0; k < count_of_others; k++)
        compare_day(others[k][0], others[k][1], others[k][2], day);
    if (!wrong)
        printf("UTC Julian dates are ERFA's on %zu days: %ld pairs, of which %ld to the last bit and the others to the last but one\n", 3 * ((size_t)table.count - 1) + count_of_others, asked, same);
    return wrong != 0;
}
