/* A pass across the end of 2016, or the one whose rise and set stand on the command line: the true seconds between two UTC stamps, and what
   subtracting their labels would have said. It warns where the pass lies beyond the last month that the table is vouched for. */
#define _DEFAULT_SOURCE
#include <inttypes.h>
#include <stdio.h>
#include <time.h>
#include "mundreff.h"

/* the instant of a UTC text in microseconds, the text's stamp and its marks; 0 and a line on standard error where it is refused */
static int read_utc(const mundreff_table *table, const char *text, int64_t *instant, mundreff_stamp *stamp, uint32_t *marks)
{
    uint32_t no = mundreff_read_string(table, MUNDREFF_UTC, text, instant, stamp, marks);
    if (no != MUNDREFF_OK)
        fprintf(stderr, "%s: refused %s%s\n", text, mundreff_refusal_name(no), no == MUNDREFF_NOSECOND ? "; before you call the stamp wrong, look for a newer table" : "");
    return no == MUNDREFF_OK;
}

/* the second of a stamp's label as C's own calendar counts it, 86,400 to every day */
static int64_t label_second(const mundreff_stamp *s)
{
    struct tm label = {.tm_year = (int)s->year - 1900, .tm_mon = (int)s->month - 1, .tm_mday = (int)s->day, .tm_hour = (int)s->hour, .tm_min = (int)s->minute, .tm_sec = (int)s->second};
    return timegm(&label);
}

int main(int count, char **words)
{
    const char *rise = count == 3 ? words[1] : "2016-12-31T23:58:30", *set = count == 3 ? words[2] : "2017-01-01T00:01:30";
    mundreff_table table;
    int64_t from, to;
    mundreff_stamp at_rise, at_set;
    uint32_t rise_marks, set_marks;
    mundreff_bulletin_c(&table);
    /* say that the desk vouches for it up to December 2026; a newer table gets a later month */
    table.vouched = MUNDREFF_VOUCHED(2026, 12);
    if (!read_utc(&table, rise, &from, &at_rise, &rise_marks) || !read_utc(&table, set, &to, &at_set, &set_marks))
        return 1;
    printf("rise %s UTC\nset  %s UTC\n", rise, set);
    printf("the pass lasts %" PRId64 " s\n", (to - from) / 1000000);
    printf("the labels subtracted say %" PRId64 " s\n", label_second(&at_set) - label_second(&at_rise));
    if ((rise_marks | set_marks) & MUNDREFF_BEYOND) {
        uint32_t month = table.vouched - 1;
        printf("warning: the table is vouched for up to %" PRIu32 "-%02" PRIu32 " only; get a newer one before you rely on this\n", 1972 + month / 12, 1 + month % 12);
    }
    return 0;
}
