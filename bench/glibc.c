/* The C library with a zone of the family right/, whose counts have leap seconds: whole seconds only, so microseconds go beside them. */
#include "frame.h"

/* a count of right/UTC is TAI from 1970-01-01 00:00:10 */
static int64_t instant_of(struct tm *label, int micro)
{
    label->tm_isdst = 0;
    return ((int64_t)mktime(label) + 10 - 946728000) * 1000000 + micro;
}

static struct tm label_of(int64_t instant, int *micro)
{
    int64_t second = instant / 1000000 - (instant % 1000000 < 0);
    time_t t = (time_t)(second + 946728000 - 10);
    struct tm label;
    *micro = (int)(instant - second * 1000000);
    localtime_r(&t, &label);
    return label;
}

static void text_to_instant(void)
{
    EACH {
        struct tm label;
        memset(&label, 0, sizeof label);
        const char *point = strptime(texts[i], "%Y-%m-%dT%H:%M:%S", &label);
        found[i] = instant_of(&label, point ? atoi(point + 1) : 0);
    }
}

static void instant_to_text(void)
{
    int micro;
    EACH {
        struct tm label = label_of(instants[i], &micro);
        size_t n = strftime(written[i], sizeof *written, "%Y-%m-%dT%H:%M:%S", &label);
        snprintf(written[i] + n, sizeof *written - n, ".%06d", micro);
    }
}

static void fields_to_instant(void)
{
    EACH {
        int *f = fields[i];
        struct tm label = {.tm_year = f[0] - 1900, .tm_mon = f[1] - 1, .tm_mday = f[2], .tm_hour = f[3], .tm_min = f[4], .tm_sec = f[5]};
        found[i] = instant_of(&label, f[6]);
    }
}

static void instant_to_fields(void)
{
    int micro;
    EACH {
        struct tm label = label_of(instants[i], &micro);
        sink = label.tm_year + label.tm_sec + micro;
    }
}

int main(void)
{
    make_inputs();
    setenv("TZ", "right/UTC", 1);
    tzset();
    measure("right/UTC", "text to instant", text_to_instant);
    differing("right/UTC", "text to instant", wrong_instants());
    measure("right/UTC", "instant to text, six digits", instant_to_text);
    differing("right/UTC", "instant to text, six digits", wrong_texts());
    measure("right/UTC", "fields to instant", fields_to_instant);
    differing("right/UTC", "fields to instant", wrong_instants());
    measure("right/UTC", "instant to stamp", instant_to_fields);
    return 0;
}
