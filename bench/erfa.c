/* ERFA. It has no text and counts in pairs of doubles, so the text part is a few lines of C, and instants are split into days and back. */
#include "frame.h"
#include <erfa.h>
#include <math.h>

static double utc1[INPUTS], utc2[INPUTS];

static int64_t joined(double day, double part) { return (int64_t)llround(((day - 2451545.0) + part) * 86400e6); }

static void split(int64_t instant, double *day, double *part)
{
    int64_t days = instant / 86400000000 - (instant % 86400000000 < 0);
    *day = 2451545.0 + (double)days;
    *part = (double)(instant - days * 86400000000) / 86400e6;
}

static int64_t instant_of(int y, int mo, int d, int h, int mi, int s, int micro)
{
    double u1, u2, t1, t2;
    eraDtf2d("UTC", y, mo, d, h, mi, s + micro * 1e-6, &u1, &u2);
    eraUtctai(u1, u2, &t1, &t2);
    return joined(t1, t2);
}

static int two(const char *s) { return (s[0] - '0') * 10 + s[1] - '0'; }

static void text_to_instant(void)
{
    EACH {
        const char *s = texts[i];
        found[i] = instant_of(two(s) * 100 + two(s + 2), two(s + 5), two(s + 8), two(s + 11), two(s + 14), two(s + 17), two(s + 20) * 10000 + two(s + 22) * 100 + two(s + 24));
    }
}

static void fields_to_instant(void)
{
    EACH {
        int *f = fields[i];
        found[i] = instant_of(f[0], f[1], f[2], f[3], f[4], f[5], f[6]);
    }
}

static void to_fields(int64_t instant, int out[7])
{
    double t1, t2, u1, u2;
    split(instant, &t1, &t2);
    eraTaiutc(t1, t2, &u1, &u2);
    eraD2dtf("UTC", 6, u1, u2, &out[0], &out[1], &out[2], &out[3]);
}

static void instant_to_fields(void)
{
    int f[7];
    EACH {
        to_fields(instants[i], f);
        sink = f[0] + f[6];
    }
}

static void instant_to_text(void)
{
    int f[7];
    EACH {
        to_fields(instants[i], f);
        snprintf(written[i], sizeof *written, "%04d-%02d-%02dT%02d:%02d:%02d.%06d", f[0], f[1], f[2], f[3], f[4], f[5], f[6]);
    }
}

static void instant_to_pair(void)
{
    double t1, t2;
    EACH {
        split(instants[i], &t1, &t2);
        eraTaiutc(t1, t2, &utc1[i], &utc2[i]);
    }
}

static void pair_to_instant(void)
{
    double t1, t2;
    EACH {
        eraUtctai(midnights[i], fractions[i], &t1, &t2);
        found[i] = joined(t1, t2);
    }
}

/* ERFA's pair has the noon of the TAI day that it was handed for its first part, and its second is rounded more than once: the sums are
   compared, to 2^-52 of a day, twenty picoseconds */
static int wrong_pairs(void)
{
    int wrong = 0;
    EACH wrong += fabs(utc1[i] - midnights[i] + utc2[i] - fractions[i]) > 0x1p-52;
    return wrong;
}

int main(void)
{
    make_inputs();
    measure("ERFA", "text to instant", text_to_instant);
    differing("ERFA", "text to instant", wrong_instants());
    measure("ERFA", "instant to text, six digits", instant_to_text);
    differing("ERFA", "instant to text, six digits", wrong_texts());
    measure("ERFA", "fields to instant", fields_to_instant);
    differing("ERFA", "fields to instant", wrong_instants());
    measure("ERFA", "instant to stamp", instant_to_fields);
    measure("ERFA", "instant to Julian pair", instant_to_pair);
    differing("ERFA", "instant to Julian pair", wrong_pairs());
    measure("ERFA", "Julian pair to instant", pair_to_instant);
    differing("ERFA", "Julian pair to instant", wrong_instants());
    return 0;
}
