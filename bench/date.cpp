// Howard Hinnant's date library, which knows leap seconds by its UTC and TAI clocks. It has no Julian pair of doubles.
#include "frame.h"
#include <date/tz.h>
#include <sstream>
#include <string>

using namespace date;
using std::chrono::duration_cast;
using std::chrono::hours;
using std::chrono::microseconds;
using std::chrono::minutes;
using std::chrono::seconds;
using Utc = utc_time<microseconds>;

// in place of the frame's `written`: the library gives strings
static std::string formatted[INPUTS];

// TAI microseconds from 2000-01-01 12:00:00; the library's TAI clock begins in 1958
static const int64_t EPOCH = (sys_days{year{2000} / 1 / 1} - sys_days{year{1958} / 1 / 1}) / seconds{1} * 1000000 + 43200000000;
static int64_t instant_of(Utc t) { return tai_clock::from_utc(t).time_since_epoch().count() - EPOCH; }
static Utc utc_of(int64_t instant) { return tai_clock::to_utc(tai_time<microseconds>{microseconds{instant + EPOCH}}); }

static void text_to_instant()
{
    EACH {
        std::istringstream in{texts[i]};
        Utc t;
        from_stream(in, "%FT%T", t);
        found[i] = instant_of(t);
    }
}

static void instant_to_text() { EACH formatted[i] = format("%FT%T", utc_of(instants[i])); }

static void fields_to_instant()
{
    EACH {
        int *f = ::fields[i];
        auto day = sys_days{year{f[0]} / month{(unsigned)f[1]} / f[2]};
        found[i] = instant_of(utc_clock::from_sys(day + hours{f[3]} + minutes{f[4]} + seconds{f[5]} + microseconds{f[6]}));
    }
}

static void instant_to_fields()
{
    EACH {
        Utc t = utc_of(instants[i]);
        auto leap = get_leap_second_info(t);
        auto sys = sys_time<microseconds>{t.time_since_epoch() - leap.elapsed};
        auto day = floor<days>(sys);
        year_month_day date{day};
        hh_mm_ss<microseconds> time{sys - day};
        sink = (int)date.year() + (int)(unsigned)date.day() + time.seconds().count() + time.subseconds().count() + leap.is_leap_second;
    }
}

static int wrong_formatted()
{
    int wrong = 0;
    EACH wrong += formatted[i] != texts[i];
    return wrong;
}

int main()
{
    make_inputs();
    get_tzdb();
    measure("date", "text to instant", text_to_instant);
    differing("date", "text to instant", wrong_instants());
    measure("date", "instant to text, six digits", instant_to_text);
    differing("date", "instant to text, six digits", wrong_formatted());
    measure("date", "fields to instant", fields_to_instant);
    differing("date", "fields to instant", wrong_instants());
    measure("date", "instant to stamp", instant_to_fields);
    return 0;
}
