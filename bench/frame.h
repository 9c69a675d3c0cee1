/* The frame of all that is measured: one set of inputs with the answers they should give, one way of counting, one printout.
   measure(peer, call, work) runs `work`, which takes all inputs once, and prints a line: peer, call, then per input the instructions,
   divisions, memory accesses, cycles and nanoseconds (0 where this machine cannot tell); measure_bytes adds a line with the same by byte.
   Counts come from the emulator's plugin (count_plugin.c, whose file the variable COUNTS names) or, natively, from the processor's own
   counters. */
#ifndef FRAME_H
#define FRAME_H
#ifndef _GNU_SOURCE
#define _GNU_SOURCE
#endif
#include <fcntl.h>
#include <linux/perf_event.h>
#include <stdint.h>
#include <stdio.h>
#include <stdlib.h>
#include <string.h>
#include <sys/mman.h>
#include <sys/syscall.h>
#include <time.h>
#include <unistd.h>

enum { INPUTS = 1024, ROUNDS = 15 };
#define EACH for (int i = 0; i < INPUTS; i++)

/* UTC stamps of 1972 to 2035 with microseconds, none on a second 60; every sixteenth on a day with an added second */
static int fields[INPUTS][7];
static int on_leap_day[INPUTS];
static char texts[INPUTS][28];
/* what they should give: TAI microseconds from 2000-01-01 12:00:00, and the Julian pair, in which every UTC day counts its own length */
static int64_t instants[INPUTS];
static double midnights[INPUTS], fractions[INPUTS];
/* what a peer gave */
static int64_t found[INPUTS];
static char written[INPUTS][32];
/* keeps the compiler from leaving work out */
static volatile int64_t sink;

/* ---- inputs and expected answers, by arithmetic of its own */

/* the months from which TAI-UTC is one second more, January 1972 being 0, where it is 10; each is a January or a July */
enum { STEP_COUNT = 27 };
static const int STEPS[STEP_COUNT] = {6, 12, 24, 36, 48, 60, 72, 84, 96, 114, 126, 138, 162, 192, 216, 228, 246, 258, 270, 288, 306, 324, 408, 444, 486, 522, 540};

static inline int tai_less_utc(int year, int month)
{
    int offset = 10;
    for (int k = 0; k < STEP_COUNT; k++)
        offset += STEPS[k] <= 12 * (year - 1972) + month - 1;
    return offset;
}

static inline int64_t days_from_2000(int year, int month, int day)
{
    int y = year - (month <= 2), of_year = (153 * (month > 2 ? month - 3 : month + 9) + 2) / 5 + day - 1;
    return y / 400 * 146097LL + y % 400 * 365 + y % 400 / 4 - y % 400 / 100 + of_year - 730425;
}

static inline uint32_t random_below(uint32_t n)
{
    static uint64_t state = 88172645463325252ull;
    state ^= state << 13;
    state ^= state >> 7;
    state ^= state << 17;
    return (uint32_t)(state >> 11) % n;
}

/* the day before a step, 30 June or 31 December, which has an added second at its end */
static inline void set_leap_day(int *f, int step)
{
    f[0] = 1972 + (step - 1) / 12;
    f[1] = 1 + (step - 1) % 12;
    f[2] = f[1] == 6 ? 30 : 31;
}

static inline void make_inputs(void)
{
    static const int highest[7] = {64, 12, 28, 24, 60, 60, 1000000}, lowest[7] = {1972, 1, 1, 0, 0, 0, 0};
    EACH {
        int *f = fields[i];
        for (int k = 0; k < 7; k++)
            f[k] = lowest[k] + (int)random_below((uint32_t)highest[k]);
        on_leap_day[i] = i % 16 == 0;
        if (on_leap_day[i])
            set_leap_day(f, STEPS[STEP_COUNT - 1 - i / 16 % STEP_COUNT]);
        snprintf(texts[i], sizeof texts[i], "%04d-%02d-%02dT%02d:%02d:%02d.%06d", f[0], f[1], f[2], f[3], f[4], f[5], f[6]);
        int64_t days = days_from_2000(f[0], f[1], f[2]), micros = (f[3] * 3600LL + f[4] * 60 + f[5]) * 1000000 + f[6];
        instants[i] = days * 86400000000 - 43200000000 + micros + tai_less_utc(f[0], f[1]) * 1000000LL;
        midnights[i] = 2451544.5 + (double)days;
        fractions[i] = (double)micros / (on_leap_day[i] ? 86401000000.0 : 86400000000.0);
    }
}

/* ---- counting */

enum { INSTRUCTIONS, DIVISIONS, ACCESSES, CYCLES, COUNTERS };
typedef struct { uint64_t n[COUNTERS]; } Counts;
static volatile uint64_t *plugin;
static int hardware[2] = {-1, -1};

static inline void open_counters(void)
{
    const char *name = getenv("COUNTS");
    if (name) {
        int file = open(name, O_RDONLY);
        void *page = file < 0 ? MAP_FAILED : mmap(NULL, 4096, PROT_READ, MAP_SHARED, file, 0);
        if (page != MAP_FAILED)
            plugin = (volatile uint64_t *)page;
        return;
    }
    for (int i = 0; i < 2; i++) {
        struct perf_event_attr what;
        memset(&what, 0, sizeof what);
        what.type = PERF_TYPE_HARDWARE;
        what.size = sizeof what;
        what.exclude_kernel = what.exclude_hv = 1;
        what.config = i ? PERF_COUNT_HW_CPU_CYCLES : PERF_COUNT_HW_INSTRUCTIONS;
        hardware[i] = (int)syscall(SYS_perf_event_open, &what, 0, -1, -1, 0);
    }
}

static inline Counts counts(void)
{
    Counts c = {{0, 0, 0, 0}};
    static const int at[2] = {INSTRUCTIONS, CYCLES};
    if (plugin)
        for (int i = 0; i < CYCLES; i++)
            c.n[i] = plugin[i];
    else
        for (int i = 0; i < 2; i++)
            if (hardware[i] >= 0 && read(hardware[i], &c.n[at[i]], 8) != 8)
                c.n[at[i]] = 0;
    return c;
}

/* of this process alone, so that a busy machine disturbs less */
static inline double processor_ns(void)
{
    struct timespec t;
    clock_gettime(CLOCK_PROCESS_CPUTIME_ID, &t);
    return (double)t.tv_sec * 1e9 + (double)t.tv_nsec;
}

static inline int by_size(const void *a, const void *b)
{
    double x = *(const double *)a, y = *(const double *)b;
    return (x > y) - (x < y);
}

/* the median of the rounds; emulated time says nothing and is not taken */
static inline double median_ns(void (*work)(void))
{
    double took[ROUNDS], begin = processor_ns();
    work();
    int repeats = (int)(20e6 / (processor_ns() - begin + 1)) + 1;
    for (int r = 0; r < ROUNDS; r++) {
        begin = processor_ns();
        for (int k = 0; k < repeats; k++)
            work();
        took[r] = (processor_ns() - begin) / ((double)repeats * INPUTS);
    }
    qsort(took, ROUNDS, sizeof *took, by_size);
    return took[ROUNDS / 2];
}

static inline void no_work(void) {}

/* what one input takes */
typedef struct { double of[COUNTERS + 1]; } Row;

static inline Row taken(void (*work)(void))
{
    static int opened;
    Row row;
    if (!opened++)
        open_counters();
    counts();
    no_work();
    work();
    Counts a = counts();
    no_work();
    Counts b = counts();
    work();
    Counts c = counts();
    for (int k = 0; k < COUNTERS; k++)
        row.of[k] = ((double)(c.n[k] - b.n[k]) - (double)(b.n[k] - a.n[k])) / INPUTS;
    row.of[COUNTERS] = plugin ? 0.0 : median_ns(work);
    return row;
}

static inline void print_row(const char *peer, const char *call, Row row, size_t parts)
{
    printf("%s\t%s", peer, call);
    for (int k = 0; k <= COUNTERS; k++)
        printf("\t%.2f", row.of[k] / (double)parts);
    printf("\n");
    fflush(stdout);
}

static inline void measure_bytes(const char *peer, const char *call, void (*work)(void), size_t bytes)
{
    char name[96];
    Row row = taken(work);
    print_row(peer, call, row, 1);
    if (bytes > 1) {
        snprintf(name, sizeof name, "%s, each of %zu bytes", call, bytes);
        print_row(peer, name, row, bytes);
    }
}

static inline void measure(const char *peer, const char *call, void (*work)(void)) { measure_bytes(peer, call, work, 1); }

/* ---- answers that are not those expected */

static inline int wrong_instants(void)
{
    int wrong = 0;
    EACH wrong += found[i] != instants[i];
    return wrong;
}

static inline int wrong_texts(void)
{
    int wrong = 0;
    EACH wrong += memcmp(written[i], texts[i], 26) != 0;
    return wrong;
}

/* says how many of the inputs a peer answers otherwise than expected */
static inline void differing(const char *peer, const char *call, int count)
{
    if (count)
        printf("%s\t%s\tdiffers on %d of %d inputs\n", peer, call, count, INPUTS);
}
#endif
