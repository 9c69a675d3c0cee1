/* Counts one call of `months::days_before`, the calendar's read. It is the code that is shipped: the function is none of the interface, so
   bench/run links a copy of the archive in which its symbol has a name that C can call. Each call is counted by itself, from its first
   instruction to its return with all that it calls; what surrounds it is counted around a function that only returns, and taken off. */
#include "frame.h"

enum { LIMIT = 70, MONTHS = 120000 };
/* the ends that bench/run tells apart */
enum { WITHIN = 0, OVER = 10, WRONG = 11, NO_COUNTER = 12 };

uint64_t months_days_before(uint32_t month);
uint64_t only_return(uint32_t month);
__asm__(".text\nonly_return: ret\n");

/* the fewest of three tries: an interrupt may add to the processor's own counts */
__attribute__((noinline)) static uint64_t around(uint64_t (*call)(uint32_t), uint32_t month)
{
    uint64_t least = UINT64_MAX;
    for (int k = 0; k < 3; k++) {
        uint64_t before = counts().n[INSTRUCTIONS];
        sink = (int64_t)call(month);
        uint64_t took = counts().n[INSTRUCTIONS] - before;
        least = took < least ? took : least;
    }
    return least;
}

int main(void)
{
    open_counters();
    if (!counts().n[INSTRUCTIONS])
        return NO_COUNTER;
    uint64_t most = 0, surroundings = around(only_return, 0) - 1;
    for (uint32_t m = 0; m < MONTHS; m++) {
        uint64_t took = around(months_days_before, m) - surroundings;
        most = took > most ? took : most;
        /* a cycle later, since the frame's own arithmetic wants years past 0 */
        if (sink != days_from_2000((int)(m / 12) + 400, (int)(m % 12) + 1, 1) + 730485 - 146097)
            return WRONG;
    }
    printf("Mundreff\tmonths::days_before\tat most %llu instructions a call, over the months of the years 0 to 9999; %d are allowed\n", (unsigned long long)most, LIMIT);
    return most > LIMIT ? OVER : WITHIN;
}
