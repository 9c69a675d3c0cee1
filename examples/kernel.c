/* Loads the leap-seconds kernel that is named on the command line, or comes on standard input: says how many entries it has and which is the
   last, and writes it back. A kernel does not say how long it is good for: where the last month that it is vouched for is named behind it, as
   2026-12, it also says whether today lies beyond. Where it is refused, says why and at which byte, and ends with status 1. */
#include <inttypes.h>
#include <stdio.h>
#include <time.h>
#include "mundreff.h"

/* The first 65,536 bytes of a file are read, and one byte more tells that it is longer. */
static uint8_t file[65537];

static size_t load(FILE *from)
{
    size_t size = 0, more;
    while ((more = fread(file + size, 1, sizeof file - size, from)) > 0)
        size += more;
    return size;
}

/* `vouched` for a month's name; for what is none a number that no table takes */
static uint32_t vouched_month(const char *name)
{
    uint32_t year, month;
    char more;
    if (sscanf(name, "%4" SCNu32 "-%2" SCNu32 "%c", &year, &month, &more) != 2 || year < 1972 || month < 1 || month > 12)
        return UINT32_MAX;
    return MUNDREFF_VOUCHED(year, month);
}

/* says whether the day of this computer's clock lies beyond the month, or that the month is refused */
static int tell_today(const mundreff_table *table)
{
    time_t now = time(NULL);
    const struct tm *day = gmtime(&now);
    mundreff_stamp today = {MUNDREFF_UTC, (uint32_t)day->tm_year + 1900, (uint32_t)day->tm_mon + 1, (uint32_t)day->tm_mday, 0, 0, 0, 0};
    int64_t instant;
    uint32_t marks, no = mundreff_instant_of(table, &today, &instant, &marks);
    if (no != MUNDREFF_OK)
        printf("refused %s%s\n", mundreff_refusal_name(no), no == MUNDREFF_TABLE ? ": vouched for is a month from the last entry's to 9999-12, written as 2026-12" : "");
    else if (marks & MUNDREFF_BEYOND)
        printf("warning: today lies beyond the month that it is vouched for; get a newer one before you rely on it\n");
    else
        printf("it is vouched for today\n");
    return no == MUNDREFF_OK;
}

/* says what the kernel has, or why there is no table */
static int read_table(size_t size, mundreff_table *table)
{
    uint64_t place;
    uint32_t no = mundreff_read_kernel(file, size, &place, table);
    if (no == MUNDREFF_KERNEL)
        printf("refused KERNEL at byte %" PRIu64 "\n", place);
    else if (no != MUNDREFF_OK)
        printf("refused %s: the pairs are no leap table\n", mundreff_refusal_name(no));
    else {
        uint32_t month = table->months[table->count - 1];
        printf("%" PRIu32 " entries, the last %" PRIu32 "-%02" PRIu32 " with TAI-UTC %" PRId32 " s\n", table->count, 1972 + month / 12, 1 + month % 12, table->offsets[table->count - 1]);
    }
    return no == MUNDREFF_OK;
}

int main(int count, char **words)
{
    uint8_t kernel[MUNDREFF_KERNEL_ROOM];
    FILE *from = count > 1 ? fopen(words[1], "rb") : stdin;
    mundreff_table table;
    size_t length;
    if (!from) {
        perror(words[1]);
        return 2;
    }
    size_t size = load(from);
    if (ferror(from)) {
        perror(count > 1 ? words[1] : "standard input");
        return 2;
    }
    if (!read_table(size, &table))
        return 1;
    if (count > 2) {
        table.vouched = vouched_month(words[2]);
        if (!tell_today(&table))
            return 1;
    }
    if (mundreff_write_kernel(&table, kernel, sizeof kernel, &length) != MUNDREFF_OK)
        return 1;
    fwrite(kernel, 1, length, stdout);
    return 0;
}
