/* Mundreff: stamps to instants and back, leap tables, Julian dates and the plain clock, for C99 and C++.
   Link with target/staticlib/libmundreff.a (x86-64 Linux), which tools/build-archive makes, or, behind `tools/install PREFIX`, with what
   `pkg-config --cflags --libs mundreff` says; it needs nothing but the C library.

   Threads. The library keeps no state and allocates nothing: any number of threads may call at a time, each with outputs of its own. A table
   may be shared while nobody writes to it.

   Every call returns the number of the refusal, MUNDREFF_OK (0) on success, and writes every output on every call: on a refusal they are
   all zero (a reader of tables and a move of a block also give the place). A lent byte buffer is written on success only, and past the
   reported length never, but for the final zero of mundreff_write_string.
   Where several things are wrong, the first in the call's list decides. A dropped number is warned of, see MUNDREFF_CHECKED.

   Pointers. A buffer of no bytes may be NULL (with size or room 0); every other pointer must be valid, and none is tested. An output, marks
   too, lies apart from the other outputs, from the table and from every input, whole or in part, with one exception: the two labels of
   mundreff_tick may be one. So a block, a kernel or cards that lie in a mundreff_table are not read into that table, a table's own bytes are
   not written over while it is read, and a block is not moved within its own buffer. Inputs may overlap. What overlaps otherwise is not
   answered for. */
#ifndef MUNDREFF_H
#define MUNDREFF_H

#include <stddef.h>
#include <stdint.h>
#include <string.h>

/* tools/build-shared and tools/install take it from here. */
#define MUNDREFF_VERSION "0.5"

/* Before each call that can be refused: the compiler warns where its number is not looked at. */
#if (defined(__cplusplus) && __cplusplus >= 201703L) || (defined(__STDC_VERSION__) && __STDC_VERSION__ >= 202311L)
#define MUNDREFF_CHECKED [[nodiscard]]
#elif defined(__GNUC__)
#define MUNDREFF_CHECKED __attribute__((warn_unused_result))
#else
#define MUNDREFF_CHECKED
#endif

#ifdef __cplusplus
extern "C" {
#endif

/* The numbers of the refusals. */
enum {
    MUNDREFF_OK = 0,
    MUNDREFF_ROOM = 1,     /* the result is longer than the lent buffer */
    MUNDREFF_SHAPE = 2,    /* the text has none of the pictures */
    MUNDREFF_YEAR = 3,     /* the year is before 1972 or past 9999 */
    MUNDREFF_DATE = 4,     /* month, day or day of year is zero or too large */
    MUNDREFF_CLOCK = 5,    /* hour over 23, minute over 59, second over 60 (59 on a uniform scale), microsecond over 999,999 */
    MUNDREFF_NOSECOND = 6, /* a UTC second that the table does not admit */
    MUNDREFF_RANGE = 7,    /* the instant or Julian day has no label on this scale; a tick after the end of 9999; a card for an entry after 2049 */
    MUNDREFF_ASK = 8,      /* unknown scale, picture or digit number */
    MUNDREFF_CUT = 9,      /* the block ends before a number of it does */
    MUNDREFF_GROUPS = 10,  /* a number of the block is too long, or not in its shortest form */
    MUNDREFF_TABLE = 11,   /* the table, given or read, is not as described (its vouched month too), or the block's first number, count, gap or month is out of range */
    MUNDREFF_TAIL = 12,    /* a byte after the block's last entry */
    MUNDREFF_NUMBER = 13,  /* the midnight is not a whole number and a half, or the fraction is not at least 0 and below 1 */
    MUNDREFF_KERNEL = 14,  /* the file is no leap-seconds kernel, or is longer than 65,536 bytes */
    MUNDREFF_CARD = 15     /* a line is no card, or its date is out of order */
};

/* The scales. All but UTC are uniform: TDT (now TT) is TAI + 32.184 s, GPS is TAI - 19 s, also before 1980. Each scale has the labels from
   1972-01-01 00:00:00 to the end of 9999 on its own clock, so near both ends an instant may have a label on one scale and RANGE on another. */
enum { MUNDREFF_UTC = 0, MUNDREFF_TAI = 1, MUNDREFF_TDT = 2, MUNDREFF_GPS = 3 };

/* The pictures of a text; a point and one to six digits may follow. Exactly these widths, month names and T in upper case, no zone letter,
   nothing before or after: anything else is SHAPE, a year of five digits too. */
enum {
    MUNDREFF_MONTH_NUMBER = 0, /* 1987-04-12T16:31:12 */
    MUNDREFF_DAY_OF_YEAR = 1,  /* 1987-102T16:31:12 */
    MUNDREFF_MONTH_NAME = 2    /* 1986 APR 12 16:31:09 */
};

/* Bytes that are always enough: the longest text has 27, in picture 2 with six digits, and 28 with its final zero as a string, the longest
   old block of a table 138, the longest new one, with its month in three bytes, 142, the longest kernel 2,362 and the most cards, 64 of 81
   bytes, 5,184. Add one to a kernel's or to that of cards for a final zero of your own. */
enum {
    MUNDREFF_TEXT_ROOM = 27,
    MUNDREFF_STRING_ROOM = 28,
    MUNDREFF_BLOCK_ROOM = 138,
    MUNDREFF_NEW_BLOCK_ROOM = 142,
    MUNDREFF_KERNEL_ROOM = 2362,
    MUNDREFF_CARDS_ROOM = 5184
};

/* 1 to 64 entries, each the month (January 1972 is 0) from whose first day TAI-UTC is that offset in seconds. The first is month 0 with 10,
   months rise and end at 96,335 (December 9999) at the latest, offsets go up or down by 1, unused places are zero. Every call checks it.
   The last offset holds to the end of 9999, announced or not. A month's number is 12 * (year - 1972) + month - 1.
   `vouched` says how long the table is good for: the last month that it is vouched for, plus one, or 0 where none is given. Which month, is for
   whoever hands out the table to say; MUNDREFF_VOUCHED, below, makes the number. A month that is given lies from the last entry's to 96,335, else
   TABLE. A table read from a new block has the month of that block. Those read from old blocks, kernels and cards and Bulletin C's own have none
   given and mark nothing: set `table.vouched` yourself, each time that you load one.
   Older programs: the eight calls with `marks` need that one argument more, and what fills in a table field by field sets `vouched` as well, to 0
   for none. Rebuild every file: an object file compiled with the older header still links, and then writes outside its table and through a
   stray pointer. */
typedef struct {
    uint32_t count;
    uint32_t months[64];
    int32_t offsets[64];
    uint32_t vouched;
} mundreff_table;

/* The number for `vouched` of a year from 1972 and a month from 1 to 12: table.vouched = MUNDREFF_VOUCHED(2026, 12) is 660, December 2026. */
#define MUNDREFF_VOUCHED(year, month) (12 * ((uint32_t)(year) - 1972) + (uint32_t)(month))

/* The marks beside an answer, each a bit; more may come, so test one with &: if (marks & MUNDREFF_BEYOND). On every refusal they are 0.
   A call writes them each time, so the pointer may not be NULL, even where you do not look at them.
   BEYOND: the answer used UTC, and its UTC month is later than the last that the table is vouched for. It is given all the same, and it is right
   if no leap second is announced that the table lacks; but nobody has vouched for that. Get a newer table before you rely on it.
   The month is that of the label read, written or shown, for a Julian date that of the instant's label, for a tick that of the new label.
   A 23:59:60 in a month beyond is refused with NOSECOND and has no mark: before you call the stamp wrong, look for a newer table.
   A month is vouched for to its end, the length of its last day too: every Julian pair of that day depends on whether a second is added behind it.
   Where that is not announced yet, and Julian dates are read or written on UTC, vouch for the month before.
   BEYOND is never set on the uniform scales. Where no month is given it is not set either, and says nothing. */
enum { MUNDREFF_BEYOND = 1 };

/* A reading of a clock with its scale. */
typedef struct {
    uint32_t scale;
    uint32_t year;
    uint32_t month;
    uint32_t day;
    uint32_t hour;
    uint32_t minute;
    uint32_t second;
    uint32_t microsecond;
} mundreff_stamp;

/* A second of UTC, for the plain clock. */
typedef struct {
    uint32_t year;
    uint32_t month;
    uint32_t day;
    uint32_t hour;
    uint32_t minute;
    uint32_t second;
} mundreff_label;

/* An instant is the TAI microseconds from 2000-01-01 12:00:00 TAI. */

/* The table of IERS Bulletin C: 28 entries, the last January 2017 with 37, and no month given.
   Never refused. */
uint32_t mundreff_bulletin_c(mundreff_table *table);

/* Reads an old block into a table. It is the count of entries, then for each entry after the first twice the months since the entry before
   it, plus 1 where the offset goes down. Each number is in groups of seven bits, lowest group first, a group to a byte, the top bit set where
   more follow: at most three bytes, the shortest form. 03 0C 0C: three entries, two steps of six months, each up.
   On a refusal `place` is that of the first byte of the number at fault, for TAIL of the first byte too many; where a number is missing
   altogether it is `size`, so do not read block[place] unchecked. On success it is 0.
   Refusals: CUT, GROUPS, TABLE and TAIL, whichever comes first from the left. */
MUNDREFF_CHECKED uint32_t mundreff_read_block(const uint8_t *block, size_t size, size_t *place, mundreff_table *table);

/* Writes a table as an old block, and gives its length. A vouched month is judged and not written: what reads back has none given.
   Refusals: TABLE, ROOM. */
MUNDREFF_CHECKED uint32_t mundreff_write_block(const mundreff_table *table, uint8_t *out, size_t room, size_t *length);

/* Reads a new block, which says how long it holds, into a table. It is the number 0, then `vouched` as a table has it, the month plus one or 0
   for none given, then the old block; numbers have the form above. 00 0D 03 0C 0C: the old block above, vouched for up to January 1973.
   A program that reads old blocks only answers a new one with TABLE at 0, and so does this call an old one.
   `place` is as above, counted from the new block's first byte. TABLE is at 0 for another first number, and at 1 for both faults of the month.
   Refusals: CUT, GROUPS, TABLE (also for a month number above 96,336) and TAIL, whichever comes first from the left; then TABLE for a month
   before the last entry's. */
MUNDREFF_CHECKED uint32_t mundreff_read_new_block(const uint8_t *block, size_t size, size_t *place, mundreff_table *table);

/* Writes a table as a new block, with its vouched month, and gives its length.
   Refusals: TABLE, ROOM. */
MUNDREFF_CHECKED uint32_t mundreff_write_new_block(const mundreff_table *table, uint8_t *out, size_t room, size_t *length);

/* Moves an old block into a new one with this `vouched`, a number of MUNDREFF_VOUCHED or 0 for none given, and gives its length. What the new
   block has behind its month are the bytes of the old one, so moved back it is the same again.
   On a refusal `place` is that of the block's fault. It is 0 for a month that its table cannot carry, one before the last entry's or past
   96,335, and for ROOM; with TABLE at 0, then, the fault is the block's count (0 where it is a new block) or the month.
   Refusals: as for mundreff_read_block; then TABLE for the month; then ROOM. */
MUNDREFF_CHECKED uint32_t mundreff_renew(const uint8_t *block, size_t size, uint32_t vouched, uint8_t *out, size_t room, size_t *place, size_t *length);

/* Moves a new block into an old one, for those who read old ones only, and gives its length. A month that is given is lost, and nothing else:
   keep the new block, or its month, where you need it.
   On a refusal `place` is that of the block's fault, and 0 for ROOM.
   Refusals: as for mundreff_read_new_block; then ROOM. */
MUNDREFF_CHECKED uint32_t mundreff_revert(const uint8_t *block, size_t size, uint8_t *out, size_t room, size_t *place, size_t *length);

/* Reads a leap-seconds text kernel into a table. Text, which may be anything, goes up to a line that has only `\begindata`; data follow, up to
   a line that has only `\begintext` or to the end, and so on. Data are assignments, NAME = ITEM or NAME = ( ITEM, ITEM .. ), also with +=; an
   item is a text in single quotes or a run of other bytes. They are passed over but for ours, which stands there once and with = only:
   DELTET/DELTA_AT = ( 10, @1972-JAN-1 .. ), pairs of TAI-UTC and the first day of the month from which it holds, oldest first. Letters of a
   month may be small, the day may be 01, a number may have a sign and zeros; commas and line ends are free between items.
   Any size is answered, but only the first 65,536 bytes are read: where they hold no fault and the file is longer, it is KERNEL at 65,536.
   With KERNEL `place` is that of the first byte with which no kernel can continue, but of a bad date (also one before 1972 or not the first of
   a month) that of its @, and of our name's second assignment that of the name; where the file ends too soon it is `size`, so do not read
   file[place] unchecked. With TABLE, also for over 64 pairs, and on success it is 0.
   Refusals: KERNEL, TABLE. */
MUNDREFF_CHECKED uint32_t mundreff_read_kernel(const uint8_t *file, size_t size, uint64_t *place, mundreff_table *table);

/* Writes a table as a kernel, from `\begindata` to `\begintext`, a pair to a line, with no final zero, and gives its length. A vouched
   month is judged and not written, as in an old block.
   Refusals: TABLE, ROOM. */
MUNDREFF_CHECKED uint32_t mundreff_write_kernel(const mundreff_table *table, uint8_t *out, size_t room, size_t *length);

/* Reads a file of 80-column TP cards into a table. A line ends with a line feed or with the file; one that is empty or all blanks, or begins
   with *, C or c, is passed over. Every other line is a card of exactly 80 bytes. Its columns, counted from 1:
       1       blank or 1
       2-16    TAI-UTC in seconds, whole by value: 23, 23. or +23.000
       17-31   UT1-UTC, and 32-46 its rate: each blank or a number, which is not used
       47-61   TDT-TAI, 32.184 by value
       62-76   the date from which it holds, yyddd000000.000: the first day of a month from 1972 on, by its day of the year; yy is 19yy from 50
               and 20yy up to 49
       79-80   TP; 77 and 78 are not looked at
   A number is a plain decimal: a sign or none, digits with one point or none, and blanks around. From card to card dates all rise or all fall.
   Hand in the whole file, of any size: cards have no end mark, so a part may be a shorter table, and is read as one. A carriage return is a
   byte like any other, so take them out of a file first.
   With CARD `place` is that of the first byte of the first line that is no card or whose date is out of order. With TABLE, also for over 64
   cards and for none, and on success it is 0.
   Refusals: CARD, TABLE. */
MUNDREFF_CHECKED uint32_t mundreff_read_cards(const uint8_t *file, size_t size, size_t *place, mundreff_table *table);

/* Writes a table as cards, oldest first, 81 bytes each with its line feed, with no final zero, and gives their length: Bulletin C has 28 cards
   and 2,268 bytes. A card cannot say a year after 2049: an entry there is RANGE. A vouched month is judged and not written, as in
   an old block.
   Refusals: TABLE, RANGE, ROOM. */
MUNDREFF_CHECKED uint32_t mundreff_write_cards(const mundreff_table *table, uint8_t *out, size_t room, size_t *length);

/* The instant of a stamp.
   Refusals: ASK, TABLE, YEAR, DATE, CLOCK, NOSECOND. */
MUNDREFF_CHECKED uint32_t mundreff_instant_of(const mundreff_table *table, const mundreff_stamp *stamp, int64_t *instant, uint32_t *marks);

/* The stamp of an instant on a scale.
   Refusals: ASK, TABLE, RANGE. */
MUNDREFF_CHECKED uint32_t mundreff_stamp_of(const mundreff_table *table, int64_t instant, uint32_t scale, mundreff_stamp *stamp, uint32_t *marks);

/* Reads a text in any picture, on a scale, as its instant and its stamp. `size` counts no final zero.
   Refusals: ASK, TABLE, SHAPE, YEAR, DATE, CLOCK, NOSECOND. */
MUNDREFF_CHECKED uint32_t mundreff_read_text(const mundreff_table *table, uint32_t scale, const char *text, size_t size, int64_t *instant, mundreff_stamp *stamp, uint32_t *marks);

/* Reads a string, which ends with a zero byte, as the call above reads a text: its size is strlen(text), so it may not be NULL.
   Refusals: as above. */
MUNDREFF_CHECKED static inline uint32_t mundreff_read_string(const mundreff_table *table, uint32_t scale, const char *text, int64_t *instant, mundreff_stamp *stamp, uint32_t *marks)
{
    return mundreff_read_text(table, scale, text, strlen(text), instant, stamp, marks);
}

/* Writes an instant in a picture with 0 to 6 digits after the point, cut and never rounded up, with no final zero, and gives the length.
   Note the order, picture and then scale: their numbers overlap, so a swap is not noticed.
   With 6 digits two texts of picture 0, or two of picture 1, written on one scale under one table, have one length and compare by memcmp exactly as their
   instants do, added seconds too; with fewer, as many in both, the earlier instant's text is never the greater. Picture 2 has names of months and does not sort.
   Refusals: ASK, TABLE, RANGE, ROOM. */
MUNDREFF_CHECKED uint32_t mundreff_write_text(const mundreff_table *table, int64_t instant, uint32_t picture, uint32_t scale, uint32_t digits, char *out, size_t room, size_t *length, uint32_t *marks);

/* Writes as the call above and puts a zero byte behind the text, for which `room` has one byte more; `length` does not count it.
   Refusals: as above, ROOM also where there is no place for the zero. */
MUNDREFF_CHECKED static inline uint32_t mundreff_write_string(const mundreff_table *table, int64_t instant, uint32_t picture, uint32_t scale, uint32_t digits, char *out, size_t room, size_t *length, uint32_t *marks)
{
    uint32_t no = mundreff_write_text(table, instant, picture, scale, digits, out, room > 0 ? room - 1 : 0, length, marks);
    if (no == MUNDREFF_OK)
        out[*length] = '\0';
    return no;
}

/* The two-part Julian date of an instant: a midnight that ends in .5, and how much of that day has gone by, the microsecond of the day divided
   by the day's microseconds. On the uniform scales a day has 86,400 seconds. On UTC it has as many as the table gives it, 86,399, 86,400 or
   86,401: these are the quasi-Julian dates of SOFA and ERFA. So 23:59:60.25 has its own day's midnight and a fraction just below 1, no two
   instants of a scale share a pair, and every one comes back exactly.
   Do not reckon with UTC pairs: fraction * 86400 is no number of seconds on a day with an added or a taken-out second, and the difference of two
   pairs is no duration across one; both are up to a second off. Read the pairs and subtract the instants. Do not add the two parts either: one
   double holds a Julian date to 20 microseconds only.
   Where ERFA, which has leap seconds of its own, has those of the table, the midnights are ERFA's to the last bit. The fractions are rounded once
   here and more often there, and may be one unit in the last place apart, some ten picoseconds (examples/against_erfa.c says where more).
   A pair belongs to the table that it was written under: one that lacks the step behind that day reads it up to a second off. So is read what
   version 0.2 or an older one wrote for such a day: they counted 86,400 seconds on every UTC day.
   Refusals: ASK, TABLE, RANGE. */
MUNDREFF_CHECKED uint32_t mundreff_write_julian(const mundreff_table *table, int64_t instant, uint32_t scale, double *midnight, double *fraction, uint32_t *marks);

/* The instant of a two-part Julian date. The fraction's exact value is taken to the nearest microsecond of that day, which on UTC has the length
   that the table gives it, a tie to the later. What rounds up to the day's whole length is the next midnight, on UTC behind an added second too,
   and at the end of 9999 RANGE. A fraction from 0 to below 1 never meets a second that the table lacks, so there is no NOSECOND here. Minus zero is
   read as zero.
   Refusals: ASK, TABLE, NUMBER, RANGE. */
MUNDREFF_CHECKED uint32_t mundreff_read_julian(const mundreff_table *table, uint32_t scale, double midnight, double fraction, int64_t *instant, uint32_t *marks);

/* The label at which the plain clock starts: 1972-01-01 00:00:00. It is never BEYOND: no month that can be given lies before it.
   Refusals: TABLE. */
MUNDREFF_CHECKED uint32_t mundreff_start(const mundreff_table *table, mundreff_label *label, uint32_t *marks);

/* A label becomes the one a tick after it; on a refusal it becomes all zero, like every output, so keep a copy where you need it.
   Refusals: TABLE, YEAR, DATE, CLOCK, NOSECOND, RANGE. */
MUNDREFF_CHECKED uint32_t mundreff_tick_in_place(const mundreff_table *table, mundreff_label *label, uint32_t *marks);

/* The label one tick after a label; `next` may be `label` itself. It is a copy and the call above.
   Refusals: as above. */
MUNDREFF_CHECKED static inline uint32_t mundreff_tick(const mundreff_table *table, const mundreff_label *label, mundreff_label *next, uint32_t *marks)
{
    *next = *label;
    return mundreff_tick_in_place(table, next, marks);
}

/* The name of a refusal, without MUNDREFF_; `UNKNOWN` for a number that is none. */
static inline const char *mundreff_refusal_name(uint32_t number)
{
    static const char *const names[] = {"OK", "ROOM", "SHAPE", "YEAR", "DATE", "CLOCK", "NOSECOND", "RANGE", "ASK", "CUT", "GROUPS", "TABLE", "TAIL", "NUMBER", "KERNEL", "CARD"};
    return number < sizeof names / sizeof *names ? names[number] : "UNKNOWN";
}

#ifdef __cplusplus
}
#endif

#endif
