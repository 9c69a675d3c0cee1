/* Each call of the header, once with an answer and once refused (mundreff_bulletin_c is never refused); blocks moved there and back; texts with
   a final zero, and in order; Julian dates of UTC days of each length, a tick in place, buffers of no bytes, the month that a table is vouched
   for with the marks of each call, the lengths that are always enough and the names of the refusals. It is C and C++. It says where an answer
   is another than the header's, and ends with status 1. */
#include <stdio.h>
#include <string.h>
#include "mundreff.h"

static int wrong;

static void expect(const char *what, int holds)
{
    if (!holds) {
        printf("not as the header says: %s\n", what);
        wrong = 1;
    }
}

/* two values of a type, byte by byte; and what a refusal leaves */
#define SAME(a, b) (sizeof(a) == sizeof(b) && memcmp(&(a), &(b), sizeof(a)) == 0)
static mundreff_table no_table;
static mundreff_stamp no_stamp;
static mundreff_label no_label;

/* what stood in an output before the call */
#define USED(a) memset(&(a), 0xa5, sizeof(a))

static mundreff_table table;

/* where a call stores its marks; another number stands there before it */
static uint32_t marks;
static uint32_t *marked(void)
{
    USED(marks);
    return &marks;
}

/* 2016-12-31T23:59:60 UTC */
static const int64_t added = 536500836000000;
static const mundreff_stamp added_stamp = {MUNDREFF_UTC, 2016, 12, 31, 23, 59, 60, 0};
static const mundreff_label added_label = {2016, 12, 31, 23, 59, 60};

static void tables(void)
{
    uint8_t block[64], before[64];
    size_t length = 9, place = 9;
    mundreff_table read;
    USED(table);
    expect("bulletin_c", mundreff_bulletin_c(&table) == MUNDREFF_OK && table.count == 28 && table.months[27] == 540 && table.offsets[27] == 37 && table.months[28] == 0 && table.offsets[63] == 0 && table.vouched == 0);
    USED(block);
    USED(before);
    expect("write_block refused", mundreff_write_block(&table, block, 28, &length) == MUNDREFF_ROOM && length == 0 && SAME(block, before));
    expect("write_block", mundreff_write_block(&table, block, sizeof block, &length) == MUNDREFF_OK && length == 29 && block[0] == 0x1c && block[28] == 0x24 && memcmp(block + 29, before, 35) == 0);
    USED(read);
    expect("read_block", mundreff_read_block(block, 29, &place, &read) == MUNDREFF_OK && place == 0 && SAME(read, table));
    expect("read_block refused", mundreff_read_block(block, 28, &place, &read) == MUNDREFF_CUT && place == 28 && SAME(read, no_table));
}

/* 10 s from January, 11 s from July 1972 and 12 s from January 1973 on, which is also the month of the new block */
static const uint8_t old_block[] = {0x03, 0x0c, 0x0c}, new_block[] = {0x00, 0x0d, 0x03, 0x0c, 0x0c};
enum { JANUARY_1973 = MUNDREFF_VOUCHED(1973, 1) };

static void new_blocks(void)
{
    uint8_t block[64], before[64];
    size_t length = 9, place = 9;
    mundreff_table read;
    USED(read);
    expect("read_new_block", mundreff_read_new_block(new_block, sizeof new_block, &place, &read) == MUNDREFF_OK && place == 0 && read.count == 3 && read.months[2] == 12 && read.offsets[2] == 12 && read.months[3] == 0 && read.offsets[63] == 0 && read.vouched == JANUARY_1973);
    USED(block);
    USED(before);
    expect("write_new_block refused", mundreff_write_new_block(&read, block, sizeof new_block - 1, &length) == MUNDREFF_ROOM && length == 0 && SAME(block, before));
    expect("write_new_block", mundreff_write_new_block(&read, block, sizeof block, &length) == MUNDREFF_OK && length == sizeof new_block && memcmp(block, new_block, length) == 0 && memcmp(block + length, before, sizeof block - length) == 0);
    read.vouched = 0;
    expect("without a month", mundreff_write_new_block(&read, block, sizeof block, &length) == MUNDREFF_OK && length == sizeof new_block && block[0] == 0 && block[1] == 0 && memcmp(block + 2, old_block, sizeof old_block) == 0);
    expect("read_block of a new one", mundreff_read_block(new_block, sizeof new_block, &place, &read) == MUNDREFF_TABLE && place == 0 && SAME(read, no_table));
}

/* What is no new block: the first number is missing, too long or another; the month is missing, not in its shortest form, past 96,335 or
   before the last entry, where a byte too many comes first; the old block is missing, or cut. A move says what reading says. */
static const struct {
    uint8_t bytes[6];
    size_t size;
    uint32_t no;
    size_t place;
} bad_blocks[] = {
    {{0}, 0, MUNDREFF_CUT, 0},
    {{0x80, 0x00}, 2, MUNDREFF_GROUPS, 0},
    {{0x03, 0x0c, 0x0c}, 3, MUNDREFF_TABLE, 0},
    {{0x00}, 1, MUNDREFF_CUT, 1},
    {{0x00, 0x8d, 0x00, 0x03, 0x0c, 0x0c}, 6, MUNDREFF_GROUPS, 1},
    {{0x00, 0xf1, 0xf0, 0x05, 0x01}, 5, MUNDREFF_TABLE, 1},
    {{0x00, 0x0c, 0x03, 0x0c, 0x0c}, 5, MUNDREFF_TABLE, 1},
    {{0x00, 0x0c, 0x03, 0x0c, 0x0c, 0x00}, 6, MUNDREFF_TAIL, 5},
    {{0x00, 0x00}, 2, MUNDREFF_CUT, 2},
    {{0x00, 0x0d, 0x03, 0x0c}, 4, MUNDREFF_CUT, 4},
};

static void bad_new_blocks(void)
{
    uint8_t moved[64], before[64];
    USED(moved);
    USED(before);
    for (size_t k = 0; k < sizeof bad_blocks / sizeof *bad_blocks; k++) {
        size_t length = 9, place = 9;
        mundreff_table read;
        USED(read);
        uint32_t no = mundreff_read_new_block(bad_blocks[k].bytes, bad_blocks[k].size, &place, &read);
        expect("read_new_block refused", no == bad_blocks[k].no && place == bad_blocks[k].place && SAME(read, no_table));
        place = 9;
        no = mundreff_revert(bad_blocks[k].bytes, bad_blocks[k].size, moved, sizeof moved, &place, &length);
        expect("and revert of it", no == bad_blocks[k].no && place == bad_blocks[k].place && length == 0 && SAME(moved, before));
    }
}

static void moves(void)
{
    uint8_t moved[64], before[64];
    size_t length = 9, place = 9;
    USED(moved);
    USED(before);
    expect("renew refused", mundreff_renew(old_block, sizeof old_block, JANUARY_1973, moved, sizeof new_block - 1, &place, &length) == MUNDREFF_ROOM && place == 0 && length == 0 && SAME(moved, before));
    place = length = 9;
    expect("a month that the block cannot carry", mundreff_renew(old_block, sizeof old_block, JANUARY_1973 - 1, NULL, 0, &place, &length) == MUNDREFF_TABLE && place == 0 && length == 0);
    place = length = 9;
    expect("a month past the end", mundreff_renew(old_block, sizeof old_block, 96337, moved, sizeof moved, &place, &length) == MUNDREFF_TABLE && place == 0 && length == 0 && SAME(moved, before));
    length = 9;
    expect("the block's fault comes before it", mundreff_renew(old_block, 2, 96337, moved, sizeof moved, &place, &length) == MUNDREFF_CUT && place == 2 && length == 0 && SAME(moved, before));
    expect("renew of a new block", mundreff_renew(new_block, sizeof new_block, 0, moved, sizeof moved, &place, &length) == MUNDREFF_TABLE && place == 0 && length == 0 && SAME(moved, before));
    place = 9;
    expect("renew", mundreff_renew(old_block, sizeof old_block, JANUARY_1973, moved, sizeof moved, &place, &length) == MUNDREFF_OK && place == 0 && length == sizeof new_block && memcmp(moved, new_block, length) == 0 && memcmp(moved + length, before, sizeof moved - length) == 0);
    USED(moved);
    place = length = 9;
    expect("revert refused", mundreff_revert(new_block, sizeof new_block, moved, sizeof old_block - 1, &place, &length) == MUNDREFF_ROOM && place == 0 && length == 0 && SAME(moved, before));
    place = 9;
    expect("revert", mundreff_revert(new_block, sizeof new_block, moved, sizeof moved, &place, &length) == MUNDREFF_OK && place == 0 && length == sizeof old_block && memcmp(moved, old_block, length) == 0 && memcmp(moved + length, before, sizeof moved - length) == 0);
}

/* Bulletin C's block with no month, January 2017 and December 9999, whose number has one, two and three bytes; and back to the same bytes */
static void there_and_back(void)
{
    const uint32_t months[] = {0, MUNDREFF_VOUCHED(2017, 1), MUNDREFF_VOUCHED(9999, 12)};
    const uint8_t openings[][4] = {{0x00, 0x00}, {0x00, 0x9d, 0x04}, {0x00, 0xd0, 0xf0, 0x05}};
    uint8_t block[MUNDREFF_BLOCK_ROOM], moved[MUNDREFF_NEW_BLOCK_ROOM], back[MUNDREFF_BLOCK_ROOM];
    size_t size = 9, length = 9, place = 9;
    expect("Bulletin C's block", mundreff_write_block(&table, block, sizeof block, &size) == MUNDREFF_OK && size == 29);
    for (size_t k = 0; k < 3; k++) {
        const size_t opening = 2 + k;
        mundreff_table read;
        expect("moved there", mundreff_renew(block, size, months[k], moved, sizeof moved, &place, &length) == MUNDREFF_OK && length == opening + size && memcmp(moved, openings[k], opening) == 0 && memcmp(moved + opening, block, size) == 0);
        expect("with its month", mundreff_read_new_block(moved, length, &place, &read) == MUNDREFF_OK && read.count == 28 && read.vouched == months[k]);
        expect("and back", mundreff_revert(moved, length, back, sizeof back, &place, &length) == MUNDREFF_OK && length == size && memcmp(back, block, size) == 0);
    }
}

static const char small_kernel[] = "\\begindata\nDELTET/DELTA_AT = ( 10, @1972-JAN-1\n                    11, @1972-JUL-1 )\n\\begintext\n";

static void kernels(void)
{
    const size_t size = sizeof small_kernel - 1;
    uint8_t kernel[128], before[128];
    const uint8_t *small = (const uint8_t *)small_kernel;
    size_t length = 9;
    uint64_t place = 9;
    mundreff_table read;
    USED(read);
    expect("read_kernel", mundreff_read_kernel(small, size, &place, &read) == MUNDREFF_OK && place == 0 && read.count == 2 && read.months[1] == 6 && read.offsets[1] == 11 && read.months[2] == 0 && read.offsets[63] == 0 && read.vouched == 0);
    USED(kernel);
    USED(before);
    expect("write_kernel refused", mundreff_write_kernel(&read, kernel, size - 1, &length) == MUNDREFF_ROOM && length == 0 && SAME(kernel, before));
    expect("write_kernel", mundreff_write_kernel(&read, kernel, sizeof kernel, &length) == MUNDREFF_OK && length == size && memcmp(kernel, small, size) == 0 && memcmp(kernel + size, before, sizeof kernel - size) == 0);
    expect("read_kernel refused", mundreff_read_kernel(small, 20, &place, &read) == MUNDREFF_KERNEL && place == 20 && SAME(read, no_table));
    kernel[31] = '2';
    expect("a table that is none", mundreff_read_kernel(kernel, length, &place, &read) == MUNDREFF_TABLE && place == 0 && SAME(read, no_table));
    expect("write_kernel of it", mundreff_write_kernel(&read, kernel, sizeof kernel, &length) == MUNDREFF_TABLE && length == 0);
}

/* 10 s from January and 11 s from July 1972 on, as they are written */
static const char small_cards[] =
    "            10.0                                      32.184 72001000000.000  TP\n"
    "            11.0                                      32.184 72183000000.000  TP\n";
enum { CARD = 81, DATE = 61 };

static void cards(void)
{
    const size_t size = 2 * CARD;
    uint8_t cards[200], before[200];
    const uint8_t *small = (const uint8_t *)small_cards;
    size_t length = 9, place = 9;
    mundreff_table read;
    USED(read);
    expect("read_cards", sizeof small_cards == size + 1 && mundreff_read_cards(small, size, &place, &read) == MUNDREFF_OK && place == 0 && read.count == 2 && read.months[1] == 6 && read.offsets[1] == 11 && read.months[2] == 0 && read.offsets[63] == 0 && read.vouched == 0);
    USED(cards);
    USED(before);
    expect("write_cards refused", mundreff_write_cards(&read, cards, size - 1, &length) == MUNDREFF_ROOM && length == 0 && SAME(cards, before));
    expect("write_cards", mundreff_write_cards(&read, cards, sizeof cards, &length) == MUNDREFF_OK && length == size && memcmp(cards, small, size) == 0 && memcmp(cards + size, before, sizeof cards - size) == 0);
    expect("read_cards refused", mundreff_read_cards(small, 2 * CARD - 2, &place, &read) == MUNDREFF_CARD && place == CARD && SAME(read, no_table));
    cards[12] = '2';
    expect("cards of no table", mundreff_read_cards(cards, length, &place, &read) == MUNDREFF_TABLE && place == 0 && SAME(read, no_table));
    expect("write_cards of it", mundreff_write_cards(&read, cards, sizeof cards, &length) == MUNDREFF_TABLE && length == 0);
}

/* a date at the end of the card's years, and one behind it, which comes before the room */
static void late_cards(void)
{
    uint8_t cards[2 * CARD];
    size_t length = 9, place = 9;
    mundreff_table late, read;
    memset(&late, 0, sizeof late);
    late.count = 2;
    late.months[1] = MUNDREFF_VOUCHED(2049, 12) - 1;
    late.offsets[0] = 10;
    late.offsets[1] = 9;
    expect("the last card", mundreff_write_cards(&late, cards, sizeof cards, &length) == MUNDREFF_OK && length == sizeof cards && memcmp(cards + CARD + DATE, "49335000000.000", 15) == 0);
    USED(read);
    expect("and read again", mundreff_read_cards(cards, length, &place, &read) == MUNDREFF_OK && SAME(read, late));
    late.months[1]++;
    expect("an entry of 2050", mundreff_write_cards(&late, NULL, 0, &length) == MUNDREFF_RANGE && length == 0);
}

/* Lines that are passed over, newest first, `1` in column 1, a rate, a last line without its end; and two cards of one date. */
static void other_cards(void)
{
    static const char newest_first[] =
        "* TAI-UTC\n\n"
        "1            +11           -.25         0.0010       32.1840 72183000000.000 xTP\n"
        "C\n   \n"
        "            10.0                                      32.184 72001000000.000  TP";
    mundreff_table read;
    size_t place = 9;
    uint8_t twice[3 * CARD];
    expect("newest first", mundreff_read_cards((const uint8_t *)newest_first, sizeof newest_first - 1, &place, &read) == MUNDREFF_OK && place == 0 && read.count == 2 && read.offsets[0] == 10 && read.months[1] == 6 && read.offsets[1] == 11);
    memcpy(twice, small_cards, 2 * CARD);
    memcpy(twice + 2 * CARD, small_cards + CARD, CARD);
    expect("a date that does not rise", mundreff_read_cards(twice, sizeof twice, &place, &read) == MUNDREFF_CARD && place == 2 * CARD && SAME(read, no_table));
}

static uint8_t megabyte[1 << 20];

/* Bad files: every cut of a kernel, every byte of it changed, a megabyte. Each has a number, a place and, but for a kernel, no table. */
static void bad_kernels(void)
{
    const size_t size = sizeof small_kernel - 1;
    uint8_t kernel[sizeof small_kernel];
    uint64_t place = 9;
    mundreff_table read;
    int cuts = 1, changes = 1;
    for (size_t cut = 0; cut < size; cut++) {
        uint32_t no = mundreff_read_kernel((const uint8_t *)small_kernel, cut, &place, &read);
        cuts &= no == MUNDREFF_OK ? place == 0 && read.count == 2 : no == MUNDREFF_KERNEL && place == cut && SAME(read, no_table);
    }
    expect("a kernel that is cut off", cuts);
    for (size_t k = 0; k < 256 * size; k++) {
        memcpy(kernel, small_kernel, size);
        kernel[k / 256] = (uint8_t)(k % 256);
        uint32_t no = mundreff_read_kernel(kernel, size, &place, &read);
        changes &= no == MUNDREFF_OK ? place == 0 && read.count > 0 : SAME(read, no_table) && (no == MUNDREFF_TABLE ? place == 0 : no == MUNDREFF_KERNEL && place <= size);
    }
    expect("a kernel with a byte changed", changes);
    memset(megabyte, ' ', sizeof megabyte);
    memcpy(megabyte, small_kernel, size);
    expect("a megabyte", mundreff_read_kernel(megabyte, sizeof megabyte, &place, &read) == MUNDREFF_KERNEL && place == 65536 && SAME(read, no_table));
    megabyte[31] = 'x';
    expect("a megabyte with a fault", mundreff_read_kernel(megabyte, sizeof megabyte, &place, &read) == MUNDREFF_KERNEL && place == 31 && SAME(read, no_table));
}

/* The same of cards, but a megabyte is answered: behind the cards it is a line of blanks, or no card. */
static void bad_cards(void)
{
    const size_t size = 2 * CARD;
    uint8_t cards[2 * CARD];
    size_t place = 9;
    mundreff_table read;
    int cuts = 1, changes = 1;
    for (size_t cut = 0; cut < size; cut++) {
        uint32_t no = mundreff_read_cards((const uint8_t *)small_cards, cut, &place, &read);
        cuts &= no == MUNDREFF_OK ? place == 0 && read.count == 1 + cut / (size - 1) : SAME(read, no_table) && (no == MUNDREFF_TABLE ? place == 0 && cut <= 12 : no == MUNDREFF_CARD && place == (cut > CARD ? CARD : 0));
    }
    expect("cards that are cut off", cuts);
    for (size_t k = 0; k < 256 * size; k++) {
        memcpy(cards, small_cards, size);
        cards[k / 256] = (uint8_t)(k % 256);
        uint32_t no = mundreff_read_cards(cards, size, &place, &read);
        changes &= no == MUNDREFF_OK ? place == 0 && read.count > 0 : SAME(read, no_table) && (no == MUNDREFF_TABLE ? place == 0 : no == MUNDREFF_CARD && place < size);
    }
    expect("cards with a byte changed", changes);
    memset(megabyte, ' ', sizeof megabyte);
    memcpy(megabyte, small_cards, size);
    expect("a megabyte of them", mundreff_read_cards(megabyte, sizeof megabyte, &place, &read) == MUNDREFF_OK && place == 0 && read.count == 2);
    megabyte[sizeof megabyte - 1] = 'x';
    expect("and with a fault", mundreff_read_cards(megabyte, sizeof megabyte, &place, &read) == MUNDREFF_CARD && place == size && SAME(read, no_table));
}

/* offsets below zero: 12 steps down from 10 */
static void below_zero(void)
{
    uint8_t block[13] = {13, 3, 3, 3, 3, 3, 3, 3, 3, 3, 3, 3, 3}, back[13];
    size_t length, place;
    mundreff_table read;
    expect("offsets below zero are read", mundreff_read_block(block, 13, &place, &read) == MUNDREFF_OK && read.count == 13 && read.offsets[10] == 0 && read.offsets[11] == -1 && read.offsets[12] == -2);
    expect("and written", mundreff_write_block(&read, back, sizeof back, &length) == MUNDREFF_OK && length == 13 && SAME(back, block));
    read.offsets[12] = INT32_MIN;
    expect("the least offset is refused", mundreff_write_block(&read, back, sizeof back, &length) == MUNDREFF_TABLE && length == 0);
    read.offsets[12] = -2;
    read.count = 0xffffffff;
    expect("the highest count is refused", mundreff_write_block(&read, back, sizeof back, &length) == MUNDREFF_TABLE && length == 0);
}

static void stamps(void)
{
    mundreff_stamp on_tai = added_stamp, stamp;
    int64_t instant = 9;
    on_tai.scale = MUNDREFF_TAI;
    expect("instant_of", mundreff_instant_of(&table, &added_stamp, &instant, marked()) == MUNDREFF_OK && instant == added && marks == 0);
    expect("instant_of refused", mundreff_instant_of(&table, &on_tai, &instant, marked()) == MUNDREFF_CLOCK && instant == 0 && marks == 0);
    USED(stamp);
    expect("stamp_of", mundreff_stamp_of(&table, added, MUNDREFF_UTC, &stamp, marked()) == MUNDREFF_OK && SAME(stamp, added_stamp) && marks == 0);
    expect("stamp_of refused", mundreff_stamp_of(&table, added, 4, &stamp, marked()) == MUNDREFF_ASK && SAME(stamp, no_stamp) && marks == 0);
}

static void texts(void)
{
    const char *text = "2016-366T23:59:60";
    char out[20], before[20];
    mundreff_stamp stamp;
    size_t length = 9;
    int64_t instant = 9;
    USED(stamp);
    expect("read_text", mundreff_read_text(&table, MUNDREFF_UTC, text, 17, &instant, &stamp, marked()) == MUNDREFF_OK && instant == added && SAME(stamp, added_stamp) && marks == 0);
    expect("read_text refused", mundreff_read_text(&table, MUNDREFF_UTC, text, 16, &instant, &stamp, marked()) == MUNDREFF_SHAPE && instant == 0 && SAME(stamp, no_stamp) && marks == 0);
    USED(out);
    USED(before);
    expect("write_text refused", mundreff_write_text(&table, added, MUNDREFF_DAY_OF_YEAR, MUNDREFF_UTC, 0, out, 16, &length, marked()) == MUNDREFF_ROOM && length == 0 && SAME(out, before) && marks == 0);
    expect("write_text", mundreff_write_text(&table, added, MUNDREFF_DAY_OF_YEAR, MUNDREFF_UTC, 0, out, sizeof out, &length, marked()) == MUNDREFF_OK && length == 17 && memcmp(out, text, 17) == 0 && memcmp(out + 17, before, 3) == 0 && marks == 0);
}

/* how memcmp orders the six-digit texts of two instants: below 0 where the earlier one's is the less */
static int compared(uint32_t picture, int64_t earlier, int64_t later)
{
    char a[MUNDREFF_TEXT_ROOM], b[MUNDREFF_TEXT_ROOM];
    size_t length = 9, other = 9;
    expect("texts to compare", mundreff_write_text(&table, earlier, picture, MUNDREFF_UTC, 6, a, sizeof a, &length, marked()) == MUNDREFF_OK && mundreff_write_text(&table, later, picture, MUNDREFF_UTC, 6, b, sizeof b, &other, marked()) == MUNDREFF_OK && length == other);
    return memcmp(a, b, length);
}

/* into an added second, through it and out of it, by number of the month and by day of the year; and a pair that names of months break */
static void sorted_texts(void)
{
    const int64_t in_time[] = {added - 1, added, added + 999999, added + 1000000};
    for (int k = 0; k < 3; k++)
        expect("texts sort", compared(MUNDREFF_MONTH_NUMBER, in_time[k], in_time[k + 1]) < 0 && compared(MUNDREFF_DAY_OF_YEAR, in_time[k], in_time[k + 1]) < 0);
    expect("names do not", compared(MUNDREFF_MONTH_NAME, -435698908000000, -433020508000000) > 0);
}

/* a text with its final zero, read and written; without a byte for the zero it is refused, and the buffer keeps its bytes */
static void strings(void)
{
    const char *string = "2016-366T23:59:60";
    char out[20], before[20];
    mundreff_stamp stamp;
    size_t length = 9;
    int64_t instant = 9;
    USED(stamp);
    expect("read_string", mundreff_read_string(&table, MUNDREFF_UTC, string, &instant, &stamp, marked()) == MUNDREFF_OK && instant == added && SAME(stamp, added_stamp) && marks == 0);
    expect("read_string refused", mundreff_read_string(&table, MUNDREFF_UTC, string + 1, &instant, &stamp, marked()) == MUNDREFF_SHAPE && instant == 0 && SAME(stamp, no_stamp) && marks == 0);
    expect("read_string of an empty one", mundreff_read_string(&table, MUNDREFF_UTC, "", &instant, &stamp, marked()) == MUNDREFF_SHAPE && instant == 0 && SAME(stamp, no_stamp) && marks == 0);
    USED(out);
    USED(before);
    expect("write_string refused", mundreff_write_string(&table, added, MUNDREFF_DAY_OF_YEAR, MUNDREFF_UTC, 0, out, 17, &length, marked()) == MUNDREFF_ROOM && length == 0 && SAME(out, before) && marks == 0);
    expect("write_string refused for its scale", mundreff_write_string(&table, added, MUNDREFF_DAY_OF_YEAR, 4, 0, out, sizeof out, &length, marked()) == MUNDREFF_ASK && length == 0 && SAME(out, before) && marks == 0);
    expect("write_string", mundreff_write_string(&table, added, MUNDREFF_DAY_OF_YEAR, MUNDREFF_UTC, 0, out, 18, &length, marked()) == MUNDREFF_OK && length == 17 && memcmp(out, string, 18) == 0 && memcmp(out + 18, before, 2) == 0 && marks == 0);
}

static void pairs(void)
{
    double midnight = 9, fraction = 9;
    int64_t instant = 9;
    expect("write_julian", mundreff_write_julian(&table, 0, MUNDREFF_TAI, &midnight, &fraction, marked()) == MUNDREFF_OK && midnight == 2451544.5 && fraction == 0.5 && marks == 0);
    expect("read_julian", mundreff_read_julian(&table, MUNDREFF_TAI, 2451544.5, 0.75, &instant, marked()) == MUNDREFF_OK && instant == 21600000000 && marks == 0);
    expect("read_julian refused", mundreff_read_julian(&table, MUNDREFF_TAI, 2451545.0, 0.75, &instant, marked()) == MUNDREFF_NUMBER && instant == 0 && marks == 0);
    expect("write_julian refused", mundreff_write_julian(&table, INT64_MIN, MUNDREFF_TAI, &midnight, &fraction, marked()) == MUNDREFF_RANGE && midnight == 0 && fraction == 0 && marks == 0);
}

/* what is read from a UTC pair: a number, and an instant, 0 where it is refused */
static int reads(const mundreff_table *t, double midnight, double fraction, uint32_t no, int64_t at)
{
    int64_t instant = 9;
    return mundreff_read_julian(t, MUNDREFF_UTC, midnight, fraction, &instant, marked()) == no && instant == at && marks == 0;
}

/* a UTC instant, its pair and back */
static int is_pair(const mundreff_table *t, int64_t at, double of_midnight, double of_fraction)
{
    double midnight = 9, fraction = 9;
    int is_written = mundreff_write_julian(t, at, MUNDREFF_UTC, &midnight, &fraction, marked()) == MUNDREFF_OK && midnight == of_midnight && fraction == of_fraction && marks == 0;
    return is_written && reads(t, of_midnight, of_fraction, MUNDREFF_OK, at);
}

/* On UTC a day counts the seconds that the table gives it: 31 December 2016 has 86,401, and 30 June 1972 86,399 where its last is taken out. */
static void utc_pairs(void)
{
    const uint8_t taken_out[2] = {0x02, 0x0d};
    const double longer = 86401000000.0, shorter = 86399000000.0, below_one = 0.9999999999999999;
    mundreff_table short_june;
    size_t place = 9;
    expect("the pair of 12:00:00 on a longer day", is_pair(&table, added - 43200000000, 2457753.5, 43200000000.0 / longer));
    expect("the pair of 23:59:60.25", is_pair(&table, added + 250000, 2457753.5, 86400250000.0 / longer));
    expect("one second later it is another", is_pair(&table, added + 1250000, 2457754.5, 250000.0 / 86400000000.0));
    expect("one second before it too", is_pair(&table, added - 750000, 2457753.5, 86399250000.0 / longer));
    expect("the longer day's last microsecond", is_pair(&table, added + 999999, 2457753.5, 86400999999.0 / longer));
    expect("a tie is read as the later microsecond", reads(&table, 2457753.5, 1 / 128.0, MUNDREFF_OK, added - 86400000000 + 675007813));
    expect("what rounds up to the day's length is the next midnight", reads(&table, 2457753.5, below_one, MUNDREFF_OK, added + 1000000));
    expect("a table with a second taken out", mundreff_read_block(taken_out, 2, &place, &short_june) == MUNDREFF_OK);
    expect("the shorter day's last microsecond", is_pair(&short_june, -867931191000001, 2441498.5, 86398999999.0 / shorter));
    expect("its next is the next midnight", is_pair(&short_june, -867931191000000, 2441499.5, 0));
    expect("a fraction names no second that is taken out", reads(&short_june, 2441498.5, 86399500000.0 / 86400000000.0, MUNDREFF_OK, -867931191499994));
    expect("a fraction of 1 is refused", reads(&table, 2457753.5, 1, MUNDREFF_NUMBER, 0) && reads(&short_june, 2441498.5, 1, MUNDREFF_NUMBER, 0));
    expect("the end of 9999 is refused", reads(&table, 5373483.5, below_one, MUNDREFF_RANGE, 0) && reads(&short_june, 5373484.5, 0, MUNDREFF_RANGE, 0));
}

static void ticks(void)
{
    const mundreff_label first = {1972, 1, 1, 0, 0, 0}, eve = {2016, 12, 31, 23, 59, 59}, none = {2015, 12, 31, 23, 59, 60};
    mundreff_table too_many = table;
    mundreff_label label, kept = eve;
    too_many.count = 65;
    USED(label);
    expect("start", mundreff_start(&table, &label, marked()) == MUNDREFF_OK && SAME(label, first) && marks == 0);
    expect("start refused", mundreff_start(&too_many, &label, marked()) == MUNDREFF_TABLE && SAME(label, no_label) && marks == 0);
    expect("tick", mundreff_tick(&table, &kept, &label, marked()) == MUNDREFF_OK && SAME(label, added_label) && SAME(kept, eve) && marks == 0);
    expect("tick refused", mundreff_tick(&table, &none, &label, marked()) == MUNDREFF_NOSECOND && SAME(label, no_label) && marks == 0);
    label = eve;
    expect("tick over its own label", mundreff_tick(&table, &label, &label, marked()) == MUNDREFF_OK && SAME(label, added_label) && marks == 0);
    expect("tick_in_place", mundreff_tick_in_place(&table, &label, marked()) == MUNDREFF_OK && label.year == 2017 && label.month == 1 && label.day == 1 && label.hour == 0 && label.minute == 0 && label.second == 0 && marks == 0);
    label = none;
    expect("tick_in_place refused", mundreff_tick_in_place(&table, &label, marked()) == MUNDREFF_NOSECOND && SAME(label, no_label) && marks == 0);
}

/* A moment in each of its forms on a scale, and its marks under the table of Bulletin C that is vouched for up to January 2017. */
typedef struct {
    mundreff_stamp stamp;
    int64_t instant;
    const char *text;
    double midnight, fraction;
    uint32_t marks;
} moment;

enum { JANUARY_2017 = MUNDREFF_VOUCHED(2017, 1) };
static const moment moments[] = {
    {{MUNDREFF_UTC, 2016, 12, 30, 12, 0, 0, 0}, 536371236000000, "2016-12-30T12:00:00.000000", 2457752.5, 0.5, 0},
    {{MUNDREFF_UTC, 2016, 12, 31, 23, 59, 60, 250000}, 536500836250000, "2016-12-31T23:59:60.250000", 2457753.5, 86400250000.0 / 86401000000.0, 0},
    {{MUNDREFF_UTC, 2017, 1, 31, 23, 59, 59, 999999}, 539179236999999, "2017-01-31T23:59:59.999999", 2457784.5, 86399999999.0 / 86400000000.0, 0},
    {{MUNDREFF_UTC, 2017, 2, 1, 0, 0, 0, 0}, 539179237000000, "2017-02-01T00:00:00.000000", 2457785.5, 0, MUNDREFF_BEYOND},
    {{MUNDREFF_UTC, 9999, 12, 31, 12, 0, 0, 0}, 252455529637000000, "9999-12-31T12:00:00.000000", 5373483.5, 0.5, MUNDREFF_BEYOND},
    {{MUNDREFF_TAI, 2017, 2, 1, 0, 0, 37, 0}, 539179237000000, "2017-02-01T00:00:37.000000", 2457785.5, 37 / 86400.0, 0},
    {{MUNDREFF_GPS, 9999, 12, 31, 12, 0, 0, 0}, 252455529619000000, "9999-12-31T12:00:00.000000", 5373483.5, 0.5, 0},
};

/* each of the six calls that take a scale gives the moment in its form, with these marks */
static int six_give(const mundreff_table *t, const moment *at, uint32_t expected)
{
    const uint32_t scale = at->stamp.scale;
    mundreff_stamp stamp;
    char out[26];
    size_t length;
    int64_t instant;
    double midnight, fraction;
    int all = mundreff_instant_of(t, &at->stamp, &instant, marked()) == MUNDREFF_OK && instant == at->instant && marks == expected;
    all &= mundreff_stamp_of(t, at->instant, scale, &stamp, marked()) == MUNDREFF_OK && SAME(stamp, at->stamp) && marks == expected;
    all &= mundreff_read_text(t, scale, at->text, 26, &instant, &stamp, marked()) == MUNDREFF_OK && instant == at->instant && SAME(stamp, at->stamp) && marks == expected;
    all &= mundreff_write_text(t, at->instant, MUNDREFF_MONTH_NUMBER, scale, 6, out, sizeof out, &length, marked()) == MUNDREFF_OK && length == 26 && memcmp(out, at->text, 26) == 0 && marks == expected;
    all &= mundreff_write_julian(t, at->instant, scale, &midnight, &fraction, marked()) == MUNDREFF_OK && midnight == at->midnight && fraction == at->fraction && marks == expected;
    all &= mundreff_read_julian(t, scale, at->midnight, at->fraction, &instant, marked()) == MUNDREFF_OK && instant == at->instant && marks == expected;
    return all;
}

/* each of them refuses the moment with this number on a scale, and marks nothing */
static int six_refuse(const mundreff_table *t, const moment *at, uint32_t scale, uint32_t no)
{
    mundreff_stamp asked = at->stamp, stamp;
    char out[26];
    size_t length = 9;
    int64_t instant = 9;
    double midnight = 9, fraction = 9;
    asked.scale = scale;
    USED(stamp);
    int all = mundreff_instant_of(t, &asked, &instant, marked()) == no && instant == 0 && marks == 0;
    all &= mundreff_stamp_of(t, at->instant, scale, &stamp, marked()) == no && SAME(stamp, no_stamp) && marks == 0;
    all &= mundreff_read_text(t, scale, at->text, 26, &instant, &stamp, marked()) == no && instant == 0 && SAME(stamp, no_stamp) && marks == 0;
    all &= mundreff_write_text(t, at->instant, MUNDREFF_MONTH_NUMBER, scale, 6, out, sizeof out, &length, marked()) == no && length == 0 && marks == 0;
    all &= mundreff_write_julian(t, at->instant, scale, &midnight, &fraction, marked()) == no && midnight == 0 && fraction == 0 && marks == 0;
    all &= mundreff_read_julian(t, scale, at->midnight, at->fraction, &instant, marked()) == no && instant == 0 && marks == 0;
    return all;
}

/* start, tick and the writers of tables refuse the table; the buffer keeps its bytes */
static int others_refuse(const mundreff_table *t)
{
    const mundreff_label eve = {2016, 12, 31, 23, 59, 59};
    mundreff_label label;
    uint8_t out[MUNDREFF_CARDS_ROOM], before[MUNDREFF_CARDS_ROOM];
    size_t length = 9;
    USED(label);
    USED(out);
    USED(before);
    int all = mundreff_start(t, &label, marked()) == MUNDREFF_TABLE && SAME(label, no_label) && marks == 0;
    all &= mundreff_tick(t, &eve, &label, marked()) == MUNDREFF_TABLE && SAME(label, no_label) && marks == 0;
    all &= mundreff_write_block(t, out, sizeof out, &length) == MUNDREFF_TABLE && length == 0 && SAME(out, before);
    all &= mundreff_write_new_block(t, out, sizeof out, &length) == MUNDREFF_TABLE && length == 0 && SAME(out, before);
    all &= mundreff_write_kernel(t, out, sizeof out, &length) == MUNDREFF_TABLE && length == 0 && SAME(out, before);
    all &= mundreff_write_cards(t, out, sizeof out, &length) == MUNDREFF_TABLE && length == 0 && SAME(out, before);
    return all;
}

/* A month is judged with the table, after what was asked: December 2016 lies before the last entry, and 96,336 past the end. */
static void months_given(void)
{
    const uint32_t good[] = {0, JANUARY_2017, 96336}, bad[] = {1, JANUARY_2017 - 1, 96337, 0xffffffff};
    mundreff_table given = table;
    mundreff_label label;
    expect("MUNDREFF_VOUCHED", MUNDREFF_VOUCHED(1972, 1) == 1 && MUNDREFF_VOUCHED(2017, 1) == 541 && MUNDREFF_VOUCHED(2026, 12) == 660 && MUNDREFF_VOUCHED(9999, 12) == 96336);
    for (int k = 0; k < 3; k++) {
        given.vouched = good[k];
        expect("a month that can be given", mundreff_start(&given, &label, marked()) == MUNDREFF_OK && label.year == 1972 && marks == 0);
    }
    for (int k = 0; k < 4; k++) {
        given.vouched = bad[k];
        expect("a month that cannot be given", six_refuse(&given, moments, MUNDREFF_UTC, MUNDREFF_TABLE) && six_refuse(&given, moments, MUNDREFF_TAI, MUNDREFF_TABLE) && others_refuse(&given));
        expect("an unknown scale comes before it", six_refuse(&given, moments, 4, MUNDREFF_ASK));
    }
}

static void marks_given(void)
{
    const int64_t february = moments[3].instant;
    const mundreff_label first = {2017, 2, 1, 0, 0, 0}, end = {9999, 12, 31, 23, 59, 59};
    mundreff_label label = {2017, 1, 31, 23, 59, 58}, next;
    mundreff_table given = table;
    mundreff_stamp stamp;
    char out[18];
    size_t length = 9;
    int64_t instant = 9;
    given.vouched = JANUARY_2017;
    USED(stamp);
    for (size_t k = 0; k < sizeof moments / sizeof *moments; k++) {
        expect("marks where a month is given", six_give(&given, &moments[k], moments[k].marks));
        expect("and none where it is not", six_give(&table, &moments[k], 0));
        expect("and none where it is refused", six_refuse(&given, &moments[k], 4, MUNDREFF_ASK));
    }
    expect("read_julian, rounded into February", mundreff_read_julian(&given, MUNDREFF_UTC, 2457784.5, 0.9999999999999999, &instant, marked()) == MUNDREFF_OK && instant == february && marks == MUNDREFF_BEYOND);
    expect("read_text refused beyond", mundreff_read_text(&given, MUNDREFF_UTC, "2017-02-01T23:59:60", 19, &instant, &stamp, marked()) == MUNDREFF_NOSECOND && instant == 0 && SAME(stamp, no_stamp) && marks == 0);
    expect("write_text refused beyond", mundreff_write_text(&given, february, MUNDREFF_MONTH_NUMBER, MUNDREFF_UTC, 0, out, sizeof out, &length, marked()) == MUNDREFF_ROOM && length == 0 && marks == 0);
    expect("tick in January", mundreff_tick_in_place(&given, &label, marked()) == MUNDREFF_OK && label.second == 59 && marks == 0);
    expect("tick into February", mundreff_tick(&given, &label, &next, marked()) == MUNDREFF_OK && SAME(next, first) && marks == MUNDREFF_BEYOND);
    expect("and without a month", mundreff_tick(&table, &label, &next, marked()) == MUNDREFF_OK && SAME(next, first) && marks == 0);
    expect("tick_in_place into February", mundreff_tick_in_place(&given, &label, marked()) == MUNDREFF_OK && SAME(label, first) && marks == MUNDREFF_BEYOND);
    expect("tick refused beyond", mundreff_tick(&given, &end, &next, marked()) == MUNDREFF_RANGE && SAME(next, no_label) && marks == 0);
}

/* the writers of tables drop the month, but that of new blocks */
static void months_dropped(void)
{
    uint8_t with[MUNDREFF_CARDS_ROOM], without[MUNDREFF_CARDS_ROOM];
    size_t length = 9, same = 9, place = 9;
    uint64_t at = 9;
    mundreff_table given = table, read;
    given.vouched = JANUARY_2017;
    USED(with);
    USED(without);
    expect("an old block has no month", mundreff_write_block(&given, with, sizeof with, &length) == MUNDREFF_OK && mundreff_write_block(&table, without, sizeof without, &same) == MUNDREFF_OK && length == same && SAME(with, without));
    USED(read);
    expect("nor the table read from it", mundreff_read_block(with, length, &place, &read) == MUNDREFF_OK && SAME(read, table) && read.vouched == 0);
    expect("a new block has it", mundreff_write_new_block(&given, with, sizeof with, &length) == MUNDREFF_OK && mundreff_read_new_block(with, length, &place, &read) == MUNDREFF_OK && SAME(read, given));
    expect("a kernel has no month", mundreff_write_kernel(&given, with, sizeof with, &length) == MUNDREFF_OK && mundreff_write_kernel(&table, without, sizeof without, &same) == MUNDREFF_OK && length == same && SAME(with, without));
    USED(read);
    expect("nor has its table", mundreff_read_kernel(with, length, &at, &read) == MUNDREFF_OK && SAME(read, table) && read.vouched == 0);
    expect("cards have no month", mundreff_write_cards(&given, with, sizeof with, &length) == MUNDREFF_OK && mundreff_write_cards(&table, without, sizeof without, &same) == MUNDREFF_OK && length == same && length == 28 * CARD && SAME(with, without));
    USED(read);
    expect("nor the table of them", mundreff_read_cards(with, length, &place, &read) == MUNDREFF_OK && SAME(read, table) && read.vouched == 0);
}

static void no_bytes(void)
{
    mundreff_table read;
    mundreff_stamp stamp;
    size_t place = 9, length = 9;
    uint64_t at = 9;
    int64_t instant = 9;
    expect("no kernel", mundreff_read_kernel(NULL, 0, &at, &read) == MUNDREFF_KERNEL && at == 0 && SAME(read, no_table));
    expect("no room for a kernel", mundreff_write_kernel(&table, NULL, 0, &length) == MUNDREFF_ROOM && length == 0);
    expect("no cards", mundreff_read_cards(NULL, 0, &place, &read) == MUNDREFF_TABLE && place == 0 && SAME(read, no_table));
    expect("no room for cards", mundreff_write_cards(&table, NULL, 0, &length) == MUNDREFF_ROOM && length == 0);
    expect("no block", mundreff_read_block(NULL, 0, &place, &read) == MUNDREFF_CUT && place == 0 && SAME(read, no_table));
    expect("no room for a block", mundreff_write_block(&table, NULL, 0, &length) == MUNDREFF_ROOM && length == 0);
    expect("no new block", mundreff_read_new_block(NULL, 0, &place, &read) == MUNDREFF_CUT && place == 0 && SAME(read, no_table));
    expect("no room for a new block", mundreff_write_new_block(&table, NULL, 0, &length) == MUNDREFF_ROOM && length == 0);
    expect("no block to renew", mundreff_renew(NULL, 0, 0, NULL, 0, &place, &length) == MUNDREFF_CUT && place == 0 && length == 0);
    expect("no room for a renewed one", mundreff_renew(old_block, sizeof old_block, 0, NULL, 0, &place, &length) == MUNDREFF_ROOM && place == 0 && length == 0);
    expect("no block to revert", mundreff_revert(NULL, 0, NULL, 0, &place, &length) == MUNDREFF_CUT && place == 0 && length == 0);
    expect("no room for a reverted one", mundreff_revert(new_block, sizeof new_block, NULL, 0, &place, &length) == MUNDREFF_ROOM && place == 0 && length == 0);
    expect("no text", mundreff_read_text(&table, MUNDREFF_UTC, NULL, 0, &instant, &stamp, marked()) == MUNDREFF_SHAPE && instant == 0 && SAME(stamp, no_stamp) && marks == 0);
    expect("no room for a text", mundreff_write_text(&table, added, MUNDREFF_MONTH_NUMBER, MUNDREFF_UTC, 6, NULL, 0, &length, marked()) == MUNDREFF_ROOM && length == 0 && marks == 0);
    expect("no room for a string", mundreff_write_string(&table, added, MUNDREFF_MONTH_NUMBER, MUNDREFF_UTC, 6, NULL, 0, &length, marked()) == MUNDREFF_ROOM && length == 0 && marks == 0);
}

/* 52 gaps of 64 months, whose numbers take two bytes, and 11 of 8,192, whose numbers take three: the longest block there is, and with a month
   in three bytes the longest new one. Offsets that go down, to -53, make the longest kernel; 64 entries before 2050 are the most cards. */
static void lengths(void)
{
    mundreff_table longest;
    uint8_t block[MUNDREFF_BLOCK_ROOM], with_month[MUNDREFF_NEW_BLOCK_ROOM], kernel[MUNDREFF_KERNEL_ROOM], cards[MUNDREFF_CARDS_ROOM];
    char text[MUNDREFF_TEXT_ROOM], string[MUNDREFF_STRING_ROOM];
    size_t length = 9;
    memset(&longest, 0, sizeof longest);
    longest.count = 64;
    longest.offsets[0] = 10;
    for (int k = 1; k < 64; k++) {
        longest.months[k] = longest.months[k - 1] + (k <= 52 ? 64 : 8192);
        longest.offsets[k] = longest.offsets[k - 1] + 1;
    }
    expect("the longest block", mundreff_write_block(&longest, block, sizeof block, &length) == MUNDREFF_OK && length == MUNDREFF_BLOCK_ROOM);
    expect("it is no shorter", mundreff_write_block(&longest, block, sizeof block - 1, &length) == MUNDREFF_ROOM);
    longest.vouched = MUNDREFF_VOUCHED(9999, 12);
    expect("the longest new block", mundreff_write_new_block(&longest, with_month, sizeof with_month, &length) == MUNDREFF_OK && length == MUNDREFF_NEW_BLOCK_ROOM);
    expect("nor is this one", mundreff_write_new_block(&longest, with_month, sizeof with_month - 1, &length) == MUNDREFF_ROOM);
    for (int k = 1; k < 64; k++)
        longest.offsets[k] = 10 - k;
    expect("the longest kernel", mundreff_write_kernel(&longest, kernel, sizeof kernel, &length) == MUNDREFF_OK && length == MUNDREFF_KERNEL_ROOM);
    expect("it is no shorter either", mundreff_write_kernel(&longest, kernel, sizeof kernel - 1, &length) == MUNDREFF_ROOM);
    for (int k = 1; k < 64; k++)
        longest.months[k] = longest.months[k - 1] + 12;
    expect("the most cards", mundreff_write_cards(&longest, cards, sizeof cards, &length) == MUNDREFF_OK && length == MUNDREFF_CARDS_ROOM);
    expect("they are no fewer bytes", mundreff_write_cards(&longest, cards, sizeof cards - 1, &length) == MUNDREFF_ROOM);
    expect("the longest text", mundreff_write_text(&table, added, MUNDREFF_MONTH_NAME, MUNDREFF_UTC, 6, text, sizeof text, &length, marked()) == MUNDREFF_OK && length == MUNDREFF_TEXT_ROOM && memcmp(text, "2016 DEC 31 23:59:60.000000", 27) == 0);
    expect("the longest string", mundreff_write_string(&table, added, MUNDREFF_MONTH_NAME, MUNDREFF_UTC, 6, string, sizeof string, &length, marked()) == MUNDREFF_OK && length == MUNDREFF_TEXT_ROOM && strcmp(string, "2016 DEC 31 23:59:60.000000") == 0);
}

static int is_named(uint32_t number, const char *name) { return strcmp(mundreff_refusal_name(number), name) == 0; }

static void names(void)
{
    expect("names of the refusals", is_named(MUNDREFF_ROOM, "ROOM") && is_named(MUNDREFF_SHAPE, "SHAPE") && is_named(MUNDREFF_YEAR, "YEAR") && is_named(MUNDREFF_DATE, "DATE") && is_named(MUNDREFF_CLOCK, "CLOCK") && is_named(MUNDREFF_NOSECOND, "NOSECOND") && is_named(MUNDREFF_RANGE, "RANGE"));
    expect("and of the others", is_named(MUNDREFF_ASK, "ASK") && is_named(MUNDREFF_CUT, "CUT") && is_named(MUNDREFF_GROUPS, "GROUPS") && is_named(MUNDREFF_TABLE, "TABLE") && is_named(MUNDREFF_TAIL, "TAIL") && is_named(MUNDREFF_NUMBER, "NUMBER") && is_named(MUNDREFF_KERNEL, "KERNEL") && is_named(MUNDREFF_CARD, "CARD"));
    expect("no refusal, and no number", is_named(MUNDREFF_OK, "OK") && is_named(16, "UNKNOWN") && is_named(0xffffffff, "UNKNOWN"));
}

int main(void)
{
    expect("sizes", sizeof(mundreff_table) == 520 && offsetof(mundreff_table, vouched) == 516 && sizeof(mundreff_stamp) == 32 && sizeof(mundreff_label) == 24);
    tables();
    new_blocks();
    bad_new_blocks();
    moves();
    there_and_back();
    kernels();
    bad_kernels();
    cards();
    late_cards();
    other_cards();
    bad_cards();
    below_zero();
    stamps();
    texts();
    sorted_texts();
    strings();
    pairs();
    utc_pairs();
    ticks();
    months_given();
    marks_given();
    months_dropped();
    no_bytes();
    lengths();
    names();
    if (!wrong)
        printf("each call answers and refuses as the header says\n");
    return wrong;
}
