/* Mundreff, through its C interface. Every call checks the table of Bulletin C anew. A call that answers an input wrongly is not measured. */
#include "frame.h"
#include "mundreff.h"

static mundreff_table table, read_table;
static mundreff_stamp stamps[INPUTS], stamp;
static mundreff_label labels[INPUTS], label, next;
static size_t place, length, block_size, new_size;
static int64_t instant;
static char text[MUNDREFF_TEXT_ROOM];
static const char comment[] = "* TAI-UTC of Bulletin C\n";
static uint8_t bytes[MUNDREFF_CARDS_ROOM], block[MUNDREFF_BLOCK_ROOM], new_block[MUNDREFF_NEW_BLOCK_ROOM], kernel[8192], cards[sizeof comment - 1 + MUNDREFF_CARDS_ROOM];
static size_t kernel_size, cards_size;
static uint64_t kernel_place;
static double midnight, fraction;
static uint32_t marks;

static uint32_t read_text(int i) { return mundreff_read_text(&table, MUNDREFF_UTC, texts[i], 26, &instant, &stamp, &marks); }
static uint32_t write_text(int i) { return mundreff_write_text(&table, instants[i], MUNDREFF_MONTH_NUMBER, MUNDREFF_UTC, 6, text, sizeof text, &length, &marks); }
static uint32_t instant_of(int i) { return mundreff_instant_of(&table, &stamps[i], &instant, &marks); }
static uint32_t stamp_of(int i) { return mundreff_stamp_of(&table, instants[i], MUNDREFF_UTC, &stamp, &marks); }
static uint32_t write_julian(int i) { return mundreff_write_julian(&table, instants[i], MUNDREFF_UTC, &midnight, &fraction, &marks); }
static uint32_t read_julian(int i) { return mundreff_read_julian(&table, MUNDREFF_UTC, midnights[i], fractions[i], &instant, &marks); }
static uint32_t start(int i) { (void)i; return mundreff_start(&table, &label, &marks); }
static uint32_t tick(int i) { return mundreff_tick(&table, &labels[i], &next, &marks); }
static uint32_t read_block(int i) { (void)i; return mundreff_read_block(block, block_size, &place, &read_table); }
static uint32_t write_block(int i) { (void)i; return mundreff_write_block(&table, bytes, sizeof bytes, &length); }
static uint32_t read_new_block(int i) { (void)i; return mundreff_read_new_block(new_block, new_size, &place, &read_table); }
static uint32_t write_new_block(int i) { (void)i; return mundreff_write_new_block(&table, bytes, sizeof bytes, &length); }
static uint32_t renew(int i) { (void)i; return mundreff_renew(block, block_size, 0, bytes, sizeof bytes, &place, &length); }
static uint32_t revert(int i) { (void)i; return mundreff_revert(new_block, new_size, bytes, sizeof bytes, &place, &length); }
static uint32_t read_kernel(int i) { (void)i; return mundreff_read_kernel(kernel, kernel_size, &kernel_place, &read_table); }
static uint32_t write_kernel(int i) { (void)i; return mundreff_write_kernel(&table, bytes, sizeof bytes, &length); }
static uint32_t read_cards(int i) { (void)i; return mundreff_read_cards(cards, cards_size, &place, &read_table); }
static uint32_t write_cards(int i) { (void)i; return mundreff_write_cards(&table, bytes, sizeof bytes, &length); }

static int instant_right(int i) { return instant == instants[i]; }
static int stamp_right(int i) { return !memcmp(&stamp, &stamps[i], sizeof stamp); }
static int read_right(int i) { return instant_right(i) && stamp_right(i); }
static int text_right(int i) { return length == 26 && !memcmp(text, texts[i], 26); }
static int pair_right(int i) { return midnight == midnights[i] && fraction == fractions[i]; }
static int start_right(int i) { (void)i; return label.year == 1972 && label.month == 1 && label.day == 1 && !(label.hour | label.minute | label.second); }
/* a second on; the last of a minute begins another, but for the last of a day with an added second */
static int next_right(int i)
{
    int added = on_leap_day[i] && labels[i].hour == 23 && labels[i].minute == 59;
    return next.second == (labels[i].second < 59 || added ? labels[i].second + 1 : 0);
}
static int table_right(int i) { (void)i; return !memcmp(&read_table, &table, sizeof table); }
static int block_right(int i) { (void)i; return length == 29 && !memcmp(bytes, block, 29); }
static int new_block_right(int i) { (void)i; return length == 31 && !memcmp(bytes, new_block, 31); }

/* the kernel written has the length of Bulletin C's and reads as the table; so do the cards */
static int kernel_right(int i) { return length == 1032 && !mundreff_read_kernel(bytes, length, &kernel_place, &read_table) && table_right(i); }
static int cards_right(int i) { return length == 28 * 81 && !mundreff_read_cards(bytes, length, &place, &read_table) && table_right(i); }

/* a call's row, with no marks since no month is given, and where it takes or gives many bytes that of a byte */
#define BYTES_ROW(name, call, right, size)                                    \
    static void all_##call(void) { EACH sink = call(i); }                     \
    static void row_##call(void)                                              \
    {                                                                         \
        int wrong = 0;                                                        \
        EACH wrong += call(i) != 0 || marks || !right(i);                     \
        if (wrong)                                                            \
            printf("Mundreff\t%s\tWRONG on %d inputs\n", name, wrong);        \
        else                                                                  \
            measure_bytes("Mundreff", name, all_##call, size);                \
    }
#define ROW(name, call, right) BYTES_ROW(name, call, right, 1)
ROW("text to instant", read_text, read_right)
ROW("instant to text, six digits", write_text, text_right)
ROW("fields to instant", instant_of, instant_right)
ROW("instant to stamp", stamp_of, stamp_right)
ROW("instant to Julian pair", write_julian, pair_right)
ROW("Julian pair to instant", read_julian, instant_right)
ROW("table check (starting the clock)", start, start_right)
ROW("tick", tick, next_right)
ROW("block to table", read_block, table_right)
ROW("table to block", write_block, block_right)
ROW("new block to table", read_new_block, table_right)
ROW("table to new block", write_new_block, new_block_right)
ROW("old block to new", renew, new_block_right)
ROW("new block to old", revert, block_right)
BYTES_ROW("kernel to table", read_kernel, table_right, kernel_size)
BYTES_ROW("table to kernel", write_kernel, kernel_right, length)
BYTES_ROW("cards to table", read_cards, table_right, cards_size)
BYTES_ROW("table to cards", write_cards, cards_right, length)

/* Bulletin C's cards, as they are written, behind a comment */
static uint32_t make_cards(void)
{
    const size_t front = sizeof comment - 1;
    memcpy(cards, comment, front);
    uint32_t no = mundreff_write_cards(&table, cards + front, sizeof cards - front, &length);
    cards_size = front + length;
    return no;
}

int main(void)
{
    make_inputs();
    EACH {
        uint32_t f[7];
        for (int k = 0; k < 7; k++)
            f[k] = (uint32_t)fields[i][k];
        labels[i] = (mundreff_label){f[0], f[1], f[2], f[3], f[4], f[5]};
        stamps[i] = (mundreff_stamp){MUNDREFF_UTC, f[0], f[1], f[2], f[3], f[4], f[5], f[6]};
    }
    mundreff_bulletin_c(&table);
    if (mundreff_write_block(&table, block, sizeof block, &block_size) || mundreff_write_new_block(&table, new_block, sizeof new_block, &new_size) || make_cards())
        return 1;
    FILE *file = fopen("examples/leapseconds.tls", "rb");
    if (!file)
        return 1;
    kernel_size = fread(kernel, 1, sizeof kernel, file);
    row_read_text();
    row_write_text();
    row_instant_of();
    row_stamp_of();
    row_write_julian();
    row_read_julian();
    row_start();
    row_tick();
    row_read_block();
    row_write_block();
    row_read_new_block();
    row_write_new_block();
    row_renew();
    row_revert();
    row_read_kernel();
    row_write_kernel();
    row_read_cards();
    row_write_cards();
    return 0;
}
