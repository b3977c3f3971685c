/* How often a call copies the session's record: the linker hands every memcpy and memmove of the library to the
 * counters below (--wrap). A record is 840 bytes, its pair places 768, their keys 512; nothing else that is copied is
 * as long. It prints the counts; exit status 0: some were counted, and none is above what is written here. A call
 * copies the record once as it comes in and once as it goes back, whatever it does between; laying it out flat for C,
 * where it changed, is a third copy. The counts are the same on both cards, and with tolerances. */
#include <stdio.h>
#include <string.h>

#include "furzeladle.h"

enum { ROWS = 256, BLOCK = 4, AS_LONG = 500 };

static int copies, all;

void *__real_memcpy(void *to, const void *from, size_t n);
void *__real_memmove(void *to, const void *from, size_t n);

void *__wrap_memcpy(void *to, const void *from, size_t n)
{
    copies += n >= AS_LONG;
    return __real_memcpy(to, from, n);
}

void *__wrap_memmove(void *to, const void *from, size_t n)
{
    copies += n >= AS_LONG;
    return __real_memmove(to, from, n);
}

static int failures;
static uint32_t record[FURZELADLE_RECORD_SIZE];
static int32_t field[FURZELADLE_NEW_ROW * ROWS], trim[FURZELADLE_NEW_ROW * ROWS];

/* The card that the calls below are on: its kinds, a row's numbers, and a table's. */
static uint32_t field_kind, trim_kind;
static size_t wide, len;

/* The field tolerance of what they ask surely. */
static uint32_t tolerance;

static void expect(const char *call, int32_t answer, int32_t wanted, int most)
{
    printf("%-44s %d\n", call, copies);
    if (answer != wanted || copies > most) {
        printf("%s: answer %d, not %d; %d copies, at most %d\n", call, answer, wanted, copies, most);
        failures++;
    }
    all += copies;
    copies = 0;
}

/* Scores fall evenly. Every trim shade lies between the two that the field rows have in turn, `apart` from each, or so
 * much `off` that. */
static void fill(int apart, int off)
{
    for (int i = 0; i < ROWS; i++) {
        const int32_t row[5] = {i + 1, 9999 - i, i % 2 * 2 * apart, 0, 50};
        const int32_t other[5] = {i + 1, 9999 - i, apart + off, 0, 50};
        memcpy(field + wide * i, row, wide * sizeof *row);
        memcpy(trim + wide * i, other, wide * sizeof *other);
    }
}

static int32_t open(void)
{
    const uint32_t query[FURZELADLE_QUERY_ALL] = {
        10, BLOCK, 5, 1, 1, field_kind, trim_kind, tolerance, 0, FURZELADLE_SURELY};
    return furzeladle_open(query, FURZELADLE_QUERY_ALL, field, len, trim, len, record, FURZELADLE_RECORD_SIZE);
}

static int32_t read(size_t f_len)
{
    return furzeladle_read(field, f_len, trim, len, record, FURZELADLE_RECORD_SIZE);
}

static int32_t take(void)
{
    uint32_t pair[FURZELADLE_PAIR_SIZE];
    return furzeladle_take(field, len, trim, len, record, FURZELADLE_RECORD_SIZE, pair, FURZELADLE_PAIR_SIZE);
}

static int32_t show(void)
{
    uint32_t place[FURZELADLE_PLACE_SIZE];
    return furzeladle_show(field, len, trim, len, record, FURZELADLE_RECORD_SIZE, place, FURZELADLE_PLACE_SIZE);
}

/* A new session over tables of such shades, after some reads. */
static void reads(int apart, int off, int n)
{
    fill(apart, off);
    open();
    while (n-- > 0)
        read(len);
    copies = 0;
}

static void calls(void)
{
    reads(6, 0, 0);
    expect("open", open(), FURZELADLE_DONE, 0);
    expect("read: the first block", read(len), FURZELADLE_DONE, 3);
    expect("read: a block meets 1, no pair is near", read(len), FURZELADLE_DONE, 3);
    reads(6, 0, 62);
    expect("read: a block meets 31, no pair is near", read(len), FURZELADLE_DONE, 3);
    reads(6, 100, 62);
    expect("read: a block meets 31, all far", read(len), FURZELADLE_DONE, 3);
    expect("read: refused by 4", read(wide), -FURZELADLE_TABLE_SIZE, 2);
    expect("take: not yet", take(), FURZELADLE_NOT_YET, 2);
    reads(3, 0, 1);
    expect("read: a block meets 1, 16 pairs are near", read(len), FURZELADLE_DONE, 3);
    reads(3, 0, ROWS);
    expect("read: settled", read(len), FURZELADLE_SETTLED, 2);
    expect("show", show(), FURZELADLE_DONE, 1);
    expect("take: a pair", take(), FURZELADLE_GIVEN, 3);
    record[FURZELADLE_K] = 0;
    expect("read: refused by 5", read(len), -FURZELADLE_RECORD, 2);
}

/* On a card, without a tolerance, with one, and with one that leaves nothing to qualify. */
static void on_card(uint32_t field, uint32_t trim, size_t row)
{
    field_kind = field, trim_kind = trim;
    wide = row, len = wide * ROWS;
    for (tolerance = 0; tolerance <= 1; tolerance++)
        calls();
    tolerance = 500;
    reads(3, 0, 0);
    expect("read: settled as it opened", read(len), FURZELADLE_SETTLED, 2);
    expect("take: finished", take(), FURZELADLE_FINISHED, 2);
}

int main(void)
{
    on_card(FURZELADLE_FIELD, FURZELADLE_TRIM, FURZELADLE_OLD_ROW);
    on_card(FURZELADLE_NEW_FIELD, FURZELADLE_NEW_TRIM, FURZELADLE_NEW_ROW);
    if (all == 0) {
        printf("no copy was counted\n");
        failures++;
    }
    return failures != 0;
}
