/* The rules' worked query through the C functions, at other weights, with tolerances and on the new card too, a
 * withdrawn first row, a query that nothing can meet, and calls that must be refused. Exit status 0: all as it must be.
 */
#include <stdio.h>
#include <string.h>

#include "furzeladle.h"

enum { SIZE = FURZELADLE_RECORD_SIZE };

static const int32_t field[20] = {101, 90, 0, 0, 102, 80, 100, 0, 103, 60, 0, 300, 104, 40, 500, 500, 105, 10, 0, 0};
static const int32_t trim[20] = {201, 70, 400, 0, 202, 50, 3, 4, 203, 30, 100, 5, 204, 20, 0, 300, 205, 15, 500, 500};
static const uint32_t query[3] = {2, 1, 5};

static int failures;

static void expect(const char *what, long got, long wanted)
{
    if (got != wanted) {
        printf("%s: %ld, not %ld\n", what, got, wanted);
        failures++;
    }
}

static int32_t reads(uint32_t *session)
{
    return furzeladle_read(field, 20, trim, 20, session, SIZE);
}

static int32_t takes(uint32_t *session, uint32_t *pair)
{
    return furzeladle_take(field, 20, trim, 20, session, SIZE, pair, 3);
}

static void expect_pair(const char *what, const uint32_t *pair, uint32_t sum, uint32_t f, uint32_t t)
{
    const uint32_t wanted[3] = {sum, f, t};
    expect(what, memcmp(pair, wanted, sizeof wanted), 0);
}

/* Five reads, a take, three reads, a take, finished. */
static void worked(void)
{
    uint32_t s[SIZE + 1], pair[3] = {7, 7, 7}, place[3];
    int i;

    memset(s, 0x55, sizeof s);
    expect("open", furzeladle_open(query, 3, field, 20, trim, 20, s, SIZE + 1), FURZELADLE_DONE);
    expect("rows", s[FURZELADLE_FIELD_ROWS], 5);
    expect("behind the record", s[SIZE], 0x55555555);
    expect("nothing read", furzeladle_show(field, 20, trim, 20, s, SIZE, place, 3), FURZELADLE_DONE);
    expect_pair("no rows", place, 0, 0, 0);
    for (i = 0; i < 5; i++) {
        expect("not yet", takes(s, pair), FURZELADLE_NOT_YET);
        expect("read", reads(s), FURZELADLE_DONE);
    }
    expect_pair("no pair yet", pair, 7, 7, 7);
    expect("show", furzeladle_show(field, 20, trim, 20, s, SIZE, place, 3), FURZELADLE_DONE);
    expect_pair("its row", place, 1, 3, 1);
    expect("first", takes(s, pair), FURZELADLE_GIVEN);
    expect_pair("first pair", pair, 140, 1, 2);
    expect("second not yet", takes(s, pair), FURZELADLE_NOT_YET);
    for (i = 0; i < 3; i++)
        expect("read on", reads(s), FURZELADLE_DONE);
    expect("settled", reads(s), FURZELADLE_SETTLED);
    expect("second", takes(s, pair), FURZELADLE_GIVEN);
    expect_pair("second pair", pair, 110, 2, 3);
    expect("finished", takes(s, pair), FURZELADLE_FINISHED);
    expect("field depth", s[FURZELADLE_FIELD_DEPTH], 4);
    expect("trim depth", s[FURZELADLE_TRIM_DEPTH], 4);
    expect("joined", s[FURZELADLE_JOINED], 2);
}

/* A query that lends all its numbers: k 2, block 1, both weights 1. */
struct asked {
    uint32_t numbers[FURZELADLE_QUERY_ALL];
};

static struct asked ask(uint32_t radius, int is_new, uint32_t by_field, uint32_t by_trim, uint32_t meaning)
{
    const uint32_t more = is_new ? FURZELADLE_NEW_FIELD - FURZELADLE_FIELD : 0;
    return (struct asked){
        {2, 1, radius, 1, 1, FURZELADLE_FIELD + more, FURZELADLE_TRIM + more, by_field, by_trim, meaning}};
}

/* A refused read and take: the number, and nothing changed. */
static void refused(const char *what, const uint32_t *session, const int32_t *f, size_t f_len, int32_t wanted)
{
    uint32_t s[SIZE], pair[3] = {7, 7, 7};
    memcpy(s, session, sizeof s);
    expect(what, furzeladle_read(f, f_len, trim, 20, s, SIZE), wanted);
    expect(what, furzeladle_take(f, f_len, trim, 20, s, SIZE, pair, 3), wanted);
    expect(what, memcmp(s, session, sizeof s), 0);
    expect_pair(what, pair, 7, 7, 7);
}

static void damaged(void)
{
    uint32_t good[SIZE], s[SIZE], zeros[SIZE] = {0}, pair[3] = {7, 7, 7};
    const uint32_t bad_queries[3][3] = {{65, 1, 5}, {2, 0, 5}, {2, 1, 40001}};
    int32_t table[20];
    int i;

    furzeladle_open(query, 3, field, 20, trim, 20, good, SIZE);
    for (i = 0; i < 5; i++)
        reads(good);
    memcpy(s, good, sizeof s);
    s[FURZELADLE_OUT] = 0xffffffff;
    refused("out", s, field, 20, -FURZELADLE_RECORD);
    memcpy(s, good, sizeof s);
    s[FURZELADLE_JOINED_HIGH] = 1;
    refused("joined", s, field, 20, -FURZELADLE_RECORD);
    memcpy(s, good, sizeof s);
    s[FURZELADLE_FIELD_WEIGHT - 1] = 1;
    refused("last place", s, field, 20, -FURZELADLE_RECORD);
    for (i = FURZELADLE_FIELD_WEIGHT; i <= FURZELADLE_TRIM_WEIGHT; i++) {
        memcpy(s, good, sizeof s);
        s[i] = 0;
        refused("weight 0", s, field, 20, -FURZELADLE_RECORD);
        s[i] = 10;
        refused("weight 10", s, field, 20, -FURZELADLE_RECORD);
    }
    for (i = 0; i < 4; i++) {
        memcpy(s, good, sizeof s);
        s[FURZELADLE_CARD] = (const uint32_t[]){0, 1, 4, 0xffffffff}[i];
        refused("neither card", s, field, 20, -FURZELADLE_RECORD);
    }
    s[FURZELADLE_CARD] = FURZELADLE_NEW_CARD;
    refused("four rows on the other card", s, field, 20, -FURZELADLE_TABLE_SIZE);
    memcpy(s, good, sizeof s);
    s[FURZELADLE_PAIRS] = 179983;
    refused("held sum", s, field, 20, -FURZELADLE_RECORD);
    s[FURZELADLE_PAIRS] = 179982;
    expect("the largest held sum", takes(s, pair), FURZELADLE_GIVEN);
    expect_pair("is believed", pair, 179982, 1, 2);
    pair[0] = pair[1] = pair[2] = 7;
    refused("zeros", zeros, field, 20, -FURZELADLE_RECORD);
    refused("fewer rows", good, field, 16, -FURZELADLE_TABLE_SIZE);
    refused("no whole row", good, field, 19, -FURZELADLE_TABLE_SIZE);
    memcpy(table, field, sizeof table);
    table[2] = -12801;
    refused("row limit", good, table, 20, -FURZELADLE_ROW_LIMIT);
    memcpy(table, field, sizeof table);
    table[5] = 91;
    refused("row order", good, table, 20, -FURZELADLE_ROW_ORDER);

    memcpy(s, good, sizeof s);
    for (i = 0; i < 3; i++)
        expect("bad query", furzeladle_open(bad_queries[i], 3, field, 20, trim, 20, s, SIZE), -(i + 1));
    expect("no whole row", furzeladle_open(query, 3, field, 19, trim, 20, s, SIZE), -FURZELADLE_TABLE_SIZE);
    expect("short query", furzeladle_open(query, 2, field, 20, trim, 20, s, SIZE), -FURZELADLE_SHORT_SLICE);
    expect("short session", furzeladle_open(query, 3, field, 20, trim, 20, s, SIZE - 1), -FURZELADLE_SHORT_SLICE);
    expect("short read", furzeladle_read(field, 20, trim, 20, s, SIZE - 1), -FURZELADLE_SHORT_SLICE);
    expect("short pair", furzeladle_take(field, 20, trim, 20, s, SIZE, pair, 2), -FURZELADLE_SHORT_SLICE);
    expect("short place", furzeladle_show(field, 20, trim, 20, s, SIZE, pair, 2), -FURZELADLE_SHORT_SLICE);
    expect("nothing changed", memcmp(s, good, sizeof s), 0);
    expect_pair("nor the pair", pair, 7, 7, 7);
}

/* A session of a query's numbers, to its end: its pairs' sums, depths and block pairs joined. */
static void listed(const char *what, const uint32_t *numbers, size_t count, const uint32_t wanted[5])
{
    uint32_t s[SIZE], pair[3];
    int i;

    expect(what, furzeladle_open(numbers, count, field, 20, trim, 20, s, SIZE), FURZELADLE_DONE);
    while (reads(s) == FURZELADLE_DONE)
        ;
    for (i = 0; i < 2; i++) {
        expect(what, takes(s, pair), FURZELADLE_GIVEN);
        expect(what, pair[0], wanted[i]);
    }
    expect(what, takes(s, pair), FURZELADLE_FINISHED);
    expect(what, s[FURZELADLE_FIELD_DEPTH], wanted[2]);
    expect(what, s[FURZELADLE_TRIM_DEPTH], wanted[3]);
    expect(what, s[FURZELADLE_JOINED], wanted[4]);
}

/* The worked query's first pair lies 3 and 4 apart, its second 0 and 5: at tolerances of 2 together 1 and 2, 0 and 3 at
 * the nearest, 5 and 6, 2 and 7 at the farthest. Two other pairs are of equal shades. */
static void tolerant(void)
{
    const uint32_t by_two[3][2] = {{1, 1}, {2, 0}, {0, 2}};
    const uint32_t plainly[5] = {140, 110, 4, 4, 2}, equal[5] = {80, 55, 5, 5, 2}, equal_near[5] = {80, 55, 5, 5, 5};
    int i;

    for (i = 0; i < 3; i++) {
        const uint32_t u = by_two[i][0], v = by_two[i][1];
        listed("possibly", ask(3, 0, u, v, FURZELADLE_POSSIBLY).numbers, FURZELADLE_QUERY_ALL, plainly);
        listed("not possibly", ask(2, 0, u, v, FURZELADLE_POSSIBLY).numbers, FURZELADLE_QUERY_ALL, equal);
        listed("surely", ask(8, 0, u, v, FURZELADLE_SURELY).numbers, FURZELADLE_QUERY_ALL, plainly);
        listed("not surely", ask(7, 0, u, v, FURZELADLE_SURELY).numbers, FURZELADLE_QUERY_ALL, equal_near);
        listed("surely, by 7", ask(7, 0, u, v, 7).numbers, FURZELADLE_QUERY_ALL, equal_near);
        listed("no meaning", ask(3, 0, u, v, 7).numbers, FURZELADLE_QUERY_ALL - 1, plainly);
    }
    listed("field tolerance alone", ask(3, 0, 2, 500, 7).numbers, 8, plainly);
    listed("and not enough", ask(3, 0, 1, 500, 7).numbers, 8, equal);
    listed("surely without", ask(5, 0, 0, 0, FURZELADLE_SURELY).numbers, FURZELADLE_QUERY_ALL, plainly);
}

/* Who lends the numbers from before there were tolerances, or zeros behind them, opens the same session. */
static void without_tolerances(void)
{
    const struct asked all = ask(5, 0, 0, 0, FURZELADLE_POSSIBLY);
    uint32_t wanted[SIZE], s[SIZE];
    size_t count;

    furzeladle_open(query, FURZELADLE_QUERY_LEAST, field, 20, trim, 20, wanted, SIZE);
    expect("field tolerance", wanted[FURZELADLE_FIELD_TOLERANCE], 0);
    expect("trim tolerance", wanted[FURZELADLE_TRIM_TOLERANCE], 0);
    expect("meaning", wanted[FURZELADLE_MEANING], FURZELADLE_POSSIBLY);
    for (count = FURZELADLE_QUERY_LEAST; count <= FURZELADLE_QUERY_ALL; count++) {
        memset(s, 0x55, sizeof s);
        expect("open", furzeladle_open(all.numbers, count, field, 20, trim, 20, s, SIZE), FURZELADLE_DONE);
        expect("the same record", memcmp(s, wanted, sizeof s), 0);
    }
}

/* A weight that is not lent is 1, and a kind that is not lent the old card's. */
static void weighted(void)
{
    const uint32_t ones[FURZELADLE_QUERY_MOST] = {2, 1, 5, 1, 1};
    const uint32_t all[FURZELADLE_QUERY_ALL] = {2, 1, 5, 1, 1, FURZELADLE_FIELD, FURZELADLE_TRIM};
    const uint32_t field_more[5] = {2, 1, 5, 3, 1}, trim_more[5] = {2, 1, 5, 1, 3};
    const uint32_t plainly[5] = {140, 110, 4, 4, 2};
    const uint32_t by_field[5] = {320, 270, 3, 5, 2}, by_trim[5] = {240, 170, 5, 4, 3};
    uint32_t three[SIZE], five[SIZE];

    listed("three numbers", query, FURZELADLE_QUERY_LEAST, plainly);
    listed("weights 1 and 1", ones, FURZELADLE_QUERY_MOST, plainly);
    listed("field kind 1", all, 6, plainly);
    listed("kinds 1 and 2", all, FURZELADLE_QUERY_ALL, plainly);
    listed("weights 3 and 1", field_more, 5, by_field);
    listed("weight 3", field_more, 4, by_field);
    listed("weights 1 and 3", trim_more, 5, by_trim);
    listed("weight 1", trim_more, 4, plainly);
    furzeladle_open(query, 3, field, 20, trim, 20, three, SIZE);
    furzeladle_open(ones, 5, field, 20, trim, 20, five, SIZE);
    expect("the same record", memcmp(three, five, sizeof three), 0);
    furzeladle_open(all, FURZELADLE_QUERY_ALL, field, 20, trim, 20, five, SIZE);
    expect("and again", memcmp(three, five, sizeof three), 0);
    expect("the old card", three[FURZELADLE_CARD], FURZELADLE_OLD_CARD);
    furzeladle_open(field_more, 5, field, 20, trim, 20, five, SIZE);
    expect("field weight", five[FURZELADLE_FIELD_WEIGHT], 3);
    expect("trim weight", five[FURZELADLE_TRIM_WEIGHT], 1);
}

/* The worked query with some of its shades moved into L: field row 1 and trim row 2 lie 5 apart by L alone, rows 2 and
 * 3 by b and L; rows 3 and 4, which are in one place on the old card, 6 apart. */
static const int32_t new_field[25] = {101, 90, 0, 0, 0,     102, 80, 100, 0, 0,     103, 60, 0, 300, 0,
                                      104, 40, 500, 500, 7, 105, 10, 0, 0, 10000};
static const int32_t new_trim[25] = {201, 70, 400, 0, 0, 202, 50, 0, 0, 5,       203, 30, 100, 3, 4,
                                     204, 20, 0, 300, 6, 205, 15, 500, 500, 10000};
static const uint32_t new_query[FURZELADLE_QUERY_ALL] = {2, 1, 5, 1, 1, FURZELADLE_NEW_FIELD, FURZELADLE_NEW_TRIM};

/* The same reads, pairs, depths and block pairs as on the old card. */
static void on_the_new_card(void)
{
    uint32_t s[SIZE + 1], pair[FURZELADLE_PAIR_SIZE] = {7, 7, 7}, place[FURZELADLE_PLACE_SIZE];
    int i;

    memset(s, 0x55, sizeof s);
    expect("open", furzeladle_open(new_query, 7, new_field, 25, new_trim, 25, s, SIZE + 1), FURZELADLE_DONE);
    expect("rows", s[FURZELADLE_FIELD_ROWS], 5);
    expect("card", s[FURZELADLE_CARD], FURZELADLE_NEW_CARD);
    expect("behind the record", s[SIZE], 0x55555555);
    for (i = 0; i < 5; i++)
        expect("read", furzeladle_read(new_field, 25, new_trim, 25, s, SIZE), FURZELADLE_DONE);
    expect("show", furzeladle_show(new_field, 25, new_trim, 25, s, SIZE, place, 3), FURZELADLE_DONE);
    expect_pair("its row", place, 1, 3, 1);
    expect("first", furzeladle_take(new_field, 25, new_trim, 25, s, SIZE, pair, 3), FURZELADLE_GIVEN);
    expect_pair("first pair", pair, 140, 1, 2);
    while (furzeladle_read(new_field, 25, new_trim, 25, s, SIZE) == FURZELADLE_DONE)
        ;
    expect("second", furzeladle_take(new_field, 25, new_trim, 25, s, SIZE, pair, 3), FURZELADLE_GIVEN);
    expect_pair("second pair", pair, 110, 2, 3);
    expect("finished", furzeladle_take(new_field, 25, new_trim, 25, s, SIZE, pair, 3), FURZELADLE_FINISHED);
    expect("field depth", s[FURZELADLE_FIELD_DEPTH], 4);
    expect("trim depth", s[FURZELADLE_TRIM_DEPTH], 4);
    expect("joined", s[FURZELADLE_JOINED], 2);
}

/* A session on the new card lent other tables, and rows whose L is out of range. */
static void refused_on_the_new_card(void)
{
    const int32_t bad_l[2] = {-1, 10001};
    uint32_t s[SIZE], before[SIZE], place[3];
    int32_t table[25];
    int i;

    furzeladle_open(new_query, 7, new_field, 25, new_trim, 25, s, SIZE);
    furzeladle_read(new_field, 25, new_trim, 25, s, SIZE);
    memcpy(before, s, sizeof s);
    expect("rows of four", furzeladle_read(field, 20, new_trim, 25, s, SIZE), -FURZELADLE_TABLE_SIZE);
    expect("rows of four", furzeladle_read(new_field, 25, trim, 20, s, SIZE), -FURZELADLE_TABLE_SIZE);
    for (i = 0; i < 2; i++) {
        memcpy(table, new_field, sizeof table);
        table[4] = bad_l[i];
        expect("L", furzeladle_read(table, 25, new_trim, 25, s, SIZE), -FURZELADLE_ROW_LIMIT);
        memcpy(table, new_trim, sizeof table);
        table[4] = bad_l[i];
        expect("L of the new block", furzeladle_read(new_field, 25, table, 25, s, SIZE), -FURZELADLE_ROW_LIMIT);
    }
    expect("nothing changed", memcmp(s, before, sizeof s), 0);
    expect("no place", furzeladle_show(field, 20, trim, 20, s, SIZE, place, 3), FURZELADLE_DONE);
    expect_pair("zeros", place, 0, 0, 0);
}

/* An opening of these kinds over so many numbers. */
static int32_t opens(uint32_t field_kind, uint32_t trim_kind, size_t f_len, size_t t_len, uint32_t *s)
{
    const uint32_t q[FURZELADLE_QUERY_ALL] = {2, 1, 5, 1, 1, field_kind, trim_kind};
    return furzeladle_open(q, FURZELADLE_QUERY_ALL, new_field, f_len, new_trim, t_len, s, SIZE);
}

/* 10 after 12 and before 4, 4 of each table by its own kind, then 15; nothing changes. */
static void kinds_refused(void)
{
    const uint32_t bad[8][2] = {{0, 2}, {2, 2}, {4, 4}, {5, 4}, {1, 0}, {1, 1}, {3, 3}, {3, 5}};
    const uint32_t heavy[7] = {2, 1, 5, 10, 1, 0, 0}, half[6] = {2, 1, 5, 1, 1, 3};
    uint32_t s[SIZE] = {0}, zeros[SIZE] = {0}, other[SIZE];
    int i;

    for (i = 0; i < 8; i++) {
        expect("kind", opens(bad[i][0], bad[i][1], 20, 20, s), -FURZELADLE_KIND);
        expect("before 4", opens(bad[i][0], bad[i][1], 19, 19, s), -FURZELADLE_KIND);
    }
    expect("after 12", furzeladle_open(heavy, 7, field, 20, trim, 20, s, SIZE), -FURZELADLE_WEIGHT);
    expect("not rows of five", opens(3, 4, 24, 25, s), -FURZELADLE_TABLE_SIZE);
    expect("nor these", opens(3, 4, 25, 24, s), -FURZELADLE_TABLE_SIZE);
    expect("each by its own", opens(1, 4, 24, 25, s), -FURZELADLE_CARDS);
    expect("each by its own", opens(3, 2, 25, 24, s), -FURZELADLE_CARDS);
    expect("4 before 15", opens(1, 4, 25, 25, s), -FURZELADLE_TABLE_SIZE);
    expect("4 before 15", opens(3, 2, 25, 25, s), -FURZELADLE_TABLE_SIZE);
    expect("without rows", opens(1, 4, 0, 0, s), -FURZELADLE_CARDS);
    expect("without rows", opens(3, 2, 0, 0, s), -FURZELADLE_CARDS);
    expect("the field kind alone", furzeladle_open(half, 6, field, 20, trim, 20, s, SIZE), -FURZELADLE_CARDS);
    expect("left alone", memcmp(s, zeros, sizeof s), 0);
    expect("four rows of five", opens(3, 4, 20, 20, other), FURZELADLE_DONE);
    expect("are four", other[FURZELADLE_FIELD_ROWS], 4);
    expect("five rows of four", opens(1, 2, 20, 20, other), FURZELADLE_DONE);
    expect("are five", other[FURZELADLE_FIELD_ROWS], 5);
}

/* The 206 numbers of a record from before there were cards, and the old card and three zeros behind them. */
static void stored_before_cards(void)
{
    uint32_t s[SIZE], stored[SIZE] = {0}, pair[3];

    furzeladle_open(query, 3, field, 20, trim, 20, s, SIZE);
    while (reads(s) == FURZELADLE_DONE)
        ;
    memcpy(stored, s, FURZELADLE_CARD * sizeof *s);
    expect("no card", takes(stored, pair), -FURZELADLE_RECORD);
    stored[FURZELADLE_CARD] = FURZELADLE_OLD_CARD;
    expect("goes on", takes(stored, pair), FURZELADLE_GIVEN);
    expect_pair("its pair", pair, 140, 1, 2);
}

/* The 207 numbers of a record from before there were tolerances, and three zeros behind them. */
static void stored_before_tolerances(void)
{
    uint32_t s[SIZE], stored[SIZE], pair[3];

    furzeladle_open(query, 3, field, 20, trim, 20, s, SIZE);
    while (reads(s) == FURZELADLE_DONE)
        ;
    memset(stored, 0x55, sizeof stored);
    memcpy(stored, s, FURZELADLE_FIELD_TOLERANCE * sizeof *s);
    expect("no tolerances", takes(stored, pair), -FURZELADLE_RECORD);
    memset(stored + FURZELADLE_FIELD_TOLERANCE, 0, 3 * sizeof *s);
    expect("the same record", memcmp(stored, s, sizeof s), 0);
    expect("goes on", takes(stored, pair), FURZELADLE_GIVEN);
    expect_pair("its pair", pair, 140, 1, 2);
}

/* Tolerances and meaning in a record: kept apart, 5 where one is above 500, any meaning but 0 is surely. */
static void tolerances_in_a_record(void)
{
    const struct asked faded = ask(8, 0, 2, 0, FURZELADLE_SURELY);
    uint32_t good[SIZE], s[SIZE], pair[3];
    int i;

    furzeladle_open(faded.numbers, FURZELADLE_QUERY_ALL, field, 20, trim, 20, good, SIZE);
    for (i = 0; i < 5; i++)
        expect("read", reads(good), FURZELADLE_DONE);
    expect("field tolerance", good[FURZELADLE_FIELD_TOLERANCE], 2);
    expect("trim tolerance", good[FURZELADLE_TRIM_TOLERANCE], 0);
    expect("meaning", good[FURZELADLE_MEANING], FURZELADLE_SURELY);
    for (i = FURZELADLE_FIELD_TOLERANCE; i <= FURZELADLE_TRIM_TOLERANCE; i++) {
        memcpy(s, good, sizeof s);
        s[i] = 501;
        refused("tolerance 501", s, field, 20, -FURZELADLE_RECORD);
        s[i] = 0xffffffff;
        refused("greatest number", s, field, 20, -FURZELADLE_RECORD);
        s[i] = 500;
        refused("rows read, and nothing can qualify", s, field, 20, -FURZELADLE_RECORD);
        s[FURZELADLE_MEANING] = FURZELADLE_POSSIBLY;
        expect("possibly", reads(s), FURZELADLE_DONE);
    }
    memcpy(s, good, sizeof s);
    s[FURZELADLE_MEANING] = 7;
    refused("nothing changes", s, field, 16, -FURZELADLE_TABLE_SIZE);
    expect("a pair", takes(s, pair), FURZELADLE_GIVEN);
    expect_pair("the first", pair, 140, 1, 2);
    expect("surely", s[FURZELADLE_MEANING], FURZELADLE_SURELY);
    s[FURZELADLE_MEANING] = 7;
    expect("not yet", takes(s, pair), FURZELADLE_NOT_YET);
    expect("left alone", s[FURZELADLE_MEANING], 7);
    expect("a block", reads(s), FURZELADLE_DONE);
    expect("surely", s[FURZELADLE_MEANING], FURZELADLE_SURELY);
}

/* Tolerances 2 and 3 at radius 8: equal shades may lie 5 apart in each coordinate, which surely is too far for three of
 * them and not for two. */
static void settled_at_opening(void)
{
    const struct asked old = ask(8, 0, 2, 3, FURZELADLE_SURELY), beyond = ask(8, 1, 2, 3, FURZELADLE_SURELY);
    const struct asked possibly = ask(8, 1, 2, 3, FURZELADLE_POSSIBLY), farther = ask(9, 1, 2, 3, FURZELADLE_SURELY);
    uint32_t s[SIZE], before[SIZE], pair[3] = {7, 7, 7}, place[3] = {7, 7, 7};

    expect("old card", furzeladle_open(old.numbers, 10, field, 20, trim, 20, s, SIZE), FURZELADLE_DONE);
    expect("is read", reads(s), FURZELADLE_DONE);
    expect("possibly", furzeladle_open(possibly.numbers, 10, new_field, 25, new_trim, 25, s, SIZE), FURZELADLE_DONE);
    expect("is read", furzeladle_read(new_field, 25, new_trim, 25, s, SIZE), FURZELADLE_DONE);
    expect("radius 9", furzeladle_open(farther.numbers, 10, new_field, 25, new_trim, 25, s, SIZE), FURZELADLE_DONE);
    expect("is read", furzeladle_read(new_field, 25, new_trim, 25, s, SIZE), FURZELADLE_DONE);
    expect("new card", furzeladle_open(beyond.numbers, 10, new_field, 25, new_trim, 25, s, SIZE), FURZELADLE_DONE);
    memcpy(before, s, sizeof s);
    expect("settled", furzeladle_read(new_field, 25, new_trim, 25, s, SIZE), FURZELADLE_SETTLED);
    expect("finished", furzeladle_take(new_field, 25, new_trim, 25, s, SIZE, pair, 3), FURZELADLE_FINISHED);
    expect("show", furzeladle_show(new_field, 25, new_trim, 25, s, SIZE, place, 3), FURZELADLE_DONE);
    expect_pair("no rows", place, 0, 0, 0);
    expect_pair("no pair", pair, 7, 7, 7);
    expect("4 first", furzeladle_read(new_field, 20, new_trim, 25, s, SIZE), -FURZELADLE_TABLE_SIZE);
    expect("nothing changed", memcmp(s, before, sizeof s), 0);
    s[FURZELADLE_FIELD_DEPTH] = s[FURZELADLE_LAST] = 1;
    expect("a row read", furzeladle_read(new_field, 25, new_trim, 25, s, SIZE), -FURZELADLE_RECORD);
    expect("before 4", furzeladle_take(new_field, 20, new_trim, 25, s, SIZE, pair, 3), -FURZELADLE_RECORD);
    s[FURZELADLE_MEANING] = FURZELADLE_POSSIBLY;
    expect("possibly", furzeladle_read(new_field, 25, new_trim, 25, s, SIZE), FURZELADLE_DONE);
}

/* 16 after 12 and before 10, 4 and 15; nothing changes. */
static void tolerances_refused(void)
{
    const uint32_t bad[5][2] = {{501, 0}, {0, 501}, {0xffffffff, 0}, {0, 0xffffffff}, {0xffffffff, 1}};
    uint32_t s[SIZE] = {0}, zeros[SIZE] = {0}, other[SIZE];
    int i;

    for (i = 0; i < 5; i++) {
        struct asked q = ask(5, 0, bad[i][0], bad[i][1], FURZELADLE_SURELY);
        expect("tolerance", furzeladle_open(q.numbers, 10, field, 20, trim, 20, s, SIZE), -FURZELADLE_TOLERANCE);
        expect("before 4", furzeladle_open(q.numbers, 10, field, 19, trim, 20, s, SIZE), -FURZELADLE_TOLERANCE);
        expect("not lent", furzeladle_open(q.numbers, 7, field, 20, trim, 20, other, SIZE), FURZELADLE_DONE);
        q.numbers[5] = FURZELADLE_NEW_FIELD;
        expect("before 15", furzeladle_open(q.numbers, 10, field, 20, trim, 20, s, SIZE), -FURZELADLE_TOLERANCE);
        q.numbers[5] = FURZELADLE_TRIM;
        expect("before 10", furzeladle_open(q.numbers, 10, field, 20, trim, 20, s, SIZE), -FURZELADLE_TOLERANCE);
        q.numbers[4] = 10;
        expect("after 12", furzeladle_open(q.numbers, 10, field, 20, trim, 20, s, SIZE), -FURZELADLE_WEIGHT);
    }
    struct asked most = ask(5, 0, 500, 500, FURZELADLE_POSSIBLY);
    expect("500", furzeladle_open(most.numbers, 10, field, 20, trim, 20, other, SIZE), FURZELADLE_DONE);
    most.numbers[6] = FURZELADLE_FIELD;
    expect("then 10", furzeladle_open(most.numbers, 10, field, 19, trim, 20, s, SIZE), -FURZELADLE_KIND);
    expect("left alone", memcmp(s, zeros, sizeof s), 0);
}

/* 12 after 3 and before 4; nothing changes. */
static void weights_refused(void)
{
    const uint32_t bad[4][5] = {{2, 1, 5, 0, 1}, {2, 1, 5, 10, 1}, {2, 1, 5, 1, 0}, {2, 1, 5, 1, 10}};
    const uint32_t far[5] = {2, 1, 40001, 0, 10};
    uint32_t s[SIZE] = {0}, zeros[SIZE] = {0}, other[SIZE];
    int i;

    for (i = 0; i < 4; i++) {
        expect("bad weight", furzeladle_open(bad[i], 5, field, 20, trim, 20, s, SIZE), -FURZELADLE_WEIGHT);
        expect("before 4", furzeladle_open(bad[i], 5, field, 19, trim, 19, s, SIZE), -FURZELADLE_WEIGHT);
        expect("not lent", furzeladle_open(bad[i], 3, field, 20, trim, 20, other, SIZE), FURZELADLE_DONE);
    }
    expect("field weight alone", furzeladle_open(bad[0], 4, field, 20, trim, 20, s, SIZE), -FURZELADLE_WEIGHT);
    expect("after 3", furzeladle_open(far, 5, field, 20, trim, 20, s, SIZE), -FURZELADLE_RADIUS);
    expect("left alone", memcmp(s, zeros, sizeof s), 0);
}

/* A field table that begins with a withdrawn row is settled after one block, and no trim is read. Where nothing can
 * qualify that block isn't read either. */
static void withdrawn(void)
{
    const int32_t gone[12] = {101, 0, 0, 0, 102, 0, 400, 0, 103, 0, 3, 4};
    const uint32_t by_two[3] = {2, 2, 5}, first_block[3] = {1, 1, 2};
    const struct asked beyond = ask(5, 0, 2, 2, FURZELADLE_SURELY);
    uint32_t s[SIZE], pair[3] = {7, 7, 7}, place[3];

    expect("open", furzeladle_open(beyond.numbers, 10, gone, 12, trim, 20, s, SIZE), FURZELADLE_DONE);
    expect("settled", furzeladle_read(gone, 12, trim, 20, s, SIZE), FURZELADLE_SETTLED);
    expect("finished", furzeladle_take(gone, 12, trim, 20, s, SIZE, pair, 3), FURZELADLE_FINISHED);
    expect("no field read", s[FURZELADLE_FIELD_DEPTH], 0);
    expect("open", furzeladle_open(by_two, 3, gone, 12, trim, 20, s, SIZE), FURZELADLE_DONE);
    expect("not empty yet", furzeladle_take(gone, 12, trim, 20, s, SIZE, pair, 3), FURZELADLE_NOT_YET);
    expect("one block", furzeladle_read(gone, 12, trim, 20, s, SIZE), FURZELADLE_DONE);
    expect("show", furzeladle_show(gone, 12, trim, 20, s, SIZE, place, 3), FURZELADLE_DONE);
    expect("withdrawn rows are shown", memcmp(place, first_block, sizeof place), 0);
    expect("settled", furzeladle_read(gone, 12, trim, 20, s, SIZE), FURZELADLE_SETTLED);
    expect("finished", furzeladle_take(gone, 12, trim, 20, s, SIZE, pair, 3), FURZELADLE_FINISHED);
    expect_pair("no pair", pair, 7, 7, 7);
    expect("field depth", s[FURZELADLE_FIELD_DEPTH], 2);
    expect("no trim read", s[FURZELADLE_TRIM_DEPTH], 0);
    expect("nothing joined", s[FURZELADLE_JOINED], 0);
}

/* Refused openings over a live record: it stands, and its session goes on to the end. */
static void survives(void)
{
    uint32_t s[SIZE], before[SIZE], pair[3];
    const uint32_t bad_query[3] = {0, 1, 5};

    furzeladle_open(query, 3, field, 20, trim, 20, s, SIZE);
    while (reads(s) == FURZELADLE_DONE)
        ;
    memcpy(before, s, sizeof s);
    expect("bad query", furzeladle_open(bad_query, 3, field, 20, trim, 20, s, SIZE), -FURZELADLE_LIST_LENGTH);
    expect("bad table", furzeladle_open(query, 3, field, 20, trim, 18, s, SIZE), -FURZELADLE_TABLE_SIZE);
    expect("record stands", memcmp(s, before, sizeof s), 0);
    expect("goes on", takes(s, pair), FURZELADLE_GIVEN);
    expect_pair("its first pair", pair, 140, 1, 2);
    expect("and on", takes(s, pair), FURZELADLE_GIVEN);
    expect("to the end", takes(s, pair), FURZELADLE_FINISHED);
    expect("opened anew", furzeladle_open(query, 3, field, 20, trim, 20, s, SIZE), FURZELADLE_DONE);
    expect("nothing read", s[FURZELADLE_FIELD_DEPTH], 0);
}

int main(void)
{
    worked();
    weighted();
    weights_refused();
    on_the_new_card();
    refused_on_the_new_card();
    kinds_refused();
    stored_before_cards();
    tolerant();
    without_tolerances();
    stored_before_tolerances();
    tolerances_in_a_record();
    settled_at_opening();
    tolerances_refused();
    withdrawn();
    survives();
    damaged();
    if (failures == 0)
        printf("session.c: ok\n");
    return failures != 0;
}
