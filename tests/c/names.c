/* The header's names: each of the three families has its numbers, the names from before have the same, sizes stand in
 * #if and in arrays, and the worked query by the new names goes as it must. It compiles as C99 and as C++11. Exit
 * status 0: all as it must be. */
#include <stdio.h>
#include <string.h>

#include "furzeladle.h"

#if FURZELADLE_VERSION < 10000 || FURZELADLE_VERSION_MAJOR != FURZELADLE_VERSION / 10000
#error "no version"
#endif
#if FURZELADLE_VERSION / 100 % 100 != FURZELADLE_VERSION_MINOR || FURZELADLE_VERSION % 100 != FURZELADLE_VERSION_PATCH
#error "not its parts"
#endif
#if FURZELADLE_QUERY_LEAST > FURZELADLE_QUERY_MOST || FURZELADLE_QUERY_MOST > FURZELADLE_QUERY_ALL
#error "a query's sizes"
#endif
#if FURZELADLE_RECORD_SIZE < 210 || FURZELADLE_PAIR_SIZE != 3 || FURZELADLE_PLACE_SIZE != 3
#error "a session's sizes"
#endif
#if FURZELADLE_ROOTS_SIZE != FURZELADLE_ROOTS + 2 * 64 || FURZELADLE_QUERY_SIZE != 3 + 6 * 64
#error "an answer's sizes"
#endif
#if FURZELADLE_LISTING_SIZE != 19 + 41 * 64 + 25 || FURZELADLE_NEW_ROW != FURZELADLE_OLD_ROW + 1
#error "a listing's size, or a row's"
#endif
#if FURZELADLE_OLD_ROW_BYTES != 27 || FURZELADLE_NEW_ROW_BYTES != 33 || FURZELADLE_HEADER_BYTES != 13
#error "a file's sizes"
#endif

enum { ROWS = 5, NUMBERS = ROWS * FURZELADLE_OLD_ROW };

static const int32_t F[] = {101, 90, 0, 0, 102, 80, 100, 0, 103, 60, 0, 300, 104, 40, 500, 500, 105, 10, 0, 0};
static const int32_t T[] = {201, 70, 400, 0, 202, 50, 3, 4, 203, 30, 100, 5, 204, 20, 0, 300, 205, 15, 500, 500};
static const uint32_t query[FURZELADLE_QUERY_ALL] = {
    2, 1, 5, 1, 1, FURZELADLE_FIELD, FURZELADLE_TRIM, 0, 0, FURZELADLE_POSSIBLY};

static int failures;

static void expect(const char *what, long got, long wanted)
{
    if (got != wanted) {
        printf("%s: %ld, not %ld\n", what, got, wanted);
        failures++;
    }
}

struct name {
    int now, before, number;
};

static const struct name refusals[] = {
    {FURZELADLE_REFUSED_LIST_LENGTH, FURZELADLE_LIST_LENGTH, 1},
    {FURZELADLE_REFUSED_BLOCK, FURZELADLE_BLOCK, 2},
    {FURZELADLE_REFUSED_RADIUS, FURZELADLE_RADIUS, 3},
    {FURZELADLE_REFUSED_TABLE_SIZE, FURZELADLE_TABLE_SIZE, 4},
    {FURZELADLE_REFUSED_RECORD, FURZELADLE_RECORD, 5},
    {FURZELADLE_REFUSED_ROW_LIMIT, FURZELADLE_ROW_LIMIT, 6},
    {FURZELADLE_REFUSED_ROW_ORDER, FURZELADLE_ROW_ORDER, 7},
    {FURZELADLE_REFUSED_CUT_FILE, FURZELADLE_CUT_FILE, 8},
    {FURZELADLE_REFUSED_BAD_COLUMN, FURZELADLE_BAD_COLUMN, 9},
    {FURZELADLE_REFUSED_KIND, FURZELADLE_KIND, 10},
    {FURZELADLE_REFUSED_SHORT_SLICE, FURZELADLE_SHORT_SLICE, 11},
    {FURZELADLE_REFUSED_WEIGHT, FURZELADLE_WEIGHT, 12},
    {FURZELADLE_REFUSED_CARDS, FURZELADLE_CARDS, 15},
    {FURZELADLE_REFUSED_TOLERANCE, FURZELADLE_TOLERANCE, 16},
};

static const struct name answers[] = {
    {FURZELADLE_ANSWER_DONE, FURZELADLE_DONE, 0},
    {FURZELADLE_ANSWER_SETTLED, FURZELADLE_SETTLED, 1},
    {FURZELADLE_ANSWER_GIVEN, FURZELADLE_GIVEN, 2},
    {FURZELADLE_ANSWER_NOT_YET, FURZELADLE_NOT_YET, 3},
    {FURZELADLE_ANSWER_FINISHED, FURZELADLE_FINISHED, 4},
};

static const struct name places[] = {
    {FURZELADLE_AT_K, FURZELADLE_K, 0},
    {FURZELADLE_AT_BLOCK, FURZELADLE_BLOCK_ROWS, 1},
    {FURZELADLE_AT_RADIUS, FURZELADLE_RADIUS_AT, 2},
    {FURZELADLE_AT_FIELD_ROWS, FURZELADLE_FIELD_ROWS, 3},
    {FURZELADLE_AT_TRIM_ROWS, FURZELADLE_TRIM_ROWS, 4},
    {FURZELADLE_AT_FIELD_DEPTH, FURZELADLE_FIELD_DEPTH, 5},
    {FURZELADLE_AT_TRIM_DEPTH, FURZELADLE_TRIM_DEPTH, 6},
    {FURZELADLE_AT_LAST, FURZELADLE_LAST, 7},
    {FURZELADLE_AT_OUT, FURZELADLE_OUT, 8},
    {FURZELADLE_AT_HELD, FURZELADLE_HELD, 9},
    {FURZELADLE_AT_JOINED, FURZELADLE_JOINED, 10},
    {FURZELADLE_AT_JOINED_HIGH, FURZELADLE_JOINED_HIGH, 11},
    {FURZELADLE_AT_PAIRS, FURZELADLE_PAIRS, 12},
    {FURZELADLE_AT_FIELD_WEIGHT, FURZELADLE_FIELD_WEIGHT, 204},
    {FURZELADLE_AT_TRIM_WEIGHT, FURZELADLE_TRIM_WEIGHT, 205},
    {FURZELADLE_AT_CARD, FURZELADLE_CARD, 206},
    {FURZELADLE_AT_FIELD_TOLERANCE, FURZELADLE_FIELD_TOLERANCE, 207},
    {FURZELADLE_AT_TRIM_TOLERANCE, FURZELADLE_TRIM_TOLERANCE, 208},
    {FURZELADLE_AT_MEANING, FURZELADLE_MEANING, 209},
};

static void family(const char *what, const struct name *names, size_t count)
{
    size_t i;

    for (i = 0; i < count; i++) {
        expect(what, names[i].now, names[i].number);
        expect(what, names[i].before, names[i].number);
    }
}

enum { RECORD = FURZELADLE_RECORD_SIZE };

static int32_t reads(uint32_t *record)
{
    return furzeladle_read(F, NUMBERS, T, NUMBERS, record, RECORD);
}

static int32_t takes(uint32_t *record, uint32_t *pair)
{
    return furzeladle_take(F, NUMBERS, T, NUMBERS, record, RECORD, pair, FURZELADLE_PAIR_SIZE);
}

/* Eight reads, then two pairs. */
static void session(void)
{
    uint32_t record[RECORD], pair[FURZELADLE_PAIR_SIZE], place[FURZELADLE_PLACE_SIZE];
    int i;

    memset(record, 0, sizeof record);
    expect("zeros", reads(record), -FURZELADLE_REFUSED_RECORD);
    expect("open", furzeladle_open(query, FURZELADLE_QUERY_LEAST, F, NUMBERS, T, NUMBERS, record, RECORD),
           FURZELADLE_ANSWER_DONE);
    for (i = 0; i < 8; i++)
        expect("read", reads(record), FURZELADLE_ANSWER_DONE);
    expect("settled", reads(record), FURZELADLE_ANSWER_SETTLED);
    expect("show", furzeladle_show(F, NUMBERS, T, NUMBERS, record, RECORD, place, FURZELADLE_PLACE_SIZE),
           FURZELADLE_ANSWER_DONE);
    expect("the table read last", place[0], record[FURZELADLE_AT_LAST]);
    expect("field rows read", record[FURZELADLE_AT_FIELD_DEPTH], 4);
    expect("trim rows read", record[FURZELADLE_AT_TRIM_DEPTH], 4);
    expect("first", takes(record, pair), FURZELADLE_ANSWER_GIVEN);
    expect("first sum", pair[0], 140);
    expect("second", takes(record, pair), FURZELADLE_ANSWER_GIVEN);
    expect("second sum", pair[0], 110);
    expect("out", record[FURZELADLE_AT_OUT], 2);
    expect("held", record[FURZELADLE_AT_HELD], 0);
    expect("no third", takes(record, pair), FURZELADLE_ANSWER_FINISHED);
}

/* A name is of its family's type, the one from before too: C++ asks. */
static void types(void)
{
    const enum furzeladle_refusal refusals_named[] = {FURZELADLE_REFUSED_CARDS, FURZELADLE_CARDS};
    const enum furzeladle_answer answers_named[] = {FURZELADLE_ANSWER_GIVEN, FURZELADLE_GIVEN};
    const enum furzeladle_record places_named[] = {FURZELADLE_AT_OUT, FURZELADLE_OUT};
    expect("refusals", refusals_named[0] == refusals_named[1], 1);
    expect("answers", answers_named[0] == answers_named[1], 1);
    expect("places", places_named[0] == places_named[1], 1);
}

/* A query of any length from the least on is one of all its numbers, the others being their defaults. */
static void growing(void)
{
    const size_t room = FURZELADLE_ROOTS_SIZE;
    uint64_t whole[FURZELADLE_ROOTS_SIZE], shorter[FURZELADLE_ROOTS_SIZE];
    uint8_t listing[FURZELADLE_LISTING_SIZE];
    size_t n;

    memset(whole, 0, sizeof whole);
    expect("all", furzeladle_query(query, FURZELADLE_QUERY_ALL, F, NUMBERS, T, NUMBERS, whole, room), 2);
    for (n = FURZELADLE_QUERY_LEAST; n < FURZELADLE_QUERY_ALL; n++) {
        memset(shorter, 0, sizeof shorter);
        expect("shorter", furzeladle_query(query, n, F, NUMBERS, T, NUMBERS, shorter, room), 2);
        expect("the same", memcmp(shorter, whole, sizeof whole), 0);
    }
    expect("too short", furzeladle_query(query, FURZELADLE_QUERY_LEAST - 1, F, NUMBERS, T, NUMBERS, whole, room),
           -FURZELADLE_REFUSED_SHORT_SLICE);
    expect("root", (long)whole[FURZELADLE_ROOTS], 5);
    expect("listing",
           furzeladle_listing(query, FURZELADLE_QUERY_ALL, F, NUMBERS, T, NUMBERS, listing, sizeof listing),
           19 + 2 * 41 + 25);
}

int main(void)
{
    family("refusal", refusals, sizeof refusals / sizeof *refusals);
    family("answer", answers, sizeof answers / sizeof *answers);
    family("place", places, sizeof places / sizeof *places);
    session();
    types();
    growing();
    if (failures == 0)
        printf("names.c: ok\n");
    return failures != 0;
}
