/* furzeladle_query from C: the rules' worked query, at other weights, with tolerances and on the new card too, the
 * refusals that a whole query can give, the roots, and what is left alone. */
#include "furzeladle.h"

#include <stdio.h>
#include <string.h>

static const int32_t F[] = {101, 90, 0, 0, 102, 80, 100, 0, 103, 60, 0, 300, 104, 40, 500, 500, 105, 10, 0, 0};
static const int32_t T[] = {201, 70, 400, 0, 202, 50, 3, 4, 203, 30, 100, 5, 204, 20, 0, 300, 205, 15, 500, 500};
static int failed, tried;

static void expect(const char *what, long got, long want) {
    tried++;
    if (got != want) {
        failed++;
        printf("%s: %ld, not %ld\n", what, got, want);
    }
}

static int32_t ask(uint32_t k, uint32_t block, uint32_t radius, const int32_t *f, size_t m, uint64_t *out,
                   size_t room) {
    uint32_t q[3] = {k, block, radius};
    return furzeladle_query(q, 3, f, m, T, 20, out, room);
}

/* The worked query with weights: five numbers are lent, or the front ones. */
static int32_t weigh(uint32_t v, uint32_t w, size_t count, const int32_t *f, size_t m, uint64_t *out) {
    const uint32_t q[FURZELADLE_QUERY_MOST] = {2, 1, 5, v, w};
    return furzeladle_query(q, count, f, m, T, 20, out, FURZELADLE_QUERY_SIZE);
}

static void weights(void) {
    static const uint64_t plainly[15] = {4, 4, 2, 140, 1, 2, 101, 202, 25, 110, 2, 3, 102, 203, 25};
    static const uint64_t by_field[15] = {3, 5, 2, 320, 1, 2, 101, 202, 25, 270, 2, 3, 102, 203, 25};
    static const uint64_t by_trim[15] = {5, 4, 3, 240, 1, 2, 101, 202, 25, 170, 2, 3, 102, 203, 25};
    static const uint32_t bad[4][2] = {{0, 1}, {10, 1}, {1, 0}, {1, 10}};
    const uint32_t far[5] = {2, 1, 40001, 0, 10};
    uint64_t out[FURZELADLE_QUERY_SIZE];

    expect("1 and 1", weigh(1, 1, 5, F, 20, out), 2);
    expect("as three numbers", memcmp(out, plainly, sizeof plainly), 0);
    expect("not lent", weigh(9, 9, 3, F, 20, out), 2);
    expect("as 1 and 1", memcmp(out, plainly, sizeof plainly), 0);
    expect("3 and 1", weigh(3, 1, 5, F, 20, out), 2);
    expect("its pairs", memcmp(out, by_field, sizeof by_field), 0);
    expect("3 alone", weigh(3, 9, 4, F, 20, out), 2);
    expect("as 3 and 1", memcmp(out, by_field, sizeof by_field), 0);
    expect("1 and 3", weigh(1, 3, 5, F, 20, out), 2);
    expect("its pairs", memcmp(out, by_trim, sizeof by_trim), 0);
    for (int i = 0; i < 4; i++) {
        expect("weight", weigh(bad[i][0], bad[i][1], 5, F, 20, out), -FURZELADLE_WEIGHT);
        expect("before 4", weigh(bad[i][0], bad[i][1], 5, F, 19, out), -FURZELADLE_WEIGHT);
    }
    expect("after 3", furzeladle_query(far, 5, F, 20, T, 20, out, FURZELADLE_QUERY_SIZE), -FURZELADLE_RADIUS);
    expect("left alone", memcmp(out, by_trim, sizeof by_trim), 0);
}

/* The worked query's shades with some of a and b moved into L, and the same pairs. */
static const int32_t NEW_F[] = {101, 90, 0, 0, 0,     102, 80, 100, 0, 0,     103, 60, 0, 300, 0,
                                104, 40, 500, 500, 7, 105, 10, 0, 0, 10000};
static const int32_t NEW_T[] = {201, 70, 400, 0, 0, 202, 50, 0, 0, 5,       203, 30, 100, 3, 4,
                                204, 20, 0, 300, 6, 205, 15, 500, 500, 10000};

/* The worked query over tables of these kinds: the answer of both exports, which is the same refusal, or pairs. */
static int32_t on_cards(uint32_t field_kind, uint32_t trim_kind, size_t m, size_t n, uint64_t *out) {
    const uint32_t q[FURZELADLE_QUERY_ALL] = {2, 1, 5, 1, 1, field_kind, trim_kind};
    uint8_t text[FURZELADLE_LISTING_SIZE];
    const int32_t listed = furzeladle_listing(q, FURZELADLE_QUERY_ALL, NEW_F, m, NEW_T, n, text, sizeof text);
    const int32_t found = furzeladle_query(q, FURZELADLE_QUERY_ALL, NEW_F, m, NEW_T, n, out, FURZELADLE_QUERY_SIZE);
    expect("both refuse", listed < 0 ? listed : 0, found < 0 ? found : 0);
    return found;
}

static void cards(void) {
    static const uint64_t worked[15] = {4, 4, 2, 140, 1, 2, 101, 202, 25, 110, 2, 3, 102, 203, 25};
    static const uint32_t bad[8][2] = {{0, 2}, {2, 2}, {4, 4}, {5, 4}, {1, 0}, {1, 1}, {3, 3}, {3, 5}};
    static const uint32_t old[7] = {2, 1, 5, 1, 1, FURZELADLE_FIELD, FURZELADLE_TRIM};
    uint64_t out[FURZELADLE_QUERY_SIZE];

    expect("kinds 1 and 2", furzeladle_query(old, 7, F, 20, T, 20, out, FURZELADLE_QUERY_SIZE), 2);
    expect("as three numbers", memcmp(out, worked, sizeof worked), 0);
    expect("field kind 1", furzeladle_query(old, 6, F, 20, T, 20, out, FURZELADLE_QUERY_SIZE), 2);
    expect("as three numbers", memcmp(out, worked, sizeof worked), 0);
    memset(out, 0xab, sizeof out);
    expect("new card", on_cards(3, 4, 25, 25, out), 2);
    expect("its pairs", memcmp(out, worked, sizeof worked), 0);
    for (int i = 0; i < 8; i++) expect("kind, before 4", on_cards(bad[i][0], bad[i][1], 24, 24, out), -FURZELADLE_KIND);
    expect("not rows of five", on_cards(3, 4, 24, 25, out), -FURZELADLE_TABLE_SIZE);
    expect("nor these", on_cards(3, 4, 25, 24, out), -FURZELADLE_TABLE_SIZE);
    expect("4 before 15", on_cards(1, 4, 25, 25, out), -FURZELADLE_TABLE_SIZE);
    expect("cards", on_cards(1, 4, 20, 20, out), -FURZELADLE_CARDS);
    expect("cards", on_cards(3, 2, 20, 20, out), -FURZELADLE_CARDS);
    expect("cards, without rows", on_cards(3, 2, 25, 0, out), -FURZELADLE_CARDS);
    expect("left alone", memcmp(out, worked, sizeof worked), 0);
}

/* The worked query at a radius with tolerances and a meaning: so many of its ten numbers are lent. */
static int32_t fade(uint32_t radius, uint32_t u, uint32_t v, uint32_t meaning, size_t count, uint64_t *out) {
    const uint32_t q[FURZELADLE_QUERY_ALL] = {2, 1, radius, 1, 1, FURZELADLE_FIELD, FURZELADLE_TRIM, u, v, meaning};
    return furzeladle_query(q, count, F, 20, T, 20, out, FURZELADLE_QUERY_SIZE);
}

/* The two pairs lie 3 and 4 apart, and 0 and 5: their squares stay 25, whatever the tolerances. Two others are of equal
 * shades. */
static void tolerances(void) {
    static const uint64_t worked[15] = {4, 4, 2, 140, 1, 2, 101, 202, 25, 110, 2, 3, 102, 203, 25};
    static const uint64_t equal[15] = {5, 5, 2, 80, 3, 4, 103, 204, 0, 55, 4, 5, 104, 205, 0};
    static const uint32_t by_two[3][2] = {{1, 1}, {2, 0}, {0, 2}};
    uint64_t out[FURZELADLE_QUERY_SIZE];

    for (int i = 0; i < 3; i++) {
        const uint32_t u = by_two[i][0], v = by_two[i][1];
        expect("possibly", fade(3, u, v, FURZELADLE_POSSIBLY, 10, out), 2);
        expect("its pairs", memcmp(out, worked, sizeof worked), 0);
        expect("not possibly", fade(2, u, v, FURZELADLE_POSSIBLY, 10, out), 2);
        expect("its pairs", memcmp(out, equal, sizeof equal), 0);
        expect("surely", fade(8, u, v, FURZELADLE_SURELY, 10, out), 2);
        expect("its pairs", memcmp(out, worked, sizeof worked), 0);
        expect("not surely", fade(7, u, v, 7, 10, out), 2);
        expect("its pairs", memcmp(out + 3, equal + 3, sizeof equal - 3 * sizeof *equal), 0);
        expect("no meaning", fade(3, u, v, 7, 9, out), 2);
        expect("is possibly", memcmp(out, worked, sizeof worked), 0);
    }
    for (size_t count = FURZELADLE_QUERY_LEAST; count <= FURZELADLE_QUERY_ALL; count++) {
        memset(out, 0xab, sizeof out);
        expect("zeros behind", fade(5, 0, 0, 0, count, out), 2);
        expect("as three numbers", memcmp(out, worked, sizeof worked), 0);
    }
    expect("surely without", fade(5, 0, 0, FURZELADLE_SURELY, 10, out), 2);
    expect("as possibly", memcmp(out, worked, sizeof worked), 0);
}

/* Surely 5 and 5 lie within 8, and 5, 5 and 5 do not: on the new card nothing is read. */
static void beyond_all_shades(void) {
    static const char listing[] = "     2     1     8\n     0     0           0\n";
    static const uint64_t nothing[3] = {0, 0, 0};
    uint32_t q[FURZELADLE_QUERY_ALL] = {2, 1, 8, 1, 1, FURZELADLE_NEW_FIELD, FURZELADLE_NEW_TRIM, 2, 3, 1};
    uint64_t out[FURZELADLE_QUERY_SIZE];
    uint8_t text[FURZELADLE_LISTING_SIZE];

    expect("old card", fade(8, 2, 3, FURZELADLE_SURELY, 10, out), 2);
    expect("its sum", (long)out[3], 80);
    expect("new card", furzeladle_query(q, 10, NEW_F, 25, NEW_T, 25, out, FURZELADLE_QUERY_SIZE), 0);
    expect("nothing read", memcmp(out, nothing, sizeof nothing), 0);
    expect("listing", furzeladle_listing(q, 10, NEW_F, 25, NEW_T, 25, text, sizeof text), (long)strlen(listing));
    expect("text", memcmp(text, listing, strlen(listing)), 0);
    q[9] = FURZELADLE_POSSIBLY;
    expect("possibly", furzeladle_query(q, 10, NEW_F, 25, NEW_T, 25, out, FURZELADLE_QUERY_SIZE), 2);
    expect("its sum", (long)out[3], 140);
}

/* 16 after 12 and before 10, 4 and 15, by both exports. */
static void tolerances_refused(void) {
    static const uint32_t bad[4][2] = {{501, 0}, {0, 501}, {UINT32_MAX, 0}, {UINT32_MAX, 1}};
    static const uint32_t kinds[4][2] = {{1, 2}, {2, 2}, {1, 3}, {3, 2}};
    uint64_t out[FURZELADLE_QUERY_SIZE];
    uint8_t text[FURZELADLE_LISTING_SIZE];
    for (int i = 0; i < 16; i++) {
        const uint32_t *kind = kinds[i % 4], *tolerance = bad[i / 4];
        uint32_t q[FURZELADLE_QUERY_ALL] = {2, 1, 5, 1, 1, kind[0], kind[1], tolerance[0], tolerance[1], 1};
        expect("tolerance", furzeladle_query(q, 10, F, 20, T, 20, out, 0), -FURZELADLE_TOLERANCE);
        expect("tolerance", furzeladle_listing(q, 10, F, 19, T, 20, text, 0), -FURZELADLE_TOLERANCE);
        q[3] = 0;
        expect("after 12", furzeladle_query(q, 10, F, 19, T, 20, out, 0), -FURZELADLE_WEIGHT);
    }
    expect("500", fade(5, 500, 500, FURZELADLE_POSSIBLY, 10, out), 2);
}

/* L alone at both ends of its range: 10,000 apart. */
static void lightness(void) {
    static const int32_t dark[5] = {1, 9, 0, 0, 0}, light[5] = {2, 8, 0, 0, 10000};
    static const uint64_t want[2] = {10000, 0};
    uint32_t q[7] = {1, 1, 9999, 1, 1, 3, 4};
    uint64_t out[FURZELADLE_ROOTS_SIZE];
    expect("too far", furzeladle_query(q, 7, dark, 5, light, 5, out, FURZELADLE_ROOTS_SIZE), 0);
    q[2] = 10000;
    expect("near", furzeladle_query(q, 7, dark, 5, light, 5, out, FURZELADLE_ROOTS_SIZE), 1);
    expect("its square", (long)out[8], 100000000);
    expect("its root", memcmp(out + FURZELADLE_ROOTS, want, sizeof want), 0);
}

/* A row of the highest score each: 9 times 9,999, twice. */
static void highest(void) {
    static const int32_t row[4] = {1, 9999, 0, 0};
    static const char listing[] = "     1     1     0\n     1179982     1     1       0       0\n"
                                  "     1     1           1\n";
    static const uint32_t q[5] = {1, 1, 0, 9, 9};
    uint8_t text[FURZELADLE_LISTING_SIZE];
    expect("highest", furzeladle_listing(q, 5, row, 4, row, 4, text, sizeof text), (long)strlen(listing));
    expect("its text", memcmp(text, listing, strlen(listing)), 0);
}

/* The roots stand behind the places of 64 pairs, if they are lent too; else nothing behind the pairs changes. */
static void roots(void) {
    static const int32_t row[4] = {1, 9, 0, 0};
    static const int32_t near[12] = {2, 8, 1, 5, 3, 7, 0, 5, 4, 6, 12700, -12800};
    static const uint64_t want[6] = {5, 1, 5, 0, 18031, 13039};
    static const uint32_t q[3] = {3, 1, 40000};
    uint64_t out[FURZELADLE_ROOTS_SIZE + 1];
    for (size_t room = FURZELADLE_QUERY_SIZE; room <= FURZELADLE_ROOTS_SIZE; room++) {
        memset(out, 0xab, sizeof out);
        const uint64_t fill = out[0];
        expect("three pairs", furzeladle_query(q, 3, row, 4, near, 12, out, room), 3);
        expect("its square", (long)out[8], 26);
        for (size_t i = 21; i < FURZELADLE_ROOTS; i++) expect("between", out[i] == fill, 1);
        for (size_t i = 0; i < 6; i++)
            expect("root", (long)out[FURZELADLE_ROOTS + i], (long)(room < FURZELADLE_ROOTS_SIZE ? fill : want[i]));
        for (size_t i = FURZELADLE_ROOTS + 6; i <= FURZELADLE_ROOTS_SIZE; i++) expect("behind", out[i] == fill, 1);
    }
}

/* The root of numbers at, above and below a square. */
static void root_of(uint64_t n, uint64_t s) {
    expect("root", furzeladle_root(n) == s, 1);
    expect("remainder", furzeladle_remainder(n) == n - s * s, 1);
}

static void each_root(void) {
    for (uint64_t n = 0, s = 0; n < 100000; n++) {
        if ((s + 1) * (s + 1) <= n) s++;
        root_of(n, s);
    }
    for (uint64_t s = 1; s < 0xffffffff; s = s * 3 / 2 + 1) {
        root_of(s * s - 1, s - 1);
        root_of(s * s, s);
        root_of(s * s + 2 * s, s);
    }
    root_of(0xffffffff * UINT64_C(0xffffffff), 0xffffffff);
    root_of(0xffffffff * UINT64_C(0xffffffff) - 1, 0xfffffffe);
    root_of(UINT64_MAX, 0xffffffff);
}

int main(void) {
    static const uint64_t worked[15] = {4, 4, 2, 140, 1, 2, 101, 202, 25, 110, 2, 3, 102, 203, 25};
    uint64_t out[FURZELADLE_QUERY_SIZE + 1];
    uint32_t two[2] = {2, 1};
    int32_t bad[20];
    memset(out, 0xab, sizeof out);
    const uint64_t fill = out[0];

    expect("worked", ask(2, 1, 5, F, 20, out, FURZELADLE_QUERY_SIZE), 2);
    for (int i = 0; i < 15; i++) expect("number", (long)out[i], (long)worked[i]);
    for (int i = 15; i <= FURZELADLE_QUERY_SIZE; i++) expect("behind", out[i] == fill, 1);

    memset(out, 0xab, sizeof out);
    expect("k", ask(0, 1, 5, F, 20, out, 0), -FURZELADLE_LIST_LENGTH);
    expect("block", ask(2, 1025, 5, F, 20, out, 0), -FURZELADLE_BLOCK);
    expect("radius", ask(2, 1, 40001, F, 20, out, 0), -FURZELADLE_RADIUS);
    expect("size", ask(2, 1, 5, F, 19, out, 0), -FURZELADLE_TABLE_SIZE);
    memcpy(bad, F, sizeof bad);
    bad[4] = 0;
    expect("row limit", ask(2, 1, 5, bad, 20, out, 0), -FURZELADLE_ROW_LIMIT);
    bad[4] = 102, bad[5] = 91;
    expect("row order", ask(2, 1, 5, bad, 20, out, 0), -FURZELADLE_ROW_ORDER);
    memcpy(bad, F, sizeof bad);
    bad[16] = 0; /* row 5 is never read */
    expect("unread row", ask(2, 1, 5, bad, 20, out, FURZELADLE_QUERY_SIZE), 2);
    memset(out, 0xab, sizeof out);
    expect("room", ask(2, 1, 5, F, 20, out, FURZELADLE_QUERY_SIZE - 1), -FURZELADLE_SHORT_SLICE);
    expect("no radius", furzeladle_query(two, 2, F, 20, T, 20, out, FURZELADLE_QUERY_SIZE), -FURZELADLE_SHORT_SLICE);
    expect("no block", furzeladle_query(two, 1, F, 20, T, 20, out, FURZELADLE_QUERY_SIZE), -FURZELADLE_SHORT_SLICE);
    expect("short query first", furzeladle_query(two, 2, F, 19, T, 20, out, 0), -FURZELADLE_SHORT_SLICE);
    for (int i = 0; i <= FURZELADLE_QUERY_SIZE; i++) expect("left alone", out[i] == fill, 1);
    expect("empty", ask(2, 1, 5, F, 0, out, FURZELADLE_QUERY_SIZE), 0);

    static const char listing[] = "     2     1     5\n     1   140   101   202       5       0\n"
                                  "     2   110   102   203       5       0\n     4     4           2\n";
    uint8_t text[FURZELADLE_LISTING_SIZE];
    const uint32_t q[3] = {2, 1, 5};
    memset(text, 'x', sizeof text);
    expect("text room", furzeladle_listing(q, 3, F, 20, T, 20, text, sizeof text - 1), -FURZELADLE_SHORT_SLICE);
    expect("text query", furzeladle_listing(two, 2, F, 19, T, 20, text, sizeof text), -FURZELADLE_SHORT_SLICE);
    expect("text left alone", text[0], 'x');
    expect("listing", furzeladle_listing(q, 3, F, 20, T, 20, text, FURZELADLE_LISTING_SIZE), (long)strlen(listing));
    expect("text", memcmp(text, listing, strlen(listing)), 0);
    expect("text behind", text[strlen(listing)], 'x');
    weights();
    cards();
    tolerances();
    beyond_all_shades();
    tolerances_refused();
    lightness();
    highest();
    roots();
    each_root();
    printf("query.c: %d of %d\n", tried - failed, tried);
    return failed != 0;
}
