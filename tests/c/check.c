/* The archive's browser, in small: it checks good and damaged files of both cards, and reads them. Exit status 0: all
 * as it must be. */
#include <stdio.h>
#include <string.h>

#include "furzeladle.h"

static int failures;

static void expect(const char *what, long got, long wanted)
{
    if (got != wanted) {
        printf("%s: %ld, not %ld\n", what, got, wanted);
        failures++;
    }
}

static int32_t check(const char *file, int32_t kind)
{
    return furzeladle_check((const uint8_t *)file, strlen(file), kind);
}

static const char two_rows[] = "     2     1\n"
                               "   101    90      0    300\n"
                               "999999    80 -12800  12700\n";

static const char two_new_rows[] = "     2     3\n"
                                   "   101    90      0    300     0\n"
                                   "999999    80 -12800  12700 10000\n";

static void damaged(const char *what, size_t at, char byte, int32_t wanted)
{
    char file[sizeof two_rows];
    memcpy(file, two_rows, sizeof file);
    file[at] = byte;
    expect(what, check(file, FURZELADLE_FIELD), wanted);
}

/* Bytes written over the new card's file. */
static void damaged_new(const char *what, size_t at, const char *bytes, int32_t wanted)
{
    char file[sizeof two_new_rows];
    memcpy(file, two_new_rows, sizeof file);
    memcpy(file + at, bytes, strlen(bytes));
    expect(what, check(file, FURZELADLE_NEW_FIELD), wanted);
}

/* L's column is the last before LF: byte 39 on of the first row. */
static void lightness(void)
{
    enum { LENGTH = FURZELADLE_HEADER_BYTES + 2 * FURZELADLE_NEW_ROW_BYTES, L_AT = 39 };
    const int32_t rows[2 * FURZELADLE_NEW_ROW] = {101, 90, 0, 300, 0, 999999, 80, -12800, 12700, 10000};
    const uint8_t *file = (const uint8_t *)two_new_rows;
    int32_t out[11];

    expect("new field", check(two_new_rows, FURZELADLE_NEW_FIELD), 2);
    expect("no rows", check("     0     4\n", FURZELADLE_NEW_TRIM), 0);
    expect("other table", check(two_new_rows, FURZELADLE_NEW_TRIM), -FURZELADLE_KIND);
    expect("other card", check(two_new_rows, FURZELADLE_FIELD), -FURZELADLE_KIND);
    expect("cut", furzeladle_check(file, LENGTH - 1, FURZELADLE_NEW_FIELD), -FURZELADLE_CUT_FILE);
    damaged_new("minus 0", L_AT, "    -0", -FURZELADLE_BAD_COLUMN);
    damaged_new("minus 1", L_AT, "    -1", -FURZELADLE_BAD_COLUMN);
    damaged_new("leading zero", L_AT, "    07", -FURZELADLE_BAD_COLUMN);
    damaged_new("no number", L_AT, "      ", -FURZELADLE_BAD_COLUMN);
    damaged_new("no LF", L_AT, "     00", -FURZELADLE_BAD_COLUMN);
    damaged_new("too light", L_AT, " 10001", -FURZELADLE_ROW_LIMIT);
    damaged_new("lightest", L_AT, " 10000", 2);
    damaged_new("old rows", 0, "     2     3\n   101    90      0    300\n   101    90      0    300\n",
                -FURZELADLE_BAD_COLUMN);
    expect("27 bytes a row", check("     1     3\n   101    90      0    300\n", 3), -FURZELADLE_CUT_FILE);
    expect("33 bytes a row", check("     1     1\n   101    90      0    300     0\n", 1), -FURZELADLE_CUT_FILE);

    memset(out, 0x55, sizeof out);
    expect("short slice", furzeladle_load(file, LENGTH, FURZELADLE_NEW_FIELD, out, 9), -FURZELADLE_SHORT_SLICE);
    expect("left as it was", out[0], 0x55555555);
    expect("read", furzeladle_load(file, LENGTH, FURZELADLE_NEW_FIELD, out, 11), 2);
    expect("its rows", memcmp(out, rows, sizeof rows), 0);
    expect("the rest", out[10], 0x55555555);
}

int main(void)
{
    int32_t out[9];
    const int32_t rows[8] = {101, 90, 0, 300, 999999, 80, -12800, 12700};

    expect("good", check(two_rows, 1), 2);
    expect("empty table", check("     0     2\n", 2), 0);
    expect("no byte", furzeladle_check((const uint8_t *)two_rows, 0, 1), -FURZELADLE_CUT_FILE);
    expect("cut", furzeladle_check((const uint8_t *)two_rows, 66, 1), -FURZELADLE_CUT_FILE);
    expect("other kind", check(two_rows, 2), -FURZELADLE_KIND);
    expect("kind 0", check("     0     0\n", 0), -FURZELADLE_KIND);
    expect("kind 5", check("     0     5\n", 5), -FURZELADLE_KIND);
    expect("kind below 0", check("     0     1\n", -1), -FURZELADLE_KIND);
    expect("too many rows", check(" 65536     1\n", 1), -FURZELADLE_TABLE_SIZE);
    damaged("tab for a blank", 0, '\t', -FURZELADLE_BAD_COLUMN);
    damaged("leading zero", 15, '0', -FURZELADLE_BAD_COLUMN);
    damaged("CR for LF", 39, '\r', -FURZELADLE_BAD_COLUMN);
    damaged("byte 255", 20, (char)255, -FURZELADLE_BAD_COLUMN);
    damaged("a too low", 56, '9', -FURZELADLE_ROW_LIMIT);
    damaged("score above the row before", 49, '1', -FURZELADLE_ROW_ORDER);

    memset(out, 0x55, sizeof out);
    expect("short slice", furzeladle_load((const uint8_t *)two_rows, 67, 1, out, 7), -FURZELADLE_SHORT_SLICE);
    expect("left as it was", out[0], 0x55555555);
    expect("read", furzeladle_load((const uint8_t *)two_rows, 67, 1, out, 9), 2);
    expect("its rows", memcmp(out, rows, sizeof rows), 0);
    expect("the rest", out[8], 0x55555555);
    lightness();

    if (failures == 0)
        printf("check.c: ok\n");
    return failures != 0;
}
