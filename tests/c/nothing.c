/* NULL with length 0 is an empty slice in every call. Compiled with the sanitizers, where gcc has them. */
#include "furzeladle.h"
#include <stdio.h>
#include <string.h>

static int passed, failed;

static void same(const char *what, int64_t found, int64_t due) {
    if (found == due) {
        passed++;
    } else {
        failed++;
        printf("%s: %lld, and %lld was due\n", what, (long long)found, (long long)due);
    }
}

int main(void) {
    const uint8_t empty[] = "     0     1\n";
    const uint32_t query[] = {3, 1, 5};
    uint32_t session[FURZELADLE_RECORD_SIZE] = {0};
    uint32_t pair[FURZELADLE_PAIR_SIZE] = {7, 7, 7};
    uint64_t out[FURZELADLE_QUERY_SIZE];
    uint8_t bytes[FURZELADLE_LISTING_SIZE];

    same("check of no bytes", furzeladle_check(NULL, 0, FURZELADLE_FIELD), -FURZELADLE_REFUSED_CUT_FILE);
    same("load of no bytes", furzeladle_load(NULL, 0, FURZELADLE_FIELD, NULL, 0), -FURZELADLE_REFUSED_CUT_FILE);
    same("load of no rows", furzeladle_load(empty, sizeof empty - 1, FURZELADLE_FIELD, NULL, 0), 0);
    same("open, no query", furzeladle_open(NULL, 0, NULL, 0, NULL, 0, session, FURZELADLE_RECORD_SIZE),
         -FURZELADLE_REFUSED_SHORT_SLICE);
    same("open, no record", furzeladle_open(query, 3, NULL, 0, NULL, 0, NULL, 0), -FURZELADLE_REFUSED_SHORT_SLICE);
    same("open, no tables", furzeladle_open((const uint32_t[]){3, 1, 5}, 3, NULL, 0, NULL, 0, session,
                                            FURZELADLE_RECORD_SIZE), FURZELADLE_ANSWER_DONE);
    same("read, no tables", furzeladle_read(NULL, 0, NULL, 0, session, FURZELADLE_RECORD_SIZE),
         FURZELADLE_ANSWER_SETTLED);
    same("read, no record", furzeladle_read(NULL, 0, NULL, 0, NULL, 0), -FURZELADLE_REFUSED_SHORT_SLICE);
    same("take, no pair", furzeladle_take(NULL, 0, NULL, 0, session, FURZELADLE_RECORD_SIZE, NULL, 0),
         -FURZELADLE_REFUSED_SHORT_SLICE);
    same("take, no tables", furzeladle_take(NULL, 0, NULL, 0, session, FURZELADLE_RECORD_SIZE, pair,
                                            FURZELADLE_PAIR_SIZE), FURZELADLE_ANSWER_FINISHED);
    same("the pair as it was", pair[0] + pair[1] + pair[2], 21);
    same("show, no place", furzeladle_show(NULL, 0, NULL, 0, session, FURZELADLE_RECORD_SIZE, NULL, 0),
         -FURZELADLE_REFUSED_SHORT_SLICE);
    same("show, no tables", furzeladle_show(NULL, 0, NULL, 0, session, FURZELADLE_RECORD_SIZE, pair,
                                            FURZELADLE_PAIR_SIZE), 0);
    same("zeros shown", pair[0] + pair[1] + pair[2], 0);
    same("query, no query", furzeladle_query(NULL, 0, NULL, 0, NULL, 0, out, FURZELADLE_QUERY_SIZE),
         -FURZELADLE_REFUSED_SHORT_SLICE);
    same("query, no room", furzeladle_query(query, 3, NULL, 0, NULL, 0, NULL, 0), -FURZELADLE_REFUSED_SHORT_SLICE);
    same("query, no tables", furzeladle_query(query, 3, NULL, 0, NULL, 0, out, FURZELADLE_QUERY_SIZE), 0);
    same("listing, no room", furzeladle_listing(query, 3, NULL, 0, NULL, 0, NULL, 0), -FURZELADLE_REFUSED_SHORT_SLICE);
    same("listing, no tables", furzeladle_listing(query, 3, NULL, 0, NULL, 0, bytes, FURZELADLE_LISTING_SIZE), 44);
    /* through a pointer, straight to the library: with an address */
    int32_t (*check)(const uint8_t *, size_t, int32_t) = furzeladle_check;
    same("check through a pointer", check(empty, sizeof empty - 1, FURZELADLE_FIELD), 0);
    printf("nothing: %d passed, %d failed\n", passed, failed);
    return failed != 0;
}
