/* libfurzeladle.a: the pairing system's strict files, checked and read, and its join session.
 *
 * Slices: a pointer and a count of elements. NULL with length 0 is an empty slice (see the end of this header); with any
 * other length it is the caller's mistake.
 * Overlap: what a call writes may not overlap anything else that is lent to it. What it only reads may.
 * Threads: no state is kept between calls; calls may run at the same time, on any thread, as long as none writes what
 * another reads or writes. A session goes on wherever its record is.
 * Stack: under 16 KiB a call. No heap, no files, no signals; every call returns.
 * Linking: cc main.c libfurzeladle.a (made by `rt staticlib furzeladle`, x86-64 Linux); nothing else is needed. */
#ifndef FURZELADLE_H
#define FURZELADLE_H

#include <stddef.h>
#include <stdint.h>

#ifdef __cplusplus
extern "C" {
#endif

/* ---- Version
 *
 * This header's, as one number and by its parts. furzeladle_version tells that of the library which was linked. A
 * greater minor number adds names and raises sizes, and leaves the rest: what was written against a smaller one is
 * compiled again and gets the same answers. */
#define FURZELADLE_VERSION_MAJOR 1
#define FURZELADLE_VERSION_MINOR 0
#define FURZELADLE_VERSION_PATCH 0
#define FURZELADLE_VERSION \
    (10000 * FURZELADLE_VERSION_MAJOR + 100 * FURZELADLE_VERSION_MINOR + FURZELADLE_VERSION_PATCH)

uint32_t furzeladle_version(void);

/* ---- Sizes
 *
 * Macros, so that a caller may both allocate by them and ask for them in #if. Everything else that has a name is an
 * enumerator. Allocate by the name: a request may raise a number. */

/* A row's numbers on each card, its bytes in a strict file, the bytes of a file's header, and the rows of the longest
 * table. */
#define FURZELADLE_OLD_ROW 4
#define FURZELADLE_NEW_ROW 5
#define FURZELADLE_OLD_ROW_BYTES 27
#define FURZELADLE_NEW_ROW_BYTES 33
#define FURZELADLE_HEADER_BYTES 13
#define FURZELADLE_MOST_ROWS 65535

/* How many numbers a query has at least, with both weights, and in all. FURZELADLE_QUERY_MOST is from before there were
 * kinds and stands: who lends a query of that size asks about the old card, as ever. FURZELADLE_QUERY_ALL grew from 7:
 * zeros behind the kinds ask for what was asked without them. */
#define FURZELADLE_QUERY_LEAST 3
#define FURZELADLE_QUERY_MOST 5
#define FURZELADLE_QUERY_ALL 10

/* The numbers of a session's record, of a pair that a take gives, and of a place that a show gives. */
#define FURZELADLE_RECORD_SIZE 210
#define FURZELADLE_PAIR_SIZE 3
#define FURZELADLE_PLACE_SIZE 3

/* What a whole query wants lent for its answer: so many numbers; so many with the roots, which stand from
 * FURZELADLE_ROOTS on; or so many bytes of a listing. */
#define FURZELADLE_QUERY_SIZE 387
#define FURZELADLE_ROOTS 387
#define FURZELADLE_ROOTS_SIZE 515
#define FURZELADLE_LISTING_SIZE 2668

/* ---- Names, in three families: FURZELADLE_REFUSED_, FURZELADLE_ANSWER_, FURZELADLE_AT_. Those without a family are
 * from before and stay: the same numbers. */

/* Refusals, by the shed's numbers. A call that refuses answers minus one of them. */
enum furzeladle_refusal {
    FURZELADLE_REFUSED_LIST_LENGTH = 1,
    FURZELADLE_REFUSED_BLOCK = 2,
    FURZELADLE_REFUSED_RADIUS = 3,
    FURZELADLE_REFUSED_TABLE_SIZE = 4,
    FURZELADLE_REFUSED_RECORD = 5,
    FURZELADLE_REFUSED_ROW_LIMIT = 6,
    FURZELADLE_REFUSED_ROW_ORDER = 7,
    FURZELADLE_REFUSED_CUT_FILE = 8,
    FURZELADLE_REFUSED_BAD_COLUMN = 9,
    FURZELADLE_REFUSED_KIND = 10,
    FURZELADLE_REFUSED_SHORT_SLICE = 11,
    FURZELADLE_REFUSED_WEIGHT = 12,
    FURZELADLE_REFUSED_CARDS = 15,
    FURZELADLE_REFUSED_TOLERANCE = 16,
    /* from before */
    FURZELADLE_LIST_LENGTH = FURZELADLE_REFUSED_LIST_LENGTH,
    FURZELADLE_BLOCK = FURZELADLE_REFUSED_BLOCK,
    FURZELADLE_RADIUS = FURZELADLE_REFUSED_RADIUS,
    FURZELADLE_TABLE_SIZE = FURZELADLE_REFUSED_TABLE_SIZE,
    FURZELADLE_RECORD = FURZELADLE_REFUSED_RECORD,
    FURZELADLE_ROW_LIMIT = FURZELADLE_REFUSED_ROW_LIMIT,
    FURZELADLE_ROW_ORDER = FURZELADLE_REFUSED_ROW_ORDER,
    FURZELADLE_CUT_FILE = FURZELADLE_REFUSED_CUT_FILE,
    FURZELADLE_BAD_COLUMN = FURZELADLE_REFUSED_BAD_COLUMN,
    FURZELADLE_KIND = FURZELADLE_REFUSED_KIND,
    FURZELADLE_SHORT_SLICE = FURZELADLE_REFUSED_SHORT_SLICE,
    FURZELADLE_WEIGHT = FURZELADLE_REFUSED_WEIGHT,
    FURZELADLE_CARDS = FURZELADLE_REFUSED_CARDS,
    FURZELADLE_TOLERANCE = FURZELADLE_REFUSED_TOLERANCE
};

/* Answers of open, read, take and show where they do not refuse. */
enum furzeladle_answer {
    FURZELADLE_ANSWER_DONE = 0,     /* open: accepted; read: a block was read; show: written */
    FURZELADLE_ANSWER_SETTLED = 1,  /* read: nothing unread can matter, nothing was read */
    FURZELADLE_ANSWER_GIVEN = 2,    /* take: a pair came out */
    FURZELADLE_ANSWER_NOT_YET = 3,  /* take: no held pair is secured yet; read on */
    FURZELADLE_ANSWER_FINISHED = 4, /* take: the list is complete */
    /* from before */
    FURZELADLE_DONE = FURZELADLE_ANSWER_DONE,
    FURZELADLE_SETTLED = FURZELADLE_ANSWER_SETTLED,
    FURZELADLE_GIVEN = FURZELADLE_ANSWER_GIVEN,
    FURZELADLE_NOT_YET = FURZELADLE_ANSWER_NOT_YET,
    FURZELADLE_FINISHED = FURZELADLE_ANSWER_FINISHED
};

/* Places in a session's record, which is FURZELADLE_RECORD_SIZE numbers that belong to the caller. It may be kept,
 * copied, stored and taken up again later. Any numbers may come in, and what fails a ground of 5 is refused by it: a
 * number of the query, a row count or the card is out of range; a depth is above its row count, or neither a multiple
 * of the block nor all rows; more pairs are out and held than k; a held pair has a row outside 1 to the depth or a sum
 * above 179,982; held pairs are not strictly in rank; the table read last was not read, or is none though rows were
 * read; a place behind the held pairs is not zeros; more block pairs are joined than there are; rows are read of a
 * query that nothing can meet. A record that passes is worked on, whether or not a session could have made it.
 * One of 207 numbers, stored before there were tolerances, goes on once three zeros are written behind them; one of
 * 206, stored before there were cards, once FURZELADLE_OLD_CARD and three zeros are; one of 204, stored before there
 * were weights, once 1, 1, FURZELADLE_OLD_CARD and three zeros are. */
enum furzeladle_record {
    FURZELADLE_AT_K = 0,            /* the query: list length, 1 to 64 */
    FURZELADLE_AT_BLOCK = 1,        /* block size in rows, 1 to 1,024 */
    FURZELADLE_AT_RADIUS = 2,       /* radius, 0 to 40,000 */
    FURZELADLE_AT_FIELD_ROWS = 3,   /* row counts */
    FURZELADLE_AT_TRIM_ROWS = 4,
    FURZELADLE_AT_FIELD_DEPTH = 5,  /* rows read */
    FURZELADLE_AT_TRIM_DEPTH = 6,
    FURZELADLE_AT_LAST = 7,         /* the table read last: 0 none, 1 field, 2 trim */
    FURZELADLE_AT_OUT = 8,          /* pairs out */
    FURZELADLE_AT_HELD = 9,         /* pairs held */
    FURZELADLE_AT_JOINED = 10,      /* block pairs joined, at most 4,294,836,225: this number .. */
    FURZELADLE_AT_JOINED_HIGH = 11, /* .. and its upper 32 bits, 0 in every session's record */
    FURZELADLE_AT_PAIRS = 12,       /* 64 places of three numbers: sum, field row, trim row; zeros beyond those held */
    FURZELADLE_AT_FIELD_WEIGHT = 204, /* the query's weights, 1 to 9 */
    FURZELADLE_AT_TRIM_WEIGHT = 205,
    FURZELADLE_AT_CARD = 206,            /* the card of both tables, 2 or 3 */
    FURZELADLE_AT_FIELD_TOLERANCE = 207, /* the query's tolerances, 0 to 500 */
    FURZELADLE_AT_TRIM_TOLERANCE = 208,
    FURZELADLE_AT_MEANING = 209, /* and its meaning: 0 possibly, any other number surely */
    /* from before */
    FURZELADLE_K = FURZELADLE_AT_K,
    FURZELADLE_BLOCK_ROWS = FURZELADLE_AT_BLOCK,
    FURZELADLE_RADIUS_AT = FURZELADLE_AT_RADIUS,
    FURZELADLE_FIELD_ROWS = FURZELADLE_AT_FIELD_ROWS,
    FURZELADLE_TRIM_ROWS = FURZELADLE_AT_TRIM_ROWS,
    FURZELADLE_FIELD_DEPTH = FURZELADLE_AT_FIELD_DEPTH,
    FURZELADLE_TRIM_DEPTH = FURZELADLE_AT_TRIM_DEPTH,
    FURZELADLE_LAST = FURZELADLE_AT_LAST,
    FURZELADLE_OUT = FURZELADLE_AT_OUT,
    FURZELADLE_HELD = FURZELADLE_AT_HELD,
    FURZELADLE_JOINED = FURZELADLE_AT_JOINED,
    FURZELADLE_JOINED_HIGH = FURZELADLE_AT_JOINED_HIGH,
    FURZELADLE_PAIRS = FURZELADLE_AT_PAIRS,
    FURZELADLE_FIELD_WEIGHT = FURZELADLE_AT_FIELD_WEIGHT,
    FURZELADLE_TRIM_WEIGHT = FURZELADLE_AT_TRIM_WEIGHT,
    FURZELADLE_CARD = FURZELADLE_AT_CARD,
    FURZELADLE_FIELD_TOLERANCE = FURZELADLE_AT_FIELD_TOLERANCE,
    FURZELADLE_TRIM_TOLERANCE = FURZELADLE_AT_TRIM_TOLERANCE,
    FURZELADLE_MEANING = FURZELADLE_AT_MEANING
};

/* What callers lend: the kinds of tables and of strict files; the cards, each by the number of a shade's coordinates, a
 * and b on the old one, a, b and L on the new one; and what is made of tolerances. */
enum furzeladle_kind {
    FURZELADLE_FIELD = 1,
    FURZELADLE_TRIM = 2,
    FURZELADLE_NEW_FIELD = 3,
    FURZELADLE_NEW_TRIM = 4
};

enum furzeladle_card { FURZELADLE_OLD_CARD = 2, FURZELADLE_NEW_CARD = 3 };

enum furzeladle_meaning { FURZELADLE_POSSIBLY = 0, FURZELADLE_SURELY = 1 };

/* ---- Strict files */

/* A strict file's `len` bytes, checked alone. `kind` is the wanted one, FURZELADLE_FIELD to FURZELADLE_NEW_TRIM.
 * The row count (0 to 65,535), or minus the refusal. */
int32_t furzeladle_check(const uint8_t *bytes, size_t len, int32_t kind);

/* A strict file's rows, read into the front of `out`, which has room for `room` numbers: FURZELADLE_OLD_ROW to a row of
 * kind 1 or 2, FURZELADLE_NEW_ROW to a row of kind 3 or 4.
 * The row count, or minus (the refusal + 100 × its row; row 0 is the header, or none).
 * Numbers beyond the rows are left as they were, and after a refusal all are. */
int32_t furzeladle_load(const uint8_t *bytes, size_t len, int32_t kind, int32_t *out, size_t room);

/* ---- The join session
 *
 * A table is `len` numbers, four to a row on the old card: pattern number 1 to 999,999, score 0 to 9,999 (never above
 * the row before), a and b -12,800 to 12,700. On the new card a fifth follows, L, 0 to 10,000, and distance is over all
 * three coordinates. At most 65,535 rows. f is the field table, t the trim table: the same two in every call.
 *
 * A score of 0 means that the pattern is withdrawn. Such a row is legal and is read, shown and checked like any other,
 * but no pair with it qualifies. Scores fall, so that all rows below it are withdrawn too: once one has been read, its
 * table counts as read out, and as empty if it is the first row. The whole block still counts in the depth.
 *
 * A query is `query_len` numbers: k (1 to 64), block (1 to 1,024), radius (0 to 40,000); then, if they are lent, the
 * field weight and the trim weight (1 to 9 each), the kinds of the field table (1 or 3) and of the trim table (2 or 4),
 * and behind them the field tolerance and the trim tolerance (0 to 500 each) and the meaning. A weight that is not lent
 * is 1, a kind the old card's, a tolerance 0: k, block and radius alone ask for weights 1 and 1 over tables of kinds 1
 * and 2 whose shades are known. A pair's sum is field weight × score of its field row + trim weight × score of its trim
 * row, at most 179,982.
 *
 * With tolerances a shade may lie anywhere within its table's, on every coordinate. A pair qualifies possibly if some
 * such places of its two shades lie within the radius, surely if all do. The meaning FURZELADLE_POSSIBLY asks for the
 * first, every other number for the second; without tolerances they are the same. A surely query that no two shades
 * can meet is settled as it opens: nothing is read, and the list is empty. */

/* Too short a slice (query, session, pair or place) is -11. It is looked at before anything else, because no record can
 * be seen then. A refused call changes nothing that is lent. Numbers behind those named here stay unread and unchanged.
 */

/* Opens a session of a query. Refused by 1, 2, 3, 12, 16; by 10 where a kind is not the field table's or not the trim
 * table's; by 4, each table counted by its own kind's row; by 15 where the two are on different cards; in this order.
 * Then `session` is as it was, so that a record that stood there is not lost, and one that was never written holds
 * whatever the caller put there. */
int32_t furzeladle_open(const uint32_t *query, size_t query_len, const int32_t *f, size_t f_len, const int32_t *t,
                        size_t t_len, uint32_t *session, size_t session_len);

/* Reads one block. Done, settled, or refused by 5, 4, 6, 7: then the record is as it was. In this call and the next
 * two the record's card says how many numbers a row has. */
int32_t furzeladle_read(const int32_t *f, size_t f_len, const int32_t *t, size_t t_len, uint32_t *session,
                        size_t session_len);

/* Takes the next pair. Given: `pair` gets its sum, field row and trim row (rows are numbered from 1), and it moves out
 * of the record. Not yet, finished, or refused by 5, 4, 6, 7: record and pair are as they were. */
int32_t furzeladle_take(const int32_t *f, size_t f_len, const int32_t *t, size_t t_len, uint32_t *session,
                        size_t session_len, uint32_t *pair, size_t pair_len);

/* Shows the rows last read: `place` gets the table (1 field, 2 trim, on either card), the first row, numbered from 1,
 * and how many. Three zeros where nothing was read, or the record or a table does not fit (5, 4): no number goes with
 * that. The answer is 0. */
int32_t furzeladle_show(const int32_t *f, size_t f_len, const int32_t *t, size_t t_len, const uint32_t *session,
                        size_t session_len, uint32_t *place, size_t place_len);

/* ---- One whole query over two tables of up to 65,535 rows each
 *
 * `query` is as at opening. From the front of `out`: field rows read, trim rows read, block pairs joined; then six
 * numbers a pair, best first: sum, field row, trim row (from 1), field pattern number, trim pattern number, squared
 * distance (of the shades as the tables have them, whatever the tolerances). The answer is how many pairs there are (0
 * to 64), or minus the refusal: first 11, fewer than FURZELADLE_QUERY_LEAST numbers of a query; 1, 2, 3, 12, 16, 10, 4,
 * 15 at opening; 6 or 7 of a row that was read; and 11 for the place of the answer comes last, fewer than
 * FURZELADLE_QUERY_SIZE lent. Refused, `out` is as it was; accepted, so are the numbers behind the last pair. Rows that
 * were not read were not looked at.
 *
 * Who lends FURZELADLE_ROOTS_SIZE numbers or more gets each pair's distance as well, from number FURZELADLE_ROOTS on,
 * behind the places of 64 pairs: two numbers a pair, the root of the squared distance and the remainder (below). */
int32_t furzeladle_query(const uint32_t *query, size_t query_len, const int32_t *f, size_t f_len, const int32_t *t,
                         size_t t_len, uint64_t *out, size_t out_len);

/* The same query, its listing as the pairing program prints it, k, block and radius alone at its head: how many bytes,
 * or minus the refusal. 11 for the place of the answer, last, is fewer than FURZELADLE_LISTING_SIZE bytes lent. */
int32_t furzeladle_listing(const uint32_t *query, size_t query_len, const int32_t *f, size_t f_len, const int32_t *t,
                           size_t t_len, uint8_t *out, size_t out_len);

/* ---- A squared distance as a distance: the greatest whole s with s × s not above n, and what is left, n - s × s (0 to
 * 2 × s). For every n; nothing is refused. */
uint64_t furzeladle_root(uint64_t n);
uint64_t furzeladle_remainder(uint64_t n);

/* ---- NULL with length 0
 *
 * The library wants an address of every slice. A call by its name goes through one of these, which lends it the address
 * of an object here where the caller lends none; so an empty file, an empty table or no room may be NULL and 0. A call
 * through a pointer to a function goes straight to the library. */
static uint64_t furzeladle_nothing;

static inline const void *furzeladle_read_only(const void *lent) { return lent ? lent : &furzeladle_nothing; }
static inline void *furzeladle_written(void *lent) { return lent ? lent : &furzeladle_nothing; }

static inline int32_t furzeladle_check_lent(const uint8_t *bytes, size_t len, int32_t kind) {
    return furzeladle_check((const uint8_t *)furzeladle_read_only(bytes), len, kind);
}
#define furzeladle_check(...) furzeladle_check_lent(__VA_ARGS__)

static inline int32_t furzeladle_load_lent(const uint8_t *bytes, size_t len, int32_t kind, int32_t *out,
        size_t room) {
    return furzeladle_load((const uint8_t *)furzeladle_read_only(bytes), len, kind,
        (int32_t *)furzeladle_written(out), room);
}
#define furzeladle_load(...) furzeladle_load_lent(__VA_ARGS__)

static inline int32_t furzeladle_open_lent(const uint32_t *query, size_t query_len, const int32_t *f, size_t f_len,
        const int32_t *t, size_t t_len, uint32_t *session, size_t session_len) {
    return furzeladle_open((const uint32_t *)furzeladle_read_only(query), query_len,
        (const int32_t *)furzeladle_read_only(f), f_len, (const int32_t *)furzeladle_read_only(t), t_len,
        (uint32_t *)furzeladle_written(session), session_len);
}
#define furzeladle_open(...) furzeladle_open_lent(__VA_ARGS__)

static inline int32_t furzeladle_read_lent(const int32_t *f, size_t f_len, const int32_t *t, size_t t_len,
        uint32_t *session, size_t session_len) {
    return furzeladle_read((const int32_t *)furzeladle_read_only(f), f_len, (const int32_t *)furzeladle_read_only(t),
        t_len, (uint32_t *)furzeladle_written(session), session_len);
}
#define furzeladle_read(...) furzeladle_read_lent(__VA_ARGS__)

static inline int32_t furzeladle_take_lent(const int32_t *f, size_t f_len, const int32_t *t, size_t t_len,
        uint32_t *session, size_t session_len, uint32_t *pair, size_t pair_len) {
    return furzeladle_take((const int32_t *)furzeladle_read_only(f), f_len, (const int32_t *)furzeladle_read_only(t),
        t_len, (uint32_t *)furzeladle_written(session), session_len, (uint32_t *)furzeladle_written(pair), pair_len);
}
#define furzeladle_take(...) furzeladle_take_lent(__VA_ARGS__)

static inline int32_t furzeladle_show_lent(const int32_t *f, size_t f_len, const int32_t *t, size_t t_len,
        const uint32_t *session, size_t session_len, uint32_t *place, size_t place_len) {
    return furzeladle_show((const int32_t *)furzeladle_read_only(f), f_len, (const int32_t *)furzeladle_read_only(t),
        t_len, (const uint32_t *)furzeladle_read_only(session), session_len, (uint32_t *)furzeladle_written(place),
        place_len);
}
#define furzeladle_show(...) furzeladle_show_lent(__VA_ARGS__)

static inline int32_t furzeladle_query_lent(const uint32_t *query, size_t query_len, const int32_t *f, size_t f_len,
        const int32_t *t, size_t t_len, uint64_t *out, size_t out_len) {
    return furzeladle_query((const uint32_t *)furzeladle_read_only(query), query_len,
        (const int32_t *)furzeladle_read_only(f), f_len, (const int32_t *)furzeladle_read_only(t), t_len,
        (uint64_t *)furzeladle_written(out), out_len);
}
#define furzeladle_query(...) furzeladle_query_lent(__VA_ARGS__)

static inline int32_t furzeladle_listing_lent(const uint32_t *query, size_t query_len, const int32_t *f, size_t f_len,
        const int32_t *t, size_t t_len, uint8_t *out, size_t out_len) {
    return furzeladle_listing((const uint32_t *)furzeladle_read_only(query), query_len,
        (const int32_t *)furzeladle_read_only(f), f_len, (const int32_t *)furzeladle_read_only(t), t_len,
        (uint8_t *)furzeladle_written(out), out_len);
}
#define furzeladle_listing(...) furzeladle_listing_lent(__VA_ARGS__)

#ifdef __cplusplus
}
#endif

#endif
