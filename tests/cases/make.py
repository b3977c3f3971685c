#!/usr/bin/env python3
"""Writes the stored cases of the pairing program: a folder each, with FIELD.TAB, TRIM.TAB (absent: not there), stdin and
the stdout that the program must give. The program takes no weights and no tolerances, so that cases with them are the
archive's command's: folders in tests/weights and in tests/tolerances, with args (what the command is given behind the
files) in place of stdin; a refusal stands there as the program would print it. The expected bytes come from the model
below, written from the rules alone; it shares nothing with the program.

usage: tests/cases/make.py            writes the folders, beside itself, in tests/weights and in tests/tolerances
       tests/cases/make.py --check    compares them with what stands there
"""
import itertools
import math
import os
import re
import sys

HERE = os.path.dirname(os.path.abspath(__file__))
WEIGHTS = os.path.join(os.path.dirname(HERE), "weights")
TOLERANCES = os.path.join(os.path.dirname(HERE), "tolerances")


# ---- The model: the rules' strict file, session and listing

class Refused(Exception):
    def __init__(self, number):
        self.number = number


def column(raw, signed):
    """A right-justified number, or 9."""
    m = re.fullmatch(rb" *(-?)(0|[1-9][0-9]*)", raw)
    if not m or (m[1] and (not signed or m[2] == b"0")):
        raise Refused(9)
    return -int(m[2]) if m[1] else int(m[2])


def on_new_card(kind):
    return kind in (3, 4)


def read_as(raw, old):
    """The kind that a file is read as: the new card's where columns 7-12 are five spaces and that digit."""
    new = old + 2
    return new if raw[6:12] == b"     %d" % new else old


def load(raw, kind):
    width, limit = (33, 16909) if on_new_card(kind) else (27, 13837)
    if len(raw) > limit:
        raise Refused(4)
    if len(raw) < 13:
        raise Refused(8)
    count, found = column(raw[0:6], False), column(raw[6:12], False)
    if raw[12:13] != b"\n":
        raise Refused(9)
    if found != kind:
        raise Refused(10)
    if count > 65535:
        raise Refused(4)
    if len(raw) != 13 + width * count:
        raise Refused(8)
    rows = []
    for i in range(count):
        r = raw[13 + width * i:13 + width * (i + 1)]
        row = (column(r[0:6], False), column(r[6:12], False), column(r[12:19], True), column(r[19:26], True))
        if on_new_card(kind):
            row += (column(r[26:32], False),)
        if r[-1:] != b"\n":
            raise Refused(9)
        number, score, a, b, *lightness = row
        if not (1 <= number <= 999999 and 0 <= score <= 9999 and -12800 <= a <= 12700 and -12800 <= b <= 12700):
            raise Refused(6)
        if any(not 0 <= x <= 10000 for x in lightness):
            raise Refused(6)
        if rows and score > rows[-1][1]:
            raise Refused(7)
        rows.append(row)
    return rows


def whole_root(square):
    """The greatest whole number whose square is not above it, and what is left."""
    s = math.isqrt(square)
    return s, square - s * s


def distance(x, y):
    """The squared distance over a and b, and on the new card L."""
    return sum((p - q) ** 2 for p, q in zip(x[2:], y[2:]))


def withdrawn(x):
    """A score of 0."""
    return x[1] == 0


def sides(rows):
    """The lowest and highest of each coordinate of a block's rows, withdrawn ones too."""
    return [(min(xs), max(xs)) for xs in zip(*(row[2:] for row in rows))]


def places(x, tolerance):
    """All whole-number places of a row's shade within a tolerance on every coordinate."""
    return itertools.product(*(range(p - tolerance, p + tolerance + 1) for p in x[2:]))


class Shades:
    """What a query asks of two shades: how near they must be, within both tables' tolerances, surely or possibly."""

    def __init__(self, radius, by_field=0, by_trim=0, surely=False):
        self.radius, self.by_field, self.by_trim, self.surely = radius, by_field, by_trim, surely
        self.t = by_field + by_trim

    def within(self, apart):
        return sum(d * d for d in apart) <= self.radius * self.radius

    def near(self, x, y):
        """Two rows, by the farthest or the nearest places of their shades."""
        apart = [abs(p - q) for p, q in zip(x[2:], y[2:])]
        return self.within(d + self.t for d in apart) if self.surely else self.within(max(0, d - self.t) for d in apart)

    def near_by_places(self, x, y):
        """The same by all places: "Surely means for all places within both tolerances; possibly means for some"."""
        both = itertools.product(places(x, self.by_field), places(y, self.by_trim))
        return (all if self.surely else any)(self.within(map(int.__sub__, p, q)) for p, q in both)

    def qualifies(self, x, y):
        return not withdrawn(x) and not withdrawn(y) and self.near(x, y)

    def meet_nothing(self, coordinates):
        """Whether not even equal shades are surely near."""
        return self.surely and not self.within([self.t] * coordinates)

    def far_apart(self, x, y):
        """Whether the rectangles of two blocks lie farther apart than the radius, each gap lowered."""
        gaps = [max(0, low - top, bottom - high) for (low, high), (bottom, top) in zip(sides(x), sides(y))]
        return not self.within(max(0, gap - self.t) for gap in gaps)


def read_out(t, depth):
    """All rows are read, or a withdrawn one is: scores fall, so that the last row read tells."""
    return depth == len(t) or (depth > 0 and withdrawn(t[depth - 1]))


def empty(t, depth):
    """No rows, or a withdrawn first one that was read."""
    return not t or (depth > 0 and withdrawn(t[0]))


def rank(pair):
    return (-pair[0], pair[1], pair[2])


def columns(raw):
    """The program's input: k, block and radius; its weights are 1 and 1, its tolerances 0."""
    if len(raw) != 19:
        raise Refused(8)
    numbers = [column(raw[i:i + 6], False) for i in (0, 6, 12)]
    if raw[18:19] != b"\n":
        raise Refused(9)
    return numbers + [1, 1, 0, 0, False]


def arguments(raw):
    """The command's three or five numbers, and its options: two tolerances, and whether pairs must qualify surely."""
    m = re.fullmatch(r"(\d+) (\d+) (\d+)(?: (\d+) (\d+))?(?: --tolerance (\d+),(\d+))?( --surely)?\n", raw.decode())
    k, block, radius, wf, wt, by_field, by_trim, surely = m.groups()
    return [int(n) for n in (k, block, radius, wf or 1, wt or 1, by_field or 0, by_trim or 0)] + [bool(surely)]


def check(k, block, radius, wf, wt, by_field, by_trim, surely):
    """The refusals of a query's numbers, in their order."""
    if not 1 <= k <= 64:
        raise Refused(1)
    if not 1 <= block <= 1024:
        raise Refused(2)
    if radius > 40000:
        raise Refused(3)
    if not (1 <= wf <= 9 and 1 <= wt <= 9):
        raise Refused(12)
    if by_field > 500 or by_trim > 500:
        raise Refused(16)


def query(field, trim, raw, numbers):
    field_kind, trim_kind = read_as(field, 1), read_as(trim, 2)
    f, t = load(field, field_kind), load(trim, trim_kind)
    asked = numbers(raw)
    check(*asked)
    k, block, radius, wf, wt, by_field, by_trim, surely = asked
    if on_new_card(field_kind) != on_new_card(trim_kind):
        raise Refused(15)
    shades = Shades(radius, by_field, by_trim, surely)
    coordinates = 3 if on_new_card(field_kind) else 2

    def total(x, y):
        """The sum of a field row and a trim row."""
        return wf * x[1] + wt * y[1]

    df = dt = joined = 0
    held = []  # (sum, field row, trim row), rows from 1
    read = {"f": [], "t": []}  # blocks read: (first row, end)

    def secured(pair):
        """Of a held pair, so that rows of both tables have been read."""
        parts = []
        if not read_out(t, dt):
            parts.append(total(f[0], t[dt - 1]))
        if not read_out(f, df):
            parts.append(total(f[df - 1], t[0]))
        return all(pair[0] >= part for part in parts)

    def settled():
        if shades.meet_nothing(coordinates) or empty(f, df) or empty(t, dt) or (read_out(f, df) and read_out(t, dt)):
            return True
        return len(held) == k and all(map(secured, held))

    while not settled():
        if df == 0:
            side = "f"
        elif dt == 0:
            side = "t"
        elif read_out(f, df):
            side = "t"
        elif read_out(t, dt):
            side = "f"
        else:
            drop_f, drop_t = wf * (f[0][1] - f[df - 1][1]), wt * (t[0][1] - t[dt - 1][1])
            side = "f" if (drop_f, df) <= (drop_t, dt) else "t"
        if side == "f":
            new = (df, min(df + block, len(f)))
            df = new[1]
        else:
            new = (dt, min(dt + block, len(t)))
            dt = new[1]
        for old in read["t" if side == "f" else "f"]:
            x, y = (new, old) if side == "f" else (old, new)
            if len(held) == k and total(f[x[0]], t[y[0]]) < held[-1][0]:
                continue
            if shades.far_apart(f[slice(*x)], t[slice(*y)]):
                assert not any(shades.qualifies(p, q) for p in f[slice(*x)] for q in t[slice(*y)])
                continue
            joined += 1
            for i in range(*x):
                for j in range(*y):
                    if shades.qualifies(f[i], t[j]):
                        held.append((total(f[i], t[j]), i + 1, j + 1))
            held.sort(key=rank)
            del held[k:]
        read[side].append(new)

    text = "%6d%6d%6d\n" % (k, block, radius)
    for i, (its_sum, x, y) in enumerate(held):
        x, y = f[x - 1], t[y - 1]
        square = distance(x, y)
        text += "%6d%6d%6d%6d%8d%8d\n" % (i + 1, its_sum, x[0], y[0], *whole_root(square))
    # when it is settled every held pair is secured, so takes bring out all that is held
    assert all(map(secured, held))
    # and it is the k highest of all sums, by all places of the shades where that is not too long
    few = len(f) * len(t) * ((2 * by_field + 1) * (2 * by_trim + 1)) ** coordinates <= 100000
    near = shades.near_by_places if few else shades.near
    live = [[x for x in rows if not withdrawn(x)] for rows in (f, t)]
    every = sorted((-total(x, y) for x in live[0] for y in live[1] if near(x, y)))
    assert [-p[0] for p in held] == every[:k], "the model disagrees with the plain double loop"
    return text + "%6d%6d%12d\n" % (df, dt, joined)


def printed(field, trim, raw, numbers):
    try:
        return query(field or b"", trim or b"", raw, numbers).encode()
    except Refused as r:
        return b"%6d\n" % r.number


# ---- The cases

def line(row):
    """A row of four numbers, or of five on the new card."""
    return b"%6d%6d%7d%7d" % row[:4] + b"".join(b"%6d" % x for x in row[4:]) + b"\n"


def table(kind, rows, count=None):
    return b"%6d%6d\n" % (len(rows) if count is None else count, kind) + b"".join(map(line, rows))


def ask(k, block, radius):
    return b"%6d%6d%6d\n" % (k, block, radius)


def weigh(*numbers):
    return b"%d %d %d %d %d\n" % numbers


def fade(k, block, radius, by_field, by_trim, surely=False, weights=()):
    numbers = b" ".join(b"%d" % n for n in (k, block, radius, *weights))
    return numbers + b" --tolerance %d,%d" % (by_field, by_trim) + (b" --surely" if surely else b"") + b"\n"


class Dice:
    """A small seeded generator, the same everywhere."""

    def __init__(self, seed):
        self.state = seed

    def below(self, n):
        self.state = (self.state * 6364136223846793005 + 1442695040888963407) % 2 ** 64
        return (self.state >> 33) % n

    def rows(self, n, top, spread):
        scores = sorted((self.below(top + 1) for _ in range(n)), reverse=True)
        return [(1 + self.below(999999), s, self.below(2 * spread + 1) - spread, self.below(2 * spread + 1) - spread) for s in scores]

    def new_rows(self, n, top, spread, light):
        """Rows on the new card, L up to a highest one."""
        return [row + (self.below(light + 1),) for row in self.rows(n, top, spread)]


FIELDS = [(101, 90, 0, 0), (102, 80, 100, 0), (103, 60, 0, 300), (104, 40, 500, 500), (105, 10, 0, 0)]
TRIMS = [(201, 70, 400, 0), (202, 50, 3, 4), (203, 30, 100, 5), (204, 20, 0, 300), (205, 15, 500, 500)]
F, T, Q = table(1, FIELDS), table(2, TRIMS), ask(2, 1, 5)
# the same on the new card: the shades of both pairs lie 12 apart in L, so 13 in all
NEW_FIELDS = [row + (x,) for row, x in zip(FIELDS, (5000, 6000, 0, 10000, 5000))]
NEW_TRIMS = [row + (x,) for row, x in zip(TRIMS, (5000, 5012, 5988, 0, 10000))]
NF, NT, NQ = table(3, NEW_FIELDS), table(4, NEW_TRIMS), ask(2, 1, 13)


def with_row(kind, rows, i, raw):
    whole, width = table(kind, rows), len(line(rows[i]))
    assert len(raw) == width
    return whole[:13 + width * i] + raw + whole[13 + width * (i + 1):]


def cases():
    yield "worked", F, T, Q
    # refusals of the query's numbers
    yield "no-1-k-zero", F, T, ask(0, 1, 5)
    yield "no-1-k-65", F, T, ask(65, 1, 5)
    yield "no-1-before-2-3", F, T, ask(999999, 0, 999999)
    yield "no-2-block-zero", F, T, ask(2, 0, 5)
    yield "no-2-block-1025", F, T, ask(2, 1025, 5)
    yield "no-3-radius-40001", F, T, ask(2, 1, 40001)
    # 4: a file above 13,837 bytes, before any other check of it; a count above 65,535
    big = [(1 + i, 512 - i, 0, 0) for i in range(512)]
    yield "no-4-size-field", table(1, big) + b"x", T, Q
    yield "no-4-size-before-kind", b"?" * 13838, T, Q
    yield "no-4-size-trim", F, table(2, big) + b"x", Q
    yield "no-4-long-file", table(1, big * 2), T, Q
    yield "no-4-count", table(1, FIELDS, 65536), T, Q
    # 6 and 7
    yield "no-6-number-zero", with_row(1, FIELDS, 1, b"%6d%6d%7d%7d\n" % (0, 80, 100, 0)), T, Q
    yield "no-6-score", with_row(1, FIELDS, 0, b"%6d%6d%7d%7d\n" % (101, 10000, 0, 0)), T, Q
    yield "no-6-a", F, with_row(2, TRIMS, 4, b"%6d%6d%7d%7d\n" % (205, 15, 12701, 500)), Q
    yield "no-6-b", F, with_row(2, TRIMS, 4, b"%6d%6d%7d%7d\n" % (205, 15, 500, -12801)), Q
    yield "no-6-before-7", F, with_row(2, TRIMS, 1, b"%6d%6d%7d%7d\n" % (0, 71, 3, 4)), Q
    yield "no-7-order", F, with_row(2, TRIMS, 1, b"%6d%6d%7d%7d\n" % (202, 71, 3, 4)), Q
    # 8: files cut or missing, and input
    yield "no-8-field-cut", F[:-1], T, Q
    yield "no-8-field-longer", F + b"\n", T, Q
    yield "no-8-field-missing", None, T, Q
    yield "no-8-trim-missing", F, None, Q
    yield "no-8-both-missing", None, None, b""
    yield "no-8-field-header-cut", F[:12], T, Q
    yield "no-8-count-513", table(1, FIELDS, 513), T, Q
    yield "no-8-input-empty", F, T, b""
    yield "no-8-input-cut", F, T, Q[:-1]
    yield "no-8-input-longer", F, T, Q + b"\n"
    # 9: header, row, input
    yield "no-9-header-count", b"    05" + F[6:], T, Q
    yield "no-9-header-feed", F[:12] + b" " + F[13:], T, Q
    yield "no-9-row-leading-zero", with_row(1, FIELDS, 0, b"  0101    90      0      0\n"), T, Q
    yield "no-9-row-minus-zero", with_row(1, FIELDS, 0, b"   101    90     -0      0\n"), T, Q
    yield "no-9-row-minus-score", with_row(1, FIELDS, 4, b"   105   -10      0      0\n"), T, Q
    yield "no-9-row-blank", F, with_row(2, TRIMS, 2, b"   203    30           5\n"[:26].rjust(26)[:26] + b"\n"), Q
    yield "no-9-row-feed", F, with_row(2, TRIMS, 4, b"   205    15    500    500 "), Q
    yield "no-9-input-column", F, T, b"     2    +1     5\n"
    yield "no-9-input-zero", F, T, b"     2    01     5\n"
    yield "no-9-input-blank", F, T, b"     2           5\n"
    yield "no-9-input-feed", F, T, b"     2     1     5\r"
    # 10
    yield "no-10-field-kind", table(2, FIELDS), T, Q
    yield "no-10-trim-kind", F, table(3, TRIMS), Q
    yield "no-10-before-4", table(2, FIELDS, 65536), T, Q
    # the order of checks over two files and the input
    yield "order-field-first", table(2, FIELDS), table(2, big) + b"x", b"?"
    yield "order-trim-before-input", F, T[:-1], b"?"
    yield "order-file-before-query", F, T[:-1], ask(0, 0, 99999)
    # listings
    yield "empty-field", table(1, []), T, Q
    yield "empty-trim", F, table(2, []), ask(64, 1024, 40000)
    yield "empty-both", table(1, []), table(2, []), Q
    yield "k-above-pairs", F, T, ask(64, 2, 5)
    yield "no-pair", F, table(2, [(1, 5, 12700, 12700)]), ask(3, 1, 5)
    yield "block-above-tables", F, T, ask(2, 1024, 5)
    yield "radius-zero", table(1, [(7, 5, 1, 1), (8, 4, -3, 9)]), table(2, [(9, 3, -3, 9), (6, 2, 1, 1)]), ask(4, 1, 0)
    yield "extreme-shades", table(1, [(1, 9999, -12800, -12800), (2, 0, 12700, 12700)]), table(2, [(3, 9999, 12700, 12700), (4, 0, -12800, -12800)]), ask(64, 1, 40000)
    flat = [(500 + i, 40, 5 * (i % 3), 0) for i in range(12)]
    yield "ties-plateau", table(1, flat), table(2, [(700 + i, 40, 5 * (i % 4), 0) for i in range(12)]), ask(10, 2, 5)
    yield "ties-two-rows", table(1, [(1, 3, 0, 0), (2, 3, 0, 0)]), table(2, [(3, 3, 0, 0), (4, 3, 0, 0)]), ask(1, 1, 0)
    yield "ties-zero-scores", table(1, [(i, 0, 0, i) for i in range(1, 9)]), table(2, [(i, 0, 0, 9 - i) for i in range(1, 9)]), ask(5, 3, 2)
    yield "scores-apart", table(1, [(i, 9000 - i, 10 * i, 0) for i in range(1, 31)]), table(2, [(i, 100 - i, 10 * i, 0) for i in range(1, 31)]), ask(6, 1, 9)
    yield "six-digits", table(1, [(999999, 9999, 12700, 12700), (999998, 9999, -12800, 12700)]), table(2, [(999999, 9999, 12700, -12800), (100000, 9998, -12800, -12800)]), ask(64, 1024, 40000)
    # squared distances at, above and below a square: 0, 1, 2, 4, 5, 8, 9, 25, 26, 34, 36, then the largest there is
    offsets = [(0, 0), (0, 1), (1, 1), (0, 2), (1, 2), (2, 2), (0, 3), (0, 5), (1, 5), (3, 5), (0, 6), (-12800, -12800)]
    trims = [(200 + i, 90 - i, 12700 if a < 0 else a, 12700 if b < 0 else b) for i, (a, b) in enumerate(offsets)]
    yield "roots", table(1, [(100, 80, 0, 0), (101, 20, -12800, -12800)]), table(2, trims), ask(64, 4, 40000)
    dice = Dice(7)
    yield "rows-512", table(1, dice.rows(512, 9999, 12700)), table(2, dice.rows(512, 9999, 12700)), ask(64, 16, 900)
    yield "rows-512-ties", table(1, dice.rows(512, 20, 60)), table(2, dice.rows(512, 20, 60)), ask(64, 1, 3)
    yield "rows-512-all-read", table(1, dice.rows(512, 9999, 12700)), table(2, dice.rows(512, 9999, 12700)), ask(64, 100, 10)
    for i in range(8):
        n, m = dice.below(40), dice.below(40)
        top, spread = (3, 30, 300, 9999)[dice.below(4)], (2, 20, 12700)[dice.below(3)]
        q = ask(1 + dice.below(64), 1 + dice.below(12), dice.below(spread + 2))
        yield "random-%d" % i, table(1, dice.rows(n, top, spread)), table(2, dice.rows(m, top, spread)), q
    yield from withdrawn_cases()
    yield from new_card_cases()
    yield from new_card_refusals()
    yield from peek_cases()
    yield from unlike_card_cases()
    yield from far_cases()


def scored(kind, *scores):
    """A table of these scores in one shade."""
    return table(kind, [(100 * kind + i, score, 0, 0) for i, score in enumerate(scores, 1)])


def withdrawn_cases():
    # a first row: the field table's ends the session after one block, the trim table's after one block of each
    yield "withdrawn-field-first", scored(1, 0, 0, 0), scored(2, 7, 6, 5), ask(2, 2, 5)
    yield "withdrawn-trim-first", scored(1, 9, 8, 7), scored(2, 0, 0, 0), ask(2, 2, 5)
    yield "withdrawn-both-first", scored(1, 0, 0, 0), scored(2, 0, 0, 0), ask(2, 1, 5)
    yield "withdrawn-all", scored(1, *[0] * 8), scored(2, *[0] * 8), ask(64, 1024, 40000)
    # nothing is read where a table has no rows
    yield "withdrawn-field-no-trim", scored(1, 0, 0), scored(2), ask(2, 1, 5)
    yield "withdrawn-trim-no-field", scored(1), scored(2, 0, 0), ask(2, 1, 5)
    # in the middle of a block, whose other rows count in the depth
    yield "withdrawn-in-block-of-3", scored(1, 9, 8, 0, 0, 0), scored(2, 7, 0, 0, 0), ask(4, 3, 5)
    yield "withdrawn-in-block-of-2", scored(1, 9, 8, 7, 0, 0), scored(2, 7, 6, 5, 4, 3), ask(64, 2, 5)
    # a second block that begins with 0: joined while the list has room, skipped by the score rule when it is full
    second = scored(1, 9, 8, 0, 0), scored(2, 7, 6, 5)
    yield "withdrawn-block-joined", *second, ask(64, 2, 5)
    yield "withdrawn-block-skipped", *second, ask(4, 2, 5)
    # the trim table ends at its second row, and the field table goes on alone
    yield "withdrawn-other-goes-on", scored(1, 9, 8, 7, 6, 5, 4), scored(2, 7, 0, 0, 0), ask(64, 1, 5)
    # a table goes on alone though the other, read out, has dropped less; the ceiling, 4, has no part of one read out, 9
    yield "withdrawn-dropped-less", scored(1, 2, 0, 0, 0), scored(2, 9, 5, 4, 3), ask(64, 1, 5)
    yield "withdrawn-ceiling", scored(1, 3, 0, 0), scored(2, 9, 1, 1, 1), ask(2, 1, 5)
    # k above the live pairs, and a reading that ends where the withdrawn rows begin
    gone = [(300 + i, 0, 0, 0) for i in range(5)]
    yield "withdrawn-k-above-live", table(1, FIELDS + gone), table(2, TRIMS + gone), ask(64, 2, 5)
    dice = Dice(9)
    live = [dice.rows(400, 9999, 12700) + [(1 + i, 0, 0, 0) for i in range(112)] for _ in range(2)]
    yield "withdrawn-rows-512", table(1, live[0]), table(2, live[1]), ask(64, 50, 100)
    # scores of 1 are live
    yield "live-ones", table(1, [(i, 1, 0, i) for i in range(1, 9)]), table(2, [(i, 1, 0, 9 - i) for i in range(1, 9)]), ask(5, 3, 2)
    yield "live-extreme-shades", table(1, [(1, 9999, -12800, -12800), (2, 1, 12700, 12700)]), table(2, [(3, 9999, 12700, 12700), (4, 1, -12800, -12800)]), ask(64, 1, 40000)


def light(kind, *rows):
    """A table on the new card: scores fall from 90, each row's a, b and L are given."""
    return table(kind, [(100 * kind + i, 90 - i) + row for i, row in enumerate(rows)])


def new_card_cases():
    """Listings."""
    yield "card-worked", NF, NT, NQ
    yield "card-k-above-pairs", NF, NT, ask(64, 2, 13)
    # the first two pairs are 5 apart in a and b alone, and 13 with L
    yield "card-worked-radius-12", NF, NT, ask(2, 1, 12)
    # only L decides: 20 and 21 apart, above and below
    around = [(7, 7, x) for x in (5021, 5020, 4979, 4980)]
    yield "card-only-l", light(3, (7, 7, 5000)), light(4, *around), ask(64, 1, 20)
    # a 3 and b 4 apart at radius 5, and L 0 or 1
    yield "card-l-one-more", light(3, (0, 0, 9)), light(4, (3, 4, 9), (3, 4, 10), (3, 4, 8), (-3, -4, 9)), ask(64, 2, 5)
    # at 0 the places are equal in all three
    yield "card-radius-zero", light(3, (1, 1, 1), (2, 2, 2)), light(4, (1, 1, 2), (2, 2, 2), (1, 1, 1)), ask(4, 1, 0)
    # L from end to end, 10,000 apart
    ends = light(3, (0, 0, 0), (0, 0, 10000)), light(4, (0, 0, 10000), (0, 0, 0))
    yield "card-l-ends", *ends, ask(64, 1, 10000)
    yield "card-l-ends-beyond", *ends, ask(64, 1, 9999)
    # the largest square, 1,400,500,000, whose root is 37,423 and a rest
    corners = light(3, (-12800, -12800, 0)), light(4, (12700, 12700, 10000))
    yield "card-corners", *corners, ask(1, 1, 37424)
    yield "card-corners-beyond", *corners, ask(1, 1, 37423)
    yield "card-six-digits", table(3, [(999999, 9999, 12700, 12700, 10000), (999998, 9999, -12800, 12700, 10000)]), \
        table(4, [(999999, 9999, 12700, -12800, 10000), (100000, 9998, -12800, -12800, 10000)]), ask(64, 1024, 40000)
    yield "card-empty-field", table(3, []), NT, NQ
    yield "card-empty-trim", NF, table(4, []), NQ
    yield "card-empty-both", table(3, []), table(4, []), NQ
    # a score of 0 withdraws a row here too, L or none
    gone = [(300 + i, 0, 0, 0, 5000) for i in range(5)]
    yield "card-withdrawn", table(3, NEW_FIELDS + gone), table(4, NEW_TRIMS + gone), ask(64, 2, 13)
    yield "card-withdrawn-field-first", table(3, gone), NT, NQ
    dice = Dice(10)
    # 512 rows, 16,909 bytes
    full = [dice.new_rows(512, 9999, 12700, 10000) for _ in range(2)]
    yield "card-rows-512", table(3, full[0]), table(4, full[1]), ask(64, 16, 1500)
    yield "card-rows-512-ties", table(3, dice.new_rows(512, 20, 30, 60)), table(4, dice.new_rows(512, 20, 30, 60)), \
        ask(64, 1, 5)
    for i in range(6):
        n, m = dice.below(40), dice.below(40)
        top = (3, 30, 300, 9999)[dice.below(4)]
        spread, highest = ((2, 2), (20, 20), (2, 20), (20, 2), (200, 10000), (12700, 10000))[i]
        q = ask(1 + dice.below(64), 1 + dice.below(12), dice.below(max(spread, highest) + 2))
        yield "card-random-%d" % i, table(3, dice.new_rows(n, top, spread, highest)), \
            table(4, dice.new_rows(m, top, spread, highest)), q


def new_card_refusals():
    """A row's and a file's refusals by the new card."""

    def trim(i, raw):
        return NF, with_row(4, NEW_TRIMS, i, raw), NQ

    # 6 covers L: a number of six digits is well formed
    yield "no-6-card-l", with_row(3, NEW_FIELDS, 4, b"   105    10      0      0 10001\n"), NT, NQ
    yield "no-6-card-l-six-digits", *trim(0, b"   201    70    400      0999999\n")
    yield "no-6-card-b", *trim(4, b"   205    15    500  12701 10000\n")
    # in a row 9, 6, 7; then the next row
    yield "no-6-card-l-before-7", *trim(1, b"   202    71      3      4 10001\n")
    yield "no-7-card-order", *trim(1, b"   202    71      3      4  5012\n")
    beyond = [(3, 5, 0, 0, 10001)]
    yield "no-7-card-before-6-below", table(3, [(1, 5, 0, 0, 0), (2, 6, 0, 0, 0)] + beyond), NT, NQ
    yield "no-6-card-before-9-below", table(3, beyond, 2) + b"     4     5      0      0    -1\n", NT, NQ
    yield "no-9-card-before-6", *trim(1, b"     0    71      3      4    -1\n")
    # 9: L has six columns and no minus
    for name, column_of_l in (
            ("minus", b"    -1"), ("minus-full", b"-10000"), ("minus-zero", b"    -0"), ("plus", b"    +1"),
            ("leading-zero", b"  0512"), ("zeros", b"    00"), ("blank", b"      "), ("left", b"5012  "),
            ("tab", b"\t 5012")):
        yield "no-9-card-l-" + name, *trim(1, b"   202    50      3      4" + column_of_l + b"\n")
    yield "no-9-card-field-l", with_row(3, NEW_FIELDS, 0, b"   101    90      0      0   -12\n"), NT, NQ
    yield "no-9-card-feed", *trim(4, b"   205    15    500    500 10000 ")
    yield "no-9-card-feed-before-l", *trim(4, b"   205    15    500    500\n10000\n")
    # 8: rows of the other width. 11 rows of 27 bytes are as long as 9 of 33: there the first row's LF or L is 9
    yield "no-8-card-27-a-row", table(3, FIELDS), NT, NQ
    yield "no-8-card-27-a-row-trim", NF, table(4, TRIMS), NQ
    yield "no-8-33-a-row", table(1, NEW_FIELDS), T, Q
    yield "no-9-card-11-as-9", table(3, [FIELDS[0]] * 11, 9), NT, NQ
    yield "no-9-9-as-11", table(1, [NEW_FIELDS[0]] * 9, 11), T, Q
    yield "no-8-card-cut", NF[:-1], NT, NQ
    yield "no-8-card-longer", NF, NT + b"\n", NQ
    # 4: more than 16,909 bytes, before any other check; a count above 65,535
    big = [(1 + i, 512 - i, 0, 0, i) for i in range(512)]
    yield "no-4-card-size-field", table(3, big) + b"x", NT, NQ
    yield "no-4-card-size-trim", NF, table(4, big) + b"x", NQ
    yield "no-4-card-rows-513", table(3, big + [(513, 0, 0, 0, 0)]), NT, NQ
    yield "no-4-card-size-before-header", b"?????" + table(3, big)[5:12] + b"?" * 16898, NT, NQ
    yield "no-4-card-count", table(3, NEW_FIELDS, 65536), NT, NQ
    yield "no-8-card-count-513", table(3, big, 513), NT, NQ


def peek_cases():
    """Which kind a file is read as: columns 7-12 alone decide, before its size is looked at."""
    long_rows = [(1 + i, 512 - i, 0, 0, i) for i in range(419)]
    assert len(table(3, long_rows)) == 13840

    def header(kind_column, rows=NEW_FIELDS):
        return b"%6d" % len(rows) + kind_column + table(3, rows)[12:]

    # in a file of at most 13,837 bytes an odd column is 9, and another number 10; in a longer one both are 4
    odd = ("zero", b"    03"), ("left", b"3     "), ("tab", b"\t    3"), ("minus", b"    -3")
    for name, kind_column in odd:
        yield "no-9-peek-" + name, header(kind_column), NT, NQ
    yield "no-9-peek-zero-trim", NF, header(b"    04", NEW_TRIMS), NQ
    yield "no-10-peek-13", header(b"    13"), NT, NQ
    for name, kind_column in odd[:2] + (("13", b"    13"),):
        yield "no-4-peek-" + name, header(kind_column, long_rows), NT, NQ
    # the other tables' kinds
    yield "no-10-peek-field-4", table(4, NEW_FIELDS), NT, NQ
    yield "no-10-peek-field-2", table(2, NEW_FIELDS), NT, NQ
    yield "no-10-peek-trim-3", NF, table(3, NEW_TRIMS), NQ
    yield "no-10-peek-trim-1", NF, table(1, NEW_TRIMS), NQ
    yield "no-10-peek-swapped", NT, NF, NQ
    yield "no-10-peek-field-5", table(5, NEW_FIELDS), NT, NQ
    yield "no-4-peek-field-4", table(4, long_rows), NT, NQ
    yield "no-4-peek-field-2", table(2, long_rows), NT, NQ
    yield "no-4-peek-trim-3", NF, table(3, long_rows), NQ
    yield "no-4-peek-trim-1", NF, table(1, long_rows), NQ
    # the old kinds have the old limit, though 512 rows of 33 bytes stand there
    old = [(1 + i, 512 - i, 0, 0) for i in range(512)]
    yield "no-4-peek-field-1", table(1, [row + (0,) for row in old]), T, Q
    yield "no-4-peek-trim-2", F, table(2, old) + b"\n", Q
    # a short file, a bad count or LF play no part in it
    yield "no-8-peek-header-cut", NF[:12], NT, NQ
    yield "no-8-peek-trim-header-cut", NF, NT[:12], NQ
    yield "no-8-peek-in-kind", NF[:11], NT, NQ
    yield "no-9-peek-count", b"    05" + NF[6:], NT, NQ
    yield "no-9-peek-feed", NF[:12] + b" " + NF[13:], NT, NQ
    yield "no-9-peek-feed-alone", NF[:12] + b"3", NT, NQ
    long_file = table(3, long_rows)
    yield "no-9-peek-long-count", b"    0?" + long_file[6:], NT, NQ
    yield "no-9-peek-long-feed", NF, b"   419     4\r" + long_file[13:], NQ
    yield "no-8-peek-long-count-513", table(3, long_rows, 513), NT, NQ
    yield "no-4-peek-long-count-65536", table(3, long_rows, 65536), NT, NQ


def unlike_card_cases():
    """15 at opening, behind the refusals of both files, of the input and of the query's numbers."""
    for name, field, trim in ("3-and-2", NF, T), ("1-and-4", F, NT):
        yield "no-15-" + name, field, trim, Q
    # no rows make no exception
    yield "no-15-3-empty", table(3, []), T, Q
    yield "no-15-4-empty", F, table(4, []), Q
    yield "no-15-1-empty", table(1, []), NT, Q
    yield "no-15-2-empty", NF, table(2, []), Q
    yield "no-15-both-empty", table(3, []), table(2, []), Q
    yield "no-15-widest-query", NF, T, ask(64, 1024, 40000)
    for name, field, trim in ("", NF, T), ("-other-way", F, NT):
        yield "no-8-before-15" + name, field, trim, Q[:-1]
        yield "no-9-before-15" + name, field, trim, b"     2    01     5\n"
        yield "no-1-before-15" + name, field, trim, ask(0, 1, 5)
        yield "no-2-before-15" + name, field, trim, ask(2, 1025, 5)
        yield "no-3-before-15" + name, field, trim, ask(2, 1, 40001)
    # a file's own refusal comes first
    yield "no-8-trim-missing-before-15", NF, None, Q
    yield "no-6-trim-before-15", NF, with_row(2, TRIMS, 4, b"   205    15  12701    500\n"), Q
    yield "no-7-field-before-15", with_row(3, NEW_FIELDS, 1, b"   102    91    100      0  6000\n"), T, Q
    yield "no-10-trim-before-15", NF, table(1, TRIMS), Q


def placed(kind, *shades, withdrawn=0):
    """A table of these shades: scores fall from 90; the last so many rows are withdrawn."""
    live = len(shades) - withdrawn
    return table(kind, [(100 * kind + i, 90 - i if i < live else 0) + shade for i, shade in enumerate(shades)])


def drifting(kind, rows, step, offset):
    """A table whose shades go off along a and back along b, so that rows of like scores are of like shades."""
    return table(kind, [(1 + i, 9000 - 10 * i, step * i + offset - 6000, 6000 - step * i) for i in range(rows)])


def drifted(dice, kind, rows, spread):
    """The same with shades spread around the way, and L going down where the card has it."""
    light = [(9900 - 30 * i + dice.below(spread),) if on_new_card(kind) else () for i in range(rows)]
    shades = [(70 * i - 12000 + dice.below(spread), 9000 - 60 * i + dice.below(spread)) + light[i] for i in range(rows)]
    return table(kind, [(1 + i, 9999 - 20 * i - dice.below(20)) + shade for i, shade in enumerate(shades)])


def far_cases():
    """Listings whose last number tells which block pairs were skipped for shade. In most of them the list is not full."""
    # blocks of 2: a field block from -10 to 10 both ways, and trim blocks off each of its corners, nearer end to nearer end
    centre = (-10, -10), (10, 10)

    def corners(x, y):
        return [(s * (10 + x + more), t * (10 + y + more)) for s in (1, -1) for t in (1, -1) for more in (0, 7)]

    # 4 and 4 is beyond 5, though neither alone is; 3 and 4 is 5, and joined
    yield "far-by-both", placed(1, *centre), placed(2, *corners(4, 4)), ask(64, 2, 5)
    yield "far-at-radius", placed(1, *centre), placed(2, *corners(3, 4)), ask(64, 2, 5)
    yield "far-some-by-both", placed(1, *centre), placed(2, *corners(4, 4), *corners(3, 4), *corners(4, 3)), ask(64, 2, 5)
    # one way alone, a or b, below and above: 5 is joined, 6 is not
    beside = [(15, 0), (-15, 0), (0, 15), (0, -15), (16, 0), (-16, 0), (0, 16), (0, -16)]
    yield "far-one-way", placed(1, *centre), placed(2, *[shade for shade in beside for _ in range(2)]), ask(64, 2, 5)
    # blocks that overlap are joined, though no row is near one of the other: one inside the other, and across
    yield "far-overlapping", placed(1, (-50, -50), (50, 50), (-50, 0), (50, 0)), \
        placed(2, (20, -20), (21, -21), (0, -60), (0, 60)), ask(64, 2, 5)
    # first rows far apart, the others near: a pair, and none
    yield "far-first-rows", placed(1, (0, 0), (100, 0)), placed(2, (200, 0), (103, 4), (0, 90), (90, 4)), ask(64, 2, 5)
    # the row that comes nearest is the last of three, in the middle, or the first
    yield "far-any-row", placed(1, (0, 0)), \
        placed(2, (90, 0), (80, 0), (5, 0), (90, 0), (5, 0), (80, 0), (5, 0), (90, 0), (80, 0)), ask(64, 3, 5)
    # a short last block has its own rows only
    yield "far-short-block", placed(1, (0, 0), (0, 5), (40, 0)), placed(2, (0, 9), (3, 0), (43, 4)), ask(64, 2, 5)
    # at 0 blocks must touch
    yield "far-radius-zero", placed(1, (0, 0), (9, 9)), placed(2, (9, 9), (20, 20), (10, 9), (20, 20), (9, 10), (20, 20)), \
        ask(64, 2, 0)
    # 25,500 both ways are 36,062 and a rest
    ends = placed(1, (-12800, -12800)), placed(2, (12700, 12700))
    yield "far-widest", *ends, ask(64, 1, 36062)
    yield "far-widest-within", *ends, ask(64, 1, 36063)
    # withdrawn rows stretch a block, on either side; a block of them alone can be far
    yield "far-withdrawn-stretch", placed(1, (0, 0), (30, 0), (0, 0), (90, 0), withdrawn=2), \
        placed(2, (60, 0), (70, 0), (62, 0), (10, 0), withdrawn=1), ask(64, 2, 5)
    yield "far-withdrawn-block", placed(1, (0, 0), (1, 0), (60, 0), (70, 0), withdrawn=2), \
        placed(2, (0, 3), (1, 3), (20, 0), (30, 0), withdrawn=2), ask(64, 2, 5)
    # with k pairs held, of 120: rows far from the first trim row whose sums would do, near the second whose would not, and
    # rows that are neither near nor would do
    yield "far-and-low", table(1, [(1, 90, 0, 0), (2, 89, 500, 0), (3, 88, 0, 0), (4, 87, 0, 0), (5, 30, 0, 0)]), \
        table(2, [(6, 90, 1000, 0), (7, 30, 3, 4), (8, 29, 3, 4), (9, 28, 0, 0)]), ask(1, 1, 5)
    # like shades with like scores
    yield "far-drifting", drifting(1, 60, 200, 0), drifting(2, 60, 200, 90), ask(10, 4, 100)
    yield "far-drifting-all-read", drifting(1, 60, 200, 0), drifting(2, 45, 200, 90), ask(64, 7, 100)
    dice = Dice(11)
    far = [drifted(dice, kind, 300, 60) for kind in (1, 2)]
    yield "far-drifting-rows-300", *far, ask(64, 8, 150)
    yield from far_card_cases()


def far_card_cases():
    """The same on the new card: L is a side too."""

    def blocks(kind, *shades):
        return placed(kind, *[shade for shade in shades for _ in range(2)])

    # L alone: 5 is joined, 6 is not
    around = [(0, 0, x) for x in (5006, 5005, 4995, 4994)]
    yield "far-card-l", blocks(3, (0, 0, 5000)), blocks(4, *around), ask(64, 2, 5)
    # 2, 3 and 6 are 7, and joined; 2, 3 and 5 are beyond 6, though no two of them are
    yield "far-card-all-three", blocks(3, (0, 0, 5000)), \
        blocks(4, (2, 3, 5006), (-2, -3, 4994), (3, -6, 5002), (6, 2, 4997), (2, 3, 5007), (3, 3, 5006)), ask(64, 2, 7)
    yield "far-card-all-three-beyond", blocks(3, (0, 0, 5000)), \
        blocks(4, (2, 3, 5005), (-2, -3, 4995), (3, -5, 5002), (5, 2, 4997), (2, 3, 5006)), ask(64, 2, 6)
    # a withdrawn row stretches L
    yield "far-card-withdrawn-stretch", placed(3, (0, 0, 0), (0, 0, 30), (0, 0, 9000), withdrawn=1), \
        placed(4, (0, 0, 10000), (0, 0, 8000), (0, 0, 70), (0, 0, 20), withdrawn=1), ask(64, 2, 5)
    # rows of one a and b, their L as their scores
    lights = [placed(kind, *[(0, 0, 9000 - 50 * i - 10 * kind) for i in range(40)]) for kind in (3, 4)]
    yield "far-card-drifting-l", *lights, ask(8, 4, 20)
    dice = Dice(12)
    far = [drifted(dice, kind, 300, 60) for kind in (3, 4)]
    yield "far-card-drifting", *far, ask(64, 8, 150)


def weighted_cases():
    yield "field-counts-more", F, T, weigh(2, 1, 5, 3, 1)
    yield "trim-counts-more", F, T, weigh(2, 1, 5, 1, 3)
    # two pairs of scores 9 and 2, 6 and 4: the first is better without weights; both are 24 at 2 and 3; the second is 42
    # and the first 27 at 1 and 9
    two = table(1, [(1, 9, 0, 0), (2, 6, 50, 0)]), table(2, [(3, 4, 50, 0), (4, 2, 0, 0)])
    yield "tie-by-weights", *two, weigh(2, 1, 5, 2, 3)
    yield "turned-by-weights", *two, weigh(1, 1, 5, 1, 9)
    # the highest sum, 179,982, fills its six columns
    top = [(i, 9999, 0, 0) for i in range(1, 6)]
    yield "nines-at-9999", table(1, top), table(2, top), weigh(4, 2, 0, 9, 9)
    # cases of the program: one as it is there, and one where a drop of trim scores counts nine times
    program = {name: (field, trim, raw) for name, field, trim, raw in cases()}
    field, trim, raw = program["ties-plateau"]
    yield "ones", field, trim, weigh(*columns(raw)[:5])
    field, trim, raw = program["scores-apart"]
    yield "drops-by-weights", field, trim, weigh(*columns(raw)[:4], 9)
    dice = Dice(8)
    yield "random-unlike", table(1, dice.rows(40, 300, 20)), table(2, dice.rows(40, 300, 20)), weigh(12, 3, 4, 2, 7)
    # field rows 2 and 3 and trim row 3 are withdrawn, and no weight makes anything of them
    yield "withdrawn-unlike", scored(1, 9, 0, 0), scored(2, 7, 6, 0), weigh(9, 2, 5, 1, 9)
    yield "no-12-zero", F, T, weigh(2, 1, 5, 0, 1)
    yield "no-12-ten", F, T, weigh(2, 1, 5, 1, 10)
    yield "no-3-before-12", F, T, weigh(2, 1, 40001, 0, 10)
    # the new card
    yield "card-field-counts-more", NF, NT, weigh(2, 1, 13, 3, 1)
    rows = [dice.new_rows(40, 300, 20, 20) for _ in range(2)]
    yield "card-random-unlike", table(3, rows[0]), table(4, rows[1]), weigh(12, 3, 6, 7, 2)
    # rows of like scores are of like shades; the list is full after some blocks
    yield "far-drifting", drifting(1, 60, 200, 0), drifting(2, 60, 200, 90), weigh(10, 4, 100, 1, 4)
    yield "no-15-unlike-cards", NF, T, weigh(2, 1, 5, 2, 3)
    yield "no-12-before-15", F, NT, weigh(2, 1, 5, 1, 10)


def tolerance_cases():
    # the two pairs lie 3 and 4 apart, and 0 and 5: 1 and 2, 0 and 3 at the nearest; 5 and 6, 2 and 7 at the farthest
    yield "possibly", F, T, fade(2, 1, 3, 1, 1)
    yield "possibly-beyond", F, T, fade(2, 1, 2, 2, 0)
    yield "surely", F, T, fade(2, 1, 8, 0, 2, surely=True)
    yield "surely-beyond", F, T, fade(2, 1, 7, 1, 1, surely=True)
    # without tolerances both meanings give the program's listings
    field, trim, raw = {name: files for name, *files in cases()}["ties-plateau"]
    yield "zeros", field, trim, fade(*columns(raw)[:3], 0, 0)
    yield "zeros-surely", field, trim, fade(*columns(raw)[:3], 0, 0, surely=True)
    yield "surely-alone", F, T, b"2 1 5 --surely\n"
    # equal shades may lie 5 apart in each coordinate: surely 50 is within 8, and 75 is not
    yield "old-card-is-read", F, T, fade(2, 1, 8, 2, 3, surely=True)
    yield "card-settled-at-opening", NF, NT, fade(2, 1, 8, 2, 3, surely=True)
    yield "card-possibly", NF, NT, fade(2, 1, 8, 2, 3)
    # a withdrawn first row is not read there
    yield "withdrawn-not-read", scored(1, 0, 0, 0), scored(2, 7, 6), fade(2, 2, 7, 3, 2, surely=True)
    yield "withdrawn-is-read", scored(1, 0, 0, 0), scored(2, 7, 6), fade(2, 2, 8, 3, 2, surely=True)
    yield from faded_far_cases()
    # the greatest tolerances and the farthest shades: 26,500, 26,500 and 11,000 make 39,057 and a rest
    corners = light(3, (-12800, -12800, 0)), light(4, (12700, 12700, 10000))
    yield "card-corners-surely", *corners, fade(1, 1, 39058, 500, 500, surely=True)
    yield "card-corners-surely-beyond", *corners, fade(1, 1, 39057, 500, 500, surely=True)
    # with weights, and with withdrawn rows at the end
    dice = Dice(13)
    gone = [(300 + i, 0, 0, 0) for i in range(5)]
    rows = [dice.rows(40, 300, 20) + gone for _ in range(2)]
    for name, surely in ("possibly", False), ("surely", True):
        yield "weights-" + name, table(1, rows[0]), table(2, rows[1]), fade(12, 3, 7, 1, 2, surely, weights=(2, 7))
    rows = [dice.new_rows(40, 300, 20, 20) for _ in range(2)]
    for name, surely in ("possibly", False), ("surely", True):
        yield "card-weights-" + name, table(3, rows[0]), table(4, rows[1]), fade(12, 3, 9, 1, 1, surely, weights=(7, 2))
    yield "no-16-field", F, T, fade(2, 1, 5, 501, 0)
    yield "no-16-trim", F, T, fade(2, 1, 5, 0, 501, surely=True)
    yield "no-12-before-16", F, T, fade(2, 1, 5, 501, 501, weights=(1, 10))
    yield "no-16-before-15", NF, T, fade(2, 1, 5, 501, 0)
    # the command's files are read before its query is looked at
    yield "no-10-before-16", table(2, FIELDS), T, fade(2, 1, 5, 501, 0)


def faded_far_cases():
    """Listings whose last number tells which gaps between blocks were lowered by the tolerances, here 3 together."""
    centre = (-10, 10), (10, -10)
    # one way alone: at 8 a gap counts as 5, at 9 as 6; both ways: 3 and 4 are 5, 4 and 4 are more; one below 3 is none
    gaps = (8, 0), (9, 0), (0, 8), (0, 9), (6, 7), (7, 6), (7, 7), (8, 2), (1, 8), (8, 3), (8, 4)
    trims = [(10 + a + more, -10 - b - more) for a, b in gaps for more in (0, 9)]
    for name, surely in ("", False), ("-surely", True):
        yield "far" + name, placed(1, *centre), placed(2, *trims), fade(64, 2, 5, 1, 2, surely)
    # L too; 2 together, because 3 are surely too much for three coordinates
    gaps = (0, 0, 7), (0, 0, 8), (1, 1, 7), (5, 0, 6), (6, 0, 6), (4, 3, 6)
    trims = [(10 + a + more, 10 + b + more, 5010 + x + more) for a, b, x in gaps for more in (0, 9)]
    for name, surely in ("", False), ("-surely", True):
        yield "far-card" + name, placed(3, (-10, -10, 4990), (10, 10, 5010)), placed(4, *trims), \
            fade(64, 2, 5, 1, 1, surely)


def stored():
    """Folder and files of every case."""
    for home, name_of_input, numbers, all_cases in (
            (HERE, "stdin", columns, cases()), (WEIGHTS, "args", arguments, weighted_cases()),
            (TOLERANCES, "args", arguments, tolerance_cases())):
        for name, field, trim, raw in all_cases:
            files = {"FIELD.TAB": field, "TRIM.TAB": trim, name_of_input: raw, "stdout": printed(field, trim, raw, numbers)}
            # a name says its refusal, and was chosen without the model
            told = re.match(r"no-(\d+)-", name)
            assert bool(told) == (len(files["stdout"]) == 7) or name.startswith("order-"), name
            assert not told or files["stdout"] == b"%6d\n" % int(told[1]), name
            yield os.path.join(home, name), files


def main():
    check = "--check" in sys.argv
    folders, differ = set(), 0
    for folder, files in stored():
        assert folder not in folders, folder
        folders.add(folder)
        if not check:
            os.makedirs(folder, exist_ok=True)
        for file, data in files.items():
            path = os.path.join(folder, file)
            if check:
                stands = open(path, "rb").read() if os.path.exists(path) else None
                if stands != data:
                    differ += 1
                    print("differs:", path)
            elif data is None:
                if os.path.exists(path):
                    os.remove(path)
            else:
                with open(path, "wb") as out:
                    out.write(data)
    print("%d cases%s" % (len(folders), ", %d files differ" % differ if check else ""))
    return 1 if differ else 0


if __name__ == "__main__":
    sys.exit(main())
