/* The table of wells by ddm.h: edits and closing against a plain model, the build over its live slots against ddm_build of the live points,
 * the build before closing against the one after it, records included, the refusals in their order, and that a refused call writes nothing.
 *
 *   cc -O2 -o table c/table.c target/staticlib/libddm_c.a && ./table
 */
#include "ddm.h"
#include <math.h>
#include <stdio.h>
#include <stdlib.h>
#include <string.h>

static int wrong;

#define EXPECT(fact) ((fact) ? (void)0 : (wrong++, (void)printf("c/table.c:%d: %s does not hold\n", __LINE__, #fact)))

static uint64_t state = 88172645463325252u;

static uint64_t below(uint64_t n) {
    state ^= state << 13;
    state ^= state >> 7;
    state ^= state << 17;
    return state % n;
}

/* ---- tables */

/* FILL stands in every list before a call, and SPARE entries behind those that are lent. Whole numbers and floats have ROOM bytes. */
enum { MOST = 40, AXES = 3, SPARE = 3, ROOM = 8, FILL = 0x5a };

/* A table: what is lent of it, and its dimension. */
typedef struct table {
    ddm_head head;
    size_t d, flags_len, coordinates_len;
    uint8_t flags[MOST + SPARE];
    double coordinates[AXES * MOST + SPARE];
} table;

/* A table of this dimension and capacity without wells: in its lists stands what a caller may have left there, NaNs and flags. */
static table empty(size_t d, size_t capacity) {
    table t = {{0, 0}, d, capacity, capacity * d, {0}, {0}};
    memset(t.flags, FILL, sizeof t.flags);
    for (size_t i = 0; i < sizeof t.coordinates / sizeof *t.coordinates; i++)
        t.coordinates[i] = NAN;
    return t;
}

/* The same with these flags in its first slots, and 10, 11, 12, .. as the coordinates of the live ones. */
static table with_flags(size_t d, size_t capacity, const uint8_t *flags, size_t slots) {
    table t = empty(d, capacity);
    for (size_t i = 0; i < slots; i++) {
        t.flags[i] = flags[i];
        t.head.live += flags[i] != 0;
        for (size_t a = 0; flags[i] && a < d; a++)
            t.coordinates[i * d + a] = (double)(10 + i * d + a);
    }
    t.head.slots = slots;
    return t;
}

/* A table of ones. */
static table with_live(size_t d, size_t capacity, size_t slots) {
    uint8_t flags[MOST];
    memset(flags, 1, sizeof flags);
    return with_flags(d, capacity, flags, slots);
}

static int same_head(ddm_head a, ddm_head b) {
    return a.slots == b.slots && a.live == b.live;
}

/* Whether two tables are the same, to the last bit of what stands behind the lent entries. */
static int same_table(const table *a, const table *b) {
    return same_head(a->head, b->head) && memcmp(a->flags, b->flags, sizeof a->flags) == 0
           && memcmp(a->coordinates, b->coordinates, sizeof a->coordinates) == 0;
}

/* ---- a plain model */

static size_t plain_live(const table *t) {
    size_t live = 0;
    for (size_t i = 0; i < t->head.slots; i++)
        live += t->flags[i] != 0;
    return live;
}

/* 1, 11, 27; `lacking` where another list is too short. Tables here are all smaller than the most points. */
static size_t plain_test(const table *t, int lacking) {
    if (t->d < 1 || t->d > AXES)
        return 1;
    if (lacking || t->coordinates_len < t->flags_len * t->d)
        return 11;
    return t->head.slots > t->flags_len || t->head.live != plain_live(t) ? 27 : 0;
}

static size_t plain_add(table *t, const double *point, size_t point_len, size_t *place, size_t *slot) {
    const size_t refused = plain_test(t, 0);
    size_t free = 0;
    *place = *slot = 0;
    if (refused)
        return refused;
    if (point_len != t->d)
        return 7;
    for (size_t a = 0; a < t->d; a++)
        if (!isfinite(point[a])) {
            *place = a;
            return 10;
        }
    while (free < t->head.slots && t->flags[free])
        free++;
    if (free == t->flags_len)
        return 21;
    t->flags[free] = 1;
    memcpy(t->coordinates + free * t->d, point, t->d * sizeof *point);
    t->head.live++;
    t->head.slots += free == t->head.slots;
    *slot = free;
    return 0;
}

static size_t plain_retire(table *t, size_t slot) {
    const size_t refused = plain_test(t, 0);
    if (refused)
        return refused;
    if (slot >= t->head.slots || !t->flags[slot])
        return 22;
    t->flags[slot] = 0;
    t->head.live--;
    return 0;
}

/* Writes the closed table beside the one that was. */
static size_t plain_close(table *t, size_t *rename, size_t rename_len, size_t *slots) {
    const size_t refused = plain_test(t, rename_len < t->head.slots), point = t->d * sizeof *t->coordinates;
    const table before = *t;
    size_t live = 0;
    *slots = 0;
    if (refused)
        return refused;
    memset(t->flags, 0, t->head.slots);
    memset(t->coordinates, 0, t->head.slots * point);
    for (size_t i = 0; i < before.head.slots; i++) {
        rename[i] = before.head.slots;
        if (!before.flags[i])
            continue;
        rename[i] = live++;
        t->flags[rename[i]] = 1;
        memcpy(t->coordinates + rename[i] * t->d, before.coordinates + i * t->d, point);
    }
    t->head.slots = t->head.live = *slots = live;
    return 0;
}

/* ---- edits by the library, each against the model */

/* The slot that the last accepted call of add answered with, and the place of the last refused one. */
static size_t taken, place;

static size_t add(table *t, const double *point, size_t point_len) {
    size_t slot[DDM_ADD_SLOT + SPARE], number;
    size_t expected, where;
    table plain = *t;
    memset(slot, FILL, sizeof slot);
    number = ddm_add(&t->head, t->flags, t->flags_len, t->coordinates, t->coordinates_len, t->d, point, point_len, slot, DDM_ADD_SLOT);
    EXPECT(number == plain_add(&plain, point, point_len, &where, &expected));
    taken = slot[DDM_ADD_TAKEN], place = slot[DDM_ADD_PLACE];
    EXPECT(taken == expected && place == where);
    for (size_t i = DDM_ADD_SLOT * ROOM; i < sizeof slot; i++)
        EXPECT(((unsigned char *)slot)[i] == FILL);
    EXPECT(same_table(t, &plain));
    return number;
}

static size_t retire(table *t, size_t slot) {
    table plain = *t;
    const size_t number = ddm_retire(&t->head, t->flags, t->flags_len, t->coordinates, t->coordinates_len, t->d, slot);
    EXPECT(number == plain_retire(&plain, slot));
    EXPECT(same_table(t, &plain));
    return number;
}

/* The list of the last closing, and the slot count that it answered with. */
static size_t names[MOST + 2 * SPARE], remaining;

static size_t close_gaps(table *t, size_t names_len) {
    size_t slot[DDM_CLOSE_SLOT + SPARE], due[MOST + 2 * SPARE], number, expected;
    table plain = *t;
    memset(slot, FILL, sizeof slot), memset(names, FILL, sizeof names), memset(due, FILL, sizeof due);
    number = ddm_close(&t->head, t->flags, t->flags_len, t->coordinates, t->coordinates_len, t->d, names, names_len, slot, DDM_CLOSE_SLOT);
    EXPECT(number == plain_close(&plain, due, names_len, &expected));
    remaining = slot[DDM_CLOSE_SLOTS];
    EXPECT(remaining == expected && slot[DDM_CLOSE_PLACE] == 0);
    EXPECT(memcmp(names, due, sizeof names) == 0);
    for (size_t i = DDM_CLOSE_SLOT * ROOM; i < sizeof slot; i++)
        EXPECT(((unsigned char *)slot)[i] == FILL);
    EXPECT(same_table(t, &plain));
    return number;
}

/* Whether adding this point is refused with this number at this place, and leaves the table. */
static int refused_add(table t, const double *point, size_t point_len, size_t number, size_t at) {
    const table before = t;
    return add(&t, point, point_len) == number && place == at && taken == 0 && same_table(&t, &before);
}

static int refused_retire(table t, size_t slot, size_t number) {
    const table before = t;
    return retire(&t, slot) == number && same_table(&t, &before);
}

static int refused_close(table t, size_t names_len, size_t number) {
    const table before = t;
    int right = close_gaps(&t, names_len) == number && remaining == 0 && same_table(&t, &before);
    for (size_t i = 0; i < sizeof names; i++)
        right = right && ((unsigned char *)names)[i] == FILL;
    return right;
}

/* ---- edits one by one */

static void slots_in_order(void) {
    const double a[2] = {1.0, 2.0}, b[2] = {-0.0, 5e-324}, c[2] = {7.0, 8.0};
    table t = empty(2, 4);
    EXPECT(add(&t, a, 2) == 0 && taken == 0 && add(&t, b, 2) == 0 && taken == 1 && add(&t, c, 2) == 0 && taken == 2);
    EXPECT(same_head(t.head, (ddm_head){3, 3}) && t.flags[2] == 1 && t.flags[3] == FILL);
    EXPECT(memcmp(t.coordinates + 2, b, sizeof b) == 0 && memcmp(t.coordinates + t.d * 2, c, sizeof c) == 0);
    /* the lowest of two retired slots, then the other, then a new one */
    EXPECT(retire(&t, 2) == 0 && retire(&t, 1) == 0 && same_head(t.head, (ddm_head){3, 1}) && t.flags[1] == 0 && t.flags[2] == 0);
    EXPECT(memcmp(t.coordinates + 2, b, sizeof b) == 0);
    EXPECT(add(&t, c, 2) == 0 && taken == 1 && same_head(t.head, (ddm_head){3, 2}) && memcmp(t.coordinates + 2, c, sizeof c) == 0);
    EXPECT(add(&t, a, 2) == 0 && taken == 2 && add(&t, b, 2) == 0 && taken == 3 && same_head(t.head, (ddm_head){4, 4}));
    /* it is full; a retired slot makes room for one */
    EXPECT(add(&t, a, 2) == 21 && retire(&t, 3) == 0 && same_head(t.head, (ddm_head){4, 3}) && add(&t, a, 2) == 0 && taken == 3);
    EXPECT(add(&t, a, 2) == 21 && retire(&t, 0) == 0 && retire(&t, 0) == 22 && add(&t, b, 2) == 0 && taken == 0);
    /* all retired: the slot count stays, and the slots are given out again from the lowest on */
    for (size_t slot = 0; slot < 4; slot++)
        EXPECT(retire(&t, slot) == 0);
    EXPECT(same_head(t.head, (ddm_head){4, 0}) && add(&t, c, 2) == 0 && taken == 0 && add(&t, c, 2) == 0 && taken == 1);
}

static void no_capacity(void) {
    const double point = 1.0;
    for (size_t d = 1; d <= AXES; d++) {
        table t = empty(d, 0);
        EXPECT(refused_add(t, &point, d == 1 ? 1 : 0, d == 1 ? 21 : 7, 0) && refused_retire(t, 0, 22));
        EXPECT(close_gaps(&t, 0) == 0 && same_head(t.head, (ddm_head){0, 0}) && close_gaps(&t, SPARE) == 0);
        t.head.slots = 1;
        EXPECT(refused_add(t, &point, 1, 27, 0) && refused_retire(t, 0, 27) && refused_close(t, 1, 27) && refused_close(t, 0, 11));
    }
}

/* Any flag but 0 is live, and none at or above the slot count. */
static void odd_flags(void) {
    const uint8_t flags[4] = {2, 255, 0, 128};
    const double point = 1.0;
    table t = with_flags(1, 8, flags, 4);
    t.flags[4] = 0, t.flags[5] = 255, t.flags[6] = 1;
    EXPECT(t.head.live == 3 && refused_retire(t, 2, 22));
    for (size_t slot = 4; slot < 8; slot++)
        EXPECT(refused_retire(t, slot, 22));
    EXPECT(refused_retire(t, (size_t)-1, 22) && refused_retire(t, 8, 22));
    EXPECT(add(&t, &point, 1) == 0 && taken == 2 && t.flags[2] == 1 && t.flags[0] == 2 && t.flags[1] == 255);
    EXPECT(add(&t, &point, 1) == 0 && taken == 4 && add(&t, &point, 1) == 0 && taken == 5 && t.flags[5] == 1 && t.flags[6] == 1);
    EXPECT(retire(&t, 1) == 0 && t.flags[1] == 0 && retire(&t, 3) == 0 && same_head(t.head, (ddm_head){6, 4}));
}

/* A longer coordinate list is taken, and its further entries are left alone. */
static void long_coordinates(void) {
    const double point[AXES] = {1.0, 2.0, 3.0};
    for (size_t more = 0; more <= SPARE; more++) {
        table t = empty(AXES, MOST);
        t.coordinates_len += more;
        for (size_t i = 0; i < MOST; i++)
            EXPECT(add(&t, point, AXES) == 0 && taken == i);
        EXPECT(add(&t, point, AXES) == 21 && isnan(t.coordinates[AXES * MOST]) && retire(&t, MOST - 1) == 0);
    }
}

/* ---- closing */

static double of_bits(uint64_t bits) {
    double x;
    memcpy(&x, &bits, sizeof x);
    return x;
}

/* Zeros of both signs, the least number, infinities, and NaNs of both kinds and signs with their payloads. */
static const uint64_t odd_bits[9] = {0x0, 0x8000000000000000, 0x1, 0x7ff0000000000000, 0xfff0000000000000,
                                     0x7ff8000000000000, 0x7ff0000000000001, 0xfff8dead0000beef, 0xffffffffffffffff};

static double odd_float(void) {
    return of_bits(odd_bits[below(9)]);
}

/* Gaps in front, between and at the end, with flags and floats of all kinds, by hand. */
static void closed_by_hand(void) {
    const uint8_t flags[7] = {0, 2, 0, 255, 1, 0, 0}, flags_after[9] = {1, 1, 1, 0, 0, 0, 0, 77, 0};
    const size_t renamed[9] = {7, 0, 7, 1, 2, 7, 7};
    const double live[6] = {-0.0, of_bits(0x7ff0dead0000beef), 3.5, of_bits(0xfff8000000000001), 5e-324, -7.0};
    table t = with_flags(2, 9, flags, 7);
    t.flags[7] = 77, t.flags[8] = 0;
    t.coordinates[0] = -0.0, t.coordinates[t.d * 2] = 8.0, t.coordinates[t.d * 6] = -0.0;
    memcpy(t.coordinates + t.d, live, sizeof *live * 2);
    memcpy(t.coordinates + t.d * 3, live + 2, sizeof live - sizeof *live * 2);
    t.coordinates[t.d * 7] = 70.0, t.coordinates[t.d * 9 - 1] = -0.0;
    EXPECT(close_gaps(&t, 9) == 0 && remaining == 3 && same_head(t.head, (ddm_head){3, 3}));
    EXPECT(memcmp(names, renamed, sizeof *names * 7) == 0);
    for (size_t i = 7 * ROOM; i < sizeof names; i++)
        EXPECT(((unsigned char *)names)[i] == FILL);
    EXPECT(memcmp(t.flags, flags_after, sizeof flags_after) == 0 && t.flags[9] == FILL);
    EXPECT(memcmp(t.coordinates, live, sizeof live) == 0);
    for (size_t i = 6; i < t.d * 7; i++)
        EXPECT(t.coordinates[i] == 0.0 && !signbit(t.coordinates[i]));
    EXPECT(t.coordinates[t.d * 7] == 70.0 && isnan(t.coordinates[t.d * 7 + 1]) && signbit(t.coordinates[t.d * 9 - 1]));
    /* the next new slot is the one behind the wells that are left; retired slots are given out again as ever */
    EXPECT(add(&t, live + 4, 2) == 0 && taken == 3 && retire(&t, 1) == 0 && add(&t, live + 4, 2) == 0 && taken == 1);
}

/* Every choice of live and retired slots, in each dimension: no gap, all gaps, gaps in front, at the end and between; with a list as long
 * as the slot count and with longer ones, twice over. */
static void closed_patterns(void) {
    const uint8_t kinds[4] = {1, 2, 128, 255};
    for (size_t slots = 0; slots <= 6; slots++)
        for (size_t pattern = 0; pattern < (size_t)1 << slots; pattern++)
            for (size_t d = 1; d <= AXES; d++) {
                uint8_t flags[6];
                size_t live = 0;
                table t;
                for (size_t i = 0; i < slots; i++) {
                    flags[i] = pattern >> i & 1 ? kinds[below(4)] : 0;
                    live += flags[i] != 0;
                }
                t = with_flags(d, slots + below(SPARE + 1), flags, slots);
                for (size_t i = 0; i < sizeof t.coordinates / sizeof *t.coordinates; i++)
                    if (below(3) == 0)
                        t.coordinates[i] = odd_float();
                EXPECT(close_gaps(&t, slots + below(SPARE + 1)) == 0 && remaining == live);
                EXPECT(close_gaps(&t, live + below(SPARE + 1)) == 0 && remaining == live);
                for (size_t i = 0; i < live; i++)
                    EXPECT(names[i] == i && t.flags[i] == 1);
            }
}

/* Both kinds of 11 are one test, and a longer coordinate list or rename list is taken. */
static void closed_lengths(void) {
    const uint8_t flags[5] = {1, 0, 2, 0, 1};
    for (size_t d = 1; d <= AXES; d++)
        for (size_t names_len = 0; names_len <= 5 + SPARE; names_len++)
            for (size_t fewer = 0; fewer <= d; fewer++) {
                table t = with_flags(d, 6, flags, 5);
                t.coordinates_len -= fewer;
                EXPECT(fewer || names_len < 5 ? refused_close(t, names_len, 11) : close_gaps(&t, names_len) == 0);
            }
    for (size_t more = 0; more <= SPARE; more++) {
        table t = with_flags(AXES, MOST, flags, 5);
        t.coordinates_len += more;
        EXPECT(close_gaps(&t, 5) == 0 && remaining == 3 && isnan(t.coordinates[AXES * MOST]));
    }
}

/* ---- refusals of edits, in their order: what comes first is mended first */

static void add_in_order(void) {
    const double bad[4] = {0.0, NAN, INFINITY, NAN}, far[2] = {0.0, -INFINITY}, good[2] = {3.0, 4.0};
    /* heads that do not fit three live flags of a capacity of three */
    const ddm_head unsound[6] = {{4, 3}, {3, 2}, {3, 4}, {(size_t)-1, 3}, {3, (size_t)-1}, {2, 3}};
    table t = with_live(2, 3, 3);
    for (size_t i = 0; i < 6; i++) {
        table all = t;
        all.head = unsound[i], all.coordinates_len--;
        all.d = 0;
        EXPECT(refused_add(all, bad, 3, 1, 0));
        all.d = 4;
        EXPECT(refused_add(all, bad, 3, 1, 0));
        all.d = (size_t)-1;
        EXPECT(refused_add(all, bad, 3, 1, 0));
        all.d = 2;
        EXPECT(refused_add(all, bad, 3, 11, 0));
        all.coordinates_len++;
        EXPECT(refused_add(all, bad, 3, 27, 0));
    }
    /* the table is full in what follows */
    EXPECT(refused_add(t, bad, 0, 7, 0) && refused_add(t, bad, 1, 7, 0) && refused_add(t, bad, 3, 7, 0) && refused_add(t, bad, 4, 7, 0));
    EXPECT(refused_add(t, good, 1, 7, 0));
    EXPECT(refused_add(t, bad, 2, 10, 1) && refused_add(t, bad + 1, 2, 10, 0) && refused_add(t, bad + 2, 2, 10, 0));
    EXPECT(refused_add(t, far, 2, 10, 1));
    EXPECT(refused_add(t, good, 2, 21, 0));
    t.flags_len++, t.coordinates_len += t.d;
    EXPECT(refused_add(t, bad, 3, 7, 0) && refused_add(t, bad, 2, 10, 1));
    EXPECT(add(&t, good, 2) == 0 && taken == 3);
}

static void retire_in_order(void) {
    const ddm_head unsound[5] = {{4, 3}, {3, 2}, {3, 4}, {(size_t)-1, 3}, {2, 3}};
    table t = with_live(2, 3, 3);
    for (size_t i = 0; i < 5; i++) {
        table all = t;
        all.head = unsound[i], all.coordinates_len--;
        all.d = 0;
        EXPECT(refused_retire(all, 3, 1));
        all.d = 4;
        EXPECT(refused_retire(all, 3, 1));
        all.d = 2;
        EXPECT(refused_retire(all, 3, 11));
        all.coordinates_len++;
        EXPECT(refused_retire(all, 3, 27) && refused_retire(all, 0, 27));
    }
    EXPECT(refused_retire(t, 3, 22) && retire(&t, 2) == 0 && retire(&t, 2) == 22);
}

/* Every choice of the conditions 1, 11 by the coordinates, 11 by the rename list, and 27. */
static void close_in_order(void) {
    const size_t wrong_d[3] = {0, AXES + 1, (size_t)-1};
    const ddm_head heads[6] = {{3, 2}, {4, 2}, {3, 1}, {3, 3}, {3, (size_t)-1}, {1, 2}};
    const uint8_t flags[3] = {1, 0, 255};
    for (size_t d = 1; d <= AXES; d++)
        for (size_t i = 0; i < 6; i++)
            for (size_t mask = 0; mask < 8; mask++)
                for (size_t k = 0; k < 3; k++) {
                    table t = with_flags(d, 3, flags, 3);
                    const size_t number = mask & 4 ? 1 : mask & 3 ? 11 : i ? 27 : 0;
                    t.head = heads[i];
                    if (mask & 4)
                        t.d = wrong_d[k];
                    if (mask & 2)
                        t.coordinates_len -= 1 + below(d);
                    if (number)
                        EXPECT(refused_close(t, t.head.slots - (mask & 1), number));
                    else
                        EXPECT(close_gaps(&t, t.head.slots) == 0 && remaining == 2);
                }
    /* no list is as long as these slot counts */
    table t = with_flags(1, 3, flags, 3);
    t.head.slots = (size_t)-1;
    EXPECT(refused_close(t, MOST, 11) && refused_close(t, 0, 11));
    t.head.slots = (size_t)1 << 63;
    EXPECT(refused_close(t, MOST, 11));
}

/* A short result slot comes before all else, and then it is not written either. */
static void short_slots(void) {
    const double point = 1.0;
    for (size_t d = 1; d <= 4; d += 3)
        for (size_t entries = 0; entries < DDM_ADD_SLOT; entries++) {
            table t = empty(1, 1);
            const table before = t;
            size_t slot[DDM_ADD_SLOT];
            memset(slot, FILL, sizeof slot);
            EXPECT(ddm_add(&t.head, t.flags, 1, t.coordinates, 1, d, &point, 1, slot, entries) == 11 && same_table(&t, &before));
            for (size_t i = 0; i < sizeof slot; i++)
                EXPECT(((unsigned char *)slot)[i] == FILL);
        }
    for (size_t d = 1; d <= 4; d += 3)
        for (size_t entries = 0; entries < DDM_CLOSE_SLOT; entries++) {
            table t = with_flags(1, 2, (const uint8_t[2]){0, 1}, 2);
            const table before = t;
            size_t slot[DDM_CLOSE_SLOT], rename[2];
            memset(slot, FILL, sizeof slot), memset(rename, FILL, sizeof rename);
            EXPECT(ddm_close(&t.head, t.flags, 2, t.coordinates, 2, d, rename, 2, slot, entries) == 11 && same_table(&t, &before));
            for (size_t i = 0; i < sizeof slot; i++)
                EXPECT(((unsigned char *)slot)[i] == FILL && ((unsigned char *)rename)[i] == FILL);
        }
}

/* ---- random sequences of edits */

/* A point: small numbers, sometimes with one that is not finite. */
static void random_point(double *point) {
    const double odd[6] = {NAN, INFINITY, -INFINITY, -0.0, 5e-324, 1e308};
    for (size_t a = 0; a < AXES + 1; a++)
        point[a] = below(20) ? (double)below(9) : odd[below(6)];
}

/* A table with flags of all kinds in a sound head; below the slot count, above it and behind what is lent. */
static table random_table(void) {
    const size_t d = 1 + below(AXES), capacity = below(10) ? 1 + below(MOST) : below(2);
    table t = empty(d, capacity);
    for (size_t i = 0; i < MOST + SPARE; i++)
        t.flags[i] = below(3) ? (uint8_t)below(256) : 0;
    t.head.slots = below(capacity + 1);
    t.head.live = plain_live(&t);
    for (size_t i = 0; i < t.head.slots; i++)
        for (size_t a = 0; t.flags[i] && a < d; a++)
            t.coordinates[i * d + a] = (double)below(9);
    t.coordinates_len += below(SPARE + 1);
    return t;
}

/* What a random edit is. */
enum { RETIRING, ADDING, CLOSING, KINDS };

static void sequences(void) {
    const size_t numbers[8] = {0, 1, 7, 10, 11, 21, 22, 27};
    size_t seen[KINDS][28] = {{0}, {0}, {0}};
    for (size_t i = 0; i < 1000; i++) {
        table t = random_table();
        for (size_t edit = 0; edit < 60; edit++) {
            const table kept = t;
            const uint64_t harm = below(40), kind = below(8) ? below(CLOSING) : CLOSING;
            double point[AXES + 1];
            size_t number;
            random_point(point);
            if (harm == 0)
                t.d = below(2) ? 0 : AXES + 1 + below(2);
            if (harm == 1 && t.coordinates_len)
                t.coordinates_len = below(t.flags_len * t.d + 1);
            if (harm == 2)
                t.head.live += below(2) ? 1 : (size_t)-1;
            if (harm == 3)
                t.head.slots = below(t.flags_len + 3);
            if (kind == CLOSING)
                number = close_gaps(&t, harm == 6 ? below(t.head.slots + 1) : t.head.slots + below(SPARE));
            else
                number = kind == ADDING ? add(&t, point, harm == 4 ? below(AXES + 2) : t.d)
                                        : retire(&t, below(t.head.slots + 1 + (harm == 5 ? SPARE : 0)));
            seen[kind][number]++;
            /* the caller mends what was wrong */
            t.d = kept.d, t.coordinates_len = kept.coordinates_len;
            if (number)
                t.head = kept.head;
            EXPECT(t.head.slots <= t.flags_len && t.head.live == plain_live(&t));
        }
    }
    for (size_t i = 0; i < 8; i++) {
        const size_t number = numbers[i];
        EXPECT(seen[ADDING][number] > 50 || number == 22);
        EXPECT(seen[RETIRING][number] > 50 || number == 7 || number == 10 || number == 21);
        EXPECT(seen[CLOSING][number] > 50 || number == 7 || number == 10 || number == 21 || number == 22);
    }
}

/* ---- the build over slots: jobs and their lists */

typedef struct settings {
    uint32_t leaf, near, factor, policy, threshold;
} settings;

/* The lists of one call, in the order of ddm_build_sizes, and its slot. */
typedef struct lent {
    size_t sizes[DDM_SIZES_SLOT], result[DDM_BUILD_SLOT + 1];
    void *lists[DDM_SIZES_SLOT];
} lent;

/* Lists for so many points; those of one point where there is none. */
static lent lend(size_t n, size_t d, uint32_t near) {
    lent l;
    EXPECT(ddm_build_sizes(n ? n : 1, d, near, l.sizes, DDM_SIZES_SLOT) == 0);
    memset(l.result, FILL, sizeof l.result);
    for (size_t i = 0; i < DDM_SIZES_SLOT; i++) {
        l.lists[i] = malloc((l.sizes[i] + SPARE) * ROOM);
        if (!l.lists[i])
            exit(1);
        memset(l.lists[i], FILL, (l.sizes[i] + SPARE) * ROOM);
    }
    return l;
}

static void give_back(lent *l) {
    for (size_t i = 0; i < DDM_SIZES_SLOT; i++)
        free(l->lists[i]);
}

/* A list of l as a call takes it: pointer, entries. */
#define LENT(list) l->lists[list], l->sizes[list]
#define LISTS \
    LENT(DDM_SIZES_LEVEL_POINTS), LENT(DDM_SIZES_INTERNALS), LENT(DDM_SIZES_DOMAINS), LENT(DDM_SIZES_BOXES), LENT(DDM_SIZES_BORROWED), \
        LENT(DDM_SIZES_FLOATS), LENT(DDM_SIZES_WHOLES), LENT(DDM_SIZES_CUTS), LENT(DDM_SIZES_PLANES)

static size_t build(const double *points, size_t n, size_t d, settings s, lent *l) {
    return ddm_build(points, n * d, d, s.leaf, s.near, s.factor, s.policy, s.threshold, LISTS, l->result, DDM_BUILD_SLOT);
}

static size_t build_slots(const table *t, settings s, lent *l, size_t slot) {
    return ddm_build_slots(t->head.slots, t->head.live, t->flags, t->flags_len, t->coordinates, t->coordinates_len, t->d, s.leaf, s.near,
                           s.factor, s.policy, s.threshold, LISTS, l->result, slot);
}

/* Whether these bytes are as they were found. */
static int untouched(const void *from, size_t bytes) {
    while (bytes--)
        if (((const unsigned char *)from)[bytes] != FILL)
            return 0;
    return 1;
}

/* Whether a list of l is as it was found from this entry on, what stands behind the lent ones included. */
static int untouched_from(const lent *l, size_t list, size_t entry) {
    return untouched((const char *)l->lists[list] + entry * ROOM, (l->sizes[list] + SPARE - entry) * ROOM);
}

/* ---- the build over slots against ddm_build */

/* The live slots, and their coordinates one after the other. */
typedef struct compacted {
    size_t n, slots[MOST];
    double points[AXES * MOST];
} compacted;

static compacted compact(const table *t) {
    compacted c = {0, {0}, {0}};
    for (size_t i = 0; i < t->head.slots; i++)
        if (t->flags[i]) {
            memcpy(c.points + c.n * t->d, t->coordinates + i * t->d, t->d * sizeof *c.points);
            c.slots[c.n++] = i;
        }
    return c;
}

/* Renames the first entries of a list of rows, each below `many`. */
static void rename_rows(void *list, size_t entries, const size_t *by, size_t many) {
    for (size_t i = 0; i < entries; i++) {
        size_t *row = (size_t *)list + i;
        EXPECT(*row < many);
        *row = *row < many ? by[*row] : 0;
    }
}

/* Renames the rows in the lists of an accepted build. */
static void rename_all(lent *l, const size_t *by, size_t many) {
    const size_t *domains = l->lists[DDM_SIZES_DOMAINS], *last;
    size_t rows = 0, leaves = 0;
    for (size_t level = 0; level < DDM_MOST_LEVELS; level++) {
        rows += l->result[DDM_SLOT_ROWS + level];
        leaves += l->result[DDM_SLOT_DOMAINS + level];
    }
    last = domains + DDM_ROW_NUMBERS * (leaves - 1);
    rename_rows(l->lists[DDM_SIZES_LEVEL_POINTS], rows, by, many);
    rename_rows(l->lists[DDM_SIZES_INTERNALS], rows, by, many);
    rename_rows(l->lists[DDM_SIZES_BORROWED], last[DDM_COLUMN_BORROWED_START] + last[DDM_COLUMN_BORROWED_COUNT], by, many);
}

/* The outcome of a build that gave this number, its rows and the place of 10 renamed by this list, against that of another: the slots are
 * the same, and the lists to their ends. */
static void same_renamed(lent *one, const lent *other, size_t number, size_t d, const size_t *by, size_t many) {
    size_t *where = one->result + DDM_SLOT_PLACE;
    if (number == 10)
        *where = by[*where / d] * d + *where % d;
    if (!number)
        rename_all(one, by, many);
    EXPECT(memcmp(one->result, other->result, sizeof other->result) == 0);
    for (size_t i = 0; i < DDM_SIZES_SLOT; i++) {
        const int room = i == DDM_SIZES_FLOATS || i == DDM_SIZES_WHOLES;
        EXPECT(room || memcmp(one->lists[i], other->lists[i], (other->sizes[i] + SPARE) * ROOM) == 0);
        EXPECT(untouched_from(other, i, number ? 0 : other->sizes[i]));
    }
}

/* Both builds, with so many entries fewer of one list: the same refusal and slot, its place in the lent list; and the same lists to their
 * ends but for the names of the rows. Gives the number. */
static size_t both_builds(const table *t, settings s, size_t list, size_t fewer) {
    const compacted c = compact(t);
    const table before = *t;
    lent points = lend(c.n, t->d, s.near), slots = lend(c.n, t->d, s.near);
    size_t number;
    points.sizes[list] -= fewer, slots.sizes[list] -= fewer;
    number = build(c.points, c.n, t->d, s, &points);
    EXPECT(build_slots(t, s, &slots, DDM_BUILD_SLOT) == number && same_table(t, &before));
    points.sizes[list] += fewer, slots.sizes[list] += fewer;
    same_renamed(&points, &slots, number, t->d, c.slots, c.n);
    give_back(&points), give_back(&slots);
    return number;
}

/* The build before closing and the build after it, with so many entries fewer of one list: the same refusal and slot, and the same lists to
 * their ends, rows and the place of 10 renamed by the list that closing wrote. The table is closed then. Gives the number. */
static size_t builds_about_closing(table *t, settings s, size_t list, size_t fewer) {
    const size_t slots = t->head.slots;
    lent before = lend(t->head.live, t->d, s.near), after = lend(t->head.live, t->d, s.near);
    size_t number;
    before.sizes[list] -= fewer, after.sizes[list] -= fewer;
    number = build_slots(t, s, &before, DDM_BUILD_SLOT);
    EXPECT(close_gaps(t, slots + below(SPARE)) == 0);
    EXPECT(build_slots(t, s, &after, DDM_BUILD_SLOT) == number);
    before.sizes[list] += fewer, after.sizes[list] += fewer;
    same_renamed(&before, &after, number, t->d, names, slots);
    give_back(&before), give_back(&after);
    return number;
}

static settings random_settings(size_t n) {
    settings s = {1 + (uint32_t)below(5), (uint32_t)below(7), 2 + (uint32_t)below(4), DDM_POLICY_FIXED, 0};
    s.threshold = (uint32_t)(1 + n / (1 + below(9)));
    if (below(12) == 0)
        s.policy = DDM_POLICY_AUTO;
    if (below(20) == 0)
        s.factor = 2, s.threshold = 1;
    if (below(40) == 0)
        s.leaf = 0;
    if (below(40) == 0)
        s.factor = 1;
    if (below(40) == 0)
        s.policy = DDM_POLICY_FIXED, s.threshold = 0;
    return s;
}

/* Every build is made before closing, after it, and over the points alone. */
static void random_builds(void) {
    size_t seen[12] = {0};
    for (size_t i = 0; i < 2000; i++) {
        table t = random_table();
        const size_t bad = below(8) ? MOST : below(MOST);
        /* a live coordinate that is not finite, and the table without retired slots */
        if (bad < t.head.slots && t.flags[bad])
            t.coordinates[bad * t.d + below(t.d)] = below(2) ? NAN : -INFINITY;
        if (below(5) == 0)
            for (size_t retired = t.head.slots - t.head.live; retired; retired--)
                EXPECT(add(&t, (double[AXES]){0.0, 1.0, 2.0}, t.d) == 0);
        const settings s = random_settings(t.head.live);
        const size_t list = below(DDM_SIZES_SLOT), fewer = below(8) == 0, number = both_builds(&t, s, list, fewer);
        EXPECT(builds_about_closing(&t, s, list, fewer) == number && both_builds(&t, s, list, fewer) == number);
        seen[number]++;
    }
    EXPECT(seen[0] > 500 && seen[2] > 10 && seen[3] > 10 && seen[4] > 10 && seen[6] > 10 && seen[9] > 10 && seen[10] > 10);
    EXPECT(seen[11] > 10);
}

/* Edits, closings and builds in turn, as an office has them. */
static void edited_builds(void) {
    const settings s = {2, 3, 3, DDM_POLICY_FIXED, 4};
    for (size_t i = 0; i < 20; i++) {
        table t = empty(2, MOST);
        for (size_t day = 0; day < 60; day++) {
            const double point[2] = {(double)below(50), (double)below(50)};
            if (below(3))
                (void)add(&t, point, 2);
            else
                (void)retire(&t, below(t.head.slots + 1));
            EXPECT(both_builds(&t, s, 0, 0) == (t.head.live ? 0 : 6));
            if (below(12) == 0)
                EXPECT(builds_about_closing(&t, s, 0, 0) == (t.head.live ? 0 : 6));
        }
    }
}

/* Four wells on a line in slots 1, 3, 4 and 6, with flags of all kinds: what stands in the lists, by hand. */
static void four_wells(void) {
    const uint8_t flags[7] = {0, 2, 0, 255, 1, 0, 128};
    const settings s = {2, 1, 2, DDM_POLICY_FIXED, 2};
    const size_t rows[6] = {1, 3, 4, 6, 1, 3}, borrowed[6] = {3, 1, 4, 3, 6, 4}, cuts[7] = {0, 0, 3, 4, 0, 5, 6};
    const double planes[7] = {3.0, 1.0, 0.0, 0.0, 7.0, 0.0, 0.0};
    table t = with_flags(1, 9, flags, 7);
    lent l = lend(4, 1, s.near);
    t.coordinates[1] = 0.0, t.coordinates[3] = 1.0, t.coordinates[4] = 3.0, t.coordinates[6] = 7.0;
    EXPECT(build_slots(&t, s, &l, DDM_BUILD_SLOT) == 0 && l.result[DDM_SLOT_LEVELS] == 2 && l.result[DDM_SLOT_ROWS] == 4);
    EXPECT(l.result[DDM_SLOT_ROWS + 1] == 2 && l.result[DDM_SLOT_DOMAINS] == 4 && l.result[DDM_SLOT_DOMAINS + 1] == 1);
    EXPECT(memcmp(l.lists[DDM_SIZES_LEVEL_POINTS], rows, sizeof rows) == 0 && untouched_from(&l, DDM_SIZES_LEVEL_POINTS, 6));
    EXPECT(memcmp(l.lists[DDM_SIZES_INTERNALS], rows, sizeof rows) == 0 && untouched_from(&l, DDM_SIZES_INTERNALS, 6));
    EXPECT(memcmp(l.lists[DDM_SIZES_BORROWED], borrowed, sizeof borrowed) == 0 && untouched_from(&l, DDM_SIZES_BORROWED, 6));
    /* the record names axes, leaves and planes, and no slot */
    EXPECT(memcmp(l.lists[DDM_SIZES_CUTS], cuts, sizeof cuts) == 0 && untouched_from(&l, DDM_SIZES_CUTS, 7));
    EXPECT(memcmp(l.lists[DDM_SIZES_PLANES], planes, sizeof planes) == 0 && untouched_from(&l, DDM_SIZES_PLANES, 7));
    give_back(&l);
}

/* ---- refusals of the build over slots */

/* Whether this build, lent so many entries fewer of one list (or none, where it has no more), is refused with this number at this place:
 * no list is written, and the counts are 0. */
static int refused_build(table t, settings s, size_t list, size_t fewer, size_t number, size_t at) {
    const table before = t;
    lent l = lend(t.head.live > MOST ? MOST : t.head.live, t.d >= 1 && t.d <= AXES ? t.d : 1, s.near > DDM_MOST_NEIGHBOURS ? 0 : s.near);
    int right;
    fewer = fewer < l.sizes[list] ? fewer : l.sizes[list];
    l.sizes[list] -= fewer;
    right = build_slots(&t, s, &l, DDM_BUILD_SLOT) == number && l.result[DDM_SLOT_PLACE] == at && same_table(&t, &before);
    l.sizes[list] += fewer;
    for (size_t i = DDM_SLOT_LEVELS; i < DDM_BUILD_SLOT; i++)
        right = right && l.result[i] == 0;
    right = right && untouched(l.result + DDM_BUILD_SLOT, ROOM);
    for (size_t i = 0; i < DDM_SIZES_SLOT; i++)
        right = right && untouched_from(&l, i, 0);
    give_back(&l);
    return right;
}

/* What comes first is mended first, and the last, 11, is not: the table's coordinates are short, or a list by so many entries. */
static void build_in_order(table t, size_t list, size_t fewer, int wells) {
    const ddm_head unsound[5] = {{MOST + 1, 9}, {t.head.slots, t.head.live + 1}, {t.head.slots, t.head.live - 1}, {(size_t)-1, 0}, {0, 9}};
    const size_t d = t.d;
    settings s = {0, DDM_MOST_NEIGHBOURS + 1, 1, DDM_POLICY_FIXED, 0};
    t.d = AXES + 1;
    for (size_t i = 0; i < 5; i++) {
        table all = t;
        all.head = unsound[i];
        EXPECT(refused_build(all, s, list, fewer, 27, 0));
        all.d = 0;
        EXPECT(refused_build(all, s, list, fewer, 27, 0));
    }
    EXPECT(refused_build(t, s, list, fewer, 1, 0));
    t.d = 0;
    EXPECT(refused_build(t, s, list, fewer, 1, 0));
    t.d = d;
    EXPECT(refused_build(t, s, list, fewer, 2, 0));
    s.leaf = 1;
    EXPECT(refused_build(t, s, list, fewer, 3, 0));
    s.factor = 2;
    EXPECT(refused_build(t, s, list, fewer, 4, 0));
    s.threshold = 1;
    EXPECT(refused_build(t, s, list, fewer, 5, 0));
    s.near = 1;
    EXPECT(refused_build(t, s, list, fewer, wells ? 9 : 6, 0));
    s.threshold = 2;
    EXPECT(refused_build(t, s, list, fewer, wells ? 11 : 6, 0));
}

static void builds_in_order(void) {
    const settings s = {1, 1, 2, DDM_POLICY_FIXED, 2};
    const uint8_t flags[12] = {1, 0, 1, 1, 2, 0, 1, 255, 1, 1, 0, 1};
    table wells = with_flags(2, MOST, flags, 12), none = with_flags(2, MOST, flags, 0);
    EXPECT(wells.head.live == 9 && none.head.live == 0);
    none.head.slots = 2, none.flags[0] = none.flags[1] = 0;
    /* the second coordinate of slot 3 and the first of slot 4, of those that are live */
    wells.coordinates[3 * wells.d + 1] = INFINITY, wells.coordinates[wells.d * 4] = NAN;
    for (size_t list = 0; list < DDM_SIZES_SLOT; list++)
        build_in_order(wells, list, 1, 1);
    /* without wells, these two lists are still to have a domain row */
    build_in_order(none, DDM_SIZES_DOMAINS, (size_t)-1, 0);
    build_in_order(none, DDM_SIZES_BOXES, (size_t)-1, 0);
    wells.coordinates_len--, none.coordinates_len--;
    build_in_order(wells, 0, 0, 1);
    build_in_order(none, 0, 0, 0);
    wells.coordinates_len++;
    EXPECT(refused_build(wells, s, 0, 0, 10, 3 * wells.d + 1));
    wells.coordinates[3 * wells.d + 1] = 0.0;
    EXPECT(refused_build(wells, s, 0, 0, 10, wells.d * 4));
    wells.coordinates[wells.d * 4] = 0.0;
    EXPECT(both_builds(&wells, s, 0, 0) == 0);
    EXPECT(refused_build(empty(1, 0), s, 0, 0, 6, 0));
    /* a short slot comes before all else, and is not written either */
    lent l = lend(9, 2, s.near);
    wells.head.live++;
    EXPECT(build_slots(&wells, s, &l, DDM_BUILD_SLOT - 1) == 11 && untouched(l.result, sizeof l.result));
    for (size_t i = 0; i < DDM_SIZES_SLOT; i++)
        EXPECT(untouched_from(&l, i, 0));
    give_back(&l);
}

/* ---- the largest table */

static uint8_t large_flags[DDM_MOST_POINTS + 1];
static double large_coordinates[DDM_MOST_POINTS + 1];

/* An edit of so many coordinates, in one dimension. */
static size_t large_add(ddm_head *head, double point, size_t coordinates_len) {
    size_t slot[DDM_ADD_SLOT];
    const size_t number = ddm_add(head, large_flags, DDM_MOST_POINTS + 1, large_coordinates, coordinates_len, 1, &point, 1, slot,
                                  DDM_ADD_SLOT);
    taken = slot[DDM_ADD_TAKEN];
    return number;
}

static size_t large_retire(ddm_head *head, size_t slot) {
    return ddm_retire(head, large_flags, DDM_MOST_POINTS + 1, large_coordinates, DDM_MOST_POINTS, 1, slot);
}

static size_t large_names[DDM_MOST_POINTS + 1];

static size_t large_close(ddm_head *head, size_t names_len) {
    size_t slot[DDM_CLOSE_SLOT];
    const size_t number = ddm_close(head, large_flags, DDM_MOST_POINTS + 1, large_coordinates, DDM_MOST_POINTS, 1, large_names, names_len,
                                    slot, DDM_CLOSE_SLOT);
    remaining = slot[DDM_CLOSE_SLOTS];
    return number;
}

static size_t large_build(ddm_head head, settings s, lent *l) {
    return ddm_build_slots(head.slots, head.live, large_flags, DDM_MOST_POINTS + 1, large_coordinates, DDM_MOST_POINTS, 1, s.leaf, s.near,
                           s.factor, s.policy, s.threshold, LISTS, l->result, DDM_BUILD_SLOT);
}

/* 1,048,577 flags are 1,048,576 slots: the flag behind them is neither read nor written, and so is the coordinate. */
static void largest(void) {
    const size_t last = DDM_MOST_POINTS - 1, rows[3] = {7, 500000, last};
    const settings s = {1, 1, 2, DDM_POLICY_FIXED, 1};
    ddm_head head = {DDM_MOST_POINTS, DDM_MOST_POINTS}, past = {DDM_MOST_POINTS + 1, DDM_MOST_POINTS};
    lent l = lend(3, 1, s.near);
    memset(large_flags, 255, DDM_MOST_POINTS);
    large_flags[DDM_MOST_POINTS] = 0;
    large_coordinates[DDM_MOST_POINTS] = NAN;
    EXPECT(large_add(&head, 1.0, DDM_MOST_POINTS - 1) == 11 && large_add(&head, 1.0, DDM_MOST_POINTS) == 21);
    EXPECT(large_add(&past, 1.0, DDM_MOST_POINTS) == 27 && large_retire(&past, 0) == 27 && large_build(past, s, &l) == 27);
    EXPECT(large_retire(&head, DDM_MOST_POINTS) == 22 && same_head(head, (ddm_head){DDM_MOST_POINTS, DDM_MOST_POINTS}));
    EXPECT(large_build(head, s, &l) == 9);
    EXPECT(large_retire(&head, last) == 0 && large_flags[last] == 0 && head.live == last);
    EXPECT(large_add(&head, 5.0, DDM_MOST_POINTS) == 0 && taken == last && large_flags[last] == 1 && large_coordinates[last] == 5.0);
    EXPECT(large_add(&head, 6.0, DDM_MOST_POINTS + 1) == 21 && large_flags[DDM_MOST_POINTS] == 0);
    EXPECT(isnan(large_coordinates[DDM_MOST_POINTS]));
    /* three live slots, the last one among them, and a flag behind the capacity that would be the fourth */
    memset(large_flags, 0, DDM_MOST_POINTS);
    large_flags[7] = large_flags[500000] = large_flags[last] = large_flags[DDM_MOST_POINTS] = 1;
    large_coordinates[7] = 1.0, large_coordinates[500000] = 2.0;
    head.live = 3;
    EXPECT(large_build(head, s, &l) == 0 && l.result[DDM_SLOT_ROWS] == 3);
    EXPECT(memcmp(l.lists[DDM_SIZES_LEVEL_POINTS], rows, sizeof rows) == 0);
    EXPECT(large_add(&head, 0.0, DDM_MOST_POINTS) == 0 && taken == 0 && same_head(head, (ddm_head){DDM_MOST_POINTS, 4}));
    give_back(&l);
    /* closed: the four in front, and +0 behind them; flag and coordinate behind the capacity stay, and so does what the list has more */
    large_names[last] = large_names[DDM_MOST_POINTS] = 777;
    past.live = 4;
    EXPECT(large_close(&head, last) == 11 && large_close(&past, DDM_MOST_POINTS) == 11 && large_close(&past, DDM_MOST_POINTS + 1) == 27);
    EXPECT(large_names[last] == 777 && large_flags[last] == 1 && large_coordinates[last] == 5.0 && head.slots == DDM_MOST_POINTS);
    large_coordinates[8] = -1.0;
    EXPECT(large_close(&head, DDM_MOST_POINTS + 1) == 0 && remaining == 4 && same_head(head, (ddm_head){4, 4}));
    EXPECT(large_names[0] == 0 && large_names[7] == 1 && large_names[500000] == 2 && large_names[last] == 3);
    EXPECT(large_names[DDM_MOST_POINTS] == 777 && large_flags[DDM_MOST_POINTS] == 1 && isnan(large_coordinates[DDM_MOST_POINTS]));
    EXPECT(large_coordinates[0] == 0.0 && large_coordinates[1] == 1.0 && large_coordinates[2] == 2.0 && large_coordinates[3] == 5.0);
    for (size_t i = 0; i <= last; i++) {
        EXPECT(large_flags[i] == (i < 4) && (i < 4 || (large_coordinates[i] == 0.0 && !signbit(large_coordinates[i]))));
        EXPECT(i == 0 || i == 7 || i == 500000 || i == last || large_names[i] == DDM_MOST_POINTS);
    }
}

int main(void) {
    EXPECT(sizeof(size_t) == ROOM && sizeof(double) == ROOM && sizeof(ddm_head) == sizeof(size_t[2]));
    slots_in_order();
    no_capacity();
    odd_flags();
    long_coordinates();
    closed_by_hand();
    closed_patterns();
    closed_lengths();
    add_in_order();
    retire_in_order();
    close_in_order();
    short_slots();
    sequences();
    random_builds();
    edited_builds();
    four_wells();
    builds_in_order();
    largest();
    if (!wrong)
        printf("table: ok\n");
    return wrong != 0;
}
