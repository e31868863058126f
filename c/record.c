/* The cut record of each of the three builds by ddm.h: that it is the one of the level's leaves, that all builds write the same record and the
 * same tree, and nothing else, and what they refuse.
 *
 *   cc -O2 -o record c/record.c target/staticlib/libddm_c.a && ./record
 */
#include "ddm.h"
#include <math.h>
#include <stdio.h>
#include <stdlib.h>
#include <string.h>

static int wrong;

#define EXPECT(fact) ((fact) ? (void)0 : (wrong++, (void)printf("c/record.c:%d: %s does not hold\n", __LINE__, #fact)))

static uint64_t state = 88172645463325252u;

static uint64_t below(uint64_t n) {
    state ^= state << 13;
    state ^= state >> 7;
    state ^= state << 17;
    return state % n;
}

static uint64_t bits(double x) {
    uint64_t b;
    memcpy(&b, &x, sizeof b);
    return b;
}

/* ---- jobs and their lists */

enum { MOST = 60, AXES = 3 };

typedef struct job {
    double points[AXES * MOST];
    size_t n, d;
    uint32_t leaf, near, factor, policy, threshold;
} job;

/* The lists of one call: the entries that are lent of each, in the order of ddm_build_sizes. Whole numbers and floats have 8 bytes each.
 * Every list is filled with FILL, and has SPARE entries behind those that are lent. */
enum { CUTS = DDM_SIZES_CUTS, PLANES = DDM_SIZES_PLANES, LISTS = DDM_SIZES_SLOT, ROOM = 8, SPARE = 3, FILL = 0x5a };

typedef struct lent {
    size_t sizes[LISTS], result[DDM_BUILD_SLOT];
    void *lists[LISTS];
} lent;

static lent lend(const job *j) {
    lent l;
    EXPECT(ddm_build_sizes(j->n, j->d, j->near, l.sizes, LISTS) == 0);
    memset(l.result, FILL, sizeof l.result);
    for (size_t i = 0; i < LISTS; i++) {
        l.lists[i] = malloc((l.sizes[i] + SPARE) * ROOM);
        if (!l.lists[i])
            exit(1);
        memset(l.lists[i], FILL, (l.sizes[i] + SPARE) * ROOM);
    }
    return l;
}

static void give_back(lent *l) {
    for (size_t i = 0; i < LISTS; i++)
        free(l->lists[i]);
}

/* A list of l as a call takes it: pointer, entries. */
#define LENT(list) l->lists[list], l->sizes[list]
#define ALL_LENT \
    LENT(DDM_SIZES_LEVEL_POINTS), LENT(DDM_SIZES_INTERNALS), LENT(DDM_SIZES_DOMAINS), LENT(DDM_SIZES_BOXES), LENT(DDM_SIZES_BORROWED), \
        LENT(DDM_SIZES_FLOATS), LENT(DDM_SIZES_WHOLES), LENT(CUTS), LENT(PLANES)

/* The builds. That over slots is given a table of which every slot is live, so that its rows are those of the points. */
enum { QUEUE, DEPTH_FIRST, SLOTS, BUILDS };

static size_t build(int by, const job *j, lent *l, size_t slot) {
    uint8_t flags[MOST];
    memset(flags, 1, sizeof flags);
    if (by == SLOTS)
        return ddm_build_slots(j->n, j->n, flags, j->n, j->points, j->n * j->d, j->d, j->leaf, j->near, j->factor, j->policy,
                               j->threshold, ALL_LENT, l->result, slot);
    return (by == QUEUE ? ddm_build : ddm_build_depth_first)(j->points, j->n * j->d, j->d, j->leaf, j->near, j->factor, j->policy,
                                                             j->threshold, ALL_LENT, l->result, slot);
}

/* Whether these bytes are as they were found. */
static int untouched(const void *from, size_t bytes) {
    while (bytes--)
        if (((const unsigned char *)from)[bytes] != FILL)
            return 0;
    return 1;
}

/* Whether a list of l is as it was found from this entry on, what stands behind the lent ones included. */
static int untouched_from(const lent *l, size_t list, size_t entry) {
    return untouched((const char *)l->lists[list] + entry * ROOM, (l->sizes[list] + SPARE - entry) * ROOM);
}

/* A job on one axis, with one neighbour, factor 2 and a fixed threshold. */
static job on_a_line(const double *points, size_t n, uint32_t leaf, uint32_t threshold) {
    job j = {{0}, n, 1, leaf, 1, 2, DDM_POLICY_FIXED, threshold};
    memcpy(j.points, points, n * sizeof *points);
    return j;
}

/* ---- rows of a table */

/* Level 0 is the only fine level of this job, and its record has these nodes by every build; floats are compared as bits. */
static void has_record(job j, const size_t *cuts, const double *planes, size_t count) {
    for (int by = 0; by < BUILDS; by++) {
        lent l = lend(&j);
        EXPECT(build(by, &j, &l, DDM_BUILD_SLOT) == 0 && l.result[DDM_SLOT_LEVELS] == 2);
        EXPECT(DDM_RECORD_NODES(l.result[DDM_SLOT_DOMAINS]) == count);
        EXPECT(memcmp(l.lists[CUTS], cuts, count * sizeof *cuts) == 0);
        EXPECT(!planes || memcmp(l.lists[PLANES], planes, count * sizeof *planes) == 0);
        EXPECT(untouched_from(&l, CUTS, count) && untouched_from(&l, PLANES, count));
        give_back(&l);
    }
}

/* The job has a coarse level alone, and no node is written. */
static void has_no_record(job j) {
    for (int by = 0; by < BUILDS; by++) {
        lent l = lend(&j);
        EXPECT(build(by, &j, &l, DDM_BUILD_SLOT) == 0 && l.result[DDM_SLOT_LEVELS] == 1);
        EXPECT(untouched_from(&l, CUTS, 0) && untouched_from(&l, PLANES, 0));
        give_back(&l);
    }
}

static void table(void) {
    const double four[4] = {0.0, 1.0, 3.0, 7.0}, six[6] = {0.0, 1.0, 2.0, 3.0, 4.0, 5.0}, zeros[3] = {-0.0, 0.0, -0.0};
    const size_t seven[7] = {0, 0, 3, 4, 0, 5, 6};
    const size_t by_depth[23] = {0, 0, 0, 3, 4, 0, 0, 7, 8, 0, 9, 10, 0, 0, 5, 6, 0, 0, 11, 12, 0, 13, 14};
    const double planes[7] = {3.0, 1.0, 0.0, 0.0, 7.0, 0.0, 0.0};
    /* the plane is that of the first right row: row 1 at the root, and below it the one row that each half has */
    const double minus_first[7] = {0.0, -0.0, 0.0, 0.0, 0.0, 0.0, 0.0}, plus_first[7] = {-0.0, 0.0, 0.0, 0.0, -0.0, 0.0, 0.0};
    has_record(on_a_line(four, 4, 2, 2), seven, planes, 7);
    has_record(on_a_line(six, 6, 1, 3), by_depth, NULL, 23);
    has_record(on_a_line(zeros, 2, 1, 1), seven, minus_first, 7);
    has_record(on_a_line(zeros + 1, 2, 1, 1), seven, plus_first, 7);
    /* two rows and a threshold of two: no fine level */
    has_no_record(on_a_line(four, 2, 1, 2));
}

/* ---- a record against the leaves of its level */

/* What is walked: the record of one level, its domain rows, and what was found on the way: the rows from left to right, and of each leaf
 * its depth and its node. */
typedef struct walk {
    const job *j;
    const size_t *cuts;
    const double *planes;
    const size_t *domains, *internals;
    size_t leaves, rows[MOST], count, depth[DDM_RECORD_ENTRIES(MOST)], node[DDM_RECORD_ENTRIES(MOST)];
} walk;

static double coordinate(const walk *w, size_t place, size_t axis) {
    return w->j->points[w->j->d * w->rows[place] + axis];
}

/* The axis on which the rows of these places are longest; the first, of equals. */
static size_t longest(const walk *w, size_t from, size_t to) {
    size_t axis = 0;
    double most = -1.0;
    for (size_t a = 0; a < w->j->d; a++) {
        double low = INFINITY, high = -INFINITY;
        for (size_t i = from; i < to; i++) {
            const double x = coordinate(w, i, a);
            low = x < low ? x : low;
            high = x > high ? x : high;
        }
        if (high - low > most)
            most = high - low, axis = a;
    }
    return axis;
}

static size_t walk_leaf(walk *w, size_t node, size_t depth) {
    const size_t leaf = w->cuts[node] - DDM_RECORD_LEAF, *row = w->domains + DDM_ROW_NUMBERS * leaf;
    EXPECT(bits(w->planes[node]) == 0 && leaf < w->leaves);
    if (leaf < w->leaves) {
        EXPECT(w->depth[leaf] == 0 && row[DDM_COLUMN_DEPTH] == depth);
        w->depth[leaf] = depth;
        w->node[leaf] = node;
        for (size_t i = 0; i < row[DDM_COLUMN_OWN_COUNT] && w->count < MOST; i++)
            w->rows[w->count++] = w->internals[row[DDM_COLUMN_OWN_START] + i];
    }
    return node + 1;
}

/* Tests all that stands under a node of this depth, and gives the node behind it. */
static size_t walk_node(walk *w, size_t node, size_t depth) {
    const size_t from = w->count;
    size_t middle, right, behind;
    int first = 0;
    EXPECT(depth <= DDM_RECORD_DEEPEST);
    if (w->cuts[node] >= DDM_RECORD_LEAF)
        return walk_leaf(w, node, depth);
    right = walk_node(w, node + 1, depth + 1);
    middle = w->count;
    behind = walk_node(w, right, depth + 1);
    EXPECT(middle - from == (w->count - from) / 2);
    EXPECT(w->cuts[node] == longest(w, from, w->count));
    /* both halves are leaves, or both are cut */
    EXPECT((w->cuts[node + 1] < DDM_RECORD_LEAF) == (w->count - from >= 2 * (size_t)w->j->leaf));
    EXPECT((w->cuts[right] < DDM_RECORD_LEAF) == (w->cuts[node + 1] < DDM_RECORD_LEAF));
    for (size_t i = from; i < middle; i++)
        EXPECT(coordinate(w, i, w->cuts[node]) <= w->planes[node]);
    for (size_t i = middle; i < w->count; i++) {
        EXPECT(coordinate(w, i, w->cuts[node]) >= w->planes[node]);
        first |= bits(coordinate(w, i, w->cuts[node])) == bits(w->planes[node]);
    }
    EXPECT(first);
    return behind;
}

/* The records of an accepted build: as many nodes as there should be and nothing past them; and each level's is that of its leaves. */
static void walk_records(const job *j, const lent *l) {
    size_t nodes = 0, domain = 0;
    for (size_t level = 0; level + 1 < l->result[DDM_SLOT_LEVELS]; level++) {
        static walk w;
        memset(&w, 0, sizeof w);
        w.j = j;
        w.cuts = (const size_t *)l->lists[CUTS] + nodes;
        w.planes = (const double *)l->lists[PLANES] + nodes;
        w.domains = (const size_t *)l->lists[DDM_SIZES_DOMAINS] + DDM_ROW_NUMBERS * domain;
        w.internals = (const size_t *)l->lists[DDM_SIZES_INTERNALS];
        w.leaves = l->result[DDM_SLOT_DOMAINS + level];
        EXPECT(walk_node(&w, 0, 0) == DDM_RECORD_NODES(w.leaves));
        EXPECT(w.count == l->result[DDM_SLOT_ROWS + level]);
        /* numbered by depth, and then from left to right */
        for (size_t leaf = 1; leaf < w.leaves; leaf++)
            EXPECT(w.depth[leaf] > w.depth[leaf - 1] || (w.depth[leaf] == w.depth[leaf - 1] && w.node[leaf] > w.node[leaf - 1]));
        nodes += DDM_RECORD_NODES(w.leaves);
        domain += w.leaves;
    }
    EXPECT(untouched_from(l, CUTS, nodes) && untouched_from(l, PLANES, nodes));
}

/* ---- random jobs */

static job random_job(void) {
    const double odd[6] = {-0.0, 0.0, 5e-324, -5e-324, 1.0, -1.0};
    const uint64_t kind = below(3);
    job j = {{0}, 1 + below(MOST), 1 + below(AXES), 1 + (uint32_t)below(6), (uint32_t)below(7), 2 + (uint32_t)below(4), DDM_POLICY_FIXED, 0};
    j.threshold = (uint32_t)(1 + j.n / (1 + below(9)));
    for (size_t i = 0; i < j.n * j.d; i++)
        j.points[i] = kind == 0 ? odd[below(6)] : (double)below(kind == 1 ? 4 : 1000) - 2.0;
    return j;
}

/* Whether a list is working room, which every build leaves as it pleases. */
static int is_room(size_t list) {
    return list == DDM_SIZES_FLOATS || list == DDM_SIZES_WHOLES;
}

/* A build against that of the queue, on lists of its own: the same refusal, the same slot, and the same tree and record, the lists compared to
 * their ends. */
static void same_build(int by, const job *j, const lent *queue, size_t refused) {
    lent other = lend(j);
    EXPECT(build(by, j, &other, DDM_BUILD_SLOT) == refused);
    EXPECT(memcmp(queue->result, other.result, sizeof other.result) == 0);
    for (size_t list = 0; list < LISTS; list++) {
        EXPECT(is_room(list) || memcmp(queue->lists[list], other.lists[list], (other.sizes[list] + SPARE) * ROOM) == 0);
        EXPECT(untouched_from(&other, list, refused ? 0 : other.sizes[list]));
    }
    give_back(&other);
}

static void every_build(void) {
    const job j = random_job();
    lent queue = lend(&j);
    const size_t refused = build(QUEUE, &j, &queue, DDM_BUILD_SLOT);
    for (size_t list = 0; list < LISTS; list++)
        EXPECT(untouched_from(&queue, list, refused ? 0 : queue.sizes[list]));
    if (!refused)
        walk_records(&j, &queue);
    same_build(DEPTH_FIRST, &j, &queue, refused);
    same_build(SLOTS, &j, &queue, refused);
    give_back(&queue);
}

/* ---- refused calls */

/* Lent so many entries fewer of one list, the job is refused by every build with this number at this place: no list is written, and the
 * counts are 0. */
static void refused(job j, size_t list, size_t fewer, size_t number, size_t place) {
    for (int by = 0; by < BUILDS; by++) {
        lent l = lend(&j);
        l.sizes[list] -= fewer;
        EXPECT(build(by, &j, &l, DDM_BUILD_SLOT) == number);
        l.sizes[list] += fewer;
        EXPECT(l.result[DDM_SLOT_PLACE] == place);
        for (size_t i = DDM_SLOT_LEVELS; i < DDM_BUILD_SLOT; i++)
            EXPECT(l.result[i] == 0);
        for (size_t i = 0; i < LISTS; i++)
            EXPECT(untouched_from(&l, i, 0));
        give_back(&l);
    }
}

static void refusals(void) {
    const double four[4] = {0.0, 1.0, 3.0, 7.0}, bad[4] = {0.0, 1.0, NAN, 7.0};
    const job good = on_a_line(four, 4, 2, 2), not_finite = on_a_line(bad, 4, 2, 2);
    job leaf = not_finite, factor = not_finite, threshold = not_finite, low = not_finite;
    leaf.leaf = 0, factor.factor = 1, threshold.threshold = 0, low.threshold = 1, low.n = 9;
    refused(not_finite, CUTS, 0, 10, 2);
    /* each list with one entry fewer than ddm_build_sizes says: before a coordinate is looked at, and after all else */
    for (size_t list = 0; list < LISTS; list++) {
        refused(good, list, 1, 11, 0);
        refused(not_finite, list, 1, 11, 0);
        refused(leaf, list, 1, 2, 0);
        refused(factor, list, 1, 3, 0);
        refused(threshold, list, 1, 4, 0);
        refused(low, list, 1, 9, 0);
    }
    /* no record at all, and the room of before there was one in every build */
    refused(good, CUTS, DDM_RECORD_ENTRIES(4), 11, 0);
    refused(good, PLANES, DDM_RECORD_ENTRIES(4), 11, 0);
    refused(good, DDM_SIZES_WHOLES, 8 * good.n, 11, 0);
}

/* The entries that request 9 states of the record and the room, with K neighbours: each list of a build is refused with one fewer, above. */
static void stated_sizes(void) {
    for (size_t n = 1; n <= MOST; n++)
        for (size_t near = 0; near <= DDM_MOST_NEIGHBOURS; near++) {
            size_t sizes[LISTS];
            EXPECT(ddm_build_sizes(n, 1 + n % AXES, (uint32_t)near, sizes, LISTS) == 0);
            EXPECT(sizes[CUTS] == DDM_RECORD_ENTRIES(n) && sizes[PLANES] == DDM_RECORD_ENTRIES(n));
            EXPECT(sizes[DDM_SIZES_WHOLES] == 40 * n + 8 * n * (near + 1) && sizes[DDM_SIZES_FLOATS] == 32 * n);
        }
}

/* A short slot comes before all else, and is not written either. */
static void short_slots(void) {
    const double bad[1] = {NAN};
    const job leaf = on_a_line(bad, 1, 0, 2);
    for (int by = 0; by < BUILDS; by++) {
        lent l = lend(&leaf);
        EXPECT(build(by, &leaf, &l, DDM_BUILD_SLOT - 1) == 11 && untouched(l.result, sizeof l.result));
        for (size_t i = 0; i < LISTS; i++)
            EXPECT(untouched_from(&l, i, 0));
        give_back(&l);
    }
}

int main(void) {
    EXPECT(sizeof(size_t) == ROOM && sizeof(double) == ROOM);
    table();
    for (size_t i = 0; i < 1000; i++)
        every_build();
    refusals();
    stated_sizes();
    short_slots();
    if (!wrong)
        printf("record: ok\n");
    return wrong != 0;
}
