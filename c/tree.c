/* ddm_tree.h: its trees and records against lists read by hand, refusals, what is not there, and memory that is not to be had.
 *
 *   cc -O2 -o tree c/tree.c target/staticlib/libddm_c.a && ./tree
 */
#include <math.h>
#include <stdio.h>
#include <stdlib.h>
#include <string.h>

/* How many lists may still be made, how many were, and whether cutting them works. */
static size_t allowed = (size_t)-1, made;
static int cutting = 1;

static void *counted_calloc(size_t entries, size_t size) {
    made++;
    return allowed-- ? calloc(entries, size) : NULL;
}

static void *allowed_realloc(void *list, size_t bytes) {
    return cutting ? realloc(list, bytes) : NULL;
}

/* The version that the library says. */
static size_t version;

static size_t said_version(void) {
    return version;
}

#include "ddm.h"
#define ddm_version said_version
#define calloc counted_calloc
#define realloc allowed_realloc
#include "ddm_tree.h"
#undef ddm_version
#undef calloc
#undef realloc

static int wrong;

#define EXPECT(fact) ((fact) ? (void)0 : (wrong++, (void)printf("c/tree.c:%d: %s does not hold\n", __LINE__, #fact)))

static int same(ddm_rows rows, const size_t *list, size_t count) {
    return rows.count == count && memcmp(rows.rows, list, count * sizeof *list) == 0;
}

static uint64_t state = 88172645463325252u;

static uint64_t below(uint64_t n) {
    state ^= state << 13;
    state ^= state >> 7;
    state ^= state << 17;
    return state % n;
}

/* ---- the tree is what the lists hold */

/* The depth of a domain row says how many of the level's `rows` it has, and does not fall from the row `before`. */
static void right_depth(const size_t *row, const size_t *before, size_t rows, int coarse) {
    const size_t depth = row[DDM_COLUMN_DEPTH], own = row[DDM_COLUMN_OWN_COUNT];
    EXPECT(coarse ? depth == 0 : 0 < depth && depth <= DDM_RECORD_DEEPEST);
    EXPECT(!before || before[DDM_COLUMN_DEPTH] <= depth);
    EXPECT(own == rows >> depth || (own == (rows >> depth) + 1 && rows >> depth << depth != rows));
}

/* One level: its leaves' domain rows start at `row`, their floats at `box`. */
static void same_level(const ddm_tree *tree, const ddm_lists *lists, size_t level, const size_t *row, const double *box) {
    const size_t d = ddm_tree_dimensions(tree), last = ddm_tree_levels(tree) - 1;
    for (size_t leaf = 0; leaf < ddm_tree_leaves(tree, level); leaf++, row += DDM_ROW_NUMBERS, box += DDM_ROW_FLOATS(d)) {
        EXPECT(same(ddm_tree_own(tree, level, leaf), lists->internals + row[DDM_COLUMN_OWN_START], row[DDM_COLUMN_OWN_COUNT]));
        EXPECT(same(ddm_tree_borrowed(tree, level, leaf), lists->borrowed + row[DDM_COLUMN_BORROWED_START],
                    row[DDM_COLUMN_BORROWED_COUNT]));
        EXPECT(memcmp(&(double){ddm_tree_cover(tree, level, leaf)}, box + DDM_ROW_COVER(d), sizeof *box) == 0);
        EXPECT(ddm_tree_depth(tree, level, leaf) == row[DDM_COLUMN_DEPTH]);
        right_depth(row, leaf ? row - DDM_ROW_NUMBERS : NULL, ddm_tree_rows(tree, level).count, level == last);
        if (level == last)
            EXPECT(!ddm_tree_box(tree, level, leaf));
        else
            EXPECT(memcmp(ddm_tree_box(tree, level, leaf), box, DDM_BOX_FLOATS(d) * sizeof *box) == 0);
    }
}

static void same_tree(const ddm_tree *tree, const ddm_lists *lists, const size_t *result) {
    size_t from = 0, domain = 0;
    EXPECT(ddm_tree_levels(tree) == result[DDM_SLOT_LEVELS]);
    for (size_t level = 0; level < result[DDM_SLOT_LEVELS]; level++) {
        EXPECT(same(ddm_tree_rows(tree, level), lists->level_points + from, result[DDM_SLOT_ROWS + level]));
        EXPECT(ddm_tree_leaves(tree, level) == result[DDM_SLOT_DOMAINS + level]);
        same_level(tree, lists, level, lists->domains + DDM_ROW_NUMBERS * domain,
                   lists->boxes + DDM_ROW_FLOATS(ddm_tree_dimensions(tree)) * domain);
        from += result[DDM_SLOT_ROWS + level];
        domain += result[DDM_SLOT_DOMAINS + level];
    }
}

/* The records of the fine levels, one after the other; the coarse level and a level that is not there have none. */
static void same_record(const ddm_tree *tree, const ddm_lists *lists) {
    const size_t *cuts = lists->cuts;
    const double *planes = lists->planes;
    for (size_t level = 0; level < ddm_tree_levels(tree) - 1; level++) {
        const ddm_record record = ddm_tree_record(tree, level);
        EXPECT(record.count == DDM_RECORD_NODES(ddm_tree_leaves(tree, level)) && ddm_record_behind(record, 0) == record.count);
        EXPECT(memcmp(record.cuts, cuts, record.count * sizeof *cuts) == 0);
        EXPECT(memcmp(record.planes, planes, record.count * sizeof *planes) == 0);
        cuts += record.count, planes += record.count;
    }
    for (size_t level = ddm_tree_levels(tree) - 1; level <= DDM_MOST_LEVELS; level++)
        EXPECT(ddm_tree_record(tree, level).count == 0 && !ddm_tree_record(tree, level).cuts && !ddm_tree_record(tree, level).planes);
}

/* The tree that the lists hold, with their record. */
static void same_built(const ddm_tree *tree, const ddm_lists *lists, const size_t *result) {
    if (tree) {
        same_tree(tree, lists, result);
        same_record(tree, lists);
    }
}

/* Without a record, which a loaded tree does not have. */
static void stored_and_loaded(const ddm_tree *tree, const double *points, size_t points_len, ddm_params params, const ddm_lists *lists,
                              const size_t *result) {
    size_t bytes;
    unsigned char *file = tree ? ddm_tree_store(tree, points, points_len, params, &bytes, NULL) : NULL;
    ddm_tree *loaded = file ? ddm_tree_load(points, points_len, ddm_tree_dimensions(tree), params, file, bytes, NULL) : NULL;
    EXPECT(!loaded == !tree);
    if (loaded) {
        same_tree(loaded, lists, result);
        for (size_t level = 0; level <= DDM_MOST_LEVELS; level++)
            EXPECT(ddm_tree_record(loaded, level).count == 0 && !ddm_tree_record(loaded, level).cuts);
    }
    free(file);
    ddm_tree_free(loaded);
}

static void random_tree(void) {
    double points[3 * 120];
    const size_t d = 1 + below(3), n = 1 + below(120);
    ddm_params params = ddm_default_params();
    ddm_lists lists;
    ddm_error error;
    size_t result[DDM_BUILD_SLOT], refused;
    for (size_t i = 0; i < n * d; i++)
        points[i] = (double)below(n < 60 ? 5 : 1000);
    params.leaf_threshold = (uint32_t)(1 + below(12));
    params.overlap_knn = (uint32_t)below(9);
    params.coarse_reduction_factor = (uint32_t)(2 + below(4));
    params.policy = below(5) ? DDM_POLICY_FIXED : DDM_POLICY_AUTO;
    params.coarse_threshold = (uint32_t)(1 + below(30));
    EXPECT(ddm_build_sizes(n, d, params.overlap_knn, lists.sizes, DDM_SIZES_SLOT) == 0 && ddm_lists_make(&lists));
    refused = ddm_lists_build(&lists, points, n * d, d, params, result);
    cutting = below(2) == 0;
    ddm_tree *tree = ddm_tree_build(points, n * d, d, params, &error);
    EXPECT(error.number == refused && error.place == 0 && !tree == (refused != 0));
    same_built(tree, &lists, result);
    stored_and_loaded(tree, points, n * d, params, &lists, result);
    ddm_tree_free(tree);
    EXPECT(ddm_lists_build_depth_first(&lists, points, n * d, d, params, result) == refused);
    tree = ddm_tree_build_depth_first(points, n * d, d, params, &error);
    EXPECT(error.number == refused && error.place == 0 && !tree == (refused != 0));
    same_built(tree, &lists, result);
    cutting = 1;
    ddm_tree_free(tree);
    ddm_lists_free(&lists);
}

/* A table of which some slots are live, by ddm_tree_build_slots and by lists. */
static void random_slots(void) {
    double coordinates[3 * 120];
    uint8_t flags[120];
    const size_t d = 1 + below(3), capacity = 1 + below(120);
    ddm_head head = {below(capacity + 1), 0};
    ddm_params params = ddm_default_params();
    ddm_lists lists;
    ddm_error error;
    size_t result[DDM_BUILD_SLOT], refused;
    for (size_t i = 0; i < capacity; i++) {
        flags[i] = below(3) ? (uint8_t)below(256) : 0;
        head.live += i < head.slots && flags[i];
        for (size_t a = 0; a < d; a++)
            coordinates[i * d + a] = i < head.slots && flags[i] ? (double)below(50) : NAN;
    }
    params.leaf_threshold = (uint32_t)(1 + below(9));
    params.overlap_knn = (uint32_t)below(9);
    params.coarse_reduction_factor = (uint32_t)(2 + below(4));
    params.policy = DDM_POLICY_FIXED;
    params.coarse_threshold = (uint32_t)(1 + below(30));
    EXPECT(ddm_build_sizes(head.live + 1, d, params.overlap_knn, lists.sizes, DDM_SIZES_SLOT) == 0 && ddm_lists_make(&lists));
    refused = ddm_lists_build_slots(&lists, head, flags, capacity, coordinates, capacity * d, d, params, result);
    EXPECT(refused == 0 || refused == 9 || (refused == 6 && !head.live));
    ddm_tree *tree = ddm_tree_build_slots(head, flags, capacity, coordinates, capacity * d, d, params, &error);
    EXPECT(error.number == refused && error.place == 0 && !tree == (refused != 0));
    same_built(tree, &lists, result);
    ddm_tree_free(tree);
    ddm_lists_free(&lists);
}

/* ---- refusals */

static ddm_error refusal(const double *points, size_t points_len, size_t dimensions, ddm_params params) {
    ddm_error error;
    ddm_tree *tree = ddm_tree_build(points, points_len, dimensions, params, &error);
    EXPECT(!tree && !ddm_tree_build(points, points_len, dimensions, params, NULL));
    ddm_error again;
    EXPECT(!ddm_tree_build_depth_first(points, points_len, dimensions, params, &again));
    EXPECT(again.number == error.number && again.place == error.place);
    return error;
}

static void refusals(void) {
    const double points[4] = {0.0, 1.0, 2.0, NAN};
    const ddm_params good = ddm_default_params();
    ddm_params leaf = good, factor = good, threshold = good, near = good, low = good;
    leaf.leaf_threshold = 0, factor.coarse_reduction_factor = 1, near.overlap_knn = DDM_MOST_NEIGHBOURS + 1;
    threshold.policy = low.policy = DDM_POLICY_FIXED, low.coarse_threshold = 1, low.coarse_reduction_factor = 2;
    made = 0;
    EXPECT(refusal(points, 4, 0, leaf).number == 1 && refusal(points, 4, 4, leaf).number == 1);
    EXPECT(refusal(points, 4, 1, leaf).number == 2 && refusal(points, 4, 1, factor).number == 3);
    EXPECT(refusal(points, 4, 1, threshold).number == 4 && refusal(points, 4, 1, near).number == 5);
    EXPECT(refusal(NULL, 0, 1, good).number == 6 && refusal(points, 3, 2, good).number == 7);
    /* of these points none is read, since there are too many, or too many for the threshold */
    EXPECT(refusal(points, DDM_MOST_POINTS + 1, 1, good).number == 8 && refusal(points, (size_t)-1, 1, good).number == 8);
    EXPECT(refusal(points, DDM_MOST_POINTS, 1, low).number == 9);
    EXPECT(made == 0);
    EXPECT(refusal(points, 4, 1, good).number == 10 && refusal(points, 4, 1, good).place == 3 && made != 0);
}

/* Four slots, two of them live; as many coordinates as there are slots. */
static ddm_error slots_refusal(ddm_head head, const double *coordinates, size_t coordinates_len, size_t dimensions, ddm_params params) {
    const uint8_t flags[4] = {0, 1, 0, 255};
    ddm_error error;
    EXPECT(!ddm_tree_build_slots(head, flags, 4, coordinates, coordinates_len, dimensions, params, &error));
    EXPECT(!ddm_tree_build_slots(head, flags, 4, coordinates, coordinates_len, dimensions, params, NULL));
    return error;
}

static void slots_refusals(void) {
    const double points[4] = {NAN, 1.0, NAN, 3.0}, bad[4] = {NAN, 1.0, NAN, INFINITY};
    const ddm_head right = {4, 2}, none = {1, 0}, many = {4, 3}, past = {5, 2};
    const ddm_params good = ddm_default_params();
    ddm_params leaf = good;
    leaf.leaf_threshold = 0;
    made = 0;
    EXPECT(slots_refusal(many, bad, 3, 0, leaf).number == 27 && slots_refusal(past, bad, 3, 0, leaf).number == 27);
    EXPECT(slots_refusal(right, bad, 3, 4, leaf).number == 1 && slots_refusal(right, bad, 3, 1, leaf).number == 2);
    EXPECT(slots_refusal(none, bad, 3, 1, good).number == 6 && made == 0);
    EXPECT(slots_refusal(right, bad, 3, 1, good).number == 11 && slots_refusal(right, points, 3, 1, good).number == 11);
    EXPECT(slots_refusal(right, bad, 4, 1, good).number == 10 && slots_refusal(right, bad, 4, 1, good).place == 3);
}

/* ---- memory */

/* A table of which every slot is live. */
static ddm_tree *build_all_slots(const double *points, size_t points_len, size_t dimensions, ddm_params params, ddm_error *error) {
    const uint8_t flags[4] = {1, 1, 1, 1};
    const ddm_head head = {points_len / dimensions, points_len / dimensions};
    return ddm_tree_build_slots(head, flags, head.slots, points, points_len, dimensions, params, error);
}

/* How many lists it takes until this build has a tree: with one fewer there is none. */
static size_t lists_of(ddm_tree *(*build)(const double *, size_t, size_t, ddm_params, ddm_error *)) {
    const double points[4] = {0.0, 1.0, 2.0, 10.0};
    ddm_error error;
    ddm_tree *tree;
    size_t lists = 0;
    for (allowed = 0; !(tree = build(points, 4, 1, ddm_default_params(), &error)); allowed = ++lists)
        EXPECT(error.number == DDM_NO_MEMORY && error.place == 0);
    EXPECT(strcmp(ddm_error_text(error), "nothing was refused") == 0);
    ddm_tree_free(tree);
    allowed = (size_t)-1;
    return lists;
}

/* To be stored a tree needs its five lists, and to be loaded these and the tree itself: no room and no record. */
static void kept_lists(void) {
    const double points[4] = {0.0, 1.0, 2.0, 10.0};
    const ddm_params params = ddm_default_params();
    ddm_error error;
    size_t bytes, lists = 0;
    unsigned char *file;
    ddm_tree *tree = ddm_tree_build(points, 4, 1, params, NULL), *loaded;
    for (allowed = 0; !(file = ddm_tree_store(tree, points, 4, params, &bytes, &error)); allowed = ++lists)
        EXPECT(error.number == DDM_NO_MEMORY && error.place == 0 && bytes == 0);
    EXPECT(lists == DDM_SIZES_FLOATS);
    lists = 0;
    for (allowed = 0; !(loaded = ddm_tree_load(points, 4, 1, params, file, bytes, &error)); allowed = ++lists)
        EXPECT(error.number == DDM_NO_MEMORY && error.place == 0);
    EXPECT(lists == 1 + DDM_SIZES_FLOATS);
    allowed = (size_t)-1;
    free(file);
    ddm_tree_free(tree), ddm_tree_free(loaded);
}

static void memory(void) {
    const ddm_error error = {DDM_NO_MEMORY, 0};
    EXPECT(strcmp(ddm_error_text(error), "there is no memory for the lists") == 0);
    /* the tree itself and its lists */
    EXPECT(lists_of(ddm_tree_build) == 1 + DDM_SIZES_SLOT);
    EXPECT(lists_of(ddm_tree_build_depth_first) == 1 + DDM_SIZES_SLOT);
    EXPECT(lists_of(build_all_slots) == 1 + DDM_SIZES_SLOT);
    kept_lists();
}

/* ---- what ddm.h says of the lent bytes: how many they are, and that few are touched */

/* Entries of a list, all bits of which were set, that are no longer so. */
static size_t changed(const void *list, size_t entries) {
    size_t count = 0;
    for (size_t i = 0; i < entries; i++) {
        uint64_t bits;
        memcpy(&bits, (const char *)list + i * sizeof bits, sizeof bits);
        count += bits != UINT64_MAX;
    }
    return count;
}

/* 5,000 random wells at this leaf threshold write fewer bytes a well than `most`. */
static void lent_bytes(uint32_t leaf_threshold, size_t most) {
    enum { WELLS = 5000, AXES = 2 };
    static double points[AXES * WELLS];
    ddm_params params = ddm_default_params();
    ddm_lists lists;
    size_t result[DDM_BUILD_SLOT], bytes = 0, touched = 0;
    params.leaf_threshold = leaf_threshold;
    for (size_t i = 0; i < AXES * WELLS; i++)
        points[i] = (double)below(1000000) + 1;
    EXPECT(ddm_build_sizes(WELLS, AXES, params.overlap_knn, lists.sizes, DDM_SIZES_SLOT) == 0 && ddm_lists_make(&lists));
    void *all[DDM_SIZES_SLOT] = {lists.level_points, lists.internals, lists.domains, lists.boxes, lists.borrowed,
                                 lists.floats,       lists.wholes,    lists.cuts,    lists.planes};
    for (size_t i = 0; i < DDM_SIZES_SLOT; i++) {
        bytes += lists.sizes[i] * sizeof(uint64_t);
        memset(all[i], 0xff, lists.sizes[i] * sizeof(uint64_t));
    }
    EXPECT(bytes / WELLS == 1120 + 96 * AXES + 112 * (params.overlap_knn + 1));
    EXPECT(ddm_lists_build(&lists, points, AXES * WELLS, AXES, params, result) == 0);
    for (size_t i = 0; i < DDM_SIZES_SLOT; i++)
        touched += changed(all[i], lists.sizes[i]) * sizeof(uint64_t);
    EXPECT(touched / WELLS < most);
    ddm_lists_free(&lists);
}

/* ---- another library: its patches do no harm */

static void versions(void) {
    const double point = 0.0;
    version = ddm_version() + 100;
    EXPECT(refusal(&point, 1, 1, ddm_default_params()).number == DDM_OTHER_VERSION);
    ddm_error error;
    EXPECT(!build_all_slots(&point, 1, 1, ddm_default_params(), &error) && error.number == DDM_OTHER_VERSION);
    version = DDM_VERSION / 100 * 100 + 99;
    ddm_tree *tree = ddm_tree_build(&point, 1, 1, ddm_default_params(), NULL);
    EXPECT(tree && ddm_tree_levels(tree) == 1);
    ddm_tree_free(tree);
    version = ddm_version();
}

/* ---- what is not there */

static void nowhere(void) {
    const double points[4] = {0.0, 1.0, 2.0, 10.0};
    const size_t far = (size_t)-1;
    ddm_params params = ddm_default_params();
    ddm_error error;
    params.policy = DDM_POLICY_FIXED, params.coarse_threshold = 2;
    ddm_tree *tree = ddm_tree_build(points, 4, 1, params, &error);
    EXPECT(tree && ddm_tree_levels(tree) == 2 && ddm_tree_leaves(tree, 0) == 2);
    EXPECT(ddm_tree_leaves(tree, 2) == 0 && ddm_tree_leaves(tree, DDM_MOST_LEVELS) == 0 && ddm_tree_leaves(tree, far) == 0);
    EXPECT(ddm_tree_rows(tree, 2).count == 0 && ddm_tree_rows(tree, far).count == 0 && !ddm_tree_rows(tree, far).rows);
    EXPECT(ddm_tree_own(tree, 0, 2).count == 0 && ddm_tree_own(tree, far, 0).count == 0 && ddm_tree_own(tree, 0, far).count == 0);
    EXPECT(ddm_tree_borrowed(tree, 0, 2).count == 0 && ddm_tree_borrowed(tree, 2, 0).count == 0);
    EXPECT(ddm_tree_box(tree, 0, 1) && !ddm_tree_box(tree, 0, 2) && !ddm_tree_box(tree, 1, 0) && !ddm_tree_box(tree, far, 0));
    EXPECT(!ddm_tree_box(tree, 2, 0) && !ddm_tree_box(tree, 0, far) && ddm_tree_cover(tree, 0, 1) == 8.0);
    EXPECT(ddm_tree_cover(tree, 0, 2) == 0.0 && ddm_tree_cover(tree, 2, 0) == 0.0 && ddm_tree_cover(tree, far, far) == 0.0);
    EXPECT(ddm_tree_depth(tree, 0, 1) == 1 && ddm_tree_depth(tree, 1, 0) == 0);
    EXPECT(ddm_tree_depth(tree, 0, 2) == 0 && ddm_tree_depth(tree, 2, 0) == 0 && ddm_tree_depth(tree, far, far) == 0);
    EXPECT(ddm_tree_record(tree, 0).count == DDM_RECORD_NODES(2));
    EXPECT(ddm_tree_record(tree, 1).count == 0 && ddm_tree_record(tree, 2).count == 0 && ddm_tree_record(tree, far).count == 0);
    ddm_tree_free(tree);
    ddm_tree_free(NULL);
}

int main(void) {
    version = ddm_version();
    for (size_t i = 0; i < 2000; i++)
        random_tree();
    for (size_t i = 0; i < 1000; i++)
        random_slots();
    refusals();
    slots_refusals();
    memory();
    lent_bytes(256, 100);
    lent_bytes(1, 850);
    versions();
    nowhere();
    if (wrong == 0)
        printf("tree: ok\n");
    return wrong != 0;
}
