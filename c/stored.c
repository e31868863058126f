/* The stored tree: round trips by ddm_tree.h, and by ddm.h that a refused call leaves every list as it was.
 *
 *   cc -O2 -o stored c/stored.c target/staticlib/libddm_c.a && ./stored
 */
#include "ddm_tree.h"
#include <stdio.h>
#include <string.h>

static int wrong;

#define EXPECT(fact) ((fact) ? (void)0 : (wrong++, (void)printf("c/stored.c:%d: %s does not hold\n", __LINE__, #fact)))

static uint64_t state = 88172645463325252u;

static uint64_t below(uint64_t n) {
    state ^= state << 13;
    state ^= state >> 7;
    state ^= state << 17;
    return state % n;
}

/* ---- round trips */

static int same_rows(ddm_rows a, ddm_rows b) {
    return a.count == b.count && (!a.count || memcmp(a.rows, b.rows, a.count * sizeof *a.rows) == 0);
}

static int same_box(const ddm_tree *a, const ddm_tree *b, size_t level, size_t leaf) {
    const double *x = ddm_tree_box(a, level, leaf), *y = ddm_tree_box(b, level, leaf);
    return (!x && !y) || (x && y && memcmp(x, y, DDM_BOX_FLOATS(a->dimensions) * sizeof *x) == 0);
}

static int same_cover(const ddm_tree *a, const ddm_tree *b, size_t level, size_t leaf) {
    const double x = ddm_tree_cover(a, level, leaf), y = ddm_tree_cover(b, level, leaf);
    return memcmp(&x, &y, sizeof x) == 0;
}

static int same_trees(const ddm_tree *a, const ddm_tree *b) {
    if (memcmp(a->result, b->result, sizeof a->result))
        return 0;
    for (size_t level = 0; level < ddm_tree_levels(a); level++) {
        if (!same_rows(ddm_tree_rows(a, level), ddm_tree_rows(b, level)))
            return 0;
        for (size_t leaf = 0; leaf < ddm_tree_leaves(a, level); leaf++)
            if (!same_rows(ddm_tree_own(a, level, leaf), ddm_tree_own(b, level, leaf))
                || !same_rows(ddm_tree_borrowed(a, level, leaf), ddm_tree_borrowed(b, level, leaf)) || !same_box(a, b, level, leaf)
                || !same_cover(a, b, level, leaf) || ddm_tree_depth(a, level, leaf) != ddm_tree_depth(b, level, leaf))
                return 0;
    }
    return 1;
}

enum { MOST = 60, AXES = 3 };

static void round_trip(void) {
    double points[AXES * MOST];
    const size_t d = 1 + below(AXES), n = 1 + below(MOST);
    size_t bytes, again;
    ddm_error error;
    ddm_params params = ddm_default_params();
    params.leaf_threshold = 1 + (uint32_t)below(5);
    params.overlap_knn = (uint32_t)below(7);
    params.coarse_reduction_factor = 2 + (uint32_t)below(4);
    params.policy = below(3) ? DDM_POLICY_FIXED : DDM_POLICY_AUTO;
    params.coarse_threshold = (uint32_t)(1 + n / (1 + below(8)));
    for (size_t i = 0; i < d * n; i++)
        points[i] = (double)below(40) - 20.0;
    ddm_tree *tree = ddm_tree_build(points, d * n, d, params, &error);
    unsigned char *file = tree ? ddm_tree_store(tree, points, d * n, params, &bytes, &error) : NULL;
    ddm_tree *loaded = file ? ddm_tree_load(points, d * n, d, params, file, bytes, &error) : NULL;
    unsigned char *twice = loaded ? ddm_tree_store(loaded, points, d * n, params, &again, &error) : NULL;
    EXPECT(twice && same_trees(tree, loaded));
    EXPECT(twice && bytes == again && memcmp(file, twice, bytes) == 0);
    EXPECT(!loaded || ddm_tree_record(loaded, 0).count == 0);
    ddm_tree *deep = ddm_tree_build_depth_first(points, d * n, d, params, &error);
    unsigned char *same = deep ? ddm_tree_store(deep, points, d * n, params, &again, &error) : NULL;
    EXPECT(same && bytes == again && memcmp(file, same, bytes) == 0);
    free(same);
    ddm_tree_free(deep);
    if (file) {
        points[0] += 1.0;
        EXPECT(!ddm_tree_load(points, d * n, d, params, file, bytes, &error) && error.number == 19);
        params.leaf_threshold++;
        EXPECT(!ddm_tree_load(points, d * n, d, params, file, bytes, &error) && error.number == 18);
        EXPECT(!ddm_tree_load(points, d * n, d, params, file, bytes - 1, &error) && error.number == 20);
        params.leaf_threshold = 0;
        EXPECT(!ddm_tree_load(points, d * n, d, params, file, 0, &error) && error.number == 2);
    }
    free(file), free(twice);
    ddm_tree_free(tree), ddm_tree_free(loaded);
}

/* ---- refused calls */

/* The file of the four wells has BYTES bytes, and the record of the last leaf from MARKED to MARKED_END. A cover has COVER_BYTES, and a depth,
 * which comes behind it and ends each record, DEPTH_BYTES. */
enum { WELLS = 4, NEAR = 1, ROWS = 6 * WELLS + 1, BYTES = 330, MARKED = 236, MARKED_END = 282, COVER_BYTES = 8, DEPTH_BYTES = 4 };
enum { FILE_BYTES = 360 };

/* Everything that one call is lent. */
typedef struct lent {
    size_t level_points[8 * WELLS], internals[8 * WELLS], domains[DDM_ROW_NUMBERS * ROWS];
    double boxes[DDM_ROW_FLOATS(1) * ROWS];
    size_t borrowed[6 * WELLS * (NEAR + 1)];
    double floats[32 * WELLS];
    size_t wholes[40 * WELLS + 8 * WELLS * (NEAR + 1)], cuts[DDM_RECORD_ENTRIES(WELLS)];
    double planes[DDM_RECORD_ENTRIES(WELLS)];
    size_t result[DDM_BUILD_SLOT];
    unsigned char file[FILE_BYTES];
} lent;

static const double line[WELLS] = {0.0, 1.0, 3.0, 7.0};

static size_t build_into(lent *l) {
    return ddm_build(line, WELLS, 1, 2, NEAR, 2, DDM_POLICY_FIXED, 2, l->level_points, 8 * WELLS, l->internals, 8 * WELLS, l->domains,
                     DDM_ROW_NUMBERS * ROWS, l->boxes, DDM_ROW_FLOATS(1) * ROWS, l->borrowed, 6 * WELLS * (NEAR + 1), l->floats,
                     32 * WELLS, l->wholes, 40 * WELLS + 8 * WELLS * (NEAR + 1), l->cuts, DDM_RECORD_ENTRIES(WELLS), l->planes,
                     DDM_RECORD_ENTRIES(WELLS), l->result, DDM_BUILD_SLOT);
}

static size_t load_into(lent *l, const unsigned char *file, size_t bytes, uint32_t leaf, size_t borrowed, size_t *result, size_t slot) {
    return ddm_load(line, WELLS, 1, leaf, NEAR, 2, DDM_POLICY_FIXED, 2, file, bytes, l->level_points, 8 * WELLS, l->internals, 8 * WELLS,
                    l->domains, DDM_ROW_NUMBERS * ROWS, l->boxes, DDM_ROW_FLOATS(1) * ROWS, l->borrowed, borrowed, result, slot);
}

static size_t store_from(const lent *l, const size_t *tree, size_t tree_len, unsigned char *file, size_t bytes, size_t *result, size_t slot) {
    return ddm_store(line, WELLS, 1, 2, NEAR, 2, DDM_POLICY_FIXED, 2, tree, tree_len, l->level_points, 8 * WELLS, l->internals, 8 * WELLS,
                     l->domains, DDM_ROW_NUMBERS * ROWS, l->boxes, DDM_ROW_FLOATS(1) * ROWS, l->borrowed, 6 * WELLS * (NEAR + 1), file,
                     bytes, result, slot);
}

static void refused_load(const unsigned char *file, size_t bytes, uint32_t leaf, size_t borrowed, size_t slot, size_t number) {
    static lent before, after;
    size_t result[DDM_BUILD_SLOT];
    memset(&before, 0x5a, sizeof before);
    memset(&after, 0x5a, sizeof after);
    EXPECT(load_into(&after, file, bytes, leaf, borrowed, result, slot) == number);
    EXPECT(memcmp(&before, &after, sizeof before) == 0);
    for (size_t i = 0; slot == DDM_BUILD_SLOT && i < slot; i++)
        EXPECT(result[i] == 0);
}

static void refused_store(const lent *l, const size_t *tree, size_t tree_len, size_t bytes, size_t slot, size_t number) {
    unsigned char before[FILE_BYTES], after[FILE_BYTES];
    size_t result[DDM_STORE_SLOT] = {7, 7};
    memset(before, 0x5a, sizeof before);
    memset(after, 0x5a, sizeof after);
    EXPECT(store_from(l, tree, tree_len, after, bytes, result, slot) == number);
    EXPECT(memcmp(before, after, sizeof before) == 0);
    EXPECT(slot < DDM_STORE_SLOT ? result[DDM_STORE_PLACE] == 7 : result[DDM_STORE_PLACE] == 0 && result[DDM_STORE_BYTES] == 0);
}

/* One point more than the library takes, before anything is looked at in file or lists. */
static void too_many_points(const lent *built, const size_t *tree) {
    static lent before, after;
    const size_t many = (size_t)DDM_MOST_POINTS + 1;
    double *points = (double *)calloc(many, sizeof *points);
    size_t told[DDM_STORE_SLOT];
    memset(&before, 0x5a, sizeof before);
    memset(&after, 0x5a, sizeof after);
    EXPECT(points != NULL);
    if (!points)
        return;
    EXPECT(ddm_load(points, many, 1, 2, NEAR, 2, DDM_POLICY_FIXED, 2, built->file, BYTES, after.level_points, 1, after.internals, 1,
                    after.domains, 1, after.boxes, 1, after.borrowed, 1, after.result, DDM_BUILD_SLOT) == 8);
    memcpy(before.result, after.result, sizeof before.result);
    EXPECT(after.result[DDM_SLOT_PLACE] == 0 && after.result[DDM_SLOT_LEVELS] == 0);
    EXPECT(ddm_store(points, many, 1, 2, NEAR, 2, DDM_POLICY_FIXED, 2, tree, DDM_BUILD_SLOT, built->level_points, 1, built->internals, 1,
                     built->domains, 1, built->boxes, 1, built->borrowed, 1, after.file, FILE_BYTES, told, DDM_STORE_SLOT) == 8);
    EXPECT(told[DDM_STORE_PLACE] == 0 && told[DDM_STORE_BYTES] == 0);
    EXPECT(memcmp(&before, &after, sizeof before) == 0);
    free(points);
}

/* The coarse cover, before the depth that ends a file: any value is kept bit for bit, but a NaN, and a file that ends before it, are
 * refused. */
static void coarse_covers(lent *built, const size_t *tree) {
    static lent other;
    const uint64_t kept[5] = {UINT64_C(1) << 63, 1, UINT64_C(0x3ff0000000000000), UINT64_C(0x7ff0000000000000), UINT64_C(0xfff0000000000000)};
    const uint64_t nans[4] = {UINT64_C(0x7ff0000000000001), UINT64_C(0x7ff8000000000000), UINT64_C(0xfff0000000000001), UINT64_MAX};
    unsigned char file[FILE_BYTES];
    double *cover = built->boxes + DDM_ROW_FLOATS(1) * WELLS + DDM_ROW_COVER(1);
    const double zero = *cover;
    size_t slot[DDM_STORE_SLOT], result[DDM_BUILD_SLOT];
    memcpy(file, built->file, BYTES);
    for (size_t i = 0; i < 5; i++) {
        memcpy(file + BYTES - DEPTH_BYTES - COVER_BYTES, &kept[i], COVER_BYTES);
        EXPECT(load_into(&other, file, BYTES, 2, 6 * WELLS * (NEAR + 1), result, DDM_BUILD_SLOT) == 0);
        EXPECT(memcmp(other.boxes + DDM_ROW_FLOATS(1) * WELLS + DDM_ROW_COVER(1), &kept[i], COVER_BYTES) == 0);
        EXPECT(store_from(&other, result, DDM_BUILD_SLOT, other.file, FILE_BYTES, slot, DDM_STORE_SLOT) == 0);
        EXPECT(slot[DDM_STORE_BYTES] == BYTES && memcmp(other.file, file, BYTES) == 0);
    }
    for (size_t i = 0; i < 4; i++) {
        memcpy(file + BYTES - DEPTH_BYTES - COVER_BYTES, &nans[i], COVER_BYTES);
        refused_load(file, BYTES, 2, 6 * WELLS * (NEAR + 1), DDM_BUILD_SLOT, 20);
        memcpy(cover, &nans[i], COVER_BYTES);
        refused_store(built, tree, DDM_BUILD_SLOT, BYTES, DDM_STORE_SLOT, 20);
    }
    *cover = zero;
    refused_load(built->file, BYTES - DEPTH_BYTES - COVER_BYTES, 2, 6 * WELLS * (NEAR + 1), DDM_BUILD_SLOT, 20);
}

/* Another depth in the record that ends at `end`, and in the domain row `domain`: each is refused. */
static void refused_depth(lent *built, const size_t *tree, size_t domain, size_t end, size_t depth) {
    unsigned char file[FILE_BYTES];
    size_t *mine = built->domains + DDM_ROW_NUMBERS * domain + DDM_COLUMN_DEPTH;
    const size_t right = *mine;
    const uint32_t stored = (uint32_t)depth;
    memcpy(file, built->file, BYTES);
    memcpy(file + end - DEPTH_BYTES, &stored, DEPTH_BYTES);
    if (stored == depth)
        refused_load(file, BYTES, 2, 6 * WELLS * (NEAR + 1), DDM_BUILD_SLOT, 20);
    *mine = depth;
    refused_store(built, tree, DDM_BUILD_SLOT, BYTES, DDM_STORE_SLOT, 20);
    *mine = right;
}

/* The last leaf has one of four rows, behind leaves at depth 2: it may lie as deep, or deeper. The coarse depth is 0. A depth that is right
 * in its low bits alone is refused too, and so is a file without its last depth. */
static void depths(lent *built, const size_t *tree) {
    static lent other;
    const size_t wide = (size_t)1 << 32, last[3] = {3, 20, DDM_RECORD_DEEPEST};
    const size_t never[8] = {0, 1, DDM_RECORD_DEEPEST + 1, 64 + 2, UINT32_MAX, wide + 2, SIZE_MAX - 1, SIZE_MAX};
    const size_t not_coarse[6] = {1, 2, 64, UINT32_MAX, wide, SIZE_MAX};
    unsigned char file[FILE_BYTES];
    size_t slot[DDM_STORE_SLOT], result[DDM_BUILD_SLOT];
    memcpy(file, built->file, BYTES);
    EXPECT(built->domains[DDM_ROW_NUMBERS * (WELLS - 1) + DDM_COLUMN_DEPTH] == 2);
    EXPECT(built->domains[DDM_ROW_NUMBERS * WELLS + DDM_COLUMN_DEPTH] == 0);
    for (size_t i = 0; i < 3; i++) {
        const uint32_t stored = (uint32_t)last[i];
        memcpy(file + MARKED_END - DEPTH_BYTES, &stored, DEPTH_BYTES);
        EXPECT(load_into(&other, file, BYTES, 2, 6 * WELLS * (NEAR + 1), result, DDM_BUILD_SLOT) == 0);
        EXPECT(other.domains[DDM_ROW_NUMBERS * (WELLS - 1) + DDM_COLUMN_DEPTH] == last[i]);
        EXPECT(store_from(&other, result, DDM_BUILD_SLOT, other.file, FILE_BYTES, slot, DDM_STORE_SLOT) == 0);
        EXPECT(slot[DDM_STORE_BYTES] == BYTES && memcmp(other.file, file, BYTES) == 0);
    }
    for (size_t i = 0; i < 8; i++)
        refused_depth(built, tree, WELLS - 1, MARKED_END, never[i]);
    for (size_t i = 0; i < 6; i++)
        refused_depth(built, tree, WELLS, BYTES, not_coarse[i]);
    refused_load(built->file, BYTES - DEPTH_BYTES, 2, 6 * WELLS * (NEAR + 1), DDM_BUILD_SLOT, 20);
}

/* Loader and writer are lent the tree's five lists at the lengths that ddm_build_sizes says, and no room and no record: each list with one
 * entry fewer is refused, and then all are as long as they have to be. */
static void five_lists(const lent *built) {
    enum { LISTS = DDM_SIZES_FLOATS, ENTRY = 8 };
    size_t sizes[DDM_SIZES_SLOT], result[DDM_BUILD_SLOT], slot[DDM_STORE_SLOT];
    void *lists[LISTS];
    unsigned char file[BYTES];
    EXPECT(ddm_build_sizes(WELLS, 1, NEAR, sizes, DDM_SIZES_SLOT) == 0);
    for (size_t i = 0; i < LISTS; i++) {
        lists[i] = calloc(sizes[i], ENTRY);
        if (!lists[i])
            exit(1);
    }
    for (size_t short_list = 0; short_list <= LISTS; short_list++) {
        const size_t fewer = short_list < LISTS, number = fewer ? 11 : 0;
        sizes[short_list] -= fewer;
        EXPECT(ddm_load(line, WELLS, 1, 2, NEAR, 2, DDM_POLICY_FIXED, 2, built->file, BYTES, lists[DDM_SIZES_LEVEL_POINTS],
                        sizes[DDM_SIZES_LEVEL_POINTS], lists[DDM_SIZES_INTERNALS], sizes[DDM_SIZES_INTERNALS], lists[DDM_SIZES_DOMAINS],
                        sizes[DDM_SIZES_DOMAINS], lists[DDM_SIZES_BOXES], sizes[DDM_SIZES_BOXES], lists[DDM_SIZES_BORROWED],
                        sizes[DDM_SIZES_BORROWED], result, DDM_BUILD_SLOT) == number);
        EXPECT(ddm_store(line, WELLS, 1, 2, NEAR, 2, DDM_POLICY_FIXED, 2, built->result, DDM_BUILD_SLOT, lists[DDM_SIZES_LEVEL_POINTS],
                         sizes[DDM_SIZES_LEVEL_POINTS], lists[DDM_SIZES_INTERNALS], sizes[DDM_SIZES_INTERNALS], lists[DDM_SIZES_DOMAINS],
                         sizes[DDM_SIZES_DOMAINS], lists[DDM_SIZES_BOXES], sizes[DDM_SIZES_BOXES], lists[DDM_SIZES_BORROWED],
                         sizes[DDM_SIZES_BORROWED], file, BYTES, slot, DDM_STORE_SLOT) == number);
        sizes[short_list] += fewer;
    }
    EXPECT(slot[DDM_STORE_BYTES] == BYTES && memcmp(file, built->file, BYTES) == 0);
    for (size_t i = 0; i < LISTS; i++)
        free(lists[i]);
}

static void refusals(void) {
    static lent built, other;
    size_t slot[DDM_STORE_SLOT], tree[DDM_BUILD_SLOT];
    EXPECT(build_into(&built) == 0);
    memcpy(tree, built.result, sizeof tree);
    EXPECT(store_from(&built, tree, DDM_BUILD_SLOT, built.file, FILE_BYTES, slot, DDM_STORE_SLOT) == 0);
    EXPECT(slot[DDM_STORE_PLACE] == 0 && slot[DDM_STORE_BYTES] == BYTES);
    EXPECT(ddm_file_size(1, WELLS, tree, 6) == BYTES);
    EXPECT(load_into(&other, built.file, BYTES, 2, 6 * WELLS * (NEAR + 1), tree, DDM_BUILD_SLOT) == 0);
    EXPECT(memcmp(tree, built.result, sizeof tree) == 0);
    too_many_points(&built, tree);
    five_lists(&built);
    refused_load(built.file, BYTES, 3, 6 * WELLS * (NEAR + 1), DDM_BUILD_SLOT, 18);
    refused_load(built.file, BYTES - 1, 3, 6 * WELLS * (NEAR + 1), DDM_BUILD_SLOT, 20);
    refused_load(built.file, BYTES, 0, 6 * WELLS * (NEAR + 1), DDM_BUILD_SLOT, 2);
    refused_load(built.file, BYTES, 2, 6 * WELLS * (NEAR + 1) - 1, DDM_BUILD_SLOT, 11);
    refused_load(built.file, BYTES, 2, 6 * WELLS * (NEAR + 1), DDM_BUILD_SLOT - 1, 11);
    coarse_covers(&built, tree);
    depths(&built, tree);
    built.file[MARKED] ^= 0x40;
    refused_load(built.file, BYTES, 2, 6 * WELLS * (NEAR + 1), DDM_BUILD_SLOT, 20);
    refused_store(&built, tree, DDM_BUILD_SLOT, BYTES - 1, DDM_STORE_SLOT, 11);
    refused_store(&built, tree, DDM_BUILD_SLOT - 1, BYTES, DDM_STORE_SLOT, 11);
    refused_store(&built, tree, DDM_BUILD_SLOT, BYTES, DDM_STORE_SLOT - 1, 11);
    tree[DDM_SLOT_DOMAINS] = (size_t)-1;
    refused_store(&built, tree, DDM_BUILD_SLOT, BYTES, DDM_STORE_SLOT, 20);
}

int main(void) {
    for (int i = 0; i < 500; i++)
        round_trip();
    refusals();
    if (!wrong)
        printf("stored: ok\n");
    return wrong != 0;
}
