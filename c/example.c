/* Builds a tree of 1,000 wells, walks its leaves, follows its cuts down to a well, keeps it as the bytes of a file and loads it again,
 * by ddm_tree.h.
 *
 *   cc -O2 -o example c/example.c target/staticlib/libddm_c.a && ./example
 */
#include "ddm_tree.h"
#include <stdio.h>

enum { WELLS = 1000, AXES = 2, WELL = 500 };

static void level_line(const ddm_tree *tree, size_t level) {
    size_t own = 0, lent = 0, most = 0;
    double far = 0.0;
    for (size_t leaf = 0; leaf < ddm_tree_leaves(tree, level); leaf++) {
        const size_t count = ddm_tree_own(tree, level, leaf).count;
        const double cover = ddm_tree_cover(tree, level, leaf);
        own += count;
        lent += ddm_tree_borrowed(tree, level, leaf).count;
        most = count > most ? count : most;
        far = cover > far ? cover : far;
    }
    printf("level %zu: %zu wells in %zu leaves, at most %zu a leaf, %zu borrowed; own wells %zu; greatest cover %.2f; depths %zu to %zu\n",
           level, ddm_tree_rows(tree, level).count, ddm_tree_leaves(tree, level), most, lent, own, far, ddm_tree_depth(tree, level, 0),
           ddm_tree_depth(tree, level, ddm_tree_leaves(tree, level) - 1));
}

static int owns(const ddm_tree *tree, size_t level, size_t leaf, size_t well) {
    const ddm_rows own = ddm_tree_own(tree, level, leaf);
    for (size_t i = 0; i < own.count; i++)
        if (own.rows[i] == well)
            return 1;
    return 0;
}

/* Follows the cuts from the last node of the path down to the leaf that owns the well, and adds what it passes to the path: its length
 * then, or 0 where the well is not under that node. A well below the plane is to the left and one above it to the right. Wells on the
 * plane itself are shared out by their numbers, so such a well may be on either side, and only the leaves' own rows tell. */
static size_t follow(const ddm_tree *tree, size_t level, const double *points, size_t well, size_t *path, size_t length) {
    const ddm_record record = ddm_tree_record(tree, level);
    const size_t node = path[length - 1];
    size_t found = 0;
    if (ddm_record_is_leaf(record, node))
        return owns(tree, level, record.cuts[node] - DDM_RECORD_LEAF, well) ? length : 0;
    const double x = points[AXES * well + record.cuts[node]], plane = record.planes[node];
    if (x <= plane) {
        path[length] = node + 1;
        found = follow(tree, level, points, well, path, length + 1);
    }
    if (!found && x >= plane) {
        path[length] = ddm_record_behind(record, node + 1);
        found = follow(tree, level, points, well, path, length + 1);
    }
    return found;
}

/* Prints the cuts of level 0 from the root down to a well, and its leaf; whether the leaf was found. */
static int well_line(const ddm_tree *tree, const double *points, size_t well) {
    const ddm_record record = ddm_tree_record(tree, 0);
    size_t path[DDM_RECORD_DEEPEST + 1] = {0}, length = record.count ? follow(tree, 0, points, well, path, 1) : 0;
    if (!length)
        return 0;
    printf("well %zu:", well);
    for (size_t i = 0; i + 1 < length; i++)
        printf(" %s of %c %.2f,", path[i + 1] == path[i] + 1 ? "left" : "right", (char)('x' + record.cuts[path[i]]),
               record.planes[path[i]]);
    printf(" leaf %zu; the record has %zu nodes\n", record.cuts[path[length - 1]] - DDM_RECORD_LEAF, record.count);
    return 1;
}

/* Stores the tree and loads it again; whether that worked. */
static int kept(const ddm_tree *tree, const double *points, ddm_params params, ddm_error *error) {
    size_t bytes;
    unsigned char *file = ddm_tree_store(tree, points, AXES * WELLS, params, &bytes, error);
    ddm_tree *again = file ? ddm_tree_load(points, AXES * WELLS, AXES, params, file, bytes, error) : NULL;
    const int worked = again != NULL;
    if (worked)
        printf("file of %zu bytes, loaded again: levels %zu\n", bytes, ddm_tree_levels(again));
    ddm_tree_free(again);
    free(file);
    return worked;
}

int main(void) {
    static double points[AXES * WELLS];
    ddm_params params = ddm_default_params();
    ddm_error error;
    unsigned state = 12345;
    for (size_t i = 0; i < AXES * WELLS; i++) {
        state = state * 1103515245u + 12345u;
        points[i] = (state >> 8) % 100000 / 100.0;
    }
    params.leaf_threshold = 32;
    params.overlap_knn = 8;
    params.coarse_reduction_factor = 4;
    params.policy = DDM_POLICY_FIXED;
    params.coarse_threshold = 60;
    ddm_tree *tree = ddm_tree_build(points, AXES * WELLS, AXES, params, &error);
    if (!tree) {
        fprintf(stderr, "no tree: %s (number %zu, place %zu)\n", ddm_error_text(error), error.number, error.place);
        return 1;
    }
    printf("levels %zu\n", ddm_tree_levels(tree));
    for (size_t level = 0; level < ddm_tree_levels(tree); level++)
        level_line(tree, level);
    if (!well_line(tree, points, WELL)) {
        fprintf(stderr, "no leaf owns well %d\n", WELL);
        return 1;
    }
    if (!kept(tree, points, params, &error)) {
        fprintf(stderr, "not kept: %s (number %zu, place %zu)\n", ddm_error_text(error), error.number, error.place);
        return 1;
    }
    ddm_tree_free(tree);
    return 0;
}
