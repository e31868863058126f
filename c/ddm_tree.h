/* A tree of domains as one thing to build, walk and free, over ddm.h: for C99 and C++, header only.
 *
 *   ddm_error error;
 *   ddm_tree *tree = ddm_tree_build(points, points_len, 2, ddm_default_params(), &error);
 *   if (!tree) {
 *       fprintf(stderr, "%s\n", ddm_error_text(error));
 *       return 1;
 *   }
 *   for (size_t level = 0; level < ddm_tree_levels(tree); level++)
 *       for (size_t leaf = 0; leaf < ddm_tree_leaves(tree, level); leaf++) {
 *           ddm_rows own = ddm_tree_own(tree, level, leaf);
 *           ..
 *       }
 *   ddm_tree_free(tree);
 *
 * A tree that was built keeps its cuts: ddm_tree_record. ddm_tree_build_depth_first builds the same tree with the same cuts, by another
 * engine. ddm_tree_build_slots builds over the live slots of a table, which ddm_add and ddm_retire edit; after ddm_close its rows are
 * looked up in the list from old slot to new. ddm_tree_store gives a tree as the bytes of a file, which holds no cuts, and ddm_tree_load
 * takes them for the same points and settings.
 *
 * The lists come from calloc, so that what the build does not touch costs nothing; afterwards the working room is given back and the
 * others are cut to what they hold. A tree is only read by the functions that walk it: any number of threads may do so at once. A level
 * or leaf that is not there has no rows, no leaves, no box, no record, and the cover and the depth 0.
 */
#ifndef DDM_TREE_H
#define DDM_TREE_H

#include "ddm.h"
#include <stdlib.h>

#ifdef __cplusplus
extern "C" {
#endif

/* The settings of a build. policy is DDM_POLICY_AUTO, under which coarse_threshold is not looked at, or DDM_POLICY_FIXED. */
typedef struct ddm_params {
    uint32_t leaf_threshold;
    uint32_t overlap_knn;
    uint32_t coarse_reduction_factor;
    uint32_t policy;
    uint32_t coarse_threshold;
} ddm_params;

/* Why there is no tree: a refusal's number and its place (0 where it names none), or one of the two numbers below, which are no
 * refusals. */
typedef struct ddm_error {
    size_t number;
    size_t place;
} ddm_error;

/* calloc gave nothing. */
#define DDM_NO_MEMORY ((size_t)-1)
/* The library is of another major or minor version than this header, so its rows may have other columns. */
#define DDM_OTHER_VERSION ((size_t)-2)

/* Rows of the point list (slots, for a tree over a table), ascending; they stand in the tree and end with it. */
typedef struct ddm_rows {
    const size_t *rows;
    size_t count;
} ddm_rows;

/* The cut record of a level: `count` nodes, of which node i is cuts[i] and planes[i], as ddm.h says (DDM_RECORD_LEAF). They stand in the
 * tree and end with it. */
typedef struct ddm_record {
    const size_t *cuts;
    const double *planes;
    size_t count;
} ddm_record;

/* A tree; cuts and planes are NULL where it was loaded, and has no record. Its fields are for the functions below. */
typedef struct ddm_tree {
    size_t dimensions;
    size_t result[DDM_BUILD_SLOT];
    size_t *level_points, *internals, *domains;
    double *boxes;
    size_t *borrowed;
    size_t *cuts;
    double *planes;
} ddm_tree;

/* ---- settings and errors */

/* The defaults: leaf threshold 256, 16 neighbours, factor 128, Auto. */
static inline ddm_params ddm_default_params(void) {
    ddm_params params;
    params.leaf_threshold = 256;
    params.overlap_knn = 16;
    params.coarse_reduction_factor = 128;
    params.policy = DDM_POLICY_AUTO;
    params.coarse_threshold = 0;
    return params;
}

/* The error in words. */
static inline const char *ddm_error_text(ddm_error error) {
    if (error.number == DDM_NO_MEMORY)
        return "there is no memory for the lists";
    if (error.number == DDM_OTHER_VERSION)
        return "the library is of another version than the header";
    return ddm_refusal_text(error.number);
}

/* ---- lists */

/* The lists of one call, and how many entries they have. */
typedef struct ddm_lists {
    size_t sizes[DDM_SIZES_SLOT];
    size_t *level_points, *internals, *domains;
    double *boxes;
    size_t *borrowed;
    double *floats;
    size_t *wholes, *cuts;
    double *planes;
} ddm_lists;

static inline void ddm_lists_free(ddm_lists *lists) {
    free(lists->level_points), free(lists->internals), free(lists->domains), free(lists->boxes), free(lists->borrowed);
    free(lists->floats), free(lists->wholes), free(lists->cuts), free(lists->planes);
}

/* A list of zeros; NULL where it has no entries, or there is no memory. */
static inline size_t *ddm_list_of_wholes(size_t entries) {
    return entries ? (size_t *)calloc(entries, sizeof(size_t)) : NULL;
}

static inline double *ddm_list_of_floats(size_t entries) {
    return entries ? (double *)calloc(entries, sizeof(double)) : NULL;
}

/* The sizes without room and record: to store or to load a tree, its five lists are lent alone. */
static inline void ddm_sizes_of_tree(size_t *sizes) {
    sizes[DDM_SIZES_FLOATS] = sizes[DDM_SIZES_WHOLES] = sizes[DDM_SIZES_CUTS] = sizes[DDM_SIZES_PLANES] = 0;
}

/* Whether a list is there, or is not asked for. */
static inline int ddm_list_there(const void *list, size_t entries) {
    return list || !entries;
}

/* Whether there was memory for the lists of these sizes; if not, none is kept. */
static inline int ddm_lists_make(ddm_lists *lists) {
    const size_t *sizes = lists->sizes;
    lists->level_points = ddm_list_of_wholes(sizes[DDM_SIZES_LEVEL_POINTS]);
    lists->internals = ddm_list_of_wholes(sizes[DDM_SIZES_INTERNALS]);
    lists->domains = ddm_list_of_wholes(sizes[DDM_SIZES_DOMAINS]);
    lists->boxes = ddm_list_of_floats(sizes[DDM_SIZES_BOXES]);
    lists->borrowed = ddm_list_of_wholes(sizes[DDM_SIZES_BORROWED]);
    lists->floats = ddm_list_of_floats(sizes[DDM_SIZES_FLOATS]);
    lists->wholes = ddm_list_of_wholes(sizes[DDM_SIZES_WHOLES]);
    lists->cuts = ddm_list_of_wholes(sizes[DDM_SIZES_CUTS]);
    lists->planes = ddm_list_of_floats(sizes[DDM_SIZES_PLANES]);
    if (lists->level_points && lists->internals && lists->domains && lists->boxes && lists->borrowed
        && ddm_list_there(lists->floats, sizes[DDM_SIZES_FLOATS]) && ddm_list_there(lists->wholes, sizes[DDM_SIZES_WHOLES])
        && ddm_list_there(lists->cuts, sizes[DDM_SIZES_CUTS]) && ddm_list_there(lists->planes, sizes[DDM_SIZES_PLANES]))
        return 1;
    ddm_lists_free(lists);
    return 0;
}

static inline size_t ddm_lists_build(ddm_lists *lists, const double *points, size_t points_len, size_t dimensions, ddm_params params,
                                     size_t *result) {
    const size_t *sizes = lists->sizes;
    return ddm_build(points, points_len, dimensions, params.leaf_threshold, params.overlap_knn, params.coarse_reduction_factor,
                     params.policy, params.coarse_threshold, lists->level_points, sizes[DDM_SIZES_LEVEL_POINTS], lists->internals,
                     sizes[DDM_SIZES_INTERNALS], lists->domains, sizes[DDM_SIZES_DOMAINS], lists->boxes, sizes[DDM_SIZES_BOXES],
                     lists->borrowed, sizes[DDM_SIZES_BORROWED], lists->floats, sizes[DDM_SIZES_FLOATS], lists->wholes,
                     sizes[DDM_SIZES_WHOLES], lists->cuts, sizes[DDM_SIZES_CUTS], lists->planes, sizes[DDM_SIZES_PLANES], result,
                     DDM_BUILD_SLOT);
}

/* The same depth first. */
static inline size_t ddm_lists_build_depth_first(ddm_lists *lists, const double *points, size_t points_len, size_t dimensions,
                                                 ddm_params params, size_t *result) {
    const size_t *sizes = lists->sizes;
    return ddm_build_depth_first(points, points_len, dimensions, params.leaf_threshold, params.overlap_knn,
                                 params.coarse_reduction_factor, params.policy, params.coarse_threshold, lists->level_points,
                                 sizes[DDM_SIZES_LEVEL_POINTS], lists->internals, sizes[DDM_SIZES_INTERNALS], lists->domains,
                                 sizes[DDM_SIZES_DOMAINS], lists->boxes, sizes[DDM_SIZES_BOXES], lists->borrowed,
                                 sizes[DDM_SIZES_BORROWED], lists->floats, sizes[DDM_SIZES_FLOATS], lists->wholes,
                                 sizes[DDM_SIZES_WHOLES], lists->cuts, sizes[DDM_SIZES_CUTS], lists->planes, sizes[DDM_SIZES_PLANES],
                                 result, DDM_BUILD_SLOT);
}

/* The same over the live slots of a table. */
static inline size_t ddm_lists_build_slots(ddm_lists *lists, ddm_head head, const uint8_t *flags, size_t flags_len,
                                           const double *coordinates, size_t coordinates_len, size_t dimensions, ddm_params params,
                                           size_t *result) {
    const size_t *sizes = lists->sizes;
    return ddm_build_slots(head.slots, head.live, flags, flags_len, coordinates, coordinates_len, dimensions, params.leaf_threshold,
                           params.overlap_knn, params.coarse_reduction_factor, params.policy, params.coarse_threshold, lists->level_points,
                           sizes[DDM_SIZES_LEVEL_POINTS], lists->internals, sizes[DDM_SIZES_INTERNALS], lists->domains,
                           sizes[DDM_SIZES_DOMAINS], lists->boxes, sizes[DDM_SIZES_BOXES], lists->borrowed, sizes[DDM_SIZES_BORROWED],
                           lists->floats, sizes[DDM_SIZES_FLOATS], lists->wholes, sizes[DDM_SIZES_WHOLES], lists->cuts,
                           sizes[DDM_SIZES_CUTS], lists->planes, sizes[DDM_SIZES_PLANES], result, DDM_BUILD_SLOT);
}

/* Lists without entries, over these two values. */
static inline ddm_lists ddm_lists_none(size_t *whole, double *value) {
    ddm_lists none;
    none.level_points = none.internals = none.domains = none.borrowed = none.wholes = none.cuts = whole;
    none.boxes = none.floats = none.planes = value;
    for (size_t i = 0; i < DDM_SIZES_SLOT; i++)
        none.sizes[i] = 0;
    return none;
}

/* The refusal of these settings and counts, 0 for none: where they are good, a build that is lent nothing is refused with 11. */
static inline size_t ddm_lists_test(const double *points, size_t points_len, size_t dimensions, ddm_params params, size_t *result) {
    size_t whole = 0, number;
    double value = 0.0;
    ddm_lists none = ddm_lists_none(&whole, &value);
    if (ddm_version() / 100 != DDM_VERSION / 100)
        return DDM_OTHER_VERSION;
    number = ddm_lists_build(&none, points, points_len, dimensions, params, result);
    return number == 11 ? 0 : number;
}

/* The same for a table; its coordinates, where they are short, are refused later. */
static inline size_t ddm_lists_test_slots(ddm_head head, const uint8_t *flags, size_t flags_len, const double *coordinates,
                                          size_t coordinates_len, size_t dimensions, ddm_params params, size_t *result) {
    size_t whole = 0, number;
    double value = 0.0;
    ddm_lists none = ddm_lists_none(&whole, &value);
    if (ddm_version() / 100 != DDM_VERSION / 100)
        return DDM_OTHER_VERSION;
    number = ddm_lists_build_slots(&none, head, flags, flags_len, coordinates, coordinates_len, dimensions, params, result);
    return number == 11 ? 0 : number;
}

/* A list cut to its first entries; where realloc gives nothing it stays as it is. */
static inline size_t *ddm_cut_wholes(size_t *list, size_t entries) {
    size_t *cut = (size_t *)realloc(list, (entries ? entries : 1) * sizeof(size_t));
    return cut ? cut : list;
}

static inline double *ddm_cut_floats(double *list, size_t entries) {
    double *cut = (double *)realloc(list, (entries ? entries : 1) * sizeof(double));
    return cut ? cut : list;
}

/* ---- building */

static inline size_t ddm_tree_sum(const size_t *counts, size_t many) {
    size_t sum = 0;
    while (many--)
        sum += counts[many];
    return sum;
}

/* How many nodes the records of the first so many levels have, the coarse level not being one of them. */
static inline size_t ddm_tree_nodes(const ddm_tree *tree, size_t levels) {
    size_t nodes = 0;
    while (levels--)
        nodes += DDM_RECORD_NODES(tree->result[DDM_SLOT_DOMAINS + levels]);
    return nodes;
}

/* The tree takes what the lists hold, and gives the working room back. */
static inline void ddm_tree_take(ddm_tree *tree, ddm_lists *lists) {
    const size_t rows = ddm_tree_sum(tree->result + DDM_SLOT_ROWS, DDM_MOST_LEVELS);
    const size_t leaves = ddm_tree_sum(tree->result + DDM_SLOT_DOMAINS, DDM_MOST_LEVELS);
    const size_t *last = lists->domains + DDM_ROW_NUMBERS * (leaves - 1);
    const size_t lent = last[DDM_COLUMN_BORROWED_START] + last[DDM_COLUMN_BORROWED_COUNT];
    free(lists->floats), free(lists->wholes);
    tree->level_points = ddm_cut_wholes(lists->level_points, rows);
    tree->internals = ddm_cut_wholes(lists->internals, rows);
    tree->domains = ddm_cut_wholes(lists->domains, DDM_ROW_NUMBERS * leaves);
    tree->boxes = ddm_cut_floats(lists->boxes, DDM_ROW_FLOATS(tree->dimensions) * leaves);
    tree->borrowed = ddm_cut_wholes(lists->borrowed, lent);
    /* a tree that is loaded has no record */
    if (lists->cuts) {
        const size_t nodes = ddm_tree_nodes(tree, tree->result[DDM_SLOT_LEVELS] - 1);
        tree->cuts = ddm_cut_wholes(lists->cuts, nodes);
        tree->planes = ddm_cut_floats(lists->planes, nodes);
    }
}

static inline void ddm_tree_free(ddm_tree *tree) {
    if (!tree)
        return;
    free(tree->level_points), free(tree->internals), free(tree->domains), free(tree->boxes), free(tree->borrowed);
    free(tree->cuts), free(tree->planes);
    free(tree);
}

/* A tree by the build that cuts depth first, or by the other. */
static inline ddm_tree *ddm_tree_built(const double *points, size_t points_len, size_t dimensions, ddm_params params, int depth_first,
                                       ddm_error *error) {
    ddm_error kept;
    ddm_lists lists;
    ddm_tree *tree = NULL;
    size_t result[DDM_BUILD_SLOT];
    kept.place = 0;
    kept.number = ddm_lists_test(points, points_len, dimensions, params, result);
    if (!kept.number)
        kept.number = ddm_build_sizes(points_len / dimensions, dimensions, params.overlap_knn, lists.sizes, DDM_SIZES_SLOT);
    if (!kept.number) {
        tree = (ddm_tree *)calloc(1, sizeof(ddm_tree));
        if (!tree || !ddm_lists_make(&lists)) {
            kept.number = DDM_NO_MEMORY;
        } else {
            tree->dimensions = dimensions;
            kept.number = depth_first ? ddm_lists_build_depth_first(&lists, points, points_len, dimensions, params, tree->result)
                                      : ddm_lists_build(&lists, points, points_len, dimensions, params, tree->result);
            kept.place = tree->result[DDM_SLOT_PLACE];
            if (kept.number)
                ddm_lists_free(&lists);
            else
                ddm_tree_take(tree, &lists);
        }
    }
    if (error)
        *error = kept;
    if (!kept.number)
        return tree;
    free(tree);
    return NULL;
}

/* Builds the tree over points_len / dimensions points, or gives NULL and says why in *error, which may be NULL. What the settings and
 * the counts refuse is refused before a list is made. The tree keeps the cut record of each fine level: ddm_tree_record. */
static inline ddm_tree *ddm_tree_build(const double *points, size_t points_len, size_t dimensions, ddm_params params, ddm_error *error) {
    return ddm_tree_built(points, points_len, dimensions, params, 0, error);
}

/* The same tree with the same record, by the build that cuts depth first. */
static inline ddm_tree *ddm_tree_build_depth_first(const double *points, size_t points_len, size_t dimensions, ddm_params params,
                                                   ddm_error *error) {
    return ddm_tree_built(points, points_len, dimensions, params, 1, error);
}

/* Builds the tree over the live slots of a table, in which slots are the rows, with its record; or gives NULL and says why, as
 * ddm_tree_build does. */
static inline ddm_tree *ddm_tree_build_slots(ddm_head head, const uint8_t *flags, size_t flags_len, const double *coordinates,
                                             size_t coordinates_len, size_t dimensions, ddm_params params, ddm_error *error) {
    ddm_error kept;
    ddm_lists lists;
    ddm_tree *tree = NULL;
    size_t result[DDM_BUILD_SLOT];
    kept.place = 0;
    kept.number = ddm_lists_test_slots(head, flags, flags_len, coordinates, coordinates_len, dimensions, params, result);
    if (!kept.number)
        kept.number = ddm_build_sizes(head.live, dimensions, params.overlap_knn, lists.sizes, DDM_SIZES_SLOT);
    if (!kept.number) {
        tree = (ddm_tree *)calloc(1, sizeof(ddm_tree));
        if (!tree || !ddm_lists_make(&lists)) {
            kept.number = DDM_NO_MEMORY;
        } else {
            tree->dimensions = dimensions;
            kept.number = ddm_lists_build_slots(&lists, head, flags, flags_len, coordinates, coordinates_len, dimensions, params,
                                                tree->result);
            kept.place = tree->result[DDM_SLOT_PLACE];
            if (kept.number)
                ddm_lists_free(&lists);
            else
                ddm_tree_take(tree, &lists);
        }
    }
    if (error)
        *error = kept;
    if (!kept.number)
        return tree;
    free(tree);
    return NULL;
}

/* ---- storing and loading */

/* How many rows the leaves borrow in all. */
static inline size_t ddm_tree_lent(const ddm_tree *tree) {
    const size_t leaves = ddm_tree_sum(tree->result + DDM_SLOT_DOMAINS, DDM_MOST_LEVELS);
    const size_t *last = tree->domains + DDM_ROW_NUMBERS * (leaves - 1);
    return last[DDM_COLUMN_BORROWED_START] + last[DDM_COLUMN_BORROWED_COUNT];
}

/* The front of a list copied into one that was lent at full length. */
static inline void ddm_copy_wholes(size_t *to, const size_t *from, size_t entries) {
    while (entries--)
        to[entries] = from[entries];
}

/* Lists at full length again, with what the tree holds at their fronts. */
static inline void ddm_lists_refill(ddm_lists *lists, const ddm_tree *tree) {
    const size_t rows = ddm_tree_sum(tree->result + DDM_SLOT_ROWS, DDM_MOST_LEVELS);
    const size_t leaves = ddm_tree_sum(tree->result + DDM_SLOT_DOMAINS, DDM_MOST_LEVELS);
    ddm_copy_wholes(lists->level_points, tree->level_points, rows);
    ddm_copy_wholes(lists->internals, tree->internals, rows);
    ddm_copy_wholes(lists->domains, tree->domains, DDM_ROW_NUMBERS * leaves);
    ddm_copy_wholes(lists->borrowed, tree->borrowed, ddm_tree_lent(tree));
    for (size_t i = 0; i < DDM_ROW_FLOATS(tree->dimensions) * leaves; i++)
        lists->boxes[i] = tree->boxes[i];
}

/* The tree as the bytes of a file, with the points and settings that it was built or loaded for: a list from malloc, for free, whose length
 * goes to *bytes. NULL, and why in *error (which may be NULL), where there is no memory or the library refuses. */
static inline unsigned char *ddm_tree_store(const ddm_tree *tree, const double *points, size_t points_len, ddm_params params, size_t *bytes,
                                            ddm_error *error) {
    ddm_error kept;
    ddm_lists lists;
    unsigned char *file = NULL;
    size_t slot[DDM_STORE_SLOT];
    const size_t n = points_len / tree->dimensions, *sizes = lists.sizes;
    kept.place = 0;
    *bytes = 0;
    kept.number = ddm_build_sizes(n, tree->dimensions, params.overlap_knn, lists.sizes, DDM_SIZES_SLOT);
    if (!kept.number) {
        const size_t size = ddm_file_size(tree->dimensions, n, tree->result, ddm_tree_lent(tree));
        ddm_sizes_of_tree(lists.sizes);
        file = (unsigned char *)malloc(size);
        if (!file || !ddm_lists_make(&lists)) {
            kept.number = DDM_NO_MEMORY;
        } else {
            ddm_lists_refill(&lists, tree);
            kept.number = ddm_store(points, points_len, tree->dimensions, params.leaf_threshold, params.overlap_knn,
                                    params.coarse_reduction_factor, params.policy, params.coarse_threshold, tree->result, DDM_BUILD_SLOT,
                                    lists.level_points, sizes[DDM_SIZES_LEVEL_POINTS], lists.internals, sizes[DDM_SIZES_INTERNALS],
                                    lists.domains, sizes[DDM_SIZES_DOMAINS], lists.boxes, sizes[DDM_SIZES_BOXES], lists.borrowed,
                                    sizes[DDM_SIZES_BORROWED], file, size, slot, DDM_STORE_SLOT);
            kept.place = slot[DDM_STORE_PLACE];
            *bytes = slot[DDM_STORE_BYTES];
            ddm_lists_free(&lists);
        }
    }
    if (error)
        *error = kept;
    if (!kept.number)
        return file;
    free(file);
    return NULL;
}

static inline size_t ddm_lists_load(ddm_lists *lists, const double *points, size_t points_len, size_t dimensions, ddm_params params,
                                    const unsigned char *file, size_t bytes, size_t *result) {
    const size_t *sizes = lists->sizes;
    return ddm_load(points, points_len, dimensions, params.leaf_threshold, params.overlap_knn, params.coarse_reduction_factor,
                    params.policy, params.coarse_threshold, file, bytes, lists->level_points, sizes[DDM_SIZES_LEVEL_POINTS],
                    lists->internals, sizes[DDM_SIZES_INTERNALS], lists->domains, sizes[DDM_SIZES_DOMAINS], lists->boxes,
                    sizes[DDM_SIZES_BOXES], lists->borrowed, sizes[DDM_SIZES_BORROWED], result, DDM_BUILD_SLOT);
}

/* The tree that ddm_tree_store gave as these bytes, for the points and settings that it was built for; NULL, and why in *error, for others
 * (18, 19) and for a file that is damaged (20). */
static inline ddm_tree *ddm_tree_load(const double *points, size_t points_len, size_t dimensions, ddm_params params,
                                      const unsigned char *file, size_t bytes, ddm_error *error) {
    ddm_error kept;
    ddm_lists lists;
    ddm_tree *tree = NULL;
    size_t result[DDM_BUILD_SLOT];
    kept.place = 0;
    kept.number = ddm_lists_test(points, points_len, dimensions, params, result);
    if (!kept.number)
        kept.number = ddm_build_sizes(points_len / dimensions, dimensions, params.overlap_knn, lists.sizes, DDM_SIZES_SLOT);
    if (!kept.number) {
        ddm_sizes_of_tree(lists.sizes);
        tree = (ddm_tree *)calloc(1, sizeof(ddm_tree));
        if (!tree || !ddm_lists_make(&lists)) {
            kept.number = DDM_NO_MEMORY;
        } else {
            tree->dimensions = dimensions;
            kept.number = ddm_lists_load(&lists, points, points_len, dimensions, params, file, bytes, tree->result);
            kept.place = tree->result[DDM_SLOT_PLACE];
            if (kept.number)
                ddm_lists_free(&lists);
            else
                ddm_tree_take(tree, &lists);
        }
    }
    if (error)
        *error = kept;
    if (!kept.number)
        return tree;
    free(tree);
    return NULL;
}

/* ---- walking */

static inline size_t ddm_tree_dimensions(const ddm_tree *tree) {
    return tree->dimensions;
}

/* How many levels there are: level 0 has all points, the last one is the coarse level. */
static inline size_t ddm_tree_levels(const ddm_tree *tree) {
    return tree->result[DDM_SLOT_LEVELS];
}

/* How many leaves a level has. */
static inline size_t ddm_tree_leaves(const ddm_tree *tree, size_t level) {
    return level < DDM_MOST_LEVELS ? tree->result[DDM_SLOT_DOMAINS + level] : 0;
}

/* The active rows of a level. */
static inline ddm_rows ddm_tree_rows(const ddm_tree *tree, size_t level) {
    ddm_rows rows = {NULL, 0};
    if (level < ddm_tree_levels(tree)) {
        rows.rows = tree->level_points + ddm_tree_sum(tree->result + DDM_SLOT_ROWS, level);
        rows.count = tree->result[DDM_SLOT_ROWS + level];
    }
    return rows;
}

/* Where a leaf stands among those of all levels. */
static inline size_t ddm_tree_domain(const ddm_tree *tree, size_t level, size_t leaf) {
    return ddm_tree_sum(tree->result + DDM_SLOT_DOMAINS, level) + leaf;
}

/* A leaf's domain row. */
static inline const size_t *ddm_tree_row(const ddm_tree *tree, size_t level, size_t leaf) {
    if (leaf >= ddm_tree_leaves(tree, level))
        return NULL;
    return tree->domains + DDM_ROW_NUMBERS * ddm_tree_domain(tree, level, leaf);
}

/* The stretch of a list that two columns of a leaf's domain row name. */
static inline ddm_rows ddm_tree_stretch(const ddm_tree *tree, size_t level, size_t leaf, const size_t *list, size_t start, size_t count) {
    ddm_rows rows = {NULL, 0};
    const size_t *row = ddm_tree_row(tree, level, leaf);
    if (row) {
        rows.rows = list + row[start];
        rows.count = row[count];
    }
    return rows;
}

/* A leaf's own (internal) rows. */
static inline ddm_rows ddm_tree_own(const ddm_tree *tree, size_t level, size_t leaf) {
    return ddm_tree_stretch(tree, level, leaf, tree->internals, DDM_COLUMN_OWN_START, DDM_COLUMN_OWN_COUNT);
}

/* The rows that a leaf borrows. */
static inline ddm_rows ddm_tree_borrowed(const ddm_tree *tree, size_t level, size_t leaf) {
    return ddm_tree_stretch(tree, level, leaf, tree->borrowed, DDM_COLUMN_BORROWED_START, DDM_COLUMN_BORROWED_COUNT);
}

/* The floats of a leaf's domain row. */
static inline const double *ddm_tree_floats(const ddm_tree *tree, size_t level, size_t leaf) {
    if (leaf >= ddm_tree_leaves(tree, level))
        return NULL;
    return tree->boxes + DDM_ROW_FLOATS(tree->dimensions) * ddm_tree_domain(tree, level, leaf);
}

/* A leaf's box, DDM_BOX_FLOATS(dimensions) floats: lower bounds by axis, then upper ones. NULL for the coarse domain, which has none. */
static inline const double *ddm_tree_box(const ddm_tree *tree, size_t level, size_t leaf) {
    return level + 1 == ddm_tree_levels(tree) ? NULL : ddm_tree_floats(tree, level, leaf);
}

/* A leaf's cover: how far the worst of its own rows that it does not send up is from the nearest one that it sends. +infinity for a leaf
 * that has rows and sends none, +0 for an empty leaf and for the coarse domain. A loaded tree has the covers of its file. */
static inline double ddm_tree_cover(const ddm_tree *tree, size_t level, size_t leaf) {
    const double *floats = ddm_tree_floats(tree, level, leaf);
    return floats ? floats[DDM_ROW_COVER(tree->dimensions)] : 0.0;
}

/* A leaf's depth: how often its level was cut to make it, at most DDM_RECORD_DEEPEST. From one leaf of a level to the next it never falls.
 * 0 for the coarse domain. A loaded tree has the depths of its file. */
static inline size_t ddm_tree_depth(const ddm_tree *tree, size_t level, size_t leaf) {
    const size_t *row = ddm_tree_row(tree, level, leaf);
    return row ? row[DDM_COLUMN_DEPTH] : 0;
}

/* A level's cut record, of DDM_RECORD_NODES(leaves) nodes. It is empty at the coarse level, and in a tree that ddm_tree_load loaded. */
static inline ddm_record ddm_tree_record(const ddm_tree *tree, size_t level) {
    ddm_record record = {NULL, NULL, 0};
    if (tree->cuts && level < ddm_tree_levels(tree) - 1) {
        const size_t from = ddm_tree_nodes(tree, level);
        record.cuts = tree->cuts + from;
        record.planes = tree->planes + from;
        record.count = DDM_RECORD_NODES(ddm_tree_leaves(tree, level));
    }
    return record;
}

/* Whether a node of a record is a leaf; its number is record.cuts[node] - DDM_RECORD_LEAF. */
static inline int ddm_record_is_leaf(ddm_record record, size_t node) {
    return record.cuts[node] >= DDM_RECORD_LEAF;
}

/* The node behind all that stands under this one. The left half of a cut is the node behind the cut, and its right half the one behind
 * that half: ddm_record_behind(record, cut + 1). */
static inline size_t ddm_record_behind(ddm_record record, size_t node) {
    /* how many are still to come: a leaf is one of them, and a cut brings another */
    size_t open = 1;
    for (; open && node < record.count; node++) {
        if (ddm_record_is_leaf(record, node))
            open--;
        else
            open++;
    }
    return node;
}

#ifdef __cplusplus
}
#endif

#endif
