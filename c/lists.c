/* The tree of c/example.c by ddm.h alone: the lists are lent by the program, and read by the names of their columns.
 *
 *   cc -O2 -o lists c/lists.c target/staticlib/libddm_c.a && ./lists
 */
#include "ddm.h"
#include <stdio.h>
#include <stdlib.h>

enum { WELLS = 1000, AXES = 2, NEAR = 8 };

static void *list(size_t entries, size_t size) {
    void *p = calloc(entries, size);
    if (!p) {
        fprintf(stderr, "no memory\n");
        exit(1);
    }
    return p;
}

/* Prints the line of a level whose first domain row stands at `row`, with its floats at `box`; the next level's row. */
static const size_t *level_line(size_t level, const size_t *result, const size_t *row, const double *box, const size_t *sizes) {
    size_t own = 0, lent = 0, most = 0, deepest = 0;
    const size_t least = row[DDM_COLUMN_DEPTH];
    double far = 0.0;
    for (size_t leaf = 0; leaf < result[DDM_SLOT_DOMAINS + level]; leaf++, row += DDM_ROW_NUMBERS, box += DDM_ROW_FLOATS(AXES)) {
        if (ddm_row_test(row[DDM_COLUMN_OWN_START], row[DDM_COLUMN_OWN_COUNT], sizes[DDM_SIZES_INTERNALS])
            || ddm_row_test(row[DDM_COLUMN_BORROWED_START], row[DDM_COLUMN_BORROWED_COUNT], sizes[DDM_SIZES_BORROWED])) {
            fprintf(stderr, "a domain row ends past its list\n");
            exit(1);
        }
        own += row[DDM_COLUMN_OWN_COUNT];
        lent += row[DDM_COLUMN_BORROWED_COUNT];
        most = row[DDM_COLUMN_OWN_COUNT] > most ? row[DDM_COLUMN_OWN_COUNT] : most;
        far = box[DDM_ROW_COVER(AXES)] > far ? box[DDM_ROW_COVER(AXES)] : far;
        /* depths never fall, so the last one is the greatest */
        deepest = row[DDM_COLUMN_DEPTH];
    }
    printf("level %zu: %zu wells in %zu leaves, at most %zu a leaf, %zu borrowed; own wells %zu; greatest cover %.2f; depths %zu to %zu\n",
           level, result[DDM_SLOT_ROWS + level], result[DDM_SLOT_DOMAINS + level], most, lent, own, far, least, deepest);
    return row;
}

int main(void) {
    size_t sizes[DDM_SIZES_SLOT], result[DDM_BUILD_SLOT];
    if (ddm_build_sizes(WELLS, AXES, NEAR, sizes, DDM_SIZES_SLOT))
        return 1;
    double *points = list(AXES * WELLS, sizeof *points), *boxes = list(sizes[DDM_SIZES_BOXES], sizeof *boxes);
    double *floats = list(sizes[DDM_SIZES_FLOATS], sizeof *floats);
    size_t *level_points = list(sizes[DDM_SIZES_LEVEL_POINTS], sizeof *level_points);
    size_t *internals = list(sizes[DDM_SIZES_INTERNALS], sizeof *internals);
    size_t *domains = list(sizes[DDM_SIZES_DOMAINS], sizeof *domains);
    size_t *borrowed = list(sizes[DDM_SIZES_BORROWED], sizeof *borrowed), *wholes = list(sizes[DDM_SIZES_WHOLES], sizeof *wholes);
    size_t *cuts = list(sizes[DDM_SIZES_CUTS], sizeof *cuts);
    double *planes = list(sizes[DDM_SIZES_PLANES], sizeof *planes);
    unsigned state = 12345;
    for (size_t i = 0; i < AXES * WELLS; i++) {
        state = state * 1103515245u + 12345u;
        points[i] = (state >> 8) % 100000 / 100.0;
    }
    size_t refused = ddm_build(points, AXES * WELLS, AXES, 32, NEAR, 4, DDM_POLICY_FIXED, 60, level_points,
                               sizes[DDM_SIZES_LEVEL_POINTS], internals, sizes[DDM_SIZES_INTERNALS], domains, sizes[DDM_SIZES_DOMAINS],
                               boxes, sizes[DDM_SIZES_BOXES], borrowed, sizes[DDM_SIZES_BORROWED], floats, sizes[DDM_SIZES_FLOATS],
                               wholes, sizes[DDM_SIZES_WHOLES], cuts, sizes[DDM_SIZES_CUTS], planes, sizes[DDM_SIZES_PLANES], result,
                               DDM_BUILD_SLOT);
    if (refused) {
        fprintf(stderr, "refused %zu at %zu: %s\n", refused, result[DDM_SLOT_PLACE], ddm_refusal_text(refused));
        return 1;
    }
    printf("levels %zu\n", result[DDM_SLOT_LEVELS]);
    const size_t *row = domains;
    for (size_t level = 0; level < result[DDM_SLOT_LEVELS]; level++)
        row = level_line(level, result, row, boxes + DDM_ROW_FLOATS(AXES) * ((size_t)(row - domains) / DDM_ROW_NUMBERS), sizes);
    const size_t lent = (row - DDM_ROW_NUMBERS)[DDM_COLUMN_BORROWED_START] + (row - DDM_ROW_NUMBERS)[DDM_COLUMN_BORROWED_COUNT];
    size_t bytes = ddm_file_size(AXES, WELLS, result, lent), told[DDM_STORE_SLOT];
    unsigned char *file = list(bytes, 1);
    refused = ddm_store(points, AXES * WELLS, AXES, 32, NEAR, 4, DDM_POLICY_FIXED, 60, result, DDM_BUILD_SLOT, level_points,
                        sizes[DDM_SIZES_LEVEL_POINTS], internals, sizes[DDM_SIZES_INTERNALS], domains, sizes[DDM_SIZES_DOMAINS], boxes,
                        sizes[DDM_SIZES_BOXES], borrowed, sizes[DDM_SIZES_BORROWED], file, bytes, told, DDM_STORE_SLOT);
    if (!refused)
        refused = ddm_load(points, AXES * WELLS, AXES, 32, NEAR, 4, DDM_POLICY_FIXED, 60, file, told[DDM_STORE_BYTES], level_points,
                           sizes[DDM_SIZES_LEVEL_POINTS], internals, sizes[DDM_SIZES_INTERNALS], domains, sizes[DDM_SIZES_DOMAINS], boxes,
                           sizes[DDM_SIZES_BOXES], borrowed, sizes[DDM_SIZES_BORROWED], result, DDM_BUILD_SLOT);
    if (refused) {
        fprintf(stderr, "refused %zu: %s\n", refused, ddm_refusal_text(refused));
        return 1;
    }
    printf("file of %zu bytes, loaded again: levels %zu\n", told[DDM_STORE_BYTES], result[DDM_SLOT_LEVELS]);
    free(file);
    free(points), free(boxes), free(floats), free(level_points), free(internals), free(domains), free(borrowed), free(wholes);
    free(cuts), free(planes);
    return 0;
}
