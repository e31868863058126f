/* Prints the trees of a batch of jobs, for comparisons: standard input holds a 4-byte count and, for each job, a 4-byte length and a
 * job stream (numbers little-endian; whole streams, any number of points). For each job: a line "=== NUMBER", then its tree as the
 * program prints it, or its refusal.
 *
 *   cc -O2 -o batch c/batch.c target/staticlib/libddm_c.a && ./batch < JOBS
 */
#include "ddm_tree.h"
#include <inttypes.h>
#include <stdio.h>
#include <string.h>

/* Where the settings of a job stream stand, and where its points start; each has a mark before its coordinates. */
enum { DIMENSION = 2, LEAF = 3, NEIGHBOURS = 7, FACTOR = 11, POLICY = 15, THRESHOLD = 16, POINTS = 20, MARK = 2 };

static void *list(size_t entries, size_t size) {
    void *p = calloc(entries ? entries : 1, size);
    if (!p)
        exit(1);
    return p;
}

static uint32_t number(const unsigned char *b) {
    return b[0] | (uint32_t)b[1] << 8 | (uint32_t)b[2] << 16 | (uint32_t)b[3] << 24;
}

static void rows(const char *name, ddm_rows of) {
    printf(" %s", name);
    for (size_t i = 0; i < of.count; i++)
        printf(" %zu", of.rows[i]);
    if (!of.count)
        printf(" -");
}

static void print_bits(double x) {
    uint64_t bits;
    memcpy(&bits, &x, sizeof bits);
    printf(" %016" PRIx64, bits);
}

static void box(const double *bounds, size_t dimensions) {
    printf(bounds ? " box" : " box -");
    for (size_t i = 0; bounds && i < DDM_BOX_FLOATS(dimensions); i++)
        print_bits(bounds[i]);
}

static void print_level(const ddm_tree *tree, size_t level) {
    printf("level %zu", level);
    rows("points", ddm_tree_rows(tree, level));
    printf("\n");
    for (size_t leaf = 0; leaf < ddm_tree_leaves(tree, level); leaf++) {
        printf("domain %zu", leaf);
        rows("internal", ddm_tree_own(tree, level, leaf));
        rows("overlap", ddm_tree_borrowed(tree, level, leaf));
        box(ddm_tree_box(tree, level, leaf), ddm_tree_dimensions(tree));
        printf(" cover");
        print_bits(ddm_tree_cover(tree, level, leaf));
        printf(" depth %zu\n", ddm_tree_depth(tree, level, leaf));
    }
}

static ddm_tree *job(const unsigned char *b, size_t len, ddm_error *error) {
    const size_t d = b[DIMENSION], wide = d * sizeof(double), n = (len - POINTS) / (MARK + wide);
    const ddm_params params = {number(b + LEAF), number(b + NEIGHBOURS), number(b + FACTOR), b[POLICY], number(b + THRESHOLD)};
    double *points = list(d * n, sizeof *points);
    for (size_t i = 0; i < n; i++)
        memcpy(points + d * i, b + POINTS + (MARK + wide) * i + MARK, wide);
    ddm_tree *tree = ddm_tree_build(points, d * n, d, params, error);
    free(points);
    return tree;
}

static void print_job(const unsigned char *b, size_t len) {
    ddm_error error;
    ddm_tree *tree = job(b, len, &error);
    if (!tree) {
        printf("refused %zu at %zu\n", error.number, error.place);
        return;
    }
    printf("levels %zu\n", ddm_tree_levels(tree));
    for (size_t level = 0; level < ddm_tree_levels(tree); level++)
        print_level(tree, level);
    ddm_tree_free(tree);
}

int main(void) {
    unsigned char head[4];
    if (fread(head, 1, 4, stdin) != 4)
        return 1;
    for (uint32_t i = 0, count = number(head); i < count; i++) {
        if (fread(head, 1, 4, stdin) != 4)
            return 1;
        size_t len = number(head);
        unsigned char *data = list(len, 1);
        if (fread(data, 1, len, stdin) != len)
            return 1;
        printf("=== %" PRIu32 "\n", i);
        print_job(data, len);
        free(data);
    }
    return 0;
}
