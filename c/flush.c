/* What ddm.h says of the floating environment: with flush to zero on, as a program has it that is linked with -Ofast or -ffast-math,
 * the points 5e-324 and 0 give another tree. Without it the cut orders them 0, 5e-324: the left leaf has row 1.
 *
 *   cc -O2 -o flush c/flush.c target/staticlib/libddm_c.a && ./flush          prints: flush off, left leaf row 1
 *   cc -O2 -ffast-math -o flush c/flush.c target/staticlib/libddm_c.a && ./flush      flush on, left leaf row 0 (gcc, clang)
 *   ./flush on                                                                turns it on by itself
 */
#include "ddm_tree.h"
#include <stdio.h>
#include <string.h>
#include <xmmintrin.h>

/* Flush to zero and denormals are zero, in the control register. */
enum { FLUSH = 0x8040 };

int main(int argc, char **argv) {
    const uint64_t bits[2] = {1, 0};
    double points[2];
    ddm_params params = ddm_default_params();
    ddm_error error;
    (void)argv;
    memcpy(points, bits, sizeof points);
    if (argc > 1)
        _mm_setcsr(_mm_getcsr() | FLUSH);
    params.leaf_threshold = 2;
    params.overlap_knn = 0;
    params.coarse_reduction_factor = 2;
    params.policy = DDM_POLICY_FIXED;
    params.coarse_threshold = 1;
    ddm_tree *tree = ddm_tree_build(points, 2, 1, params, &error);
    if (!tree || ddm_tree_leaves(tree, 0) != 2 || ddm_tree_own(tree, 0, 0).count != 1)
        return 1;
    printf("flush %s, left leaf row %zu\n", _mm_getcsr() & FLUSH ? "on" : "off", ddm_tree_own(tree, 0, 0).rows[0]);
    ddm_tree_free(tree);
    return 0;
}
