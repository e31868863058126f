// Both headers in one C++ program: every function that they name is called, so that each has to link.
//
//   c++ -O2 -o both c/both.cpp target/staticlib/libddm_c.a && ./both
#include "ddm.h"
#include "ddm_tree.h"
#include <cstdint>
#include <cstdio>
#include <cstring>

static int wrong;

static void expect(bool fact, const char *what) {
    if (!fact)
        wrong++, std::printf("c/both.cpp: %s does not hold\n", what);
}

#define EXPECT(fact) expect(fact, #fact)

// The functions of ddm.h, apart from the builds, which ddm_tree.h calls.
static void calls() {
    const double points[4] = {0.0, 1.0, 2.0, 10.0};
    const std::size_t sizes[2] = {3, 5};
    std::size_t out[4], wholes[4], slot[DDM_SIZES_SLOT];
    double floats[8], root[DDM_ROOT_SLOT], cover[DDM_COVER_SLOT];
    EXPECT(ddm_version() == DDM_VERSION);
    EXPECT(ddm_build_sizes(4, 1, 1, slot, DDM_SIZES_SLOT) == 0 && slot[DDM_SIZES_INTERNALS] != 0);
    EXPECT(ddm_sample(points, 4, 1, 2, 0, out, 4, floats, 8, wholes, 4, cover, DDM_COVER_SLOT, slot, DDM_SAMPLE_SLOT) == 0);
    EXPECT(out[1] == 3 && cover[0] == 2.0);
    EXPECT(ddm_level_size(1000, 60, 3, slot, DDM_LEVEL_SIZE_SLOT) == 0 && slot[0] == 392);
    EXPECT(ddm_quotas(sizes, 2, 4, out, 4, wholes, 4, slot, DDM_QUOTA_SLOT) == 0 && slot[DDM_QUOTA_SEATS] == 4);
    EXPECT(ddm_square_root(6.25, root, DDM_ROOT_SLOT) == 0 && root[0] == 2.5);
    EXPECT(ddm_row_test(3, 3, 5) == 12);
    EXPECT(std::strcmp(ddm_refusal_text(21), "the table is full") == 0);
    EXPECT(std::strcmp(ddm_refusal_text(6), "there are no points") == 0);
}

// The cut of the tree below into two leaves, which every build records.
static void record(const ddm_tree *tree) {
    const ddm_record nodes = ddm_tree_record(tree, 0);
    EXPECT(nodes.count == DDM_RECORD_NODES(2) && nodes.cuts[0] == 0 && nodes.planes[0] == 2.0);
    EXPECT(ddm_record_is_leaf(nodes, 2) && nodes.cuts[2] == DDM_RECORD_LEAF + 1 && ddm_record_behind(nodes, 1) == 2);
}

static void trees() {
    const double points[4] = {0.0, 1.0, 2.0, 10.0};
    ddm_params params = ddm_default_params();
    params.policy = DDM_POLICY_FIXED;
    params.coarse_threshold = 2;
    ddm_error error;
    ddm_tree *tree = ddm_tree_build(points, 4, 1, params, &error);
    EXPECT(tree != nullptr && error.number == 0);
    EXPECT(ddm_tree_levels(tree) == 2 && ddm_tree_leaves(tree, 0) == 2 && ddm_tree_rows(tree, 1).count == 2);
    EXPECT(ddm_tree_own(tree, 0, 1).rows[1] == 3 && ddm_tree_borrowed(tree, 0, 1).rows[0] == 0);
    const double *box = ddm_tree_box(tree, 0, 1);
    EXPECT(box != nullptr && box[0] == 2.0 && box[1] == 10.0 && ddm_tree_box(tree, 1, 0) == nullptr);
    EXPECT(ddm_tree_cover(tree, 0, 0) == 1.0 && ddm_tree_cover(tree, 0, 1) == 8.0 && ddm_tree_cover(tree, 1, 0) == 0.0);
    EXPECT(ddm_tree_depth(tree, 0, 0) == 1 && ddm_tree_depth(tree, 0, 1) == 1 && ddm_tree_depth(tree, 1, 0) == 0);
    EXPECT(ddm_tree_record(tree, 1).count == 0 && ddm_tree_record(tree, 1).cuts == nullptr);
    record(tree);
    ddm_tree_free(tree);
    tree = ddm_tree_build_depth_first(points, 4, 1, params, &error);
    EXPECT(tree != nullptr && error.number == 0 && ddm_tree_leaves(tree, 0) == 2);
    record(tree);
    ddm_tree_free(tree);
    EXPECT(ddm_tree_build(points, 0, 1, params, &error) == nullptr && std::strcmp(ddm_error_text(error), "there are no points") == 0);
}

static void tables() {
    const double point = 3.0;
    std::uint8_t flags[2] = {0, 0};
    double coordinates[2] = {0.0, 0.0};
    std::size_t slot[DDM_ADD_SLOT];
    ddm_head head = {0, 0};
    ddm_error error;
    EXPECT(ddm_add(&head, flags, 2, coordinates, 2, 1, &point, 1, slot, DDM_ADD_SLOT) == 0 && slot[DDM_ADD_TAKEN] == 0);
    EXPECT(ddm_add(&head, flags, 2, coordinates, 2, 1, &point, 1, slot, DDM_ADD_SLOT) == 0 && slot[DDM_ADD_TAKEN] == 1);
    EXPECT(ddm_retire(&head, flags, 2, coordinates, 2, 1, 0) == 0 && head.slots == 2 && head.live == 1);
    ddm_tree *tree = ddm_tree_build_slots(head, flags, 2, coordinates, 2, 1, ddm_default_params(), &error);
    EXPECT(tree != nullptr && error.number == 0 && ddm_tree_levels(tree) == 1);
    EXPECT(ddm_tree_own(tree, 0, 0).count == 1 && ddm_tree_own(tree, 0, 0).rows[0] == 1);
    ddm_tree_free(tree);
    EXPECT(ddm_retire(&head, flags, 2, coordinates, 2, 1, 0) == 22);
    std::size_t rename[2] = {9, 9}, closed[DDM_CLOSE_SLOT];
    EXPECT(ddm_close(&head, flags, 2, coordinates, 2, 1, rename, 2, closed, DDM_CLOSE_SLOT) == 0 && closed[DDM_CLOSE_SLOTS] == 1);
    EXPECT(rename[0] == 2 && rename[1] == 0 && head.slots == 1 && head.live == 1 && flags[1] == 0 && coordinates[0] == 3.0);
}

int main() {
    calls();
    trees();
    tables();
    if (wrong == 0)
        std::printf("both: ok\n");
    return wrong != 0;
}
