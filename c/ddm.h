/* The proved tree construction of Rekvashu, for C and C++ callers: every function of the library, over lists that the caller lends.
 * ddm_tree.h lends the lists itself and is what most callers want. Link libddm_c.a (made by `tools/build.sh ddm_c`) or libddm_c.so
 * (c/shared.sh, c/install.sh).
 *
 * No function has a precondition beyond this: each pointer comes with the number of entries that stand behind it, and no two of a
 * call's lists overlap. Every function but ddm_version returns a refusal number, 0 for none; ddm_refusal_text says it in words.
 * Counts and values go to the slot `result`, which is no lent list: a refusal writes zeros there (and the place, where one is named)
 * and touches nothing else. A slot that is too short is refused with 11 before anything else is looked at, and then it is not written
 * either. ddm_sample has two slots, `cover` and `result`: both are written or neither. ddm_add, ddm_retire and ddm_close change a table
 * where the caller keeps it, and a refused one leaves it as it was.
 *
 * Threads. There is no global state: any number of calls may run at once, as long as no list is lent to two of them. Points may be
 * shared, since they are only read.
 * Stack. Under 32 KiB for any input: the search for neighbours nests a call for each cut of the deepest leaf, of some 1.2 KiB each, so that
 * a build takes 29 KiB at 21 cuts, and 10 KiB at 5. ddm_store and ddm_load have sets of rows of 256 KiB, and take under 16 KiB beside
 * them. Nothing is allocated.
 * Memory. A build over n points asks for 1120 + 96 * dimensions + 112 * (K + 1) bytes a point in its nine lists, with K neighbours:
 * 3,216 in two dimensions with 16. That is the most that any input can need, and few are touched: 5,000 random wells in two dimensions
 * write some 85 of them a well at the default settings, some 780 at leaf threshold 1. So lists from calloc cost little. A tree that is
 * stored or loaded is lent its five lists alone: no working room and no record.
 * Machine. x86-64 Linux only.
 * Floating environment. Round to nearest, and no flush to zero (the state in which a program starts). A program linked with -Ofast or
 * -ffast-math turns flush to zero on and gets another tree; the smallest input that shows it is the points 5e-324 and 0 with leaf
 * threshold 2, no neighbours, factor 2, Fixed 1 (c/flush.c).
 */
#ifndef DDM_H
#define DDM_H

#include <stddef.h>
#include <stdint.h>

#ifdef __cplusplus
extern "C" {
#endif

/* major * 10000 + minor * 100 + patch, of this header; ddm_version gives that of the library. Another minor version may have wider rows
 * and more lists, so that a program which loads the shared library tests ddm_version() / 100 == DDM_VERSION / 100 first. */
#define DDM_VERSION 900

/* ---- limits and settings */

#define DDM_MOST_POINTS 1048576
#define DDM_MOST_NEIGHBOURS 64
#define DDM_MOST_LEVELS 4

#define DDM_POLICY_AUTO 0
#define DDM_POLICY_FIXED 1

/* ---- the packed lists: level by level and leaf by leaf, each stretch starting where the last one of its list ended */

/* A domain row has DDM_ROW_NUMBERS entries in `domains`: where the leaf's own (internal) rows start in `internals` and how many they
 * are, the same of its borrowed rows in `borrowed`, and its depth: how often its level was cut to make it. In a level the depths never fall
 * from one domain to the next, none is above DDM_RECORD_DEEPEST, and a leaf at depth e in a level of a rows has a / 2^e of them, rounded
 * down, or one more. The coarse domain, which was not cut, has depth 0. */
#define DDM_COLUMN_OWN_START 0
#define DDM_COLUMN_OWN_COUNT 1
#define DDM_COLUMN_BORROWED_START 2
#define DDM_COLUMN_BORROWED_COUNT 3
#define DDM_COLUMN_DEPTH 4
#define DDM_ROW_NUMBERS 5

/* The box itself: its lower bounds by axis, then its upper bounds; all +0 for the coarse domain, which has none. */
#define DDM_BOX_FLOATS(dimensions) (2 * (dimensions))
/* What a domain row has in `boxes`: the box comes first, and then the leaf's cover: how far the worst of its own rows that it does not send
 * up is from the nearest one that it sends. +infinity for a leaf that has rows and sends none, +0 for an empty leaf and for the coarse
 * domain. */
#define DDM_ROW_COVER(dimensions) DDM_BOX_FLOATS(dimensions)
#define DDM_ROW_FLOATS(dimensions) (DDM_BOX_FLOATS(dimensions) + 1)

/* ---- the cut record of a build: the cuts of each fine level, from the root downwards */

/* A node is a whole number in `cuts` and a float in `planes`. A whole number below DDM_RECORD_LEAF is a cut on that axis, and the float
 * is its plane: the coordinate, with its bits, of the right row that came first in the cut's order. Any other is a leaf: DDM_RECORD_LEAF
 * plus its number, and the float is +0. Leaves are numbered from 0 in their level, by depth and then from left to right, which is the
 * order of the level's domains. Each cut stands before its halves, and the left half completely before the right. */
#define DDM_RECORD_LEAF 3
/* How many nodes a fine level's record has, by the level's domains. The coarse level has none. The records of the fine levels stand one
 * after the other from the front of both lists, so no count of them comes back. */
#define DDM_RECORD_NODES(domains) (2 * (domains) - 1)
/* No leaf is deeper than this many cuts. */
#define DDM_RECORD_DEEPEST 21
/* The entries that each of the two lists needs, for n points: what ddm_build_sizes gives, as a constant. */
#define DDM_RECORD_ENTRIES(n) (12 * (n))

/* ---- the table of wells that ddm_add, ddm_retire and ddm_close edit and ddm_build_slots builds over */

/* The head, which stays where the caller keeps it: how many slots have been given out, and how many of them are live. A table without wells
 * has 0 and 0. The table itself is two lists:
 *   flags        a byte for each slot: 0 not live, any other live; at or above the slot count none is live
 *   coordinates  those of slot i start at i * dimensions; at least as many as the capacity asks for
 * The capacity is flags_len, held to DDM_MOST_POINTS: what stands behind it is neither read nor written. What stands in slots that are not
 * live may be anything, a NaN too. Each call brings the dimension, which has to be the same in all of them. An edit takes one pass over the
 * flags below the slot count, and closing goes over the coordinates below it too. */
typedef struct ddm_head {
    size_t slots, live;
} ddm_head;

/* ---- the result slots: how many entries they have, and what stands where */

/* The build's: the place of a refusal, the levels, then the rows and the domains of each level, 0 beyond the last. */
#define DDM_SLOT_PLACE 0
#define DDM_SLOT_LEVELS 1
#define DDM_SLOT_ROWS 2
#define DDM_SLOT_DOMAINS (DDM_SLOT_ROWS + DDM_MOST_LEVELS)
#define DDM_BUILD_SLOT (DDM_SLOT_DOMAINS + DDM_MOST_LEVELS)

/* That of ddm_build_sizes: the entries that each list of a build needs, in the order in which ddm_build takes them. */
#define DDM_SIZES_LEVEL_POINTS 0
#define DDM_SIZES_INTERNALS 1
#define DDM_SIZES_DOMAINS 2
#define DDM_SIZES_BOXES 3
#define DDM_SIZES_BORROWED 4
#define DDM_SIZES_FLOATS 5
#define DDM_SIZES_WHOLES 6
#define DDM_SIZES_CUTS 7
#define DDM_SIZES_PLANES 8
#define DDM_SIZES_SLOT 9

/* Sampling's: the place of a refusal, the rows written. Its cover has a slot of its own, of one float. */
#define DDM_SAMPLE_PLACE 0
#define DDM_SAMPLE_WRITTEN 1
#define DDM_SAMPLE_SLOT 2
#define DDM_COVER_SLOT 1

/* That of ddm_add: the place of a refusal, the slot of the table that the well takes. */
#define DDM_ADD_PLACE 0
#define DDM_ADD_TAKEN 1
#define DDM_ADD_SLOT 2

/* That of ddm_close: the place of a refusal, which is 0 since none names one, and the slot count after closing. */
#define DDM_CLOSE_PLACE 0
#define DDM_CLOSE_SLOTS 1
#define DDM_CLOSE_SLOT 2

/* The writer's: the place of a refusal, the bytes written. */
#define DDM_STORE_PLACE 0
#define DDM_STORE_BYTES 1
#define DDM_STORE_SLOT 2

/* The quotas': the entries written, the seats. */
#define DDM_QUOTA_WRITTEN 0
#define DDM_QUOTA_SEATS 1
#define DDM_QUOTA_SLOT 2

/* The level size and the root: one value. */
#define DDM_LEVEL_SIZE_SLOT 1
#define DDM_ROOT_SLOT 1

/* ---- functions */

/* The version of the library, in the form of DDM_VERSION. */
size_t ddm_version(void);

/* The entries that each list needs for a build over n points (result: DDM_SIZES_SLOT). Refusals 1, 5, 6, 8. */
size_t ddm_build_sizes(size_t n, size_t dimensions, uint32_t neighbours, size_t *result, size_t result_len);

/* Builds the tree over n = points_len / dimensions points; the lists have at least the entries that ddm_build_sizes gives.
 *   level_points  the active rows of each level       internals, borrowed  the rows of the leaves
 *   domains       a domain row for each leaf          boxes                its floats: box and cover
 *   floats, wholes  working room             cuts, planes         the cut record of each fine level
 * What stands past the tree and past the record stays as it was. policy: DDM_POLICY_AUTO (coarse_threshold is not looked at), any other
 * number Fixed. result: DDM_BUILD_SLOT. Refusals 1 to 9, 11, 10, in this order; 11 is one test over all nine lists. */
size_t ddm_build(const double *points, size_t points_len, size_t dimensions, uint32_t leaf_threshold, uint32_t overlap_knn,
                 uint32_t coarse_reduction_factor, uint32_t policy, uint32_t coarse_threshold, size_t *level_points,
                 size_t level_points_len, size_t *internals, size_t internals_len, size_t *domains, size_t domains_len,
                 double *boxes, size_t boxes_len, size_t *borrowed, size_t borrowed_len, double *floats, size_t floats_len,
                 size_t *wholes, size_t wholes_len, size_t *cuts, size_t cuts_len, double *planes, size_t planes_len, size_t *result,
                 size_t result_len);

/* Builds the tree of ddm_build by cutting the left half of a domain completely before the right. What it writes to the slot, to the tree's
 * lists and to the record is the same, entry for entry, and so is all else. */
size_t ddm_build_depth_first(const double *points, size_t points_len, size_t dimensions, uint32_t leaf_threshold, uint32_t overlap_knn,
                             uint32_t coarse_reduction_factor, uint32_t policy, uint32_t coarse_threshold, size_t *level_points,
                             size_t level_points_len, size_t *internals, size_t internals_len, size_t *domains, size_t domains_len,
                             double *boxes, size_t boxes_len, size_t *borrowed, size_t borrowed_len, double *floats,
                             size_t floats_len, size_t *wholes, size_t wholes_len, size_t *cuts, size_t cuts_len, double *planes,
                             size_t planes_len, size_t *result, size_t result_len);

/* Adds a well to the table, in the lowest slot that is retired or else in the next new one, and answers with the slot (result:
 * DDM_ADD_SLOT). Its flag becomes 1 and the point is written to its coordinates; the live count rises by one, and the slot count too where
 * the slot is new. point: one coordinate for each axis. Refusals 1, 11, 27, 7, 10, 21, in this order; the place of 10 is counted in the
 * point. A refused call leaves the table as it was. */
size_t ddm_add(ddm_head *head, uint8_t *flags, size_t flags_len, double *coordinates, size_t coordinates_len, size_t dimensions,
               const double *point, size_t point_len, size_t *result, size_t result_len);

/* Retires a live slot: its flag becomes 0, and the live count falls by one. The slot count and the coordinates stay. Nothing is answered,
 * so there is no result slot. Refusals 1, 11, 27, 22, in this order. A refused call leaves the table as it was. */
size_t ddm_retire(ddm_head *head, uint8_t *flags, size_t flags_len, const double *coordinates, size_t coordinates_len,
                  size_t dimensions, size_t slot);

/* Closes the gaps of the table: live wells move down, in order, so that none is retired, and the slot count becomes the live count, which
 * is the answer (result: DDM_CLOSE_SLOT). Coordinates are moved bit for bit. From the live count to the old slot count coordinates become
 * +0 and flags 0; below, flags become 1, whatever stood there.
 *   rename  at least as many entries as the old slot count: for each old slot the new one, or the old slot count for a retired one
 * What stands at or above the old slot count stays as it was, in all three lists. A tree that was built before needs no new build: with
 * each row looked up in `rename` it is the tree that ddm_build_slots would build now, with the same leaves, boxes, covers and depths.
 * Refusals 1, 11 (also for a short rename list), 27, in this order. A refused call leaves the table and the list as they were. */
size_t ddm_close(ddm_head *head, uint8_t *flags, size_t flags_len, double *coordinates, size_t coordinates_len, size_t dimensions,
                 size_t *rename, size_t rename_len, size_t *result, size_t result_len);

/* Builds the tree over the live slots of the table with the head {slots, live}, in slot order: rows in every list are slots, and n is the
 * live count, in the lengths of the lists too. The table is only read. All else is as for ddm_build. Refusals 27, 1 to 6, 9, 11, 10, in
 * this order; 6 where no slot is live, 11 for short coordinates too, and 10 for live slots alone, its place counted in `coordinates`. */
size_t ddm_build_slots(size_t slots, size_t live, const uint8_t *flags, size_t flags_len, const double *coordinates,
                       size_t coordinates_len, size_t dimensions, uint32_t leaf_threshold, uint32_t overlap_knn,
                       uint32_t coarse_reduction_factor, uint32_t policy, uint32_t coarse_threshold, size_t *level_points,
                       size_t level_points_len, size_t *internals, size_t internals_len, size_t *domains, size_t domains_len,
                       double *boxes, size_t boxes_len, size_t *borrowed, size_t borrowed_len, double *floats, size_t floats_len,
                       size_t *wholes, size_t wholes_len, size_t *cuts, size_t cuts_len, double *planes, size_t planes_len,
                       size_t *result, size_t result_len);

/* Writes a tree as the bytes of a file, with the points and settings that it was built or loaded for. tree: the slot that the build or
 * load wrote (DDM_BUILD_SLOT; a shorter one is refused with 11 before all but the result slot). The lists are the tree's five, as long as
 * for a build, without room or record; file has at least ddm_file_size bytes, and what stands past them stays as it was. result: DDM_STORE_SLOT. Refusals 1 to 9,
 * 11, 10, 20, and 11 for a short file, in this order. A tree over slots is refused with 20, unless they are 0 to n - 1, as they are after
 * ddm_close. */
size_t ddm_store(const double *points, size_t points_len, size_t dimensions, uint32_t leaf_threshold, uint32_t overlap_knn,
                 uint32_t coarse_reduction_factor, uint32_t policy, uint32_t coarse_threshold, const size_t *tree, size_t tree_len,
                 const size_t *level_points, size_t level_points_len, const size_t *internals, size_t internals_len,
                 const size_t *domains, size_t domains_len, const double *boxes, size_t boxes_len, const size_t *borrowed,
                 size_t borrowed_len, uint8_t *file, size_t file_len, size_t *result, size_t result_len);

/* Hands out the tree that stands in a file, where the file is whole and sound and was written for these very settings and points, bit for
 * bit. The tree's five lists are as for a build, and so is the result slot (DDM_BUILD_SLOT); no room and no record is lent, since a file
 * holds no cuts. Refusals 1 to 9, 11, 10, 20, 18, 19, in this order. */
size_t ddm_load(const double *points, size_t points_len, size_t dimensions, uint32_t leaf_threshold, uint32_t overlap_knn,
                uint32_t coarse_reduction_factor, uint32_t policy, uint32_t coarse_threshold, const uint8_t *file, size_t file_len,
                size_t *level_points, size_t level_points_len, size_t *internals, size_t internals_len, size_t *domains,
                size_t domains_len, double *boxes, size_t boxes_len, size_t *borrowed, size_t borrowed_len, size_t *result,
                size_t result_len);

/* The bytes of a tree's file, exactly: n points, the slot that its build or load wrote, and the rows that its leaves borrow in all (the
 * last domain row's start and count of them, added). They are the head's; the points'; a mark and two counts for each level and domain;
 * each level row and, as an internal row, once more; the borrowed rows; a depth for each domain; and the floats of each domain row but for
 * the coarse box. */
static inline size_t ddm_file_size(size_t dimensions, size_t n, const size_t *tree, size_t borrowed) {
    size_t rows = 0, domains = 0, level;
    for (level = 0; level < DDM_MOST_LEVELS; level++) {
        rows += tree[DDM_SLOT_ROWS + level];
        domains += tree[DDM_SLOT_DOMAINS + level];
    }
    return 24 + n * (2 + 8 * dimensions) + 10 * (tree[DDM_SLOT_LEVELS] + domains) + 4 * (2 * rows + borrowed + domains)
           + 8 * (DDM_ROW_FLOATS(dimensions) * domains - DDM_BOX_FLOATS(dimensions));
}

/* Farthest point sampling: `wanted` rows from the row `seed` on. out: at least wanted; floats 2n; wholes n; cover: DDM_COVER_SLOT; result:
 * DDM_SAMPLE_SLOT. The cover is how far the worst row that was not taken is from the nearest one that was: +0 where all were taken, and in
 * a refused call; +infinity where that distance is too large. Refusals 1, 6, 7, 8, 13, 11, 10. */
size_t ddm_sample(const double *points, size_t points_len, size_t dimensions, size_t wanted, size_t seed, size_t *out,
                  size_t out_len, double *floats, size_t floats_len, size_t *wholes, size_t wholes_len, double *cover,
                  size_t cover_len, size_t *result, size_t result_len);

/* The size of the next level, of a active rows at the threshold c with r reductions left (result: DDM_LEVEL_SIZE_SLOT). Refusals 4, 8,
 * 14, 9. */
size_t ddm_level_size(size_t a, uint32_t c, uint32_t r, size_t *result, size_t result_len);

/* The quotas of leaves of these sizes for `wanted` seats. quotas and wholes: one entry per leaf; result: DDM_QUOTA_SLOT. Refusals
 * 8, 11. */
size_t ddm_quotas(const size_t *sizes, size_t sizes_len, size_t wanted, size_t *quotas, size_t quotas_len, size_t *wholes,
                  size_t wholes_len, size_t *result, size_t result_len);

/* The square root, rounded to the nearest value (result: DDM_ROOT_SLOT). Refusal 15. */
size_t ddm_square_root(double x, double *result, size_t result_len);

/* The test of a domain row's stretch against the length of its list: 12 where start plus count ends past it, else 0. The rows of the
 * leaf are then list[start] to list[start + count - 1]. */
size_t ddm_row_test(size_t start, size_t count, size_t list_len);

/* A refusal in words. Whoever sets the station can mend 1 to 5, 9 and 18; whoever brings the points 6, 7, 8, 10 and 19; whoever edits the
 * table 21 and 22; the calling program 11 to 15 and 27; whoever keeps the file 20; whoever feeds the program ddm_tree a job stream 16 and
 * 17, which no function here gives. */
static inline const char *ddm_refusal_text(size_t number) {
    switch (number) {
    case 0: return "nothing was refused";
    case 1: return "the dimension is not 1, 2 or 3";
    case 2: return "the leaf threshold is 0";
    case 3: return "the factor is below 2";
    case 4: return "the coarse threshold is fixed at 0";
    case 5: return "the neighbour count is above 64";
    case 6: return "there are no points";
    case 7: return "the coordinate count is no multiple of the dimension (or a point to be added has not one for each axis)";
    case 8: return "there are more than 1,048,576 points";
    case 9: return "three reductions by the factor do not reach the coarse threshold (or the asked reductions are 0 or above 3)";
    case 10: return "a coordinate is infinite or not a number";
    case 11: return "a lent list is too short";
    case 12: return "a domain row's stretch ends past its list";
    case 13: return "the wanted rows or the seed do not fit the rows given";
    case 14: return "the active rows do not outnumber the threshold";
    case 15: return "a negative number or not-a-number has no root";
    case 16: return "the job stream is broken";
    case 17: return "the job stream has over 32 points or over 16 neighbours";
    case 18: return "the stored tree is of other settings";
    case 19: return "the stored tree is of other points";
    case 20: return "the file, or the lists to be stored, hold no sound tree";
    case 21: return "the table is full";
    case 22: return "the slot is not live";
    case 27: return "the table's head does not fit its flags";
    default: return "no refusal has this number";
    }
}

#ifdef __cplusplus
}
#endif

#endif
