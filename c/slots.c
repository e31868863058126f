/* ddm.h: what each function returns and writes to its slot and its lists, and that it writes nothing else.
 *
 *   cc -O2 -o slots c/slots.c target/staticlib/libddm_c.a && ./slots
 */
#include "ddm.h"
#include <math.h>
#include <stdio.h>
#include <string.h>

/* What stands in every list before a call. */
enum { MARK = 77 };

static int wrong;

#define EXPECT(fact) ((fact) ? (void)0 : (wrong++, (void)printf("c/slots.c:%d: %s does not hold\n", __LINE__, #fact)))

static void mark(size_t *list, size_t count) {
    while (count--)
        list[count] = MARK;
}

static int marked(const size_t *list, size_t count) {
    while (count--)
        if (list[count] != MARK)
            return 0;
    return 1;
}

static int zeros(const size_t *list, size_t count) {
    while (count--)
        if (list[count] != 0)
            return 0;
    return 1;
}

static void roots(void) {
    double slot[DDM_ROOT_SLOT + 1] = {MARK, MARK};
    EXPECT(ddm_square_root(2.0, slot, DDM_ROOT_SLOT - 1) == 11 && slot[0] == MARK);
    EXPECT(ddm_square_root(6.25, slot, DDM_ROOT_SLOT + 1) == 0 && slot[0] == 2.5 && slot[1] == MARK);
    EXPECT(ddm_square_root(-1.0, slot, DDM_ROOT_SLOT + 1) == 15 && slot[0] == 0.0 && !signbit(slot[0]) && slot[1] == MARK);
    EXPECT(ddm_square_root(NAN, slot, DDM_ROOT_SLOT) == 15);
    EXPECT(ddm_square_root(-0.0, slot, DDM_ROOT_SLOT) == 0 && signbit(slot[0]));
}

static void level_sizes(void) {
    size_t slot[DDM_LEVEL_SIZE_SLOT + 1] = {MARK, MARK};
    EXPECT(ddm_level_size(1000, 60, 3, slot, DDM_LEVEL_SIZE_SLOT - 1) == 11 && marked(slot, DDM_LEVEL_SIZE_SLOT + 1));
    EXPECT(ddm_level_size(1000, 60, 3, slot, DDM_LEVEL_SIZE_SLOT + 1) == 0 && slot[0] == 392 && slot[1] == MARK);
    EXPECT(ddm_level_size(1000, 0, 3, slot, DDM_LEVEL_SIZE_SLOT) == 4 && slot[0] == 0);
    EXPECT(ddm_level_size(DDM_MOST_POINTS + 1, 1, 3, slot, DDM_LEVEL_SIZE_SLOT) == 8);
    EXPECT(ddm_level_size(60, 60, 3, slot, DDM_LEVEL_SIZE_SLOT) == 14);
    EXPECT(ddm_level_size(61, 60, 0, slot, DDM_LEVEL_SIZE_SLOT) == 9 && ddm_level_size(61, 60, 4, slot, DDM_LEVEL_SIZE_SLOT) == 9);
}

static void leaf_quotas(void) {
    const size_t sizes[3] = {3, 0, 5}, large[2] = {DDM_MOST_POINTS, 1};
    size_t out[4], wholes[3], slot[DDM_QUOTA_SLOT + 1];
    mark(out, 4), mark(wholes, 3), mark(slot, DDM_QUOTA_SLOT + 1);
    EXPECT(ddm_quotas(sizes, 3, 4, out, 4, wholes, 3, slot, DDM_QUOTA_SLOT - 1) == 11 && marked(out, 4) && marked(wholes, 3));
    EXPECT(marked(slot, DDM_QUOTA_SLOT + 1));
    EXPECT(ddm_quotas(sizes, 3, 4, out, 2, wholes, 3, slot, DDM_QUOTA_SLOT + 1) == 11 && marked(out, 4));
    EXPECT(zeros(slot, DDM_QUOTA_SLOT) && slot[DDM_QUOTA_SLOT] == MARK);
    EXPECT(ddm_quotas(large, 2, 4, out, 4, wholes, 3, slot, DDM_QUOTA_SLOT) == 8 && marked(out, 4) && zeros(slot, DDM_QUOTA_SLOT));
    EXPECT(ddm_quotas(sizes, 3, 4, out, 4, wholes, 3, slot, DDM_QUOTA_SLOT) == 0);
    EXPECT(slot[DDM_QUOTA_WRITTEN] == 3 && slot[DDM_QUOTA_SEATS] == 4);
    EXPECT(out[0] == 2 && out[1] == 0 && out[2] == 2 && out[3] == MARK);
}

/* The lists and the slots of a sampling call, with an entry behind each slot. */
static double sample_floats[8], cover[DDM_COVER_SLOT + 1];
static size_t sample_out[4], sample_wholes[4], told[DDM_SAMPLE_SLOT + 1];

/* Samples these points, of up to four coordinates, with so many entries of the output and of the slots; all hold MARK before. */
static size_t sample(const double *points, size_t points_len, size_t dimensions, size_t wanted, size_t seed, size_t out_len,
                     size_t cover_len, size_t told_len) {
    mark(sample_out, 4), mark(sample_wholes, 4), mark(told, DDM_SAMPLE_SLOT + 1);
    for (size_t i = 0; i < 8; i++)
        sample_floats[i] = MARK;
    for (size_t i = 0; i <= DDM_COVER_SLOT; i++)
        cover[i] = MARK;
    return ddm_sample(points, points_len, dimensions, wanted, seed, sample_out, out_len, sample_floats, 8, sample_wholes, 4, cover,
                      cover_len, told, told_len);
}

/* Whether the call wrote to no list. */
static int no_list_written(void) {
    for (size_t i = 0; i < 8; i++)
        if (sample_floats[i] != MARK)
            return 0;
    return marked(sample_out, 4) && marked(sample_wholes, 4);
}

/* Whether the cover is this one, a zero with its sign, and nothing is written behind it. */
static int covered(double expected) {
    return cover[0] == expected && !signbit(cover[0]) && cover[DDM_COVER_SLOT] == MARK;
}

/* Whether the call was refused there: no row, the cover +0, and no list written. */
static int refused_at(size_t place) {
    return no_list_written() && covered(0.0) && told[DDM_SAMPLE_PLACE] == place && told[DDM_SAMPLE_WRITTEN] == 0
           && told[DDM_SAMPLE_SLOT] == MARK;
}

static void samples(void) {
    const double points[4] = {0.0, 1.0, 2.0, 10.0}, bad[4] = {0.0, 1.0, INFINITY, 10.0};
    /* a short slot, the one or the other, comes before all else, and then neither is written */
    for (size_t dimensions = 1; dimensions <= 4; dimensions += 3) {
        EXPECT(sample(points, 4, dimensions, 3, 0, 4, DDM_COVER_SLOT, DDM_SAMPLE_SLOT - 1) == 11);
        EXPECT(no_list_written() && cover[0] == MARK && marked(told, DDM_SAMPLE_SLOT + 1));
        EXPECT(sample(points, 4, dimensions, 3, 0, 4, DDM_COVER_SLOT - 1, DDM_SAMPLE_SLOT) == 11);
        EXPECT(no_list_written() && cover[0] == MARK && marked(told, DDM_SAMPLE_SLOT + 1));
    }
    EXPECT(sample(bad, 4, 1, 3, 0, 4, DDM_COVER_SLOT + 1, DDM_SAMPLE_SLOT + 1) == 10 && refused_at(2));
    EXPECT(sample(points, 4, 4, 1, 0, 4, DDM_COVER_SLOT, DDM_SAMPLE_SLOT) == 1 && refused_at(0));
    EXPECT(sample(points, 0, 1, 1, 0, 4, DDM_COVER_SLOT, DDM_SAMPLE_SLOT) == 6 && refused_at(0));
    EXPECT(sample(points, 3, 2, 1, 0, 4, DDM_COVER_SLOT, DDM_SAMPLE_SLOT) == 7 && refused_at(0));
    EXPECT(sample(points, DDM_MOST_POINTS + 1, 1, 1, 0, 4, DDM_COVER_SLOT, DDM_SAMPLE_SLOT) == 8 && refused_at(0));
    EXPECT(sample(points, 4, 1, 3, 4, 4, DDM_COVER_SLOT, DDM_SAMPLE_SLOT) == 13 && refused_at(0));
    EXPECT(sample(points, 4, 1, 3, 0, 2, DDM_COVER_SLOT, DDM_SAMPLE_SLOT) == 11 && refused_at(0));
    EXPECT(sample(points, 4, 1, 3, 0, 4, DDM_COVER_SLOT + 1, DDM_SAMPLE_SLOT + 1) == 0);
    EXPECT(told[DDM_SAMPLE_PLACE] == 0 && told[DDM_SAMPLE_WRITTEN] == 3 && told[DDM_SAMPLE_SLOT] == MARK);
    EXPECT(sample_out[0] == 0 && sample_out[1] == 3 && sample_out[2] == 2 && sample_out[3] == MARK);
    EXPECT(covered(1.0));
}

/* How far the worst row that was not taken is from the nearest one that was. */
static void covers(void) {
    const double line[4] = {0.0, 1.0, 2.0, 10.0}, corners[4] = {0.0, 0.0, 3.0, 4.0}, same[4] = {5.0, 5.0, 5.0, 5.0};
    const double zeros[2] = {0.0, -0.0}, far[2] = {0.0, 1e200}, near[2] = {0.0, 1e-170}, beside[2] = {0.0, 1e-161};
    const double covers_by_wanted[4] = {10.0, 2.0, 1.0, 0.0};
    for (size_t wanted = 1; wanted <= 4; wanted++)
        EXPECT(sample(line, 4, 1, wanted, 0, 4, DDM_COVER_SLOT, DDM_SAMPLE_SLOT) == 0 && covered(covers_by_wanted[wanted - 1]));
    EXPECT(sample(line, 4, 1, 1, 2, 4, DDM_COVER_SLOT, DDM_SAMPLE_SLOT) == 0 && covered(8.0));
    EXPECT(sample(corners, 4, 2, 1, 1, 4, DDM_COVER_SLOT, DDM_SAMPLE_SLOT) == 0 && covered(5.0));
    EXPECT(sample(same, 4, 1, 1, 2, 4, DDM_COVER_SLOT, DDM_SAMPLE_SLOT) == 0 && covered(0.0));
    EXPECT(sample(zeros, 2, 1, 1, 0, 4, DDM_COVER_SLOT, DDM_SAMPLE_SLOT) == 0 && covered(0.0));
    /* a square that overflows, one that underflows, and a subnormal one */
    EXPECT(sample(far, 2, 1, 1, 0, 4, DDM_COVER_SLOT, DDM_SAMPLE_SLOT) == 0 && covered(INFINITY));
    EXPECT(sample(near, 2, 1, 1, 0, 4, DDM_COVER_SLOT, DDM_SAMPLE_SLOT) == 0 && covered(0.0));
    EXPECT(sample(beside, 2, 1, 1, 0, 4, DDM_COVER_SLOT, DDM_SAMPLE_SLOT) == 0 && covered(9.940479322862118e-162));
}

static void row_tests(void) {
    EXPECT(ddm_row_test(3, 2, 5) == 0 && ddm_row_test(3, 3, 5) == 12 && ddm_row_test(5, 0, 5) == 0);
    EXPECT(ddm_row_test(6, 0, 5) == 12 && ddm_row_test((size_t)-1, 2, 5) == 12 && ddm_row_test(2, (size_t)-1, 5) == 12);
}

/* The sizes of document 01's lists, of the record and of the further room, and the refusals in their order. */
static void build_sizes(void) {
    const size_t rows = 6001, stated[DDM_SIZES_SLOT] = {4000,  4000,   DDM_ROW_NUMBERS * rows, DDM_ROW_FLOATS(2) * rows, 54000,
                                                        32000, 112000, 12000,                  12000};
    size_t slot[DDM_SIZES_SLOT + 1];
    mark(slot, DDM_SIZES_SLOT + 1);
    EXPECT(ddm_build_sizes(1000, 2, 8, slot, DDM_SIZES_SLOT - 1) == 11 && marked(slot, DDM_SIZES_SLOT + 1));
    EXPECT(ddm_build_sizes(1000, 2, 8, slot, DDM_SIZES_SLOT + 1) == 0 && slot[DDM_SIZES_SLOT] == MARK);
    for (size_t i = 0; i < DDM_SIZES_SLOT; i++)
        EXPECT(slot[i] == stated[i]);
    EXPECT(ddm_build_sizes(0, 0, DDM_MOST_NEIGHBOURS + 1, slot, DDM_SIZES_SLOT) == 1 && zeros(slot, DDM_SIZES_SLOT));
    EXPECT(ddm_build_sizes(0, 4, 0, slot, DDM_SIZES_SLOT) == 1);
    EXPECT(ddm_build_sizes(0, 3, DDM_MOST_NEIGHBOURS + 1, slot, DDM_SIZES_SLOT) == 5 && zeros(slot, DDM_SIZES_SLOT));
    EXPECT(ddm_build_sizes(0, 3, DDM_MOST_NEIGHBOURS, slot, DDM_SIZES_SLOT) == 6 && zeros(slot, DDM_SIZES_SLOT));
    EXPECT(ddm_build_sizes(DDM_MOST_POINTS + 1, 3, 0, slot, DDM_SIZES_SLOT) == 8 && zeros(slot, DDM_SIZES_SLOT));
    EXPECT(ddm_build_sizes((size_t)-1, 3, 0, slot, DDM_SIZES_SLOT) == 8);
    EXPECT(ddm_build_sizes(DDM_MOST_POINTS, 3, DDM_MOST_NEIGHBOURS, slot, DDM_SIZES_SLOT) == 0);
    EXPECT(slot[DDM_SIZES_BORROWED] == (size_t)6 * DDM_MOST_POINTS * (DDM_MOST_NEIGHBOURS + 1));
    EXPECT(slot[DDM_SIZES_WHOLES] == (size_t)560 * DDM_MOST_POINTS && slot[DDM_SIZES_FLOATS] == (size_t)32 * DDM_MOST_POINTS);
    EXPECT(slot[DDM_SIZES_CUTS] == (size_t)DDM_RECORD_ENTRIES(DDM_MOST_POINTS) && slot[DDM_SIZES_PLANES] == slot[DDM_SIZES_CUTS]);
    /* two stretches and a depth; a box of six bounds and a cover */
    EXPECT(slot[DDM_SIZES_DOMAINS] == ((size_t)6 * DDM_MOST_POINTS + 1) * 5);
    EXPECT(slot[DDM_SIZES_BOXES] == (size_t)7 * (6 * DDM_MOST_POINTS + 1));
}

/* A build over four points on one axis, with one neighbour; each list has room past the length that is lent. */
enum { N = 4, NEAR = 1, ROOM = 512 };

static size_t level_points[ROOM], internals[ROOM], domains[ROOM], borrowed[ROOM], wholes[ROOM], cuts[ROOM], sizes[DDM_SIZES_SLOT];
static double boxes[ROOM], floats[ROOM], planes[ROOM];
static size_t slot[DDM_BUILD_SLOT + 1];

static void mark_all(void) {
    mark(level_points, ROOM), mark(internals, ROOM), mark(domains, ROOM), mark(borrowed, ROOM), mark(wholes, ROOM), mark(cuts, ROOM);
    mark(slot, DDM_BUILD_SLOT + 1);
    for (size_t i = 0; i < ROOM; i++)
        boxes[i] = floats[i] = planes[i] = MARK;
}

static size_t build(const double *points, uint32_t leaf, uint32_t factor, uint32_t policy, uint32_t threshold, size_t slot_len) {
    mark_all();
    return ddm_build(points, N, 1, leaf, NEAR, factor, policy, threshold, level_points, sizes[DDM_SIZES_LEVEL_POINTS], internals,
                     sizes[DDM_SIZES_INTERNALS], domains, sizes[DDM_SIZES_DOMAINS], boxes, sizes[DDM_SIZES_BOXES], borrowed,
                     sizes[DDM_SIZES_BORROWED], floats, sizes[DDM_SIZES_FLOATS], wholes, sizes[DDM_SIZES_WHOLES], cuts,
                     sizes[DDM_SIZES_CUTS], planes, sizes[DDM_SIZES_PLANES], slot, slot_len);
}

static int untouched(void) {
    for (size_t i = 0; i < ROOM; i++)
        if (boxes[i] != MARK || floats[i] != MARK || planes[i] != MARK)
            return 0;
    return marked(level_points, ROOM) && marked(internals, ROOM) && marked(domains, ROOM) && marked(borrowed, ROOM)
           && marked(wholes, ROOM) && marked(cuts, ROOM);
}

static void refused_builds(void) {
    const double points[N] = {0.0, 1.0, 2.0, 10.0}, bad[N] = {0.0, 1.0, 2.0, NAN};
    EXPECT(build(points, 1, 2, DDM_POLICY_FIXED, 2, DDM_BUILD_SLOT - 1) == 11 && untouched() && marked(slot, DDM_BUILD_SLOT + 1));
    EXPECT(build(points, 0, 1, DDM_POLICY_FIXED, 0, DDM_BUILD_SLOT) == 2 && untouched() && zeros(slot, DDM_BUILD_SLOT));
    EXPECT(build(points, 1, 1, DDM_POLICY_FIXED, 0, DDM_BUILD_SLOT) == 3 && untouched());
    EXPECT(build(points, 1, 2, DDM_POLICY_FIXED, 0, DDM_BUILD_SLOT) == 4 && untouched());
    EXPECT(build(points, 1, 2, 4294967295u, 0, DDM_BUILD_SLOT) == 4 && untouched());
    EXPECT(build(bad, 1, 2, DDM_POLICY_FIXED, 2, DDM_BUILD_SLOT + 1) == 10 && untouched() && slot[DDM_BUILD_SLOT] == MARK);
    EXPECT(slot[DDM_SLOT_PLACE] == 3 && zeros(slot + DDM_SLOT_LEVELS, DDM_BUILD_SLOT - DDM_SLOT_LEVELS));
    /* each list must have what ddm_build_sizes says, and no more */
    for (size_t list = 0; list < DDM_SIZES_SLOT; list++) {
        sizes[list]--;
        EXPECT(build(bad, 1, 2, DDM_POLICY_FIXED, 2, DDM_BUILD_SLOT) == 11 && untouched() && zeros(slot, DDM_BUILD_SLOT));
        sizes[list]++;
    }
}

/* Whether a domain row, in one dimension, has these stretches, this depth, this box and this cover. */
static int row_is(size_t domain, size_t own, size_t owned, size_t lent, size_t count, size_t depth, double lower, double upper,
                  double far) {
    const size_t *row = domains + DDM_ROW_NUMBERS * domain;
    const double *box = boxes + DDM_ROW_FLOATS(1) * domain;
    return row[DDM_COLUMN_OWN_START] == own && row[DDM_COLUMN_OWN_COUNT] == owned && row[DDM_COLUMN_BORROWED_START] == lent
           && row[DDM_COLUMN_BORROWED_COUNT] == count && row[DDM_COLUMN_DEPTH] == depth && box[0] == lower && box[1] == upper
           && box[DDM_ROW_COVER(1)] == far && !signbit(box[DDM_ROW_COVER(1)]);
}

/* Whether the record has so many nodes, of which the first is a cut at this plane, and nothing is written past them. */
static int recorded(size_t nodes, double plane) {
    int right = marked(cuts + nodes, ROOM - nodes) && (!nodes || (cuts[0] == 0 && planes[0] == plane));
    for (size_t i = nodes; i < ROOM; i++)
        right = right && planes[i] == MARK;
    return right;
}

static void builds(void) {
    const double points[N] = {0.0, 1.0, 2.0, 10.0};
    /* Auto: the threshold is 512, whatever stands in its place, so there is the coarse level alone */
    EXPECT(build(points, 1, 2, DDM_POLICY_AUTO, 0, DDM_BUILD_SLOT) == 0 && slot[DDM_SLOT_PLACE] == 0 && slot[DDM_SLOT_LEVELS] == 1);
    EXPECT(slot[DDM_SLOT_ROWS] == N && zeros(slot + DDM_SLOT_ROWS + 1, DDM_MOST_LEVELS - 1));
    EXPECT(slot[DDM_SLOT_DOMAINS] == 1 && zeros(slot + DDM_SLOT_DOMAINS + 1, DDM_MOST_LEVELS - 1));
    EXPECT(row_is(0, 0, N, 0, 0, 0, 0.0, 0.0, 0.0) && marked(domains + DDM_ROW_NUMBERS, ROOM - DDM_ROW_NUMBERS));
    EXPECT(recorded(0, 0.0));
    /* Fixed at 2: two leaves of two rows, each with a row of the other's, and then the coarse level */
    EXPECT(build(points, 3, 2, DDM_POLICY_FIXED, 2, DDM_BUILD_SLOT + 1) == 0 && slot[DDM_BUILD_SLOT] == MARK);
    EXPECT(slot[DDM_SLOT_PLACE] == 0 && slot[DDM_SLOT_LEVELS] == 2 && slot[DDM_SLOT_ROWS] == N && slot[DDM_SLOT_ROWS + 1] == 2);
    EXPECT(zeros(slot + DDM_SLOT_ROWS + 2, DDM_MOST_LEVELS - 2));
    EXPECT(slot[DDM_SLOT_DOMAINS] == 2 && slot[DDM_SLOT_DOMAINS + 1] == 1 && zeros(slot + DDM_SLOT_DOMAINS + 2, DDM_MOST_LEVELS - 2));
    EXPECT(row_is(0, 0, 2, 0, 1, 1, 0.0, 2.0, 1.0) && row_is(1, 2, 2, 1, 1, 1, 2.0, 10.0, 8.0) && row_is(2, N, 2, 2, 0, 0, 0.0, 0.0, 0.0));
    EXPECT(borrowed[0] == 2 && borrowed[1] == 1 && marked(borrowed + 2, ROOM - 2));
    EXPECT(marked(level_points + N + 2, ROOM - N - 2) && marked(internals + N + 2, ROOM - N - 2));
    EXPECT(marked(domains + 3 * DDM_ROW_NUMBERS, ROOM - 3 * DDM_ROW_NUMBERS) && boxes[3 * DDM_ROW_FLOATS(1)] == MARK);
    EXPECT(recorded(DDM_RECORD_NODES(2), 2.0) && cuts[1] == DDM_RECORD_LEAF && cuts[2] == DDM_RECORD_LEAF + 1);
    /* at leaf threshold 1 each row has a leaf behind an empty one; of the leaves with rows two send theirs, and two send none */
    EXPECT(build(points, 1, 2, DDM_POLICY_FIXED, 2, DDM_BUILD_SLOT) == 0 && slot[DDM_SLOT_DOMAINS] == 8);
    EXPECT(recorded(DDM_RECORD_NODES(8), 2.0));
    for (size_t leaf = 0; leaf < 8; leaf++) {
        const double far = boxes[DDM_ROW_FLOATS(1) * leaf + DDM_ROW_COVER(1)];
        EXPECT(domains[DDM_ROW_NUMBERS * leaf + DDM_COLUMN_OWN_COUNT] == leaf % 2 && far == (leaf == 5 || leaf == 7 ? INFINITY : 0.0));
        EXPECT(domains[DDM_ROW_NUMBERS * leaf + DDM_COLUMN_DEPTH] == 3);
    }
}

/* Every refusal has words of its own, and so has a number that is none. */
static void texts(void) {
    const size_t numbers[] = {0, 1, 2, 3, 4, 5, 6, 7, 8, 9, 10, 11, 12, 13, 14, 15, 16, 17, 18, 19, 20, 21, 22, 27, 28};
    const size_t count = sizeof numbers / sizeof *numbers;
    for (size_t i = 0; i < count; i++)
        for (size_t j = 0; j < i; j++)
            EXPECT(strcmp(ddm_refusal_text(numbers[i]), ddm_refusal_text(numbers[j])) != 0);
    for (size_t none = 23; none < 27; none++)
        EXPECT(strcmp(ddm_refusal_text(none), ddm_refusal_text(28)) == 0);
    EXPECT(strcmp(ddm_refusal_text((size_t)-1), ddm_refusal_text(28)) == 0);
    EXPECT(strcmp(ddm_refusal_text(2), "the leaf threshold is 0") == 0);
}

int main(void) {
    EXPECT(ddm_version() == DDM_VERSION);
    EXPECT(ddm_build_sizes(N, 1, NEAR, sizes, DDM_SIZES_SLOT) == 0);
    roots();
    level_sizes();
    leaf_quotas();
    samples();
    covers();
    row_tests();
    build_sizes();
    refused_builds();
    builds();
    texts();
    if (wrong == 0)
        printf("slots: ok\n");
    return wrong != 0;
}
