/* Calls at once: eight threads build trees of their own over points that they share, by both builds, each on a stack of 40 KiB; and every
 * tree and record is the one that is built alone.
 *
 *   cc -O2 -pthread -o threads c/threads.c target/staticlib/libddm_c.a && ./threads
 */
#include "ddm_tree.h"
#include <pthread.h>
#include <stdio.h>
#include <string.h>

enum { WELLS = 2000, AXES = 3, THREADS = 8, TURNS = 3, STACK = 40 * 1024 };

static double points[AXES * WELLS];

/* What stands in a thread's hands: its own lists and slot. */
typedef struct {
    ddm_lists lists;
    size_t result[DDM_BUILD_SLOT], refused;
    ddm_params params;
} job;

static void *work(void *of) {
    job *own = (job *)of;
    for (size_t turn = 0; turn < TURNS && !own->refused; turn++) {
        own->refused = ddm_lists_build(&own->lists, points, AXES * WELLS, AXES, own->params, own->result);
        if (!own->refused)
            own->refused = ddm_lists_build_depth_first(&own->lists, points, AXES * WELLS, AXES, own->params, own->result);
    }
    return NULL;
}

static void prepare(job *own, uint32_t leaf) {
    own->params = ddm_default_params();
    own->params.leaf_threshold = leaf;
    own->params.coarse_reduction_factor = 3;
    own->params.policy = DDM_POLICY_FIXED;
    own->params.coarse_threshold = 100;
    own->refused = ddm_build_sizes(WELLS, AXES, own->params.overlap_knn, own->lists.sizes, DDM_SIZES_SLOT);
    if (own->refused || !ddm_lists_make(&own->lists))
        exit(2);
}

static int same(const job *a, const job *b) {
    const size_t *s = a->lists.sizes, whole = sizeof(size_t);
    return !a->refused && !b->refused && memcmp(a->result, b->result, sizeof a->result) == 0
           && memcmp(a->lists.cuts, b->lists.cuts, whole * s[DDM_SIZES_CUTS]) == 0
           && memcmp(a->lists.planes, b->lists.planes, sizeof(double) * s[DDM_SIZES_PLANES]) == 0
           && memcmp(a->lists.level_points, b->lists.level_points, whole * s[DDM_SIZES_LEVEL_POINTS]) == 0
           && memcmp(a->lists.internals, b->lists.internals, whole * s[DDM_SIZES_INTERNALS]) == 0
           && memcmp(a->lists.domains, b->lists.domains, whole * s[DDM_SIZES_DOMAINS]) == 0
           && memcmp(a->lists.borrowed, b->lists.borrowed, whole * s[DDM_SIZES_BORROWED]) == 0
           && memcmp(a->lists.boxes, b->lists.boxes, sizeof(double) * s[DDM_SIZES_BOXES]) == 0;
}

int main(void) {
    static job together[THREADS], alone;
    pthread_t threads[THREADS];
    pthread_attr_t small;
    unsigned state = 12345;
    int wrong = 0;
    for (size_t i = 0; i < AXES * WELLS; i++) {
        state = state * 1103515245u + 12345u;
        points[i] = (state >> 8) % 100000 / 100.0;
    }
    if (pthread_attr_init(&small) || pthread_attr_setstacksize(&small, STACK))
        return 2;
    for (size_t i = 0; i < THREADS; i++) {
        prepare(&together[i], (uint32_t)(1 + i));
        if (pthread_create(&threads[i], &small, work, &together[i]))
            return 2;
    }
    for (size_t i = 0; i < THREADS; i++) {
        pthread_join(threads[i], NULL);
        memset(&alone, 0, sizeof alone);
        prepare(&alone, (uint32_t)(1 + i));
        work(&alone);
        wrong += !same(&together[i], &alone);
        ddm_lists_free(&together[i].lists), ddm_lists_free(&alone.lists);
    }
    printf(wrong ? "threads: %d of the trees differ\n" : "threads: ok\n", wrong);
    return wrong != 0;
}
