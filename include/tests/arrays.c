/* overlay_arrays, under the sanitizers, which also see what is not let go: the columns of overlay_columns_fill, in memory of their own,
 * for layers whose result is smaller and larger than they are, for refused ones, and where each request for memory is refused. */
#include "../overlay.h"
#include "checking.h"

#include <stdio.h>
#include <string.h>

enum { BARS = 20, COORDINATES = 20 * BARS * (BARS + 1) };

/* Bars of a unit, two units apart, upright or level: a feature each. */
struct bars {
    int32_t coordinates[10 * BARS];
    uint32_t rings[BARS + 1], polygons[BARS + 1], features[BARS + 1];
    struct overlay_columns columns;
};

static void make_bars(struct bars *bars, int upright) {
    for (uint32_t k = 0; k < BARS; k++) {
        int32_t low = 2 * (int32_t)k, high = low + 1, far = 2 * BARS;
        int32_t corners[10] = {low, -1, high, -1, high, far, low, far, low, -1};
        for (int at = 0; at < 10; at++)
            bars->coordinates[10 * k + (size_t)at] = corners[upright ? at : at ^ 1];
    }
    for (uint32_t k = 0; k <= BARS; k++) {
        bars->rings[k] = 5 * k;
        bars->polygons[k] = bars->features[k] = k;
    }
    struct overlay_columns columns = {bars->coordinates, 10 * BARS, bars->rings, BARS + 1, bars->polygons, BARS + 1, bars->features, BARS + 1};
    bars->columns = columns;
}

static int has_none(const struct overlay_owned_columns *owned) {
    return !owned->coordinates && !owned->rings && !owned->polygons && !owned->coordinates_length && !owned->rings_length
           && !owned->polygons_length;
}

/* Whether these are the columns that the call with rooms answers. */
static int are_filled(const struct overlay_owned_columns *owned, uint32_t call, const struct overlay_columns *a, const struct overlay_columns *b) {
    static int32_t coordinates[COORDINATES];
    static uint32_t rings[COORDINATES], polygons[COORDINATES];
    struct overlay_columns_answer answer;
    overlay_columns_fill(call, 262144, OVERLAY_SEGMENTS, a, b, coordinates, COORDINATES, rings, COORDINATES, polygons, COORDINATES, &answer);
    return answer.status == OVERLAY_ANSWERED && owned->coordinates_length == answer.coordinates && owned->rings_length == answer.rings
           && owned->polygons_length == answer.polygons && !memcmp(owned->coordinates, coordinates, owned->coordinates_length * sizeof *coordinates)
           && !memcmp(owned->rings, rings, owned->rings_length * sizeof *rings)
           && !memcmp(owned->polygons, polygons, owned->polygons_length * sizeof *polygons);
}

/* Crossed bars have 400 squares in common, ten times as much as goes in, and a union of one polygon. */
static void results(const struct overlay_columns *a, const struct overlay_columns *b) {
    static const size_t POLYGONS[4] = {2, BARS * BARS + 1, BARS * (BARS + 1) + 1, 2 * BARS * (BARS + 1) + 1};
    for (uint32_t call = OVERLAY_UNION; call <= OVERLAY_SYMDIFFERENCE; call++) {
        struct overlay_owned_columns owned;
        struct overlay_columns_answer answer;
        overlay_arrays(call, OVERLAY_SEGMENTS, a, b, &owned, &answer);
        check(answer.status == OVERLAY_ANSWERED, "status of arrays");
        check(owned.polygons_length == POLYGONS[call], "how many polygons arrays have");
        check(are_filled(&owned, call, a, b), "arrays are the columns of the call with rooms");
        overlay_free(&owned);
        check(has_none(&owned), "freed arrays");
        overlay_free(&owned);
    }
}

static void refusals(const struct overlay_columns *a) {
    struct overlay_owned_columns owned;
    struct overlay_columns_answer answer;
    overlay_arrays(OVERLAY_EDGES, OVERLAY_SEGMENTS, a, a, &owned, &answer);
    check(answer.status == OVERLAY_NO_CALL && has_none(&owned), "arrays of edges");
    overlay_arrays(OVERLAY_UNION, 4 * BARS, a, a, &owned, &answer);
    check(answer.status == OVERLAY_REFUSED && answer.number == OVERLAY_TOO_MANY_SEGMENTS && answer.detail == 8 * BARS && has_none(&owned),
          "arrays of too many segments");
}

/* From some request on memory is refused: there is nothing, or there are the columns. */
static void memory(const struct overlay_columns *a, const struct overlay_columns *b) {
    long refused = 0;
    for (long count = 0; count < 100000; count++) {
        struct overlay_owned_columns owned;
        struct overlay_columns_answer answer;
        granted = count;
        overlay_arrays(OVERLAY_INTERSECTION, OVERLAY_SEGMENTS, a, b, &owned, &answer);
        granted = -1;
        if (answer.status == OVERLAY_ANSWERED) {
            check(are_filled(&owned, OVERLAY_INTERSECTION, a, b), "arrays with just enough memory");
            overlay_free(&owned);
            printf("arrays: %ld requests refused in turn\n", refused);
            return;
        }
        refused++;
        check(answer.status == OVERLAY_NO_MEMORY && answer.number == OVERLAY_OUT_OF_MEMORY && answer.part == OVERLAY_RUN && has_none(&owned),
              "arrays without memory");
    }
    check(0, "arrays with any memory");
}

int main(void) {
    static struct bars upright, level;
    make_bars(&upright, 1);
    make_bars(&level, 0);
    results(&upright.columns, &level.columns);
    refusals(&upright.columns);
    memory(&upright.columns, &level.columns);
    return failures != 0;
}
