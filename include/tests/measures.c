/* overlay_measured_fill and overlay_measured_columns_fill, under the sanitizers: areas and steps that were worked out by hand, beside the answers
 * of the calls that tell none; and where input, room or memory is refused. */
#include "../overlay.h"
#include "checking.h"
#include "squares.h"

#include <stdio.h>
#include <string.h>

enum { SIDE = 262144, ROOM = 1024 };

struct row {
    const char *a, *b;
    int64_t twice_a, twice_b, results[4]; /* twice the areas of union, intersection, difference and symmetric difference */
    uint64_t steps_a, steps_b;
};

static const char *const NOTHING = "POLYGON EMPTY";

static const struct row ROWS[] = {
    {"POLYGON ((0 0, 4 0, 4 4, 0 4, 0 0))", "POLYGON ((2 2, 6 2, 6 6, 2 6, 2 2))", 32, 32, {56, 8, 24, 48}, 6, 6},
    /* A bow tie crosses itself, and has two triangles. */
    {"POLYGON ((0 0, 10 10, 10 0, 0 10, 0 0))", "POLYGON EMPTY", 100, 0, {100, 0, 100, 100}, 6, 0},
    /* Two squares of one layer cancel each other where they overlap. */
    {"POLYGON EMPTY", "MULTIPOLYGON (((0 0, 4 0, 4 4, 0 4, 0 0)), ((2 2, 6 2, 6 6, 2 6, 2 2)))", 0, 48, {48, 0, 0, 48}, 0, 12},
    /* Both triangles are bent where they cross: B has 32 before. */
    {"POLYGON ((0 0, 7 3, 0 5, 0 0))", "POLYGON ((3 -2, 5 6, 1 6, 3 -2))", 35, 33, {53, 15, 20, 38}, 7, 7},
    /* The greatest square that there is. */
    {"POLYGON ((-268435456 -268435456, 268435456 -268435456, 268435456 268435456, -268435456 268435456, -268435456 -268435456))", "POLYGON EMPTY",
     INT64_C(576460752303423488), 0, {INT64_C(576460752303423488), 0, INT64_C(576460752303423488), INT64_C(576460752303423488)}, 4, 0},
};

static const struct overlay_measures GARBAGE = {{-7, 7}, {-7, 7}, -7};

static struct overlay_answer filled(uint32_t call, uint32_t side, uint32_t segments, const char *a, const char *b, uint8_t *room, size_t length,
                                    struct overlay_measures *measures) {
    struct overlay_answer answer = {9, 9, 9, 9, 9};
    *measures = GARBAGE;
    overlay_measured_fill(call, side, segments, (const uint8_t *)a, strlen(a), (const uint8_t *)b, strlen(b), room, length, &answer, measures);
    return answer;
}

static int are_these(const struct overlay_measures *got, const struct row *row, int64_t result) {
    return got->a.twice_area == row->twice_a && got->a.steps == row->steps_a && got->b.twice_area == row->twice_b && got->b.steps == row->steps_b
           && got->twice_area == result;
}

static int are_none(const struct overlay_measures *got) {
    return !got->a.twice_area && !got->a.steps && !got->b.twice_area && !got->b.steps && !got->twice_area;
}

static void rows(void) {
    for (size_t row = 0; row < sizeof ROWS / sizeof *ROWS; row++)
        for (uint32_t call = OVERLAY_UNION; call <= OVERLAY_SYMDIFFERENCE; call++) {
            const char *a = ROWS[row].a, *b = ROWS[row].b;
            uint8_t room[ROOM] = {0}, plain[ROOM] = {0};
            struct overlay_measures measures;
            uint32_t side = overlay_side((const uint8_t *)a, strlen(a), (const uint8_t *)b, strlen(b));
            struct overlay_answer answer = filled(call, side, OVERLAY_SEGMENTS, a, b, room, ROOM, &measures), told;
            overlay_fill(call, side, (const uint8_t *)a, strlen(a), (const uint8_t *)b, strlen(b), plain, ROOM, &told);
            check(answer.status == OVERLAY_ANSWERED && told.status == OVERLAY_ANSWERED && answer.length == told.length, "answers with measures and without");
            check(!memcmp(room, plain, ROOM), "text with measures is that without");
            check(are_these(&measures, &ROWS[row], ROWS[row].results[call]), "measures of texts");
        }
}

/* The squares as columns. */
static const int32_t SQUARE_POINTS[] = {0, 0, 4, 0, 4, 4, 0, 4, 0, 0}, OTHER_POINTS[] = {2, 2, 6, 2, 6, 6, 2, 6, 2, 2};
static const uint32_t RING[] = {0, 5}, ONE[] = {0, 1};
static const struct overlay_columns SQUARE_COLUMNS = {SQUARE_POINTS, 10, RING, 2, ONE, 2, ONE, 2};
static const struct overlay_columns OTHER_COLUMNS = {OTHER_POINTS, 10, RING, 2, ONE, 2, ONE, 2};
static const struct overlay_columns OPEN_COLUMNS = {SQUARE_POINTS, 8, RING, 2, ONE, 2, ONE, 2};

static struct overlay_columns_answer columns_filled(uint32_t call, const struct overlay_columns *a, size_t length, struct overlay_measures *measures) {
    int32_t coordinates[64], plain_coordinates[64];
    uint32_t rings[64], polygons[64], plain_rings[64], plain_polygons[64];
    struct overlay_columns_answer answer = {9, 9, 9, 9, 9, 9, 9}, told;
    *measures = GARBAGE;
    memset(coordinates, 0x7F, sizeof coordinates);
    memset(plain_coordinates, 0x7F, sizeof plain_coordinates);
    overlay_measured_columns_fill(call, SIDE, OVERLAY_SEGMENTS, a, &OTHER_COLUMNS, coordinates, length, rings, 64, polygons, 64, &answer, measures);
    overlay_columns_fill(call, SIDE, OVERLAY_SEGMENTS, a, &OTHER_COLUMNS, plain_coordinates, length, plain_rings, 64, plain_polygons, 64, &told);
    check(!memcmp(&answer, &told, sizeof answer) && !memcmp(coordinates, plain_coordinates, sizeof coordinates), "columns with measures are those without");
    return answer;
}

static void columns(void) {
    struct overlay_measures measures;
    for (uint32_t call = OVERLAY_UNION; call <= OVERLAY_SYMDIFFERENCE; call++) {
        check(columns_filled(call, &SQUARE_COLUMNS, 64, &measures).status == OVERLAY_ANSWERED, "columns with measures");
        check(are_these(&measures, &ROWS[0], ROWS[0].results[call]), "measures of columns");
        check(columns_filled(call, &SQUARE_COLUMNS, 3, &measures).status == OVERLAY_SMALL, "columns with measures in a small room");
        check(are_these(&measures, &ROWS[0], ROWS[0].results[call]), "measures of columns in a small room");
    }
    check(columns_filled(OVERLAY_EDGES, &SQUARE_COLUMNS, 64, &measures).status == OVERLAY_NO_CALL && are_none(&measures), "measures of edges as columns");
    check(columns_filled(OVERLAY_UNION, &OPEN_COLUMNS, 64, &measures).status == OVERLAY_REFUSED && are_none(&measures), "measures of refused columns");
}

static void refusals(void) {
    uint8_t room[ROOM] = {0};
    struct overlay_measures measures;
    struct overlay_answer answer = filled(OVERLAY_INTERSECTION, SIDE, OVERLAY_SEGMENTS, SQUARE, OTHER, room, 10, &measures);
    check(answer.status == OVERLAY_SMALL && answer.length == strlen(TEXTS[1]) && !room[0], "a small room");
    check(are_these(&measures, &ROWS[0], 8), "measures in a small room");
    answer = filled(OVERLAY_EDGES, SIDE, OVERLAY_SEGMENTS, SQUARE, OTHER, room, ROOM, &measures);
    check(answer.status == OVERLAY_NO_CALL && are_none(&measures), "measures of edges");
    answer = filled(OVERLAY_UNION, SIDE, OVERLAY_SEGMENTS, SQUARE, "POLYGON", room, ROOM, &measures);
    check(answer.status == OVERLAY_REFUSED && answer.number == OVERLAY_SYNTAX && answer.part == OVERLAY_LAYER_B && answer.detail == 7 && are_none(&measures),
          "measures of what is no layer");
    answer = filled(OVERLAY_UNION, 15, OVERLAY_SEGMENTS, SQUARE, OTHER, room, ROOM, &measures);
    check(answer.status == OVERLAY_REFUSED && answer.number == OVERLAY_BAD_SIDE && are_none(&measures), "measures over bad tiles");
    answer = filled(OVERLAY_UNION, SIDE, 7, SQUARE, OTHER, room, ROOM, &measures);
    check(answer.status == OVERLAY_REFUSED && answer.number == OVERLAY_TOO_MANY_SEGMENTS && answer.detail == 8 && are_none(&measures),
          "measures of too many segments");
    answer = filled(OVERLAY_UNION, SIDE, 8, NOTHING, NOTHING, room, ROOM, &measures);
    check(answer.status == OVERLAY_ANSWERED && are_none(&measures), "measures of nothing");
}

/* From some request on memory is refused: the room is as it was and nothing is measured, or there are text and measures. */
static void memory(void) {
    long refused = 0;
    for (long count = 0; count < 100000; count++) {
        uint8_t room[ROOM] = {0};
        struct overlay_measures measures;
        granted = count;
        struct overlay_answer answer = filled(OVERLAY_UNION, SIDE, OVERLAY_SEGMENTS, SQUARE, OTHER, room, ROOM, &measures);
        granted = -1;
        if (answer.status == OVERLAY_ANSWERED) {
            check(are_these(&measures, &ROWS[0], 56) && !memcmp(room, TEXTS[0], strlen(TEXTS[0])), "measures with just enough memory");
            check(refused > 0, "memory for measures was refused");
            printf("measures: %ld requests refused in turn\n", refused);
            return;
        }
        refused++;
        check(answer.status == OVERLAY_NO_MEMORY && answer.number == OVERLAY_OUT_OF_MEMORY && !room[0] && are_none(&measures), "measures without memory");
    }
    check(0, "measures with any memory");
}

int main(void) {
    rows();
    columns();
    refusals();
    memory();
    return failures != 0;
}
