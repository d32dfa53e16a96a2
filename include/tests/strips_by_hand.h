/* Maps by strips whose lists were worked out by hand: one of two layers by four strips, directed edges by three, and polygons out of order. */
#ifndef STRIPS_BY_HAND_H
#define STRIPS_BY_HAND_H

#include "../overlay.h"

#define COUNT(list) (sizeof(list) / sizeof *(list))

/* What an answer is before a call. */
static const struct overlay_strip_answer GARBAGE = {9, 9, 9, 9, 9, 9, 9};

/* ---- two layers by the cuts 4, 6 and 8; a list has the number of its strip behind its name */

static const int32_t POINTS_A[] = {0, 0, 12, 0, 12, 6, 0, 6, 0, 0, 1, 2, 8, 1, 8, 4, 1, 3, 1, 2};
static const int32_t POINTS_B[] = {3, -2, 5, -2, 5, 8, 3, 8, 3, -2};
static const uint32_t RINGS_A[] = {0, 5, 10}, RINGS_B[] = {0, 5}, TWO[] = {0, 2}, ONE[] = {0, 1};
static const struct overlay_columns A = {POINTS_A, 20, RINGS_A, 3, TWO, 2, ONE, 2};
static const struct overlay_columns B = {POINTS_B, 10, RINGS_B, 2, ONE, 2, ONE, 2};
static const int32_t CUTS[] = {4, 6, 8};

static const struct overlay_line LINES_OF_A[] = {
    {0, 0, 0, 0, 12, 0}, {2, 0, 0, 6, 12, 6}, {3, 0, 0, 0, 0, 6}, {4, 0, 1, 2, 8, 1}, {6, 0, 1, 3, 8, 4}, {7, 0, 1, 2, 1, 3},
    {0, 0, 0, 0, 12, 0}, {2, 0, 0, 6, 12, 6}, {4, 0, 1, 2, 8, 1}, {6, 0, 1, 3, 8, 4},
    {0, 0, 0, 0, 12, 0}, {2, 0, 0, 6, 12, 6}, {4, 0, 1, 2, 8, 1}, {6, 0, 1, 3, 8, 4},
    {0, 0, 0, 0, 12, 0}, {1, 0, 12, 0, 12, 6}, {2, 0, 0, 6, 12, 6}, {4, 0, 1, 2, 8, 1}, {5, 0, 8, 1, 8, 4}, {6, 0, 1, 3, 8, 4},
};
static const struct overlay_line LINES_OF_B[] = {
    {8, 1, 3, -2, 5, -2}, {10, 1, 3, 8, 5, 8}, {11, 1, 3, -2, 3, 8},
    {8, 1, 3, -2, 5, -2}, {9, 1, 5, -2, 5, 8}, {10, 1, 3, 8, 5, 8},
};
static const uint32_t BEGINS_OF_A[] = {0, 6, 10, 14, 20}, BEGINS_OF_B[] = {0, 3, 6, 6, 6};

static const struct overlay_counted INNER_0[] = {
    {0, 0, 0, 6, 1, 0}, {0, 0, 3, 0, 1, 0}, {0, 6, 3, 6, 1, 0}, {1, 2, 1, 3, 1, 0}, {1, 2, 3, 2, 1, 0}, {1, 3, 3, 3, 1, 0},
    {3, -2, 3, 0, 0, 1}, {3, 0, 3, 2, 0, 1}, {3, 2, 3, 3, 0, 1}, {3, 3, 3, 6, 0, 1}, {3, 6, 3, 8, 0, 1},
};
static const struct overlay_counted INNER_1[] = {{5, -2, 5, 0, 0, 1}, {5, 0, 5, 1, 0, 1}, {5, 1, 5, 4, 0, 1}, {5, 4, 5, 6, 0, 1}, {5, 6, 5, 8, 0, 1}};
static const struct overlay_counted INNER_3[] = {{8, 1, 8, 4, 1, 0}, {12, 0, 12, 6, 1, 0}};
static const struct overlay_open RIGHT_0[] = {{0, 0, 1, 3, 0}, {2, 0, 1, 3, 6}, {4, 0, 1, 3, 2}, {6, 0, 1, 3, 3}, {8, 1, 1, 3, -2}, {10, 1, 1, 3, 8}};
static const struct overlay_open LEFT_1[] = {{0, 0, 1, 5, 0}, {2, 0, 1, 5, 6}, {4, 0, 1, 5, 1}, {6, 0, 1, 5, 4}, {8, 1, 1, 5, -2}, {10, 1, 1, 5, 8}};
static const struct overlay_open NO_PIXELS[] = {{0, 0, 0, 0, 0}, {2, 0, 0, 0, 0}, {4, 0, 0, 0, 0}, {6, 0, 0, 0, 0}};
static const struct overlay_open LEFT_3[] = {{0, 0, 1, 12, 0}, {2, 0, 1, 12, 6}, {4, 0, 1, 8, 1}, {6, 0, 1, 8, 4}};
static const struct overlay_carried FROM_3[] = {{0, 12, 0}, {2, 12, 6}, {4, 8, 1}, {6, 8, 4}};
static const struct overlay_carried FROM_1[] = {{0, 5, 0}, {2, 5, 6}, {4, 5, 1}, {6, 5, 4}, {8, 5, -2}, {10, 5, 8}};
static const struct overlay_counted ACROSS_1[] = {{5, 0, 12, 0, 1, 0}, {5, 1, 8, 1, 1, 0}, {5, 4, 8, 4, 1, 0}, {5, 6, 12, 6, 1, 0}};
static const struct overlay_counted ACROSS_0[] = {{3, -2, 5, -2, 0, 1}, {3, 0, 5, 0, 1, 0}, {3, 2, 5, 1, 1, 0},
                                                  {3, 3, 5, 4, 1, 0},   {3, 6, 5, 6, 1, 0}, {3, 8, 5, 8, 0, 1}};

static const struct overlay_directed BOTH_0[] = {{3, 0, 5, 0}, {3, 2, 3, 0}, {3, 3, 5, 4}, {3, 6, 3, 3}, {5, 1, 3, 2}, {5, 6, 3, 6}};
static const struct overlay_directed BOTH_1[] = {{5, 0, 5, 1}, {5, 4, 5, 6}};
static const struct overlay_directed WITHOUT_0[] = {{0, 0, 3, 0}, {0, 6, 0, 0}, {1, 2, 1, 3}, {1, 3, 3, 3}, {3, 0, 3, 2}, {3, 2, 1, 2}, {3, 3, 3, 6}, {3, 6, 0, 6}};
static const struct overlay_directed WITHOUT_1[] = {{5, 0, 12, 0}, {5, 1, 5, 0}, {5, 4, 8, 4}, {5, 6, 5, 4}, {8, 1, 5, 1}, {12, 6, 5, 6}};
static const struct overlay_directed WITHOUT_3[] = {{8, 4, 8, 1}, {12, 0, 12, 6}};

/* ---- ranges of strips */

/* Strips 0 to 2 have the columns up to 9, 10 to 19, and the others. In strip 0 a square, and one in a hole of a rectangle that reaches into strip 1; there
 * another square, and a triangle that touches the rectangle; and a rectangle below, which has columns of all strips. */
static const int32_t BORDERS[] = {10, 20};
static const struct overlay_directed ALL[] = {
    {1, 1, 3, 1},     {1, 3, 1, 1},     {2, -8, 25, -8},  {2, -2, 2, -8},   {3, 1, 3, 3},     {3, 3, 1, 3},     {5, 0, 15, 0},
    {5, 10, 5, 0},    {6, 2, 6, 8},     {6, 8, 9, 8},     {7, 4, 8, 4},     {7, 5, 7, 4},     {8, 4, 8, 5},     {8, 5, 7, 5},
    {9, 2, 6, 2},     {9, 8, 9, 2},     {12, 12, 14, 12}, {12, 14, 12, 12}, {14, 12, 14, 14}, {14, 14, 12, 14}, {15, 0, 15, 10},
    {15, 10, 5, 10},  {15, 10, 17, 12}, {15, 14, 15, 10}, {17, 12, 15, 14}, {25, -8, 25, -2}, {25, -2, 2, -2},
};
static const struct overlay_directed KNOWN_0[] = {
    {1, 1, 3, 1}, {1, 3, 1, 1}, {2, -8, 25, -8}, {2, -2, 2, -8}, {3, 1, 3, 3}, {3, 3, 1, 3}, {5, 0, 15, 0}, {5, 10, 5, 0}, {6, 2, 6, 8},
    {6, 8, 9, 8}, {7, 4, 8, 4}, {7, 5, 7, 4},    {8, 4, 8, 5},   {8, 5, 7, 5}, {9, 2, 6, 2}, {9, 8, 9, 2},  {15, 10, 5, 10}, {25, -2, 2, -2},
};
static const struct overlay_directed KNOWN_1[] = {
    {2, -8, 25, -8}, {5, 0, 15, 0},   {12, 12, 14, 12}, {12, 14, 12, 12}, {14, 12, 14, 14}, {14, 14, 12, 14},
    {15, 0, 15, 10}, {15, 10, 5, 10}, {15, 10, 17, 12}, {15, 14, 15, 10}, {17, 12, 15, 14}, {25, -2, 2, -2},
};
static const struct overlay_directed KNOWN_2[] = {{2, -8, 25, -8}, {25, -8, 25, -2}, {25, -2, 2, -2}};
static const struct overlay_directed CLOSED_0[] = {{1, 1, 3, 1}, {1, 3, 1, 1}, {3, 1, 3, 3}, {3, 3, 1, 3},
                                                   {7, 4, 8, 4}, {7, 5, 7, 4}, {8, 4, 8, 5}, {8, 5, 7, 5}};
static const struct overlay_directed WAITING_0[] = {{2, -8, 25, -8}, {2, -2, 2, -8}, {5, 0, 15, 0}, {5, 10, 5, 0},   {6, 2, 6, 8},
                                                    {6, 8, 9, 8},    {9, 2, 6, 2},   {9, 8, 9, 2},  {15, 10, 5, 10}, {25, -2, 2, -2}};
static const struct overlay_directed CLOSED_1[] = {{12, 12, 14, 12}, {12, 14, 12, 12}, {14, 12, 14, 14}, {14, 14, 12, 14}};
static const struct overlay_directed WAITING_1[] = {{15, 0, 15, 10}, {15, 10, 17, 12}, {15, 14, 15, 10}, {17, 12, 15, 14}};
static const struct overlay_directed WAITING_2[] = {{25, -8, 25, -2}};
static const struct overlay_directed CLOSED_BOTH[] = {{5, 0, 15, 0},   {5, 10, 5, 0},    {6, 2, 6, 8},     {6, 8, 9, 8},     {9, 2, 6, 2},    {9, 8, 9, 2},
                                                      {15, 0, 15, 10}, {15, 10, 5, 10},  {15, 10, 17, 12}, {15, 14, 15, 10}, {17, 12, 15, 14}};
static const struct overlay_directed WAITING_BOTH[] = {{2, -8, 25, -8}, {2, -2, 2, -8}, {25, -2, 2, -2}};
static const struct overlay_directed CLOSED_LAST[] = {{2, -8, 25, -8}, {2, -2, 2, -8}, {25, -8, 25, -2}, {25, -2, 2, -2}};

/* ---- polygons in order */

/* A square with a hole, and a triangle; and of another list three triangles: the points of one begin the square's shell, and one has its first point. */
static const int32_t MADE_POINTS[] = {
    0, 0, 8, 0, 8, 8, 0, 8, 0, 0, 2, 2, 2, 4, 4, 4, 2, 2, 5, 20, 7, 20, 6, 22, 5, 20,
    0, 0, 8, 0, 8, 8, 0, 0, -3, 7, -1, 7, -2, 9, -3, 7, 0, 0, 3, -9, 6, -9, 0, 0,
};
static const uint32_t MADE_RINGS[] = {0, 5, 9, 13, 17, 21, 25}, MADE_POLYGONS[] = {0, 2, 3, 4, 5, 6};
static const struct overlay_columns MADE = {MADE_POINTS, COUNT(MADE_POINTS), MADE_RINGS, COUNT(MADE_RINGS), MADE_POLYGONS, COUNT(MADE_POLYGONS), NULL, 0};
static const int32_t WRITTEN_POINTS[] = {
    -3, 7, -1, 7, -2, 9, -3, 7, 0, 0, 3, -9, 6, -9, 0, 0, 0, 0, 8, 0, 8, 8, 0, 0,
    0, 0, 8, 0, 8, 8, 0, 8, 0, 0, 2, 2, 2, 4, 4, 4, 2, 2, 5, 20, 7, 20, 6, 22, 5, 20,
};
static const uint32_t WRITTEN_RINGS[] = {0, 4, 8, 12, 17, 21, 25}, WRITTEN_POLYGONS[] = {0, 1, 2, 3, 5, 6};
#endif
