/* Two squares that overlap, and the text of each call on them, worked out by hand. */
#ifndef SQUARES_H
#define SQUARES_H

static const char *const SQUARE = "POLYGON ((0 0, 4 0, 4 4, 0 4, 0 0))";
static const char *const OTHER = "POLYGON ((2 2, 6 2, 6 6, 2 6, 2 2))";

static const char *const TEXTS[5] = {
    "MULTIPOLYGON (((0 0, 4 0, 4 2, 6 2, 6 6, 2 6, 2 4, 0 4, 0 0)))\n",
    "MULTIPOLYGON (((2 2, 4 2, 4 4, 2 4, 2 2)))\n",
    "MULTIPOLYGON (((0 0, 4 0, 4 2, 2 2, 2 4, 0 4, 0 0)))\n",
    "MULTIPOLYGON (((0 0, 4 0, 4 2, 2 2, 2 4, 0 4, 0 0)), ((2 4, 4 4, 4 2, 6 2, 6 6, 2 6, 2 4)))\n",
    "0 0 0 4 1 0\n0 0 4 0 1 0\n0 4 2 4 1 0\n2 2 2 4 0 1\n2 2 4 2 0 1\n2 4 2 6 0 1\n2 4 4 4 1 0\n2 6 6 6 0 1\n4 0 4 2 1 0\n"
    "4 2 4 4 1 0\n4 2 6 2 0 1\n6 2 6 6 0 1\n",
};
#endif
