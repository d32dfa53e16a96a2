/* Overlay of polygon layers on the integer grid, from memory to memory, in C99 and C++.
 *
 * A layer is a text of POLYGON and MULTIPOLYGON geometries with whole coordinates from -268435456 to 268435456, in grid units,
 * and has at most 268435456 bytes; all layers together have at most 1048576 segments, or as many as a call says, and each text
 * then may have 256 bytes for each of them where that is more, up to 4294967295. It needs no 0 at its end.
 *
 * Each call runs on the calling thread alone and keeps nothing, so any number of threads may call at once. It takes memory by
 * malloc, and has let all of it go when it returns, but for what overlay_text and overlay_arrays give to the caller. All that is
 * passed stays the caller's: no call keeps a pointer.
 *
 * A call reads layers and lists (of cuts, lines, edges and the like). It writes buffers and an answer, and some calls write measures.
 * Every call rests on these conditions, and none can test them:
 *   - No pointer is NULL, neither one that is passed nor one in a struct. That holds where the length is 0, too: any other aligned pointer
 *     will do there, and nothing is read or written by it. (The data() of an empty std::vector may be NULL.)
 *   - Each pointer is aligned for its type, and is to as many items as its length says.
 *   - A buffer that is written overlaps no layer, no list and no struct that is passed, no other buffer, and no answer. Neither does an
 *     answer, nor do measures. They may touch, one ending where another begins. Layers and lists may overlap one another.
 *   - While a call runs, nothing else writes what it reads, and nothing else reads or writes what it writes.
 *   - No call is made from a signal handler, or in the forked child of a process with several threads.
 *
 * include/example.c is a whole program. An installed library is linked by `pkg-config --cflags --libs overlay`; in a clone link
 * with crates/overlay_c/out/liboverlay_c.a and the kit's c/liblibc_c.a, which calls malloc.
 */
#ifndef OVERLAY_H
#define OVERLAY_H

#include <stddef.h>
#include <stdint.h>
#include <stdlib.h>
#include <string.h>

/* The release that this header came with. */
#define OVERLAY_VERSION "2.0.0"

/* The version of the calls that are declared here. Programs that may meet another library compare overlay_version() with it. */
#define OVERLAY_CALLS_VERSION 10u

#ifdef __cplusplus
extern "C" {
#endif

/* What to compute. The first four answer one MULTIPOLYGON line, the last one a line for each edge. */
enum overlay_call {
    OVERLAY_UNION = 0,         /* the points of either layer */
    OVERLAY_INTERSECTION = 1,  /* the points of both layers */
    OVERLAY_DIFFERENCE = 2,    /* the points of the first layer and not of the second */
    OVERLAY_SYMDIFFERENCE = 3, /* the points of just one of the layers */
    OVERLAY_EDGES = 4          /* `x1 y1 x2 y2 a b` for each edge of both layers after rounding, with its count in either layer */
};

/* How a call ended. */
enum overlay_status {
    OVERLAY_ANSWERED = 0,
    OVERLAY_NO_MEMORY = 1,
    OVERLAY_NO_CALL = 2, /* what to compute is none of the above; faces of more than 64 layers; no such strip, or layer of strips */
    OVERLAY_REFUSED = 3, /* a layer, the tile side, a list of a strip, or the number of features, segments, tiles or ids is refused */
    OVERLAY_SMALL = 4    /* there is a text, and it doesn't fit into the buffer */
};

/* Why an input is refused. */
enum overlay_refusal {
    OVERLAY_LAYER_TOO_LONG = 0,    /* more than 268435456 bytes, and than 256 for each segment of a greater limit */
    OVERLAY_SYNTAX = 1,            /* no layer text: detail is the length of its longest front that some layer text begins with */
    OVERLAY_NUMBER_RANGE = 2,      /* a coordinate is out of range: detail is the byte where the first such number begins */
    OVERLAY_SHORT_RING = 3,        /* fewer than four points: detail is the byte where the ring opens */
    OVERLAY_OPEN_RING = 4,         /* the last point isn't the first: detail is the byte where the ring opens */
    OVERLAY_TOO_MANY_SEGMENTS = 5, /* more than 1048576, or than was said: detail is their number */
    OVERLAY_BAD_SIDE = 6,          /* the tile side is not from 16 to 33554432 */
    OVERLAY_TOO_MANY_TILES = 8,    /* more than 65536 over the box of all layers: detail is their number */
    OVERLAY_OUT_OF_MEMORY = 10,    /* with OVERLAY_NO_MEMORY alone */
    OVERLAY_TOO_MANY_IDS = 12,     /* of faces: all rows together have more than was said; detail is their number */
    OVERLAY_COORDINATE_MISSING = 13, /* of columns: an x without its y */
    OVERLAY_FEATURE_OFFSET = 14,     /* of columns: an offset of features falls or passes the end; detail is its number */
    OVERLAY_POLYGON_OFFSET = 15,     /* likewise of polygons */
    OVERLAY_RING_OFFSET = 16,        /* likewise of rings */
    OVERLAY_UNPAIRED = 17,           /* of pairs: a layer has more features than the other; detail is the number of the first one without another */
    OVERLAY_BAD_ITEM = 18,           /* of strips, edges: an item is none of its list, or isn't behind the one before it; detail is its number there */
    OVERLAY_CONTRADICTION = 19       /* lists of strips that contradict each other, edges that don't close, polygons of one shell; detail is such an item's number */
};

/* What is refused of two layers. Of faces it is the number of a layer, from 0 on, or the count of layers for the run. */
enum overlay_part {
    OVERLAY_LAYER_A = 0, /* the first layer */
    OVERLAY_LAYER_B = 1, /* the second layer */
    OVERLAY_RUN = 2      /* both together, the side, or memory */
};

/* How many bytes are enough for the words of every answer. */
#define OVERLAY_WORDS 64

/* What a call answers. Its memory is the caller's, and all fields are written. Fields that don't belong to the status are 0. */
struct overlay_answer {
    uint64_t length; /* OVERLAY_ANSWERED, OVERLAY_SMALL: of the text, in bytes */
    uint64_t detail; /* OVERLAY_REFUSED: a byte of the layer, counted from 0, or a number of segments, tiles or ids */
    uint32_t status; /* how the call ended: an overlay_status */
    uint32_t number; /* OVERLAY_REFUSED, OVERLAY_NO_MEMORY: why, an overlay_refusal */
    uint32_t part;   /* OVERLAY_REFUSED, OVERLAY_NO_MEMORY: what, an overlay_part */
};

/* Puts a text at the beginning of a buffer, and tells its length. Where the status is not OVERLAY_ANSWERED the buffer is as it was;
 * behind the text it is so always. The texts are those of the program, line feed included, with no 0 at their end.
 *
 *   call                    what to compute: an overlay_call
 *   side                    the side of a tile, in grid units, 16 to 33554432; it has no influence on the text
 *   a, a_length             the first layer, read alone, and its length in bytes
 *   b, b_length             the second layer, likewise; it may be the same bytes as the first
 *   buffer, buffer_length   where the text goes, and how many bytes there may be written
 *   answer                  where the answer goes */
void overlay_fill(uint32_t call, uint32_t side, const uint8_t *a, size_t a_length, const uint8_t *b, size_t b_length,
                  uint8_t *buffer, size_t buffer_length, struct overlay_answer *answer);

/* The same for layers that together have at most so many segments, from 1 to 4294967295. The number has no influence on the text;
 * ten million segments of parcels take the program some 740 MB of memory. */
void overlay_fill_within(uint32_t call, uint32_t side, uint32_t segments, const uint8_t *a, size_t a_length, const uint8_t *b,
                         size_t b_length, uint8_t *buffer, size_t buffer_length, struct overlay_answer *answer);

/* The same where features that overlap don't cancel: a point lies in a layer where one of its geometries at least covers it. So the union of
 * a layer and an empty one has all that the layer's geometries cover. OVERLAY_EDGES is OVERLAY_NO_CALL. */
void overlay_covered_fill(uint32_t call, uint32_t side, uint32_t segments, const uint8_t *a, size_t a_length, const uint8_t *b,
                          size_t b_length, uint8_t *buffer, size_t buffer_length, struct overlay_answer *answer);

/* What became of a layer that was rounded with another one. */
struct overlay_layer_measures {
    int64_t twice_area; /* twice the area of its points by parity, in squares of the grid */
    uint64_t steps;     /* how many steps the routes of its segments have: the sum of its counts in the edges */
};

/* What became of both layers, and the area of the result. Where the status is neither OVERLAY_ANSWERED nor OVERLAY_SMALL all is 0. */
struct overlay_measures {
    struct overlay_layer_measures a;
    struct overlay_layer_measures b;
    int64_t twice_area; /* twice the area of the result */
};

/* overlay_fill_within for an operation, which tells areas too; OVERLAY_EDGES is OVERLAY_NO_CALL. A layer whose area by parity isn't the sum of
 * the areas of its polygons has polygons that overlap or cross themselves, or segments that were bent.
 *
 *   measures            where areas and steps go */
void overlay_measured_fill(uint32_t call, uint32_t side, uint32_t segments, const uint8_t *a, size_t a_length, const uint8_t *b,
                           size_t b_length, uint8_t *buffer, size_t buffer_length, struct overlay_answer *answer,
                           struct overlay_measures *measures);

/* Tells the length alone (never OVERLAY_SMALL), of the parameters of overlay_fill. The text is made for that and let go, so this takes as
 * long as overlay_fill; to call that first with a buffer of a guessed size, and again where it was too small, is cheaper. */
void overlay_size(uint32_t call, uint32_t side, const uint8_t *a, size_t a_length, const uint8_t *b, size_t b_length,
                  struct overlay_answer *answer);

/* A layer of faces: its text, and how many bytes that has. */
struct overlay_layer {
    const uint8_t *bytes;
    size_t length;
};

/* The most layers that faces may have. */
#define OVERLAY_MOST_LAYERS 64

/* What the program says where no limit is given: the most segments of all layers together, and the most ids of all rows together. */
#define OVERLAY_SEGMENTS 1048576u
#define OVERLAY_IDS 268435456u

/* Puts the text of the faces of layers at the beginning of a buffer, and tells its length: which features cover which part of the
 * plane, a line for each set of features that covers some points together. A line is twice the area of these points, the numbers
 * of the features of each layer, counted from 1 in the layer's text and with commas between, and the points as a MULTIPOLYGON, all
 * with tabs between. The features of one layer may overlap. Buffer, status and text are as of overlay_fill.
 *
 *   side                    the side of a tile, in grid units, 16 to 33554432; it has no influence on the text
 *   segments                the most segments of all layers together; it has no influence on the text
 *   ids                     the most features that all lines may name together, which bounds the text; it has no influence on it
 *   layers, count           the layers, and how many there are: at most OVERLAY_MOST_LAYERS
 *   buffer, buffer_length   where the text goes, and how many bytes there may be written
 *   answer                  where the answer goes */
void overlay_faces_fill(uint32_t side, uint32_t segments, uint64_t ids, const struct overlay_layer *layers, size_t count,
                        uint8_t *buffer, size_t buffer_length, struct overlay_answer *answer);

/* Tells the length alone (never OVERLAY_SMALL), of the same parameters, as overlay_size does. */
void overlay_faces_size(uint32_t side, uint32_t segments, uint64_t ids, const struct overlay_layer *layers, size_t count,
                        struct overlay_answer *answer);

/* Returns the tile side for these layers, as overlay_side does for two, or 262144 where they are more than OVERLAY_MOST_LAYERS. */
uint32_t overlay_faces_side(const struct overlay_layer *layers, size_t count);

/* A layer as columns, in the layout of GeoArrow's MultiPolygon: features, their polygons, their rings, their points. An offset says where a
 * list begins in the next level; there is one more of them than there are lists, and none falls or passes the end of that level. The lists that
 * the features' offsets don't reach have no other meaning, so that slices of longer columns will do; but each call reads all offsets that it is
 * handed, so that slices of all columns take less time. Rings are closed: their last point is their first. */
struct overlay_columns {
    const int32_t *coordinates; /* x y x y .., in grid units */
    size_t coordinates_length;
    const uint32_t *rings; /* where each ring begins among the points */
    size_t rings_length;
    const uint32_t *polygons; /* where each polygon begins among the rings */
    size_t polygons_length;
    const uint32_t *features; /* where each feature begins among the polygons */
    size_t features_length;
};

/* What a call on columns answers. All fields are written; those that don't belong to the status are 0. The words of a number are those of
 * overlay_refusal; 2, 3 and 4 count points or rings in their column, from 0 on. */
struct overlay_columns_answer {
    uint64_t coordinates; /* OVERLAY_ANSWERED, OVERLAY_SMALL: how many coordinates the result has */
    uint64_t rings;       /* how many offsets of rings */
    uint64_t polygons;    /* how many offsets of polygons */
    uint64_t detail;      /* OVERLAY_REFUSED: the number of a point, a ring, an offset or a feature, or a number of segments or tiles */
    uint32_t status;      /* how the call ended: an overlay_status */
    uint32_t number;      /* OVERLAY_REFUSED, OVERLAY_NO_MEMORY: why, an overlay_refusal */
    uint32_t part;        /* OVERLAY_REFUSED, OVERLAY_NO_MEMORY: what, an overlay_part */
};

/* Puts the result of an operation on two layers of columns, as columns too, at the beginning of three buffers, and tells their lengths: the
 * coordinates of closed rings, shells before their holes, where each ring and where each polygon begins. They are the polygons whose line
 * overlay_fill writes. Where one buffer is too small, or the status is not OVERLAY_ANSWERED, all buffers are as they were; behind the columns they
 * are so always.
 *
 *   call                what to compute: an overlay_call, but for OVERLAY_EDGES
 *   side, segments      as of overlay_fill_within
 *   a, b                the layers; they may be the same
 *   coordinates, rings, polygons, and their lengths   where the columns go, and how many numbers there may be written
 *   answer              where the answer goes */
void overlay_columns_fill(uint32_t call, uint32_t side, uint32_t segments, const struct overlay_columns *a, const struct overlay_columns *b,
                          int32_t *coordinates, size_t coordinates_length, uint32_t *rings, size_t rings_length, uint32_t *polygons,
                          size_t polygons_length, struct overlay_columns_answer *answer);

/* overlay_columns_fill, which tells areas too, as overlay_measured_fill does. */
void overlay_measured_columns_fill(uint32_t call, uint32_t side, uint32_t segments, const struct overlay_columns *a,
                                   const struct overlay_columns *b, int32_t *coordinates, size_t coordinates_length, uint32_t *rings,
                                   size_t rings_length, uint32_t *polygons, size_t polygons_length, struct overlay_columns_answer *answer,
                                   struct overlay_measures *measures);

/* Puts the results of an operation on each feature of a layer and the feature with the same number of another layer, which has as many, at
 * the beginning of four buffers, as columns with a feature for each pair: features tells where each result begins among the polygons, and where
 * the last one ends. The result of a pair is what overlay_columns_fill answers on these two features alone, and needs no tile side; answer
 * doesn't tell the length of features, which is 1 more than there are pairs. Layers, buffers and status are as of overlay_columns_fill.
 *
 *   segments            the most segments of both layers, with all their features */
void overlay_pairs_fill(uint32_t call, uint32_t segments, const struct overlay_columns *a, const struct overlay_columns *b, int32_t *coordinates,
                        size_t coordinates_length, uint32_t *rings, size_t rings_length, uint32_t *polygons, size_t polygons_length,
                        uint32_t *features, size_t features_length, struct overlay_columns_answer *answer);

/* Returns the tile side for two layers of columns, as overlay_side does for two texts: 262144 where one is refused. */
uint32_t overlay_columns_side(const struct overlay_columns *a, const struct overlay_columns *b);

/* Where the faces of layers go as columns, and how many numbers there may be written. */
struct overlay_face_buffers {
    int32_t *coordinates; /* x y x y .. of closed rings, shells before their holes */
    size_t coordinates_length;
    uint32_t *rings; /* where each ring begins among the points */
    size_t rings_length;
    uint32_t *polygons; /* where each polygon begins among the rings */
    size_t polygons_length;
    uint32_t *rows; /* where each row begins among the polygons */
    size_t rows_length;
    int64_t *twice_areas; /* twice the area of each row, in squares of the grid */
    size_t twice_areas_length;
    uint32_t *ids; /* the numbers of the features that the rows have, counted from 0 in their layer */
    size_t ids_length;
    uint32_t *lists; /* where each list begins among the ids: the first layer's list of each row, then the second layer's of each row, and so on */
    size_t lists_length;
};

/* What a call on faces as columns answers. All fields are written; those that don't belong to the status are 0. */
struct overlay_faces_answer {
    uint64_t coordinates; /* OVERLAY_ANSWERED, OVERLAY_SMALL: how many numbers the column of this name has */
    uint64_t rings;
    uint64_t polygons;
    uint64_t rows;
    uint64_t twice_areas; /* that is how many rows there are */
    uint64_t ids;
    uint64_t lists;
    uint64_t detail; /* OVERLAY_REFUSED: the number of a point, a ring or an offset, or a number of segments, tiles or ids */
    uint32_t status; /* how the call ended: an overlay_status */
    uint32_t number; /* OVERLAY_REFUSED, OVERLAY_NO_MEMORY: why, an overlay_refusal */
    uint32_t part;   /* OVERLAY_REFUSED, OVERLAY_NO_MEMORY: what: the number of a layer, from 0 on, or the count of layers for the run */
};

/* Puts the faces of layers of columns, as columns too, at the beginning of seven buffers, and tells their lengths. Their rows are those whose
 * lines overlay_faces_fill writes of the same features, in the same order. A column of offsets has one number more than there are lists. Of
 * the layer with the number n row r has the ids of list n * twice_areas + r. Where one buffer is too small, or the status is not
 * OVERLAY_ANSWERED, all buffers are as they were; behind the columns they are so always.
 *
 *   side, segments, ids   as of overlay_faces_fill
 *   layers, count         the layers, and how many there are: at most OVERLAY_MOST_LAYERS
 *   buffers               where the columns go; the pointers and the lengths stay as they are
 *   answer                where the answer goes */
void overlay_faces_columns_fill(uint32_t side, uint32_t segments, uint64_t ids, const struct overlay_columns *layers, size_t count,
                                struct overlay_face_buffers *buffers, struct overlay_faces_answer *answer);

/* Returns the tile side for these layers, as overlay_faces_side does for texts. */
uint32_t overlay_faces_columns_side(const struct overlay_columns *layers, size_t count);

/* A map that is too large for one process is rounded strip by strip, in as many processes as one likes, and with lists of plain structs as the only
 * messages between them; files, names and checksums are the caller's. Strips are cut out of the plane by columns that ascend, the cuts: strip s has
 * the columns x of which s cuts are not greater than x, so there is one strip more than cuts. Any cuts give the same edges.
 *
 *   1. overlay_strip_scatter   of each part of a layer, for each strip its lines that reach it
 *   2. overlay_strip_round     of each strip, with all of its lines: the edges inside it, and the lines that cross its borders
 *   3. overlay_strip_bridge    from the last strip to the first: the edges across the border on the right of each
 *   4. overlay_strip_edges     of each strip, both as one list
 *
 * The lists of 4, one strip behind another, are the edges that overlay_fill tells for OVERLAY_EDGES of the whole layers, in the same order. The
 * edges of an operation's result, as directed, are told by strips too, from the first to the last:
 *
 *   5. overlay_strip_labels     of each strip, of its edges of 4 and those that come in from the left: the directed edges along its own
 *   6. overlay_strip_going_on   of the same, the edges that come into the next strip; nothing comes into the first one
 *
 * The lists of 5 together have each edge of the rings that overlay_columns_fill makes of the whole layers, once. Their polygons are told by ranges of
 * strips that lie side by side: first narrow ones, then those of two that touch, up to that of all strips.
 *
 *   7. overlay_strip_closed   of a range, of the directed edges that have a column of it: the closed ones, and those that wait for a wider range
 *   8. overlay_polygons       of the closed ones of each range, the polygons
 *   9. overlay_strip_write    of the polygons of all ranges, those whose first point lies in a strip, in order
 *
 * The polygons of 9, one strip behind another, are those that overlay_columns_fill makes, in the same order. Edges with even counts in both layers
 * bound no result: they may be left out of all lists of 4 before. All that holds where each call had the same cuts, and each list is whole: a call
 * tests what it is handed, but can't know of a line that is missing. */

/* A segment of a layer, its lesser end (by x, then by y) first. */
struct overlay_line {
    uint32_t number; /* its place among all segments of both layers */
    uint32_t layer;  /* 0 the first layer, 1 the second one */
    int32_t ax, ay;  /* the lesser end, in grid units */
    int32_t bx, by;
};

/* A line that crosses a border of a strip, and the pixel of its rounded way in the strip that is nearest to that border. */
struct overlay_open {
    uint32_t number;
    uint32_t layer;
    uint32_t has_pixel; /* 1, or 0 where it has none in the strip; x and y are then 0 */
    int32_t x, y;
};

/* A line that crosses the border on the left of a strip, and the first pixel of its rounded way in that strip or a later one. */
struct overlay_carried {
    uint32_t number;
    int32_t x, y;
};

/* A rounded edge, its lesser end first, and how many segments of either layer run along it. */
struct overlay_counted {
    int32_t px, py;
    int32_t qx, qy;
    uint32_t in_a;
    uint32_t in_b;
};

/* An edge of a result, directed so that the result lies on its left. */
struct overlay_directed {
    int32_t ax, ay; /* where it begins, in grid units */
    int32_t bx, by; /* where it ends */
};

/* What a call on a strip answers. All fields are written; those that don't belong to the status are 0. Of all faults the first one is told: of the
 * cuts, then of the lists in their order, then of what they say of each other. */
struct overlay_strip_answer {
    uint64_t first;  /* OVERLAY_ANSWERED, OVERLAY_SMALL: how many items go into the first buffer of the call */
    uint64_t second; /* the same of the second one, where it has one */
    uint64_t third;  /* the same of the third one */
    uint64_t detail; /* OVERLAY_REFUSED: the number of an item, a point, a ring or an offset, from 0 on */
    uint32_t status; /* how the call ended: an overlay_status */
    uint32_t number; /* OVERLAY_REFUSED, OVERLAY_NO_MEMORY: why, an overlay_refusal */
    uint32_t part;   /* OVERLAY_REFUSED: which list: 0 the first one behind the cuts, 1 the second, 2 the third, OVERLAY_CUTS the cuts */
};

/* The cuts, as what is refused. */
#define OVERLAY_CUTS 3

/* Puts the lines of a part of a layer into a buffer: those that reach the first strip, ascending by their numbers, then those that reach the second
 * one, and so on. Where one buffer is too small, or the status is not OVERLAY_ANSWERED, both buffers are as they were; behind the items they are so
 * always. That holds of the calls on strips and all their buffers.
 *
 *   cuts, cuts_length       the columns at which strips begin; none is less than the one before it
 *   layer                   0 the first layer, 1 the second one; else OVERLAY_NO_CALL
 *   first                   the number of the part's first segment; the others are numbered on. Both layers' segments have numbers of their own
 *   part                    some features of the layer, refused as elsewhere
 *   lines, lines_length     where the lines go
 *   strips, strips_length   where the number goes at which each strip's lines begin, and that at which the last one's end: one more than strips
 *   answer                  where the answer goes. More lines than 4294967295 are OVERLAY_NO_MEMORY */
void overlay_strip_scatter(const int32_t *cuts, size_t cuts_length, uint32_t layer, uint32_t first, const struct overlay_columns *part,
                           struct overlay_line *lines, size_t lines_length, uint32_t *strips, size_t strips_length,
                           struct overlay_strip_answer *answer);

/* Rounds a strip by its lines.
 *
 *   strip                 the number of the strip, from 0 on; OVERLAY_NO_CALL where it is greater than that of the cuts
 *   lines, lines_length   all lines of both layers that reach the strip, and no others, ascending by their numbers
 *   inner, inner_length   where the edges with both ends in the strip go, ascending
 *   left, left_length     where the lines go that cross the border on the left of the strip, each with its first pixel in the strip
 *   right, right_length   where those go that cross the border on its right, each with its last pixel in the strip */
void overlay_strip_round(const int32_t *cuts, size_t cuts_length, size_t strip, const struct overlay_line *lines, size_t lines_length,
                         struct overlay_counted *inner, size_t inner_length, struct overlay_open *left, size_t left_length,
                         struct overlay_open *right, size_t right_length, struct overlay_strip_answer *answer);

/* Bridges the border on the right of a strip.
 *
 *   left, left_length         what overlay_strip_round told of the strip
 *   right, right_length       likewise
 *   carried, carried_length   what this call told as next of the strip on the right; nothing for the last strip
 *   across, across_length     where the edges go that begin in the strip and end in a later one, ascending
 *   next, next_length         where the lines go that cross the border on the left of the strip, each with the first pixel that it has behind it
 *
 * OVERLAY_CONTRADICTION: right and carried aren't of the same numbers (part 1), or a line of left that has no pixel isn't in carried (part 0). */
void overlay_strip_bridge(const struct overlay_open *left, size_t left_length, const struct overlay_open *right, size_t right_length,
                          const struct overlay_carried *carried, size_t carried_length, struct overlay_counted *across, size_t across_length,
                          struct overlay_carried *next, size_t next_length, struct overlay_strip_answer *answer);

/* Merges the edges of a strip: those whose lesser end lies in it, ascending.
 *
 *   inner, inner_length     what overlay_strip_round told of the strip
 *   across, across_length   what overlay_strip_bridge told of it
 *   buffer, buffer_length   where the edges go
 *
 * OVERLAY_CONTRADICTION: an edge of across is one of inner (part 1). */
void overlay_strip_edges(const struct overlay_counted *inner, size_t inner_length, const struct overlay_counted *across, size_t across_length,
                         struct overlay_counted *buffer, size_t buffer_length, struct overlay_strip_answer *answer);

/* Labels a strip: puts the directed edges of an operation's result along its own edges into a buffer, ascending by start, then by end.
 *
 *   call                        what to compute: an overlay_call, but for OVERLAY_EDGES
 *   crossing, crossing_length   what overlay_strip_going_on told of the strip on the left; nothing for the first strip
 *   own, own_length             what overlay_strip_edges told of the strip
 *   buffer, buffer_length       where the directed edges go
 *
 * OVERLAY_CONTRADICTION: an edge of crossing doesn't begin on the left of all edges of own (part 0). Lists that cross one another aren't refused,
 * and are answered by directed edges that say nothing. */
void overlay_strip_labels(uint32_t call, const struct overlay_counted *crossing, size_t crossing_length, const struct overlay_counted *own,
                          size_t own_length, struct overlay_directed *buffer, size_t buffer_length, struct overlay_strip_answer *answer);

/* Puts the edges that come into the next strip into a buffer, ascending: of those that come into a strip, and of its own, those that end behind it.
 *
 *   strip                       the number of the strip, from 0 on; OVERLAY_NO_CALL where it is greater than that of the cuts
 *   crossing, crossing_length   as of overlay_strip_labels
 *   own, own_length             likewise
 *   buffer, buffer_length       where the edges go */
void overlay_strip_going_on(const int32_t *cuts, size_t cuts_length, size_t strip, const struct overlay_counted *crossing, size_t crossing_length,
                            const struct overlay_counted *own, size_t own_length, struct overlay_counted *buffer, size_t buffer_length,
                            struct overlay_strip_answer *answer);

/* Parts the directed edges that a range of strips knows, which are all those of a result that have a column of it: puts the closed ones into one
 * buffer, and into another one those open ones that begin in the range, both ascending. An edge is open in a range if it goes over a border of it, or
 * is tied to one that does, by edges that the range knows: edges that meet at a point are tied, and those of a hole to the edge below its leftmost
 * point, so that the edges of one polygon are. Closed edges have polygons of their own, by overlay_polygons, and these are polygons of the result.
 * The open ones of two ranges that touch, with those edges that come into the first one from the left, are what the range of both knows then; in the
 * range of all strips none is open.
 *
 *   first, past               the range: the strips from first to before past; OVERLAY_NO_CALL where these are none, or some behind the last one
 *   known, known_length       the edges, ascending by ax, ay, bx and by
 *   closed, closed_length     where the closed edges go
 *   waiting, waiting_length   where the open edges go whose lesser end lies in the range
 *
 * OVERLAY_BAD_ITEM: an edge is out of range or a point alone, has no column of the range (its lesser end lies in strip past or a later one, or its
 * greater end in a strip before first), or isn't behind the one before it. Edges that cross one another, or run along one another, aren't refused,
 * and are answered by lists that say nothing. */
void overlay_strip_closed(const int32_t *cuts, size_t cuts_length, size_t first, size_t past, const struct overlay_directed *known,
                          size_t known_length, struct overlay_directed *closed, size_t closed_length, struct overlay_directed *waiting,
                          size_t waiting_length, struct overlay_strip_answer *answer);

/* Puts the polygons of directed edges, as columns, at the beginning of three buffers, and tells their lengths, as overlay_columns_fill does. The
 * edges of all strips, brought in order, get the polygons of the result that overlay_columns_fill tells. Edges from anywhere else get rings that have
 * each edge once, visit no point twice and begin at their least one; they are polygons where the edges meet only at ends.
 *
 *   directed, directed_length   the edges, ascending by ax, ay, bx and by
 *   coordinates, rings, polygons, and their lengths   where the columns go, and how many numbers there may be written
 *   answer                      where the answer goes
 *
 * OVERLAY_BAD_ITEM: an edge is out of range or a point alone, or isn't behind the one before it. OVERLAY_CONTRADICTION: the edges don't close where
 * the edge starts or ends: of the edges at a point two run in one direction or one runs both ways, or behind one that arrives, clockwise, none leaves.
 * detail is the first such edge. */
void overlay_polygons(const struct overlay_directed *directed, size_t directed_length, int32_t *coordinates, size_t coordinates_length,
                      uint32_t *rings, size_t rings_length, uint32_t *polygons, size_t polygons_length, struct overlay_columns_answer *answer);

/* Puts polygons in order, as columns, at the beginning of three buffers, and tells their lengths, as overlay_polygons does. Where the shells of two
 * first differ, the one with the lesser point (by x, then by y) goes first; a shell goes before those that begin with all of its points. What several
 * calls of overlay_polygons told is handed in as one list: the columns of one behind those of another, with offsets that go on. Offsets may begin
 * anywhere, and there may be none; what no polygon reaches isn't told.
 *
 *   made_coordinates, made_rings, made_polygons, and their lengths   the columns: each ring has a point, and each polygon a ring
 *   coordinates, rings, polygons, and their lengths                  where the columns go, as of overlay_polygons
 *   answer                                                           where the answer goes
 *
 * OVERLAY_COORDINATE_MISSING: an x has no y. OVERLAY_RING_OFFSET, OVERLAY_POLYGON_OFFSET: an offset isn't greater than the one before it, or passes
 * the end of the next column; detail is its number, from 0 on. OVERLAY_CONTRADICTION: two polygons have one shell; detail is the number of one of them.
 * Whether a ring's last point is its first, and what rings share, isn't tested; a shell's last point has no say in the order. */
void overlay_strip_write(const int32_t *made_coordinates, size_t made_coordinates_length, const uint32_t *made_rings, size_t made_rings_length,
                         const uint32_t *made_polygons, size_t made_polygons_length, int32_t *coordinates, size_t coordinates_length, uint32_t *rings,
                         size_t rings_length, uint32_t *polygons, size_t polygons_length, struct overlay_columns_answer *answer);

/* Puts the words of an answer of two layers without a text at the beginning of a buffer, as `A: 1 syntax at 16`, without a 0 or a line feed, and
 * returns their length in bytes: 0 where they don't fit, where memory ran out, or where there is nothing to say. Refusals from
 * OVERLAY_TOO_MANY_IDS on have no words, and the part of an answer of faces is no part of two layers: overlay_reason tells why these are refused.
 * An answer of columns has the words of an overlay_answer with the same detail, status, number and part.
 *
 *   answer                  what a call answered; it is read alone
 *   buffer, buffer_length   where the words go, and how many bytes there may be written: OVERLAY_WORDS are enough */
size_t overlay_words(const struct overlay_answer *answer, uint8_t *buffer, size_t buffer_length);

/* Returns the tile side that the program takes where none is given, in grid units: 262144, or the least greater power of two that
 * doesn't give too many tiles, or 262144 where a layer is refused. Both layers, with their lengths in bytes, are read once. */
uint32_t overlay_side(const uint8_t *a, size_t a_length, const uint8_t *b, size_t b_length);

/* Returns the version of the library's calls: OVERLAY_CALLS_VERSION of this header. It changes where a call, a number or a struct does,
 * not with each release. */
uint32_t overlay_version(void);

#ifdef __cplusplus
}
#endif

/* What follows is C in C++ too, and not for a program's warnings of that. */
#if defined __cplusplus && defined __GNUC__
#pragma GCC diagnostic push
#pragma GCC diagnostic ignored "-Wold-style-cast"
#pragma GCC diagnostic ignored "-Wzero-as-null-pointer-constant"
#endif

/* Returns why an input is refused, by the number of an answer that is OVERLAY_REFUSED or OVERLAY_NO_MEMORY: as `open ring` of OVERLAY_OPEN_RING,
 * with a 0 behind it; null where the number is no overlay_refusal. The answer's part and detail tell the place. */
static inline const char *overlay_reason(uint32_t number) {
    switch (number) {
    case OVERLAY_LAYER_TOO_LONG: return "layer too long";
    case OVERLAY_SYNTAX: return "syntax";
    case OVERLAY_NUMBER_RANGE: return "number out of range";
    case OVERLAY_SHORT_RING: return "short ring";
    case OVERLAY_OPEN_RING: return "open ring";
    case OVERLAY_TOO_MANY_SEGMENTS: return "too many segments";
    case OVERLAY_BAD_SIDE: return "bad tile side";
    case OVERLAY_TOO_MANY_TILES: return "too many tiles";
    case OVERLAY_OUT_OF_MEMORY: return "out of memory";
    case OVERLAY_TOO_MANY_IDS: return "too many ids";
    case OVERLAY_COORDINATE_MISSING: return "coordinate missing";
    case OVERLAY_FEATURE_OFFSET: return "bad offset of features";
    case OVERLAY_POLYGON_OFFSET: return "bad offset of polygons";
    case OVERLAY_RING_OFFSET: return "bad offset of rings";
    case OVERLAY_UNPAIRED: return "feature without another";
    case OVERLAY_BAD_ITEM: return "bad item";
    case OVERLAY_CONTRADICTION: return "lists that contradict each other";
    default: return NULL;
    }
}

/* overlay_fill with layers that end with a 0, a side that fits and a buffer of its own: returns the text, with a 0 behind it, which the caller
 * owns from then on and lets go by free; null where the status is not OVERLAY_ANSWERED. A buffer as large as both layers is tried first, and
 * where it is too small as large a one as the text wants.
 *
 *   call, a, b   as of overlay_fill
 *   answer       where the answer goes; never OVERLAY_SMALL */
static inline char *overlay_text(uint32_t call, const char *a, const char *b, struct overlay_answer *answer) {
    static const struct overlay_answer no_memory = {0, 0, OVERLAY_NO_MEMORY, OVERLAY_OUT_OF_MEMORY, OVERLAY_RUN};
    const uint8_t *first = (const uint8_t *)a, *second = (const uint8_t *)b;
    size_t m = strlen(a), n = strlen(b), length = m + n;
    uint32_t side = overlay_side(first, m, second, n);
    for (;;) {
        uint8_t *buffer = (uint8_t *)malloc(length + 1);
        *answer = no_memory;
        if (!buffer)
            return NULL;
        overlay_fill(call, side, first, m, second, n, buffer, length, answer);
        if (answer->status == OVERLAY_ANSWERED) {
            buffer[answer->length] = 0;
            return (char *)buffer;
        }
        free(buffer);
        if (answer->status != OVERLAY_SMALL)
            return NULL;
        length = (size_t)answer->length;
    }
}

/* The columns of a result, in memory that overlay_arrays took for them and overlay_free lets go. */
struct overlay_owned_columns {
    int32_t *coordinates; /* x y x y .. of closed rings, shells before their holes, in grid units */
    size_t coordinates_length;
    uint32_t *rings; /* where each ring begins among the points, and where the last one ends */
    size_t rings_length;
    uint32_t *polygons; /* where each polygon begins among the rings, and where the last one ends */
    size_t polygons_length;
};

/* Lets columns go, and leaves none: to do so once more is no fault. */
static inline void overlay_free(struct overlay_owned_columns *owned) {
    free(owned->coordinates);
    free(owned->rings);
    free(owned->polygons);
    owned->coordinates = NULL;
    owned->rings = owned->polygons = NULL;
    owned->coordinates_length = owned->rings_length = owned->polygons_length = 0;
}

/* Takes buffers of these lengths; 0 where there is no memory for one of them. */
static inline int overlay_take(struct overlay_owned_columns *owned, size_t coordinates, size_t rings, size_t polygons) {
    owned->coordinates = (int32_t *)malloc((coordinates ? coordinates : 1) * sizeof(int32_t));
    owned->rings = (uint32_t *)malloc((rings ? rings : 1) * sizeof(uint32_t));
    owned->polygons = (uint32_t *)malloc((polygons ? polygons : 1) * sizeof(uint32_t));
    owned->coordinates_length = coordinates;
    owned->rings_length = rings;
    owned->polygons_length = polygons;
    return owned->coordinates && owned->rings && owned->polygons;
}

/* overlay_columns_fill with a side that fits and with buffers of its own: the result's columns, which the caller owns from then on and lets
 * go by overlay_free. Buffers as large as both layers are tried first, and where they are too small those that the result asks for. Where the
 * status is not OVERLAY_ANSWERED there are no columns: their pointers and lengths are 0.
 *
 *   call, segments, a, b   as of overlay_columns_fill
 *   owned                  where the columns are told; what it held is not let go
 *   answer                 where the answer goes; never OVERLAY_SMALL */
static inline void overlay_arrays(uint32_t call, uint32_t segments, const struct overlay_columns *a, const struct overlay_columns *b,
                                  struct overlay_owned_columns *owned, struct overlay_columns_answer *answer) {
    static const struct overlay_columns_answer no_memory = {0, 0, 0, 0, OVERLAY_NO_MEMORY, OVERLAY_OUT_OF_MEMORY, OVERLAY_RUN};
    uint32_t side = overlay_columns_side(a, b);
    int has_buffers = overlay_take(owned, a->coordinates_length + b->coordinates_length, a->rings_length + b->rings_length,
                                a->polygons_length + b->polygons_length);
    *answer = no_memory;
    while (has_buffers) {
        overlay_columns_fill(call, side, segments, a, b, owned->coordinates, owned->coordinates_length, owned->rings,
                             owned->rings_length, owned->polygons, owned->polygons_length, answer);
        if (answer->status != OVERLAY_SMALL)
            break;
        overlay_free(owned);
        has_buffers = overlay_take(owned, (size_t)answer->coordinates, (size_t)answer->rings, (size_t)answer->polygons);
        *answer = has_buffers ? *answer : no_memory;
    }
    if (answer->status != OVERLAY_ANSWERED)
        overlay_free(owned);
    owned->coordinates_length = (size_t)answer->coordinates;
    owned->rings_length = (size_t)answer->rings;
    owned->polygons_length = (size_t)answer->polygons;
}

#if defined __cplusplus && defined __GNUC__
#pragma GCC diagnostic pop
#endif
#endif
