/* The calls that round and label a map strip by strip, under the sanitizers: a small map whose lists were worked out by hand; lists, columns and cuts that
 * are refused, one by one; rooms that are too small, and memory that is refused; maps by random cuts, whose edges are those of overlay_fill, whose
 * directed edges those of the rings of overlay_columns_fill, and whose polygons, strip by strip, those of this call; and lists of edges that cross one
 * another. */
#include "../overlay.h"
#include "checking.h"
#include "strips_by_hand.h"

#include <stdio.h>
#include <stdlib.h>
#include <string.h>

enum { ROOM = 4096, MOST_STRIPS = 9, TEXT = 1 << 17 };

static int is_refused(const struct overlay_strip_answer *answer, uint32_t number, uint32_t part, uint64_t detail) {
    return answer->status == OVERLAY_REFUSED && answer->number == number && answer->part == part && answer->detail == detail && !answer->first
           && !answer->second && !answer->third;
}

static int is_short(const struct overlay_strip_answer *answer, uint64_t first, uint64_t second, uint64_t third) {
    return answer->status == OVERLAY_SMALL && !answer->number && !answer->part && !answer->detail && answer->first == first && answer->second == second
           && answer->third == third;
}

static int by_ends(const void *one, const void *other) {
    const struct overlay_directed *d = (const struct overlay_directed *)one, *e = (const struct overlay_directed *)other;
    if (d->ax != e->ax)
        return d->ax < e->ax ? -1 : 1;
    if (d->ay != e->ay)
        return d->ay < e->ay ? -1 : 1;
    if (d->bx != e->bx)
        return d->bx < e->bx ? -1 : 1;
    return (d->by > e->by) - (d->by < e->by);
}

/* ---- a map strip by strip */

/* The lists of a strip. */
struct strip {
    struct overlay_line lines[ROOM];
    struct overlay_counted inner[ROOM], across[ROOM], edges[ROOM];
    struct overlay_open left[ROOM], right[ROOM];
    struct overlay_carried next[ROOM];
    struct overlay_counted crossing[ROOM];
    struct overlay_directed directed[ROOM];
    size_t line_count, inner_count, across_count, edge_count, left_count, right_count, next_count, crossing_count, directed_count;
};

static struct strip strips[MOST_STRIPS];
static struct overlay_line scattered[ROOM];
static const struct overlay_carried NOTHING[1];

/* Adds the lines of a layer to the strips that they reach. */
static int scatter(const int32_t *cuts, size_t count, uint32_t layer, uint32_t first, const struct overlay_columns *part) {
    uint32_t begins[MOST_STRIPS + 1];
    struct overlay_strip_answer answer = GARBAGE;
    overlay_strip_scatter(cuts, count, layer, first, part, scattered, ROOM, begins, MOST_STRIPS + 1, &answer);
    if (answer.status != OVERLAY_ANSWERED || answer.second != count + 2 || answer.first != begins[count + 1])
        return 0;
    for (size_t s = 0; s <= count; s++)
        for (uint32_t at = begins[s]; at < begins[s + 1]; at++)
            strips[s].lines[strips[s].line_count++] = scattered[at];
    return 1;
}

static int round_strip(const int32_t *cuts, size_t count, size_t s) {
    struct strip *strip = &strips[s];
    struct overlay_strip_answer answer = GARBAGE;
    overlay_strip_round(cuts, count, s, strip->lines, strip->line_count, strip->inner, ROOM, strip->left, ROOM, strip->right, ROOM, &answer);
    strip->inner_count = (size_t)answer.first;
    strip->left_count = (size_t)answer.second;
    strip->right_count = (size_t)answer.third;
    return answer.status == OVERLAY_ANSWERED;
}

static int bridge(size_t count, size_t s) {
    struct strip *strip = &strips[s];
    const struct overlay_carried *carried = s == count ? NOTHING : strips[s + 1].next;
    size_t carried_count = s == count ? 0 : strips[s + 1].next_count;
    struct overlay_strip_answer answer = GARBAGE;
    overlay_strip_bridge(strip->left, strip->left_count, strip->right, strip->right_count, carried, carried_count, strip->across, ROOM, strip->next, ROOM,
                         &answer);
    strip->across_count = (size_t)answer.first;
    strip->next_count = (size_t)answer.second;
    return answer.status == OVERLAY_ANSWERED && !answer.third;
}

static int merge(size_t s) {
    struct strip *strip = &strips[s];
    struct overlay_strip_answer answer = GARBAGE;
    overlay_strip_edges(strip->inner, strip->inner_count, strip->across, strip->across_count, strip->edges, ROOM, &answer);
    strip->edge_count = (size_t)answer.first;
    return answer.status == OVERLAY_ANSWERED && !answer.second && !answer.third;
}

/* All lists of a map; b's segments are numbered behind those of a. */
static int all_strips(const int32_t *cuts, size_t count, const struct overlay_columns *a, uint32_t segments_of_a, const struct overlay_columns *b) {
    for (size_t s = 0; s <= count; s++)
        strips[s].line_count = 0;
    int done = scatter(cuts, count, 0, 0, a) && scatter(cuts, count, 1, segments_of_a, b);
    for (size_t s = 0; s <= count && done; s++)
        done = round_strip(cuts, count, s);
    for (size_t s = count + 1; s-- > 0 && done;)
        done = bridge(count, s) && merge(s);
    return done;
}

/* The directed edges of all strips, and what goes on from each to the next one. */
static int all_labels(uint32_t call, const int32_t *cuts, size_t count) {
    static struct overlay_counted behind[ROOM];
    struct overlay_strip_answer answer = GARBAGE;
    strips[0].crossing_count = 0;
    for (size_t s = 0; s <= count; s++) {
        struct strip *strip = &strips[s];
        struct overlay_counted *next = s == count ? behind : strips[s + 1].crossing;
        overlay_strip_labels(call, strip->crossing, strip->crossing_count, strip->edges, strip->edge_count, strip->directed, ROOM, &answer);
        if (answer.status != OVERLAY_ANSWERED || answer.second || answer.third)
            return 0;
        strip->directed_count = (size_t)answer.first;
        overlay_strip_going_on(cuts, count, s, strip->crossing, strip->crossing_count, strip->edges, strip->edge_count, next, ROOM, &answer);
        if (answer.status != OVERLAY_ANSWERED || answer.second || answer.third)
            return 0;
        if (s < count)
            strips[s + 1].crossing_count = (size_t)answer.first;
        else if (answer.first)
            return 0;
    }
    return 1;
}

/* The edges of all strips, as overlay_fill tells edges. */
static size_t edges_text(size_t count, char *text) {
    size_t length = 0;
    for (size_t s = 0; s <= count; s++)
        for (size_t at = 0; at < strips[s].edge_count; at++) {
            const struct overlay_counted *e = &strips[s].edges[at];
            length += (size_t)sprintf(text + length, "%d %d %d %d %u %u\n", (int)e->px, (int)e->py, (int)e->qx, (int)e->qy, e->in_a, e->in_b);
        }
    return length;
}

/* ---- a map worked out by hand */

#define ARE(got, count, wanted) ((count) == COUNT(wanted) && !memcmp(got, wanted, sizeof(wanted)))

static void lines_by_hand(void) {
    struct overlay_line lines[32];
    uint32_t begins[8];
    struct overlay_strip_answer answer = GARBAGE;
    overlay_strip_scatter(CUTS, 3, 0, 0, &A, lines, 32, begins, 8, &answer);
    check(answer.status == OVERLAY_ANSWERED && ARE(lines, answer.first, LINES_OF_A) && ARE(begins, answer.second, BEGINS_OF_A), "lines of the first layer");
    overlay_strip_scatter(CUTS, 3, 1, 8, &B, lines, 32, begins, 8, &answer);
    check(answer.status == OVERLAY_ANSWERED && ARE(lines, answer.first, LINES_OF_B) && ARE(begins, answer.second, BEGINS_OF_B), "lines of the second layer");
}

static void lists_by_hand(void) {
    check(all_strips(CUTS, 3, &A, 8, &B), "a map strip by strip");
    check(ARE(strips[0].inner, strips[0].inner_count, INNER_0) && ARE(strips[1].inner, strips[1].inner_count, INNER_1) && !strips[2].inner_count
              && ARE(strips[3].inner, strips[3].inner_count, INNER_3), "edges inside strips");
    check(!strips[0].left_count && ARE(strips[1].left, strips[1].left_count, LEFT_1) && ARE(strips[2].left, strips[2].left_count, NO_PIXELS)
              && ARE(strips[3].left, strips[3].left_count, LEFT_3), "lines over borders on the left");
    check(ARE(strips[0].right, strips[0].right_count, RIGHT_0) && strips[1].right_count == 4 && !memcmp(strips[1].right, LEFT_1, 4 * sizeof *LEFT_1)
              && ARE(strips[2].right, strips[2].right_count, NO_PIXELS) && !strips[3].right_count, "lines over borders on the right");
    check(ARE(strips[3].next, strips[3].next_count, FROM_3) && ARE(strips[2].next, strips[2].next_count, FROM_3)
              && ARE(strips[1].next, strips[1].next_count, FROM_1) && !strips[0].next_count, "what is carried");
    check(!strips[3].across_count && !strips[2].across_count && ARE(strips[1].across, strips[1].across_count, ACROSS_1)
              && ARE(strips[0].across, strips[0].across_count, ACROSS_0), "edges across borders");
    check(strips[0].edge_count == COUNT(INNER_0) + COUNT(ACROSS_0) && strips[1].edge_count == COUNT(INNER_1) + COUNT(ACROSS_1) && !strips[2].edge_count
              && ARE(strips[3].edges, strips[3].edge_count, INNER_3), "edges of strips");
}

static void labels_by_hand(void) {
    check(all_labels(OVERLAY_INTERSECTION, CUTS, 3), "an intersection strip by strip");
    check(ARE(strips[0].directed, strips[0].directed_count, BOTH_0) && ARE(strips[1].directed, strips[1].directed_count, BOTH_1)
              && !strips[2].directed_count && !strips[3].directed_count, "directed edges of an intersection");
    check(!strips[0].crossing_count && ARE(strips[1].crossing, strips[1].crossing_count, ACROSS_0)
              && ARE(strips[2].crossing, strips[2].crossing_count, ACROSS_1) && ARE(strips[3].crossing, strips[3].crossing_count, ACROSS_1),
          "edges that go on");
    check(all_labels(OVERLAY_DIFFERENCE, CUTS, 3), "a difference strip by strip");
    check(ARE(strips[0].directed, strips[0].directed_count, WITHOUT_0) && ARE(strips[1].directed, strips[1].directed_count, WITHOUT_1)
              && !strips[2].directed_count && ARE(strips[3].directed, strips[3].directed_count, WITHOUT_3), "directed edges of a difference");
}

/* ---- ranges of strips worked out by hand */

static struct overlay_directed closed_room[32], waiting_room[32];

static struct overlay_strip_answer parted(size_t first, size_t past, const struct overlay_directed *known, size_t count) {
    struct overlay_strip_answer answer = GARBAGE;
    overlay_strip_closed(BORDERS, 2, first, past, known, count, closed_room, 32, waiting_room, 32, &answer);
    return answer;
}

#define IS_PARTED(answer, closed, waiting) \
    ((answer).status == OVERLAY_ANSWERED && !(answer).third && ARE(closed_room, (answer).first, closed) && ARE(waiting_room, (answer).second, waiting))

/* Two lists as one, ascending. */
static size_t both(const struct overlay_directed *one, size_t count, const struct overlay_directed *other, size_t other_count,
                   struct overlay_directed *room) {
    memcpy(room, one, count * sizeof *one);
    memcpy(room + count, other, other_count * sizeof *other);
    qsort(room, count + other_count, sizeof *room, by_ends);
    return count + other_count;
}

static void ranges_by_hand(void) {
    struct overlay_directed known[32];
    struct overlay_strip_answer answer = parted(0, 1, KNOWN_0, COUNT(KNOWN_0));
    check(IS_PARTED(answer, CLOSED_0, WAITING_0), "what is closed in the first strip");
    answer = parted(1, 2, KNOWN_1, COUNT(KNOWN_1));
    check(IS_PARTED(answer, CLOSED_1, WAITING_1), "what is closed in the second strip");
    answer = parted(2, 3, KNOWN_2, COUNT(KNOWN_2));
    check(answer.status == OVERLAY_ANSWERED && !answer.first && ARE(waiting_room, answer.second, WAITING_2), "what is closed in the last strip");
    answer = parted(0, 2, known, both(WAITING_0, COUNT(WAITING_0), WAITING_1, COUNT(WAITING_1), known));
    check(IS_PARTED(answer, CLOSED_BOTH, WAITING_BOTH), "what is closed in two strips");
    answer = parted(0, 3, known, both(WAITING_BOTH, COUNT(WAITING_BOTH), WAITING_2, COUNT(WAITING_2), known));
    check(answer.status == OVERLAY_ANSWERED && ARE(closed_room, answer.first, CLOSED_LAST) && !answer.second, "what is closed in all strips");
    answer = parted(0, 3, ALL, COUNT(ALL));
    check(answer.status == OVERLAY_ANSWERED && ARE(closed_room, answer.first, ALL) && !answer.second, "all edges in all strips");
    answer = parted(1, 3, ALL, 0);
    check(answer.status == OVERLAY_ANSWERED && !answer.first && !answer.second, "no edges in two strips");
}

/* ---- what is refused */

static void refused_scatter(void) {
    static const int32_t falling[] = {4, 8, 6}, far[] = {0, 0, 268435457, 0, 12, 6, 0, 6, 0, 0};
    static const struct overlay_columns open = {POINTS_B, 8, RINGS_B, 2, ONE, 2, ONE, 2}, wide = {far, 10, RINGS_B, 2, ONE, 2, ONE, 2};
    struct overlay_line lines[32];
    uint32_t begins[8];
    struct overlay_strip_answer answer = GARBAGE;
    overlay_strip_scatter(CUTS, 3, 2, 0, &A, lines, 32, begins, 8, &answer);
    check(answer.status == OVERLAY_NO_CALL && !answer.number && !answer.detail && !answer.part, "scatter of a third layer");
    overlay_strip_scatter(falling, 3, 0, 0, &A, lines, 32, begins, 8, &answer);
    check(is_refused(&answer, OVERLAY_BAD_ITEM, OVERLAY_CUTS, 2), "scatter by cuts that fall");
    overlay_strip_scatter(CUTS, 3, 0, 0, &open, lines, 32, begins, 8, &answer);
    check(is_refused(&answer, OVERLAY_RING_OFFSET, 0, 1), "scatter of columns that end early");
    overlay_strip_scatter(CUTS, 3, 0, 0, &wide, lines, 32, begins, 8, &answer);
    check(is_refused(&answer, OVERLAY_NUMBER_RANGE, 0, 1), "scatter of a point out of range");
    overlay_strip_scatter(CUTS, 3, 0, 4294967290u, &A, lines, 32, begins, 8, &answer);
    check(answer.status == OVERLAY_NO_MEMORY && answer.number == OVERLAY_OUT_OF_MEMORY, "more numbers than there are");
}

/* Lines of the strip with the columns 4 and 5, and what makes each list none of it. */
static void refused_round(void) {
    static const struct overlay_line good[] = {{0, 0, 0, 0, 12, 0}, {2, 0, 0, 6, 12, 6}, {4, 0, 1, 2, 8, 1}};
    static const struct overlay_line bad[] = {
        {4, 2, 1, 2, 8, 1},          /* no layer */
        {2, 0, 1, 2, 8, 1},          /* the number of the line before it */
        {1, 0, 1, 2, 8, 1},          /* a lesser number */
        {4, 0, 8, 1, 1, 2},          /* the greater end first */
        {4, 0, 5, 2, 5, 1},          /* likewise in one column */
        {4, 0, 5, 2, 5, 2},          /* one point */
        {4, 0, 1, 2, 3, 1},          /* on the left of the strip */
        {4, 0, 6, 2, 8, 1},          /* on its right */
        {4, 0, 1, 268435457, 8, 1},  /* out of range */
        {4, 0, 1, 2, 8, -268435457}, /* likewise */
    };
    static const int32_t falling[] = {4, 3, 8};
    struct overlay_line lines[3];
    struct overlay_counted inner[8];
    struct overlay_open left[8], right[8];
    struct overlay_strip_answer answer = GARBAGE;
    overlay_strip_round(CUTS, 3, 1, good, 3, inner, 8, left, 8, right, 8, &answer);
    check(answer.status == OVERLAY_ANSWERED && answer.first == 0 && answer.second == 3 && answer.third == 3, "good lines");
    for (size_t at = 0; at < COUNT(bad); at++) {
        memcpy(lines, good, sizeof lines);
        lines[2] = bad[at];
        overlay_strip_round(CUTS, 3, 1, lines, 3, inner, 8, left, 8, right, 8, &answer);
        check(is_refused(&answer, OVERLAY_BAD_ITEM, 0, 2), "a bad line");
    }
    overlay_strip_round(CUTS, 3, 4, good, 3, inner, 8, left, 8, right, 8, &answer);
    check(answer.status == OVERLAY_NO_CALL && !answer.number, "a strip behind the last one");
    overlay_strip_round(falling, 3, 1, good, 3, inner, 8, left, 8, right, 8, &answer);
    check(is_refused(&answer, OVERLAY_BAD_ITEM, OVERLAY_CUTS, 1), "round by cuts that fall");
}

static struct overlay_strip_answer bridged(const struct overlay_open *left, size_t left_count, const struct overlay_open *right, size_t right_count,
                                           const struct overlay_carried *carried, size_t carried_count) {
    struct overlay_counted across[8];
    struct overlay_carried next[8];
    struct overlay_strip_answer answer = GARBAGE;
    overlay_strip_bridge(left, left_count, right, right_count, carried, carried_count, across, 8, next, 8, &answer);
    return answer;
}

static void refused_bridge(void) {
    static const struct overlay_open bad[] = {
        {6, 2, 1, 5, 4}, /* no layer */
        {4, 0, 1, 5, 4}, /* the number of the line before it */
        {3, 0, 1, 5, 4}, /* a lesser number */
        {6, 0, 2, 5, 4}, /* neither a pixel nor none */
        {6, 0, 0, 5, 0}, /* none, and still a column */
        {6, 0, 0, 0, 4}, /* or a row */
    };
    struct overlay_open opens[4];
    struct overlay_carried carried[4];
    struct overlay_strip_answer answer = bridged(LEFT_1, 6, LEFT_1, 4, FROM_3, 4);
    check(answer.status == OVERLAY_ANSWERED && answer.first == 4 && answer.second == 6, "good lists at a border");
    for (size_t at = 0; at < COUNT(bad); at++) {
        memcpy(opens, LEFT_1, sizeof opens);
        opens[3] = bad[at];
        answer = bridged(opens, 4, LEFT_1, 4, FROM_3, 4);
        check(is_refused(&answer, OVERLAY_BAD_ITEM, 0, 3), "a bad line on the left");
        answer = bridged(LEFT_1, 4, opens, 4, FROM_3, 4);
        check(is_refused(&answer, OVERLAY_BAD_ITEM, 1, 3), "a bad line on the right");
    }
    memcpy(carried, FROM_3, sizeof carried);
    carried[1].number = 0;
    answer = bridged(LEFT_1, 4, LEFT_1, 4, carried, 4);
    check(is_refused(&answer, OVERLAY_BAD_ITEM, 2, 1), "a number that is carried twice");
    carried[1].number = 3;
    answer = bridged(LEFT_1, 4, LEFT_1, 4, carried, 4);
    check(is_refused(&answer, OVERLAY_CONTRADICTION, 1, 1), "another number is carried");
    answer = bridged(LEFT_1, 4, LEFT_1, 4, FROM_3, 3);
    check(is_refused(&answer, OVERLAY_CONTRADICTION, 1, 3), "a number that isn't carried");
    answer = bridged(LEFT_1, 4, LEFT_1, 3, FROM_3, 4);
    check(is_refused(&answer, OVERLAY_CONTRADICTION, 1, 3), "a number that is carried alone");
    answer = bridged(NO_PIXELS, 4, LEFT_1, 4, FROM_3, 4);
    check(answer.status == OVERLAY_ANSWERED && answer.second == 4, "lines that pass over the strip");
    answer = bridged(NO_PIXELS, 4, LEFT_1, 3, FROM_3, 3);
    check(is_refused(&answer, OVERLAY_CONTRADICTION, 0, 3), "a line that passes over the strip, and isn't carried");
    memcpy(opens, NO_PIXELS, sizeof opens);
    opens[1].number = 1;
    answer = bridged(opens, 4, LEFT_1, 4, FROM_3, 4);
    check(is_refused(&answer, OVERLAY_CONTRADICTION, 0, 1), "another line that passes over the strip, and isn't carried");
}

static void refused_edges(void) {
    static const struct overlay_counted bad[] = {
        {12, 6, 12, 0, 1, 0}, /* the greater end first */
        {12, 0, 12, 0, 1, 0}, /* one point */
        {8, 1, 8, 4, 1, 0},   /* the edge before it */
        {8, 1, 8, 3, 1, 0},   /* a lesser one, by the other end */
        {8, 0, 12, 9, 1, 0},  /* likewise by its own */
        {7, 9, 12, 9, 1, 0},  /* likewise by the column */
    };
    struct overlay_counted edges[2], room[8];
    struct overlay_strip_answer answer = GARBAGE;
    overlay_strip_edges(INNER_3, 2, ACROSS_1, 4, room, 8, &answer);
    check(answer.status == OVERLAY_ANSWERED && answer.first == 6, "good lists of edges");
    for (size_t at = 0; at < COUNT(bad); at++) {
        memcpy(edges, INNER_3, sizeof edges);
        edges[1] = bad[at];
        overlay_strip_edges(edges, 2, ACROSS_1, 4, room, 8, &answer);
        check(is_refused(&answer, OVERLAY_BAD_ITEM, 0, 1), "a bad edge inside");
        overlay_strip_edges(INNER_1, 5, edges, 2, room, 8, &answer);
        check(is_refused(&answer, OVERLAY_BAD_ITEM, 1, 1), "a bad edge across");
    }
    memcpy(edges, INNER_3, sizeof edges);
    edges[1].in_b = 7;
    overlay_strip_edges(INNER_3, 2, edges + 1, 1, room, 8, &answer);
    check(is_refused(&answer, OVERLAY_CONTRADICTION, 1, 0), "an edge in both lists");
    overlay_strip_edges(INNER_1, 5, INNER_1 + 4, 1, room, 8, &answer);
    check(is_refused(&answer, OVERLAY_CONTRADICTION, 1, 0), "the last edge in both lists");
    overlay_strip_edges(INNER_1, 0, INNER_1, 0, room, 8, &answer);
    check(answer.status == OVERLAY_ANSWERED && !answer.first, "no edges");
}

static struct overlay_strip_answer labelled(uint32_t call, const struct overlay_counted *crossing, size_t crossing_count, const struct overlay_counted *own,
                                            size_t own_count) {
    struct overlay_directed room[8];
    struct overlay_strip_answer answer = GARBAGE;
    overlay_strip_labels(call, crossing, crossing_count, own, own_count, room, 8, &answer);
    return answer;
}

/* Of the map by hand, the edges that come into the last strip are ACROSS_1, and INNER_3 are its own. */
static void refused_labels(void) {
    static const struct overlay_counted bad[] = {
        {12, 6, 12, 0, 1, 0},         /* the greater end first */
        {12, 0, 12, 0, 1, 0},         /* one point */
        {8, 1, 8, 4, 1, 0},           /* the edge before it */
        {8, 1, 8, 3, 1, 0},           /* a lesser one */
        {12, 0, 268435457, 6, 1, 0},  /* out of range */
        {12, -268435457, 12, 6, 1, 0} /* likewise */
    };
    static const struct overlay_counted late[] = {{5, 0, 12, 0, 1, 0}, {8, 0, 12, 6, 1, 0}};
    struct overlay_counted edges[2];
    struct overlay_strip_answer answer = labelled(OVERLAY_DIFFERENCE, ACROSS_1, 4, INNER_3, 2);
    check(answer.status == OVERLAY_ANSWERED && answer.first == 2, "good lists of a strip");
    for (size_t at = 0; at < COUNT(bad); at++) {
        memcpy(edges, INNER_3, sizeof edges);
        edges[1] = bad[at];
        answer = labelled(OVERLAY_DIFFERENCE, edges, 2, INNER_3, 2);
        check(is_refused(&answer, OVERLAY_BAD_ITEM, 0, 1), "a bad edge that comes in");
        answer = labelled(OVERLAY_DIFFERENCE, ACROSS_1, 4, edges, 2);
        check(is_refused(&answer, OVERLAY_BAD_ITEM, 1, 1), "a bad edge of a strip");
    }
    answer = labelled(OVERLAY_DIFFERENCE, late, 2, INNER_3, 2);
    check(is_refused(&answer, OVERLAY_CONTRADICTION, 0, 1), "an edge that comes in from the strip itself");
    answer = labelled(OVERLAY_DIFFERENCE, late, 2, INNER_3, 0);
    check(answer.status == OVERLAY_ANSWERED && !answer.first, "a strip without edges");
    for (uint32_t call = 4; call < 6; call++) {
        answer = labelled(call, ACROSS_1, 4, INNER_3, 2);
        check(answer.status == OVERLAY_NO_CALL && !answer.number && !answer.part && !answer.detail, "labels for no operation");
    }
}

static struct overlay_strip_answer gone_on(size_t strip, const struct overlay_counted *crossing, size_t crossing_count, const struct overlay_counted *own,
                                           size_t own_count) {
    struct overlay_counted room[8];
    struct overlay_strip_answer answer = GARBAGE;
    overlay_strip_going_on(CUTS, 3, strip, crossing, crossing_count, own, own_count, room, 8, &answer);
    return answer;
}

/* Strip 1 has the columns 4 and 5. */
static void refused_going_on(void) {
    static const struct overlay_counted crossing[] = {{3, 0, 5, 0, 1, 0}, {3, 2, 4, 1, 1, 0}}, own[] = {{4, 1, 9, 1, 1, 0}, {5, 0, 6, 0, 1, 0}};
    static const struct overlay_counted strange[] = {
        {3, 2, 3, 3, 1, 0}, /* ends before the strip */
        {4, 1, 5, 1, 1, 0}, /* begins in it */
        {3, 0, 5, 0, 1, 0}, /* the edge before it */
        {5, 1, 3, 2, 1, 0}, /* the greater end first */
    };
    static const struct overlay_counted alien[] = {
        {6, 0, 7, 0, 1, 0}, /* begins behind the strip */
        {3, 9, 5, 0, 1, 0}, /* or before it */
        {4, 1, 9, 1, 1, 0}, /* the edge before it */
        {5, 0, 5, 0, 1, 0}, /* one point */
    };
    static const int32_t falling[] = {4, 3, 8};
    struct overlay_counted edges[2], room[8];
    struct overlay_strip_answer answer = gone_on(1, crossing, 2, own, 2);
    check(answer.status == OVERLAY_ANSWERED && answer.first == 2, "good lists that go on");
    for (size_t at = 0; at < COUNT(strange); at++) {
        memcpy(edges, crossing, sizeof edges);
        edges[1] = strange[at];
        answer = gone_on(1, edges, 2, own, 2);
        check(is_refused(&answer, OVERLAY_BAD_ITEM, 0, 1), "an edge that doesn't come in");
    }
    for (size_t at = 0; at < COUNT(alien); at++) {
        memcpy(edges, own, sizeof edges);
        edges[1] = alien[at];
        answer = gone_on(1, crossing, 2, edges, 2);
        check(is_refused(&answer, OVERLAY_BAD_ITEM, 1, 1), "an edge of another strip");
    }
    answer = gone_on(4, crossing, 0, own, 0);
    check(answer.status == OVERLAY_NO_CALL && !answer.number, "nothing goes on from a strip behind the last one");
    overlay_strip_going_on(falling, 3, 1, crossing, 2, own, 2, room, 8, &answer);
    check(is_refused(&answer, OVERLAY_BAD_ITEM, OVERLAY_CUTS, 1), "going on by cuts that fall");
}

/* Strip 1 has the columns 10 to 19. */
static void refused_closed(void) {
    static const struct overlay_directed good[] = {{5, 0, 15, 0}, {5, 1, 15, 1}, {15, 10, 5, 10}};
    static const struct overlay_directed kept[] = {{9, 3, 10, 3}, {10, 3, 9, 3}, {19, 3, 20, 3}, {20, 3, 19, 3}};
    static const struct overlay_directed bad[] = {
        {6, 3, 9, 3},           /* on the left of the strip */
        {9, 3, 6, 3},           /* likewise, to the left */
        {20, 3, 25, 3},         /* on its right */
        {25, 3, 20, 3},         /* likewise, to the left */
        {5, 1, 15, 1},          /* the edge before it */
        {5, 1, 15, 0},          /* a lesser one, by the other end */
        {5, 0, 15, 9},          /* likewise by the start */
        {4, 9, 15, 9},          /* likewise by the column */
        {15, 10, 15, 10},       /* one point */
        {15, 10, 5, 268435457}, /* out of range */
        {15, 10, -268435457, 9} /* likewise */
    };
    static const size_t none[][2] = {{1, 1}, {2, 1}, {0, 0}, {0, 4}, {3, 3}, {3, 4}, {(size_t)-1, 1}, {1, (size_t)-1}};
    static const int32_t falling[] = {20, 10};
    struct overlay_directed edges[3];
    struct overlay_strip_answer answer = parted(1, 2, good, 3);
    check(answer.status == OVERLAY_ANSWERED && !answer.first && !answer.second, "good edges of a range");
    memcpy(edges, good, sizeof edges);
    for (size_t at = 0; at < COUNT(kept); at++) {
        edges[2] = kept[at];
        answer = parted(1, 2, edges, 3);
        check(answer.status == OVERLAY_ANSWERED, "an edge with one column of a range");
    }
    for (size_t at = 0; at < COUNT(bad); at++) {
        edges[2] = bad[at];
        answer = parted(1, 2, edges, 3);
        check(is_refused(&answer, OVERLAY_BAD_ITEM, 0, 2), "a bad edge of a range");
    }
    for (size_t at = 0; at < COUNT(none); at++) {
        answer = parted(none[at][0], none[at][1], good, 3);
        check(answer.status == OVERLAY_NO_CALL && !answer.number && !answer.part && !answer.detail, "no such strips");
    }
    overlay_strip_closed(falling, 2, 1, 2, good, 3, closed_room, 32, waiting_room, 32, &answer);
    check(is_refused(&answer, OVERLAY_BAD_ITEM, OVERLAY_CUTS, 1), "a range of cuts that fall");
    overlay_strip_closed(falling, 2, 1, 1, good, 3, closed_room, 32, waiting_room, 32, &answer);
    check(answer.status == OVERLAY_NO_CALL, "no strips of cuts that fall");
}

/* ---- rooms and memory */

#define IS_CLEAN(room) is_clean((const uint8_t *)(room), sizeof(room))

static int is_clean(const uint8_t *room, size_t length) {
    for (size_t at = 0; at < length; at++)
        if (room[at] != 0x7F)
            return 0;
    return 1;
}

static struct overlay_line line_room[32];
static uint32_t begin_room[8];
static struct overlay_counted edge_room[32];
static struct overlay_open left_room[8], right_room[8];
static struct overlay_carried next_room[8];
static struct overlay_directed directed_room[16];

static void spoil_rooms(void) {
    memset(line_room, 0x7F, sizeof line_room);
    memset(begin_room, 0x7F, sizeof begin_room);
    memset(edge_room, 0x7F, sizeof edge_room);
    memset(left_room, 0x7F, sizeof left_room);
    memset(right_room, 0x7F, sizeof right_room);
    memset(next_room, 0x7F, sizeof next_room);
    memset(directed_room, 0x7F, sizeof directed_room);
    memset(closed_room, 0x7F, sizeof closed_room);
    memset(waiting_room, 0x7F, sizeof waiting_room);
}

static int are_rooms_clean(void) {
    return IS_CLEAN(line_room) && IS_CLEAN(begin_room) && IS_CLEAN(edge_room) && IS_CLEAN(left_room) && IS_CLEAN(right_room) && IS_CLEAN(next_room)
           && IS_CLEAN(directed_room) && IS_CLEAN(closed_room) && IS_CLEAN(waiting_room);
}

/* One of the calls on the map by hand, with rooms of these lengths. */
static struct overlay_strip_answer called(int call, size_t first, size_t second, size_t third) {
    struct overlay_strip_answer answer = GARBAGE;
    spoil_rooms();
    if (call == 0)
        overlay_strip_scatter(CUTS, 3, 0, 0, &A, line_room, first, begin_room, second, &answer);
    else if (call == 1)
        overlay_strip_round(CUTS, 3, 1, strips[1].lines, strips[1].line_count, edge_room, first, left_room, second, right_room, third, &answer);
    else if (call == 2)
        overlay_strip_bridge(LEFT_1, 6, LEFT_1, 4, FROM_3, 4, edge_room, first, next_room, second, &answer);
    else if (call == 3)
        overlay_strip_edges(INNER_1, 5, ACROSS_1, 4, edge_room, first, &answer);
    else if (call == 4)
        overlay_strip_labels(OVERLAY_DIFFERENCE, strips[1].crossing, strips[1].crossing_count, strips[1].edges, strips[1].edge_count, directed_room, first, &answer);
    else if (call == 5)
        overlay_strip_going_on(CUTS, 3, 1, strips[1].crossing, strips[1].crossing_count, strips[1].edges, strips[1].edge_count, edge_room, first, &answer);
    else
        overlay_strip_closed(BORDERS, 2, 0, 1, KNOWN_0, COUNT(KNOWN_0), closed_room, first, waiting_room, second, &answer);
    return answer;
}

/* How many items each room of the calls is to hold. */
enum { CALLS = 7 };

static const size_t WANTED[CALLS][3] = {{20, 5, 0}, {5, 6, 4}, {4, 6, 0}, {9, 0, 0}, {6, 0, 0}, {4, 0, 0}, {8, 10, 0}};

static void small_rooms(void) {
    for (int call = 0; call < CALLS; call++) {
        const size_t *wanted = WANTED[call];
        for (int room = 0; room < 3; room++) {
            size_t lengths[3] = {wanted[0], wanted[1], wanted[2]};
            if (!lengths[room])
                continue;
            lengths[room]--;
            struct overlay_strip_answer answer = called(call, lengths[0], lengths[1], lengths[2]);
            check(is_short(&answer, wanted[0], wanted[1], wanted[2]) && are_rooms_clean(), "a small room of a strip");
        }
        struct overlay_strip_answer answer = called(call, wanted[0], wanted[1], wanted[2]);
        check(answer.status == OVERLAY_ANSWERED && answer.first == wanted[0] && answer.second == wanted[1] && answer.third == wanted[2],
              "rooms of a strip that are just large enough");
        check(is_clean((const uint8_t *)(line_room + 20), sizeof line_room - 20 * sizeof *line_room)
                  && is_clean((const uint8_t *)(edge_room + 9), sizeof edge_room - 9 * sizeof *edge_room)
                  && is_clean((const uint8_t *)(directed_room + 6), sizeof directed_room - 6 * sizeof *directed_room)
                  && is_clean((const uint8_t *)(closed_room + 8), sizeof closed_room - 8 * sizeof *closed_room)
                  && is_clean((const uint8_t *)(waiting_room + 10), sizeof waiting_room - 10 * sizeof *waiting_room), "nothing behind the items of a strip");
    }
}

/* From some request on memory is refused: the rooms are as they were, or all lists are there. */
static void memory(void) {
    for (int call = 0; call < CALLS; call++) {
        const size_t *wanted = WANTED[call];
        long refused = 0;
        for (;; refused++) {
            granted = refused;
            struct overlay_strip_answer answer = called(call, wanted[0], wanted[1], wanted[2]);
            granted = -1;
            if (answer.status == OVERLAY_ANSWERED)
                break;
            check(answer.status == OVERLAY_NO_MEMORY && answer.number == OVERLAY_OUT_OF_MEMORY && !answer.first && !answer.part && are_rooms_clean(),
                  "a strip without memory");
            if (refused > 100000)
                break;
        }
        check(refused > 0 && refused < 100000, "memory for a strip was refused");
        printf("strips, call %d: %ld requests refused in turn\n", call, refused);
    }
}

/* ---- polygons in order */

/* The first triangle of either list, by offsets of polygons or of rings alone. */
static const uint32_t SOME_POLYGONS[] = {2, 3, 4}, LAST_RINGS[] = {9, 13, 17}, SOME_RINGS[] = {0, 4, 8}, EACH[] = {0, 1, 2};
static const int32_t SOME_POINTS[] = {0, 0, 8, 0, 8, 8, 0, 0, 5, 20, 7, 20, 6, 22, 5, 20};
/* The first shell begins with all points of the second one but its last, by which it would go first. */
static const int32_t LONGER_POINTS[] = {4, 4, 0, 0, 3, 0, 1, 1, 4, 4, 4, 4, 0, 0, 3, 0, 4, 4};
static const int32_t FRONT_POINTS[] = {4, 4, 0, 0, 3, 0, 4, 4, 4, 4, 0, 0, 3, 0, 1, 1, 4, 4};
static const uint32_t LONGER_RINGS[] = {0, 5, 9}, FRONT_RINGS[] = {0, 4, 9};

static int32_t points_room[64];
static uint32_t rings_room[16], polygons_room[16];

static struct overlay_columns_answer written(const struct overlay_columns *made, size_t first, size_t second, size_t third) {
    struct overlay_columns_answer answer = {9, 9, 9, 9, 9, 9, 9};
    memset(points_room, 0x7F, sizeof points_room);
    memset(rings_room, 0x7F, sizeof rings_room);
    memset(polygons_room, 0x7F, sizeof polygons_room);
    overlay_strip_write(made->coordinates, made->coordinates_length, made->rings, made->rings_length, made->polygons, made->polygons_length, points_room,
                        first, rings_room, second, polygons_room, third, &answer);
    return answer;
}

/* Whether the rooms are as they were behind so many numbers. */
static int is_nothing_behind(size_t first, size_t second, size_t third) {
    return is_clean((const uint8_t *)(points_room + first), sizeof points_room - first * sizeof *points_room)
           && is_clean((const uint8_t *)(rings_room + second), sizeof rings_room - second * sizeof *rings_room)
           && is_clean((const uint8_t *)(polygons_room + third), sizeof polygons_room - third * sizeof *polygons_room);
}

#define ARE_WRITTEN(answer, numbers, begins, parts) \
    ((answer).status == OVERLAY_ANSWERED && !(answer).number && !(answer).part && !(answer).detail && ARE(points_room, (answer).coordinates, numbers) \
     && ARE(rings_room, (answer).rings, begins) && ARE(polygons_room, (answer).polygons, parts) \
     && is_nothing_behind((answer).coordinates, (answer).rings, (answer).polygons))

static int is_unwritten(const struct overlay_columns_answer *answer, uint32_t number, uint64_t detail) {
    return answer->status == OVERLAY_REFUSED && answer->number == number && answer->detail == detail && !answer->part && !answer->coordinates
           && !answer->rings && !answer->polygons && is_nothing_behind(0, 0, 0);
}

static void order_by_hand(void) {
    static const struct overlay_columns again = {
        WRITTEN_POINTS, COUNT(WRITTEN_POINTS), WRITTEN_RINGS, COUNT(WRITTEN_RINGS), WRITTEN_POLYGONS, COUNT(WRITTEN_POLYGONS), NULL, 0,
    };
    static const struct overlay_columns some = {MADE_POINTS, COUNT(MADE_POINTS), MADE_RINGS, COUNT(MADE_RINGS), SOME_POLYGONS, 3, NULL, 0};
    static const struct overlay_columns last = {MADE_POINTS, COUNT(MADE_POINTS), LAST_RINGS, 3, EACH, 3, NULL, 0};
    static const struct overlay_columns longer = {LONGER_POINTS, COUNT(LONGER_POINTS), LONGER_RINGS, 3, EACH, 3, NULL, 0};
    static const uint32_t zero[] = {0}, five[] = {5};
    static const struct overlay_columns none[] = {
        {MADE_POINTS, 0, zero, 1, zero, 1, NULL, 0}, {MADE_POINTS, 0, zero, 0, zero, 0, NULL, 0}, {MADE_POINTS, 0, zero, 0, zero, 1, NULL, 0},
        {MADE_POINTS, COUNT(MADE_POINTS), MADE_RINGS, COUNT(MADE_RINGS), five, 1, NULL, 0},
        {MADE_POINTS, COUNT(MADE_POINTS), five, 1, zero, 1, NULL, 0},
    };
    struct overlay_columns_answer answer = written(&MADE, 64, 16, 16);
    check(ARE_WRITTEN(answer, WRITTEN_POINTS, WRITTEN_RINGS, WRITTEN_POLYGONS), "the polygons of two lists in order");
    answer = written(&again, 64, 16, 16);
    check(ARE_WRITTEN(answer, WRITTEN_POINTS, WRITTEN_RINGS, WRITTEN_POLYGONS), "polygons that are in order");
    answer = written(&some, 64, 16, 16);
    check(ARE_WRITTEN(answer, SOME_POINTS, SOME_RINGS, EACH), "some of the polygons");
    answer = written(&last, 64, 16, 16);
    check(ARE_WRITTEN(answer, SOME_POINTS, SOME_RINGS, EACH), "the polygons of some of the rings");
    answer = written(&longer, 64, 16, 16);
    check(ARE_WRITTEN(answer, FRONT_POINTS, FRONT_RINGS, EACH), "a shell's last point has no say");
    for (size_t at = 0; at < COUNT(none); at++) {
        answer = written(&none[at], 0, 1, 1);
        check(answer.status == OVERLAY_ANSWERED && !answer.coordinates && ARE(rings_room, answer.rings, zero) && ARE(polygons_room, answer.polygons, zero)
                  && is_nothing_behind(0, 1, 1), "no polygons");
    }
}

/* Three triangles, the first and the last of which are the same; and a hole of the last one, which is the second one. */
static const int32_t TWICE_POINTS[] = {0, 0, 4, 0, 0, 4, 0, 0, 1, 1, 2, 1, 1, 2, 1, 1, 0, 0, 4, 0, 0, 4, 0, 0, 1, 1, 2, 1, 1, 2, 1, 1};
static const uint32_t TWICE_RINGS[] = {0, 4, 8, 12, 16}, TWICE_POLYGONS[] = {0, 1, 2, 4};

/* Offsets with a bad one at each place in turn. */
static void refused_offsets(uint32_t number, const uint32_t *good, size_t count, struct overlay_columns *made, const uint32_t **offsets) {
    uint32_t bad[16], past = good[count - 1] + 1;
    *offsets = bad;
    for (size_t at = 0; at < count; at++) {
        memcpy(bad, good, count * sizeof *bad);
        for (int kind = 0; kind < 4; kind++) {
            if (kind < 2 && at < (size_t)kind + 1)
                continue;
            bad[at] = kind == 0 ? bad[at - 1] : kind == 1 ? bad[at - 1] - 1 : kind == 2 ? past : UINT32_MAX;
            struct overlay_columns_answer answer = written(made, 64, 16, 16);
            check(is_unwritten(&answer, number, at), "a bad offset");
        }
    }
}

static void refused_order(void) {
    static const uint32_t one[] = {0, 1}, zero[] = {0};
    struct overlay_columns made = MADE;
    refused_offsets(OVERLAY_RING_OFFSET, MADE_RINGS, COUNT(MADE_RINGS), &made, &made.rings);
    made = MADE;
    refused_offsets(OVERLAY_POLYGON_OFFSET, MADE_POLYGONS, COUNT(MADE_POLYGONS), &made, &made.polygons);
    made = MADE;
    made.coordinates_length--;
    struct overlay_columns_answer answer = written(&made, 64, 16, 16);
    check(is_unwritten(&answer, OVERLAY_COORDINATE_MISSING, 0), "an x without its y, and an offset of rings that passes the end");
    made.coordinates_length--;
    made.polygons = MADE_RINGS;
    made.polygons_length = COUNT(MADE_RINGS);
    answer = written(&made, 64, 16, 16);
    check(is_unwritten(&answer, OVERLAY_RING_OFFSET, COUNT(MADE_RINGS) - 1), "likewise, and one of polygons");
    for (size_t length = 0; length < 2; length++) {
        made = (struct overlay_columns){MADE_POINTS, COUNT(MADE_POINTS), zero, length, one, 2, NULL, 0};
        answer = written(&made, 64, 16, 16);
        check(is_unwritten(&answer, OVERLAY_POLYGON_OFFSET, 1), "a polygon where there are no rings");
        made = (struct overlay_columns){MADE_POINTS, COUNT(MADE_POINTS), zero, length, one + 1, 1, NULL, 0};
        answer = written(&made, 64, 16, 16);
        check(is_unwritten(&answer, OVERLAY_POLYGON_OFFSET, 0), "an offset where there are no rings");
    }
    made = (struct overlay_columns){TWICE_POINTS, COUNT(TWICE_POINTS), TWICE_RINGS, COUNT(TWICE_RINGS), TWICE_POLYGONS, COUNT(TWICE_POLYGONS), NULL, 0};
    answer = written(&made, 64, 16, 16);
    check(is_unwritten(&answer, OVERLAY_CONTRADICTION, 0) || is_unwritten(&answer, OVERLAY_CONTRADICTION, 2), "a shell twice");
    made.polygons_length--;
    answer = written(&made, 64, 16, 16);
    check(answer.status == OVERLAY_ANSWERED && answer.polygons == 3, "a shell once");
}

static void small_order(void) {
    const size_t wanted[3] = {COUNT(WRITTEN_POINTS), COUNT(WRITTEN_RINGS), COUNT(WRITTEN_POLYGONS)};
    for (int room = 0; room < 3; room++)
        for (int empty = 0; empty < 2; empty++) {
            size_t lengths[3] = {wanted[0], wanted[1], wanted[2]};
            lengths[room] = empty ? 0 : lengths[room] - 1;
            struct overlay_columns_answer answer = written(&MADE, lengths[0], lengths[1], lengths[2]);
            check(answer.status == OVERLAY_SMALL && answer.coordinates == wanted[0] && answer.rings == wanted[1] && answer.polygons == wanted[2]
                      && !answer.number && !answer.part && !answer.detail && is_nothing_behind(0, 0, 0), "a small room for polygons in order");
        }
    struct overlay_columns_answer answer = written(&MADE, wanted[0], wanted[1], wanted[2]);
    check(ARE_WRITTEN(answer, WRITTEN_POINTS, WRITTEN_RINGS, WRITTEN_POLYGONS), "rooms for polygons in order that are just large enough");
}

static void memory_for_order(void) {
    long refused = 0;
    for (; refused < 100000; refused++) {
        granted = refused;
        struct overlay_columns_answer answer = written(&MADE, 64, 16, 16);
        granted = -1;
        if (answer.status == OVERLAY_ANSWERED)
            break;
        check(answer.status == OVERLAY_NO_MEMORY && answer.number == OVERLAY_OUT_OF_MEMORY && answer.part == OVERLAY_RUN && !answer.detail
                  && !answer.coordinates && !answer.rings && !answer.polygons && is_nothing_behind(0, 0, 0), "an order without memory");
    }
    check(refused > 0 && refused < 100000, "memory for an order was refused");
    printf("strips, polygons in order: %ld requests refused in turn\n", refused);
}

/* ---- any cuts */

static uint64_t state = 20261129;

static uint32_t any(uint32_t below) {
    state = state * UINT64_C(6364136223846793005) + UINT64_C(1442695040888963407);
    return (uint32_t)(state >> 33) % below;
}

/* A layer of rings, as columns of one polygon and as a text. */
struct layer {
    int32_t points[512];
    uint32_t rings[16], polygons[2], features[2];
    struct overlay_columns columns;
    char text[8192];
    uint32_t segments;
};

static void draw(struct layer *layer, uint32_t rings, uint32_t size) {
    size_t points = 0, length = (size_t)sprintf(layer->text, "POLYGON (");
    layer->segments = 0;
    for (uint32_t ring = 0; ring < rings; ring++) {
        size_t begin = points, count = 3 + any(6);
        layer->rings[ring] = (uint32_t)points;
        for (size_t at = 0; at <= count; at++, points++) {
            int32_t *point = layer->points + 2 * points;
            point[0] = at == count ? layer->points[2 * begin] : (int32_t)any(size) - (int32_t)(size / 2);
            point[1] = at == count ? layer->points[2 * begin + 1] : (int32_t)any(size) - (int32_t)(size / 2);
            layer->segments += at > 0 && (point[0] != point[-2] || point[1] != point[-1]);
            length += (size_t)sprintf(layer->text + length, "%s%d %d", at ? ", " : ring ? ", (" : "(", (int)point[0], (int)point[1]);
        }
        length += (size_t)sprintf(layer->text + length, ")");
    }
    sprintf(layer->text + length, ")");
    layer->rings[rings] = (uint32_t)points;
    layer->polygons[0] = layer->features[0] = 0;
    layer->polygons[1] = rings;
    layer->features[1] = 1;
    layer->columns = (struct overlay_columns){layer->points, 2 * points, layer->rings, rings + 1, layer->polygons, 2, layer->features, 2};
}

/* A result as columns, of the whole layers. */
static int32_t points[4 * ROOM];
static uint32_t rings[ROOM], polygons[ROOM];
static struct overlay_columns_answer result;

/* Whether the directed edges of all strips are those of the rings of a result. */
static int have_edges_of_rings(uint32_t call, size_t count, const struct overlay_columns *a, const struct overlay_columns *b) {
    static struct overlay_directed told[ROOM], wanted[ROOM];
    size_t told_count = 0, wanted_count = 0;
    overlay_columns_fill(call, 33554432, OVERLAY_SEGMENTS, a, b, points, 4 * ROOM, rings, ROOM, polygons, ROOM, &result);
    if (result.status != OVERLAY_ANSWERED)
        return 0;
    for (size_t ring = 0; ring + 1 < result.rings; ring++)
        for (size_t at = rings[ring]; at + 1 < rings[ring + 1] && wanted_count < ROOM; at++)
            memcpy(&wanted[wanted_count++], points + 2 * at, sizeof *wanted);
    for (size_t s = 0; s <= count; s++)
        for (size_t at = 0; at < strips[s].directed_count && told_count < ROOM; at++)
            told[told_count++] = strips[s].directed[at];
    qsort(told, told_count, sizeof *told, by_ends);
    qsort(wanted, wanted_count, sizeof *wanted, by_ends);
    return told_count == wanted_count && !memcmp(told, wanted, told_count * sizeof *told);
}

/* A range of strips, and the edges that wait for a wider one. */
struct range {
    size_t first, past, count;
    struct overlay_directed waiting[ROOM];
};

/* The polygons of all ranges: the points of each, and how many points each of its rings has. */
struct polygon {
    const int32_t *points;
    const uint32_t *rings;
    size_t length, ring_count;
};

static int32_t found_points[4 * ROOM];
static uint32_t found_rings[ROOM];
static struct polygon found[ROOM];
static size_t found_length, found_ring_count, found_count;

static int find_polygons(const struct overlay_directed *closed, size_t count) {
    static int32_t ring_points[4 * ROOM];
    static uint32_t begins[ROOM], parts[ROOM];
    struct overlay_columns_answer answer;
    overlay_polygons(closed, count, ring_points, 4 * ROOM, begins, ROOM, parts, ROOM, &answer);
    if (answer.status != OVERLAY_ANSWERED)
        return 0;
    for (size_t part = 0; part + 1 < answer.polygons; part++) {
        size_t first = begins[parts[part]], past = begins[parts[part + 1]];
        found[found_count++] = (struct polygon){found_points + found_length, found_rings + found_ring_count, 2 * (past - first),
                                                parts[part + 1] - parts[part]};
        memcpy(found_points + found_length, ring_points + 2 * first, 2 * (past - first) * sizeof *ring_points);
        found_length += 2 * (past - first);
        for (size_t ring = parts[part]; ring < parts[part + 1]; ring++)
            found_rings[found_ring_count++] = begins[ring + 1] - begins[ring];
    }
    return 1;
}

static size_t strip_at(const int32_t *cuts, size_t cut_count, int32_t x) {
    size_t strip = 0;
    while (strip < cut_count && cuts[strip] <= x)
        strip++;
    return strip;
}

/* Those of the polygons that begin in a strip, as they were found. */
static struct overlay_columns found_in(const int32_t *cuts, size_t cut_count, size_t strip) {
    static int32_t made_points[4 * ROOM];
    static uint32_t begins[ROOM], parts[ROOM];
    size_t length = 0, ring_count = 0, count = 0;
    begins[0] = parts[0] = 0;
    for (const struct polygon *one = found; one < found + found_count; one++) {
        if (strip_at(cuts, cut_count, one->points[0]) != strip)
            continue;
        memcpy(made_points + length, one->points, one->length * sizeof *made_points);
        length += one->length;
        for (size_t ring = 0; ring < one->ring_count; ring++, ring_count++)
            begins[ring_count + 1] = begins[ring_count] + one->rings[ring];
        parts[++count] = (uint32_t)ring_count;
    }
    return (struct overlay_columns){made_points, length, begins, ring_count + 1, parts, count + 1, NULL, 0};
}

/* Whether these polygons, brought in order strip by strip, are those of the result, one strip behind another. */
static int are_of_result(const int32_t *cuts, size_t cut_count) {
    static int32_t told_points[4 * ROOM];
    static uint32_t begins[ROOM], parts[ROOM];
    size_t at = 0, ring_at = 0, part_at = 0;
    if (found_length != result.coordinates || found_ring_count + 1 != result.rings || found_count + 1 != result.polygons)
        return 0;
    for (size_t s = 0; s <= cut_count; s++) {
        struct overlay_columns made = found_in(cuts, cut_count, s);
        struct overlay_columns_answer answer;
        overlay_strip_write(made.coordinates, made.coordinates_length, made.rings, made.rings_length, made.polygons, made.polygons_length, told_points,
                            4 * ROOM, begins, ROOM, parts, ROOM, &answer);
        if (answer.status != OVERLAY_ANSWERED || answer.coordinates != made.coordinates_length || answer.rings != made.rings_length
            || answer.polygons != made.polygons_length || memcmp(told_points, points + at, made.coordinates_length * sizeof *points))
            return 0;
        for (size_t ring = 0; ring < made.rings_length; ring++)
            if (begins[ring] + at / 2 != rings[ring_at + ring])
                return 0;
        for (size_t part = 0; part < made.polygons_length; part++)
            if (parts[part] + ring_at != polygons[part_at + part])
                return 0;
        at += made.coordinates_length;
        ring_at += made.rings_length - 1;
        part_at += made.polygons_length - 1;
    }
    return 1;
}

/* Adds those of some edges that have a column of the strip or of a later one. */
static size_t add_reaching(const int32_t *cuts, size_t strip, const struct overlay_directed *edges, size_t edge_count, struct overlay_directed *known,
                           size_t count) {
    for (size_t at = 0; at < edge_count; at++)
        if (!strip || cuts[strip - 1] <= edges[at].ax || cuts[strip - 1] <= edges[at].bx)
            known[count++] = edges[at];
    return count;
}

static int part_range(const int32_t *cuts, size_t cut_count, struct range *range, struct overlay_directed *known, size_t count) {
    static struct overlay_directed closed[ROOM];
    struct overlay_strip_answer answer = GARBAGE;
    qsort(known, count, sizeof *known, by_ends);
    overlay_strip_closed(cuts, cut_count, range->first, range->past, known, count, closed, ROOM, range->waiting, ROOM, &answer);
    range->count = (size_t)answer.second;
    return answer.status == OVERLAY_ANSWERED && !answer.third && find_polygons(closed, (size_t)answer.first);
}

/* Whether ranges of the strips, any two that touch brought together until there is one, have the polygons of the result. */
static int have_polygons_of_result(const int32_t *cuts, size_t cut_count) {
    static struct range held[MOST_STRIPS];
    static struct overlay_directed known[ROOM];
    struct range *ranges[MOST_STRIPS];
    size_t range_count = cut_count + 1;
    int done = 1;
    found_length = found_ring_count = found_count = 0;
    for (size_t s = 0; s < range_count && done; s++) {
        size_t count = 0;
        for (size_t k = 0; k <= s; k++)
            count = add_reaching(cuts, s, strips[k].directed, strips[k].directed_count, known, count);
        ranges[s] = &held[s];
        held[s].first = s;
        held[s].past = s + 1;
        done = part_range(cuts, cut_count, ranges[s], known, count);
    }
    while (range_count > 1 && done) {
        size_t at = any((uint32_t)range_count - 1), count = 0;
        for (size_t k = 0; k <= at + 1; k++)
            count = add_reaching(cuts, ranges[at]->first, ranges[k]->waiting, ranges[k]->count, known, count);
        ranges[at]->past = ranges[at + 1]->past;
        done = part_range(cuts, cut_count, ranges[at], known, count);
        range_count--;
        for (size_t k = at + 1; k < range_count; k++)
            ranges[k] = ranges[k + 1];
    }
    return done && !ranges[0]->count && are_of_result(cuts, cut_count);
}

static void any_cuts(void) {
    static const uint32_t SIZES[] = {12, 60, 2000, 536870912};
    static struct layer a, b;
    static char text[TEXT], wanted[TEXT];
    int done = 0, same = 0, results = 0, by_ranges = 0, maps = 0;
    for (; maps < 4000; maps++) {
        uint32_t size = SIZES[maps % COUNT(SIZES)];
        int32_t cuts[MOST_STRIPS - 1];
        size_t count = any(MOST_STRIPS);
        draw(&a, 1 + any(4), size);
        draw(&b, 1 + any(4), size);
        for (size_t at = 0; at < count; at++) {
            size_t place = at;
            int32_t cut = (int32_t)any(size + 4) - (int32_t)(size / 2) - 2;
            for (; place > 0 && cuts[place - 1] > cut; place--)
                cuts[place] = cuts[place - 1];
            cuts[place] = cut;
        }
        struct overlay_answer answer;
        overlay_fill(OVERLAY_EDGES, 33554432, (const uint8_t *)a.text, strlen(a.text), (const uint8_t *)b.text, strlen(b.text), (uint8_t *)wanted, TEXT, &answer);
        if (!all_strips(cuts, count, &a.columns, a.segments, &b.columns))
            continue;
        done++;
        size_t length = edges_text(count, text);
        same += answer.status == OVERLAY_ANSWERED && answer.length == length && !memcmp(text, wanted, length);
        uint32_t call = (uint32_t)maps / COUNT(SIZES) % 4;
        int labelled_all = all_labels(call, cuts, count) && have_edges_of_rings(call, count, &a.columns, &b.columns);
        results += labelled_all;
        by_ranges += labelled_all && have_polygons_of_result(cuts, count);
    }
    check(done == maps, "maps by any cuts");
    check(same == maps, "the edges of maps by any cuts");
    check(results == maps, "the directed edges of results by any cuts");
    check(by_ranges == maps, "the polygons of results by any ranges");
    printf("strips: the edges of %d maps of %d, the directed edges of %d results, the polygons of %d by ranges\n", same, maps, results, by_ranges);
}

/* ---- edges that are no map's */

static int by_counted_ends(const void *one, const void *other) {
    const struct overlay_counted *d = (const struct overlay_counted *)one, *e = (const struct overlay_counted *)other;
    if (d->px != e->px)
        return d->px < e->px ? -1 : 1;
    if (d->py != e->py)
        return d->py < e->py ? -1 : 1;
    if (d->qx != e->qx)
        return d->qx < e->qx ? -1 : 1;
    return (d->qy > e->qy) - (d->qy < e->qy);
}

/* Draws ascending edges that begin in some columns, whatever they cross. */
static size_t draw_edges(struct overlay_counted *edges, size_t count, int32_t begin, uint32_t columns, uint32_t size) {
    size_t kept = 0;
    for (size_t at = 0; at < count; at++) {
        int32_t px = begin + (int32_t)any(columns), py = (int32_t)any(size), dx = (int32_t)any(size), dy = (int32_t)any(2 * size) - (int32_t)size;
        if (dx || dy > 0)
            edges[kept++] = (struct overlay_counted){px, py, px + dx, py + dy, any(4), any(4)};
    }
    qsort(edges, kept, sizeof *edges, by_counted_ends);
    count = kept;
    kept = 0;
    for (size_t at = 0; at < count; at++)
        if (!kept || by_counted_ends(&edges[kept - 1], &edges[at]))
            edges[kept++] = edges[at];
    return kept;
}

/* Such edges are answered, by directed edges along those of the strip that ascend. */
static void no_maps(void) {
    static struct overlay_counted crossing[1024], own[1024];
    static struct overlay_directed directed[2048];
    int answered = 0, strange = 0, ascending = 0, tries = 0;
    for (; tries < 30000; tries++) {
        size_t many = tries % 100 ? 12 : 1000;
        uint32_t size = tries % 3 ? 8 : 1000;
        size_t crossing_count = draw_edges(crossing, any((uint32_t)many), -5, 5, size), own_count = draw_edges(own, any((uint32_t)many), 0, 1 + any(size), size);
        struct overlay_strip_answer answer = GARBAGE;
        overlay_strip_labels(any(4), crossing, crossing_count, own, own_count, directed, 2048, &answer);
        answered += answer.status == OVERLAY_ANSWERED;
        size_t at = 1;
        while (at < answer.first && by_ends(&directed[at - 1], &directed[at]) < 0)
            at++;
        ascending += answer.status == OVERLAY_ANSWERED && at >= answer.first;
        if (own_count) {
            own[any((uint32_t)own_count)] = (struct overlay_counted){(int32_t)any(16) - 8, (int32_t)any(16) - 8, (int32_t)any(16) - 8, (int32_t)any(16) - 8, any(9), any(9)};
            overlay_strip_labels(any(6), crossing, crossing_count, own, own_count, directed, 2048, &answer);
        }
        strange += answer.status != OVERLAY_ANSWERED && answer.status != OVERLAY_REFUSED && answer.status != OVERLAY_NO_CALL;
    }
    check(answered == tries && ascending == tries && !strange, "edges that are no map's");
    printf("strips: %d lists of edges that are no map's were answered of %d\n", answered, tries);
}

int main(void) {
    lines_by_hand();
    lists_by_hand();
    refused_scatter();
    refused_round();
    refused_bridge();
    labels_by_hand();
    refused_edges();
    refused_labels();
    refused_going_on();
    ranges_by_hand();
    refused_closed();
    small_rooms();
    memory();
    order_by_hand();
    refused_order();
    small_order();
    memory_for_order();
    any_cuts();
    no_maps();
    return failures != 0;
}
