/* overlay_polygons, under the sanitizers: lists worked out by hand, lists that are refused and where, rooms that are too small, memory refused in
 * turn; the edges of results of chance, which get the polygons of these results; and 30,000 lists of chance, most of them broken, of which a
 * reference below says, vertex by vertex and pair by pair, whether and where they are refused. */
#include "../overlay.h"
#include "checking.h"

#include <stdlib.h>
#include <string.h>

#define COUNT(array) (sizeof(array) / sizeof *(array))
#define LIMIT 268435456
#define ROOM 4096

static const struct overlay_columns_answer GARBAGE = {9, 9, 9, 9, 9, 9, 9};

static int32_t coordinates[ROOM];
static uint32_t rings[ROOM], polygons[ROOM];

/* The answer for edges, with rooms of these lengths. The edges end where their block does, for the sanitizers. */
static struct overlay_columns_answer called(const struct overlay_directed *edges, size_t count, size_t first, size_t second, size_t third) {
    struct overlay_columns_answer answer = GARBAGE;
    struct overlay_directed *held = malloc(count * sizeof *edges + 1);
    memcpy(held, edges, count * sizeof *edges);
    memset(coordinates, 0x7F, sizeof coordinates);
    memset(rings, 0x7F, sizeof rings);
    memset(polygons, 0x7F, sizeof polygons);
    overlay_polygons(held, count, coordinates, first, rings, second, polygons, third, &answer);
    free(held);
    return answer;
}

static int is_clean(const void *room, size_t from, size_t past) {
    for (size_t at = from; at < past; at++)
        if (((const uint8_t *)room)[at] != 0x7F)
            return 0;
    return 1;
}

/* Whether the rooms are as they were behind so many numbers. */
static int are_clean(size_t first, size_t second, size_t third) {
    return is_clean(coordinates, 4 * first, sizeof coordinates) && is_clean(rings, 4 * second, sizeof rings)
        && is_clean(polygons, 4 * third, sizeof polygons);
}

static int is_refused(const struct overlay_columns_answer *answer, uint32_t number, uint64_t detail) {
    return answer->status == OVERLAY_REFUSED && answer->number == number && answer->detail == detail && !answer->part && !answer->coordinates
        && !answer->rings && !answer->polygons && are_clean(0, 0, 0);
}

/* ---- by hand */

/* A square with a hole, which touches the square's lower side at (4, 0). */
static const struct overlay_directed TOUCHED[] = {
    {0, 0, 4, 0}, {0, 8, 0, 0}, {2, 2, 4, 4}, {4, 0, 2, 2}, {4, 0, 8, 0}, {4, 4, 6, 2}, {6, 2, 4, 0}, {8, 0, 8, 8}, {8, 8, 0, 8},
};
static const int32_t TOUCHED_POINTS[] = {0, 0, 4, 0, 8, 0, 8, 8, 0, 8, 0, 0, 2, 2, 4, 4, 6, 2, 4, 0, 2, 2};
static const uint32_t TOUCHED_RINGS[] = {0, 6, 11}, TOUCHED_POLYGONS[] = {0, 2};

/* A square with a hole, and a triangle in that. */
static const struct overlay_directed NESTED[] = {
    {0, 0, 9, 0}, {0, 9, 0, 0}, {1, 1, 1, 8}, {1, 8, 8, 8}, {2, 2, 5, 2}, {2, 5, 2, 2}, {5, 2, 2, 5}, {8, 1, 1, 1}, {8, 8, 8, 1}, {9, 0, 9, 9}, {9, 9, 0, 9},
};
static const int32_t NESTED_POINTS[] = {0, 0, 9, 0, 9, 9, 0, 9, 0, 0, 1, 1, 1, 8, 8, 8, 8, 1, 1, 1, 2, 2, 5, 2, 2, 5, 2, 2};
static const uint32_t NESTED_RINGS[] = {0, 5, 10, 14}, NESTED_POLYGONS[] = {0, 2, 3};

#define ARE(got, count, wanted) ((count) == COUNT(wanted) && !memcmp(got, wanted, sizeof(wanted)))

static void by_hand(void) {
    struct overlay_columns_answer answer = called(TOUCHED, COUNT(TOUCHED), ROOM, ROOM, ROOM);
    check(answer.status == OVERLAY_ANSWERED && !answer.detail && !answer.number && !answer.part, "a hole that touches its shell");
    check(ARE(coordinates, answer.coordinates, TOUCHED_POINTS) && ARE(rings, answer.rings, TOUCHED_RINGS) && ARE(polygons, answer.polygons, TOUCHED_POLYGONS)
              && are_clean(answer.coordinates, answer.rings, answer.polygons), "its columns");
    answer = called(NESTED, COUNT(NESTED), ROOM, ROOM, ROOM);
    check(answer.status == OVERLAY_ANSWERED && ARE(coordinates, answer.coordinates, NESTED_POINTS) && ARE(rings, answer.rings, NESTED_RINGS)
              && ARE(polygons, answer.polygons, NESTED_POLYGONS), "an island in a hole");
    answer = called(TOUCHED, 0, ROOM, ROOM, ROOM);
    check(answer.status == OVERLAY_ANSWERED && !answer.coordinates && answer.rings == 1 && answer.polygons == 1 && !rings[0] && !polygons[0], "no edges");
}

/* What makes each list none that has polygons. */
static void refused(void) {
    static const struct overlay_directed bad[] = {
        {8, 0, 8, LIMIT + 1}, {8, 0, -LIMIT - 1, 8}, {LIMIT + 1, 0, 8, 8}, {8, -LIMIT - 1, 8, 8}, /* out of range */
        {8, 0, 8, 0},                                                                            /* one point */
        {6, 2, 4, 0}, {6, 2, 3, 9}, {6, 1, 8, 8}, {5, 9, 8, 8},                                  /* not behind the one before it */
    };
    struct overlay_directed edges[COUNT(TOUCHED) + 1];
    for (size_t at = 0; at < COUNT(bad); at++) {
        memcpy(edges, TOUCHED, sizeof TOUCHED);
        edges[7] = bad[at];
        struct overlay_columns_answer answer = called(edges, COUNT(TOUCHED), ROOM, ROOM, ROOM);
        check(is_refused(&answer, OVERLAY_BAD_ITEM, 7), "a bad edge");
    }
    for (size_t left = 0; left < COUNT(TOUCHED); left++) {
        memcpy(edges, TOUCHED, left * sizeof *edges);
        memcpy(edges + left, TOUCHED + left + 1, (COUNT(TOUCHED) - left - 1) * sizeof *edges);
        struct overlay_columns_answer answer = called(edges, COUNT(TOUCHED) - 1, ROOM, ROOM, ROOM);
        check(answer.status == OVERLAY_REFUSED && answer.number == OVERLAY_CONTRADICTION && are_clean(0, 0, 0), "an edge that is missing");
    }
    static const struct overlay_directed back[] = {{0, 0, 2, 0}, {0, 4, 0, 0}, {2, 0, 0, 0}, {2, 0, 0, 4}};
    struct overlay_columns_answer answer = called(back, COUNT(back), ROOM, ROOM, ROOM);
    check(is_refused(&answer, OVERLAY_CONTRADICTION, 0), "an edge in both directions");
    static const struct overlay_directed flat[] = {{0, 0, 1, 0}, {1, 0, 2, 0}, {2, 0, 0, 0}};
    answer = called(flat, COUNT(flat), ROOM, ROOM, ROOM);
    check(is_refused(&answer, OVERLAY_CONTRADICTION, 0), "edges in one direction");
    static const struct overlay_directed apart[] = {{0, 0, 1, 0}, {0, 1, 0, 0}, {1, 0, 0, 1}, {5, 5, 6, 5}, {5, 6, 5, 5}};
    answer = called(apart, COUNT(apart), ROOM, ROOM, ROOM);
    check(is_refused(&answer, OVERLAY_CONTRADICTION, 3), "a ring that isn't closed, behind one that is");
    static const struct overlay_directed beside[] = {{0, 0, 1, 4}, {0, 0, 4, 0}, {1, 4, 4, 4}, {4, 0, 4, 1}, {4, 1, 0, 0}, {4, 4, 0, 0}};
    answer = called(beside, COUNT(beside), ROOM, ROOM, ROOM);
    check(is_refused(&answer, OVERLAY_CONTRADICTION, 0), "two that arrive beside each other");
}

static void small_rooms(void) {
    const size_t wanted[3] = {COUNT(TOUCHED_POINTS), COUNT(TOUCHED_RINGS), COUNT(TOUCHED_POLYGONS)};
    for (int room = 0; room < 3; room++) {
        size_t lengths[3] = {wanted[0], wanted[1], wanted[2]};
        lengths[room]--;
        struct overlay_columns_answer answer = called(TOUCHED, COUNT(TOUCHED), lengths[0], lengths[1], lengths[2]);
        check(answer.status == OVERLAY_SMALL && answer.coordinates == wanted[0] && answer.rings == wanted[1] && answer.polygons == wanted[2]
                  && !answer.number && are_clean(0, 0, 0), "a small room of polygons");
    }
    struct overlay_columns_answer answer = called(TOUCHED, COUNT(TOUCHED), wanted[0], wanted[1], wanted[2]);
    check(answer.status == OVERLAY_ANSWERED && are_clean(wanted[0], wanted[1], wanted[2]), "rooms of polygons that are just large enough");
}

static void memory(void) {
    long count = 0;
    for (; count < 100000; count++) {
        granted = count + 1; /* one for the edges of this test */
        struct overlay_columns_answer answer = called(NESTED, COUNT(NESTED), ROOM, ROOM, ROOM);
        granted = -1;
        if (answer.status == OVERLAY_ANSWERED)
            break;
        check(answer.status == OVERLAY_NO_MEMORY && answer.number == OVERLAY_OUT_OF_MEMORY && answer.part == OVERLAY_RUN && !answer.detail
                  && !answer.coordinates && are_clean(0, 0, 0), "polygons without memory");
    }
    check(count > 0 && count < 100000, "memory for polygons was refused");
    printf("polygons: %ld requests refused in turn\n", count);
}

/* ---- the edges of results */

static uint64_t state = 20261129;

static uint32_t any(uint32_t below) {
    state = state * UINT64_C(6364136223846793005) + UINT64_C(1442695040888963407);
    return (uint32_t)(state >> 33) % below;
}

static int compared(const void *p, const void *q) {
    const struct overlay_directed *d = p, *e = q;
    const int32_t first[4] = {d->ax, d->ay, d->bx, d->by}, second[4] = {e->ax, e->ay, e->bx, e->by};
    for (int k = 0; k < 4; k++)
        if (first[k] != second[k])
            return first[k] < second[k] ? -1 : 1;
    return 0;
}

/* A layer of one polygon with rings of chance. */
struct layer {
    int32_t points[256];
    uint32_t rings[8], polygons[2], features[2];
};

static struct overlay_columns drawn(struct layer *layer, uint32_t count, uint32_t size) {
    size_t points = 0;
    for (uint32_t ring = 0; ring < count; ring++) {
        size_t first = points;
        layer->rings[ring] = (uint32_t)points;
        for (uint32_t corners = 3 + any(7); corners; corners--, points++) {
            layer->points[2 * points] = (int32_t)any(size) - (int32_t)(size / 2);
            layer->points[2 * points + 1] = (int32_t)any(size) - (int32_t)(size / 2);
        }
        memcpy(layer->points + 2 * points++, layer->points + 2 * first, 8);
    }
    layer->rings[count] = (uint32_t)points;
    layer->polygons[0] = layer->features[0] = 0;
    layer->polygons[1] = count;
    layer->features[1] = 1;
    return (struct overlay_columns){layer->points, 2 * points, layer->rings, count + 1, layer->polygons, 2, layer->features, 2};
}

/* The edges of rings, ascending. */
static size_t edges_of(const int32_t *points, const uint32_t *begins, size_t offsets, struct overlay_directed *edges) {
    size_t count = 0;
    for (size_t ring = 0; ring + 1 < offsets; ring++)
        for (size_t k = begins[ring]; k + 1 < begins[ring + 1]; k++)
            edges[count++] = (struct overlay_directed){points[2 * k], points[2 * k + 1], points[2 * k + 2], points[2 * k + 3]};
    qsort(edges, count, sizeof *edges, compared);
    return count;
}

static void results(void) {
    static const uint32_t SIZES[] = {8, 30, 2000, 536870912};
    static struct layer a, b;
    static int32_t points[ROOM];
    static uint32_t offsets[ROOM], parts[ROOM];
    static struct overlay_directed edges[ROOM];
    int same = 0, maps = 0;
    for (; maps < 6000; maps++) {
        struct overlay_columns first = drawn(&a, 1 + any(4), SIZES[maps % 4]), second = drawn(&b, 1 + any(4), SIZES[maps % 4]);
        struct overlay_columns_answer wanted;
        overlay_columns_fill(any(4), 33554432, 1000, &first, &second, points, ROOM, offsets, ROOM, parts, ROOM, &wanted);
        if (wanted.status != OVERLAY_ANSWERED)
            continue;
        size_t count = edges_of(points, offsets, wanted.rings, edges);
        struct overlay_columns_answer answer = called(edges, count, ROOM, ROOM, ROOM);
        same += answer.status == OVERLAY_ANSWERED && answer.coordinates == wanted.coordinates && answer.rings == wanted.rings
            && answer.polygons == wanted.polygons && !memcmp(coordinates, points, 4 * answer.coordinates) && !memcmp(rings, offsets, 4 * answer.rings)
            && !memcmp(polygons, parts, 4 * answer.polygons);
    }
    check(same == maps, "the polygons of results");
    printf("polygons: those of %d results of %d\n", same, maps);
}

/* ---- lists of chance, and the reference */

struct point {
    int64_t x, y;
};

static struct point start(const struct overlay_directed *e) {
    return (struct point){e->ax, e->ay};
}

static struct point end(const struct overlay_directed *e) {
    return (struct point){e->bx, e->by};
}

static int are_same(struct point p, struct point q) {
    return p.x == q.x && p.y == q.y;
}

static int is_less(struct point p, struct point q) {
    return p.x < q.x || (p.x == q.x && p.y < q.y);
}

/* Turning clockwise round v from straight up, a is met before b. */
static int is_sooner(struct point v, struct point a, struct point b) {
    if (is_less(v, a) != is_less(v, b))
        return is_less(v, a);
    return (a.x - v.x) * (b.y - v.y) - (a.y - v.y) * (b.x - v.x) < 0;
}

static int is_met_before(struct point v, struct point u, struct point a, struct point b) {
    return (is_sooner(v, u, a) && is_sooner(v, a, b)) || (is_sooner(v, a, b) && is_sooner(v, b, u)) || (is_sooner(v, b, u) && is_sooner(v, u, a));
}

#define MOST 24

struct list {
    struct overlay_directed edges[MOST];
    size_t count;
};

static int has(const struct list *l, struct point u, struct point v) {
    for (size_t k = 0; k < l->count; k++)
        if (are_same(start(&l->edges[k]), u) && are_same(end(&l->edges[k]), v))
            return 1;
    return 0;
}

/* The points that edges join with v. */
static size_t neighbours(const struct list *l, struct point v, struct point *found) {
    size_t count = 0;
    for (size_t k = 0; k < l->count; k++) {
        if (are_same(start(&l->edges[k]), v))
            found[count++] = end(&l->edges[k]);
        if (are_same(end(&l->edges[k]), v))
            found[count++] = start(&l->edges[k]);
    }
    return count;
}

/* Whether the first neighbour of v that is met from u is reached by an edge that leaves. */
static int has_next(const struct list *l, struct point u, struct point v, const struct point *around, size_t count) {
    for (size_t w = 0; w < count; w++) {
        int first = has(l, v, around[w]) && !are_same(around[w], u);
        for (size_t a = 0; a < count && first; a++)
            first = are_same(around[a], u) || are_same(around[a], around[w]) || is_met_before(v, u, around[w], around[a]);
        if (first)
            return 1;
    }
    return 0;
}

static int closes_at(const struct list *l, struct point v) {
    struct point around[2 * MOST];
    size_t count = neighbours(l, v, around);
    for (size_t a = 0; a < count; a++)
        for (size_t b = 0; b < count; b++)
            if (!are_same(around[a], around[b]) && !is_sooner(v, around[a], around[b]) && !is_sooner(v, around[b], around[a]))
                return 0;
    for (size_t a = 0; a < count; a++)
        if (has(l, around[a], v) && (has(l, v, around[a]) || !has_next(l, around[a], v, around, count)))
            return 0;
    return 1;
}

static int is_in_range(int64_t number) {
    return -LIMIT <= number && number <= LIMIT;
}

static int is_bad(const struct list *l, size_t k) {
    struct point p = start(&l->edges[k]), q = end(&l->edges[k]);
    return !is_in_range(p.x) || !is_in_range(p.y) || !is_in_range(q.x) || !is_in_range(q.y) || are_same(p, q)
        || (k && compared(&l->edges[k - 1], &l->edges[k]) >= 0);
}

/* The number of the refusal and the place, or 0. */
static uint32_t refusal(const struct list *l, size_t *place) {
    for (size_t k = 0; k < l->count; k++)
        if (is_bad(l, k)) {
            *place = k;
            return OVERLAY_BAD_ITEM;
        }
    for (size_t k = 0; k < l->count; k++)
        if (!closes_at(l, start(&l->edges[k])) || !closes_at(l, end(&l->edges[k]))) {
            *place = k;
            return OVERLAY_CONTRADICTION;
        }
    return 0;
}

static void add(struct list *l, struct point p, struct point q) {
    if (l->count < MOST)
        l->edges[l->count++] = (struct overlay_directed){(int32_t)p.x, (int32_t)p.y, (int32_t)q.x, (int32_t)q.y};
}

static struct point any_point(int64_t reach) {
    struct point p;
    p.x = (int64_t)any((uint32_t)(2 * reach + 1)) - reach;
    p.y = (int64_t)any((uint32_t)(2 * reach + 1)) - reach;
    return p;
}

/* Rings of chance, some of which cross or touch; in most lists some edges are changed. */
static void draw(struct list *l) {
    static const int64_t REACHES[] = {1, 2, 2, 3, 3, 20, LIMIT, LIMIT + 1};
    int64_t reach = REACHES[any(COUNT(REACHES))];
    l->count = 0;
    for (uint32_t count = any(5); count; count--) {
        struct point first = any_point(reach), last = first;
        for (uint32_t corners = 2 + any(3); corners; corners--) {
            struct point next = any_point(reach);
            add(l, last, next);
            last = next;
        }
        add(l, last, first);
    }
    qsort(l->edges, l->count, sizeof *l->edges, compared);
    size_t kept = 0; /* most lists have no edge twice, and no point alone */
    for (size_t k = 0; k < l->count && any(20); k++, kept = k)
        ;
    if (kept == l->count) {
        kept = 0;
        for (size_t k = 0; k < l->count; k++)
            if (!are_same(start(&l->edges[k]), end(&l->edges[k])) && (!kept || compared(&l->edges[kept - 1], &l->edges[k])))
                l->edges[kept++] = l->edges[k];
        l->count = kept;
    }
    for (uint32_t edits = any(3) ? 0 : 1 + any(2); edits && l->count; edits--) {
        struct point p = any_point(reach), q = any_point(reach);
        l->edges[any((uint32_t)l->count)] = (struct overlay_directed){(int32_t)p.x, (int32_t)p.y, (int32_t)q.x, (int32_t)q.y};
        if (any(2))
            qsort(l->edges, l->count, sizeof *l->edges, compared);
    }
}

/* Whether the rings that were told have each edge once. */
static int have_each_edge(const struct list *l, const struct overlay_columns_answer *answer) {
    static struct overlay_directed edges[ROOM];
    size_t count = edges_of(coordinates, rings, answer->rings, edges);
    return count == l->count && !memcmp(edges, l->edges, count * sizeof *edges);
}

static void lists(void) {
    int told[3] = {0, 0, 0};
    for (int round = 0; round < 30000; round++) {
        struct list l;
        size_t place = 0;
        draw(&l);
        uint32_t number = refusal(&l, &place);
        struct overlay_columns_answer answer = called(l.edges, l.count, ROOM, ROOM, ROOM);
        if (number)
            check(is_refused(&answer, number, place), "a list that is refused");
        else
            check(answer.status == OVERLAY_ANSWERED && have_each_edge(&l, &answer) && are_clean(answer.coordinates, answer.rings, answer.polygons),
                  "a list that is answered");
        told[number ? number - OVERLAY_BAD_ITEM + 1 : 0]++;
    }
    check(told[0] > 1000 && told[1] > 1000 && told[2] > 1000, "lists of each kind");
    printf("polygons: of 30000 lists %d answered, %d with a bad edge, %d that don't close\n", told[0], told[1], told[2]);
}

int main(void) {
    by_hand();
    refused();
    small_rooms();
    memory();
    results();
    lists();
    return failures != 0;
}
