/* 30,000 pairs of layers as arrays, most of them broken, under the sanitizers: what is refused, and where, is what a reference below says,
 * which follows the rules (docs/RULES.md) feature by feature, polygon by polygon, ring by ring; and where nothing is, the result has the
 * polygons of the line for the same layers as texts. So for pairs of features, whose results are those of the two features alone, and for
 * faces of up to three of these layers, whose rows are the lines for the same features as texts. Each array ends where its block does. */
#include "../overlay.h"

#include <stdio.h>
#include <stdlib.h>
#include <string.h>

#define ROUNDS 30000
#define LIMIT 268435456

static long failures;

static void check(int holds, const char *what, int round) {
    if (!holds) {
        printf("FAILED: %s, in round %d\n", what, round);
        failures++;
    }
}

/* Numbers of chance (Marsaglia's xorshift, 32 bits). */
static uint32_t state = 2463534242u;

static uint32_t below(uint32_t bound) {
    state ^= state << 13;
    state ^= state >> 17;
    state ^= state << 5;
    return state % bound;
}

/* ---- layers of chance */

#define ROOM 1024

/* A layer in the making, with more room than it needs. */
struct made {
    int32_t coordinates[ROOM];
    uint32_t offsets[3][ROOM]; /* of rings, polygons, features */
    size_t coordinates_length, lengths[3];
};

static void add_point(struct made *m, int32_t x, int32_t y) {
    m->coordinates[m->coordinates_length++] = x;
    m->coordinates[m->coordinates_length++] = y;
}

/* A closed ring of chance, where points may be repeated; a few have too few points. */
static void add_ring(struct made *m, int32_t reach) {
    size_t first = m->coordinates_length;
    for (uint32_t corners = 2 + below(5) + (below(5) > 0); corners; corners--)
        add_point(m, (int32_t)below(2 * (uint32_t)reach + 1) - reach, (int32_t)below(2 * (uint32_t)reach + 1) - reach);
    add_point(m, m->coordinates[first], m->coordinates[first + 1]);
    m->offsets[0][m->lengths[0]++] = (uint32_t)(m->coordinates_length / 2);
}

static void add_feature(struct made *m, int32_t reach) {
    for (uint32_t polygons = below(3); polygons; polygons--) {
        for (uint32_t rings = 1 + below(2); rings; rings--)
            add_ring(m, reach);
        m->offsets[1][m->lengths[1]++] = (uint32_t)(m->lengths[0] - 1);
    }
    m->offsets[2][m->lengths[2]++] = (uint32_t)(m->lengths[1] - 1);
}

/* A layer whose only faults are short rings; some have no features, and some leave out their first ones. */
static void make(struct made *m) {
    static const int32_t REACHES[] = {6, 6, 6, 40, 40, 5000, LIMIT};
    int32_t reach = REACHES[below(sizeof REACHES / sizeof *REACHES)];
    memset(m, 0, sizeof *m);
    m->lengths[0] = m->lengths[1] = m->lengths[2] = 1;
    for (uint32_t features = below(5); features; features--)
        add_feature(m, reach);
    uint32_t skipped = below(4) ? 0 : below((uint32_t)m->lengths[2]);
    memmove(m->offsets[2], m->offsets[2] + skipped, (m->lengths[2] - skipped) * sizeof(uint32_t));
    m->lengths[2] -= skipped;
}

/* One edit, which may make a fault. */
static void edit(struct made *m) {
    static const int32_t FAR[] = {LIMIT, -LIMIT, LIMIT + 1, -LIMIT - 1, INT32_MAX, INT32_MIN};
    uint32_t level = below(3), kind = below(12);
    size_t at = m->lengths[level] ? below((uint32_t)m->lengths[level]) : 0;
    size_t number = m->coordinates_length ? below((uint32_t)m->coordinates_length) : 0;
    if (kind < 4)
        m->offsets[level][at] += below(2) ? 1 : UINT32_MAX;
    else if (kind < 5)
        m->offsets[level][at] = below(2) ? below(12) : UINT32_MAX - below(3);
    else if (kind < 6)
        m->lengths[level] = at;
    else if (kind < 8)
        m->coordinates[number] = FAR[below(sizeof FAR / sizeof *FAR)];
    else if (kind < 10)
        m->coordinates[number] = (int32_t)((uint32_t)m->coordinates[number] + (below(2) ? 1 : UINT32_MAX));
    else if (kind < 11 && m->coordinates_length > 1)
        m->coordinates_length -= 2;
    else
        m->coordinates[m->coordinates_length++] = 7;
}

static void *copied(const void *items, size_t size) {
    void *copy = malloc(size ? size : 1);
    memcpy(copy, items, size);
    return copy;
}

static struct overlay_columns handed(const struct made *m) {
    struct overlay_columns c = {
        copied(m->coordinates, m->coordinates_length * sizeof(int32_t)), m->coordinates_length,
        copied(m->offsets[0], m->lengths[0] * sizeof(uint32_t)), m->lengths[0],
        copied(m->offsets[1], m->lengths[1] * sizeof(uint32_t)), m->lengths[1],
        copied(m->offsets[2], m->lengths[2] * sizeof(uint32_t)), m->lengths[2],
    };
    return c;
}

static void let_go(struct overlay_columns c) {
    free((void *)c.coordinates);
    free((void *)c.rings);
    free((void *)c.polygons);
    free((void *)c.features);
}

static struct overlay_columns drawn(void) {
    struct made m;
    make(&m);
    for (uint32_t edits = below(3); edits; edits--)
        edit(&m);
    return handed(&m);
}

/* ---- the reference */

struct fault {
    uint32_t number; /* 0 where there is none */
    uint64_t detail;
};

/* The segments of a layer, and their box. */
struct survey {
    uint64_t segments;
    int64_t left, low, right, high;
};

static struct fault at(uint32_t number, uint64_t detail) {
    struct fault fault = {number, detail};
    return fault;
}

/* The first offset that is below the one before it, or beyond so many lists or points. */
static struct fault first_wrong(uint32_t number, const uint32_t *offsets, size_t length, size_t count) {
    for (size_t k = 0; k < length; k++)
        if ((k && offsets[k] < offsets[k - 1]) || offsets[k] > count)
            return at(number, k);
    return at(0, 0);
}

static size_t lists(size_t offsets) {
    return offsets ? offsets - 1 : 0;
}

/* What is done with each ring that the features reach, until a fault is told. */
typedef struct fault visit(const struct overlay_columns *c, uint32_t ring, struct survey *survey);

static struct fault each_ring(const struct overlay_columns *c, visit *each, struct survey *survey) {
    for (size_t f = 0; f < lists(c->features_length); f++)
        for (uint32_t p = c->features[f]; p < c->features[f + 1]; p++)
            for (uint32_t r = c->polygons[p]; r < c->polygons[p + 1]; r++) {
                struct fault fault = each(c, r, survey);
                if (fault.number)
                    return fault;
            }
    return at(0, 0);
}

static struct fault range(const struct overlay_columns *c, uint32_t ring, struct survey *survey) {
    (void)survey;
    for (uint32_t k = c->rings[ring]; k < c->rings[ring + 1]; k++) {
        int64_t x = c->coordinates[2 * (size_t)k], y = c->coordinates[2 * (size_t)k + 1];
        if (x < -LIMIT || x > LIMIT || y < -LIMIT || y > LIMIT)
            return at(OVERLAY_NUMBER_RANGE, k);
    }
    return at(0, 0);
}

static struct fault closed(const struct overlay_columns *c, uint32_t ring, struct survey *survey) {
    const int32_t *from = c->coordinates + 2 * (size_t)c->rings[ring], *past = c->coordinates + 2 * (size_t)c->rings[ring + 1];
    (void)survey;
    if (past - from < 8)
        return at(OVERLAY_SHORT_RING, ring);
    return from[0] != past[-2] || from[1] != past[-1] ? at(OVERLAY_OPEN_RING, ring) : at(0, 0);
}

static void widen(struct survey *s, int64_t x, int64_t y) {
    s->left = x < s->left ? x : s->left;
    s->right = x > s->right ? x : s->right;
    s->low = y < s->low ? y : s->low;
    s->high = y > s->high ? y : s->high;
}

static struct fault counted(const struct overlay_columns *c, uint32_t ring, struct survey *survey) {
    for (size_t k = c->rings[ring]; k + 1 < c->rings[ring + 1]; k++) {
        const int32_t *p = c->coordinates + 2 * k;
        if (p[0] != p[2] || p[1] != p[3]) {
            survey->segments++;
            widen(survey, p[0], p[1]);
            widen(survey, p[2], p[3]);
        }
    }
    return at(0, 0);
}

static struct fault layer_fault(const struct overlay_columns *c) {
    struct fault fault = at(c->coordinates_length % 2 ? OVERLAY_COORDINATE_MISSING : 0, 0);
    if (!fault.number)
        fault = first_wrong(OVERLAY_FEATURE_OFFSET, c->features, c->features_length, lists(c->polygons_length));
    if (!fault.number)
        fault = first_wrong(OVERLAY_POLYGON_OFFSET, c->polygons, c->polygons_length, lists(c->rings_length));
    if (!fault.number)
        fault = first_wrong(OVERLAY_RING_OFFSET, c->rings, c->rings_length, c->coordinates_length / 2);
    if (!fault.number)
        fault = each_ring(c, range, NULL);
    if (!fault.number)
        fault = each_ring(c, closed, NULL);
    return fault;
}

static const struct survey NOTHING = {0, INT64_MAX, INT64_MAX, INT64_MIN, INT64_MIN};

static uint64_t tiles(const struct survey *s, uint32_t side) {
    return s->segments ? (uint64_t)((s->right - s->left) / side + 1) * (uint64_t)((s->high - s->low) / side + 1) : 0;
}

static struct overlay_columns_answer told(uint32_t status, struct fault fault, uint32_t part) {
    struct overlay_columns_answer answer = {0, 0, 0, fault.detail, status, fault.number, part};
    return answer;
}

/* The answer that is wanted, or status OVERLAY_ANSWERED where there is a result. */
static struct overlay_columns_answer wanted(uint32_t call, uint32_t side, uint32_t limit, const struct overlay_columns *a, const struct overlay_columns *b) {
    if (call > OVERLAY_SYMDIFFERENCE)
        return told(OVERLAY_NO_CALL, at(0, 0), 0);
    if (side < 16 || side > 33554432)
        return told(OVERLAY_REFUSED, at(OVERLAY_BAD_SIDE, 0), OVERLAY_RUN);
    struct fault first = layer_fault(a), second = layer_fault(b);
    if (first.number || second.number)
        return told(OVERLAY_REFUSED, first.number ? first : second, first.number ? OVERLAY_LAYER_A : OVERLAY_LAYER_B);
    struct survey both = NOTHING;
    each_ring(a, counted, &both);
    each_ring(b, counted, &both);
    if (both.segments > limit)
        return told(OVERLAY_REFUSED, at(OVERLAY_TOO_MANY_SEGMENTS, both.segments), OVERLAY_RUN);
    if (tiles(&both, side) > 65536)
        return told(OVERLAY_REFUSED, at(OVERLAY_TOO_MANY_TILES, tiles(&both, side)), OVERLAY_RUN);
    return told(OVERLAY_ANSWERED, at(0, 0), 0);
}

static uint32_t wanted_side(const struct overlay_columns *layers, size_t count) {
    struct survey all = NOTHING;
    uint32_t side = 262144;
    for (size_t layer = 0; layer < count; layer++)
        if (layer_fault(&layers[layer]).number)
            return side;
    for (size_t layer = 0; layer < count; layer++)
        each_ring(&layers[layer], counted, &all);
    while (tiles(&all, side) > 65536)
        side *= 2;
    return side;
}

/* ---- rooms and results */

struct rooms {
    int32_t *coordinates;
    uint32_t *rings, *polygons;
    size_t lengths[3];
};

static struct rooms rooms_of(size_t coordinates, size_t rings, size_t polygons) {
    struct rooms rooms = {malloc(coordinates * 4 + 1), malloc(rings * 4 + 1), malloc(polygons * 4 + 1), {coordinates, rings, polygons}};
    memset(rooms.coordinates, 0x7F, coordinates * 4);
    memset(rooms.rings, 0x7F, rings * 4);
    memset(rooms.polygons, 0x7F, polygons * 4);
    return rooms;
}

static void empty(struct rooms rooms) {
    free(rooms.coordinates);
    free(rooms.rings);
    free(rooms.polygons);
}

/* Whether bytes of a room are as they were. */
static int are_bytes_kept(const void *room, size_t from, size_t past) {
    for (size_t k = from; k < past; k++)
        if (((const uint8_t *)room)[k] != 0x7F)
            return 0;
    return 1;
}

/* Whether a room is as it was from a place on. */
static int is_kept(const void *room, size_t from, size_t length) {
    return are_bytes_kept(room, 4 * from, 4 * length);
}

static int are_kept(const struct rooms *rooms, const struct overlay_columns_answer *behind) {
    return is_kept(rooms->coordinates, behind ? behind->coordinates : 0, rooms->lengths[0])
        && is_kept(rooms->rings, behind ? behind->rings : 0, rooms->lengths[1])
        && is_kept(rooms->polygons, behind ? behind->polygons : 0, rooms->lengths[2]);
}

static struct overlay_columns_answer filled(uint32_t call, uint32_t side, uint32_t limit, const struct overlay_columns *a,
                                            const struct overlay_columns *b, const struct rooms *rooms) {
    struct overlay_columns_answer answer = {9, 9, 9, 9, 9, 9, 9};
    overlay_columns_fill(call, side, limit, a, b, rooms->coordinates, rooms->lengths[0], rooms->rings, rooms->lengths[1], rooms->polygons,
                         rooms->lengths[2], &answer);
    return answer;
}

static int is_same(const struct overlay_columns_answer *p, const struct overlay_columns_answer *q) {
    return p->coordinates == q->coordinates && p->rings == q->rings && p->polygons == q->polygons && p->detail == q->detail
        && p->status == q->status && p->number == q->number && p->part == q->part;
}

/* ---- texts */

#define TEXT (1 << 20)

/* A text in the making. */
struct text {
    char bytes[TEXT];
    size_t length;
};

static void add(struct text *text, const char *words) {
    size_t length = strlen(words);
    memcpy(text->bytes + text->length, words, length + 1);
    text->length += length;
}

static void add_corners(struct text *text, const int32_t *from, const int32_t *past) {
    char point[32];
    for (const int32_t *p = from; p < past; p += 2) {
        snprintf(point, sizeof point, "%s%d %d", p == from ? "(" : ", ", p[0], p[1]);
        add(text, point);
    }
    add(text, ")");
}

/* A layer as a text, a polygon for each ring that the features reach. */
static void add_layer(struct text *text, const struct overlay_columns *c) {
    for (size_t f = 0; f < lists(c->features_length); f++)
        for (uint32_t p = c->features[f]; p < c->features[f + 1]; p++)
            for (uint32_t r = c->polygons[p]; r < c->polygons[p + 1]; r++) {
                add(text, "POLYGON (");
                add_corners(text, c->coordinates + 2 * (size_t)c->rings[r], c->coordinates + 2 * (size_t)c->rings[r + 1]);
                add(text, ")\n");
            }
}

/* Polygons of a result, from one to before another, as a line. */
static void add_polygons(struct text *text, const int32_t *coordinates, const uint32_t *rings, const uint32_t *polygons, size_t from, size_t past) {
    add(text, from == past ? "MULTIPOLYGON EMPTY" : "MULTIPOLYGON (");
    for (size_t p = from; p < past; p++) {
        add(text, p > from ? ", (" : "(");
        for (uint32_t r = polygons[p]; r < polygons[p + 1]; r++) {
            add(text, r == polygons[p] ? "" : ", ");
            add_corners(text, coordinates + 2 * (size_t)rings[r], coordinates + 2 * (size_t)rings[r + 1]);
        }
        add(text, ")");
    }
    add(text, from == past ? "\n" : ")\n");
}

/* A result as its line. */
static void add_result(struct text *text, const struct rooms *c) {
    add_polygons(text, c->coordinates, c->rings, c->polygons, 0, c->lengths[2] - 1);
}

/* The result has the polygons of the line that is answered for the layers as texts. */
static void compared(uint32_t call, uint32_t side, uint32_t limit, const struct overlay_columns *a, const struct overlay_columns *b,
                     const struct rooms *result, int round) {
    static struct text first, second, line;
    static uint8_t room[TEXT];
    struct overlay_answer answer;
    first.length = second.length = line.length = 0;
    add_layer(&first, a);
    add_layer(&second, b);
    add_result(&line, result);
    overlay_fill_within(call, side, limit, (uint8_t *)first.bytes, first.length, (uint8_t *)second.bytes, second.length, room, TEXT, &answer);
    check(answer.status == OVERLAY_ANSWERED && answer.length == line.length && !memcmp(room, line.bytes, line.length), "the line of a result", round);
}

/* A call that has a result: in rooms of chance, and in just the rooms that it tells. */
static void answered(uint32_t call, uint32_t side, uint32_t limit, const struct overlay_columns *a, const struct overlay_columns *b,
                     struct overlay_columns_answer got, const struct rooms *rooms, int round) {
    int fits = got.coordinates <= rooms->lengths[0] && got.rings <= rooms->lengths[1] && got.polygons <= rooms->lengths[2];
    check(got.status == (fits ? OVERLAY_ANSWERED : OVERLAY_SMALL), "the status of a result", round);
    check(got.rings && got.polygons && !got.detail && !got.number && !got.part, "the fields of a result", round);
    check(are_kept(rooms, fits ? &got : NULL), "the rooms behind a result", round);
    struct rooms just = rooms_of(got.coordinates, got.rings, got.polygons);
    struct overlay_columns_answer whole = filled(call, side, limit, a, b, &just);
    check(whole.status == OVERLAY_ANSWERED && whole.coordinates == got.coordinates && whole.rings == got.rings
              && whole.polygons == got.polygons, "just the rooms that are wanted", round);
    if (fits)
        check(!memcmp(just.coordinates, rooms->coordinates, 4 * got.coordinates) && !memcmp(just.rings, rooms->rings, 4 * got.rings)
                  && !memcmp(just.polygons, rooms->polygons, 4 * got.polygons), "the columns of a result", round);
    compared(call, side, limit, a, b, &just, round);
    empty(just);
}

/* ---- pairs of features */

static struct overlay_columns_answer wanted_pairs(uint32_t call, uint32_t limit, const struct overlay_columns *a, const struct overlay_columns *b) {
    struct overlay_columns_answer want = wanted(call, 33554432, limit, a, b); /* never too many tiles */
    size_t first = lists(a->features_length), second = lists(b->features_length);
    if (first != second && (want.status == OVERLAY_ANSWERED || want.number == OVERLAY_TOO_MANY_SEGMENTS))
        return told(OVERLAY_REFUSED, at(OVERLAY_UNPAIRED, first < second ? first : second), OVERLAY_RUN);
    return want;
}

/* Whether offsets are others, moved by where the first one is. */
static int are_moved(const uint32_t *offsets, const uint32_t *others, size_t length) {
    for (size_t k = 0; k < length; k++)
        if (offsets[k] != others[k] + offsets[0])
            return 0;
    return 1;
}

/* The polygons of a pair are those of an operation on its two features alone. */
static void pair(uint32_t call, struct overlay_columns a, struct overlay_columns b, size_t number, const struct rooms *all, const uint32_t *features,
                 int round) {
    a.features += number;
    b.features += number;
    a.features_length = b.features_length = 2;
    struct rooms none = rooms_of(0, 0, 0);
    struct overlay_columns_answer size = filled(call, 33554432, UINT32_MAX, &a, &b, &none);
    struct rooms just = rooms_of(size.coordinates, size.rings, size.polygons);
    struct overlay_columns_answer alone = filled(call, 33554432, UINT32_MAX, &a, &b, &just);
    size_t polygon = features[number], ring = all->polygons[polygon], point = all->rings[ring];
    check(alone.status == OVERLAY_ANSWERED && features[number + 1] - polygon == alone.polygons - 1, "the polygons of a pair", round);
    check(are_moved(all->polygons + polygon, just.polygons, alone.polygons) && are_moved(all->rings + ring, just.rings, alone.rings),
          "the offsets of a pair", round);
    check(!memcmp(all->coordinates + 2 * point, just.coordinates, 4 * alone.coordinates), "the coordinates of a pair", round);
    empty(none);
    empty(just);
}

static void pairs(uint32_t call, uint32_t limit, const struct overlay_columns *a, const struct overlay_columns *b, long *counts, int round) {
    size_t count = lists(a->features_length), few = below(4) ? count + 1 : count;
    struct overlay_columns_answer want = wanted_pairs(call, limit, a, b), got = {9, 9, 9, 9, 9, 9, 9};
    struct rooms rooms = rooms_of(below(4) ? 800 : below(400), 200, 200);
    uint32_t *features = malloc(4 * few + 1);
    memset(features, 0x7F, 4 * few);
    overlay_pairs_fill(call, limit, a, b, rooms.coordinates, rooms.lengths[0], rooms.rings, rooms.lengths[1], rooms.polygons, rooms.lengths[2],
                       features, few, &got);
    int fits = few > count && got.coordinates <= rooms.lengths[0] && got.rings <= rooms.lengths[1] && got.polygons <= rooms.lengths[2];
    if (want.status != OVERLAY_ANSWERED)
        check(is_same(&want, &got), "a refusal of pairs", round);
    else
        check(got.status == (fits ? OVERLAY_ANSWERED : OVERLAY_SMALL) && !got.detail && !got.number && !got.part, "the status of pairs", round);
    if (got.status != OVERLAY_ANSWERED)
        check(are_kept(&rooms, NULL) && is_kept(features, 0, few), "the rooms of pairs that are not written", round);
    else {
        check(are_kept(&rooms, &got) && features[0] == 0 && features[count] == got.polygons - 1, "the rooms of pairs", round);
        for (size_t number = 0; number < count; number++)
            pair(call, *a, *b, number, &rooms, features, round);
    }
    counts[got.status < 5 ? got.status : 1]++;
    counts[5] += got.number == OVERLAY_UNPAIRED;
    free(features);
    empty(rooms);
}

/* ---- faces */

#define COLUMNS 7

/* How many bytes a number has in each column of faces, in the order of the answer's lengths. */
static const size_t SIZES[COLUMNS] = {4, 4, 4, 4, 8, 4, 4};

struct face_rooms {
    void *places[COLUMNS];
    uint64_t lengths[COLUMNS];
};

static struct face_rooms face_rooms_of(const uint64_t *lengths) {
    struct face_rooms rooms;
    for (int k = 0; k < COLUMNS; k++) {
        rooms.places[k] = malloc(SIZES[k] * lengths[k] + 1);
        memset(rooms.places[k], 0x7F, SIZES[k] * lengths[k]);
        rooms.lengths[k] = lengths[k];
    }
    return rooms;
}

static void empty_faces(struct face_rooms rooms) {
    for (int k = 0; k < COLUMNS; k++)
        free(rooms.places[k]);
}

/* A call for faces: its limits, and its layers. */
struct asked {
    uint32_t side, segments;
    uint64_t ids;
    const struct overlay_columns *layers;
    size_t count;
};

static struct overlay_faces_answer faces_filled(const struct asked *asked, const struct face_rooms *rooms, int round) {
    void *const *places = rooms->places;
    const uint64_t *lengths = rooms->lengths;
    struct overlay_face_buffers passed = {places[0], lengths[0], places[1], lengths[1], places[2], lengths[2], places[3], lengths[3],
                                        places[4], lengths[4], places[5], lengths[5], places[6], lengths[6]}, before = passed;
    struct overlay_faces_answer answer;
    memset(&answer, 9, sizeof answer);
    overlay_faces_columns_fill(asked->side, asked->segments, asked->ids, asked->layers, asked->count, &passed, &answer);
    check(!memcmp(&passed, &before, sizeof passed), "the places of rooms", round);
    return answer;
}

/* A layer as a text, a geometry for each feature. */
static void add_features(struct text *text, const struct overlay_columns *c) {
    for (size_t f = 0; f < lists(c->features_length); f++) {
        int rings = 0;
        for (uint32_t p = c->features[f]; p < c->features[f + 1]; p++)
            for (uint32_t r = c->polygons[p]; r < c->polygons[p + 1]; r++) {
                add(text, rings++ ? ", (" : "MULTIPOLYGON ((");
                add_corners(text, c->coordinates + 2 * (size_t)c->rings[r], c->coordinates + 2 * (size_t)c->rings[r + 1]);
                add(text, ")");
            }
        add(text, rings ? ")\n" : "POLYGON EMPTY\n");
    }
}

/* The columns of faces of so many layers as the lines of their rows. */
static void add_rows(struct text *text, const struct face_rooms *c, size_t layers) {
    const uint32_t *rows = c->places[3], *ids = c->places[5], *offsets = c->places[6];
    const int64_t *areas = c->places[4];
    size_t count = c->lengths[4];
    char number[32];
    for (size_t row = 0; row < count; row++) {
        snprintf(number, sizeof number, "%lld\t", (long long)areas[row]);
        add(text, number);
        for (size_t layer = 0; layer < layers; layer++) {
            size_t list = layer * count + row;
            for (uint32_t k = offsets[list]; k < offsets[list + 1]; k++) {
                snprintf(number, sizeof number, "%s%lu", k > offsets[list] ? "," : "", ids[k] + 1ul);
                add(text, number);
            }
            add(text, "\t");
        }
        add_polygons(text, c->places[0], c->places[1], c->places[2], rows[row], rows[row + 1]);
    }
}

/* What is answered for the same features as texts. */
static struct overlay_answer of_texts(const struct asked *asked, uint8_t *room, size_t length) {
    static struct text texts[4];
    struct overlay_layer layers[4];
    struct overlay_answer answer;
    for (size_t layer = 0; layer < asked->count; layer++) {
        texts[layer].length = 0;
        add_features(&texts[layer], &asked->layers[layer]);
        layers[layer] = (struct overlay_layer){(const uint8_t *)texts[layer].bytes, texts[layer].length};
    }
    overlay_faces_fill(asked->side, asked->segments, asked->ids, layers, asked->count, room, length, &answer);
    return answer;
}

/* The first layer that is refused, or their count. */
static size_t first_bad(const struct overlay_columns *layers, size_t count) {
    size_t bad = 0;
    while (bad < count && !layer_fault(&layers[bad]).number)
        bad++;
    return bad;
}

/* A refusal is that of the texts, but for what is wrong with a layer. */
static void faces_refused(const struct asked *asked, const struct overlay_faces_answer *got, const struct overlay_answer *of_text, int round) {
    static const uint64_t NONE[COLUMNS];
    size_t bad = asked->side < 16 || asked->side > 33554432 ? asked->count : first_bad(asked->layers, asked->count);
    struct fault fault = bad < asked->count ? layer_fault(&asked->layers[bad]) : at(of_text->number, of_text->detail);
    check(got->status == OVERLAY_REFUSED && got->number == fault.number && got->detail == fault.detail && got->part == bad, "a refusal of faces", round);
    check(!memcmp(got, NONE, sizeof NONE), "the lengths of a refusal of faces", round);
}

/* Rooms that aren't written are as they were, and so is what stands behind columns. */
static void faces_kept(const struct face_rooms *rooms, const uint64_t *behind, int round) {
    for (int k = 0; k < COLUMNS; k++)
        check(are_bytes_kept(rooms->places[k], behind ? SIZES[k] * behind[k] : 0, SIZES[k] * rooms->lengths[k]), "the rooms of faces", round);
}

/* Faces that there are: in rooms of chance, and in just the rooms that are told. */
static void faces_answered(const struct asked *asked, struct overlay_faces_answer got, const struct face_rooms *rooms, const uint8_t *text, size_t length, int round) {
    static struct text lines;
    uint64_t told[COLUMNS], again[COLUMNS];
    int fits = 1;
    memcpy(told, &got, sizeof told);
    for (int k = 0; k < COLUMNS; k++)
        fits = fits && told[k] <= rooms->lengths[k];
    check(got.status == (fits ? OVERLAY_ANSWERED : OVERLAY_SMALL) && !got.detail && !got.number && !got.part, "the status of faces", round);
    faces_kept(rooms, fits ? told : NULL, round);
    struct face_rooms just = face_rooms_of(told);
    struct overlay_faces_answer whole = faces_filled(asked, &just, round);
    memcpy(again, &whole, sizeof again);
    check(whole.status == OVERLAY_ANSWERED && !memcmp(again, told, sizeof told), "just the rooms that faces want", round);
    for (int k = 0; fits && k < COLUMNS; k++)
        check(!memcmp(just.places[k], rooms->places[k], SIZES[k] * told[k]), "the columns of faces", round);
    lines.length = 0;
    add_rows(&lines, &just, asked->count);
    check(lines.length == length && !memcmp(lines.bytes, text, length), "the lines of faces", round);
    empty_faces(just);
}

static void faces(const struct asked *asked, long *counts, int round) {
    static const uint64_t MOST[COLUMNS] = {900, 120, 90, 60, 60, 120, 120};
    static uint8_t room[TEXT];
    uint64_t lengths[COLUMNS];
    for (int k = 0; k < COLUMNS; k++)
        lengths[k] = below(8) ? MOST[k] : below((uint32_t)MOST[k]);
    struct face_rooms rooms = face_rooms_of(lengths);
    struct overlay_faces_answer got = faces_filled(asked, &rooms, round);
    size_t bad = first_bad(asked->layers, asked->count);
    struct overlay_answer of_text = {0, 0, OVERLAY_REFUSED, OVERLAY_BAD_SIDE, 0};
    if (bad == asked->count && asked->side >= 16 && asked->side <= 33554432)
        of_text = of_texts(asked, room, TEXT);
    if (of_text.status == OVERLAY_ANSWERED)
        faces_answered(asked, got, &rooms, room, of_text.length, round);
    else {
        faces_refused(asked, &got, &of_text, round);
        faces_kept(&rooms, NULL, round);
    }
    counts[got.status < 5 ? got.status : 1]++;
    counts[5] += got.number == OVERLAY_TOO_MANY_IDS;
    empty_faces(rooms);
}

int main(void) {
    static const uint32_t LIMITS[] = {OVERLAY_SEGMENTS, OVERLAY_SEGMENTS, UINT32_MAX, 20};
    static const uint32_t SIDES[] = {16, 64, 64, 262144, 262144, 4194304, 4194304, 33554432};
    long statuses[5] = {0}, refusals[17] = {0}, of_pairs[6] = {0}, of_faces[6] = {0};
    for (int round = 0; round < ROUNDS; round++) {
        struct overlay_columns a = drawn(), b = drawn();
        uint32_t call = below(20) ? below(4) : 4 + below(2);
        uint32_t side = below(20) ? SIDES[below(sizeof SIDES / sizeof *SIDES)] : 15 + below(2) * 33554418;
        uint32_t limit = LIMITS[below(sizeof LIMITS / sizeof *LIMITS)];
        struct rooms rooms = rooms_of(below(5) ? 400 : below(400), below(5) ? 90 : below(9), below(5) ? 90 : below(9));
        struct overlay_columns_answer want = wanted(call, side, limit, &a, &b), got = filled(call, side, limit, &a, &b, &rooms);
        if (want.status == OVERLAY_ANSWERED)
            answered(call, side, limit, &a, &b, got, &rooms, round);
        else {
            check(is_same(&want, &got), "a refusal", round);
            check(are_kept(&rooms, NULL), "the rooms of a refusal", round);
        }
        const struct overlay_columns layers[] = {a, b, a};
        struct asked asked = {side, limit, below(4) ? OVERLAY_IDS : below(12), layers, below(4)};
        check(overlay_columns_side(&a, &b) == wanted_side(layers, 2), "the side", round);
        check(overlay_faces_columns_side(layers, asked.count) == wanted_side(layers, asked.count), "the side of faces", round);
        pairs(call, limit, &a, &b, of_pairs, round);
        faces(&asked, of_faces, round);
        statuses[got.status < 5 ? got.status : 1]++;
        refusals[got.number < 17 ? got.number : 0]++;
        empty(rooms);
        let_go(a);
        let_go(b);
    }
    printf("arrays %d: answered %ld, too small %ld, no such call %ld, refused %ld, of which", ROUNDS, statuses[0], statuses[4], statuses[2], statuses[3]);
    static const int NUMBERS[] = {2, 3, 4, 5, 6, 8, 13, 14, 15, 16};
    for (size_t k = 0; k < sizeof NUMBERS / sizeof *NUMBERS; k++) {
        check(refusals[NUMBERS[k]] > 0, "broken arrays of every kind", NUMBERS[k]);
        printf(" %d: %ld", NUMBERS[k], refusals[NUMBERS[k]]);
    }
    check(statuses[0] && !statuses[1] && statuses[2] && statuses[3] && statuses[4], "every status", ROUNDS);
    check(of_pairs[0] && !of_pairs[1] && of_pairs[2] && of_pairs[3] && of_pairs[4] && of_pairs[5], "every status of pairs", ROUNDS);
    check(of_faces[0] && !of_faces[1] && !of_faces[2] && of_faces[3] && of_faces[4] && of_faces[5], "every status of faces", ROUNDS);
    printf("\npairs of their features: answered %ld, too small %ld, refused %ld, of which 17: %ld\n", of_pairs[0], of_pairs[4], of_pairs[3], of_pairs[5]);
    printf("their faces: answered %ld, too small %ld, refused %ld, of which 12: %ld\n%ld failed\n", of_faces[0], of_faces[4], of_faces[3], of_faces[5], failures);
    return failures != 0;
}
