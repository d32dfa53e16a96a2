/* The calls for C, under the sanitizers. Without arguments: every status, broken texts, rooms of every size near the text's.
 * With CALL A B: the text of that call on two files, to standard output. */
#include "../overlay.h"
#include "checking.h"
#include "squares.h"

#include <stdio.h>
#include <stdlib.h>
#include <string.h>

static const uint32_t SIDE = 262144;

/* A copy that ends where its block does, so that a read past it is seen. */
static uint8_t *copied(const char *text, size_t length) {
    uint8_t *copy = malloc(length ? length : 1);
    memcpy(copy, text, length);
    return copy;
}

static struct overlay_answer filled(uint32_t call, uint32_t side, const char *a, const char *b, uint8_t *room, size_t length) {
    struct overlay_answer answer = {9, 9, 9, 9, 9};
    uint8_t *first = copied(a, strlen(a)), *second = copied(b, strlen(b));
    overlay_fill(call, side, first, strlen(a), second, strlen(b), room, length, &answer);
    struct overlay_answer size = {9, 9, 9, 9, 9};
    overlay_size(call, side, first, strlen(a), second, strlen(b), &size);
    if (answer.status == OVERLAY_SMALL)
        check(size.status == OVERLAY_ANSWERED && size.length == answer.length, "size of a text that doesn't fit");
    else
        check(size.status == answer.status && size.length == answer.length && size.detail == answer.detail
                  && size.number == answer.number && size.part == answer.part, "size and fill answer the same");
    free(first);
    free(second);
    return answer;
}

/* A room one byte too small stays as it was; one that is wide enough changes in its first bytes alone. */
static void rooms(void) {
    for (uint32_t call = 0; call < 5; call++) {
        size_t wanted = strlen(TEXTS[call]);
        for (size_t length = 0; length < wanted + 3; length++) {
            uint8_t *room = malloc(length ? length : 1);
            memset(room, 0xA5, length ? length : 1);
            struct overlay_answer answer = filled(call, SIDE, SQUARE, OTHER, room, length);
            check(answer.length == wanted && !answer.detail && !answer.number && !answer.part, "fields of a text");
            check(answer.status == (length < wanted ? OVERLAY_SMALL : OVERLAY_ANSWERED), "status of a text");
            size_t from = length < wanted ? 0 : wanted;
            check(!from || !memcmp(room, TEXTS[call], wanted), "the text");
            for (size_t at = from; at < length; at++)
                check(room[at] == 0xA5, "the room behind the text");
            free(room);
        }
    }
}

/* The names have the numbers that the answers have. */
static void names(void) {
    static const int CALLS[] = {OVERLAY_UNION, OVERLAY_INTERSECTION, OVERLAY_DIFFERENCE, OVERLAY_SYMDIFFERENCE, OVERLAY_EDGES};
    for (int number = 0; number < 5; number++)
        check(CALLS[number] == number, "the number of a call");
    uint8_t room[1];
    struct overlay_answer answer = filled(OVERLAY_EDGES + 1, SIDE, SQUARE, OTHER, room, 0);
    check(answer.status == OVERLAY_NO_CALL, "no such call");
    check(sizeof answer == 32 && offsetof(struct overlay_answer, part) == 24, "the struct as it is laid out");
    check(sizeof OVERLAY_VERSION > 5, "the release");
}

/* The words that docs/RULES.md has for each refusal, without its number and its place. */
static void reasons(void) {
    static const char *const WANTED[] = {"layer too long", "syntax", "number out of range", "short ring", "open ring", "too many segments",
                                         "bad tile side", NULL, "too many tiles", NULL, "out of memory", NULL, "too many ids", "coordinate missing",
                                         "bad offset of features", "bad offset of polygons", "bad offset of rings", "feature without another", "bad item",
                                         "lists that contradict each other", NULL};
    for (uint32_t number = 0; number < sizeof WANTED / sizeof *WANTED; number++) {
        const char *got = overlay_reason(number);
        check(WANTED[number] ? got && !strcmp(got, WANTED[number]) : !got, "the reason of a refusal");
    }
    check(!overlay_reason(4294967295u), "the reason of no refusal");
}

struct refusal {
    uint32_t call, side;
    const char *a, *b;
    struct overlay_answer answer;
    const char *words;
};

static void refusals(void) {
    static const struct refusal ROWS[] = {
        {5, 16, "", "", {0, 0, 2, 0, 0}, "no such call"},
        {4294967295u, 16, "POLYGON ((0 0", "", {0, 0, 2, 0, 0}, "no such call"},
        {0, 16, "POLYGON ((0 0, 1.5 0, 0 1, 0 0))", "", {0, 16, OVERLAY_REFUSED, OVERLAY_SYNTAX, OVERLAY_LAYER_A}, "A: 1 syntax at 16"},
        {1, 16, "", "POLYGON ((0 0", {0, 13, OVERLAY_REFUSED, OVERLAY_SYNTAX, OVERLAY_LAYER_B}, "B: 1 syntax at 13"},
        {2, 16, "POLYGON ((0 0, 268435457 0, 0 1, 0 0))", "", {0, 15, OVERLAY_REFUSED, OVERLAY_NUMBER_RANGE, OVERLAY_LAYER_A}, "A: 2 number out of range at 15"},
        {3, 16, "", "POLYGON ((0 0, 1 0, 0 1))", {0, 9, OVERLAY_REFUSED, OVERLAY_SHORT_RING, OVERLAY_LAYER_B}, "B: 3 short ring at 9"},
        {4, 16, "POLYGON ((0 0, 1 0, 1 1, 0 1))", "", {0, 9, OVERLAY_REFUSED, OVERLAY_OPEN_RING, OVERLAY_LAYER_A}, "A: 4 open ring at 9"},
        {0, 15, "", "", {0, 0, OVERLAY_REFUSED, OVERLAY_BAD_SIDE, OVERLAY_RUN}, "6 bad tile side"},
        {4, 33554433, "POLYGON ((0 0", "", {0, 0, OVERLAY_REFUSED, OVERLAY_BAD_SIDE, OVERLAY_RUN}, "6 bad tile side"},
        {0, 16, "POLYGON ((0 0, 4096 0, 4096 4095, 0 4095, 0 0))", "", {0, 65792, OVERLAY_REFUSED, OVERLAY_TOO_MANY_TILES, OVERLAY_RUN}, "8 too many tiles: 65792"},
    };
    for (size_t row = 0; row < sizeof ROWS / sizeof *ROWS; row++) {
        const struct refusal *want = &ROWS[row];
        uint8_t room[256], words[OVERLAY_WORDS];
        memset(room, 0xA5, sizeof room);
        struct overlay_answer got = filled(want->call, want->side, want->a, want->b, room, sizeof room);
        check(got.length == want->answer.length && got.detail == want->answer.detail && got.status == want->answer.status
                  && got.number == want->answer.number && got.part == want->answer.part, want->words);
        for (size_t at = 0; at < sizeof room; at++)
            check(room[at] == 0xA5, "the room of a refusal");
        size_t length = strlen(want->words);
        check(overlay_words(&got, words, sizeof words) == length && !memcmp(words, want->words, length), want->words);
        check(overlay_words(&got, words, length - 1) == 0, "words that don't fit");
        check(got.status != OVERLAY_REFUSED || strstr(want->words, overlay_reason(got.number)), "the reason is in the words");
    }
}

static const char *const WHOLE =
    "POLYGON ((-268435456 -268435456, 268435456 -268435456, 268435456 268435456, -268435456 268435456, -268435456 -268435456))";

static void sides(void) {
    check(overlay_side((const uint8_t *)SQUARE, strlen(SQUARE), (const uint8_t *)"", 0) == 262144, "side of a square");
    check(overlay_side((const uint8_t *)SQUARE, strlen(SQUARE), (const uint8_t *)WHOLE, strlen(WHOLE)) == 4194304, "side of the whole range");
    check(overlay_side((const uint8_t *)"POLYGON", 7, (const uint8_t *)WHOLE, strlen(WHOLE)) == 262144, "side of what is refused");
}

/* The two squares have 8 segments: within a limit of 8 and more there is their text, below there is none. */
static void within(void) {
    static const uint32_t LIMITS[] = {0, 1, 7, 8, 9, 1048576, 4294967295};
    for (size_t at = 0; at < sizeof LIMITS / sizeof *LIMITS; at++)
        for (uint32_t call = 0; call < 5; call++) {
            uint8_t room[400] = {0};
            struct overlay_answer answer = {9, 9, 9, 9, 9};
            overlay_fill_within(call, SIDE, LIMITS[at], (const uint8_t *)SQUARE, strlen(SQUARE), (const uint8_t *)OTHER, strlen(OTHER), room,
                                sizeof room, &answer);
            if (LIMITS[at] < 8)
                check(answer.status == OVERLAY_REFUSED && answer.number == OVERLAY_TOO_MANY_SEGMENTS && answer.part == OVERLAY_RUN
                          && answer.detail == 8 && !room[0], "more segments than were said");
            else
                check(answer.status == OVERLAY_ANSWERED && answer.length == strlen(TEXTS[call]) && !memcmp(room, TEXTS[call], answer.length),
                      "as many segments as were said");
        }
}

static const char *const OVERLAPPING = "POLYGON ((0 0, 4 0, 4 4, 0 4, 0 0)) POLYGON ((2 2, 6 2, 6 6, 2 6, 2 2))";
static const char *const STRIP = "POLYGON ((1 1, 5 1, 5 3, 1 3, 1 1))";

static struct overlay_answer covered_filled(uint32_t call, uint32_t side, uint32_t segments, const char *a, const char *b, uint8_t *room,
                                            size_t length) {
    struct overlay_answer answer = {9, 9, 9, 9, 9};
    uint8_t *first = copied(a, strlen(a)), *second = copied(b, strlen(b));
    overlay_covered_fill(call, side, segments, first, strlen(a), second, strlen(b), room, length, &answer);
    free(first);
    free(second);
    return answer;
}

/* Two squares that overlap cover both, in rooms of every size near the text's, and are cut by a strip over their common part. */
static void covered(void) {
    static const struct {
        uint32_t call;
        const char *b, *text;
    } ROWS[] = {
        {OVERLAY_UNION, "", "MULTIPOLYGON (((0 0, 4 0, 4 2, 6 2, 6 6, 2 6, 2 4, 0 4, 0 0)))\n"},
        {OVERLAY_INTERSECTION, STRIP, "MULTIPOLYGON (((1 1, 4 1, 4 2, 5 2, 5 3, 4 3, 2 3, 1 3, 1 1)))\n"},
        {OVERLAY_SYMDIFFERENCE, OVERLAPPING, "MULTIPOLYGON EMPTY\n"},
    };
    for (size_t row = 0; row < sizeof ROWS / sizeof *ROWS; row++) {
        size_t wanted = strlen(ROWS[row].text);
        for (size_t length = wanted - 2; length < wanted + 3; length++) {
            uint8_t room[100];
            memset(room, 0xA5, sizeof room);
            struct overlay_answer answer = covered_filled(ROWS[row].call, SIDE, 20, OVERLAPPING, ROWS[row].b, room, length);
            check(answer.length == wanted && !answer.detail && !answer.number && !answer.part, "fields of a covered text");
            check(answer.status == (length < wanted ? OVERLAY_SMALL : OVERLAY_ANSWERED), "status of a covered text");
            size_t from = length < wanted ? 0 : wanted;
            check(!from || !memcmp(room, ROWS[row].text, wanted), ROWS[row].text);
            for (size_t at = from; at < sizeof room; at++)
                check(room[at] == 0xA5, "the room behind a covered text");
        }
    }
}

/* They are refused as the other texts are, and the edges are no operation. */
static void covered_refusals(void) {
    static const struct {
        uint32_t call, side, segments;
        const char *a, *b;
        struct overlay_answer answer;
    } ROWS[] = {
        {OVERLAY_EDGES, 16, 20, "", "", {0, 0, OVERLAY_NO_CALL, 0, 0}},
        {0, 15, 20, "POLYGON", "", {0, 0, OVERLAY_REFUSED, OVERLAY_BAD_SIDE, OVERLAY_RUN}},
        {0, 16, 20, "POLYGON ((0 0", "", {0, 13, OVERLAY_REFUSED, OVERLAY_SYNTAX, OVERLAY_LAYER_A}},
        {1, 16, 20, "", "POLYGON ((0 0, 1 0, 0 1))", {0, 9, OVERLAY_REFUSED, OVERLAY_SHORT_RING, OVERLAY_LAYER_B}},
        {2, 16, 7, SQUARE, "POLYGON ((2 2, 6 2, 6 6, 2 6, 2 2))", {0, 8, OVERLAY_REFUSED, OVERLAY_TOO_MANY_SEGMENTS, OVERLAY_RUN}},
    };
    for (size_t row = 0; row < sizeof ROWS / sizeof *ROWS; row++) {
        uint8_t room[100];
        memset(room, 0xA5, sizeof room);
        struct overlay_answer got = covered_filled(ROWS[row].call, ROWS[row].side, ROWS[row].segments, ROWS[row].a, ROWS[row].b, room, sizeof room);
        const struct overlay_answer *want = &ROWS[row].answer;
        check(got.length == want->length && got.detail == want->detail && got.status == want->status && got.number == want->number
                  && got.part == want->part, "a refusal of covered layers");
        for (size_t at = 0; at < sizeof room; at++)
            check(room[at] == 0xA5, "the room of a refusal of covered layers");
    }
}

/* A layer of one segment more than is allowed, and one of a byte more; where more segments are said, 256 bytes more for each. */
static void large(void) {
    size_t one = strlen(SQUARE) + 1, count = 262145;
    char *many = malloc(one * count + 1);
    for (size_t at = 0; at < count; at++) {
        memcpy(many + at * one, SQUARE, one - 1);
        many[at * one + one - 1] = '\n';
    }
    many[one * count] = 0;
    uint8_t room[1], words[OVERLAY_WORDS];
    struct overlay_answer answer = filled(0, SIDE, many, "", room, sizeof room);
    check(answer.status == OVERLAY_REFUSED && answer.number == OVERLAY_TOO_MANY_SEGMENTS && answer.part == OVERLAY_RUN && answer.detail == 1048580, "too many segments");
    check(overlay_words(&answer, words, sizeof words) == 28 && !memcmp(words, "5 too many segments: 1048580", 28), "words of a count");
    overlay_fill_within(0, SIDE, 1048580, (const uint8_t *)many, one * count, (const uint8_t *)"", 0, room, sizeof room, &answer);
    check(answer.status == OVERLAY_SMALL && answer.length == strlen("MULTIPOLYGON (((0 0, 4 0, 4 4, 0 4, 0 0)))\n"), "as many segments as there are");
    free(many);
    size_t limit = 268435456, longer = limit + 257;
    char *blank = malloc(longer);
    memset(blank, ' ', longer);
    blank[limit + 1] = 0;
    answer = filled(0, SIDE, "", blank, room, sizeof room);
    check(answer.status == OVERLAY_REFUSED && answer.number == OVERLAY_LAYER_TOO_LONG && answer.part == OVERLAY_LAYER_B && !answer.detail, "layer too long");
    check(overlay_words(&answer, words, sizeof words) == 19 && !memcmp(words, "B: 0 layer too long", 19), "words of a long layer");
    blank[limit + 1] = ' ';
    overlay_fill_within(0, SIDE, 1048577, (const uint8_t *)"", 0, (const uint8_t *)blank, longer - 1, room, sizeof room, &answer);
    check(answer.status == OVERLAY_SMALL && answer.length == strlen("MULTIPOLYGON EMPTY\n"), "as long a layer as the segments allow");
    overlay_fill_within(0, SIDE, 1048577, (const uint8_t *)"", 0, (const uint8_t *)blank, longer, room, sizeof room, &answer);
    check(answer.status == OVERLAY_REFUSED && answer.number == OVERLAY_LAYER_TOO_LONG && answer.part == OVERLAY_LAYER_B, "a byte longer");
    free(blank);
}

static void broken(void) {
    static const char TEXT[] = "POLYGON ((0 0, 40 0, 40 40, 0 40, 0 0), (3 3, 9 4, 5 8, 3 3)) MULTIPOLYGON EMPTY";
    static const char LETTERS[] = " (),0123456789-POLYGNEMTUI.\n";
    long counts[5] = {0};
    srand(7);
    for (int round = 0; round < 30000; round++) {
        size_t length = rand() % 5 ? sizeof TEXT - 1 : (size_t)rand() % sizeof TEXT;
        uint8_t *a = copied(TEXT, length);
        for (int edits = rand() % 4; edits && length; edits--)
            a[(size_t)rand() % length] = (uint8_t)LETTERS[(size_t)rand() % (sizeof LETTERS - 1)];
        size_t space = (size_t)rand() % 900;
        uint8_t *room = malloc(space ? space : 1);
        struct overlay_answer answer = {9, 9, 9, 9, 9};
        overlay_fill((uint32_t)(rand() % 6), rand() % 4 ? 16 + (uint32_t)(rand() % 1000) : (uint32_t)(rand() % 20), a, length,
                     (const uint8_t *)TEXT, sizeof TEXT - 1, room, space, &answer);
        check(answer.status < 5, "a status");
        check(answer.status != OVERLAY_ANSWERED || (answer.length <= space && room[answer.length - 1] == '\n'), "a line");
        counts[answer.status < 5 ? answer.status : 0]++;
        free(a);
        free(room);
    }
    check(counts[0] && !counts[1] && counts[2] && counts[3] && counts[4], "broken texts of every kind");
    printf("broken texts 30000: answered %ld, no such call %ld, refused %ld, too small %ld\n", counts[0], counts[2], counts[3], counts[4]);
}

typedef void filling(uint32_t, uint32_t, uint32_t, const uint8_t *, size_t, const uint8_t *, size_t, uint8_t *, size_t, struct overlay_answer *);

/* From some request on memory is refused: the room is as it was, or there is the text. */
static void memory(filling *fill) {
    uint8_t room[1000];
    long refused = 0;
    size_t m = strlen(SQUARE), n = strlen(OTHER);
    for (long count = 0; count < 100000; count++) {
        struct overlay_answer answer;
        memset(room, 7, sizeof room);
        granted = count;
        fill(OVERLAY_INTERSECTION, SIDE, 8, (const uint8_t *)SQUARE, m, (const uint8_t *)OTHER, n, room, sizeof room, &answer);
        granted = -1;
        if (answer.status == OVERLAY_ANSWERED)
            break;
        check(answer.status == OVERLAY_NO_MEMORY && answer.number == OVERLAY_OUT_OF_MEMORY && answer.part == OVERLAY_RUN, "no memory");
        check(answer.length == 0 && answer.detail == 0 && room[0] == 7 && room[999] == 7, "a room that is as it was");
        refused++;
    }
    check(refused > 0, "memory was refused");
}

static struct overlay_answer faces_filled(uint32_t side, uint32_t segments, uint64_t ids, const char *const *texts, size_t count,
                                          uint8_t *room, size_t length) {
    struct overlay_layer layers[OVERLAY_MOST_LAYERS + 1];
    for (size_t at = 0; at < count; at++)
        layers[at] = (struct overlay_layer){copied(texts[at], strlen(texts[at])), strlen(texts[at])};
    struct overlay_answer answer = {9, 9, 9, 9, 9}, size = {9, 9, 9, 9, 9};
    overlay_faces_fill(side, segments, ids, layers, count, room, length, &answer);
    overlay_faces_size(side, segments, ids, layers, count, &size);
    if (answer.status == OVERLAY_SMALL)
        check(size.status == OVERLAY_ANSWERED && size.length == answer.length, "size of faces that don't fit");
    else
        check(size.status == answer.status && size.length == answer.length && size.detail == answer.detail
                  && size.number == answer.number && size.part == answer.part, "size and fill of faces answer the same");
    for (size_t at = 0; at < count; at++)
        free((void *)layers[at].bytes);
    return answer;
}

static struct overlay_answer usual_faces(const char *const *texts, size_t count, uint8_t *room, size_t length) {
    return faces_filled(SIDE, OVERLAY_SEGMENTS, OVERLAY_IDS, texts, count, room, length);
}

static const char *const FACES =
    "24\t1\t\tMULTIPOLYGON (((0 0, 4 0, 4 2, 2 2, 2 4, 0 4, 0 0)))\n"
    "8\t1\t1\tMULTIPOLYGON (((2 2, 4 2, 4 4, 2 4, 2 2)))\n"
    "24\t\t1\tMULTIPOLYGON (((2 4, 4 4, 4 2, 6 2, 6 6, 2 6, 2 4)))\n";

/* The faces of two squares in rooms of every size near the text's; of no layers, and of one. */
static void faces(void) {
    const char *const both[] = {SQUARE, OTHER};
    size_t wanted = strlen(FACES);
    for (size_t length = 0; length < wanted + 3; length++) {
        uint8_t *room = malloc(length ? length : 1);
        memset(room, 0xA5, length ? length : 1);
        struct overlay_answer answer = usual_faces(both, 2, room, length);
        check(answer.length == wanted && !answer.detail && !answer.number && !answer.part, "fields of faces");
        check(answer.status == (length < wanted ? OVERLAY_SMALL : OVERLAY_ANSWERED), "status of faces");
        size_t from = length < wanted ? 0 : wanted;
        check(!from || !memcmp(room, FACES, wanted), "the text of faces");
        for (size_t at = from; at < length; at++)
            check(room[at] == 0xA5, "the room behind the faces");
        free(room);
    }
    uint8_t room[200];
    struct overlay_answer none = usual_faces(both, 0, room, sizeof room);
    check(none.status == OVERLAY_ANSWERED && none.length == 0, "faces of no layers");
    struct overlay_answer one = usual_faces(both, 1, room, sizeof room);
    static const char LINE[] = "32\t1\tMULTIPOLYGON (((0 0, 4 0, 4 4, 0 4, 0 0)))\n";
    check(one.status == OVERLAY_ANSWERED && one.length == sizeof LINE - 1 && !memcmp(room, LINE, sizeof LINE - 1), "faces of one layer");
}

/* 64 layers have faces and 65 have none. The last layer is the one that is named. */
static void many_layers(void) {
    const char *texts[OVERLAY_MOST_LAYERS + 1];
    struct overlay_layer layers[OVERLAY_MOST_LAYERS + 1];
    for (size_t at = 0; at <= OVERLAY_MOST_LAYERS; at++) {
        texts[at] = SQUARE;
        layers[at] = (struct overlay_layer){(const uint8_t *)SQUARE, strlen(SQUARE)};
    }
    uint8_t room[300];
    struct overlay_answer most = usual_faces(texts, OVERLAY_MOST_LAYERS, room, sizeof room);
    check(most.status == OVERLAY_ANSWERED && room[0] == '3' && room[most.length - 1] == '\n', "faces of 64 layers");
    struct overlay_answer more = usual_faces(texts, OVERLAY_MOST_LAYERS + 1, room, sizeof room);
    check(more.status == OVERLAY_NO_CALL && !more.length && !more.detail && !more.number && !more.part, "faces of 65 layers");
    texts[OVERLAY_MOST_LAYERS - 1] = "POLYGON ((0 0";
    struct overlay_answer last = usual_faces(texts, OVERLAY_MOST_LAYERS, room, sizeof room);
    check(last.status == OVERLAY_REFUSED && last.number == OVERLAY_SYNTAX && last.part == 63 && last.detail == 13, "the last layer is refused");
    check(overlay_faces_side(layers, OVERLAY_MOST_LAYERS) == 262144, "side of 64 layers");
    layers[0] = (struct overlay_layer){(const uint8_t *)WHOLE, strlen(WHOLE)};
    check(overlay_faces_side(layers, OVERLAY_MOST_LAYERS) == 4194304, "side of the whole range");
    check(overlay_faces_side(layers, OVERLAY_MOST_LAYERS + 1) == 262144, "side of 65 layers");
}

static void faces_refusals(void) {
    const char *const both[] = {SQUARE, OTHER}, *const broken[] = {SQUARE, "", "POLYGON ((0 0, 1 0, 1 1, 0 1))"};
    const char *const broad[] = {"POLYGON ((0 0, 4096 0, 4096 4095, 0 4095, 0 0))"};
    uint8_t room[400];
    struct overlay_answer got = faces_filled(15, OVERLAY_SEGMENTS, OVERLAY_IDS, broken, 3, room, sizeof room);
    check(got.status == OVERLAY_REFUSED && got.number == OVERLAY_BAD_SIDE && got.part == 3 && !got.detail, "side of faces");
    got = usual_faces(broken, 3, room, sizeof room);
    check(got.status == OVERLAY_REFUSED && got.number == OVERLAY_OPEN_RING && got.part == 2 && got.detail == 9, "open ring of faces");
    got = faces_filled(SIDE, 7, OVERLAY_IDS, both, 2, room, sizeof room);
    check(got.status == OVERLAY_REFUSED && got.number == OVERLAY_TOO_MANY_SEGMENTS && got.part == 2 && got.detail == 8, "segments of faces");
    got = faces_filled(16, OVERLAY_SEGMENTS, OVERLAY_IDS, broad, 1, room, sizeof room);
    check(got.status == OVERLAY_REFUSED && got.number == OVERLAY_TOO_MANY_TILES && got.part == 1 && got.detail == 65792, "tiles of faces");
    got = faces_filled(SIDE, 8, 3, both, 2, room, sizeof room);
    check(got.status == OVERLAY_REFUSED && got.number == OVERLAY_TOO_MANY_IDS && got.part == 2 && got.detail == 4, "ids of faces");
    got = faces_filled(SIDE, 8, 4, both, 2, room, sizeof room);
    check(got.status == OVERLAY_ANSWERED && got.length == strlen(FACES) && !memcmp(room, FACES, got.length), "as many ids as there are");
}

/* From some request on memory is refused: the room is as it was, or there are the faces. */
static void faces_memory(void) {
    const struct overlay_layer layers[] = {{(const uint8_t *)SQUARE, strlen(SQUARE)}, {(const uint8_t *)OTHER, strlen(OTHER)}};
    uint8_t room[1000];
    long refused = 0;
    for (long count = 0; count < 100000; count++) {
        struct overlay_answer answer;
        memset(room, 7, sizeof room);
        granted = count;
        overlay_faces_fill(SIDE, OVERLAY_SEGMENTS, OVERLAY_IDS, layers, 2, room, sizeof room, &answer);
        granted = -1;
        if (answer.status == OVERLAY_ANSWERED) {
            check(answer.length == strlen(FACES) && !memcmp(room, FACES, answer.length), "faces with just enough memory");
            break;
        }
        check(answer.status == OVERLAY_NO_MEMORY && answer.number == OVERLAY_OUT_OF_MEMORY && answer.part == 2, "no memory for faces");
        check(answer.length == 0 && answer.detail == 0 && room[0] == 7 && room[999] == 7, "a room that is as it was");
        refused++;
    }
    check(refused > 0, "memory for faces was refused");
}

/* Broken texts, cut anywhere, each in a block of its own length. */
static void broken_faces(void) {
    static const char TEXT[] = "POLYGON ((0 0, 40 0, 40 40, 0 40, 0 0), (3 3, 9 4, 5 8, 3 3)) MULTIPOLYGON EMPTY";
    static const char LETTERS[] = " (),0123456789-POLYGNEMTUI.\n";
    long counts[5] = {0};
    for (int round = 0; round < 10000; round++) {
        struct overlay_layer layers[4];
        size_t count = (size_t)rand() % 5, space = (size_t)rand() % 900;
        for (size_t at = 0; at < count; at++) {
            size_t length = rand() % 5 ? sizeof TEXT - 1 : (size_t)rand() % sizeof TEXT;
            uint8_t *bytes = copied(TEXT, length);
            for (int edits = rand() % 3; edits && length; edits--)
                bytes[(size_t)rand() % length] = (uint8_t)LETTERS[(size_t)rand() % (sizeof LETTERS - 1)];
            layers[at] = (struct overlay_layer){bytes, length};
        }
        uint8_t *room = malloc(space ? space : 1);
        struct overlay_answer answer = {9, 9, 9, 9, 9};
        overlay_faces_fill(rand() % 4 ? 16 + (uint32_t)(rand() % 1000) : (uint32_t)(rand() % 20), OVERLAY_SEGMENTS, (uint64_t)(rand() % 40), layers, count,
                           room, space, &answer);
        check(answer.status < 5 && answer.part <= count, "a status of faces");
        check(answer.status != OVERLAY_ANSWERED || !answer.length || (answer.length <= space && room[answer.length - 1] == '\n'), "lines");
        counts[answer.status < 5 ? answer.status : 0]++;
        for (size_t at = 0; at < count; at++)
            free((void *)layers[at].bytes);
        free(room);
    }
    check(counts[0] && !counts[1] && !counts[2] && counts[3] && counts[4], "broken layers of every kind");
    printf("faces of broken layers 10000: answered %ld, refused %ld, too small %ld\n", counts[0], counts[3], counts[4]);
}

static char *read_file(const char *name) {
    FILE *file = fopen(name, "rb");
    if (!file)
        exit(2);
    fseek(file, 0, SEEK_END);
    size_t length = (size_t)ftell(file);
    rewind(file);
    char *text = calloc(length + 1, 1);
    if (fread(text, 1, length, file) != length)
        exit(2);
    fclose(file);
    return text;
}

static int print(char **words) {
    char *a = read_file(words[2]), *b = read_file(words[3]);
    uint32_t side = overlay_side((uint8_t *)a, strlen(a), (uint8_t *)b, strlen(b));
    struct overlay_answer answer;
    overlay_size((uint32_t)atoi(words[1]), side, (uint8_t *)a, strlen(a), (uint8_t *)b, strlen(b), &answer);
    uint8_t *room = malloc(answer.length ? answer.length : 1);
    overlay_fill((uint32_t)atoi(words[1]), side, (uint8_t *)a, strlen(a), (uint8_t *)b, strlen(b), room, answer.length, &answer);
    fwrite(room, 1, answer.length, stdout);
    free(room);
    free(a);
    free(b);
    return (int)answer.status;
}

static const int32_t SQUARE_COORDINATES[] = {0, 0, 4, 0, 4, 4, 0, 4, 0, 0};
static const int32_t OTHER_COORDINATES[] = {9, 9, 2, 2, 6, 2, 6, 6, 2, 6, 2, 2}; /* the ring begins at the second point */
static const uint32_t FIVE[] = {0, 5}, FIVE_BEHIND[] = {1, 6}, ONE[] = {0, 1};
static const struct overlay_columns SQUARE_COLUMNS = {SQUARE_COORDINATES, 10, FIVE, 2, ONE, 2, ONE, 2};
static const struct overlay_columns OTHER_COLUMNS = {OTHER_COORDINATES, 12, FIVE_BEHIND, 2, ONE, 2, ONE, 2};

/* The intersection of two squares in rooms of every size near its columns'. */
static void columns(void) {
    static const int32_t WANTED[] = {2, 2, 4, 2, 4, 4, 2, 4, 2, 2};
    for (size_t size = 0; size < 4 * 13; size++) {
        size_t lengths[] = {size % 13, 2, 2};
        lengths[1] -= size / 13 == 1;
        lengths[2] -= size / 13 == 2;
        int fits = lengths[0] >= 10 && lengths[1] == 2 && lengths[2] == 2;
        int32_t *coordinates = malloc(13 * sizeof *coordinates);
        uint32_t rings[2] = {7, 7}, polygons[2] = {7, 7};
        for (size_t at = 0; at < 13; at++)
            coordinates[at] = 7;
        struct overlay_columns_answer answer;
        overlay_columns_fill(OVERLAY_INTERSECTION, SIDE, OVERLAY_SEGMENTS, &SQUARE_COLUMNS, &OTHER_COLUMNS, coordinates, lengths[0],
                             rings, lengths[1], polygons, lengths[2], &answer);
        check(answer.status == (fits ? OVERLAY_ANSWERED : OVERLAY_SMALL), "status of columns");
        check(answer.coordinates == 10 && answer.rings == 2 && answer.polygons == 2, "lengths of columns");
        check(!answer.detail && !answer.number && !answer.part, "fields of columns");
        check(!fits || !memcmp(coordinates, WANTED, sizeof WANTED), "the coordinates");
        for (size_t at = fits ? 10 : 0; at < 13; at++)
            check(coordinates[at] == 7, "the room behind the coordinates");
        check(rings[0] == (fits ? 0 : 7) && rings[1] == (fits ? 5 : 7), "the offsets of rings");
        check(polygons[0] == (fits ? 0 : 7) && polygons[1] == (fits ? 1 : 7), "the offsets of polygons");
        free(coordinates);
    }
}

static void columns_sides(void) {
    static const int32_t R = 268435456, WHOLE_COORDINATES[] = {-R, -R, R, -R, R, R, -R, R, -R, -R};
    static const uint32_t FOUR[] = {0, 4};
    static const struct overlay_columns WHOLE_COLUMNS = {WHOLE_COORDINATES, 10, FIVE, 2, ONE, 2, ONE, 2};
    static const struct overlay_columns NONE = {WHOLE_COORDINATES, 0, FIVE, 0, ONE, 0, ONE, 0};
    static const struct overlay_columns OPEN = {SQUARE_COORDINATES, 10, FOUR, 2, ONE, 2, ONE, 2};
    check(overlay_columns_side(&SQUARE_COLUMNS, &OTHER_COLUMNS) == 262144, "side of columns");
    check(overlay_columns_side(&NONE, &NONE) == 262144, "side of no columns");
    check(overlay_columns_side(&SQUARE_COLUMNS, &WHOLE_COLUMNS) == 4194304, "side of columns of the whole range");
    check(overlay_columns_side(&WHOLE_COLUMNS, &NONE) == 4194304, "side of the whole range and of nothing");
    check(overlay_columns_side(&WHOLE_COLUMNS, &OPEN) == 262144, "side of columns that are refused");
    check(overlay_columns_side(&OPEN, &WHOLE_COLUMNS) == 262144, "side of columns of which the first are refused");
}

static void columns_refusals(void) {
    static const uint32_t FOUR[] = {0, 4}, SEVEN[] = {0, 7}, FALLS[] = {0, 5, 4}, PASSES[] = {0, 1, 2};
    static const struct overlay_columns OPEN = {SQUARE_COORDINATES, 10, FOUR, 2, ONE, 2, ONE, 2};
    static const struct overlay_columns BEYOND = {SQUARE_COORDINATES, 10, SEVEN, 2, ONE, 2, ONE, 2};
    static const struct overlay_columns UNREACHED_RING = {SQUARE_COORDINATES, 10, FALLS, 3, ONE, 2, ONE, 2};
    static const struct overlay_columns UNREACHED_POLYGON = {SQUARE_COORDINATES, 10, FIVE, 2, PASSES, 3, ONE, 2};
    static const struct {
        uint32_t call, side, segments;
        const struct overlay_columns *a, *b;
        uint64_t detail;
        uint32_t status, number, part;
    } ROWS[] = {
        {OVERLAY_EDGES, SIDE, 8, &OPEN, &BEYOND, 0, OVERLAY_NO_CALL, 0, 0},
        {OVERLAY_UNION, 15, 8, &OPEN, &BEYOND, 0, OVERLAY_REFUSED, OVERLAY_BAD_SIDE, OVERLAY_RUN},
        {OVERLAY_UNION, SIDE, 8, &OPEN, &BEYOND, 0, OVERLAY_REFUSED, OVERLAY_OPEN_RING, OVERLAY_LAYER_A},
        {OVERLAY_UNION, SIDE, 8, &OTHER_COLUMNS, &BEYOND, 1, OVERLAY_REFUSED, OVERLAY_RING_OFFSET, OVERLAY_LAYER_B},
        {OVERLAY_UNION, SIDE, 7, &OTHER_COLUMNS, &SQUARE_COLUMNS, 8, OVERLAY_REFUSED, OVERLAY_TOO_MANY_SEGMENTS, OVERLAY_RUN},
        {OVERLAY_UNION, SIDE, 8, &UNREACHED_RING, &BEYOND, 2, OVERLAY_REFUSED, OVERLAY_RING_OFFSET, OVERLAY_LAYER_A},
        {OVERLAY_UNION, SIDE, 8, &OTHER_COLUMNS, &UNREACHED_POLYGON, 2, OVERLAY_REFUSED, OVERLAY_POLYGON_OFFSET, OVERLAY_LAYER_B},
    };
    for (size_t row = 0; row < sizeof ROWS / sizeof *ROWS; row++) {
        int32_t coordinates[64] = {7};
        uint32_t rings[64] = {7}, polygons[64] = {7};
        struct overlay_columns_answer got;
        overlay_columns_fill(ROWS[row].call, ROWS[row].side, ROWS[row].segments, ROWS[row].a, ROWS[row].b, coordinates, 64, rings, 64,
                             polygons, 64, &got);
        check(got.status == ROWS[row].status && got.number == ROWS[row].number && got.part == ROWS[row].part && got.detail == ROWS[row].detail,
              "a refusal of columns");
        check(!got.coordinates && !got.rings && !got.polygons, "lengths of a refusal");
        check(coordinates[0] == 7 && rings[0] == 7 && polygons[0] == 7, "the rooms of a refusal");
    }
}

/* From some request on memory is refused: the rooms are as they were, or there are the results of two pairs. */
static void pairs_memory(void) {
    static const int32_t WANTED[] = {2, 2, 4, 2, 4, 4, 2, 4, 2, 2, 2, 2, 4, 2, 4, 4, 2, 4, 2, 2};
    static const int32_t TWICE[] = {0, 0, 4, 0, 4, 4, 0, 4, 0, 0, 2, 2, 6, 2, 6, 6, 2, 6, 2, 2};
    static const uint32_t RINGS[] = {0, 5, 10}, NUMBERS[] = {0, 1, 2}, BACK[] = {5, 10, 10};
    static const struct overlay_columns FIRST = {TWICE, 20, RINGS, 3, NUMBERS, 3, NUMBERS, 3};
    static const struct overlay_columns SECOND = {OTHER_COORDINATES, 12, FIVE_BEHIND, 2, ONE, 2, NUMBERS, 2};
    int32_t both[22], coordinates[20];
    uint32_t rings[3], polygons[3], features[3];
    memcpy(both, TWICE + 10, 10 * sizeof *both);
    memcpy(both + 10, TWICE, 10 * sizeof *both);
    const struct overlay_columns turned = {both, 20, RINGS, 3, NUMBERS, 3, NUMBERS, 3}, open = {both, 20, BACK, 3, NUMBERS, 3, NUMBERS, 3};
    struct overlay_columns_answer answer;
    long refused = 0;
    for (long count = 0; count < 100000; count++) {
        coordinates[0] = 7;
        rings[0] = polygons[0] = features[0] = 7;
        granted = count;
        overlay_pairs_fill(OVERLAY_INTERSECTION, 16, &FIRST, &turned, coordinates, 20, rings, 3, polygons, 3, features, 3, &answer);
        granted = -1;
        if (answer.status == OVERLAY_ANSWERED)
            break;
        check(answer.status == OVERLAY_NO_MEMORY && answer.number == OVERLAY_OUT_OF_MEMORY && answer.part == OVERLAY_RUN, "no memory for pairs");
        check(coordinates[0] == 7 && rings[0] == 7 && polygons[0] == 7 && features[0] == 7, "rooms that are as they were");
        refused++;
    }
    check(refused > 0, "memory for pairs was refused");
    check(answer.coordinates == 20 && answer.rings == 3 && answer.polygons == 3 && !memcmp(coordinates, WANTED, sizeof WANTED), "two pairs");
    check(!memcmp(rings, RINGS, sizeof RINGS) && !memcmp(polygons, NUMBERS, sizeof NUMBERS) && !memcmp(features, NUMBERS, sizeof NUMBERS), "their offsets");
    overlay_pairs_fill(OVERLAY_UNION, 16, &FIRST, &SECOND, coordinates, 20, rings, 3, polygons, 3, features, 3, &answer);
    check(answer.status == OVERLAY_REFUSED && answer.number == OVERLAY_UNPAIRED && answer.detail == 1 && answer.part == OVERLAY_RUN, "features without another");
    overlay_pairs_fill(OVERLAY_UNION, 16, &FIRST, &open, coordinates, 20, rings, 3, polygons, 3, features, 3, &answer);
    check(answer.status == OVERLAY_REFUSED && answer.number == OVERLAY_SHORT_RING && answer.detail == 1 && answer.part == OVERLAY_LAYER_B, "a pair with a fault");
}

/* The columns of the faces of both squares: their rows are the lines of FACES. */
static const int32_t FACE_COORDINATES[] = {0, 0, 4, 0, 4, 2, 2, 2, 2, 4, 0, 4, 0, 0, 2, 2, 4, 2, 4, 4, 2, 4, 2, 2, 2, 4, 4, 4, 4, 2, 6, 2, 6, 6, 2, 6, 2, 4};
static const uint32_t FACE_RINGS[] = {0, 7, 12, 19}, FACE_OFFSETS[] = {0, 1, 2, 3}, FACE_IDS[] = {0, 0, 0, 0}, FACE_LISTS[] = {0, 1, 2, 2, 2, 3, 4};
static const int64_t FACE_AREAS[] = {24, 8, 24};

/* Rooms that have more than they are said to have. */
struct face_room {
    int32_t coordinates[40];
    uint32_t rings[6], polygons[6], rows[6], ids[6], lists[9];
    int64_t twice_areas[5];
};

/* What is wanted of the rooms, all of whose bytes were 7. */
static int are_faces(const struct face_room *room, int written) {
    struct face_room want;
    memset(&want, 7, sizeof want);
    if (written) {
        memcpy(want.coordinates, FACE_COORDINATES, sizeof FACE_COORDINATES);
        memcpy(want.rings, FACE_RINGS, sizeof FACE_RINGS);
        memcpy(want.polygons, FACE_OFFSETS, sizeof FACE_OFFSETS);
        memcpy(want.rows, FACE_OFFSETS, sizeof FACE_OFFSETS);
        memcpy(want.ids, FACE_IDS, sizeof FACE_IDS);
        memcpy(want.lists, FACE_LISTS, sizeof FACE_LISTS);
        memcpy(want.twice_areas, FACE_AREAS, sizeof FACE_AREAS);
    }
    return !memcmp(room, &want, sizeof want);
}

/* A call on layers with these limits, and rooms of which one has less than is wanted, or, where that is none of them, more. */
static struct overlay_faces_answer face_columns_filled(uint32_t side, uint32_t segments, uint64_t ids, const struct overlay_columns *layers, size_t count,
                                                       struct face_room *room, int few) {
    static const size_t WANTED[] = {38, 4, 4, 4, 3, 4, 7};
    size_t n[7];
    for (int k = 0; k < 7; k++)
        n[k] = WANTED[k] + (few == 7) - (few == k);
    struct overlay_face_buffers rooms = {room->coordinates, n[0], room->rings, n[1], room->polygons, n[2], room->rows, n[3],
                                       room->twice_areas, n[4], room->ids, n[5], room->lists, n[6]}, before = rooms;
    struct overlay_faces_answer answer;
    memset(room, 7, sizeof *room);
    memset(&answer, 9, sizeof answer);
    overlay_faces_columns_fill(side, segments, ids, layers, count, &rooms, &answer);
    check(!memcmp(&rooms, &before, sizeof rooms), "rooms that are where they were");
    return answer;
}

static int has_face_lengths(const struct overlay_faces_answer *answer) {
    return answer->coordinates == 38 && answer->rings == 4 && answer->polygons == 4 && answer->rows == 4 && answer->twice_areas == 3
        && answer->ids == 4 && answer->lists == 7 && !answer->detail && !answer->number && !answer->part;
}

static int has_no_lengths(const struct overlay_faces_answer *answer) {
    return !answer->coordinates && !answer->rings && !answer->polygons && !answer->rows && !answer->twice_areas && !answer->ids && !answer->lists;
}

/* The faces of both squares, in rooms of which each is too small in turn; then just large enough, and larger. */
static void face_columns(void) {
    const struct overlay_columns both[] = {SQUARE_COLUMNS, OTHER_COLUMNS};
    struct face_room room;
    for (int few = 0; few < 9; few++) {
        struct overlay_faces_answer answer = face_columns_filled(SIDE, 8, 4, both, 2, &room, few);
        check(answer.status == (few < 7 ? OVERLAY_SMALL : OVERLAY_ANSWERED) && has_face_lengths(&answer), "faces as columns");
        check(are_faces(&room, few >= 7), "the rooms of faces as columns");
    }
    struct overlay_faces_answer none = face_columns_filled(SIDE, 8, 4, both, 0, &room, 7);
    check(none.status == OVERLAY_ANSWERED && !none.coordinates && none.rings == 1 && none.polygons == 1 && none.rows == 1 && !none.twice_areas
              && !none.ids && none.lists == 1 && !room.rings[0] && !room.polygons[0] && !room.rows[0] && !room.lists[0], "columns of no layers");
    check(sizeof none == 80 && offsetof(struct overlay_faces_answer, part) == 72 && sizeof(struct overlay_face_buffers) == 112, "the structs as they are laid out");
}

static void face_columns_refusals(void) {
    static const int32_t R = 268435456, WHOLE_COORDINATES[] = {-R, -R, R, -R, R, R, -R, R, -R, -R};
    static const uint32_t FOUR[] = {0, 4};
    const struct overlay_columns open = {SQUARE_COORDINATES, 10, FOUR, 2, ONE, 2, ONE, 2}, whole = {WHOLE_COORDINATES, 10, FIVE, 2, ONE, 2, ONE, 2};
    struct overlay_columns layers[OVERLAY_MOST_LAYERS + 1];
    for (size_t at = 0; at <= OVERLAY_MOST_LAYERS; at++)
        layers[at] = SQUARE_COLUMNS;
    const struct {
        uint32_t side, segments;
        uint64_t ids;
        size_t count;
        struct overlay_columns first;
        uint64_t detail;
        uint32_t status, number, part;
    } ROWS[] = {
        {15, 8, 4, 65, SQUARE_COLUMNS, 0, OVERLAY_NO_CALL, 0, 0},
        {15, 8, 4, 2, open, 0, OVERLAY_REFUSED, OVERLAY_BAD_SIDE, 2},
        {SIDE, 8, 4, 3, open, 0, OVERLAY_REFUSED, OVERLAY_OPEN_RING, 0},
        {SIDE, 255, 4, 64, SQUARE_COLUMNS, 256, OVERLAY_REFUSED, OVERLAY_TOO_MANY_SEGMENTS, 64},
        {SIDE, 8, 4, 2, whole, 4198401, OVERLAY_REFUSED, OVERLAY_TOO_MANY_TILES, 2},
        {SIDE, 256, 63, 64, SQUARE_COLUMNS, 64, OVERLAY_REFUSED, OVERLAY_TOO_MANY_IDS, 64},
    };
    struct face_room room;
    for (size_t row = 0; row < sizeof ROWS / sizeof *ROWS; row++) {
        layers[0] = ROWS[row].first;
        struct overlay_faces_answer got = face_columns_filled(ROWS[row].side, ROWS[row].segments, ROWS[row].ids, layers, ROWS[row].count, &room, 7);
        check(got.status == ROWS[row].status && got.number == ROWS[row].number && got.part == ROWS[row].part && got.detail == ROWS[row].detail,
              "a refusal of faces as columns");
        check(has_no_lengths(&got) && are_faces(&room, 0), "the rooms of a refusal of faces");
    }
    layers[0] = SQUARE_COLUMNS;
    layers[63] = open;
    struct overlay_faces_answer last = face_columns_filled(SIDE, 256, 64, layers, 64, &room, 7);
    check(last.status == OVERLAY_REFUSED && last.number == OVERLAY_OPEN_RING && last.part == 63 && !last.detail, "the last layer is refused");
    layers[63] = whole;
    check(overlay_faces_columns_side(layers, 64) == 4194304, "side of 64 layers of columns");
    check(overlay_faces_columns_side(layers, 63) == 262144, "side of layers of columns");
    check(overlay_faces_columns_side(layers, 65) == 262144, "side of 65 layers of columns");
    check(overlay_faces_columns_side(layers, 0) == 262144, "side of no layers of columns");
    layers[0] = open;
    check(overlay_faces_columns_side(layers, 64) == 262144, "side of layers of which one is refused");
}

/* From some request on memory is refused: the rooms are as they were, or there are the faces. */
static void face_columns_memory(void) {
    const struct overlay_columns both[] = {SQUARE_COLUMNS, OTHER_COLUMNS};
    struct face_room room;
    long refused = 0;
    for (long count = 0; count < 100000; count++) {
        granted = count;
        struct overlay_faces_answer answer = face_columns_filled(SIDE, OVERLAY_SEGMENTS, OVERLAY_IDS, both, 2, &room, 7);
        granted = -1;
        if (answer.status == OVERLAY_ANSWERED) {
            check(has_face_lengths(&answer) && are_faces(&room, 1), "faces as columns with just enough memory");
            break;
        }
        check(answer.status == OVERLAY_NO_MEMORY && answer.number == OVERLAY_OUT_OF_MEMORY && answer.part == 2 && !answer.detail, "no memory for columns");
        check(has_no_lengths(&answer) && are_faces(&room, 0), "rooms of faces that are as they were");
        refused++;
    }
    check(refused > 0, "memory for faces as columns was refused");
}

int main(int count, char **words) {
    if (count == 4)
        return print(words);
    check(overlay_version() == 10 && OVERLAY_CALLS_VERSION == 10, "the version");
    names();
    reasons();
    rooms();
    refusals();
    sides();
    within();
    large();
    broken();
    covered();
    covered_refusals();
    memory(overlay_fill_within);
    memory(overlay_covered_fill);
    faces();
    many_layers();
    faces_refusals();
    faces_memory();
    broken_faces();
    columns();
    columns_sides();
    columns_refusals();
    pairs_memory();
    face_columns();
    face_columns_refusals();
    face_columns_memory();
    printf("%ld failed\n", failures);
    return failures != 0;
}
