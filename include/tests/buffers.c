/* What a call owes to the memory round its buffers, under the sanitizers. All that a call on strips reads and writes lies end to end in one block: it
 * writes its lists and its answer, and no other byte. And lists and buffers of length 0 may lie where nobody may read or write. */
#define _DEFAULT_SOURCE
#include "../overlay.h"
#include "checking.h"
#include "strips_by_hand.h"

#include <string.h>
#include <sys/mman.h>
#include <unistd.h>

enum { MOST_LISTS = 5, MOST_BUFFERS = 3, MOST_PIECES = 1 + MOST_LISTS + MOST_BUFFERS, BLOCK = 1 << 13, GUARD = 64, SPARE = 2, FILL = 0xA5 };

/* The items of a list, and how many bytes each has. */
struct list {
    const void *items;
    size_t count, size;
};

#define LIST(items) {items, COUNT(items), sizeof *(items)}
#define NONE_OF(type) {NULL, 0, sizeof(type)}

/* The answer of a call on strips or on polygons: both have the same layout. */
union answer {
    struct overlay_strip_answer strip;
    struct overlay_columns_answer columns;
};

/* Where the lists, the buffers and the answer of a call are. */
struct passed {
    void *lists[MOST_LISTS], *buffers[MOST_BUFFERS];
    size_t list_counts[MOST_LISTS], buffer_counts[MOST_BUFFERS];
    union answer *answer;
};

/* A call, the lists that it reads, and those that it writes. */
struct trial {
    const char *name;
    void (*call)(const struct passed *passed);
    struct list read[MOST_LISTS];
    struct list written[MOST_BUFFERS];
};

/* ---- the calls, on strip 1 of the map or on the first of the ranges */

#define READ(n) passed->lists[n], passed->list_counts[n]
#define WRITE(n) passed->buffers[n], passed->buffer_counts[n]

static void scatter(const struct passed *passed) {
    struct overlay_columns part = {READ(1), READ(2), READ(3), READ(4)};
    overlay_strip_scatter(READ(0), 0, 0, &part, WRITE(0), WRITE(1), &passed->answer->strip);
}

static void round_strip(const struct passed *passed) {
    overlay_strip_round(READ(0), passed->list_counts[0] ? 1 : 0, READ(1), WRITE(0), WRITE(1), WRITE(2), &passed->answer->strip);
}

static void bridge(const struct passed *passed) {
    overlay_strip_bridge(READ(0), READ(1), READ(2), WRITE(0), WRITE(1), &passed->answer->strip);
}

static void edges(const struct passed *passed) {
    overlay_strip_edges(READ(0), READ(1), WRITE(0), &passed->answer->strip);
}

static void labels(const struct passed *passed) {
    overlay_strip_labels(OVERLAY_INTERSECTION, READ(0), READ(1), WRITE(0), &passed->answer->strip);
}

static void going_on(const struct passed *passed) {
    overlay_strip_going_on(READ(0), passed->list_counts[0] ? 1 : 0, READ(1), READ(2), WRITE(0), &passed->answer->strip);
}

static void closed(const struct passed *passed) {
    overlay_strip_closed(READ(0), 0, 1, READ(1), WRITE(0), WRITE(1), &passed->answer->strip);
}

static void polygons(const struct passed *passed) {
    overlay_polygons(READ(0), WRITE(0), WRITE(1), WRITE(2), &passed->answer->columns);
}

static void in_order(const struct passed *passed) {
    overlay_strip_write(READ(0), READ(1), READ(2), WRITE(0), WRITE(1), WRITE(2), &passed->answer->columns);
}

static const struct overlay_line LINES_1[] = {
    {0, 0, 0, 0, 12, 0}, {2, 0, 0, 6, 12, 6}, {4, 0, 1, 2, 8, 1}, {6, 0, 1, 3, 8, 4}, {8, 1, 3, -2, 5, -2}, {9, 1, 5, -2, 5, 8}, {10, 1, 3, 8, 5, 8},
};
static const struct overlay_open RIGHT_1[] = {{0, 0, 1, 5, 0}, {2, 0, 1, 5, 6}, {4, 0, 1, 5, 1}, {6, 0, 1, 5, 4}};
static const struct overlay_counted EDGES_1[] = {
    {5, -2, 5, 0, 0, 1}, {5, 0, 5, 1, 0, 1}, {5, 0, 12, 0, 1, 0}, {5, 1, 5, 4, 0, 1}, {5, 1, 8, 1, 1, 0},
    {5, 4, 5, 6, 0, 1},  {5, 4, 8, 4, 1, 0}, {5, 6, 5, 8, 0, 1},  {5, 6, 12, 6, 1, 0},
};
/* A square, with a corner of another one in it. */
static const struct overlay_directed SQUARES[] = {{0, 0, 8, 0}, {0, 8, 0, 0}, {2, 2, 2, 4}, {2, 4, 4, 4}, {4, 2, 2, 2}, {4, 4, 4, 2}, {8, 0, 8, 8}, {8, 8, 0, 8}};
static const int32_t SQUARE_POINTS[] = {0, 0, 8, 0, 8, 8, 0, 8, 0, 0, 2, 2, 2, 4, 4, 4, 4, 2, 2, 2};
static const uint32_t SQUARE_RINGS[] = {0, 5, 10}, SQUARE_POLYGONS[] = {0, 2};

static const struct trial TRIALS[] = {
    {"scatter", scatter, {LIST(CUTS), LIST(POINTS_A), LIST(RINGS_A), LIST(TWO), LIST(ONE)}, {LIST(LINES_OF_A), LIST(BEGINS_OF_A)}},
    {"round", round_strip, {LIST(CUTS), LIST(LINES_1)}, {LIST(INNER_1), LIST(LEFT_1), LIST(RIGHT_1)}},
    {"bridge", bridge, {LIST(LEFT_1), LIST(RIGHT_1), LIST(FROM_3)}, {LIST(ACROSS_1), LIST(FROM_1)}},
    {"edges", edges, {LIST(INNER_1), LIST(ACROSS_1)}, {LIST(EDGES_1)}},
    {"labels", labels, {LIST(ACROSS_0), LIST(EDGES_1)}, {LIST(BOTH_1)}},
    {"going_on", going_on, {LIST(CUTS), LIST(ACROSS_0), LIST(EDGES_1)}, {LIST(ACROSS_1)}},
    {"closed", closed, {LIST(BORDERS), LIST(KNOWN_0)}, {LIST(CLOSED_0), LIST(WAITING_0)}},
    {"polygons", polygons, {LIST(SQUARES)}, {LIST(SQUARE_POINTS), LIST(SQUARE_RINGS), LIST(SQUARE_POLYGONS)}},
    {"write", in_order, {LIST(MADE_POINTS), LIST(MADE_RINGS), LIST(MADE_POLYGONS)}, {LIST(WRITTEN_POINTS), LIST(WRITTEN_RINGS), LIST(WRITTEN_POLYGONS)}},
};

/* ---- all of a call end to end */

static union {
    union answer answer; /* for its alignment */
    unsigned char bytes[BLOCK];
} block, wanted;

static size_t length_of(const struct list *lists, size_t most) {
    size_t count = 0;
    while (count < most && lists[count].size)
        count++;
    return count;
}

/* Puts a list at a place of the block and of what is wanted there; where it is not read, the block has none of it. */
static void *place(size_t *at, const struct list *list, int is_read) {
    size_t length = list->count * list->size;
    void *here = block.bytes + *at;
    if (is_read)
        memcpy(here, list->items, length);
    memcpy(wanted.bytes + *at, list->items, length);
    *at += length;
    return here;
}

/* Lays all out behind a guard and the answer, each list that is read beside a buffer; a buffer has its list's length and some items more, and the one that
 * is named is short by one. */
static struct passed laid_out(const struct trial *trial, size_t more, size_t is_short, int is_buffer_first) {
    struct passed passed = {{NULL}, {NULL}, {0}, {0}, NULL};
    size_t at = GUARD, reads = length_of(trial->read, MOST_LISTS), writes = length_of(trial->written, MOST_BUFFERS);
    memset(block.bytes, FILL, BLOCK);
    memset(wanted.bytes, FILL, BLOCK);
    passed.answer = (union answer *)(void *)(block.bytes + at);
    passed.answer->strip = GARBAGE;
    at += sizeof *passed.answer;
    for (size_t piece = 0; piece < 2 * MOST_LISTS; piece++) {
        size_t n = piece / 2;
        if ((piece % 2 == 0) == is_buffer_first && n < writes) {
            passed.buffers[n] = place(&at, &trial->written[n], 0);
            passed.buffer_counts[n] = trial->written[n].count + more - (n == is_short);
            at += more * trial->written[n].size;
        } else if ((piece % 2 == 0) != is_buffer_first && n < reads) {
            passed.lists[n] = place(&at, &trial->read[n], 1);
            passed.list_counts[n] = trial->read[n].count;
        }
    }
    check(at + GUARD <= BLOCK, "the block is long enough");
    return passed;
}

/* Whether the call told these lengths, with this status. */
static int are_told(const struct trial *trial, const struct passed *passed, uint32_t status) {
    const struct overlay_strip_answer *answer = &passed->answer->strip;
    return answer->status == status && answer->first == trial->written[0].count && answer->second == trial->written[1].count
           && answer->third == trial->written[2].count && !answer->detail && !answer->number && !answer->part;
}

/* Whether the bytes of the block but those of the answer are these. */
static int are_bytes(const unsigned char *bytes) {
    size_t behind = GUARD + sizeof(union answer);
    return !memcmp(block.bytes, bytes, GUARD) && !memcmp(block.bytes + behind, bytes + behind, BLOCK - behind);
}

static void end_to_end(const struct trial *trial, size_t more, int is_buffer_first) {
    static unsigned char before[BLOCK];
    struct passed passed = laid_out(trial, more, MOST_BUFFERS, is_buffer_first);
    trial->call(&passed);
    check(are_told(trial, &passed, OVERLAY_ANSWERED) && are_bytes(wanted.bytes), trial->name);
    for (size_t n = 0; n < length_of(trial->written, MOST_BUFFERS); n++) {
        passed = laid_out(trial, 0, n, is_buffer_first);
        memcpy(before, block.bytes, BLOCK);
        trial->call(&passed);
        check(are_told(trial, &passed, OVERLAY_SMALL) && are_bytes(before), trial->name);
    }
}

/* ---- lists and buffers of length 0 where nobody may read or write */

/* How many items the call has for each of its buffers where its lists have none: offsets have one number. */
static const size_t OF_NOTHING[COUNT(TRIALS)][MOST_BUFFERS] = {{0, 2, 0}, {0}, {0}, {0}, {0}, {0}, {0}, {0, 1, 1}, {0, 1, 1}};

static void nothing(void *nowhere) {
    union answer answer;
    struct passed passed = {{nowhere, nowhere, nowhere, nowhere, nowhere}, {nowhere, nowhere, nowhere}, {0}, {0}, &answer};
    for (size_t at = 0; at < COUNT(TRIALS); at++) {
        const size_t *counts = OF_NOTHING[at];
        answer.strip = GARBAGE;
        TRIALS[at].call(&passed);
        check(answer.strip.status == (counts[1] ? OVERLAY_SMALL : OVERLAY_ANSWERED) && answer.strip.first == counts[0] && answer.strip.second == counts[1]
                  && answer.strip.third == counts[2] && !answer.strip.number && !answer.strip.part && !answer.strip.detail, TRIALS[at].name);
    }
}

/* A text of length 0 is a layer without features, and so are columns without offsets. */
static void empty_layers(void *nowhere) {
    struct overlay_answer text = {9, 9, 9, 9, 9};
    struct overlay_columns_answer columns = {9, 9, 9, 9, 9, 9, 9};
    struct overlay_columns none = {nowhere, 0, nowhere, 0, nowhere, 0, nowhere, 0};
    overlay_fill(OVERLAY_UNION, 16, nowhere, 0, nowhere, 0, nowhere, 0, &text);
    check(text.status == OVERLAY_SMALL && text.length == strlen("MULTIPOLYGON EMPTY\n"), "texts of length 0");
    overlay_columns_fill(OVERLAY_UNION, 16, 1, &none, &none, nowhere, 0, nowhere, 0, nowhere, 0, &columns);
    check(columns.status == OVERLAY_SMALL && !columns.coordinates && columns.rings == 1 && columns.polygons == 1, "columns of length 0");
    check(!overlay_words(&text, nowhere, 0), "words for no buffer");
}

int main(void) {
    size_t page = (size_t)sysconf(_SC_PAGESIZE);
    void *nowhere = mmap(NULL, page, PROT_NONE, MAP_PRIVATE | MAP_ANONYMOUS, -1, 0);
    for (size_t at = 0; at < COUNT(TRIALS); at++)
        for (int way = 0; way < 4; way++)
            end_to_end(&TRIALS[at], way % 2 ? SPARE : 0, way / 2);
    check(nowhere != MAP_FAILED, "a page without access");
    if (nowhere != MAP_FAILED) {
        nothing(nowhere);
        empty_layers(nowhere);
    }
    printf("buffers: %zu calls end to end with their lists and their answer\n", COUNT(TRIALS));
    return failures != 0;
}
