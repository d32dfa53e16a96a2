/* overlay_text, under the sanitizers, which also see what is not let go: texts that are shorter and longer than both layers, refused
 * layers, and each request for memory refused in turn. */
#include "../overlay.h"
#include "checking.h"
#include "squares.h"

#include <stdlib.h>
#include <string.h>

static int is_answered(const char *text, const struct overlay_answer *answer, uint32_t call) {
    return text && !strcmp(text, TEXTS[call]) && answer->status == OVERLAY_ANSWERED && answer->length == strlen(text);
}

static void results(void) {
    for (uint32_t call = OVERLAY_UNION; call <= OVERLAY_EDGES; call++) {
        struct overlay_answer answer;
        char *text = overlay_text(call, SQUARE, OTHER, &answer);
        check(is_answered(text, &answer, call), "the text");
        free(text);
    }
}

static void refusals(void) {
    struct overlay_answer answer;
    check(!overlay_text(OVERLAY_EDGES + 1, SQUARE, OTHER, &answer) && answer.status == OVERLAY_NO_CALL, "no such call");
    check(!overlay_text(OVERLAY_UNION, SQUARE, "POLYGON ((0 0", &answer) && answer.status == OVERLAY_REFUSED && answer.number == OVERLAY_SYNTAX
              && answer.part == OVERLAY_LAYER_B && answer.detail == 13, "a layer that is refused");
}

/* Of the edges, which are longer than both layers, so that a second room is asked for. */
static void memory(void) {
    for (long count = 0; count < 100000; count++) {
        struct overlay_answer answer;
        granted = count;
        char *text = overlay_text(OVERLAY_EDGES, SQUARE, OTHER, &answer);
        granted = -1;
        if (text) {
            check(is_answered(text, &answer, OVERLAY_EDGES), "the text with just enough memory");
            free(text);
            printf("text: %ld requests refused in turn\n", count);
            return;
        }
        check(answer.status == OVERLAY_NO_MEMORY && answer.number == OVERLAY_OUT_OF_MEMORY && answer.part == OVERLAY_RUN && !answer.length,
              "no text without memory");
    }
    check(0, "a text with any memory");
}

int main(void) {
    results();
    refusals();
    memory();
    return failures != 0;
}
