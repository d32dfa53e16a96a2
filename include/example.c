/* What two layers have in common, to standard output. It is C99 and C++.
 *
 *     cc example.c $(pkg-config --cflags --libs overlay) && ./a.out
 */
#include <overlay.h>

#include <stdio.h>
#include <stdlib.h>

/* Tells on standard error why there is no text. */
static int told(const struct overlay_answer *answer) {
    uint8_t words[OVERLAY_WORDS];
    size_t length = overlay_words(answer, words, sizeof words);
    fprintf(stderr, "overlay: %.*s\n", (int)length, (const char *)words);
    return EXIT_FAILURE;
}

int main(void) {
    const char *parcels = "POLYGON ((0 0, 4 0, 4 4, 0 4, 0 0))", *zones = "POLYGON ((2 2, 6 2, 6 6, 2 6, 2 2))";
    struct overlay_answer answer;
    char *common = overlay_text(OVERLAY_INTERSECTION, parcels, zones, &answer);
    if (!common)
        return told(&answer);
    fputs(common, stdout);
    free(common);
    return EXIT_SUCCESS;
}
