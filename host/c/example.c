/* From C: the term of a proof, the term reduced, and its text before and after. A proof tree comes in, a plain route goes out. */
#include "patch.h"

#include <stdio.h>

static uint8_t term[PATCH_OUTPUT_ROOM], reduced[PATCH_OUTPUT_ROOM], scratch[PATCH_SCRATCH_ROOM], text[PATCH_TEXT_ROOM];
static uint64_t answer[PATCH_ANSWER];

static int refused(void) {
    if (answer[PATCH_NUMBER] != 0) {
        printf("refused %u at %u\n", (unsigned)answer[PATCH_NUMBER], (unsigned)answer[PATCH_PLACE]);
    }
    return answer[PATCH_NUMBER] != 0;
}

/* Prints a term, then what it reduces to. */
static int show(const uint8_t *given, size_t length) {
    unsigned steps;
    patch_term_text(given, length, text, sizeof text, answer);
    if (refused()) {
        return 1;
    }
    printf("%s\n", (const char *)text);
    patch_normalize_bounded(given, length, 1000, reduced, sizeof reduced, scratch, sizeof scratch, answer);
    if (refused()) {
        return 1;
    }
    steps = (unsigned)answer[PATCH_VALUE];
    patch_term_text(reduced, (size_t)answer[PATCH_VALUE + 2], text, sizeof text, answer);
    printf("steps %u: %s\n", steps, (const char *)text);
    return 0;
}

int main(void) {
    /* `let (x, y) = (y, ()) in (x y)`, on which two engines used to disagree */
    static const uint8_t patch[] = {4, 1, 'x', 1, 'y', 3, 1, 1, 'y', 2, 6, 1, 1, 'x', 1, 1, 'y'};
    /* a Cut on 1 tensor 1, whose producer is a TensorIntro over two OneIntro, its consumer an Axiom */
    static const uint8_t proof[] = {2, 3, 5, 5, 0, 2, 5, 0, 2, 3, 0, 0, 3, 0, 0, 1, 1, 1, 1, 'A', 0};

    if (show(patch, sizeof patch)) {
        return 1;
    }
    patch_extract(proof, sizeof proof, 0, term, sizeof term, scratch, sizeof scratch, answer);
    return refused() || show(term, (size_t)answer[PATCH_VALUE]);
}
