/* Calls every entry point, as C and as C++: that header and library agree. What they answer is tried at length by host/differential. */
#include "patch.h"

#include <stdio.h>
#include <string.h>

static int wrong = 0;
static uint64_t answer[PATCH_ANSWER];
static uint8_t out[PATCH_TEXT_ROOM + 1];
static uint8_t scratch[PATCH_SCRATCH_ROOM];

static void expect(int holds, const char *what) {
    if (!holds) {
        printf("smoke: %s\n", what);
        wrong = 1;
    }
}

/* The refusal, in one number. */
static unsigned refused(void) {
    return (unsigned)(answer[PATCH_NUMBER] * 10000 + answer[PATCH_PLACE] * 10 + answer[PATCH_INPUT]);
}

/* Whether the call succeeded with this value. */
static int answered(uint64_t value) {
    return refused() == 0 && answer[PATCH_VALUE] == value;
}

static const uint8_t formula[] = {13, 1, 1, 'A', 5};
static const uint8_t term[] = {5, 1, 'x', 1, 1, 'x'};
static const uint8_t applied[] = {6, 5, 1, 'x', 1, 1, 'x', 2};
static const uint8_t proof[] = {1, 1, 5, 0};
static const uint8_t word[] = {1, 2, 'i', 'n'};

static void checks(void) {
    patch_check_formula(formula, sizeof formula, answer);
    expect(answered(3), "a formula of 3 nodes");
    patch_check_formula(formula, 4, answer);
    expect(refused() == 30041 && answer[PATCH_VALUE] == 0, "a formula that ends inside");
    patch_check_term(term, sizeof term, answer);
    expect(answered(2), "a term of 2 nodes");
    patch_check_term(term, 0, answer);
    expect(refused() == 30001, "no bytes");
    patch_check_term(word, sizeof word, answer);
    expect(refused() == PATCH_RESERVED_WORD * 10000 + 21, "a word is no name");
    patch_check_proof(proof, sizeof proof, answer);
    expect(answered(1), "a proof of 1 rule");
    patch_is_straight(term, sizeof term, answer);
    expect(answered(1), "a straight term");
    patch_is_normal(applied, sizeof applied, answer);
    expect(answered(0), "a term that is not normal");
    patch_child(applied, sizeof applied, 1, answer);
    expect(answered(7) && answer[PATCH_VALUE + 1] == 1, "the second child");
    patch_child(applied, sizeof applied, 2, answer);
    expect(refused() == PATCH_NO_SUCH_CHILD * 10000, "no third child");
}

static void texts(void) {
    static const char printed[] = "(A \xe2\x8a\xb8 1)";
    memset(out, 9, sizeof out);
    patch_formula_text(formula, sizeof formula, out, PATCH_FORMULA_TEXT_ROOM - 1, answer);
    expect(refused() == 10000 && out[0] == 9, "a short buffer");
    patch_formula_text(formula, sizeof formula, out, PATCH_FORMULA_TEXT_ROOM, answer);
    expect(answered(sizeof printed - 1), "the text's length");
    expect(memcmp(out, printed, sizeof printed) == 0, "the text, then zeros");
    expect(out[PATCH_FORMULA_TEXT_ROOM - 1] == 0 && out[PATCH_FORMULA_TEXT_ROOM] == 9, "zeros to the end of what is lent");
    patch_term_text(term, sizeof term, out, PATCH_TEXT_ROOM, answer);
    expect(answered(6) && memcmp(out, "\xce\xbbx. x", 7) == 0, "the text of a term");
}

static void terms(void) {
    static const uint8_t free_names[] = {1, 'x', 0};
    patch_free_vars(term + 3, 3, out, PATCH_OUTPUT_ROOM, answer);
    expect(answered(2) && memcmp(out, free_names, sizeof free_names) == 0, "a free name");
    patch_substitute(term + 3, 3, term + 2, 1, applied, sizeof applied, out, PATCH_OUTPUT_ROOM, scratch, sizeof scratch, answer);
    expect(answered(sizeof applied) && memcmp(out, applied, sizeof applied) == 0, "a substitution");
    patch_step(applied, sizeof applied, out, PATCH_OUTPUT_ROOM, scratch, sizeof scratch, answer);
    expect(answered(PATCH_APP) && answer[PATCH_VALUE + 2] == 1 && out[0] == 2, "a step");
    patch_normalize_bounded(applied, sizeof applied, 1000, out, PATCH_OUTPUT_ROOM, scratch, sizeof scratch, answer);
    expect(answered(1) && answer[PATCH_VALUE + 1] == 1, "a reduction of one step");
    expect(answer[PATCH_VALUE + 2 + PATCH_APP] == 1 && answer[PATCH_VALUE + 2 + PATCH_DISCARD] == 0, "its counts");
    patch_extract(proof, sizeof proof, 8, out, PATCH_OUTPUT_ROOM, scratch, sizeof scratch, answer);
    expect(answered(8) && answer[PATCH_VALUE + 1] == 9 && memcmp(out, "\x05\x02x8\x01\x02x8", 8) == 0, "an extraction");
}

static void files(void) {
    static uint8_t file[PATCH_STORED_ROOM];
    patch_store_term(applied, sizeof applied, file, sizeof file, answer);
    expect(answered(512) && file[0] == 1, "a stored term");
    patch_load_term(file, 512, out, PATCH_OUTPUT_ROOM, answer);
    expect(answered(sizeof applied) && memcmp(out, applied, sizeof applied) == 0, "a loaded term");
    patch_store_proof(proof, sizeof proof, file, sizeof file, answer);
    expect(answered(512) && file[0] == 2, "a stored proof");
    patch_load_proof(file, 512, out, PATCH_OUTPUT_ROOM, answer);
    expect(answered(sizeof proof) && memcmp(out, proof, sizeof proof) == 0, "a loaded proof");
    patch_load_term(file, 512, out, PATCH_OUTPUT_ROOM, answer);
    expect(refused() == PATCH_BLOCK_HEAD * 10000 + 1, "a stored proof is no term");
}

int main(void) {
    checks();
    texts();
    terms();
    files();
    return wrong;
}
