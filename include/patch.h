/* The engine's entry points for C and C++; link host/target/library/libentry.a, which `make library` writes.
 *
 * Terms, formulas and proofs are the byte forms of the rules. Every call ends, whatever bytes it is handed.
 *
 * Each function takes its inputs, then the buffers that it is lent, then `answer`. An input or a buffer is a pointer and a length. A pointer is
 * never null, not even for length 0; it is good for its length during the call, and no lent buffer overlaps another argument. `answer` points to
 * PATCH_ANSWER numbers, which the call writes all:
 *
 *   answer[PATCH_NUMBER]  0 if the call succeeded, else the number of the refusal
 *   answer[PATCH_PLACE]   the place of the refusal, else 0
 *   answer[PATCH_INPUT]   the input that it is about, 1 for the first; 0 if it is about none
 *   answer[PATCH_VALUE]   the values of the call, as listed at it; zeros behind them
 *
 * After success a lent output holds the answer and then zeros to its end; a refusal leaves it as it was, unless the call says otherwise. A lent
 * scratch is all zeros after success, and after refusal 8; any other refusal leaves it as it was.
 */
#ifndef PATCH_H
#define PATCH_H

#include <stddef.h>
#include <stdint.h>

#ifdef __cplusplus
extern "C" {
#endif

#define PATCH_ANSWER 16

#define PATCH_NUMBER 0
#define PATCH_PLACE 1
#define PATCH_INPUT 2
#define PATCH_VALUE 3

/* The least length of a lent output, by what goes there. */
#define PATCH_OUTPUT_ROOM 4096
#define PATCH_TEXT_ROOM 20480
#define PATCH_FORMULA_TEXT_ROOM 11264
#define PATCH_STORED_ROOM 4608

/* The least length of a lent scratch. */
#define PATCH_SCRATCH_ROOM 8192

/* The rules of a step, in the order of their counts; 0 stands for no rule. */
enum patch_rule {
    PATCH_NORMAL = 0,
    PATCH_APP = 1,
    PATCH_LET = 2,
    PATCH_CASE = 3,
    PATCH_FST = 4,
    PATCH_SND = 5,
    PATCH_DERELICT = 6,
    PATCH_COPY = 7,
    PATCH_DISCARD = 8
};

/* The refusals. */
enum patch_refusal {
    PATCH_SHORT_BUFFER = 1,
    PATCH_INPUT_TOO_LONG = 2,
    PATCH_ENDS_INSIDE = 3,
    PATCH_NOT_LISTED = 4,
    PATCH_BAD_NAME = 5,
    PATCH_ONE_TOO_MANY = 6,
    PATCH_LEFT_OVER = 7,
    PATCH_OUTGROWS = 8,
    PATCH_COUNTER_OVER = 9,
    PATCH_STORED_LENGTH = 10,
    PATCH_BLOCK_CHECK = 11,
    PATCH_BLOCK_HEAD = 12,
    PATCH_UNUSED_NOT_ZERO = 13,
    PATCH_NO_SUCH_CHILD = 14,
    PATCH_RESERVED_WORD = 15
};

/* Whether a formula, a term or a proof is legal. Value: its nodes, of a proof its rules. */
void patch_check_formula(const uint8_t *formula, size_t formula_length, uint64_t answer[PATCH_ANSWER]);
void patch_check_term(const uint8_t *term, size_t term_length, uint64_t answer[PATCH_ANSWER]);
void patch_check_proof(const uint8_t *proof, size_t proof_length, uint64_t answer[PATCH_ANSWER]);

/* The printed text of a formula, to an output of at least PATCH_FORMULA_TEXT_ROOM bytes. Value: its length. */
void patch_formula_text(const uint8_t *formula, size_t formula_length, uint8_t *out, size_t out_length, uint64_t answer[PATCH_ANSWER]);

/* The printed text of a term, to an output of at least PATCH_TEXT_ROOM bytes. Value: its length. */
void patch_term_text(const uint8_t *term, size_t term_length, uint8_t *out, size_t out_length, uint64_t answer[PATCH_ANSWER]);

/* Where child k of a term, counted from 0, stands in it. Values: the place of its first byte, its length. */
void patch_child(const uint8_t *term, size_t term_length, size_t k, uint64_t answer[PATCH_ANSWER]);

/* The free names of a term, each as its length and its bytes, ascending, to an output of at least PATCH_OUTPUT_ROOM bytes. Value: the length of all. */
void patch_free_vars(const uint8_t *term, size_t term_length, uint8_t *out, size_t out_length, uint64_t answer[PATCH_ANSWER]);

/* The term with the value for the name, a bare name without a length byte, to an output of at least PATCH_OUTPUT_ROOM bytes, by way of a scratch of at
 * least PATCH_SCRATCH_ROOM. Value: its length. Two values may go in in either order if their names differ and neither name is free in the other value:
 * where no call is refused, both orders leave the same bytes. For a name that is not free the term comes back as it is. */
void patch_substitute(const uint8_t *term, size_t term_length, const uint8_t *name, size_t name_length, const uint8_t *value, size_t value_length,
                      uint8_t *out, size_t out_length, uint8_t *scratch, size_t scratch_length, uint64_t answer[PATCH_ANSWER]);

/* One step of a term, to an output of at least PATCH_OUTPUT_ROOM bytes, by way of a scratch of at least PATCH_SCRATCH_ROOM. Values: the rule, or
 * PATCH_NORMAL and the output as it was; the place of the contracted node's tag in the given term; the length of the next term. */
void patch_step(const uint8_t *term, size_t term_length, uint8_t *out, size_t out_length, uint8_t *scratch, size_t scratch_length,
                uint64_t answer[PATCH_ANSWER]);

/* At most `limit` steps of a term, to an output of at least PATCH_OUTPUT_ROOM bytes, by way of a scratch of at least PATCH_SCRATCH_ROOM. Values: the
 * steps taken; 1 if no step remains, else 0; the length of the term; one count for each rule, from PATCH_APP to PATCH_DISCARD. Refused with
 * PATCH_OUTGROWS, the place is the steps done, the output holds the last term that fitted and then zeros, and the value is its length. */
void patch_normalize_bounded(const uint8_t *term, size_t term_length, uint32_t limit, uint8_t *out, size_t out_length, uint8_t *scratch,
                             size_t scratch_length, uint64_t answer[PATCH_ANSWER]);

/* Whether a term is normal: no step finds anything in it. Value: 1 if so, else 0. */
void patch_is_normal(const uint8_t *term, size_t term_length, uint64_t answer[PATCH_ANSWER]);

/* Whether a term is straight: it has no case, fst, snd, discard or copy, and each name at a binder stands at that one place only and is used as a
 * variable exactly once, inside what it covers. Value: 1 or 0. */
void patch_is_straight(const uint8_t *term, size_t term_length, uint64_t answer[PATCH_ANSWER]);

/* The term of a proof, to an output of at least PATCH_OUTPUT_ROOM bytes, by way of a scratch of at least PATCH_SCRATCH_ROOM; names are taken from
 * `counter` on. Values: the term's length; the counter after it, for the next proof. Refused, the caller goes on with the counter that it had. */
void patch_extract(const uint8_t *proof, size_t proof_length, uint32_t counter, uint8_t *out, size_t out_length, uint8_t *scratch,
                   size_t scratch_length, uint64_t answer[PATCH_ANSWER]);

/* The stored form of a legal term or proof, to an output of at least PATCH_STORED_ROOM bytes. Value: its length. */
void patch_store_term(const uint8_t *term, size_t term_length, uint8_t *out, size_t out_length, uint64_t answer[PATCH_ANSWER]);
void patch_store_proof(const uint8_t *proof, size_t proof_length, uint8_t *out, size_t out_length, uint64_t answer[PATCH_ANSWER]);

/* The term or proof in a stored file, to an output of at least PATCH_OUTPUT_ROOM bytes. Value: its length. */
void patch_load_term(const uint8_t *file, size_t file_length, uint8_t *out, size_t out_length, uint64_t answer[PATCH_ANSWER]);
void patch_load_proof(const uint8_t *file, size_t file_length, uint8_t *out, size_t out_length, uint64_t answer[PATCH_ANSWER]);

#ifdef __cplusplus
}
#endif

#endif
