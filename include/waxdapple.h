/* Waxdapple for C: the proved evaluator and certificate checker of release arguments.
 *
 * Both functions are total: every sheet of bytes, budget and buffer length gets an answer, and nothing outside the lent buffers is read or written.
 * A pointer must point to as many elements as the length beside it says (any pointer that is not null where the length is 0), place, work and
 * inferences must be valid pointers to a number each, and none of what is lent may overlap another: buffers and the three numbers are distinct.
 *
 * Scratch is lent by the caller, in buffers of 32-bit numbers of at least the lengths below; what they hold on entry does not matter. After
 * refusals 1 and 2 they are untouched; after every other answer they are zero up to the fixed lengths and untouched past them.
 */
#ifndef WAXDAPPLE_H
#define WAXDAPPLE_H

#include <stddef.h>
#include <stdint.h>

#ifdef __cplusplus
extern "C" {
#endif

/* The fixed lengths of an evaluation's scratch, in numbers. */
#define WAXDAPPLE_EVALUATE_LISTING 9220
#define WAXDAPPLE_EVALUATE_FORMS 4610
#define WAXDAPPLE_EVALUATE_PATTERNS 640
#define WAXDAPPLE_EVALUATE_PHRASES 6144
#define WAXDAPPLE_EVALUATE_BASE 1088
#define WAXDAPPLE_EVALUATE_BINDINGS 16384
#define WAXDAPPLE_EVALUATE_TOKENS 11264

/* The fixed lengths of a check's scratch, in numbers. */
#define WAXDAPPLE_CHECK_NAMES 4608
#define WAXDAPPLE_CHECK_FORMS 12290
#define WAXDAPPLE_CHECK_PATTERNS 640
#define WAXDAPPLE_CHECK_PHRASES 6144
#define WAXDAPPLE_CHECK_BASE 576

/* A thread that calls either function must have so many bytes of stack left. The deepest requests, measured, need less (docs/SCRATCH.md). */
#define WAXDAPPLE_STACK 524288

/* No certificate of an evaluation is longer (`evaluate_room` in docs/THEOREMS.md): an output of that length is never too short. */
#define WAXDAPPLE_CERTIFICATE 47612

/* Evaluates a sheet. Answers 0 where it is accepted: the certificate is in front of out, *place is its length, *work and *inferences are the two
 * counts, and out is untouched past it. Else the answer is the refusal's number (1 to 18), *place its place, *work and *inferences are 0, and out
 * is untouched. */
size_t waxdapple_evaluate(
    const uint8_t *sheet, size_t sheet_length,
    size_t budget,
    uint32_t *listing, size_t listing_length,
    uint32_t *forms, size_t forms_length,
    uint32_t *patterns, size_t patterns_length,
    uint32_t *phrases, size_t phrases_length,
    uint32_t *base, size_t base_length,
    uint32_t *bindings, size_t bindings_length,
    uint32_t *tokens, size_t tokens_length,
    uint8_t *out, size_t out_length,
    size_t *place, size_t *work, size_t *inferences);

/* Checks a certificate alone against a sheet. Answers 0 where it stands: *place is the number of its conclusion among the propositions it lists,
 * *inferences its rules. Else the answer is the refusal's number (2 to 7, 13, 14, 19, 20, 35 to 39), *place its place, and *inferences is 0. */
size_t waxdapple_check(
    const uint8_t *sheet, size_t sheet_length,
    const uint8_t *certificate, size_t certificate_length,
    uint32_t *names, size_t names_length,
    uint32_t *forms, size_t forms_length,
    uint32_t *patterns, size_t patterns_length,
    uint32_t *phrases, size_t phrases_length,
    uint32_t *base, size_t base_length,
    size_t *place, size_t *inferences);

#ifdef __cplusplus
}
#endif

#endif
