/* The calls of the proved checker, for C99 and C++. Link with libexports.a (README, 'From C and Rust').
 *
 * A slice is a pointer and a length: s and n are the input, out and m the buffer that the caller lends, or left and l, right and
 * r the two buffers. Each pointer is a valid pointer, also for length 0. Input, buffers and answer do not overlap.
 *
 * Any bytes and numbers may be handed in, and every call returns. No call relies on an earlier one and none keeps anything, so
 * several threads may call at once. The input is never changed.
 *
 * In every answer but that to a set, answer[0] is the number, 0 if accepted. Where bytes are handed in, the place follows, 0 if
 * accepted. At a refusal a buffer keeps every byte; after a result it keeps every byte past it. To bijterne_explain the two bodies
 * of a 12 are the result, and it has no other.
 */
#ifndef BIJTERNE_H
#define BIJTERNE_H

#include <stddef.h>
#include <stdint.h>

#ifdef __cplusplus
extern "C" {
#endif

/* The numbers, and what the place counts: in the file, or in the term. docs/REFUSALS.md says more. */
enum bijterne_number {
    BIJTERNE_ACCEPTED = 0,
    BIJTERNE_CUT_SHORT = 1,           /* a field ends too early, or the file is empty; the field's head, in the file */
    BIJTERNE_WRONG_FIELD = 2,         /* not the tag that is due, or steps not a multiple of 3 bytes; as for 1 */
    BIJTERNE_NOT_ONE_TERM = 3,        /* not exactly one term; the first byte past it, or the length, in the term */
    BIJTERNE_TOO_LONG = 4,            /* a file or set over 65,535 bytes or a term over 4,096; 0 */
    BIJTERNE_BEYOND_SCOPE = 5,        /* an index beyond its scope; the variable, in the term */
    BIJTERNE_TOO_MANY_IN_SCOPE = 6,   /* over 253 abstractors in scope; the first ff too many, in the term */
    BIJTERNE_NO_TYPE = 7,             /* K has no type; the applicator, in the term */
    BIJTERNE_STILL_WAITING = 8,       /* tau is met while something waits; the last that waits, in the term */
    BIJTERNE_NO_GROUP_LEFT = 9,       /* the applicator, in the term */
    BIJTERNE_STEP_NOT_POSSIBLE = 10,  /* the applicator, in the term; 0 for bijterne_apply_step */
    BIJTERNE_OUTGROWN = 11,           /* over a limit on the way; a byte of the term; 0 for a written result */
    BIJTERNE_BODIES_DIFFER = 12,      /* the applicator, in the term; bijterne_explain writes both bodies */
    BIJTERNE_GROUPS_LEFT = 13,        /* the head of the first unused group, in the file */
    BIJTERNE_BUFFER_TOO_SHORT = 14,   /* a result is longer than its buffer; 0 */
    BIJTERNE_TOO_LONG_TO_COUNT = 15,  /* a length over 7; no place */
    BIJTERNE_NOT_A_SET = 16           /* a set with no file, a field cut short or another tag; the field's head, in the set */
};

/* Examines a bare term: numbers 3 to 6. answer: number, place, degree (0 if refused). */
void bijterne_examine_term(const uint8_t *s, size_t n, uint64_t answer[3]);

/* Examines a file: numbers 1 to 6. answer: number, place, length of the term (0 if refused). The term of an accepted file
 * starts at s + 3. */
void bijterne_examine_file(const uint8_t *s, size_t n, uint64_t answer[3]);

/* Writes the type of a bare term to the start of out: numbers 3 to 6, 11 and 14. Returns 0, and then answer is: number, place,
 * length written (0 if refused). Returns 1 if the term has degree 1 and so has no type ('none'); out and answer are then left
 * as they were. */
uint32_t bijterne_write_type(const uint8_t *s, size_t n, uint8_t *out, size_t m, uint64_t answer[3]);

/* Applies one step to a bare term, with an empty frame, and writes the result to the start of out: numbers 3 to 6, 10, 11 and
 * 14. kind is 1 (local), 2 (removal) or 3 (the whole substitution: every use of a couple's variable is replaced, and the couple
 * removed; only the result is measured for 11); place counts in the term from 0. answer: number, place, length written (0 if
 * refused). */
void bijterne_apply_step(const uint8_t *s, size_t n, uint8_t kind, uint16_t place, uint8_t *out, size_t m, uint64_t answer[3]);

/* No page is longer: a buffer of this length is always enough for bijterne_print_term. */
#define BIJTERNE_LONGEST_PAGE 16644

/* Prints a bare term as a page of text, to the start of out: numbers 3 to 6 and 14. Each byte of the term takes four columns,
 * right-aligned: t for tau, A for fe, T for ff, or the index in decimal. A line has 18 of these and a line feed; the last is
 * filled with blanks. No zero byte ends the page. answer: number, place, length written (0 if refused). */
void bijterne_print_term(const uint8_t *s, size_t n, uint8_t *out, size_t m, uint64_t answer[3]);

/* The longest strings that bijterne_count_strings counts. */
#define BIJTERNE_LONGEST_COUNTED 7

/* Counts all byte strings of a length by what bijterne_examine_term answers to them: number 15. answer: number, how many are
 * accepted, how many refused with 3, how many refused with 5 (0 if the length is refused). The three add up to 256 to the power
 * of the length: no other answer occurs. */
void bijterne_count_strings(size_t length, uint64_t answer[4]);

/* Checks a file: numbers 1 to 13. answer: number, place, comparisons completed, degree of the term (0 for numbers 1 to 6).
 * The deepest term needs 3 MiB of stack, and even a small file some 190 KiB; a call that checks nothing needs less than 48 KiB. */
void bijterne_check(const uint8_t *s, size_t n, uint64_t answer[4]);

/* The longest set, heads included. */
#define BIJTERNE_LONGEST_SET 65535

/* Checks a set: one or more fields, each with tag 5, two bytes for its length (high byte first), and a file. First the set's own
 * refusals, 4 (over 65,535 bytes) and 16, with 0 in answer[0], answer[3] and answer[4]; then the files one after the other, up to
 * the first that is refused: numbers 1 to 13 (4: its term is over 4,096 bytes). answer: the refused file's number, from 0, and the
 * four numbers of bijterne_check for it; or, if all are accepted, how many files, 0, 0, the comparisons in all files, 0. It needs
 * the stack of bijterne_check. */
void bijterne_check_set(const uint8_t *s, size_t n, uint64_t answer[5]);

/* Whose steps: the left ones carry the type of the applicator's K, the right ones the abstractor's U. */
enum bijterne_side {
    BIJTERNE_LEFT = 0,
    BIJTERNE_RIGHT = 1
};

/* Why a step is not possible: the first that fails, in this order. */
enum bijterne_condition {
    BIJTERNE_CONDITION_KIND = 1,        /* the kind is not 1, 2 or 3 */
    BIJTERNE_CONDITION_PLACE = 2,       /* the place is past the body */
    BIJTERNE_CONDITION_BYTE = 3,        /* not a variable there (kind 1), or not fe (kinds 2 and 3) */
    BIJTERNE_CONDITION_NO_PARTNER = 4,  /* the variable's abstractor has no applicator, or the applicator no abstractor */
    BIJTERNE_CONDITION_STILL_USED = 5   /* the couple's variable has a use (kind 2) */
};

/* No body is longer: two buffers of this length are always enough for bijterne_explain. */
#define BIJTERNE_LONGEST_BODY 4096

/* Checks a file, and says what stopped it: numbers 1 to 14. answer: the four numbers of bijterne_check, and then
 *   12: the length of the left body, that of the right body, the place of the first byte at which they differ (from 0), 0. Both
 *       bodies, as the file's steps carried them, are written, to the starts of left and right. Neither is a proper beginning of
 *       the other;
 *   10: the side, the step's number in that side's list (from 0), the condition, 0;
 *   8: how many wait, 0, 0, 0;
 *   any other: 0, 0, 0, 0.
 * Where a 12 finds either buffer too short for its body, the answer is 14, 0, the check's comparisons and degree, 0, 0, 0, 0, and
 * neither buffer is written. It needs the stack of bijterne_check. */
void bijterne_explain(const uint8_t *s, size_t n, uint8_t *left, size_t l, uint8_t *right, size_t r, uint64_t answer[8]);

#ifdef __cplusplus
}
#endif

#endif
