/* Broodchamber for C: the doors of the library.
 *
 * `make install PREFIX=dir` puts this header, libbroodchamber.a and broodchamber.pc there; pkg-config says what a compiler needs of them. The functions
 * keep nothing between two calls, and may be called from several threads at once on different buffers. They take no memory but the machine's stack: 62 KiB
 * as measured, bc_read_saved 170 (docs/BENCHMARKS.md).
 *
 * A table is a rule book in memory: the counts n of options and m of rules, the literals of all rules one behind the other (16 bits each), and the
 * offsets at which the rules start and end (32 bits each, m + 1 of them, the first 0). Option v is the code 2v, its negation 2v + 1. Rule k, counted
 * from 1, is the literals from offsets[k - 1] up to offsets[k].
 * A stack is a list of removals, oldest first, in 32-bit words: two for each entry, the rule's number and the code of the literal that blocked it,
 * beside a count of entries.
 * Values are a byte for each option, 0 or 1; byte 0 is option 1.
 *
 * Each buffer is a pointer and, right behind it, its length in elements. Any length and any contents are taken. The buffers of one call must not
 * overlap. A pointer must not be null, also where the length is 0.
 *
 * What a call answers stands in the first BC_ANSWER cells of `answer`:
 *
 *     answer[0]   0, or the refusal's number
 *     answer[1]   the first value, or the refusal's place
 *     answer[2]   the second value
 *     answer[3]   the third value
 *
 * Cells that carry nothing are 0; cells behind the first four are not touched. A refused call has changed nothing but these four cells.
 * A function returns false only if `answer` has fewer than four cells: then nothing was done, and no cell of any buffer has changed.
 */
#ifndef BROODCHAMBER_H
#define BROODCHAMBER_H

#include <stdbool.h>
#include <stddef.h>
#include <stdint.h>

#ifdef __cplusplus
extern "C" {
#endif

/* The cells of an answer. */
#define BC_ANSWER 4

/* The refusals: what answer[0] is, and what place answer[1] names. */
#define BC_BAD_TEXT 1      /* the text breaks the rules: offset of the token, or of the point where one was missing */
#define BC_OVER_LIMIT 2    /* a limit is passed: offset of the token or the field; 0 for a text that is too long */
#define BC_NO_ROOM 3       /* a buffer is too short: 0 */
#define BC_BAD_TABLE 4     /* the table is not sound: 0 */
#define BC_BAD_STACK 5     /* the count is above m: 0; else the first bad entry, from 1 */
#define BC_NOT_BLOCKING 6  /* a literal does not block its rule: the entry, from 1; of bc_remove the rule */
#define BC_BAD_NAME 7      /* bc_remove names a rule outside 1 to m, one that is removed, or a literal not in it: 0 */
#define BC_BAD_VALUES 8    /* a value is neither 0 nor 1: the lowest such option */
#define BC_NOT_MODEL 9     /* a remaining rule is false under the values: the lowest such rule */
#define BC_BAD_SAVED 10    /* the saved form breaks its rules: offset of the field */

/* The limits, and the room that the two readers ask for. */
#define BC_VARIABLES 2000
#define BC_CLAUSES 4000
#define BC_CLAUSE_LITERALS 1000
#define BC_TEXT_BYTES 65536
#define BC_LITERALS 16000     /* literals of a table, and the literal cells that a reader needs */
#define BC_OFFSETS 4001       /* the offset cells that a reader needs */
#define BC_STACK_WORDS 8000   /* the stack words that bc_read_saved needs */
#define BC_SAVED_BYTES 60014  /* the longest saved form */

/* Whether a table is sound: n at most 2,000, m at most 4,000, at least m + 1 offsets, the first 0, none smaller than the one before, the last at most
 * 16,000 and within the literals, at most 1,000 literals in a rule, each code from 2 to 2n + 1, and no literal twice in a rule. Needs nothing. */
bool bc_is_sound(size_t n, size_t m, const uint16_t *lits, size_t lits_len, const uint32_t *offs, size_t offs_len);

/* Where the literals of rule k stand: answers start and length, so that they are lits[start] to lits[start + length - 1]. Both are 0 for an empty rule,
 * an unsound table and a number outside 1 to m. Refuses nothing. */
bool bc_clause_literals(size_t n, size_t m, const uint16_t *lits, size_t lits_len, const uint32_t *offs, size_t offs_len, size_t k,
                        size_t *answer, size_t answer_len);

/* Reads a rule book from DIMACS text. Needs BC_LITERALS literals and BC_OFFSETS offsets. Answers n and m; the table is at the fronts of the buffers.
 * Refuses 3, 2 for a text over 65,536 bytes, then 1 or 2 at the first fault. */
bool bc_read_text(const uint8_t *text, size_t text_len, uint16_t *lits, size_t lits_len, uint32_t *offs, size_t offs_len,
                  size_t *answer, size_t answer_len);

/* Removes rules until none is blocked, from an empty stack. Needs 2m stack words. Answers the count of removals; their entries are at the front of the
 * stack. Refuses 4, 3. */
bool bc_eliminate(size_t n, size_t m, const uint16_t *lits, size_t lits_len, const uint32_t *offs, size_t offs_len,
                  uint32_t *stack, size_t stack_len, size_t *answer, size_t answer_len);

/* Removes one rule by one literal, beside `count` entries that are there. Needs 2m stack words. Answers the new count; the entry stands behind the old
 * ones. Refuses 4, 3, 5, 7, 6. */
bool bc_remove(size_t n, size_t m, const uint16_t *lits, size_t lits_len, const uint32_t *offs, size_t offs_len,
               uint32_t *stack, size_t stack_len, size_t count, uint32_t clause, uint32_t literal, size_t *answer, size_t answer_len);

/* Which rule can go next. Needs 2m stack words. Answers the lowest remaining blocked rule and its first blocking literal, or 0 and 0 if none is blocked.
 * Refuses 4, 3, 5. */
bool bc_next_blocked(size_t n, size_t m, const uint16_t *lits, size_t lits_len, const uint32_t *offs, size_t offs_len,
                     const uint32_t *stack, size_t stack_len, size_t count, size_t *answer, size_t answer_len);

/* Checks that every entry of a stack was a right removal. Needs 2m stack words. Refuses 4, 3, 5, 6; answers nothing else. */
bool bc_check_stack(size_t n, size_t m, const uint16_t *lits, size_t lits_len, const uint32_t *offs, size_t offs_len,
                    const uint32_t *stack, size_t stack_len, size_t count, size_t *answer, size_t answer_len);

/* Turns values that satisfy the remaining rules into values that satisfy all of them: the first n bytes of `vals`, in place. Needs 2m stack words and n
 * values. Refuses 4, 3, 5, 6, 8, 9. */
bool bc_rebuild(size_t n, size_t m, const uint16_t *lits, size_t lits_len, const uint32_t *offs, size_t offs_len,
                const uint32_t *stack, size_t stack_len, size_t count, uint8_t *vals, size_t vals_len, size_t *answer, size_t answer_len);

/* Writes the saved form of a table and its stack. Needs 2m stack words and the form's exact length, at most BC_SAVED_BYTES. Answers the length; the form
 * is at the front of the output. Refuses 4, 3 for the stack, 5, 6, 3 for the output. */
bool bc_write_saved(size_t n, size_t m, const uint16_t *lits, size_t lits_len, const uint32_t *offs, size_t offs_len,
                    const uint32_t *stack, size_t stack_len, size_t count, uint8_t *out, size_t out_len, size_t *answer, size_t answer_len);

/* Reads a saved form. Needs BC_LITERALS literals, BC_OFFSETS offsets and BC_STACK_WORDS stack words. Answers n, m and the count of entries; the table and
 * the stack are at the fronts of the buffers. Refuses 3, then 10 or 2 at the first fault of the form, then 6. */
bool bc_read_saved(const uint8_t *bytes, size_t bytes_len, uint16_t *lits, size_t lits_len, uint32_t *offs, size_t offs_len,
                   uint32_t *stack, size_t stack_len, size_t *answer, size_t answer_len);

#ifdef __cplusplus
}
#endif

#endif
