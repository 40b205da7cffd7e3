/* Jirmeklo: binary32 steps, augmented pairs, exact column totals, step sheets and the marking of a candidate's lines, each proved against
 * its specification.
 *
 * CHANGED since steps have marks: jirmeklo_add, jirmeklo_sub, jirmeklo_mul and jirmeklo_fma return a struct jirmeklo_step, and no longer
 * a uint32_t; a sheet has lines of six words, which were five, and 78 words, which were 65.
 *
 * A pattern is a binary32 number as its 32 bits. A call that is carried out answers 0, another the number of its refusal;
 * of several conditions the one that stands first is answered. A refused call leaves all that it was lent as it was.
 * Nothing is allocated, and nothing is kept between calls.
 *
 * An array is lent for the length of a call, by a pointer and the number of its words. The arrays of one call must not
 * overlap. A pointer is aligned for uint32_t and not null, even where the number of words is 0.
 */
#ifndef JIRMEKLO_H
#define JIRMEKLO_H

#include <stdbool.h>
#include <stddef.h>
#include <stdint.h>

#ifdef __cplusplus
extern "C" {
#endif

/* I, O, U and X. */
struct jirmeklo_flags {
    bool invalid, overflow, underflow, inexact;
};

/* A step's result and its mark: 0, the result is the exact value; 1, it is not, by rounding or by overflow; 2, there is an infinity or a
 * NaN among the operands. */
struct jirmeklo_step {
    uint32_t result, mark;
};

/* The result rounded to nearest, ties to zero, and what that left over. */
struct jirmeklo_pair {
    uint32_t first, second;
    struct jirmeklo_flags flags;
};

/* A total as a pair; zeros where the refusal is not 0. */
struct jirmeklo_reading {
    uint32_t refusal, first, second;
};

/* How many lines the sheet has, and the pair at its foot; zeros and no flag where the refusal is not 0. */
struct jirmeklo_filled {
    uint32_t refusal, lines, first, second;
    struct jirmeklo_flags flags;
};

/* How a candidate's lines were marked: the refusal, or 0; the line that 14 or 15 is about, counted from 1, and 0 otherwise, with 10 and 13
 * too; whether the lines are right, which is false where they are refused. Not right is an answer, no refusal. */
struct jirmeklo_marked {
    uint32_t refusal, line;
    bool right;
};

/* Steps: one rounding to nearest, ties to even. fma is x * y + z. The first NaN operand is handed on, as it is but for bit 22, which is set
 * (sub does not flip it); where no operand is NaN, a NaN result is 7FC00000. +0 and -0 are one value, so that an exact zero has the mark 0;
 * a value that is rounded to zero has 1. No refusal. */
struct jirmeklo_step jirmeklo_add(uint32_t x, uint32_t y);
struct jirmeklo_step jirmeklo_sub(uint32_t x, uint32_t y);
struct jirmeklo_step jirmeklo_mul(uint32_t x, uint32_t y);
struct jirmeklo_step jirmeklo_fma(uint32_t x, uint32_t y, uint32_t z);

/* Pairs of x + y, x - y and x * y, as IEEE 754-2019, clause 9.5, with flags. Where first is NaN, both halves are the result that
 * jirmeklo_mul gives, or jirmeklo_add; for a difference, jirmeklo_add of x and y with y's sign bit flipped: a NaN y comes back with the
 * other sign, unlike from jirmeklo_sub. No refusal. */
struct jirmeklo_pair jirmeklo_sum(uint32_t x, uint32_t y);
struct jirmeklo_pair jirmeklo_difference(uint32_t x, uint32_t y);
struct jirmeklo_pair jirmeklo_product(uint32_t x, uint32_t y);

/* Makes 22 words an empty total. A total is a whole number of 2^-298 in 20 words, lowest first, a count of terms, and a sign word:
 * 0 as long as no term but -0 was added (a product by its own sign), else 1. Refusal: 5, other than 22 words. */
uint32_t jirmeklo_clear(uint32_t *total, size_t words);

/* Adds a term, the pattern x or the product of x and y, exactly.
 * Refusals: 5, other than 22 words; 6, an unfit total (a count above 65,536, a magnitude above count * 2^554, or a sign word that is
 * above 1, 0 with a number that is not 0, or 1 with the count 0); 7, an infinite or NaN operand; 8, the count is 65,536. */
uint32_t jirmeklo_add_pattern(uint32_t *total, size_t words, uint32_t x);
uint32_t jirmeklo_add_product(uint32_t *total, size_t words, uint32_t x, uint32_t y);

/* Joins two totals: the first becomes their exact sum, with the terms of both counted and the sign word 0 exactly where both have 0; the
 * second stays as it was. Empty totals are no exception. The two must be different arrays, which do not overlap: no total is joined
 * to itself.
 * Refusals: 5, the first has other than 22 words; 6, the first is unfit, as in adding; 5 and 6, the same of the second; 12, the
 * counts together are above 65,536. */
uint32_t jirmeklo_join(uint32_t *first, size_t words, const uint32_t *second, size_t second_words);

/* Carries an old total over, of 21 words without a sign word, into a total of 22, whatever this held: not in place, the two must not
 * overlap. The old one stays as it was. Without terms the sign word is 0, with any it is 1, even if all have been -0: the total reads
 * as it did.
 * Refusals: 5, the old one has other than 21 words, or the total other than 22; 6, the old one is unfit (a count above 65,536, or a
 * magnitude above count * 2^554). */
uint32_t jirmeklo_carry_over(const uint32_t *old, size_t old_words, uint32_t *total, size_t words);

/* Reads a total as a pair: first is the total rounded, second the rest rounded. A zero total reads -0 twice where it has terms and
 * the sign word 0, and +0 twice otherwise. Refusals: 5 and 6, as in adding. */
struct jirmeklo_reading jirmeklo_read(const uint32_t *total, size_t words);

/* Writes the step sheet of an operation (1 sum, 2 difference, 3 product) into the first 78 words: up to 13 lines (one where the
 * first gives NaN) of six words, which are the step (1 add, 2 sub, 3 mul, 4 fma), three operands (an unused third is 0), the result and
 * its mark; then zeros.
 * Refusals: 10, another operation; 9, fewer than 78 words. */
struct jirmeklo_filled jirmeklo_fill(uint32_t operation, uint32_t x, uint32_t y, uint32_t *words, size_t count);

/* Marks the lines by which a candidate worked out an operation's pair (1 sum, 2 difference, 3 product of x and y), six words a line as in
 * a sheet. They are read and not changed. The results of the last two lines are the pair that is claimed; right says that it is the pair
 * of jirmeklo_sum, jirmeklo_difference or jirmeklo_product in every bit.
 * An operand, in any place, may be x, y (as given, for a difference too), the result of an earlier line, 80000000, a constant of the sheets
 * (3F7FFFFF, 40000000, C0000000, 3F000000, 3FFFFFFF, 4B800000, 57800000, 33800000, 00000000, 00000001, 80000001), or one of these with its
 * sign flipped; a third operand is used by step 4 alone, and is 0 elsewhere.
 * The lines that jirmeklo_fill has written, so many as it says and without the zeros behind them, and two more that add 80000000 to first
 * and to second, with their marks, are always right.
 * Refusals: 10, another operation; 13, words that are no multiple of six, fewer than 12 or more than 600; then line by line 14, an unknown
 * step or an operand that may not stand there; 15, a result or a mark that is not the step's. */
struct jirmeklo_marked jirmeklo_mark(uint32_t operation, uint32_t x, uint32_t y, const uint32_t *lines, size_t words);

/* Fills the sheets of a list of questions, one after the other, the ith into the first counts[i] of the words. Where its
 * pair is finite and exact, adds the pair to the first total, and what was asked to the second: both then hold one number,
 * with one sign word.
 * Refusals: 101, operations, xs, ys and counts are not equally long; 102, more than 32,768 questions;
 * 103, a total that is not 22 zeros; 104, one of counts is more than the words. */
uint32_t jirmeklo_replay(const uint32_t *operations, size_t operations_count,
                         const uint32_t *xs, size_t xs_count,
                         const uint32_t *ys, size_t ys_count,
                         const uint32_t *counts, size_t counts_count,
                         uint32_t *words, size_t words_count,
                         uint32_t *first, size_t first_count,
                         uint32_t *second, size_t second_count);

#ifdef __cplusplus
}
#endif

#endif
