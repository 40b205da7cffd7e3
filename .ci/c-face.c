/* Calls every function of include/jirmeklo.h, refused calls among them, and prints what is answered: patterns and words in
 * hexadecimal, refusals and counts in decimal. It is C99 and C++ at once. */
#include "jirmeklo.h"

#include <stdio.h>

#define OLD_TOTAL 21
#define TOTAL 22
#define COUNT 20
#define SIGN_WORD 21
#define LINE 6
#define SHEET 78
#define ONE 0x3F800000u
#define LARGEST 0x7F7FFFFFu
#define INFINITE 0x7F800000u
#define SIGNALLING 0xFF812345u
#define MINUS_ZERO 0x80000000u

static void print_word(uint32_t word) { printf(" %08lX", (unsigned long)word); }

static void print_number(uint32_t number) { printf(" %lu", (unsigned long)number); }

static void print_flags(struct jirmeklo_flags flags) {
    printf(" %s%s%s%s.\n", flags.invalid ? "I" : "", flags.overflow ? "O" : "", flags.underflow ? "U" : "",
           flags.inexact ? "X" : "");
}

/* In rows of so many words. */
static void print_words(const char *name, const uint32_t *words, size_t count, size_t row) {
    size_t i;
    for (i = 0; i < count; i++) {
        printf("%s", i % row == 0 ? name : "");
        print_word(words[i]);
        printf("%s", i % row == row - 1 || i == count - 1 ? "\n" : "");
    }
}

static void print_sheet(const uint32_t *words, size_t count) { print_words("words", words, count, LINE); }

static void print_total(const char *name, const uint32_t *words, size_t count) { print_words(name, words, count, 11); }

static void print_step(const char *name, struct jirmeklo_step step) {
    printf("%s", name);
    print_word(step.result);
    print_number(step.mark);
    printf("\n");
}

static void print_refusal(const char *name, uint32_t refusal) {
    printf("%s", name);
    print_number(refusal);
    printf("\n");
}

static void print_pair(const char *name, struct jirmeklo_pair pair) {
    printf("%s", name);
    print_word(pair.first);
    print_word(pair.second);
    print_flags(pair.flags);
}

static void print_reading(const char *name, struct jirmeklo_reading reading) {
    printf("%s", name);
    print_number(reading.refusal);
    print_word(reading.first);
    print_word(reading.second);
    printf("\n");
}

static void print_filled(const char *name, struct jirmeklo_filled filled) {
    printf("%s", name);
    print_number(filled.refusal);
    print_number(filled.lines);
    print_word(filled.first);
    print_word(filled.second);
    print_flags(filled.flags);
}

static void print_marked(const char *name, struct jirmeklo_marked marked) {
    printf("%s", name);
    print_number(marked.refusal);
    print_number(marked.line);
    printf(" %s\n", marked.right ? "right" : "not right");
}

static void fill_with(uint32_t *words, size_t count, uint32_t word) {
    size_t i;
    for (i = 0; i < count; i++) {
        words[i] = word;
    }
}

/* Rounded, of infinities, of a NaN, rounded to zero, exact; overflow that 24 bits would hold, an exact zero, an infinity handed on, a
 * tie, and an infinity that is the third operand. */
static void steps(void) {
    print_step("add", jirmeklo_add(ONE, 0x33800001u));
    print_step("sub", jirmeklo_sub(INFINITE, INFINITE));
    print_step("sub", jirmeklo_sub(ONE, SIGNALLING));
    print_step("mul", jirmeklo_mul(0x80000001u, 0x3F000000u));
    print_step("fma", jirmeklo_fma(0x3F800001u, 0x3F800001u, 0xBF800002u));
    print_step("add", jirmeklo_add(0x7F000000u, 0x7F000000u));
    print_step("sub", jirmeklo_sub(ONE, ONE));
    print_step("mul", jirmeklo_mul(INFINITE, ONE));
    print_step("fma", jirmeklo_fma(ONE, 0x33800000u, ONE));
    print_step("fma", jirmeklo_fma(ONE, ONE, INFINITE));
}

static void pairs(void) {
    print_pair("sum", jirmeklo_sum(LARGEST, 0x73000000u));
    print_pair("sum", jirmeklo_sum(LARGEST, 0x73000001u));
    print_pair("difference", jirmeklo_difference(0x3F800001u, 0xB3800000u));
    print_pair("difference", jirmeklo_difference(INFINITE, INFINITE));
    print_pair("difference", jirmeklo_difference(ONE, SIGNALLING));
    print_pair("product", jirmeklo_product(0x3F800001u, 0x3F800001u));
    print_pair("product", jirmeklo_product(0x80000001u, 0x3F000000u));
}

static void totals(void) {
    uint32_t total[TOTAL + 1];
    fill_with(total, TOTAL + 1, 0xA5A5A5A5u);
    print_refusal("clear", jirmeklo_clear(total, TOTAL + 1));
    print_reading("read", jirmeklo_read(total, TOTAL));
    print_refusal("clear", jirmeklo_clear(total, TOTAL));
    print_refusal("add_pattern", jirmeklo_add_pattern(total, TOTAL, 0xBF800001u));
    print_refusal("add_product", jirmeklo_add_product(total, TOTAL, 0x3F800001u, 0x3F800001u));
    print_refusal("add_pattern", jirmeklo_add_pattern(total, TOTAL, INFINITE));
    print_refusal("add_product", jirmeklo_add_product(total, TOTAL - 1, ONE, ONE));
    print_total("total", total, TOTAL + 1);
    print_reading("read", jirmeklo_read(total, TOTAL));
    print_reading("read", jirmeklo_read(total, TOTAL + 1));
    jirmeklo_clear(total, TOTAL);
    total[COUNT] = 65536;
    print_refusal("add_product", jirmeklo_add_product(total, TOTAL, ONE, ONE));
    total[COUNT] = 65537;
    print_refusal("add_pattern", jirmeklo_add_pattern(total, TOTAL, ONE));
}

/* -0 as a pattern and as a product, which leave the sign word 0, and a join of two such totals; +0, which does not; and the three kinds of
 * total that it makes unfit. */
static void minus_zeros(void) {
    uint32_t total[TOTAL], other[TOTAL];
    fill_with(total, TOTAL, 0);
    fill_with(other, TOTAL, 0);
    print_reading("read", jirmeklo_read(total, TOTAL));
    print_refusal("add_pattern", jirmeklo_add_pattern(total, TOTAL, MINUS_ZERO));
    print_refusal("add_product", jirmeklo_add_product(total, TOTAL, MINUS_ZERO, ONE));
    print_total("total", total + COUNT, TOTAL - COUNT);
    print_reading("read", jirmeklo_read(total, TOTAL));
    jirmeklo_add_pattern(other, TOTAL, MINUS_ZERO);
    print_refusal("join", jirmeklo_join(total, TOTAL, other, TOTAL));
    print_total("total", total + COUNT, TOTAL - COUNT);
    print_reading("read", jirmeklo_read(total, TOTAL));
    print_refusal("add_product", jirmeklo_add_product(total, TOTAL, MINUS_ZERO, MINUS_ZERO));
    print_total("total", total + COUNT, TOTAL - COUNT);
    print_reading("read", jirmeklo_read(total, TOTAL));
    total[SIGN_WORD] = 2;
    print_reading("read", jirmeklo_read(total, TOTAL));
    total[0] = 1;
    total[SIGN_WORD] = 0;
    print_reading("read", jirmeklo_read(total, TOTAL));
    total[0] = 0;
    total[COUNT] = 0;
    total[SIGN_WORD] = 1;
    print_reading("read", jirmeklo_read(total, TOTAL));
}

/* An old total of one term and an empty one; then 5 of either array, and 6. */
static void carried(void) {
    uint32_t old[TOTAL], total[TOTAL + 1];
    fill_with(old, TOTAL, 0);
    fill_with(total, TOTAL + 1, 0xA5A5A5A5u);
    old[0] = 7;
    old[COUNT] = 1;
    print_refusal("carry_over", jirmeklo_carry_over(old, OLD_TOTAL, total, TOTAL));
    print_total("total", total, TOTAL + 1);
    print_reading("read", jirmeklo_read(total, TOTAL));
    old[0] = 0;
    old[COUNT] = 0;
    print_refusal("carry_over", jirmeklo_carry_over(old, OLD_TOTAL, total, TOTAL));
    print_total("total", total + COUNT, TOTAL - COUNT);
    old[COUNT] = 65537;
    print_refusal("carry_over", jirmeklo_carry_over(old, TOTAL, total, TOTAL));
    print_refusal("carry_over", jirmeklo_carry_over(old, OLD_TOTAL, total, TOTAL + 1));
    print_refusal("carry_over", jirmeklo_carry_over(old, OLD_TOTAL, total, TOTAL));
    print_total("old", old + COUNT, 1);
    print_total("total", total + COUNT, TOTAL - COUNT);
}

/* -2^-298 and 2, of one term and of two; then each refusal where others could follow it, and 65,536 terms together. */
static void joins(void) {
    uint32_t first[TOTAL + 1], second[TOTAL + 1];
    fill_with(first, TOTAL + 1, 0xA5A5A5A5u);
    fill_with(second, TOTAL + 1, 0x5A5A5A5Au);
    jirmeklo_clear(first, TOTAL);
    jirmeklo_clear(second, TOTAL);
    jirmeklo_add_product(first, TOTAL, 0x80000001u, 0x00000001u);
    jirmeklo_add_pattern(second, TOTAL, ONE);
    jirmeklo_add_pattern(second, TOTAL, ONE);
    print_refusal("join", jirmeklo_join(first, TOTAL, second, TOTAL));
    print_total("first", first, TOTAL + 1);
    print_total("second", second, TOTAL + 1);
    print_reading("read", jirmeklo_read(first, TOTAL));
    second[COUNT] = 65537;
    print_refusal("join", jirmeklo_join(first, TOTAL + 1, second, TOTAL));
    first[COUNT] = 0;
    print_refusal("join", jirmeklo_join(first, TOTAL, second, TOTAL - 1));
    first[COUNT] = 65535;
    print_refusal("join", jirmeklo_join(first, TOTAL, second, TOTAL + 1));
    print_refusal("join", jirmeklo_join(first, TOTAL, second, TOTAL));
    second[COUNT] = 2;
    print_refusal("join", jirmeklo_join(first, TOTAL, second, TOTAL));
    print_total("first", first, TOTAL + 1);
    print_total("second", second, TOTAL + 1);
    second[COUNT] = 1;
    print_refusal("join", jirmeklo_join(first, TOTAL, second, TOTAL));
    print_total("first", first, TOTAL + 1);
}

static void sheets(void) {
    uint32_t words[SHEET + 1];
    fill_with(words, SHEET + 1, 0xA5A5A5A5u);
    print_filled("fill", jirmeklo_fill(4, ONE, ONE, words, 0));
    print_filled("fill", jirmeklo_fill(1, ONE, ONE, words, SHEET - 1));
    print_sheet(words, 1);
    print_filled("fill", jirmeklo_fill(1, 0x3F800001u, 0x33800000u, words, SHEET + 1));
    print_sheet(words, SHEET + 1);
    print_filled("fill", jirmeklo_fill(3, 0x00000003u, 0x3F000000u, words, SHEET));
}

/* p + (-0) on a line, with its mark; the next line's place. */
static uint32_t *show(uint32_t *line, uint32_t p, uint32_t mark) {
    line[0] = 1;
    line[1] = p;
    line[2] = MINUS_ZERO;
    line[3] = 0;
    line[4] = p;
    line[5] = mark;
    return line + LINE;
}

/* A filled sheet with its two lines, which is right, and then not, or refused; and a candidate's own two lines. */
static void marking(void) {
    uint32_t words[SHEET + 2 * LINE];
    struct jirmeklo_filled filled = jirmeklo_fill(1, 0x3F800001u, 0x33800000u, words, SHEET);
    size_t lines = filled.lines, count = (lines + 2) * LINE;
    show(show(words + lines * LINE, filled.first, 0), filled.second, 0);
    print_marked("mark", jirmeklo_mark(1, 0x3F800001u, 0x33800000u, words, count));
    print_marked("mark", jirmeklo_mark(2, 0x3F800001u, 0x33800000u, words, count));
    print_marked("mark", jirmeklo_mark(4, 0x3F800001u, 0x33800000u, words, count));
    print_marked("mark", jirmeklo_mark(1, 0x3F800001u, 0x33800000u, words, count - 1));
    print_marked("mark", jirmeklo_mark(1, 0x3F800001u, 0x33800000u, words, LINE));
    print_marked("mark", jirmeklo_mark(1, 0x3F800001u, 0x33800000u, words + LINE, count - LINE));
    words[2 * LINE + 5] = 1;
    print_marked("mark", jirmeklo_mark(1, 0x3F800001u, 0x33800000u, words, count));
    print_sheet(words, LINE);
    show(show(words, ONE, 0), 0x33800000u, 0);
    print_marked("mark", jirmeklo_mark(1, ONE, 0x33800000u, words, 2 * LINE));
}

/* A sum, a difference, a product, a product that is not exact, and a question that is refused: the first three enter. */
static void lists(void) {
    const uint32_t operations[] = {1, 2, 3, 3, 1};
    const uint32_t xs[] = {0x3F800001u, ONE, 0x3F800001u, 0x00000003u, ONE};
    const uint32_t ys[] = {0x33800000u, 0x33800000u, 0x3F800001u, 0x3F000000u, ONE};
    const uint32_t counts[] = {SHEET, SHEET, SHEET, SHEET, 0};
    const uint32_t long_counts[] = {SHEET, SHEET, SHEET, SHEET, SHEET + 1};
    static uint32_t many[4][32769];
    uint32_t words[SHEET], first[TOTAL], second[TOTAL];
    fill_with(words, SHEET, 0);
    fill_with(first, TOTAL, 0);
    fill_with(second, TOTAL, 0);
    print_refusal("replay", jirmeklo_replay(operations, 5, xs, 5, ys, 4, counts, 5, words, SHEET, first, TOTAL, second, TOTAL));
    print_refusal("replay", jirmeklo_replay(many[0], 32769, many[1], 32769, many[2], 32769, many[3], 32769, words, SHEET,
                                            first, TOTAL, second, TOTAL));
    print_refusal("replay", jirmeklo_replay(operations, 5, xs, 5, ys, 5, counts, 5, words, SHEET, first, TOTAL - 1, second, TOTAL));
    print_refusal("replay", jirmeklo_replay(operations, 5, xs, 5, ys, 5, long_counts, 5, words, SHEET, first, TOTAL, second, TOTAL));
    print_sheet(words, 1);
    print_refusal("replay", jirmeklo_replay(operations, 5, xs, 5, ys, 5, counts, 5, words, SHEET, first, TOTAL, second, TOTAL));
    print_sheet(words, LINE);
    print_total("first", first, TOTAL);
    print_total("second", second, TOTAL);
    print_reading("read", jirmeklo_read(first, TOTAL));
    print_reading("read", jirmeklo_read(second, TOTAL));
}

/* -0 + -0, -0 - +0 and -0 * 1. */
static void list_of_minus_zeros(void) {
    const uint32_t operations[] = {1, 2, 3};
    const uint32_t xs[] = {MINUS_ZERO, MINUS_ZERO, MINUS_ZERO};
    const uint32_t ys[] = {MINUS_ZERO, 0, ONE};
    const uint32_t counts[] = {SHEET, SHEET, SHEET};
    uint32_t words[SHEET], first[TOTAL], second[TOTAL];
    fill_with(words, SHEET, 0);
    fill_with(first, TOTAL, 0);
    fill_with(second, TOTAL, 0);
    print_refusal("replay", jirmeklo_replay(operations, 3, xs, 3, ys, 3, counts, 3, words, SHEET, first, TOTAL, second, TOTAL));
    print_total("first", first + COUNT, TOTAL - COUNT);
    print_total("second", second + COUNT, TOTAL - COUNT);
    print_reading("read", jirmeklo_read(first, TOTAL));
    print_reading("read", jirmeklo_read(second, TOTAL));
}

int main(void) {
    steps();
    pairs();
    totals();
    minus_zeros();
    joins();
    carried();
    sheets();
    marking();
    lists();
    list_of_minus_zeros();
    return 0;
}
