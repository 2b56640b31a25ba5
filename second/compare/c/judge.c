/* Judging from C. Expected values are those of document 01, or follow from it and from document 02 by hand. */
#include "check.h"

/* Up to M 63 a term is two words: T = 128. */
#define STORE_WORDS 256
#define SCRATCH_WORDS 1024
#define CELL_SCRATCH_WORDS 2048
#define STEPS 10
/* No netlist here has more than 24 variables. */
#define OCCURRENCE_WORDS 25
/* Words past each lent buffer, and records past the log, that have to keep their mark. */
#define GUARDS 2

struct netlist {
    uint32_t m, i, l, o, a;
    const uint32_t *table;
    size_t table_length;
    uint32_t cells;
};

static const uint32_t p1_table[] = {6, 0, 4, 2};
static const uint32_t p3_table[] = {6, 6, 4, 2};
static const uint32_t p9_table[] = {7, 0, 5, 3};
static const uint32_t p10_table[] = {10, 22, 28, 24, 6,  2,  8,  2,  6,  4,  8,  4,
                                     14, 12, 15, 13, 21, 19, 18, 16, 19, 17, 27, 25};

/* P1 as one cell; a cell for the parity of a_0, a_1 and b_0; two bits as cells (second/blocks/lut, yosys-lut3-u2). */
static const uint32_t cell_table[] = {6, 0, 136, 1, 2, 0};
static const uint32_t parity_table[] = {10, 0, 0, 0, 150, 1, 2, 3};
static const uint32_t two_bit_table[] = {20, 16, 22, 18, 136, 2, 4, 0, 136, 3, 2, 0, 136, 1, 4, 0,
                                         102, 6, 7, 0,  128, 5, 6, 7, 136, 1, 3, 0, 120, 6, 7, 5};

/* A gate that reads literal 0, one that reads the inverse of a twice; the parity of a_0 and b_0, and of a_0 thrice. */
static const uint32_t zero_table[] = {6, 0, 5, 0}, twice_table[] = {6, 0, 3, 3};
static const uint32_t constant_table[] = {10, 0, 0, 0, 150, 1, 0, 3}, thrice_table[] = {10, 0, 0, 0, 150, 1, 1, 1};

/*
 * One bit that adds c: inputs a, b, c_0, c_1; gate 5 is ab, gate 8 its sum with c_0, gate 6 the carry, gate 11 the sum
 * of that with c_1. Then with c_0 left out, and as cells: an AND, two sums and the carry.
 */
static const uint32_t sum_table[] = {16, 22, 4, 2, 10, 6, 11, 7, 15, 13, 12, 8, 13, 9, 21, 19};
static const uint32_t wrong_sum_table[] = {10, 8, 4, 2, 10, 6, 11, 7, 15, 13, 12, 8, 13, 9, 21, 19};
static const uint32_t cell_sum_table[] = {12, 16, 136, 1, 2, 0, 102, 5, 3, 0, 136, 5, 3, 0, 102, 7, 4, 0};

/* Four bits, truncated: output 0 is true when all inputs are false. Then twelve bits whose outputs show nothing. */
static const uint32_t all_false_table[] = {30, 0,  0,  0,  5,  3,  18, 7,  20,
                                           9,  22, 11, 24, 13, 26, 15, 28, 17};
static const uint32_t nothing_table[24] = {0};

static const struct netlist p1 = {3, 2, 0, 2, 1, p1_table, 4, HRASKELL_GATES};
static const struct netlist p3 = {3, 2, 0, 2, 1, p3_table, 4, HRASKELL_GATES};
static const struct netlist p9 = {3, 2, 0, 2, 1, p9_table, 4, HRASKELL_GATES};
static const struct netlist p10 = {14, 4, 0, 4, 10, p10_table, 24, HRASKELL_GATES};
static const struct netlist one_cell = {3, 2, 0, 2, 1, cell_table, 6, HRASKELL_CELLS};
static const struct netlist parity = {5, 4, 0, 4, 1, parity_table, 8, UINT32_MAX};
static const struct netlist two_bit_cells = {11, 4, 0, 4, 7, two_bit_table, 32, HRASKELL_CELLS};

static const struct netlist zero = {3, 2, 0, 2, 1, zero_table, 4, HRASKELL_GATES};
static const struct netlist twice = {3, 2, 0, 2, 1, twice_table, 4, HRASKELL_GATES};
static const struct netlist constant = {5, 4, 0, 4, 1, constant_table, 8, HRASKELL_CELLS};
static const struct netlist thrice = {5, 4, 0, 4, 1, thrice_table, 8, HRASKELL_CELLS};

static const struct netlist sum = {11, 4, 0, 2, 7, sum_table, 16, HRASKELL_GATES};
static const struct netlist without_c0 = {11, 4, 0, 2, 7, wrong_sum_table, 16, HRASKELL_GATES};
static const struct netlist cell_sum = {8, 4, 0, 2, 4, cell_sum_table, 18, HRASKELL_CELLS};
static const struct netlist all_false = {15, 8, 0, 4, 7, all_false_table, 18, HRASKELL_GATES};
static const struct netlist nothing = {24, 24, 0, 24, 0, nothing_table, 24, HRASKELL_GATES};

static const uint32_t one_step[] = {3}, five[] = {5};
static const uint32_t falling[] = {15, 14, 13, 12, 11, 10, 9, 8, 7, 6, 5};
#define DOWN_FROM(gate) (falling + 15 - (gate))

static uint64_t store[STORE_WORDS + GUARDS], scratch[CELL_SCRATCH_WORDS + GUARDS];
static size_t scratch_lent; /* words of it in the last call */
static uint64_t answer[HRASKELL_ANSWER_WORDS + GUARDS];
static struct hraskell_step records[STEPS + GUARDS];
static uint32_t occurrences[OCCURRENCE_WORDS + GUARDS];

static void mark_words(uint64_t *words, size_t length)
{
    for (size_t at = 0; at < length; at++)
        words[at] = MARK;
}

static void mark_all(void)
{
    mark_words(store, COUNT(store));
    mark_words(scratch, COUNT(scratch));
    mark_words(answer, COUNT(answer));
    for (size_t at = 0; at < COUNT(records); at++)
        records[at] = (struct hraskell_step){MARK, MARK, MARK};
    for (size_t at = 0; at < COUNT(occurrences); at++)
        occurrences[at] = MARK;
}

/* The first words are the wanted ones, then rest up to the lent length, then marks. */
static void expect_words(const char *what, const uint64_t *got, size_t lent, const uint64_t *wanted,
                         size_t count, uint64_t rest)
{
    for (size_t at = 0; at < count; at++)
        expect(what, got[at], wanted[at]);
    for (size_t at = count; at < lent + GUARDS; at++)
        expect(what, got[at], at < lent ? rest : MARK);
}

/* The first records have the gates of the order and the terms made, and the others are marks. */
static void expect_records(const char *what, const uint32_t *order, const uint32_t *made, size_t steps)
{
    for (size_t at = 0; at < COUNT(records); at++) {
        expect(what, records[at].gate, at < steps ? order[at] : MARK);
        expect(what, records[at].made, at < steps ? made[at] : MARK);
        if (at >= steps)
            expect(what, records[at].terms, MARK);
    }
}

/* The first words are the wanted ones, and the others are marks. */
static void expect_occurrences(const char *what, const uint32_t *wanted, size_t count)
{
    for (size_t at = 0; at < COUNT(occurrences); at++)
        expect(what, occurrences[at], at < count ? wanted[at] : MARK);
}

static void expect_all_marks(const char *what)
{
    expect_words(what, answer, HRASKELL_ANSWER_WORDS, NULL, 0, MARK);
    expect_words(what, store, STORE_WORDS, NULL, 0, MARK);
    expect_words(what, scratch, CELL_SCRATCH_WORDS, NULL, 0, MARK);
    expect_records(what, NULL, NULL, 0);
    expect_occurrences(what, NULL, 0);
}

/* Judges with T = 128 on fresh buffers of the least lengths, answer of the length given. */
static uint32_t judge(const struct netlist *n, uint32_t kind, const uint32_t *order, size_t steps,
                      size_t answer_length)
{
    mark_all();
    scratch_lent = n->cells ? CELL_SCRATCH_WORDS : SCRATCH_WORDS;
    return hraskell_judge(n->m, n->i, n->l, n->o, n->a, n->table, n->table_length, n->cells, kind, 128,
                          order, steps, store, STORE_WORDS, scratch, scratch_lent, records, steps,
                          occurrences, HRASKELL_OCCURRENCE_WORDS(n->m), answer, answer_length);
}

struct words {
    const uint64_t *words;
    size_t length;
};
#define WORDS(...) {(const uint64_t[]){__VA_ARGS__}, sizeof((const uint64_t[]){__VA_ARGS__}) / sizeof(uint64_t)}
#define NONE {NULL, 0}
/* All terms, then the terms with variable 1, 2 and so on; the variables not named occur nowhere. */
#define OCCURRING(...) (const uint32_t[OCCURRENCE_WORDS]){__VA_ARGS__}

/* Of each step the terms before gathering: those without the gate, and all that the replacement made. */
#define MADE(...) (const uint32_t[STEPS]){__VA_ARGS__}

/* A call that is taken: its answer, the polynomial left, how often each variable occurs in that, and what was made. */
struct row {
    const char *what;
    const struct netlist *netlist;
    uint32_t kind;
    const uint32_t *order;
    size_t steps;
    uint32_t number;
    struct words answered, stored;
    const uint32_t *occurring, *made;
};

static const struct row bench_sheet[] = {
    {"P1", &p1, HRASKELL_PLAIN, one_step, 1, HRASKELL_EQUAL, WORDS(1, 0), NONE, OCCURRING(0), MADE(2)},
    {"P3", &p3, HRASKELL_PLAIN, one_step, 1, HRASKELL_DIFFERS, WORDS(1, 1, 1, 1, 0, 3, 1), WORDS(2, 6),
     OCCURRING(1, 1, 1), MADE(2)},
    /* x3 - ab. */
    {"P6", &p1, HRASKELL_PLAIN, one_step, 0, HRASKELL_UNFINISHED, WORDS(0, 2), WORDS(1, 8, 3, 6),
     OCCURRING(2, 1, 1, 1), NULL},
    /* 1 - x3 - ab, then a + b + 2ab: x3 made four. */
    {"P9", &p9, HRASKELL_PLAIN, one_step, 1, HRASKELL_DIFFERS, WORDS(1, 3, 1, 0, 0, 1, 0),
     WORDS(2, 6, 1, 4, 1, 2), OCCURRING(3, 2, 2), MADE(6)},
    /* Gates 14, 13, 11 and 10 make four of each, and are in 1, 2, 1 and 2 of 8, 10, 8 and 10 terms. */
    {"P10", &p10, HRASKELL_PLAIN, DOWN_FROM(14), 10, HRASKELL_EQUAL, WORDS(10, 0), NONE, OCCURRING(0),
     MADE(11, 16, 13, 11, 16, 13, 8, 6, 4, 2)},
    /* x14 is 1 - x13 - x12 + x12 x13: 4 + x5 + 2 x11 + 4 x12 - 4 x13 + 4 x12 x13, less the four products. */
    {"P10, one step", &p10, HRASKELL_PLAIN, DOWN_FROM(14), 1, HRASKELL_UNFINISHED, WORDS(1, 10),
     WORDS(4, 12288, 12, 8192, 4, 4096, 2, 2048, 1, 32, 12, 20, 14, 18, 14, 12, 15, 10, 4, 0),
     OCCURRING(10, 2, 2, 2, 2, 1, 0, 0, 0, 0, 0, 1, 2, 2), MADE(11)},
    /* Plain minus signed is 4 a_0 b_1 + 4 a_1 b_0: variables 1, 4 and 2, 3. */
    {"P11", &p10, HRASKELL_SIGNED, DOWN_FROM(14), 10, HRASKELL_DIFFERS, WORDS(10, 2, 2, 1, 0, 2, 14),
     WORDS(4, 18, 4, 12), OCCURRING(2, 1, 1, 1, 1), MADE(11, 16, 13, 11, 16, 13, 8, 6, 5, 4)},
};

static const struct row lookup_cells[] = {
    {"P1 as a cell", &one_cell, HRASKELL_PLAIN, one_step, 1, HRASKELL_EQUAL, WORDS(1, 0), NONE, OCCURRING(0),
     MADE(2)},
    /* a0 + a1 + b0 - 2 a0 a1 - 2 a0 b0 - 2 a1 b0 + 4 a0 a1 b0, less the four products, modulo 16. */
    {"byte 150", &parity, HRASKELL_PLAIN, five, 1, HRASKELL_DIFFERS, WORDS(1, 9, 1, 0, 0, 1, 0),
     WORDS(12, 20, 14, 18, 4, 14, 12, 12, 13, 10, 1, 8, 14, 6, 1, 4, 1, 2), OCCURRING(9, 5, 5, 4, 2), MADE(11)},
    /* Cells 11 and 8 make three of one term, the others one. Before the steps are 8, 10, 8, 6, 6, 4 and 2 terms. */
    {"two bits of cells", &two_bit_cells, HRASKELL_PLAIN, DOWN_FROM(11), 7, HRASKELL_EQUAL, WORDS(7, 0), NONE,
     OCCURRING(0), MADE(10, 10, 8, 8, 6, 4, 2)},
    /* As P11: the block is right when plain, and the last polynomial is that of any such block. */
    {"the same under s", &two_bit_cells, HRASKELL_SIGNED, DOWN_FROM(11), 7, HRASKELL_DIFFERS,
     WORDS(7, 2, 2, 1, 0, 2, 14), WORDS(4, 18, 4, 12), OCCURRING(2, 1, 1, 1, 1), MADE(10, 10, 8, 8, 6, 5, 4)},
};

/* Document 02, section 9: what is made before like terms meet. */
static const struct row peaks[] = {
    /* -ab, and x3 makes none. */
    {"literal 0", &zero, HRASKELL_PLAIN, one_step, 1, HRASKELL_DIFFERS, WORDS(1, 1, 1, 1, 0, 0, 1), WORDS(3, 6),
     OCCURRING(1, 1, 1), MADE(1)},
    /* 1 - a - a + a - ab. */
    {"one inverse twice", &twice, HRASKELL_PLAIN, one_step, 1, HRASKELL_DIFFERS, WORDS(1, 3, 0, 0, 0, 1, 0),
     WORDS(3, 6, 3, 2, 1, 0), OCCURRING(3, 2, 1), MADE(5)},
    /* a0 + b0 - 2 a0 b0, less the four products; the subsets with x2 make none. */
    {"a constant false", &constant, HRASKELL_PLAIN, five, 1, HRASKELL_DIFFERS, WORDS(1, 6, 1, 0, 0, 1, 0),
     WORDS(12, 20, 14, 18, 14, 12, 13, 10, 1, 8, 1, 2), OCCURRING(6, 3, 2, 3, 2), MADE(7)},
    /* Seven terms with a0 alone, whose coefficients add up to 1, less the four products. */
    {"one variable three times", &thrice, HRASKELL_PLAIN, five, 1, HRASKELL_DIFFERS, WORDS(1, 5, 1, 0, 0, 1, 0),
     WORDS(12, 20, 14, 18, 14, 12, 15, 10, 1, 2), OCCURRING(5, 3, 2, 2, 2), MADE(11)},
};

/* Document 02, section 12: a·b + c modulo 4. Of one bit, -1·-1 is 1 as 1·1 is. */
static const struct row multiply_and_add[] = {
    /* Gates 11, 10, 8 and 7 make four of each, and are in 1, 2, 1 and 2 of 5, 8, 4 and 6 terms. */
    {"a sum", &sum, HRASKELL_MULTIPLY_ADD, DOWN_FROM(11), 7, HRASKELL_EQUAL, WORDS(7, 0), NONE, OCCURRING(0),
     MADE(8, 14, 8, 7, 12, 7, 2)},
    {"a signed sum", &sum, HRASKELL_MULTIPLY_ADD_SIGNED, DOWN_FROM(11), 7, HRASKELL_EQUAL, WORDS(7, 0), NONE,
     OCCURRING(0), MADE(8, 14, 8, 7, 12, 7, 2)},
    /* The exclusive or makes three of one term, also where -4 x7 c_1 vanishes. */
    {"a sum of cells", &cell_sum, HRASKELL_MULTIPLY_ADD, DOWN_FROM(8), 4, HRASKELL_EQUAL, WORDS(4, 0), NONE,
     OCCURRING(0), MADE(7, 4, 6, 2)},
    {"a signed sum of cells", &cell_sum, HRASKELL_MULTIPLY_ADD_SIGNED, DOWN_FROM(8), 4, HRASKELL_EQUAL,
     WORDS(4, 0), NONE, OCCURRING(0), MADE(7, 4, 6, 2)},
    /* x5 - ab - c_0, in which no gate but 5 occurs. -c_0 is left: variable 3. */
    {"c_0 left out", &without_c0, HRASKELL_MULTIPLY_ADD, DOWN_FROM(11), 7, HRASKELL_DIFFERS,
     WORDS(7, 1, 0, 0, 1, 0, 1), WORDS(3, 8), OCCURRING(1, 0, 0, 1), MADE(3, 3, 3, 3, 3, 3, 3)},
    {"c_0 left out, signed", &without_c0, HRASKELL_MULTIPLY_ADD_SIGNED, DOWN_FROM(11), 7, HRASKELL_DIFFERS,
     WORDS(7, 1, 0, 0, 1, 0, 1), WORDS(3, 8), OCCURRING(1, 0, 0, 1), MADE(3, 3, 3, 3, 3, 3, 3)},
    /* Under t x1 x2 + x3 + 2 x4 is shown, and x1 x3 + 2 x1 x4 + 2 x2 x3 is wanted: 5, 8, 10, 6, 8, 11 and 6 terms. */
    {"a sum under t", &sum, HRASKELL_TRUNCATED, DOWN_FROM(11), 7, HRASKELL_DIFFERS, WORDS(7, 6, 0, 1, 0, 1, 0),
     WORDS(2, 18, 2, 16, 2, 12, 3, 10, 1, 8, 1, 6), OCCURRING(6, 3, 2, 3, 2), MADE(8, 14, 10, 9, 14, 11, 6)},
};

/* Answer, store, scratch and occurrences, and in the log the gates, the last terms and all that were made. */
static void judges(const struct row *rows, size_t count)
{
    for (const struct row *row = rows; row < rows + count; row++) {
        expect(row->what, judge(row->netlist, row->kind, row->order, row->steps, 7), row->number);
        expect_words(row->what, answer, HRASKELL_ANSWER_WORDS, row->answered.words, row->answered.length, MARK);
        expect_words(row->what, store, STORE_WORDS, row->stored.words, row->stored.length, 0);
        expect_words(row->what, scratch, scratch_lent, NULL, 0, 0);
        expect_records(row->what, row->order, row->made, row->steps);
        if (row->steps)
            expect(row->what, records[row->steps - 1].terms, row->answered.words[1]);
        expect_occurrences(row->what, row->occurring, HRASKELL_OCCURRENCE_WORDS(row->netlist->m));
    }
}

/* At R the occurrences are those of the polynomial held; at step 0 none is. */
static void out_of_room(void)
{
    static const uint64_t at_start[] = {0, 0}, at_step_7[] = {7, 74};
    static const uint32_t none[25] = {0};
    /* The products below 2^4, and the 64 terms of x9 (1 - x3)···(1 - x8). */
    static const uint32_t held[] = {74, 4, 3, 34, 33, 36, 35, 34, 33, 64, 0, 0, 0, 0, 0, 0};
    expect("R at step 0", judge(&nothing, HRASKELL_PLAIN, falling, 0, 7), HRASKELL_OUT_OF_ROOM);
    expect_words("R at step 0", answer, HRASKELL_ANSWER_WORDS, at_start, 2, MARK);
    expect_words("R at step 0", store, STORE_WORDS, NULL, 0, 0);
    expect_occurrences("R at step 0", none, 25);
    expect("R at step 7", judge(&all_false, HRASKELL_TRUNCATED, falling, 7, 7), HRASKELL_OUT_OF_ROOM);
    expect_words("R at step 7", answer, HRASKELL_ANSWER_WORDS, at_step_7, 2, MARK);
    expect_records("R at step 7", falling, MADE(12, 14, 18, 26, 42, 74), 6);
    expect_occurrences("R at step 7", held, 16);
}

/* A refusal leaves every word as it was. */
static void refuses(const char *what, const struct netlist *n, uint32_t kind, const uint32_t *order,
                    size_t answer_length, uint32_t number)
{
    expect(what, judge(n, kind, order, 1, answer_length), number);
    expect_all_marks(what);
}

static void refusals(void)
{
    static const uint32_t unsound_table[] = {8, 0, 4, 2}, no_gate[] = {2};
    const struct netlist wrong_sum = {4, 2, 0, 2, 1, p1_table, 4, HRASKELL_GATES};
    const struct netlist short_table = {3, 2, 0, 2, 1, p1_table, 3, HRASKELL_GATES};
    const struct netlist unsound = {3, 2, 0, 2, 1, unsound_table, 4, HRASKELL_GATES};
    refuses("M is not I + A", &wrong_sum, HRASKELL_PLAIN, one_step, 7, 102);
    refuses("table one word short", &short_table, HRASKELL_PLAIN, one_step, 7, 103);
    refuses("output past 2M + 1", &unsound, HRASKELL_PLAIN, one_step, 7, 108);
    refuses("P1 under t", &p1, HRASKELL_TRUNCATED, one_step, 7, 109);
    refuses("kind 3", &p1, 3, one_step, 7, 109);
    refuses("step of an input", &p1, HRASKELL_PLAIN, no_gate, 7, 111);
    refuses("answer one word short", &p1, HRASKELL_PLAIN, one_step, 6, 112);
    refuses("answer short and wrong counts", &wrong_sum, HRASKELL_PLAIN, one_step, 0, 112);
}

/* 9 for inputs that are no multiple of 4, for outputs that are not l, and for numbers beside the kinds. */
static void sums_refused(void)
{
    static const uint32_t three[] = {0, 0, 0, 4, 2}, two[] = {0, 0, 4, 2};
    const struct netlist six_inputs = {7, 6, 0, 3, 1, three, 5, HRASKELL_GATES};
    const struct netlist two_outputs = {7, 6, 0, 2, 1, two, 4, HRASKELL_GATES};
    const struct netlist three_outputs = {5, 4, 0, 3, 1, three, 5, HRASKELL_GATES};
    refuses("I 2 under m", &p1, HRASKELL_MULTIPLY_ADD, one_step, 7, 109);
    refuses("I 2 under ms", &p1, HRASKELL_MULTIPLY_ADD_SIGNED, one_step, 7, 109);
    refuses("I 6 under m", &six_inputs, HRASKELL_MULTIPLY_ADD, one_step, 7, 109);
    refuses("I 6 and O 2 under ms", &two_outputs, HRASKELL_MULTIPLY_ADD_SIGNED, one_step, 7, 109);
    refuses("O 3 under m", &three_outputs, HRASKELL_MULTIPLY_ADD, one_step, 7, 109);
    refuses("P10 under m", &p10, HRASKELL_MULTIPLY_ADD, one_step, 7, 109);
    refuses("a sum under u", &sum, HRASKELL_PLAIN, one_step, 7, 109);
    refuses("a sum under s", &sum, HRASKELL_SIGNED, one_step, 7, 109);
    refuses("kind 5", &sum, 5, one_step, 7, 109);
    refuses("kind 256 + 3", &sum, 256 + 3, one_step, 7, 109);
    refuses("step of an input of a sum", &sum, HRASKELL_MULTIPLY_ADD, one_step, 7, 111);
    refuses("six words for a sum", &sum, HRASKELL_MULTIPLY_ADD, one_step, 6, 112);
}

/* 3 and 8 for cells. The words past a table may be anything. */
static void cells_refused(void)
{
    static const uint32_t byte_255[] = {6, 0, 255, 1, 2, 0, UINT32_MAX}, byte_256[] = {6, 0, 256, 1, 2, 0};
    static const uint32_t own_first[] = {6, 0, 136, 3, 2, 0}, own_last[] = {6, 0, 136, 1, 2, 3};
    const struct netlist taken = {3, 2, 0, 2, 1, byte_255, 7, HRASKELL_CELLS};
    /* The cell is the constant 1, and ab is wanted. */
    const struct row always = {"byte 255", &taken, HRASKELL_PLAIN, one_step, 1, HRASKELL_DIFFERS,
                               WORDS(1, 2, 0, 0, 0, 1, 0), WORDS(3, 6, 1, 0), OCCURRING(2, 1, 1), MADE(2)};
    const struct netlist past_byte = {3, 2, 0, 2, 1, byte_256, 6, HRASKELL_CELLS};
    const struct netlist reads_itself = {3, 2, 0, 2, 1, own_first, 6, UINT32_MAX};
    const struct netlist reads_itself_last = {3, 2, 0, 2, 1, own_last, 6, HRASKELL_CELLS};
    const struct netlist one_short = {3, 2, 0, 2, 1, cell_table, 5, HRASKELL_CELLS};
    const struct netlist as_long_as_gates = {3, 2, 0, 2, 1, cell_table, 4, UINT32_MAX};
    judges(&always, 1);
    refuses("byte 256", &past_byte, HRASKELL_PLAIN, one_step, 7, 108);
    refuses("cell that reads itself", &reads_itself, HRASKELL_PLAIN, one_step, 7, 108);
    refuses("cell that reads itself last", &reads_itself_last, HRASKELL_PLAIN, one_step, 7, 108);
    refuses("O + 4A words less one", &one_short, HRASKELL_PLAIN, one_step, 7, 103);
    refuses("O + 2A words for cells", &as_long_as_gates, HRASKELL_PLAIN, one_step, 7, 103);
}

/* T outside its limits, and each lent buffer one word or record short. What is refused changes nothing. */
static void lengths(void)
{
    static const struct {
        uint32_t cells;
        uint64_t limit;
        size_t store, scratch, log, occurrences;
        uint32_t number;
    } rows[] = {
        {0, 127, 256, 1024, 1, 4, 110},          {0, 16385, 256, 1024, 1, 4, 110},
        {0, 129, 256, 1024, 1, 4, 112},          {0, 128, 255, 1024, 1, 4, 112},
        {0, 128, 256, 1023, 1, 4, 112},          {0, 128, 256, 1024, 0, 4, 112},
        {0, 128, 256, 1024, 1, 3, 112},          {0, 128, 256, 1024, 1, 0, 112},
        {0, 127, 256, 1024, 1, 3, 110},          {0, 128, 256, 1024, 1, 4, 0},
        {1, 127, 256, 2048, 1, 4, 110},          {1, 128, 255, 2048, 1, 4, 112},
        {1, 128, 256, 1024, 1, 4, 112},          {1, 128, 256, 2047, 1, 4, 112},
        {1, 128, 256, 2048, 0, 4, 112},          {1, 128, 256, 2048, 1, 3, 112},
        {UINT32_MAX, 128, 256, 2047, 1, 4, 112}, {UINT32_MAX, 128, 256, 2048, 1, 4, 0},
    };
    for (size_t at = 0; at < COUNT(rows); at++) {
        const struct netlist *n = rows[at].cells ? &one_cell : &p1;
        mark_all();
        expect("limit and lengths",
               hraskell_judge(3, 2, 0, 2, 1, n->table, n->table_length, rows[at].cells, HRASKELL_PLAIN,
                              rows[at].limit, one_step, 1, store, rows[at].store, scratch, rows[at].scratch,
                              records, rows[at].log, occurrences, rows[at].occurrences, answer, 7),
               rows[at].number);
        if (rows[at].number)
            expect_all_marks("limit and lengths");
    }
}

/* More words than are asked for: those past M + 1 keep their values, whatever is answered. */
static void longer_occurrences(void)
{
    static const uint32_t p3_occurring[] = {1, 1, 1, 0};
    for (size_t length = 4; length <= OCCURRENCE_WORDS; length++) {
        mark_all();
        expect("longer occurrences",
               hraskell_judge(3, 2, 0, 2, 1, p3_table, 4, HRASKELL_GATES, HRASKELL_PLAIN, 128, one_step, 1, store,
                              STORE_WORDS, scratch, SCRATCH_WORDS, records, 1, occurrences, length, answer, 7),
               HRASKELL_DIFFERS);
        expect_occurrences("longer occurrences", p3_occurring, 4);
    }
}

static void numbers_of_the_header(void)
{
    expect("number of m", HRASKELL_MULTIPLY_ADD, 3);
    expect("number of ms", HRASKELL_MULTIPLY_ADD_SIGNED, 4);
    expect("words of the store", HRASKELL_STORE_WORDS(3, 128), STORE_WORDS);
    expect("words of scratch", HRASKELL_SCRATCH_WORDS(3, 128), SCRATCH_WORDS);
    expect("words of scratch for cells", HRASKELL_CELL_SCRATCH_WORDS(3, 128), CELL_SCRATCH_WORDS);
    expect("words of a term, M 1,023", HRASKELL_TERM_WORDS(1023), 17);
    expect("words of occurrences, M 1,023", HRASKELL_OCCURRENCE_WORDS(1023), 1024);
    /* 64 outputs, and 1,021 gates or cells on two inputs. */
    expect("longest table of gates", HRASKELL_TABLE_WORDS_MOST, 64 + 2 * 1021);
    expect("longest table of cells", HRASKELL_CELL_TABLE_WORDS_MOST, 64 + 4 * 1021);
    expect("words of an answer", HRASKELL_ANSWER_WORDS, 7);
    expect("bytes of a record", sizeof(struct hraskell_step), 12);
    expect("place of the terms", offsetof(struct hraskell_step, terms), 4);
    expect("place of the terms made", offsetof(struct hraskell_step, made), 8);
}

int main(void)
{
    judges(bench_sheet, COUNT(bench_sheet));
    judges(lookup_cells, COUNT(lookup_cells));
    judges(peaks, COUNT(peaks));
    judges(multiply_and_add, COUNT(multiply_and_add));
    out_of_room();
    refusals();
    sums_refused();
    cells_refused();
    lengths();
    longer_occurrences();
    numbers_of_the_header();
    return verdict("judging from C");
}
