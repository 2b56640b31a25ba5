/* Reading and evaluating from C. Expected values are those of document 01, or follow from it and from document 02 by hand. */
#include "check.h"
#include <string.h>

#define P1 "aag 3 2 0 2 1\n2\n4\n6\n0\n6 4 2\n"
#define P9 "aag 3 2 0 2 1\n2\n4\n7\n0\n6 5 3\n"

static const uint32_t and_counts[] = {3, 2, 0, 2, 1};
static const uint32_t p1_table[] = {6, 0, 4, 2};
static const uint32_t p9_table[] = {7, 0, 5, 3};
static const uint32_t p10_table[] = {10, 22, 28, 24, 6,  2,  8,  2,  6,  4,  8,  4,
                                     14, 12, 15, 13, 21, 19, 18, 16, 19, 17, 27, 25};

/* The first words are the wanted ones, and the others are all rest. */
static void expect_numbers(const char *what, const uint32_t *got, size_t length,
                           const uint32_t *wanted, size_t count, uint32_t rest)
{
    for (size_t at = 0; at < length; at++)
        expect(what, got[at], at < count ? wanted[at] : rest);
}

static void mark_numbers(uint32_t *numbers, size_t length)
{
    for (size_t at = 0; at < length; at++)
        numbers[at] = MARK;
}

/* Reads into buffers longer than lent; a refusal (counts is null) has to leave every word. */
static void reads(const char *what, const char *text, size_t table_length, size_t counts_length,
                  uint32_t number, const uint32_t *counts, const uint32_t *table)
{
    uint32_t table_words[16], count_words[16];
    mark_numbers(table_words, COUNT(table_words));
    mark_numbers(count_words, COUNT(count_words));
    expect(what,
           hraskell_read((const uint8_t *)text, strlen(text), table_words, table_length, count_words,
                         counts_length),
           number);
    expect_numbers(what, count_words, COUNT(count_words), counts, counts ? 5 : 0, MARK);
    expect_numbers(what, table_words, COUNT(table_words), table, table ? 4 : 0, MARK);
}

static void refuses(const char *what, const char *text, size_t table_length, size_t counts_length,
                    uint32_t number)
{
    reads(what, text, table_length, counts_length, number, NULL, NULL);
}

static void reading(void)
{
    reads("P1", P1, 4, 5, HRASKELL_DONE, and_counts, p1_table);
    reads("P1, longer buffers", P1, 9, 8, HRASKELL_DONE, and_counts, p1_table);
    reads("P9", P9, 4, 5, HRASKELL_DONE, and_counts, p9_table);
    refuses("no text", "", 4, 5, 101);
    refuses("header cut short", "aag 3 2 0 2\n", 4, 5, 101);
    refuses("leading zero in the header", "aag 03 2 0 2 1\n2\n4\n6\n0\n6 4 2\n", 4, 5, 101);
    refuses("M is not I + A", "aag 4 2 0 2 1\n2\n4\n6\n0\n6 4 2\n", 4, 5, 102);
    refuses("I 0", "aag 1 0 0 2 1\n2\n2\n2 1 1\n", 4, 5, 102);
    refuses("table one word short", P1, 3, 5, 103);
    refuses("table empty", P1, 0, 5, 103);
    refuses("input lines swapped", "aag 3 2 0 2 1\n4\n2\n6\n0\n6 4 2\n", 4, 5, 104);
    refuses("output past 2M + 1", "aag 3 2 0 2 1\n2\n4\n8\n0\n6 4 2\n", 4, 5, 105);
    refuses("rhs0 below rhs1", "aag 3 2 0 2 1\n2\n4\n6\n0\n6 2 4\n", 4, 5, 106);
    refuses("gate line missing", "aag 3 2 0 2 1\n2\n4\n6\n0\n", 4, 5, 106);
    refuses("bytes after the last gate line", P1 "\n", 4, 5, 107);
    refuses("counts one word short", P1, 4, 4, 112);
    refuses("counts short and no text", "", 0, 0, 112);
}

/* P1 cut at every place. The rest stands past the cut, where a reader that runs over its end would find it. */
static void cut_texts(void)
{
    const size_t header = strlen("aag 3 2 0 2 1\n");
    for (size_t length = 0; length < strlen(P1); length++) {
        uint32_t table[4], counts[5];
        mark_numbers(table, COUNT(table));
        mark_numbers(counts, COUNT(counts));
        uint32_t wanted = length < header ? 101 : length < header + 4 ? 104 : length < header + 8 ? 105 : 106;
        expect("P1 cut", hraskell_read((const uint8_t *)P1, length, table, 4, counts, 5), wanted);
        expect_numbers("P1 cut", table, COUNT(table), NULL, 0, MARK);
        expect_numbers("P1 cut", counts, COUNT(counts), NULL, 0, MARK);
    }
}

/* Evaluates the given counts and table of gates or of cells; a refusal has to leave the word. */
static void evaluates_records(const char *what, const uint32_t *c, const uint32_t *table, size_t table_length,
                              uint32_t cells, uint64_t x, uint64_t y, uint32_t number, uint64_t wanted)
{
    uint64_t word[2] = {MARK, MARK};
    expect(what,
           hraskell_evaluate(c[0], c[1], c[2], c[3], c[4], table, table_length, cells, x, y, word, 1),
           number);
    expect(what, word[0], number == HRASKELL_DONE ? wanted : MARK);
    expect(what, word[1], MARK);
}

/* The same for gates. */
static void evaluates(const char *what, const uint32_t *c, const uint32_t *table, size_t table_length,
                      uint64_t x, uint64_t y, uint32_t number, uint64_t wanted)
{
    evaluates_records(what, c, table, table_length, HRASKELL_GATES, x, y, number, wanted);
}

static void values(void)
{
    static const uint32_t two_bits[] = {14, 4, 0, 4, 10};
    for (uint64_t x = 0; x < 2; x++)
        for (uint64_t y = 0; y < 2; y++) {
            evaluates("P1", and_counts, p1_table, 4, x, y, HRASKELL_DONE, x * y);
            evaluates("P9", and_counts, p9_table, 4, x, y, HRASKELL_DONE, x | y);
        }
    for (uint64_t x = 0; x < 4; x++)
        for (uint64_t y = 0; y < 4; y++) {
            evaluates("P10", two_bits, p10_table, 24, x, y, HRASKELL_DONE, x * y);
            evaluates("bits from n up", two_bits, p10_table, 24, x | ~(uint64_t)3, y + 4, HRASKELL_DONE, x * y);
        }
}

static void values_refused(void)
{
    static const uint32_t wrong_sum[] = {4, 2, 0, 2, 1};
    static const uint32_t wrapped_sum[] = {3, 4, 0, 2, UINT32_MAX};
    static const uint32_t past_output[] = {8, 0, 4, 2};
    static const uint32_t reads_itself[] = {6, 0, 6, 2};
    uint64_t word[1] = {MARK};
    evaluates("M is not I + A", wrong_sum, p1_table, 4, 1, 1, 102, 0);
    evaluates("I + A wraps to M", wrapped_sum, p1_table, 4, 1, 1, 102, 0);
    evaluates("wrong counts and no table", wrong_sum, p1_table, 0, 1, 1, 102, 0);
    evaluates("table one word short", and_counts, p1_table, 3, 1, 1, 103, 0);
    evaluates("short and unsound", and_counts, past_output, 3, 1, 1, 103, 0);
    evaluates("output past 2M + 1", and_counts, past_output, 4, 1, 1, 108, 0);
    evaluates("gate that reads itself", and_counts, reads_itself, 4, 1, 1, 108, 0);
    expect("no word", hraskell_evaluate(3, 2, 0, 2, 1, p1_table, 4, 0, 1, 1, word, 0), 112);
    expect("no word and wrong counts", hraskell_evaluate(4, 2, 0, 2, 1, p1_table, 4, 0, 1, 1, word, 0), 112);
    expect("no word", word[0], MARK);
}

/* A block of two bits (second/blocks/lut, yosys-lut3-u2), and every byte at every value of its three variables. */
static void cell_values(void)
{
    static const uint32_t block_counts[] = {11, 4, 0, 4, 7}, byte_counts[] = {5, 4, 0, 2, 1};
    static const uint32_t block[] = {20, 16, 22, 18, 136, 2, 4, 0, 136, 3, 2, 0, 136, 1, 4, 0,
                                     102, 6, 7, 0,  128, 5, 6, 7, 136, 1, 3, 0, 120, 6, 7, 5};
    for (uint64_t x = 0; x < 4; x++)
        for (uint64_t y = 0; y < 4; y++) {
            evaluates_records("two bits of cells", block_counts, block, 32, 1, x, y, HRASKELL_DONE, x * y);
            evaluates_records("any number names cells", block_counts, block, 32, UINT32_MAX, x, y,
                              HRASKELL_DONE, x * y);
        }
    for (uint32_t byte = 0; byte < 256; byte++)
        for (uint64_t index = 0; index < 8; index++) {
            /* Variables 1 and 2 are the bits of x, variable 3 is the lowest of y. The outputs show it and its inverse. */
            uint32_t table[] = {10, 11, byte, 1, 2, 3};
            uint64_t bit = byte >> index & 1;
            evaluates_records("a byte", byte_counts, table, 6, 1, index % 4, index / 4, HRASKELL_DONE, 2 - bit);
        }
}

/* One bit that adds c: the first word is a + 2b, the second c. Bits from I/2 = 2 up are absent. */
static void sum_values(void)
{
    static const uint32_t counts[] = {11, 4, 0, 2, 7};
    static const uint32_t table[] = {16, 22, 4, 2, 10, 6, 11, 7, 15, 13, 12, 8, 13, 9, 21, 19};
    for (uint64_t x = 0; x < 4; x++)
        for (uint64_t y = 0; y < 4; y++) {
            uint64_t wanted = (x % 2 * (x / 2) + y) % 4, above = ~UINT64_C(3);
            evaluates("a sum", counts, table, 16, x, y, HRASKELL_DONE, wanted);
            evaluates("bits above are absent", counts, table, 16, x | above, y | above, HRASKELL_DONE, wanted);
            evaluates("bit I/2 is absent", counts, table, 16, x | 4, y | 4, HRASKELL_DONE, wanted);
        }
}

static void cell_values_refused(void)
{
    static const uint32_t right[] = {6, 0, 136, 1, 2, 0}, byte_256[] = {6, 0, 256, 1, 2, 0};
    static const uint32_t own_first[] = {6, 0, 136, 3, 2, 0}, own_last[] = {6, 0, 136, 1, 2, 3};
    static const uint32_t past_output[] = {8, 0, 136, 1, 2, 0};
    evaluates_records("P1 as a cell", and_counts, right, 6, 1, 1, 1, HRASKELL_DONE, 1);
    evaluates_records("the same words as gates", and_counts, right, 6, 0, 1, 1, 108, 0);
    evaluates_records("O + 4A words less one", and_counts, right, 5, 1, 1, 1, 103, 0);
    evaluates_records("O + 2A words for cells", and_counts, p1_table, 4, UINT32_MAX, 1, 1, 103, 0);
    evaluates_records("short and unsound", and_counts, byte_256, 5, 1, 1, 1, 103, 0);
    evaluates_records("byte 256", and_counts, byte_256, 6, 1, 1, 1, 108, 0);
    evaluates_records("cell that reads itself", and_counts, own_first, 6, 1, 1, 1, 108, 0);
    evaluates_records("cell that reads itself last", and_counts, own_last, 6, UINT32_MAX, 1, 1, 108, 0);
    evaluates_records("output past 2M + 1", and_counts, past_output, 6, 1, 1, 1, 108, 0);
}

int main(void)
{
    reading();
    cut_texts();
    values();
    values_refused();
    cell_values();
    sum_values();
    cell_values_refused();
    return verdict("reading and evaluating from C");
}
