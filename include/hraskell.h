/*
 * Hraskell: a judge of combinational multiplier netlists, proved in Rattle.
 *
 * Three functions on numbers and lent buffers. They keep nothing between
 * calls and hold on to no pointer. Link with libexports.a.
 *
 * The caller's duties, for every call:
 *   - Every pointer is non-null, suitably aligned, and points to at least as
 *     many elements as the length after it says. This holds for length 0 too.
 *   - A buffer that is written overlaps no other buffer of the same call.
 *     Buffers marked const are only read.
 * Nothing else is asked: counts, tables, texts, orders and numbers may be
 * anything, and what is wrong is refused. A refusal changes no lent word.
 *
 * The numbers of document 01 are used throughout. A text is ASCII AIGER. A
 * table is 32-bit words: the O outputs, then a record for each gate or cell.
 * Its records are of one kind, which the caller names by a number:
 *   - AND gates, 0: two words, rhs0 and rhs1; O + 2A words in all.
 *   - Lookup cells, any other number: four words, byte, x1, x2, x3; O + 4A
 *     words in all. The cell's value is bit x1 + 2 x2 + 4 x3 of the byte. The
 *     byte is at most 255, a variable is below the cell's own, and variable 0
 *     is the constant false. Outputs are literals all the same.
 * Words past these may be there and are neither read nor written. Where it
 * says gate below, a cell is meant too.
 */
#ifndef HRASKELL_H
#define HRASKELL_H

#include <stddef.h>
#include <stdint.h>

#ifdef __cplusplus
extern "C" {
#endif

/* Reading and evaluating: it was done. */
#define HRASKELL_DONE 0u

/* Judging: the answers. */
#define HRASKELL_EQUAL 0u       /* E: the last polynomial is zero */
#define HRASKELL_DIFFERS 1u     /* D: it is not zero and has no gate variable */
#define HRASKELL_OUT_OF_ROOM 2u /* R: more than T terms */
#define HRASKELL_UNFINISHED 3u  /* U: a gate variable occurs at the end */

/* Refusals: 100 plus the number of document 01. */
#define HRASKELL_REFUSED_HEADER 101u      /* header line malformed or cut short */
#define HRASKELL_REFUSED_COUNTS 102u      /* a count outside its limits */
#define HRASKELL_REFUSED_TABLE_SHORT 103u /* table shorter than O + 2A, or O + 4A for cells */
#define HRASKELL_REFUSED_INPUT_LINE 104u  /* input line wrong */
#define HRASKELL_REFUSED_OUTPUT_LINE 105u /* output line wrong */
#define HRASKELL_REFUSED_GATE_LINE 106u   /* gate line wrong */
#define HRASKELL_REFUSED_BYTES_AFTER 107u /* bytes after the last gate line */
#define HRASKELL_REFUSED_UNSOUND 108u     /* an output or record of the table breaks its rules */
#define HRASKELL_REFUSED_KIND 109u        /* kind unknown, O is not l, or I no multiple of 4 for m and ms */
#define HRASKELL_REFUSED_LIMIT 110u       /* T outside 128..16,384 */
#define HRASKELL_REFUSED_ORDER 111u       /* order too long, or names something that is no gate */
#define HRASKELL_REFUSED_LENT_SHORT 112u  /* a buffer to be written is too short */

/*
 * Kinds. In the first three inputs 1 to n are the bits of a and the others
 * those of b, n = I/2. In the last two n = I/4: inputs 1 to n are the bits of
 * a, n + 1 to 2n those of b, and the other 2n those of c. Lowest bit first.
 */
#define HRASKELL_PLAIN 0u               /* u: 2n outputs, both operands plain */
#define HRASKELL_SIGNED 1u              /* s: 2n outputs, both operands two's complement */
#define HRASKELL_TRUNCATED 2u           /* t: n outputs, the product modulo 2^n */
#define HRASKELL_MULTIPLY_ADD 3u        /* m: 2n outputs, ab + c modulo 2^(2n), a and b plain */
#define HRASKELL_MULTIPLY_ADD_SIGNED 4u /* ms: the same, a and b two's complement */

/* Kinds of record. Every number but 0 names cells. */
#define HRASKELL_GATES 0u /* AND gates */
#define HRASKELL_CELLS 1u /* lookup cells */

/* Limits and least lengths. */
#define HRASKELL_TABLE_WORDS_MOST 2106u      /* no netlist of gates needs a longer table */
#define HRASKELL_CELL_TABLE_WORDS_MOST 4148u /* no netlist of cells needs a longer table */
#define HRASKELL_COUNT_WORDS 5u
#define HRASKELL_ANSWER_WORDS 7u
#define HRASKELL_TERMS_LEAST 128u
#define HRASKELL_TERMS_MOST 16384u
#define HRASKELL_STEPS_MOST 4096u

/* W + 1: the 64-bit words of one term, for a netlist of M variables. */
#define HRASKELL_TERM_WORDS(m) ((size_t)(m) / 64u + 2u)
/* The least words of store and scratch, for M variables and the term limit T. Cells need more scratch than gates. */
#define HRASKELL_STORE_WORDS(m, t) ((size_t)(t) * HRASKELL_TERM_WORDS(m))
#define HRASKELL_SCRATCH_WORDS(m, t) (4u * HRASKELL_STORE_WORDS(m, t))
#define HRASKELL_CELL_SCRATCH_WORDS(m, t) (8u * HRASKELL_STORE_WORDS(m, t))
/* M + 1: the least words of occurrences, for M variables. */
#define HRASKELL_OCCURRENCE_WORDS(m) ((size_t)(m) + 1u)

/*
 * Reads a netlist text. It makes tables of AND gates only.
 *
 *   text    lent for reading: text_length bytes, with no end mark
 *   table   lent for writing: at least O + 2A words, else refused 103
 *   counts  lent for writing: at least 5 words, else refused 112, checked first
 *
 * Gives HRASKELL_DONE, the table in its first O + 2A words and M, I, L, O, A
 * in the first five of counts; words past these keep their values. Or gives
 * a refusal: 112, then 101 to 107 in text order.
 */
uint32_t hraskell_read(
    const uint8_t *text, size_t text_length,
    uint32_t *table, size_t table_length,
    uint32_t *counts, size_t counts_length);

/*
 * Evaluates a netlist at one choice of its operands.
 *
 *   m, i, l, o, a  the counts M, I, L, O, A
 *   table          lent for reading: at least O + 2A words, or O + 4A for cells, else refused 103
 *   cells          0 for a table of AND gates, any other number for one of lookup cells
 *   x, y           the operands a and b, or for a block of kind m or ms a + 2^n b and c: the inputs
 *                  1 to I/2, and those after them; bits from I/2 up are treated as absent
 *   word           lent for writing: at least 1 word, else refused 112, checked first
 *
 * Gives HRASKELL_DONE and in word[0] the word of O bits that the outputs
 * show, output 0 lowest; other words keep their values. O need not be that
 * of a kind. Or gives a refusal: 112, 102, 103, 108, in this order.
 */
uint32_t hraskell_evaluate(
    uint32_t m, uint32_t i, uint32_t l, uint32_t o, uint32_t a,
    const uint32_t *table, size_t table_length, uint32_t cells,
    uint64_t x, uint64_t y,
    uint64_t *word, size_t word_length);

/* A record of the step log. */
struct hraskell_step {
    uint32_t gate;  /* the gate variable of the step */
    uint32_t terms; /* the terms after it, like ones gathered */
    uint32_t made;  /* its terms before gathering */
};

/*
 * Judges a netlist under a kind.
 *
 *   m, i, l, o, a  the counts M, I, L, O, A
 *   table          lent for reading: at least O + 2A words, or O + 4A for cells, else refused 103
 *   cells          0 for a table of AND gates, any other number for one of lookup cells
 *   kind           HRASKELL_PLAIN, HRASKELL_SIGNED, HRASKELL_TRUNCATED, HRASKELL_MULTIPLY_ADD or
 *                  HRASKELL_MULTIPLY_ADD_SIGNED
 *   limit          T, the most terms that are held: 128 to 16,384
 *   order          lent for reading: 0 to 4,096 gate variables, one for each step
 *   store          lent for writing: at least T(W + 1) words
 *   scratch        lent for writing: at least 4T(W + 1) words, or 8T(W + 1) for cells
 *   log            lent for writing, the step log: at least one record for each step of the order
 *   occurrences    lent for writing, how often each variable occurs: at least M + 1 words
 *   answer         lent for writing: at least 7 words, else refused 112, checked first
 *
 * Gives the number of the answer and, in answer,
 *   E, U  steps done, terms held
 *   R     the step at which there was no room (0 is the start), terms held
 *   D     steps done, terms held, a, b, c, word got, word wanted; c is 0 for the kinds without c
 * Of all operands that go wrong, those of D have the fewest 1 bits, and of
 * those the smallest a + 2^n b, for m and ms a + 2^n b + 2^(2n) c.
 * Other words of answer keep their values. Afterwards store has the last
 * polynomial of at most T terms, W + 1 words for each (the coefficient, then
 * the set of variables, v at bit v mod 64 of word v/64), sets falling when
 * read as one number, then zeros to its end; scratch is all zeros to its end;
 * log[k] has the gate of step k + 1, the terms after it and its terms before
 * gathering, for each step completed, and other records keep their values;
 * occurrences[v], for v from 1 to M, is the number of terms of the polynomial
 * in store that hold v, occurrences[0] the number of all its terms, and words
 * from M + 1 on keep their values. For R at step 0 no term is held: store and
 * the first M + 1 words of occurrences are zeros.
 *
 * The terms of a step before gathering are those without the gate, and all
 * that the replacement made of the others before like terms met. Of each it
 * makes, for a gate, the product of what both literals make: 0 none, 1 and a
 * variable one, an inverse two; for a cell, one for each of the eight whole
 * coefficients that is not 0 and whose subset has no constant false, also
 * where the new coefficient vanishes modulo 2^l. They are at most 4 times the
 * terms before the step, or 8 times with cells; where the gate does not occur
 * they are these terms.
 *
 * Or gives a refusal: 112 for answer, then 102, 103, 108, 109, 110, 111, and
 * 112 for store, scratch or occurrences with too few words or log with fewer
 * records than the order has steps, in this order.
 */
uint32_t hraskell_judge(
    uint32_t m, uint32_t i, uint32_t l, uint32_t o, uint32_t a,
    const uint32_t *table, size_t table_length, uint32_t cells,
    uint32_t kind, uint64_t limit,
    const uint32_t *order, size_t order_length,
    uint64_t *store, size_t store_length,
    uint64_t *scratch, size_t scratch_length,
    struct hraskell_step *log, size_t log_length,
    uint32_t *occurrences, size_t occurrences_length,
    uint64_t *answer, size_t answer_length);

#ifdef __cplusplus
}
#endif

#endif
