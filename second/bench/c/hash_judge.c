/*
 * A plain judge with a hash table of terms: the baseline that the proved
 * judge is timed against. Nothing of it is proved.
 *
 * It takes sound tables of AND gates or of lookup cells, and orders that
 * name gates or cells only, and gives the answer's letter, its step, the
 * terms held, how often each variable occurs in them, and a record of each
 * step completed. It leaves no sorted polynomial, as the proved judge has to.
 */
#include <stddef.h>
#include <stdint.h>
#include <string.h>

#define VARIABLES_MOST 1023
#define SET_WORDS_MOST 16
#define SLOTS_LEAST 256
#define GATE_WORDS 2
#define CELL_WORDS 4
#define SUBSETS 8
#define BIT(v) (UINT64_C(1) << (v) % 64)

/* A record of the log: the gate of a step, the terms after it, and those before like ones met. */
struct step_record {
    uint32_t gate, terms, made;
};

struct polynomial {
    uint64_t *terms; /* width words each, in no order: the coefficient, then the set */
    uint32_t *slots; /* a term's place plus 1, or 0: open addressing, at most half full */
    size_t width, slot_count;
    size_t used; /* terms with a place, those whose coefficient became 0 too */
    uint64_t coefficient_bits;
    uint32_t *occurrences; /* of the terms whose coefficient is not 0: [0] is all of them, [v] those that hold v */
};

static uint64_t *term(const struct polynomial *p, size_t place)
{
    return p->terms + place * p->width;
}

/* The slot of the term with this set, or the empty slot where it belongs. */
static size_t slot_of(const struct polynomial *p, const uint64_t *set)
{
    uint64_t hash = 0;
    for (size_t k = 0; k + 1 < p->width; k++) {
        hash = (hash ^ set[k]) * UINT64_C(0x9e3779b97f4a7c15);
        hash ^= hash >> 32;
    }
    size_t at = hash & (p->slot_count - 1);
    while (p->slots[at] && memcmp(term(p, p->slots[at] - 1) + 1, set, (p->width - 1) * 8))
        at = (at + 1) & (p->slot_count - 1);
    return at;
}

/* Takes new slots, at least four for each term, so that it is seldom done. */
static void take_slots(struct polynomial *p)
{
    p->slot_count = SLOTS_LEAST;
    while (p->slot_count < 4 * p->used)
        p->slot_count *= 2;
    memset(p->slots, 0, p->slot_count * sizeof *p->slots);
    for (size_t k = 0; k < p->used; k++)
        p->slots[slot_of(p, term(p, k) + 1)] = (uint32_t)k + 1;
}

/* Drops the terms whose coefficient became 0. */
static void drop_zeros(struct polynomial *p)
{
    size_t kept = 0;
    for (size_t k = 0; k < p->used; k++) {
        if (term(p, k)[0])
            memmove(term(p, kept++), term(p, k), p->width * 8);
    }
    p->used = kept;
    take_slots(p);
}

/* Counts a term with this set once more (by is 1), or once less (by is -1). */
static void count(struct polynomial *p, const uint64_t *set, uint32_t by)
{
    p->occurrences[0] += by;
    for (size_t k = 0; k + 1 < p->width; k++) {
        for (uint64_t left = set[k]; left; left &= left - 1)
            p->occurrences[64 * k + (size_t)__builtin_ctzll(left)] += by;
    }
}

/* Gathers one term in. It is counted where it appears, and no longer where it vanishes. */
static void add(struct polynomial *p, const uint64_t *set, uint64_t coefficient)
{
    if (2 * p->used >= p->slot_count)
        take_slots(p);
    size_t at = slot_of(p, set);
    if (!p->slots[at]) {
        uint64_t *fresh = term(p, p->used++);
        fresh[0] = 0;
        memcpy(fresh + 1, set, (p->width - 1) * 8);
        p->slots[at] = (uint32_t)p->used;
    }
    uint64_t *found = term(p, p->slots[at] - 1), before = found[0];
    found[0] = (before + coefficient) & p->coefficient_bits;
    if (!before != !found[0])
        count(p, set, before ? (uint32_t)-1 : 1);
}

/* Adds a term times some literals, each of which stands for 0, 1, x or 1 - x. */
static void add_times(struct polynomial *p, const uint64_t *set, uint64_t coefficient,
                      const uint32_t *literals, int count)
{
    if (count == 0) {
        add(p, set, coefficient);
        return;
    }
    uint32_t is_inverse = literals[0] & 1, v = literals[0] / 2;
    if (is_inverse)
        add_times(p, set, coefficient, literals + 1, count - 1);
    if (v == 0)
        return;
    uint64_t product[SET_WORDS_MOST];
    memcpy(product, set, (p->width - 1) * 8);
    product[v / 64] |= BIT(v);
    add_times(p, product, is_inverse ? -coefficient : coefficient, literals + 1, count - 1);
}

/* The outputs minus the product, and minus c in the kinds from 3 on; kinds 1 and 4 are signed. */
static void start(struct polynomial *p, uint32_t i, uint32_t o, const uint32_t *outputs, uint32_t kind)
{
    static const uint64_t none[SET_WORDS_MOST];
    uint32_t n = kind < 3 ? i / 2 : i / 4;
    take_slots(p);
    for (uint32_t k = 0; k < o; k++)
        add_times(p, none, BIT(k), outputs + k, 1);
    for (uint32_t at = 0; at < n * n; at++) {
        uint32_t x = at / n, y = at % n, both[2] = {2 * (1 + x), 2 * (1 + n + y)};
        int is_negative = (kind == 1 || kind == 4) && (x == n - 1) != (y == n - 1);
        add_times(p, none, is_negative ? BIT(x + y) : -BIT(x + y), both, 2);
    }
    for (uint32_t v = 2 * n + 1; v <= i; v++) {
        uint32_t literal = 2 * v;
        add_times(p, none, -BIT(v - 2 * n - 1), &literal, 1);
    }
}

/* What a cell makes of a term: coefficients that are not 0, and the sets to join with. */
struct parts {
    size_t count;
    uint64_t coefficients[SUBSETS];
    uint32_t variables[SUBSETS][3]; /* 0 where the subset does not have it */
};

/*
 * The parts of a cell: byte, x1, x2, x3. A function of x is its value at 0
 * plus x times the difference of its two values; taken for each variable in
 * turn, this turns the byte's bits into coefficients.
 */
static void take_parts(struct parts *parts, const uint32_t *cell)
{
    uint64_t numbers[SUBSETS];
    for (uint32_t k = 0; k < SUBSETS; k++)
        numbers[k] = cell[0] >> k & 1;
    for (uint32_t bit = 1; bit < SUBSETS; bit *= 2) {
        for (uint32_t k = 0; k < SUBSETS; k++)
            numbers[k] -= k & bit ? numbers[k ^ bit] : 0;
    }
    parts->count = 0;
    for (uint32_t k = 0; k < SUBSETS; k++) {
        /* A subset with the constant false makes nothing. */
        int is_false = (k & 1 && !cell[1]) || (k & 2 && !cell[2]) || (k & 4 && !cell[3]);
        if (!numbers[k] || is_false)
            continue;
        for (uint32_t x = 0; x < 3; x++)
            parts->variables[parts->count][x] = k >> x & 1 ? cell[1 + x] : 0;
        parts->coefficients[parts->count++] = numbers[k];
    }
}

/* Adds a term times a cell. */
static void add_parts(struct polynomial *p, const uint64_t *set, uint64_t coefficient, const struct parts *parts)
{
    for (size_t k = 0; k < parts->count; k++) {
        uint64_t made = coefficient * parts->coefficients[k], product[SET_WORDS_MOST];
        /* What vanishes modulo 2^l needs no place. */
        if (!(made & p->coefficient_bits))
            continue;
        memcpy(product, set, (p->width - 1) * 8);
        for (uint32_t x = 0; x < 3; x++) {
            uint32_t v = parts->variables[k][x];
            if (v)
                product[v / 64] |= BIT(v);
        }
        add(p, product, made);
    }
}

/* How many terms a literal makes of one: 0 none, 1 and x one, 1 - x two. */
static uint32_t made_by(uint32_t literal)
{
    return literal < 2 ? literal : 1 + (literal & 1);
}

/*
 * Replaces v by its gate or cell. That reads only below itself, so no term
 * put in holds v and the pass may end with the last that did. Gives the terms
 * before gathering: those without v, and what all others are replaced by.
 */
static uint32_t step(struct polynomial *p, uint32_t v, const uint32_t *record, uint32_t cells)
{
    struct parts parts;
    if (cells)
        take_parts(&parts, record);
    uint32_t of_one = cells ? (uint32_t)parts.count : made_by(record[0]) * made_by(record[1]);
    uint32_t made = p->occurrences[0] - p->occurrences[v] + of_one * p->occurrences[v];
    /* Terms of coefficient 0 are passed over in vain. */
    if (p->used > p->occurrences[0] + p->occurrences[0] / 4 + 32)
        drop_zeros(p);
    for (size_t k = 0; p->occurrences[v]; k++) {
        uint64_t *taken = term(p, k), coefficient = taken[0], rest[SET_WORDS_MOST];
        if (!coefficient || !(taken[1 + v / 64] & BIT(v)))
            continue;
        memcpy(rest, taken + 1, (p->width - 1) * 8);
        rest[v / 64] ^= BIT(v);
        taken[0] = 0;
        count(p, taken + 1, (uint32_t)-1);
        if (cells)
            add_parts(p, rest, coefficient, &parts);
        else
            add_times(p, rest, coefficient, record, 2);
    }
    return made;
}

/* E, D or U, by the variables that are left after the last step. */
static char last_answer(const struct polynomial *p, uint32_t m, uint32_t i)
{
    for (uint32_t v = i + 1; v <= m; v++) {
        if (p->occurrences[v])
            return 'U';
    }
    return p->occurrences[0] ? 'D' : 'E';
}

/* The most terms with a place: a step can make four of each, or eight with cells. The start has at most 1,089. */
static size_t places(uint64_t limit, uint32_t cells)
{
    return (cells ? 10 : 6) * limit + 512;
}

/* What a judgement has to be lent: words for terms, and slots. */
size_t hash_judge_term_words(uint32_t m, uint64_t limit, uint32_t cells)
{
    return places(limit, cells) * (m / 64 + 2);
}

size_t hash_judge_slots(uint64_t limit, uint32_t cells)
{
    return 8 * places(limit, cells);
}

/*
 * Gives the letter E, D, R or U, and in shown the step and the terms held. A
 * table of cells is told by cells not 0. In the m + 1 words of occurrences it
 * keeps how often each variable occurs in the polynomial held, [0] being all
 * of its terms. They are put aside before a step that may have no room. The
 * log gets a record for each step completed.
 */
char hash_judge(uint32_t m, uint32_t i, uint32_t o, const uint32_t *table, uint32_t cells, uint32_t kind,
                uint64_t limit, const uint32_t *order, size_t order_length, uint64_t *terms, uint32_t *slots,
                uint32_t *occurrences, struct step_record *log, uint64_t *shown)
{
    struct polynomial p = {terms, slots, m / 64 + 2, 0, 0, BIT(o - 1) * 2 - 1, occurrences};
    size_t record_words = cells ? CELL_WORDS : GATE_WORDS, bytes = ((size_t)m + 1) * sizeof *occurrences;
    uint32_t before[VARIABLES_MOST + 1];
    memset(occurrences, 0, bytes);
    start(&p, i, o, table, kind);
    shown[0] = shown[1] = 0;
    if (occurrences[0] > limit) {
        memset(occurrences, 0, bytes);
        return 'R';
    }
    for (size_t k = 0; k < order_length; k++) {
        uint32_t v = order[k];
        shown[0] = k + 1;
        shown[1] = occurrences[0];
        /* A cell makes up to eight terms of one, a gate up to four. */
        if (occurrences[0] + (cells ? 7 : 3) * (uint64_t)occurrences[v] > limit)
            memcpy(before, occurrences, bytes);
        uint32_t made = step(&p, v, table + o + record_words * (v - i - 1), cells);
        if (occurrences[0] > limit) {
            memcpy(occurrences, before, bytes);
            return 'R';
        }
        log[k] = (struct step_record){v, occurrences[0], made};
    }
    shown[1] = occurrences[0];
    return last_answer(&p, m, i);
}
