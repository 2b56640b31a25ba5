/*
 * Trying all operand pairs of a netlist, 64 to a word: the other way to
 * decide, which the proved judge is timed against. Nothing of it is proved.
 *
 * The pair with p = a + 2^n b is bit p mod 64 of word p / 64. Where c is
 * added, p is a + 2^n b + 2^(2n) c.
 */
#include <stddef.h>
#include <stdint.h>

#define LITERALS_MOST 2048
#define INPUTS_MOST 64
#define OUTPUTS_MOST 64
#define PLAIN 0u
#define SIGNED 1u
#define ADDING 3u
#define SIGNED_ADDING 4u

/* Bit k of the numbers from 0 to 63. */
static const uint64_t low_bit[6] = {
    UINT64_C(0xaaaaaaaaaaaaaaaa), UINT64_C(0xcccccccccccccccc), UINT64_C(0xf0f0f0f0f0f0f0f0),
    UINT64_C(0xff00ff00ff00ff00), UINT64_C(0xffff0000ffff0000), UINT64_C(0xffffffff00000000),
};

/* Bit k of the 64 pairs of a word. */
static uint64_t pair_bit(uint64_t word, uint32_t k)
{
    return k < 6 ? low_bit[k] : -(word >> (k - 6) & 1);
}

static void set_variable(uint64_t *values, uint32_t v, uint64_t value)
{
    values[2 * v] = value;
    values[2 * v + 1] = ~value;
}

/* The value of every literal; inverses are kept too, so that a gate is one AND. */
static void simulate(uint32_t i, uint32_t a, const uint32_t *gates, const uint64_t *inputs, uint64_t *values)
{
    set_variable(values, 0, 0);
    for (uint32_t v = 1; v <= i; v++)
        set_variable(values, v, inputs[v - 1]);
    for (uint32_t k = 0; k < a; k++)
        set_variable(values, i + 1 + k, values[gates[2 * k]] & values[gates[2 * k + 1]]);
}

/*
 * Adds a row for each bit of y to the l bits of the wanted word with ripple
 * carry; a signed top row is taken away.
 */
static void add_product(uint32_t kind, uint32_t n, uint32_t l, const uint64_t *x, const uint64_t *y, uint64_t *wanted)
{
    int is_signed = kind == SIGNED || kind == SIGNED_ADDING;
    for (uint32_t j = 0; j < n; j++) {
        /* Where no pair of the word has the bit, its row is 0. From n = 6 on that is so in half of the words. */
        if (!y[j])
            continue;
        uint64_t flip = is_signed && j == n - 1 ? ~UINT64_C(0) : 0, carry = flip;
        uint32_t top = kind == PLAIN ? j + n : l;
        for (uint32_t place = j; place < top; place++) {
            /* A signed operand goes on with its top bit, a plain one with 0. */
            uint64_t above = kind == ADDING ? 0 : x[n - 1];
            uint64_t bit = ((place - j < n ? x[place - j] : above) & y[j]) ^ flip, sum = wanted[place];
            wanted[place] = sum ^ bit ^ carry;
            carry = (sum & bit) | (carry & (sum ^ bit));
        }
        /* Plain rows are added lowest first, so nothing stands above the row yet. */
        if (top < l)
            wanted[top] = carry;
    }
}

/* The l bits of the wanted word: c, or nothing, and the product. */
static void want(uint32_t kind, uint32_t n, uint32_t l, const uint64_t *inputs, uint64_t *wanted)
{
    for (uint32_t place = 0; place < l; place++)
        wanted[place] = kind < ADDING ? 0 : inputs[2 * n + place];
    add_product(kind, n, l, inputs, inputs + n, wanted);
}

/* Whether a pair in the words from first on and before past shows another word than is wanted. */
int some_pair_is_wrong(uint32_t i, uint32_t o, uint32_t a, const uint32_t *table, uint32_t kind, uint64_t first,
                       uint64_t past)
{
    uint64_t inputs[INPUTS_MOST], values[LITERALS_MOST], wanted[OUTPUTS_MOST];
    uint32_t n = kind < ADDING ? i / 2 : i / 4;
    for (uint64_t word = first; word < past; word++) {
        for (uint32_t k = 0; k < i; k++)
            inputs[k] = pair_bit(word, k);
        simulate(i, a, table + o, inputs, values);
        want(kind, n, o, inputs, wanted);
        uint64_t wrong = 0;
        for (uint32_t place = 0; place < o; place++)
            wrong |= values[table[place]] ^ wanted[place];
        if (wrong)
            return 1;
    }
    return 0;
}
