/* The calls of include/symbreak.h in plain C, for comparison: the same arguments, answers, refusals and places, under names that start with `plain_`. */
#ifndef PLAIN_H
#define PLAIN_H

#include "symbreak.h"

__typeof__(symbreak_open) plain_open;
__typeof__(symbreak_offer) plain_offer;
__typeof__(symbreak_withdraw) plain_withdraw;
__typeof__(symbreak_figures) plain_figures;
__typeof__(symbreak_header) plain_header;
__typeof__(symbreak_clause) plain_clause;
__typeof__(symbreak_fill_in) plain_fill_in;
__typeof__(symbreak_check) plain_check;
__typeof__(symbreak_descend) plain_descend;
__typeof__(symbreak_compare) plain_compare;
__typeof__(symbreak_efficiency) plain_efficiency;

/* The same as plain_descend, by a quicker way for rows that move few variables. */
__typeof__(symbreak_descend) plain_descend_noting;

/* What program.c takes beside them: it keeps its own store, so that nobody has to test it again, and writes pages. */

/* What offers find a formula's clauses by. Those whose keys have the same high bits are in a chain, by their numbers from 1, with 0 for its end. There are many
   chains, so that few have a second clause: a step along a chain is hard for the processor to foresee. */
enum { PLAIN_SLOTS = 4 * SYMBREAK_MAX_CLAUSES };
typedef struct {
    uint16_t heads[PLAIN_SLOTS], nexts[SYMBREAK_MAX_CLAUSES];
} plain_index;

/* A key's chain, of 2^14; its last bits are a count and the same for most clauses. */
static inline size_t plain_slot(uint64_t key) { return key >> 50; }

/* Makes the index of a store, which serves until the next opening, and tests the store on the way: refusals 20 and 21, or 0. */
uint32_t plain_make_index(uint64_t n, uint64_t m, uint64_t rows, uint64_t is_open, const uint16_t *literals, size_t literals_len, const uint16_t *ends,
                          size_t ends_len, const uint64_t *keys, size_t keys_len, const uint16_t *images, size_t images_len, plain_index *index);

/* An offer to an open store known to be well formed, with its index: refusals 22, 7 to 10, 31, 11, 23. */
symbreak_stored plain_offer_indexed(uint64_t n, uint64_t m, uint64_t rows, uint64_t is_open, const uint16_t *literals, size_t literals_len,
                                    const uint16_t *ends, size_t ends_len, const uint64_t *keys, size_t keys_len, uint16_t *images, size_t images_len,
                                    const uint8_t *names, size_t names_len, const uint8_t *values, size_t values_len, const plain_index *index);

/* Which variables of a row of n codes are x1 .. xk: all but, of each cycle round which the sign is turned an even number of times, the largest. For v from 1 to
   n, is_x[v] is 1 where v is one of them and 0 otherwise. Gives k, or -1 for a row that is badly formed. */
int plain_cycles(const uint16_t *row, uint64_t n, uint8_t is_x[SYMBREAK_MAX_VARIABLES + 1]);

/* The auxiliaries and the clauses of a row with x1 .. xk. */
static inline unsigned plain_auxiliaries(int k) { return k ? (unsigned)k - 1 : 0; }
static inline unsigned plain_clauses(int k) { return k == 1 ? 1 : 6 * plain_auxiliaries(k); }

/* The literal of a code. */
static inline int plain_literal(unsigned code) { return code % 2 ? -(int)(code / 2) : (int)(code / 2); }

/* Clause r, from 1 to 6, of auxiliary j: x and y are xj and yj, p and q the next pair, e is ej. Gives the count of its literals, 2 to 4. Clause 1 of j = 1 is
   also the clause of a row with x1 alone. */
static inline int plain_added(int j, int r, int x, int y, int p, int q, int e, int literal[4])
{
    int k = 0;
    switch (r) {
    case 1:
        literal[k++] = j == 1 ? -x : -e;
        literal[k++] = j == 1 ? y : e - 1;
        return k;
    case 2: literal[k++] = -e, literal[k++] = -x, literal[k++] = y; return k;
    case 3: literal[k++] = -e, literal[k++] = x, literal[k++] = -y; return k;
    case 6: literal[k++] = -e, literal[k++] = -p, literal[k++] = q; return k;
    }
    literal[k++] = e;
    if (j > 1) literal[k++] = 1 - e;
    literal[k++] = r == 4 ? x : -x;
    literal[k++] = r == 4 ? y : -y;
    return k;
}

/* The digits of a number, at most six. */
static inline unsigned plain_digits(unsigned v) { return v < 10 ? 1 : v < 100 ? 2 : v < 1000 ? 3 : v < 10000 ? 4 : v < 100000 ? 5 : 6; }

/* Writes a literal and the byte after it; gives the end. */
static inline uint8_t *plain_put(uint8_t *to, int literal, uint8_t after)
{
    unsigned v = literal < 0 ? 0u - (unsigned)literal : (unsigned)literal;
    int k = (int)plain_digits(v);
    if (literal < 0) *to++ = '-';
    to[k] = after;
    for (int i = k - 1; i >= 0; i--, v /= 10) to[i] = (uint8_t)('0' + v % 10);
    return to + k + 1;
}

#endif
