/* The made formula of a store known to be well formed, written by pages, not by clause calls: for program.c, and for calls.c, where figures are compared with
   the writing. */
#ifndef PAGES_H
#define PAGES_H

#include <stdio.h>

#include "plain.h"

static uint8_t page[1 << 16], *page_end = page;

/* What becomes of a page when it is full, and of the last one: whoever includes this says so. */
static void take(const uint8_t *bytes, size_t length);

static void flush(void)
{
    take(page, (size_t)(page_end - page));
    page_end = page;
}

static void put(int literal)
{
    if (page_end + 16 > page + sizeof page) flush();
    page_end = plain_put(page_end, literal, literal ? ' ' : '\n');
}

static inline void print(int j, int r, int x, int y, int p, int q, int e)
{
    int literal[4], count = plain_added(j, r, x, y, p, q, e, literal);
    for (int i = 0; i < count; i++) put(literal[i]);
    put(0);
}

static void print_row(const uint16_t *row, const uint8_t *is_x, int n, int *last)
{
    int x[SYMBREAK_MAX_VARIABLES], k = 0;
    for (int i = 1; i <= n; i++)
        if (is_x[i]) x[k++] = i;
    if (k == 1) print(1, 1, x[0], plain_literal(row[x[0] - 1]), 0, 0, 0);
    for (int j = 1; j < k; j++) {
        int u = x[j - 1], v = plain_literal(row[u - 1]), p = x[j], q = plain_literal(row[p - 1]), e = *last + j;
        /* six calls and no loop, so that each is compiled for its r */
        print(j, 1, u, v, p, q, e);
        print(j, 2, u, v, p, q, e);
        print(j, 3, u, v, p, q, e);
        print(j, 4, u, v, p, q, e);
        print(j, 5, u, v, p, q, e);
        print(j, 6, u, v, p, q, e);
    }
    if (k) *last += k - 1;
}

static void print_all(uint64_t variables, uint64_t clauses, uint64_t rows, const uint16_t *literals, const uint16_t *ends, const uint16_t *images)
{
    static uint8_t is_x[SYMBREAK_MAX_ROWS][SYMBREAK_MAX_VARIABLES + 1];
    int n = (int)variables, m = (int)clauses, auxiliaries = 0, added = 0, last = n;
    for (size_t r = 0; r < rows; r++) {
        int k = plain_cycles(images + r * variables, variables, is_x[r]);
        auxiliaries += (int)plain_auxiliaries(k);
        added += (int)plain_clauses(k);
    }
    page_end += sprintf((char *)page, "p cnf %d %d\n", n + auxiliaries, m + added);
    for (int c = 0, i = 0; c < m; c++) {
        for (; i < ends[c]; i++) put(plain_literal(literals[i]));
        put(0);
    }
    for (size_t r = 0; r < rows; r++) print_row(images + r * variables, is_x[r], n, &last);
    flush();
}

#endif
