/* The library's calls against those of plain.c, job by job. Both must first give the same answers and leave the same bytes.
 *
 *   calls time           a line for each job: its name, the library's best processor time and plain C's, in nanoseconds
 *   calls count          runs each job once with the library and once with plain C, each in one call of `turn`, for callgrind
 *   calls growth         the same with the library alone, for the jobs and sizes of the table of growth; prints call, n, m, rows and what to divide by
 */
#define _POSIX_C_SOURCE 200809L
#include <stdio.h>
#include <stdlib.h>
#include <string.h>
#include <time.h>

#include "pages.h"

enum { MAX_N = SYMBREAK_MAX_VARIABLES, MAX_L = SYMBREAK_MAX_LITERALS, MAX_ROWS = SYMBREAK_MAX_ROWS, MAX_LINE = 7 * MAX_L + 2, OFFERS = 40 };

typedef struct {
    __typeof__(symbreak_open) *open;
    __typeof__(symbreak_offer) *offer;
    __typeof__(symbreak_withdraw) *withdraw;
    __typeof__(symbreak_figures) *figures;
    __typeof__(symbreak_header) *header;
    __typeof__(symbreak_clause) *clause;
    __typeof__(symbreak_fill_in) *fill_in;
    __typeof__(symbreak_check) *check;
    __typeof__(symbreak_descend) *descend, *descend_noting;
    __typeof__(symbreak_compare) *compare;
    __typeof__(symbreak_efficiency) *efficiency;
} calls;

#define CALLS(prefix, noting) \
    { \
        prefix##_open, prefix##_offer, prefix##_withdraw, prefix##_figures, prefix##_header, prefix##_clause, prefix##_fill_in, prefix##_check, \
            prefix##_descend, noting, prefix##_compare, prefix##_efficiency \
    }
static const calls library = CALLS(symbreak, symbreak_descend), plain = CALLS(plain, plain_descend_noting);

/* All that is lent, the last answer and the sum of all. */
static struct world {
    uint64_t n, m, rows;
    uint16_t literals[MAX_L], ends[SYMBREAK_MAX_CLAUSES], images[MAX_ROWS * MAX_N];
    uint64_t keys[SYMBREAK_MAX_CLAUSES];
    uint64_t a[SYMBREAK_MAX_WORDS], b[SYMBREAK_MAX_WORDS]; /* assignments: the job's own, and room for one */
    uint8_t out[MAX_LINE];
    uint64_t last[6], said; /* last: the refusal, its place, and the value, moves, rows or bytes; then what else was answered */
} w;
static uint8_t text[1 << 18], names[1 << 12], values[OFFERS][1 << 12]; /* a line of values for each offer; most jobs make one */
static size_t text_len, names_len, values_len[OFFERS];
static uint64_t step, last; /* of the clauses written: from one to the next, and the last */
static uint64_t auxiliaries; /* of the full rows, as said where they are made */
static uint64_t told; /* the bytes of the whole text */

#define SLICE(array) array, sizeof(array) / sizeof *(array)
#define STORE w.n, w.m, w.rows, 1, SLICE(w.literals), SLICE(w.ends), SLICE(w.keys), SLICE(w.images)

static void say(const uint64_t x[6])
{
    memcpy(w.last, x, sizeof w.last);
    for (int i = 0; i < 6; i++) w.said = w.said * 31 + x[i];
}

static void say_answer(symbreak_answer x) { say((uint64_t[6]){x.refusal, x.place, x.value}); }
static void say_stored(symbreak_stored x) { say((uint64_t[6]){x.refusal, x.place, x.rows, x.variables, x.clauses, x.is_open}); }
static void say_sizes(symbreak_sizes x) { say((uint64_t[6]){x.refusal, x.place, x.bytes, x.variables, x.clauses, x.literals}); }
static void say_descent(symbreak_descent x) { say((uint64_t[6]){x.refusal, x.place, x.moves, x.settled}); }

/* What the jobs do. */

static void open(const calls *c) { say_stored(c->open(0, 0, 0, 0, text, text_len, SLICE(w.literals), SLICE(w.ends), SLICE(w.keys))); }
static void offer(const calls *c) { say_stored(c->offer(STORE, names, names_len, values[0], values_len[0])); }

/* All offers, one after another, from no row on. */
static void start_up(const calls *c)
{
    w.rows = 0;
    for (int k = 0; k < OFFERS; k++) {
        symbreak_stored held = c->offer(STORE, names, names_len, values[k], values_len[k]);
        say_stored(held);
        w.rows = held.rows;
    }
}

static void withdraw(const calls *c) { say_stored(c->withdraw(STORE)); }

static void figures(const calls *c) { say_sizes(c->figures(STORE)); }

/* A page is dropped, but the compiler has to take it for used. */
static void take(const uint8_t *bytes, size_t length)
{
    __asm__ volatile("" ::"r"(bytes) : "memory");
    told += length;
}

/* The bytes alone, which plain C counts as it writes the text. */
static void figures_or_text(const calls *c)
{
    told = 0;
    if (c == &plain) print_all(w.n, w.m, w.rows, w.literals, w.ends, w.images);
    else told = c->figures(STORE).bytes;
    say((uint64_t[6]){0, 0, told});
}

static void header(const calls *c) { say_answer(c->header(STORE, SLICE(w.out))); }

/* One line behind the other. */
static void write(const calls *c)
{
    symbreak_answer line = c->header(STORE, SLICE(w.out));
    size_t used = line.value;
    for (uint64_t q = 1; q <= last; q += step) {
        line = c->clause(STORE, q, w.out + used, sizeof w.out - used);
        say_answer(line);
        used += line.value;
    }
}

static void clause(const calls *c) { say_answer(c->clause(STORE, last, SLICE(w.out))); }
static void fill_in(const calls *c) { say_answer(c->fill_in(STORE, w.a, (w.n + 63) / 64, SLICE(w.b))); }
static void check(const calls *c) { say_answer(c->check(STORE, w.b, (w.n + auxiliaries + 63) / 64)); }

static void descend_by(__typeof__(symbreak_descend) *call)
{
    memcpy(w.b, w.a, sizeof(uint64_t) * (MAX_N / 64));
    say_descent(call(STORE, w.b, (w.n + 63) / 64, UINT64_MAX));
}

static void descend(const calls *c) { descend_by(c->descend); }
static void descend_noting(const calls *c) { descend_by(c->descend_noting); }

static void compare(const calls *c) { say_answer(c->compare(SLICE(w.a), SLICE(w.b))); }

/* Three words each are the counts of a figure. */
static void efficiency(const calls *c)
{
    symbreak_answer figure = {0};
    for (size_t i = 0; i < SYMBREAK_MAX_WORDS; i += 3) {
        figure = c->efficiency(w.a[i], w.a[i + 1], w.a[i + 2]);
        w.said += figure.value;
    }
    say_answer(figure);
}

/* What they do it to. */

static uint64_t state;
static unsigned turning; /* whether a shift by one turns the sign as well, and so every shift by an odd number */

static unsigned chance(unsigned below)
{
    state = state * 6364136223846793005u + 1442695040888963407u;
    return (unsigned)((state >> 33) % below);
}

static unsigned shifted(unsigned code, unsigned by) { return (code / 2 - 1 + by) % (unsigned)w.n * 2 + 2 + (code + by * turning) % 2; }

static void set(uint64_t *a, unsigned i) { a[i / 64] |= 1ull << (63 - i % 64); }

/* With a remark above each clause, as an editor writes it, or without. */
static void write_text(int remarks)
{
    uint8_t *end = text + sprintf((char *)text, "p cnf %d %d\n", (int)w.n, (int)w.m);
    for (unsigned c = 0, i = 0; c < w.m; c++) {
        if (remarks) end += sprintf((char *)end, "c bracket %u, seat %u\n", c / 8, c % 8);
        for (; i < w.ends[c]; i++) end = plain_put(end, plain_literal(w.literals[i]), ' ');
        end = plain_put(end, 0, '\n');
    }
    text_len = (size_t)(end - text);
}

/* Opens the formula as it stands: that writes its keys, and the literals and ends that are there. */
static void write_keys(void)
{
    write_text(0);
    plain_open(0, 0, 0, 0, text, text_len, SLICE(w.literals), SLICE(w.ends), SLICE(w.keys));
}

/* m clauses of three literals, closed under the shift of all variables by one, in any order: m / n of them, drawn by chance, with all their shifts. Two
   literals of one sign stand for variables with a distance of 2 modulo 4, so that the assignment 00110011.. makes every clause true. */
static void closed_formula(unsigned n, unsigned m)
{
    unsigned drawn[3] = {0};
    memset(&w, 0, sizeof w);
    w.n = n;
    w.m = m;
    state = 1;
    for (unsigned c = 0; c < m; c++) {
        if (c % n == 0) {
            unsigned first = chance(n), sign = chance(2);
            drawn[0] = 2 * (first + 1) + sign;
            drawn[1] = shifted(drawn[0], 4 * chance(n / 4) + 2);
            drawn[2] = 2 * ((first + 4 * chance(n / 4) + 1) % n + 1) + chance(2);
        }
        for (unsigned i = 0, turn = chance(3); i < 3; i++) w.literals[3 * c + i] = (uint16_t)shifted(drawn[(i + turn) % 3], c % n);
        w.ends[c] = (uint16_t)(3 * (c + 1));
    }
    for (unsigned c = m; c > 1; c--) {
        unsigned other = chance(c);
        for (unsigned i = 0; i < 3; i++) {
            uint16_t kept = w.literals[3 * other + i];
            w.literals[3 * other + i] = w.literals[3 * (c - 1) + i];
            w.literals[3 * (c - 1) + i] = kept;
        }
    }
    for (unsigned i = 0; i < n; i++)
        if (i % 4 >= 2) set(w.a, i);
    write_keys();
}

static unsigned common_divisor(unsigned a, unsigned b) { return b ? common_divisor(b, a % b) : a; }

/* Rows that move all variables and leave the assignment 00110011.. as it is: shifts by 4, 8, .. A shift has as many cycles as its greatest common divisor with
   n, and each leaves one variable out. */
static void full_rows(unsigned rows)
{
    w.rows = rows;
    auxiliaries = 0;
    for (unsigned r = 0; r < rows; r++) {
        for (unsigned i = 0; i < w.n; i++) w.images[r * w.n + i] = (uint16_t)shifted(2 * (i + 1), 4 * (r + 1));
        auxiliaries += w.n - common_divisor((unsigned)w.n, 4 * (r + 1)) - 1;
    }
}

/* The same, but that every other variable is shifted two less, to a negation: these are one cycle, which turns the sign n / 2 times and leaves one out, and the
   others half as many cycles as before. */
static void full_turning_rows(unsigned rows)
{
    w.rows = rows;
    auxiliaries = 0;
    for (unsigned r = 0; r < rows; r++) {
        for (unsigned i = 0; i < w.n; i++) w.images[r * w.n + i] = (uint16_t)shifted(2 * (i + 1) + i % 2, 4 * (r + 1) - 2 * (i % 2));
        auxiliaries += w.n - common_divisor((unsigned)w.n, 4 * (r + 1)) / 2 - 2;
    }
}

/* Offers of the shifts by one, by two and so on. */
static void write_offers(unsigned count)
{
    uint8_t *name = names;
    for (unsigned i = 1; i <= w.n; i++) name = plain_put(name, (int)i, ' ');
    names_len = (size_t)(name - names);
    for (unsigned k = 0; k < count; k++) {
        uint8_t *value = values[k];
        for (unsigned i = 1; i <= w.n; i++) value = plain_put(value, plain_literal(shifted(2 * i, k + 1)), ' ');
        values_len[k] = (size_t)(value - values[k]);
    }
}

/* Whether clause d is clause c shifted by one. */
static int is_shifted(unsigned c, unsigned d)
{
    unsigned found = 0;
    for (unsigned i = 0; i < 3; i++)
        for (unsigned j = 0; j < 3; j++) found += shifted(w.literals[3 * c + i], 1) == w.literals[3 * d + j];
    return found == 3;
}

/* Puts a copy of another clause in place of clause c shifted by one, so that the image of c, and no other, is missing. */
static void spoil(unsigned c)
{
    unsigned other = c ? 0 : 1;
    for (unsigned d = 0; d < w.m; d++) {
        if (!is_shifted(c, d)) continue;
        if (d == other) other++, other += other == c;
        memcpy(w.literals + 3 * d, w.literals + 3 * other, 3 * sizeof *w.literals);
    }
    write_keys();
}

/* m clauses of three literals that hold a contradictory pair, of an even variable, so that the shift by one sends none of them to another. */
static void to_offer_pairs(unsigned n, unsigned m, unsigned rows)
{
    closed_formula(n, 0), full_rows(rows - 1), write_offers(1);
    w.m = m;
    for (unsigned c = 0; c < m; c++) {
        unsigned even = 4 * (c % (n / 2) + 1);
        memcpy(w.literals + 3 * c, (uint16_t[]){(uint16_t)shifted(even, c / (n / 2) + 1), (uint16_t)even, (uint16_t)(even + 1)}, 3 * sizeof *w.literals);
        w.ends[c] = (uint16_t)(3 * (c + 1));
    }
    write_keys();
}

/* The longest clause, a contradictory pair at its end and not before, whose image is missing. */
static void to_offer_long_pair(unsigned n, unsigned m, unsigned rows)
{
    closed_formula(n, 0), full_rows(rows - 1), write_offers(1);
    w.m = m;
    for (unsigned i = 0; i < MAX_L; i++) w.literals[i] = (uint16_t)(2 * (i % (n / 2)) + 2);
    w.literals[MAX_L - 2] = (uint16_t)(2 * n);
    w.literals[MAX_L - 1] = (uint16_t)(2 * n + 1);
    w.ends[0] = MAX_L;
    write_keys();
}

static void to_open(unsigned n, unsigned m, unsigned rows) { closed_formula(n, m), full_rows(rows), write_text(0), memset(&w, 0, sizeof w); }
static void to_open_remarked(unsigned n, unsigned m, unsigned rows) { closed_formula(n, m), full_rows(rows), write_text(1), memset(&w, 0, sizeof w); }
static void to_offer(unsigned n, unsigned m, unsigned rows) { closed_formula(n, m), full_rows(rows - 1), write_offers(1); }
static void to_offer_turning(unsigned n, unsigned m, unsigned rows) { turning = 1, to_offer(n, m, rows), turning = 0; }
static void to_refuse_last(unsigned n, unsigned m, unsigned rows) { to_offer(n, m, rows), spoil(m - 1); }
static void to_refuse_first(unsigned n, unsigned m, unsigned rows) { to_offer(n, m, rows), spoil(0); }
static void to_refuse_idle(unsigned n, unsigned m, unsigned rows) { to_offer(n, m, rows), memcpy(values[0], names, names_len), values_len[0] = names_len; }
static void to_start_up(unsigned n, unsigned m, unsigned rows) { closed_formula(n, m), write_offers(rows); }
static void to_check(unsigned n, unsigned m, unsigned rows) { closed_formula(n, m), full_rows(rows), fill_in(&plain), w.said = 0; }
static void to_check_turning(unsigned n, unsigned m, unsigned rows) { closed_formula(n, m), full_turning_rows(rows), fill_in(&plain), w.said = 0; }

static void to_write(unsigned n, unsigned m, unsigned rows)
{
    closed_formula(n, m);
    full_rows(rows);
    step = rows > 1 ? 500 : 1;
    last = m + 6 * auxiliaries;
}

/* One clause of as many literals as there can be, and nothing else. */
static void to_write_long(unsigned n, unsigned m, unsigned rows)
{
    closed_formula(n, 0);
    w.m = m;
    w.rows = rows;
    w.ends[0] = MAX_L;
    last = m;
    for (unsigned i = 0; i < MAX_L; i++) w.literals[i] = (uint16_t)(2 + chance(2 * n));
    write_keys();
}

static void unmoved_rows(unsigned n, unsigned rows)
{
    memset(&w, 0, sizeof w);
    w.n = n;
    w.rows = rows;
    for (unsigned r = 0; r < rows; r++)
        for (unsigned i = 0; i < n; i++) w.images[r * n + i] = (uint16_t)(2 * (i + 1));
}

/* Each row exchanges a variable and the next; of the variables exchanged, the first half are true. They are sorted like bubbles. */
static void to_exchange(unsigned n, unsigned m, unsigned rows)
{
    (void)m;
    unmoved_rows(n, rows);
    for (unsigned r = 0; r < rows; r++) {
        w.images[r * n + r] = (uint16_t)(2 * (r + 2));
        w.images[r * n + r + 1] = (uint16_t)(2 * (r + 1));
    }
    for (unsigned i = 0; i < (rows + 1) / 2; i++) set(w.a, i);
}

/* A counter of n / 8 digits: a digit is eight variables with one true, and counts down as that goes to the right. Row r counts digit r down (the last variables
   are digit 0) and turns those to the right of it back to 7, if they are 0. From 7777 that makes 8^4 - 1 moves. */
static void to_count(unsigned n, unsigned m, unsigned rows)
{
    (void)m;
    unmoved_rows(n, rows);
    for (unsigned d = 0; d < n / 8; d++) {
        unsigned first = n - 8 * (d + 1);
        set(w.a, first + (d < 4 ? 0 : 7));
        for (unsigned r = d; r < rows; r++)
            for (unsigned i = 0; i < 8; i++) w.images[r * n + first + i] = (uint16_t)(2 * (first + (i + 7) % 8 + 1));
    }
}

/* Row r turns the signs of the last r + 1 variables, which makes an assignment smaller where the first of these is true: the rows count down in binary. From
   the last twelve true that makes 2^12 - 1 moves. */
static void to_turn(unsigned n, unsigned m, unsigned rows)
{
    (void)m;
    unmoved_rows(n, rows);
    for (unsigned r = 0; r < rows; r++)
        for (unsigned i = n - r; i <= n; i++) w.images[r * n + i - 1] = (uint16_t)(2 * i + 1);
    for (unsigned i = n - 12; i < n; i++) set(w.a, i);
}

static void to_write_turning(unsigned n, unsigned m, unsigned rows)
{
    to_turn(n, m, rows);
    step = 30;
    last = 1 + 6 * (rows * (rows - 1) / 2); /* each variable turned is a cycle of its own, and none is left out; the first row has one and so one clause */
}

/* One true variable, number `rows`. Row r shifts all to the left by r + 1, which is no smaller, but the last row to the right by one: n - rows moves, at each of
   which all rows are tried. */
static void to_shift(unsigned n, unsigned m, unsigned rows)
{
    (void)m;
    unmoved_rows(n, rows);
    set(w.a, rows - 1);
    for (unsigned r = 0; r < rows; r++)
        for (unsigned i = 0; i < n; i++) w.images[r * n + i] = (uint16_t)(2 * ((i + (r + 1 < rows ? r + 1 : n - 1)) % n + 1));
}

static void to_compare(unsigned n, unsigned m, unsigned rows)
{
    closed_formula(n, m);
    full_rows(rows);
    fill_in(&plain);
    memcpy(w.a, w.b, sizeof w.a);
    w.b[SYMBREAK_MAX_WORDS - 1] ^= 1;
    w.said = 0;
}

/* Counts by chance, below 10^12, and document 02's exact half last. */
static void to_figure(unsigned n, unsigned m, unsigned rows)
{
    (void)n, (void)m, (void)rows;
    memset(&w, 0, sizeof w);
    state = 1;
    for (size_t i = 0; i < SYMBREAK_MAX_WORDS; i += 3) {
        w.a[i + 1] = chance(1000000);
        w.a[i + 2] = w.a[i + 1] + chance(1000000);
        w.a[i] = w.a[i + 2] + 1 + 900000ull * chance(1000000);
    }
    memcpy(w.a + SYMBREAK_MAX_WORDS - 3, (uint64_t[]){20001, 1, 19998}, 3 * sizeof *w.a);
}

typedef struct {
    const char *name;
    void (*prepare)(unsigned n, unsigned m, unsigned rows);
    void (*run)(const calls *c);
    unsigned n, m, rows;
    uint64_t refusal, number; /* what the last call must answer: a refusal and its place, or 0 and the value, moves, rows or bytes */
} job;

#define ANY UINT64_MAX

static const job jobs[] = {
    {"open: 512 variables, 4,096 clauses, 12,288 literals", to_open, open, 512, 4096, 0, 0, 0},
    {"open the same with a remark above each clause", to_open_remarked, open, 512, 4096, 0, 0, 0},
    {"offer accepted, the same formula, row 64", to_offer, offer, 512, 4096, 64, 0, 64},
    {"offer accepted that turns every sign, row 64", to_offer_turning, offer, 512, 4096, 64, 0, 64},
    {"offer refused at clause 4,096", to_refuse_last, offer, 512, 4096, 64, SYMBREAK_NO_SYMMETRY, 4096},
    {"offer refused at clause 1", to_refuse_first, offer, 512, 4096, 64, SYMBREAK_NO_SYMMETRY, 1},
    {"offer refused, every value equals its name", to_refuse_idle, offer, 512, 4096, 64, SYMBREAK_MOVES_NOTHING, 0},
    {"offer accepted, 4,096 clauses with a contradictory pair whose images are missing, row 64", to_offer_pairs, offer, 512, 4096, 64, 0, 64},
    {"offer accepted, one such clause of 12,288 literals, row 64", to_offer_long_pair, offer, 512, 1, 64, 0, 64},
    {"start-up: forty offers accepted, the same formula, rows 1 to 40", to_start_up, start_up, 512, 4096, OFFERS, 0, OFFERS},
    {"withdraw, the same formula, 64 full rows", to_write, withdraw, 512, 4096, 64, 0, 63},
    {"figures, the same formula, 64 full rows", to_write, figures, 512, 4096, 64, 0, 3607216},
    {"the same against C that writes all 194,177 lines into memory by pages", to_write, figures_or_text, 512, 4096, 64, 0, 3607216},
    {"figures, 64 rows that turn 1 to 64 signs", to_turn, figures, 512, 0, 64, 0, 214692},
    {"header, the same formula, 64 full rows", to_write, header, 512, 4096, 64, 0, 19},
    {"header and every 500th clause of 194,176, 64 full rows", to_write, write, 512, 4096, 64, 0, 25},
    {"header and 3,042 clauses, 1 full row, no plain clauses", to_write, write, 512, 0, 1, 0, 17},
    {"header and every 30th clause of 12,097, 64 rows that turn 1 to 64 signs", to_write_turning, write, 512, 0, 64, 0, 18},
    {"one clause of 12,288 literals, no rows", to_write_long, clause, 512, 1, 0, 0, 52701},
    {"fill in, 64 full rows", to_write, fill_in, 512, 4096, 64, 0, 503},
    {"check, 64 full rows, all clauses true", to_check, check, 512, 4096, 64, 0, 0},
    {"check, 64 full rows that turn every other sign, all clauses true", to_check_turning, check, 512, 4096, 64, 0, 0},
    {"descend, 1,056 moves, 64 exchanges of neighbours", to_exchange, descend, 512, 0, 64, 0, 1056},
    {"the same against C that notes what rows move", to_exchange, descend_noting, 512, 0, 64, 0, 1056},
    {"descend, 4,095 moves, a counter of 64 rows", to_count, descend, 512, 0, 64, 0, 4095},
    {"the same against C that notes what rows move", to_count, descend_noting, 512, 0, 64, 0, 4095},
    {"descend, 4,095 moves, 64 rows that turn 1 to 64 signs", to_turn, descend, 512, 0, 64, 0, 4095},
    {"the same against C that notes what rows move", to_turn, descend_noting, 512, 0, 64, 0, 4095},
    {"descend, 448 moves, 64 full rows", to_shift, descend, 512, 0, 64, 0, 448},
    {"the same against C that notes what rows move", to_shift, descend_noting, 512, 0, 64, 0, 448},
    {"compare 519 words, alike but for the last bit", to_compare, compare, 512, 4096, 64, 0, 64 * 519},
    {"173 efficiencies", to_figure, efficiency, 0, 0, 0, 0, 2},
};
enum { JOBS = sizeof jobs / sizeof *jobs };

__attribute__((noinline)) void turn(const job *j, const calls *c)
{
    j->run(c);
    __asm__ volatile("" ::: "memory");
}

/* Runs a job with both, leaves it prepared, and gives the last call's value. */
static uint64_t test(const job *j, int count_plain)
{
    static struct world before, by_library;
    uint64_t value;
    j->prepare(j->n, j->m, j->rows);
    before = w;
    turn(j, &library);
    by_library = w;
    w = before;
    if (count_plain) turn(j, &plain);
    else j->run(&plain);
    if (memcmp(&w, &by_library, sizeof w)) {
        fprintf(stderr, "%s: the answers or the bytes left differ\n", j->name);
        exit(1);
    }
    if (w.last[0] != j->refusal || (w.last[j->refusal ? 1 : 2] != j->number && j->number != ANY)) {
        fprintf(stderr, "%s: refusal %d, place %d, value %d\n", j->name, (int)w.last[0], (int)w.last[1], (int)w.last[2]);
        exit(1);
    }
    value = w.last[2];
    w = before;
    return value;
}

static double taken(const job *j, const calls *c, unsigned times)
{
    struct timespec begin, end;
    clock_gettime(CLOCK_PROCESS_CPUTIME_ID, &begin);
    for (unsigned i = 0; i < times; i++) turn(j, c);
    clock_gettime(CLOCK_PROCESS_CPUTIME_ID, &end);
    return ((double)(end.tv_sec - begin.tv_sec) * 1e9 + (double)(end.tv_nsec - begin.tv_nsec)) / times;
}

/* The best of many turns, alternating. All jobs go round several times, so that no job has all its turns while the machine is busy. */
static void time_jobs(void)
{
    enum { ROUNDS = 5, TURNS = 5 };
    static const double ENOUGH = 6e8, SHORT = 1e6; /* nanoseconds: of a job in a round, with TURNS turns or more; of a turn, in which a short job is repeated */
    const calls *const sides[2] = {&library, &plain};
    double best[JOBS][2];
    for (int round = 0; round < ROUNDS; round++) {
        for (size_t k = 0; k < JOBS; k++) {
            double spent = 0;
            unsigned times[2];
            test(&jobs[k], 1);
            for (int s = 0; s < 2; s++) {
                double once = taken(&jobs[k], sides[s], 1);
                times[s] = once < SHORT ? (unsigned)(SHORT / once) + 1 : 1;
                if (round == 0) best[k][s] = once;
            }
            for (int i = 0; i < TURNS || spent < ENOUGH; i++) {
                for (int s = 0; s < 2; s++) {
                    double t = taken(&jobs[k], sides[s], times[s]);
                    spent += t * times[s];
                    if (t < best[k][s]) best[k][s] = t;
                }
            }
        }
    }
    for (size_t k = 0; k < JOBS; k++) printf("%s\t%.0f\t%.0f\n", jobs[k].name, best[k][0], best[k][1]);
}

/* The growth of each call: each size doubles one number of the size before. */
static void growth(void)
{
    static const unsigned sizes[][3] = {{128, 1024, 16}, {256, 1024, 16}, {256, 2048, 16}, {256, 2048, 32}, {512, 2048, 32}, {512, 4096, 32}, {512, 4096, 64}};
    for (size_t s = 0; s < sizeof sizes / sizeof *sizes; s++) {
        unsigned n = sizes[s][0], m = sizes[s][1], rows = sizes[s][2];
        const job grown[] = {
            {"open", to_open, open, n, m, rows, 0, ANY},
            {"offer accepted", to_offer, offer, n, m, rows, 0, rows},
            {"last clause", to_write, clause, n, m, rows, 0, ANY},
            {"fill in", to_write, fill_in, n, m, rows, 0, ANY},
            {"check", to_check, check, n, m, rows, 0, 0},
            {"descend, per move", to_exchange, descend, n, m, rows, 0, ANY},
        };
        for (size_t k = 0; k < sizeof grown / sizeof *grown; k++) {
            uint64_t value = test(&grown[k], 0);
            printf("%s\t%u\t%u\t%u\t%d\n", grown[k].name, n, m, rows, grown[k].run == descend ? (int)value : 1);
        }
    }
}

int main(int count, char **words)
{
    const char *what = count == 2 ? words[1] : "";
    if (!strcmp(what, "time")) {
        time_jobs();
    } else if (!strcmp(what, "count")) {
        for (size_t k = 0; k < JOBS; k++) test(&jobs[k], 1);
    } else if (!strcmp(what, "growth")) {
        growth();
    } else {
        fprintf(stderr, "calls time | count | growth\n");
        return 2;
    }
    return 0;
}
