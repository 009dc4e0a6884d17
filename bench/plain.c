/* The calls of include/symbreak.h in plain C, as a C programmer would write them: documents 01 and 02 say what they do, and nothing here is proved. Like the
   library they keep nothing between calls and allocate nothing; what they need beside the lent slices is on the stack, at most 64 KB. */
#define _GNU_SOURCE /* memrchr */
#include "plain.h"

#include <string.h>

#include "numbers.h"

enum { MAX_N = SYMBREAK_MAX_VARIABLES, MAX_M = SYMBREAK_MAX_CLAUSES, MAX_L = SYMBREAK_MAX_LITERALS, MAX_ROWS = SYMBREAK_MAX_ROWS };
enum { CODES = 2 * MAX_N + 2 }; /* codes are below this */

/* The store as the calls are lent it. */
#define RECORD uint64_t n, uint64_t m, uint64_t rows, uint64_t is_open
#define FORMULA const uint16_t *literals, size_t literals_len, const uint16_t *ends, size_t ends_len, const uint64_t *keys, size_t keys_len
#define IMAGES const uint16_t *images, size_t images_len
#define LENT_FORMULA n, m, rows, is_open, literals, literals_len, ends, ends_len, keys, keys_len
#define LENT LENT_FORMULA, images, images_len

/* From a call that may change the store: with the record as it was lent. */
#define REFUSE(number, where) return (symbreak_stored){number, where, n, m, rows, is_open != 0}

static symbreak_answer answer(uint64_t value) { return (symbreak_answer){0, 0, value}; }
static symbreak_answer refused(uint32_t refusal, uint64_t place) { return (symbreak_answer){refusal, place, 0}; }

/* Refusal 20, or 21 for all but the rows, or 0; an index that is lent is made. A clause's literals are marked with its number, so that one that comes twice
   counts once and marks need not be cleared between clauses. */
static inline __attribute__((always_inline)) uint32_t tested(RECORD, FORMULA, size_t images_len, plain_index *index)
{
    uint16_t marks[CODES] = {0};
    size_t i = 0;
    if (!is_open) return SYMBREAK_NOT_OPEN;
    if (n > MAX_N || m > MAX_M || rows > MAX_ROWS || ends_len < m || keys_len < m || images_len < rows * n) return SYMBREAK_BADLY_FORMED;
    if (literals_len > MAX_L) literals_len = MAX_L;
    if (index) memset(index->heads, 0, sizeof index->heads);
    for (size_t c = 0; c < m; c++) {
        uint16_t number = (uint16_t)(c + 1);
        uint64_t key = 0;
        size_t end = ends[c];
        if (end < i || end > literals_len) return SYMBREAK_BADLY_FORMED;
        for (; i < end; i++) {
            size_t code = literals[i];
            if (code - 2 >= 2 * n) return SYMBREAK_BADLY_FORMED;
            if (marks[code] == number) continue;
            marks[code] = number;
            key += numbers[code - 2];
        }
        if (keys[c] != key) return SYMBREAK_BADLY_FORMED;
        if (index) {
            uint16_t *head = index->heads + plain_slot(key);
            index->nexts[c] = *head;
            *head = number;
        }
    }
    return 0;
}

/* It is compiled twice: for calls that need no index, and for those that do. */
static uint32_t formula_fault(RECORD, FORMULA, size_t images_len) { return tested(LENT_FORMULA, images_len, 0); }

/* Refusal 21 for the rows, or 0. A row is well formed if no variable comes twice, of either sign: seen has, for each variable, how many rows had it, so that it
   need not be cleared between rows; 0 and those over n have a count that no row has. */
static uint32_t rows_fault(const uint16_t *images, uint64_t n, uint64_t rows)
{
    uint8_t seen[MAX_N + 1];
    memset(seen, 255, sizeof seen);
    memset(seen + 1, 0, n);
    for (size_t r = 0; r < rows; r++) {
        for (size_t i = 0; i < n; i++) {
            size_t v = *images++ / 2;
            if (v > MAX_N || seen[v] != r) return SYMBREAK_BADLY_FORMED;
            seen[v] = (uint8_t)(r + 1);
        }
    }
    return 0;
}

/* Refusal 20 or 21, or 0. */
static uint32_t fault(RECORD, FORMULA, IMAGES)
{
    uint32_t refusal = formula_fault(LENT_FORMULA, images_len);
    return refusal ? refusal : rows_fault(images, n, rows);
}

uint32_t plain_make_index(RECORD, FORMULA, IMAGES, plain_index *index)
{
    uint32_t refusal = tested(LENT_FORMULA, images_len, index);
    return refusal ? refusal : rows_fault(images, n, rows);
}

/* The digits of a code's variable. */
static const uint8_t digits[CODES] = {[2 ... 19] = 1, [20 ... 199] = 2, [200 ... CODES - 1] = 3};

/* All are left out at first, and variables are visited from the largest down. One that is still left out is the largest of its cycle, as going round from a
   larger one would have met it; going round from it meets the others. Where a row is badly formed that comes to 0, to one over n or to one met before.
   Bytes that are lent get five times the digits of each pair x, y, one sign and two spaces, and once the sign of y. A variable of a cycle is an x, and the y of
   another; but one that is left out is no x, and its image no y. */
static inline __attribute__((always_inline)) int walked(const uint16_t *row, uint64_t n, uint8_t is_x[MAX_N + 1], unsigned *bytes)
{
    int k = (int)n;
    is_x[0] = 1;
    memset(is_x + 1, 0, n);
    for (size_t v = n; v; v--) {
        if (is_x[v]) continue;
        unsigned code = row[v - 1], turns = code;
        if (code == 2 * v) {
            k--;
            continue;
        }
        for (size_t u; (u = code / 2) != v; turns ^= code) {
            if (u > n || is_x[u]) return -1;
            is_x[u] = 1;
            code = row[u - 1];
            if (bytes) *bytes += 10u * digits[2 * u] + 15 + code % 2;
        }
        is_x[v] = turns % 2;
        k -= !is_x[v];
        code = row[v - 1];
        if (bytes) *bytes += is_x[v] ? 10u * digits[2 * v] + 15 + code % 2 : 5u * digits[2 * v] - 5u * digits[code];
    }
    return k;
}

/* It is compiled twice: for calls that need no bytes, and for the one that does. */
int plain_cycles(const uint16_t *row, uint64_t n, uint8_t is_x[MAX_N + 1]) { return walked(row, n, is_x, 0); }

/* The same with the cycles of each row: is_x[r] and k[r] are those of row r. */
static uint32_t fault_noting(RECORD, FORMULA, IMAGES, uint8_t is_x[MAX_ROWS][MAX_N + 1], int k[MAX_ROWS])
{
    uint32_t refusal = formula_fault(LENT_FORMULA, images_len);
    for (size_t r = 0; r < rows && !refusal; r++, images += n)
        if ((k[r] = plain_cycles(images, n, is_x[r])) < 0) refusal = SYMBREAK_BADLY_FORMED;
    return refusal;
}

static unsigned all_auxiliaries(const int *k, uint64_t rows)
{
    unsigned sum = 0;
    for (size_t r = 0; r < rows; r++) sum += plain_auxiliaries(k[r]);
    return sum;
}

/* Reading. */

typedef struct {
    const uint8_t *text;
    size_t at, end, start; /* the text is read from at up to end; the last word began at start */
} reader;

enum { END, NUMBER, OTHER };

static int blank(uint8_t b) { return b == ' ' || b == '\t' || b == '\n'; }

static int more(reader *in)
{
    while (in->at < in->end && blank(in->text[in->at])) in->at++;
    in->start = in->at;
    return in->at < in->end;
}

/* Reads the next word, if it is a number: nobody reads on after another word, so that its end need not be found. */
static int next(reader *in, int *value)
{
    const uint8_t *p, *end = in->text + in->end, *first;
    int negative, v = 0;
    if (!more(in)) return END;
    p = in->text + in->at;
    negative = *p == '-';
    first = p += negative;
    while (p < end && p - first < 7 && (uint8_t)(*p - '0') < 10) v = v * 10 + (*p++ - '0');
    if (p == first || p - first > 6 || (p < end && !blank(*p)) || (*first == '0' && (p - first > 1 || negative))) return OTHER;
    in->at = (size_t)(p - in->text);
    *value = negative ? -v : v;
    return NUMBER;
}

static size_t line_end(const uint8_t *text, size_t at, size_t end)
{
    const uint8_t *feed = memchr(text + at, '\n', end - at);
    return feed ? (size_t)(feed - text) : end;
}

/* Reads the problem line, from in->at to in->end. */
static int problem_line(reader *in, int *n, int *m)
{
    const uint8_t *p = in->text + in->at;
    if (in->end - in->at < 2 || p[0] != 'p' || !blank(p[1])) return 0;
    in->at++;
    more(in);
    p = in->text + in->at;
    if (in->end - in->at < 4 || memcmp(p, "cnf", 3) || !blank(p[3])) return 0;
    in->at += 3;
    return next(in, n) == NUMBER && *n >= 0 && next(in, m) == NUMBER && *m >= 0 && !more(in);
}

/* A text is read once, into arrays of the call's own, since a refusal may come as late as its last word. */
symbreak_stored plain_open(RECORD, const uint8_t *text, size_t text_len, uint16_t *literals, size_t literals_len, uint16_t *ends, size_t ends_len,
                           uint64_t *keys, size_t keys_len)
{
    uint16_t codes[MAX_L], closes[MAX_M], marks[CODES] = {0};
    reader in = {text, 0, text_len, 0};
    int variables = 0, clauses = 0, closed = 0, count = 0, v, kind;
    while (in.at < text_len && text[in.at] == 'c') in.at = line_end(text, in.at, text_len) + 1;
    if (in.at >= text_len) REFUSE(SYMBREAK_NO_PROBLEM_LINE, text_len);
    size_t line = in.at;
    in.end = line_end(text, line, text_len);
    if (!problem_line(&in, &variables, &clauses)) REFUSE(SYMBREAK_NO_PROBLEM_LINE, line);
    if (variables > MAX_N || clauses > MAX_M) REFUSE(SYMBREAK_SIZE_OVER_LIMIT, line);
    in.end = text_len;
    while ((kind = next(&in, &v)) != END) {
        if (kind == OTHER && text[in.start] == 'c' && text[in.start - 1] == '\n') { /* a comment, whose first word is no number */
            in.at = line_end(text, in.start, text_len);
            continue;
        }
        if (closed == clauses) REFUSE(SYMBREAK_CLAUSE_COUNT, in.start);
        if (kind == OTHER) REFUSE(SYMBREAK_NOT_NUMBER, in.start);
        if (v == 0) {
            closes[closed++] = (uint16_t)count;
        } else {
            int variable = v < 0 ? -v : v;
            if (variable > variables) REFUSE(SYMBREAK_LITERAL_BEYOND, in.start);
            if (count == MAX_L) REFUSE(SYMBREAK_TOO_MANY_LITERALS, in.start);
            codes[count++] = (uint16_t)(2 * variable + (v < 0));
        }
    }
    if (closed < clauses) REFUSE(SYMBREAK_CLAUSE_COUNT, text_len);
    if (literals_len < (size_t)count) REFUSE(SYMBREAK_TOO_SHORT, (uint64_t)count);
    if (ends_len < (size_t)clauses) REFUSE(SYMBREAK_TOO_SHORT, (uint64_t)clauses);
    if (keys_len < (size_t)clauses) REFUSE(SYMBREAK_TOO_SHORT, (uint64_t)clauses);
    for (size_t c = 0, i = 0; c < (size_t)clauses; c++) {
        uint16_t number = (uint16_t)(c + 1);
        uint64_t key = 0;
        for (size_t end = closes[c]; i < end; i++) {
            size_t code = codes[i];
            if (marks[code] == number) continue;
            marks[code] = number;
            key += numbers[code - 2];
        }
        keys[c] = key;
    }
    if (count) memcpy(literals, codes, (size_t)count * sizeof *codes);
    if (clauses) memcpy(ends, closes, (size_t)clauses * sizeof *closes);
    return (symbreak_stored){0, 0, (uint64_t)variables, (uint64_t)clauses, 0, 1};
}

/* Offers. */

/* The number of the first clause without a contradictory pair whose image under the row is no clause, or 0. An image's literals are marked with the clause's
   number; a clause with the image's key has as many different literals, by the key's last bits, and is the image as a set if all of them are marked. A pair is
   looked for only where the image is no clause. Not inlined, so that registers suffice for the loop. */
static __attribute__((noinline)) uint64_t first_missing(uint64_t n, uint64_t m, const uint16_t *literals, const uint16_t *ends, const uint64_t *keys,
                                                        const plain_index *index, const uint16_t *row)
{
    uint16_t image[CODES], marks[CODES] = {0};
    for (size_t v = 1; v <= n; v++) {
        image[2 * v] = row[v - 1];
        image[2 * v + 1] = row[v - 1] ^ 1;
    }
    for (size_t c = 0, i = 0; c < m; c++) {
        uint16_t number = (uint16_t)(c + 1);
        uint64_t key = 0;
        size_t begin = i, end = ends[c], other;
        for (; i < end; i++) {
            size_t code = image[literals[i]];
            if (marks[code] == number) continue;
            marks[code] = number;
            key += numbers[code - 2];
        }
        for (other = index->heads[plain_slot(key)]; other; other = index->nexts[other - 1]) {
            if (keys[other - 1] != key) continue;
            size_t j = other > 1 ? ends[other - 2] : 0, close = ends[other - 1];
            while (j < close && marks[literals[j]] == number) j++;
            if (j == close) break;
        }
        if (other) continue;
        while (begin < end && marks[image[literals[begin]] ^ 1] != number) begin++;
        if (begin == end) return c + 1;
    }
    return 0;
}

symbreak_stored plain_offer_indexed(RECORD, FORMULA, uint16_t *images, size_t images_len, const uint8_t *names, size_t names_len, const uint8_t *values,
                                    size_t values_len, const plain_index *index)
{
    enum { NO_NAME, NAME, TAKEN };
    uint16_t row[MAX_N], name[MAX_N];
    uint8_t state[MAX_N + 1] = {0};
    reader in = {names, 0, names_len, 0};
    int v, kind;
    size_t count = 0, taken = 0, moved = 0, bad = SIZE_MAX; /* bad: the first word that offends, where none is no number */
    uint64_t missing, needed = (rows + 1) * n;
    (void)literals_len, (void)ends_len, (void)keys_len;
    if (rows == MAX_ROWS) REFUSE(SYMBREAK_ROWS_FULL, 0);
    while ((kind = next(&in, &v)) == NUMBER) {
        if (bad != SIZE_MAX) continue;
        if (v < 1 || v > (int)n || state[v] == NAME) {
            bad = in.start;
        } else {
            state[v] = NAME;
            name[count++] = (uint16_t)v;
        }
    }
    if (kind == OTHER) REFUSE(SYMBREAK_NAME_NOT_NUMBER, in.start);
    if (bad != SIZE_MAX || count == 0) REFUSE(SYMBREAK_BAD_NAME, bad != SIZE_MAX ? bad : names_len);
    for (size_t i = 0; i < n; i++) row[i] = (uint16_t)(2 * (i + 1));
    in = (reader){values, 0, values_len, 0};
    while ((kind = next(&in, &v)) == NUMBER) {
        if (bad != SIZE_MAX) continue;
        int variable = v < 0 ? -v : v;
        if (variable > (int)n || state[variable] != NAME) {
            bad = in.start;
        } else {
            state[variable] = TAKEN;
            moved += v != name[taken];
            row[name[taken++] - 1] = (uint16_t)(2 * variable + (v < 0));
        }
    }
    if (kind == OTHER) REFUSE(SYMBREAK_VALUE_NOT_NUMBER, in.start);
    if (bad != SIZE_MAX || taken < count) REFUSE(SYMBREAK_BAD_VALUE, bad != SIZE_MAX ? bad : values_len);
    if (moved == 0) REFUSE(SYMBREAK_MOVES_NOTHING, 0);
    missing = first_missing(n, m, literals, ends, keys, index, row);
    if (missing) REFUSE(SYMBREAK_NO_SYMMETRY, missing);
    if (images_len < needed) REFUSE(SYMBREAK_TOO_SHORT, needed);
    memcpy(images + rows * n, row, n * sizeof *row);
    return (symbreak_stored){0, 0, n, m, rows + 1, 1};
}

symbreak_stored plain_offer(RECORD, FORMULA, uint16_t *images, size_t images_len, const uint8_t *names, size_t names_len, const uint8_t *values,
                            size_t values_len)
{
    plain_index index;
    uint32_t refusal = plain_make_index(LENT, &index);
    if (refusal) REFUSE(refusal, 0);
    return plain_offer_indexed(LENT, names, names_len, values, values_len, &index);
}

symbreak_stored plain_withdraw(RECORD, FORMULA, IMAGES)
{
    uint32_t refusal = fault(LENT);
    if (refusal) REFUSE(refusal, 0);
    if (rows == 0) REFUSE(SYMBREAK_NO_ROW, 0);
    return (symbreak_stored){0, 0, n, m, rows - 1, 1};
}

/* Figures. */

/* The digits of all numbers from 0 up to v, without v: each has a last one, those from 10 on one before it, and so on. */
static unsigned digits_below(unsigned v)
{
    unsigned sum = v;
    for (unsigned power = 10; power < v; power *= 10) sum += v - power;
    return sum;
}

/* No line is made. A row has each pair x, y in `-x y`, and each but the last in clauses 2 to 5 of an auxiliary too, where both have either sign twice. It has
   each auxiliary nine times, six of them with a sign; but the first not as ej in clause 1, and the last not as e(j-1) in clauses 1, 4 and 5. */
symbreak_sizes plain_figures(RECORD, FORMULA, IMAGES)
{
    uint8_t is_x[MAX_N + 1];
    unsigned variables = (unsigned)n, clauses = (unsigned)m, count = 0, bytes = 0;
    uint32_t refusal = formula_fault(LENT_FORMULA, images_len);
    if (refusal) return (symbreak_sizes){refusal, 0, 0, 0, 0, 0};
    for (unsigned all = m ? ends[m - 1] : 0; count < all; count++) bytes += digits[literals[count]] + literals[count] % 2 + 1u;
    for (size_t r = 0; r < rows; r++, images += n) {
        int k = walked(images, n, is_x, &bytes);
        if (k < 0) return (symbreak_sizes){SYMBREAK_BADLY_FORMED, 0, 0, 0, 0, 0};
        if (k == 0) continue;
        size_t x = (size_t)((uint8_t *)memrchr(is_x, 1, n + 1) - is_x);
        unsigned added = plain_auxiliaries(k), first = variables + 1, last = variables + added;
        count += 10 * added + 2;
        bytes -= 4 * (digits[2 * x] + digits[images[x - 1]] + 3u);
        if (added) {
            count += 9 * added - 4;
            bytes += 9 * (digits_below(last + 1) - digits_below(first)) + 15 * added - (plain_digits(first) + 2) - (3 * plain_digits(last) + 5);
        }
        variables = last;
        clauses += plain_clauses(k);
    }
    bytes += 2 * clauses + 8 + plain_digits(variables) + plain_digits(clauses); /* a zero and a line feed each; the header, 8 bytes beside its numbers */
    return (symbreak_sizes){0, 0, variables, clauses, count, bytes};
}

/* Writing. A line is made in an array of the call's own and copied once its length is known. */

static symbreak_answer hand_over(const uint8_t *line, const uint8_t *end, uint8_t *out, size_t out_len)
{
    size_t length = (size_t)(end - line);
    if (out_len < length) return refused(SYMBREAK_TOO_SHORT, length);
    memcpy(out, line, length);
    return answer(length);
}

symbreak_answer plain_header(RECORD, FORMULA, IMAGES, uint8_t *out, size_t out_len)
{
    uint8_t is_x[MAX_N + 1], line[32] = "p cnf ", *end = line + 6;
    unsigned variables = (unsigned)n, clauses = (unsigned)m;
    uint32_t refusal = formula_fault(LENT_FORMULA, images_len);
    if (refusal) return refused(refusal, 0);
    for (size_t r = 0; r < rows; r++, images += n) {
        int k = plain_cycles(images, n, is_x);
        if (k < 0) return refused(SYMBREAK_BADLY_FORMED, 0);
        variables += plain_auxiliaries(k);
        clauses += plain_clauses(k);
    }
    end = plain_put(end, (int)variables, ' ');
    end = plain_put(end, (int)clauses, '\n');
    return hand_over(line, end, out, out_len);
}

/* The variable among x1 .. xk after x; the first one after 0. */
static unsigned after(const uint8_t *is_x, unsigned x)
{
    do x++;
    while (!is_x[x]);
    return x;
}

/* Rows are passed by what they add, up to the one that has the clause; those after it are only tested. */
symbreak_answer plain_clause(RECORD, FORMULA, IMAGES, uint64_t q, uint8_t *out, size_t out_len)
{
    uint8_t is_x[MAX_N + 1], line[5 * MAX_L + 2], *end = line; /* a plain literal has at most four bytes, an added one six */
    const uint16_t *row = 0;
    uint64_t left = q - m - 1; /* of the added clauses from row on, those before clause q */
    unsigned last = (unsigned)n;
    int k = 0;
    uint32_t refusal = formula_fault(LENT_FORMULA, images_len);
    if (refusal) return refused(refusal, 0);
    for (; q > m && !row && rows; images += n, rows--) {
        k = plain_cycles(images, n, is_x);
        if (k < 0) return refused(SYMBREAK_BADLY_FORMED, 0);
        if (left < plain_clauses(k)) {
            row = images;
        } else {
            left -= plain_clauses(k);
            last += plain_auxiliaries(k);
        }
    }
    refusal = rows_fault(images, n, rows);
    if (refusal) return refused(refusal, 0);
    if (q == 0 || (q > m && !row)) return refused(SYMBREAK_NO_SUCH_CLAUSE, 0);
    if (q <= m) {
        for (size_t i = q > 1 ? ends[q - 2] : 0; i < ends[q - 1]; i++) end = plain_put(end, plain_literal(literals[i]), ' ');
    } else {
        unsigned j = (unsigned)(left / 6) + 1, x = 0, next;
        int literal[4], count;
        for (unsigned passed = 0; passed < j; passed += is_x[x]) x++;
        next = k > 1 ? after(is_x, x) : x;
        count = plain_added((int)j, (int)(left % 6) + 1, (int)x, plain_literal(row[x - 1]), (int)next, plain_literal(row[next - 1]), (int)(last + j), literal);
        for (int i = 0; i < count; i++) end = plain_put(end, literal[i], ' ');
    }
    end = plain_put(end, 0, '\n');
    return hand_over(line, end, out, out_len);
}

/* Assignments. Work on single literals is done on bytes, one for each, at its code: a variable's value, then its negation's. */

static size_t words(uint64_t n) { return (n + 63) / 64; }

static int bit(const uint64_t *a, size_t i) { return a[i / 64] >> (63 - i % 64) & 1; }

/* Whether a is an assignment of 1..n. */
static int is_assignment(const uint64_t *a, size_t a_len, uint64_t n) { return a_len == words(n) && (n % 64 == 0 || a[n / 64] << n % 64 == 0); }

static void put_value(uint8_t *value, size_t v, int is) { value[2 * v] = (uint8_t)is, value[2 * v + 1] = (uint8_t)(is ^ 1); }

static void unpack(const uint64_t *a, uint64_t n, uint8_t value[CODES])
{
    for (size_t i = 0; i < n; i++) put_value(value, i + 1, bit(a, i));
}

/* Sets the bits from first, count of them. */
static void set(uint64_t *a, size_t first, size_t count)
{
    while (count) {
        size_t from = first % 64, here = count < 64 - from ? count : 64 - from;
        a[first / 64] |= ~0ull >> (64 - here) << (64 - from - here);
        first += here;
        count -= here;
    }
}

/* A row's auxiliaries are true up to the first x at which a and a moved differ, so each row is one run of ones. Variables left out are looked at too: where all
   before them agree, so do they. */
symbreak_answer plain_fill_in(RECORD, FORMULA, IMAGES, const uint64_t *a, size_t a_len, uint64_t *out, size_t out_len)
{
    uint8_t value[CODES], is_x[MAX_ROWS][MAX_N + 1];
    int k[MAX_ROWS];
    uint32_t refusal = fault_noting(LENT, is_x, k);
    if (refusal) return refused(refusal, 0);
    if (!is_assignment(a, a_len, n)) return refused(SYMBREAK_BAD_ASSIGNMENT, 0);
    size_t count = words(n + all_auxiliaries(k, rows)), first = n;
    if (out_len < count) return refused(SYMBREAK_TOO_SHORT, count);
    unpack(a, n, value);
    memset(out, 0, count * sizeof *out);
    if (n) memcpy(out, a, a_len * sizeof *a);
    for (size_t r = 0; r < rows; r++, images += n) {
        unsigned agree = 0, most = plain_auxiliaries(k[r]);
        for (size_t i = 0; i < n && value[2 * (i + 1)] == value[images[i]]; i++) agree += is_x[r][i + 1];
        set(out, first, agree < most ? agree : most);
        first += most;
    }
    return answer(count);
}

symbreak_answer plain_check(RECORD, FORMULA, IMAGES, const uint64_t *a, size_t a_len)
{
    uint8_t value[CODES], is_x[MAX_ROWS][MAX_N + 1];
    int k[MAX_ROWS];
    uint32_t refusal = fault_noting(LENT, is_x, k);
    if (refusal) return refused(refusal, 0);
    if (!is_assignment(a, a_len, n + all_auxiliaries(k, rows))) return refused(SYMBREAK_BAD_ASSIGNMENT, 0);
    unpack(a, n, value);
    for (size_t c = 0, i = 0; c < m; i = ends[c++]) {
        while (i < ends[c] && !value[literals[i]]) i++;
        if (i == ends[c]) return answer(c + 1);
    }
    uint64_t clause = m; /* the number of the last clause looked at */
    size_t e_at = n;
    for (size_t r = 0; r < rows; r++, images += n) {
        if (k[r] == 0) continue;
        unsigned x = after(is_x[r], 0), most = plain_auxiliaries(k[r]);
        int before = 1; /* e(j-1); with 1 for it, the clauses of j = 1 read like the others, but for the first */
        int u = value[2 * x], v = value[images[x - 1]];
        if (k[r] == 1) {
            clause++;
            if (u && !v) return answer(clause);
        }
        for (unsigned j = 1; j <= most; j++, clause += 6) {
            unsigned next = after(is_x[r], x);
            int e = bit(a, e_at++), p = value[2 * next], q = value[images[next - 1]];
            if (j == 1 ? u && !v : e && !before) return answer(clause + 1);
            if (e && u && !v) return answer(clause + 2);
            if (e && !u && v) return answer(clause + 3);
            if (!e && before && !u && !v) return answer(clause + 4);
            if (!e && before && u && v) return answer(clause + 5);
            if (e && p && !q) return answer(clause + 6);
            before = e;
            x = next, u = p, v = q;
        }
    }
    return answer(0);
}

static void pack(const uint8_t *value, uint64_t n, uint64_t *a, size_t a_len)
{
    memset(a, 0, a_len * sizeof *a);
    for (size_t i = 0; i < n; i++) a[i / 64] |= (uint64_t)value[2 * (i + 1)] << (63 - i % 64);
}

/* A row is walked from variable 1 to the first at which a and a moved differ, over variables that it does not move as well. */
symbreak_descent plain_descend(RECORD, FORMULA, IMAGES, uint64_t *a, size_t a_len, uint64_t limit)
{
    uint8_t first[CODES], second[CODES], *value = first, *other = second, *kept;
    uint64_t moves = 0, settled = 1;
    uint32_t refusal = fault(LENT);
    if (!refusal && !is_assignment(a, a_len, n)) refusal = SYMBREAK_BAD_ASSIGNMENT;
    if (refusal) return (symbreak_descent){refusal, 0, 0, 0};
    unpack(a, n, value);
    for (size_t r = 0; r < rows;) {
        const uint16_t *row = images + r * n;
        size_t i = 0;
        while (i < n && value[2 * (i + 1)] == value[row[i]]) i++;
        if (i == n || !value[2 * (i + 1)]) {
            r++;
            continue;
        }
        if (moves == limit) {
            settled = 0;
            break;
        }
        for (i = 0; i < n; i++) put_value(other, i + 1, value[row[i]]);
        kept = value, value = other, other = kept;
        moves++;
        r = 0;
    }
    if (moves) pack(value, n, a, a_len);
    return (symbreak_descent){0, 0, settled, moves};
}

/* The same, with a note of where each row's moved variables are: from first[r] up to end[r]. Only these are walked and moved. */
symbreak_descent plain_descend_noting(RECORD, FORMULA, IMAGES, uint64_t *a, size_t a_len, uint64_t limit)
{
    uint16_t first[MAX_ROWS], end[MAX_ROWS];
    uint8_t value[CODES], other[CODES];
    uint64_t moves = 0, settled = 1;
    uint32_t refusal = fault(LENT);
    if (!refusal && !is_assignment(a, a_len, n)) refusal = SYMBREAK_BAD_ASSIGNMENT;
    if (refusal) return (symbreak_descent){refusal, 0, 0, 0};
    unpack(a, n, value);
    for (size_t r = 0; r < rows; r++) {
        const uint16_t *row = images + r * n;
        size_t from = 0, to = n;
        while (from < n && row[from] == 2 * (from + 1)) from++;
        while (from < to && row[to - 1] == 2 * to) to--;
        first[r] = (uint16_t)from;
        end[r] = (uint16_t)to;
    }
    for (size_t r = 0; r < rows;) {
        const uint16_t *row = images + r * n;
        size_t from = first[r], to = end[r], i = from;
        while (i < to && value[2 * (i + 1)] == value[row[i]]) i++;
        if (i == to || !value[2 * (i + 1)]) {
            r++;
            continue;
        }
        if (moves == limit) {
            settled = 0;
            break;
        }
        for (i = from; i < to; i++) put_value(other, i + 1, value[row[i]]);
        memcpy(value + 2 * (from + 1), other + 2 * (from + 1), 2 * (to - from));
        moves++;
        r = 0;
    }
    if (moves) pack(value, n, a, a_len);
    return (symbreak_descent){0, 0, settled, moves};
}

symbreak_answer plain_compare(const uint64_t *a, size_t a_len, const uint64_t *b, size_t b_len)
{
    if (a_len != b_len || a_len > SYMBREAK_MAX_WORDS) return refused(SYMBREAK_BAD_ASSIGNMENT, 0);
    for (size_t i = 0; i < a_len; i++)
        if (a[i] != b[i]) return answer(64 * i + (size_t)__builtin_clzll(a[i] ^ b[i]) + 1);
    return answer(0);
}

symbreak_answer plain_efficiency(uint64_t labelled, uint64_t unlabelled, uint64_t allowed)
{
    if (unlabelled > allowed || allowed > labelled || labelled == unlabelled || labelled > 1000000000000) return refused(SYMBREAK_NO_FIGURE, 0);
    uint64_t x = 10000 * (labelled - allowed), y = labelled - unlabelled, below = x / y, twice = 2 * (x % y);
    return answer(below + (twice > y || (twice == y && below % 2)));
}
