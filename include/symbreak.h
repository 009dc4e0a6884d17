/* symbreak: lex-leader symmetry breaking for propositional formulas, proved correct. For C99 or C++98 and later. docs/MANUAL.md explains every term, call and
 * refusal, with examples. In the project's folder, `tools/build library` writes target/staticlib/libsymbreak.a; a host is linked with it by
 *     cc host.c -Iinclude target/staticlib/libsymbreak.a
 *
 * Every call takes any numbers and any slices. It answers, or refuses with a number and a place; a refusal changes nothing that was lent.
 * A slice is a pointer and a length in elements; a slice of length 0 may have any pointer. A slice that a call writes must not overlap another that it is lent.
 * A const slice is only read; of one that is written, nothing changes but what the call says.
 * There is no state between calls, no allocation, no input or output: any calls may run at once, on any threads, that write no slice of one another.
 *
 * The order of assignments: A < B when A is false and B true at the first variable, from 1, at which they differ.
 * The direction of a permutation p: an assignment A moved by p has at variable i the value A(p(i)), and where p(i) is the negation of j, the opposite of A(j). The
 * inverse of p would put A(i) at p(i).
 */
#ifndef SYMBREAK_H
#define SYMBREAK_H

#include <stddef.h>
#include <stdint.h>

#ifdef __cplusplus
extern "C" {
#endif

/* The limits. */
#define SYMBREAK_MAX_VARIABLES 512
#define SYMBREAK_MAX_CLAUSES 4096
#define SYMBREAK_MAX_LITERALS 12288
#define SYMBREAK_MAX_ROWS 64

/* No call has more bytes than this on the stack, from its return address down, with what it keeps below the stack pointer (the red zone); only an offer has
 * more than 16,384. Outside the library only memcpy and memset are called; what they have comes on top. On x86-64 the registers of SSE2 are used. */
#define SYMBREAK_MAX_STACK 36864

/* Refusals, each with its place. Those of a text or a line have the offset in bytes, from 0, of the word that offends, unless the comment says which
 * other place; 11 and 23 have a number, as said there; the place of 12, 13, 14, 20, 21, 22, 30 and 31 is always 0. */
enum symbreak_refusal {
    SYMBREAK_NO_REFUSAL = 0,
    SYMBREAK_NO_PROBLEM_LINE = 1,   /* text: no problem line `p cnf n m` (place: the first line that is no comment, or the text's length) */
    SYMBREAK_SIZE_OVER_LIMIT = 2,   /* text: n or m over its limit (place: the problem line) */
    SYMBREAK_NOT_NUMBER = 3,        /* text: a word that is no number */
    SYMBREAK_LITERAL_BEYOND = 4,    /* text: a literal beyond n */
    SYMBREAK_TOO_MANY_LITERALS = 5, /* text: literal 12,289 */
    SYMBREAK_CLAUSE_COUNT = 6,      /* text: a word after m clauses are closed, or the end before that (place: the text's length) */
    SYMBREAK_NAME_NOT_NUMBER = 7,   /* names line: a word that is no number */
    SYMBREAK_BAD_NAME = 8,          /* names line: a name outside 1..n, as every negative one, or repeated, or no name (place: the line's length) */
    SYMBREAK_VALUE_NOT_NUMBER = 9,  /* value line: a word that is no number */
    SYMBREAK_BAD_VALUE = 10,        /* value line: a value that is no name, the `-` apart, or whose name is used already, or too few (place: the line's length) */
    SYMBREAK_NO_SYMMETRY = 11,      /* no symmetry (place: the number, from 1, of the first clause whose image is missing; clauses that hold i and -i are passed over) */
    SYMBREAK_BAD_ASSIGNMENT = 12,   /* an assignment of the wrong length or with a spare bit set; in a comparison, unequal lengths or more than 519 words */
    SYMBREAK_NO_SUCH_CLAUSE = 13,   /* clause number 0 or above M */
    SYMBREAK_NO_FIGURE = 14,        /* not unlabelled <= allowed <= labelled, labelled = unlabelled, or labelled over 10^12 */
    SYMBREAK_NOT_OPEN = 20,         /* the store is not open */
    SYMBREAK_BADLY_FORMED = 21,     /* the store is badly formed */
    SYMBREAK_ROWS_FULL = 22,        /* an offer with 64 rows held */
    SYMBREAK_TOO_SHORT = 23,        /* a slice that is to be written is too short (place: the length needed, in elements) */
    SYMBREAK_NO_ROW = 30,           /* a withdrawal where no row is held */
    SYMBREAK_MOVES_NOTHING = 31     /* an offer in which every value equals its name */
};

/* The record of a store: is_open is 0 for closed, and anything else for open. */
typedef struct {
    uint64_t variables;
    uint64_t clauses;
    uint64_t rows;
    uint64_t is_open;
} symbreak_record;

/* What a call that may change the store answers: refusal 0 and place 0, or the number of a refusal and its place; and the record to lend at the next call.
 * From a refusal that is the record lent, with 1 for any is_open but 0. */
typedef struct {
    uint32_t refusal;
    uint64_t place;
    uint64_t variables;
    uint64_t clauses;
    uint64_t rows;
    uint64_t is_open;
} symbreak_stored;

/* What a call with one value answers: refusal 0, place 0 and the value; or the number of a refusal, its place, and value 0. */
typedef struct {
    uint32_t refusal;
    uint64_t place;
    uint64_t value;
} symbreak_answer;

/* What the figures of a made formula are: refusal 0, place 0, and four numbers; or the number of a refusal, its place, and 0 for all four. */
typedef struct {
    uint32_t refusal;
    uint64_t place;
    uint64_t variables;
    uint64_t clauses;
    uint64_t literals;
    uint64_t bytes;
} symbreak_sizes;

/* What a descent answers: refusal 0, place 0, settled 1 or 0 (spent), and the count of moves; or the number of a refusal, its place, and 0 for both. */
typedef struct {
    uint32_t refusal;
    uint64_t place;
    uint64_t settled;
    uint64_t moves;
} symbreak_descent;

/* A new store's record: closed, and all counts 0. */
symbreak_record symbreak_new_record(void);

/* The store is what the host lends at every call: the record, as four numbers, and four slices.
 *   literals  the clauses' literals in order, as codes: 2 * i for variable i, 2 * i + 1 for its negation; SYMBREAK_MAX_LITERALS entries are always enough
 *   ends      for each clause the count of literals up to its end; SYMBREAK_MAX_CLAUSES entries are always enough
 *   keys      for each clause its key, the sum modulo 2^64 of a fixed number for each different literal in it (docs/KEYS.md lists the numbers), which opening
 *             writes; SYMBREAK_MAX_CLAUSES entries are always enough
 *   images    one row of n codes for each accepted permutation, at index i - 1 the image of variable i, a literal as above: even where the sign stays, odd where it
 *             turns; no two of a row are of one variable; SYMBREAK_MAX_ROWS * n entries are always enough
 * Entries past those in use are never looked at and never changed. A key in use that is not its clause's makes the store badly formed (21). */

/* Opens a formula: it replaces what the store held and drops its rows. The record lent is handed back at a refusal and not looked at otherwise.
 * The text is DIMACS CNF: the line `p cnf n m`, then m clauses, each a list of literals closed by 0. Lines whose first byte is `c` are skipped, before that
 * line and after it, also inside a clause; they count in offsets and in the text's length. Words are separated by spaces, tabs and line feeds; a number is an
 * optional `-` and one to six digits without leading zeros. A carriage return is no blank: it belongs to a word, so that lines that end in one are refused.
 * Clauses may be empty, repeated, or hold a literal twice or with its negation.
 * Refusals 1 to 6, the first fault from the left; then 23 for literals, then 23 for ends, then 23 for keys. */
symbreak_stored symbreak_open(uint64_t variables, uint64_t clauses, uint64_t rows, uint64_t is_open, const uint8_t *text, size_t text_len,
                              uint16_t *literals, size_t literals_len, uint16_t *ends, size_t ends_len, uint64_t *keys, size_t keys_len);

/* Offers a permutation p: a line of names and a line of values in that order, without line feeds. p takes each name to its value, one of the names or, with a
 * `-`, the negation of one, each once; variables that are not named stay, and -i goes to the opposite of what i goes to. It is held, as one row more, exactly when
 * it moves something and takes the formula's set of clauses to itself, without those that hold a literal and its negation: they are always true. images must have
 * room for (rows + 1) * n entries.
 * Refusals 20, 21, 22, 7, 8, 9, 10, 31, 11, 23, in this order. */
symbreak_stored symbreak_offer(uint64_t variables, uint64_t clauses, uint64_t rows, uint64_t is_open, const uint16_t *literals, size_t literals_len,
                               const uint16_t *ends, size_t ends_len, const uint64_t *keys, size_t keys_len, uint16_t *images, size_t images_len,
                               const uint8_t *names, size_t names_len, const uint8_t *values, size_t values_len);

/* Takes back the newest row: that of the offer accepted last, of those not taken back before. Its clauses and auxiliaries are gone with it, and the next row
 * gets its auxiliaries' numbers. Only the count of rows in the record falls: no slice is written, and the row's entries are then past those in use.
 * Refusals 20, 21, 30, in this order. */
symbreak_stored symbreak_withdraw(uint64_t variables, uint64_t clauses, uint64_t rows, uint64_t is_open, const uint16_t *literals, size_t literals_len,
                                  const uint16_t *ends, size_t ends_len, const uint64_t *keys, size_t keys_len, const uint16_t *images, size_t images_len);

/* The made formula: the plain clauses, then those of each row. Header and clauses are written one line at a time, each with its line feed; the value is
 * the line's length in bytes, and bytes past it stay. N and M are the two numbers of the header. A line of L literals has at most 7 * L + 2 bytes, and a
 * buffer of SYMBREAK_MAX_LINE bytes always has room. Each call looks over the whole store first, so its time grows with the formula and the rows held. */
#define SYMBREAK_MAX_HEADER 19
#define SYMBREAK_MAX_LINE (7 * SYMBREAK_MAX_LITERALS + 2)

/* The figures of the made formula, before a line of it is written: its variables (N), its clauses (M), its literals, closing zeros not counted, and the bytes of
 * its text, the header and all M lines with their line feeds. Where the store has n variables, m clauses, L literals and R rows, they are at most n + R * n,
 * m + 6 * R * n, L + 19 * R * n, and 19 + 7 * literals + 2 * clauses; for every store at most 33,216, 200,320, 633,536 and 4,835,411. Refusals 20, 21. */
symbreak_sizes symbreak_figures(uint64_t variables, uint64_t clauses, uint64_t rows, uint64_t is_open, const uint16_t *literals, size_t literals_len,
                                const uint16_t *ends, size_t ends_len, const uint64_t *keys, size_t keys_len, const uint16_t *images, size_t images_len);

/* The header, `p cnf N M`. Refusals 20, 21, 23. */
symbreak_answer symbreak_header(uint64_t variables, uint64_t clauses, uint64_t rows, uint64_t is_open, const uint16_t *literals, size_t literals_len,
                                const uint16_t *ends, size_t ends_len, const uint64_t *keys, size_t keys_len, const uint16_t *images, size_t images_len,
                                uint8_t *out, size_t out_len);

/* Clause q, from 1 to the M of the header. Refusals 20, 21, 13, 23. */
symbreak_answer symbreak_clause(uint64_t variables, uint64_t clauses, uint64_t rows, uint64_t is_open, const uint16_t *literals, size_t literals_len,
                                const uint16_t *ends, size_t ends_len, const uint64_t *keys, size_t keys_len, const uint16_t *images, size_t images_len,
                                uint64_t q, uint8_t *out, size_t out_len);

/* Assignments are 64-bit words: variable 1 is the highest bit of the first word, 1 is true, spare low bits are 0, and the count of words is just enough:
 * (n + 63) / 64 for the plain formula's n variables, (N + 63) / 64 for the made formula's N, at most SYMBREAK_MAX_WORDS. To take the plain part of a made
 * formula's model, take its first (n + 63) / 64 words and set the spare bits of the last one to 0, since auxiliaries may stand there. */
#define SYMBREAK_MAX_WORDS 519

/* Writes the assignment of 1..N that an assignment a of 1..n fills in as: a itself, and each auxiliary true exactly where a agrees with a moved so far. The
 * value is the count of words written; words past them stay. Refusals 20, 21, 12, 23. */
symbreak_answer symbreak_fill_in(uint64_t variables, uint64_t clauses, uint64_t rows, uint64_t is_open, const uint16_t *literals, size_t literals_len,
                                 const uint16_t *ends, size_t ends_len, const uint64_t *keys, size_t keys_len, const uint16_t *images, size_t images_len,
                                 const uint64_t *a, size_t a_len, uint64_t *out, size_t out_len);

/* Checks an assignment of 1..N against the made formula: the value is 0 for yes, or the number, from 1, of the first clause that is false.
 * Refusals 20, 21, 12. */
symbreak_answer symbreak_check(uint64_t variables, uint64_t clauses, uint64_t rows, uint64_t is_open, const uint16_t *literals, size_t literals_len,
                               const uint16_t *ends, size_t ends_len, const uint64_t *keys, size_t keys_len, const uint16_t *images, size_t images_len,
                               const uint64_t *a, size_t a_len);

/* Moves an assignment a of 1..n by the first row that makes it smaller, from the first row again after each move, at most as often as the limit says. It
 * settles where no row makes it smaller, and is spent where the moves equal the limit and one still does; a holds the assignment reached either way. From
 * a model of the formula, a settled descent ends on a kept one. Refusals 20, 21, 12. */
symbreak_descent symbreak_descend(uint64_t variables, uint64_t clauses, uint64_t rows, uint64_t is_open, const uint16_t *literals, size_t literals_len,
                                  const uint16_t *ends, size_t ends_len, const uint64_t *keys, size_t keys_len, const uint16_t *images, size_t images_len,
                                  uint64_t *a, size_t a_len, uint64_t limit);

/* Compares two assignments of one length, of at most SYMBREAK_MAX_WORDS words of any value. The value is the variable at which a and b first differ, or 0
 * where they are equal. Refusal 12. */
symbreak_answer symbreak_compare(const uint64_t *a, size_t a_len, const uint64_t *b, size_t b_len);

/* The value is 10,000 * (labelled - allowed) / (labelled - unlabelled) to the nearest whole number, an exact half to the even one: hundredths of a percent,
 * at most 10,000. Refusal 14. */
symbreak_answer symbreak_efficiency(uint64_t labelled, uint64_t unlabelled, uint64_t allowed);

#ifdef __cplusplus
}
#endif

#endif
