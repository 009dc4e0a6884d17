/* host FORMULA PERMUTATIONS [OUT]: a formula's whole life in libsymbreak, from its text to the layout that is built.
 * FORMULA is DIMACS CNF; PERMUTATIONS is a line of names, then a line of values for each permutation, negative where it turns a sign, or `-` to take the newest
 * one held back. The made formula goes to OUT, or to a temporary file. */
#include <stdlib.h>

#include "refusals.h"
#include "system.h"

/* A store as the calls take it, lent whole each time: the library keeps nothing. */
static symbreak_record record;
static uint16_t literals[SYMBREAK_MAX_LITERALS], ends[SYMBREAK_MAX_CLAUSES], images[SYMBREAK_MAX_ROWS * SYMBREAK_MAX_VARIABLES];
static uint64_t keys[SYMBREAK_MAX_CLAUSES];
#define SLICE(array) array, sizeof(array) / sizeof *(array)
#define RECORD record.variables, record.clauses, record.rows, record.is_open
#define STORE RECORD, SLICE(literals), SLICE(ends), SLICE(keys), SLICE(images)

/* The record to lend at the next call; from a refusal it is the one that was lent. */
static symbreak_record record_of(symbreak_stored s) { return (symbreak_record){s.variables, s.clauses, s.rows, s.is_open}; }

/* The value of a call that is refused only where this host has a fault. */
static uint64_t value(const char *call, symbreak_answer answer)
{
    if (refused(call, answer.refusal, answer.place))
        exit(EXIT_FAILURE);
    return answer.value;
}

static void open_formula(text formula)
{
    record = symbreak_new_record();
    symbreak_stored stored = symbreak_open(RECORD, formula.bytes, formula.length, SLICE(literals), SLICE(ends), SLICE(keys));
    if (refused("formula", stored.refusal, stored.place))
        exit(EXIT_FAILURE);
    record = record_of(stored);
    printf("formula: %" PRIu64 " variables, %" PRIu64 " clauses\n", record.variables, record.clauses);
}

/* A refused call costs only itself: whichever rows are held, the made formula has a model exactly when the plain one has. */
static void take_marks(text rest)
{
    text names, values;
    uint64_t offered = 0, withdrawn = 0;
    char call[60];
    if (cut_line(&rest, &names))
        while (cut_line(&rest, &values)) {
            symbreak_stored stored;
            if (values.length == 1 && values.bytes[0] == '-') { /* a wrong mark */
                stored = symbreak_withdraw(STORE);
                withdrawn += stored.refusal == SYMBREAK_NO_REFUSAL;
                snprintf(call, sizeof call, "withdrawal after permutation %" PRIu64, offered);
            } else {
                stored = symbreak_offer(STORE, names.bytes, names.length, values.bytes, values.length);
                snprintf(call, sizeof call, "permutation %" PRIu64, ++offered);
            }
            refused(call, stored.refusal, stored.place);
            record = record_of(stored);
        }
    printf("permutations: %" PRIu64 " offered, %" PRIu64 " withdrawn, %" PRIu64 " held\n", offered, withdrawn, record.rows);
}

/* Writes the made formula and gives N, the count of its variables. */
static uint64_t write_made(const char *path)
{
    static uint8_t line[SYMBREAK_MAX_LINE]; /* one clause may hold all literals */
    uint64_t variables, clauses;
    FILE *file = fopen(path, "wb");
    if (!file)
        fail("can't write", path);
    uint64_t length = value("header", symbreak_header(STORE, SLICE(line)));
    fwrite(line, 1, length, file);
    line[length] = 0; /* the library ends no line with a zero byte */
    if (sscanf((char *)line, "p cnf %" SCNu64 " %" SCNu64, &variables, &clauses) != 2)
        fail("no header in", path);
    for (uint64_t q = 1; q <= clauses; q++)
        fwrite(line, 1, value("clause", symbreak_clause(STORE, q, SLICE(line))), file);
    int unwritten = ferror(file);
    if (fclose(file) || unwritten)
        fail("can't write", path);
    printf("made formula: %" PRIu64 " variables, %" PRIu64 " clauses\n", variables, clauses);
    return variables;
}

/* Takes a model, of the plain formula or the made one, down to a kept plain model and prints that as the layout. */
static void settle(const char *whose, uint64_t *a)
{
    static uint64_t filled[SYMBREAK_MAX_WORDS];
    uint64_t n = record.variables, words = (n + 63) / 64;
    if (n % 64) /* spare bits are 0, and auxiliaries may stand there */
        a[words - 1] &= ~UINT64_C(0) << (64 - n % 64);
    symbreak_descent descent = symbreak_descend(STORE, a, words, UINT64_MAX);
    if (refused("descent", descent.refusal, descent.place))
        exit(EXIT_FAILURE);
    uint64_t made_words = value("filling in", symbreak_fill_in(STORE, a, words, SLICE(filled)));
    if (value("check", symbreak_check(STORE, filled, made_words)) != 0)
        fail("a layout is not kept after", descent.settled ? "a settled descent" : "a spent descent");
    printf("model of the %s formula: moves %" PRIu64 ", layout", whose, descent.moves);
    for (uint64_t i = 0; i < n; i++)
        if (a[i / 64] >> (63 - i % 64) & 1)
            printf(" %" PRIu64, i + 1);
    puts("");
}

int main(int argc, char **argv)
{
    static uint64_t a[SYMBREAK_MAX_WORDS], b[SYMBREAK_MAX_WORDS];
    if (argc != 3 && argc != 4)
        fail("usage:", "host FORMULA PERMUTATIONS [OUT]");
    open_formula(read_file(argv[1]));
    take_marks(read_file(argv[2]));
    const char *made = argc == 4 ? argv[3] : temporary();
    uint64_t variables = write_made(made);
    if (!solve(made, a, variables)) {
        puts("no layout");
        return EXIT_SUCCESS;
    }
    if (value("check", symbreak_check(STORE, a, (variables + 63) / 64)) != 0)
        fail("the solver's model is no model of", made);
    settle("made", a); /* it is kept already, so without a move */
    if (!solve(argv[1], b, record.variables))
        fail("the solver contradicts itself on", argv[1]);
    settle("plain", b);
    uint64_t words = (record.variables + 63) / 64, differ = value("comparison", symbreak_compare(a, words, b, words));
    if (differ)
        printf("the layouts differ, first at variable %" PRIu64 ": both are kept\n", differ);
    return EXIT_SUCCESS;
}
