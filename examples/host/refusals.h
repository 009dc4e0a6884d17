/* The library's refusals in words. */
#ifndef REFUSALS_H
#define REFUSALS_H

#include <inttypes.h>
#include <stdio.h>

#include "symbreak.h"

static const struct {
    const char *reason, *place; /* place: what the number given as place is; NULL where a refusal has none */
} refusals[] = {
    [SYMBREAK_NO_PROBLEM_LINE] = {"the formula has no problem line `p cnf n m`", "byte"},
    [SYMBREAK_SIZE_OVER_LIMIT] = {"the formula has more variables or clauses than the library takes", "byte"},
    [SYMBREAK_NOT_NUMBER] = {"a word of the formula is no number", "byte"},
    [SYMBREAK_LITERAL_BEYOND] = {"a literal of the formula is beyond its variables", "byte"},
    [SYMBREAK_TOO_MANY_LITERALS] = {"the formula has more literals than the library takes", "byte"},
    [SYMBREAK_CLAUSE_COUNT] = {"the formula has more or fewer clauses than its problem line says", "byte"},
    [SYMBREAK_NAME_NOT_NUMBER] = {"a word of the names line is no number", "byte"},
    [SYMBREAK_BAD_NAME] = {"a name is no variable or comes twice, or there is no name", "byte"},
    [SYMBREAK_VALUE_NOT_NUMBER] = {"a word of the value line is no number", "byte"},
    [SYMBREAK_BAD_VALUE] = {"a value without its sign is no name or comes twice, or there are too few", "byte"},
    [SYMBREAK_NO_SYMMETRY] = {"it is no symmetry, the formula lacks the image of a clause", "clause"},
    [SYMBREAK_BAD_ASSIGNMENT] = {"an assignment has the wrong length or a spare bit set", NULL},
    [SYMBREAK_NO_SUCH_CLAUSE] = {"there is no clause of this number", NULL},
    [SYMBREAK_NO_FIGURE] = {"the counts give no figure", NULL},
    [SYMBREAK_NOT_OPEN] = {"the store is not open", NULL},
    [SYMBREAK_BADLY_FORMED] = {"the store is badly formed", NULL},
    [SYMBREAK_ROWS_FULL] = {"the store holds as many permutations as it can", NULL},
    [SYMBREAK_TOO_SHORT] = {"a lent slice is too short", "length needed"},
    [SYMBREAK_NO_ROW] = {"the store holds no permutation to take back", NULL},
    [SYMBREAK_MOVES_NOTHING] = {"it moves nothing, every value equals its name", NULL},
};

/* Whether a call was refused, and if so says why in words. */
static inline int refused(const char *call, uint32_t refusal, uint64_t place)
{
    if (refusal == SYMBREAK_NO_REFUSAL)
        return 0;
    int known = refusal < sizeof refusals / sizeof *refusals && refusals[refusal].reason;
    printf("%s: refused %" PRIu32 ", %s", call, refusal, known ? refusals[refusal].reason : "a number that this host does not know");
    if (known && refusals[refusal].place)
        printf(" (%s %" PRIu64 ")", refusals[refusal].place, place);
    puts("");
    return 1;
}

#endif
