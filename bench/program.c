/* The program of document 01 in plain C, for comparison: the same input to the same output, with the same refusals. Reading and offers are those of plain.c;
   the made formula is written by pages.h. */
#include <stdio.h>
#include <stdlib.h>
#include <string.h>

#include "pages.h"

enum { MAX_IN = 65536 };

static uint8_t in[MAX_IN + 1];
static uint16_t literals[SYMBREAK_MAX_LITERALS], ends[SYMBREAK_MAX_CLAUSES], images[SYMBREAK_MAX_ROWS * SYMBREAK_MAX_VARIABLES];
static uint64_t keys[SYMBREAK_MAX_CLAUSES];
static plain_index by_key;

#define SLICE(array) array, sizeof(array) / sizeof *(array)

static void refuse(unsigned number, size_t place)
{
    printf("refused %u %zu\n", number, place);
    exit(0);
}

static size_t line_end(size_t at, size_t size)
{
    const uint8_t *feed = memchr(in + at, '\n', size - at);
    return feed ? (size_t)(feed - in) : size;
}

static void take(const uint8_t *bytes, size_t length) { fwrite(bytes, 1, length, stdout); }

int main(void)
{
    size_t size = fread(in, 1, sizeof in, stdin), at, stop = 0, names, names_end;
    symbreak_stored store;
    if (size > MAX_IN) refuse(15, 0);
    for (at = 0; at < size; at = stop + 1) {
        stop = line_end(at, size);
        if (stop == at + 1 && in[at] == '%') break;
    }
    if (at >= size) refuse(15, 0);
    store = plain_open(0, 0, 0, 0, in, at, SLICE(literals), SLICE(ends), SLICE(keys));
    if (store.refusal) refuse(store.refusal, store.place);
    plain_make_index(store.variables, store.clauses, store.rows, 1, SLICE(literals), SLICE(ends), SLICE(keys), SLICE(images), &by_key);
    names = stop + 1;
    names_end = names < size ? line_end(names, size) : names;
    for (at = names_end + 1; at < size; at = stop + 1) {
        stop = line_end(at, size);
        store = plain_offer_indexed(store.variables, store.clauses, store.rows, 1, SLICE(literals), SLICE(ends), SLICE(keys), SLICE(images), in + names,
                                    names_end - names, in + at, stop - at, &by_key);
        if (store.refusal) refuse(store.refusal, store.place);
    }
    print_all(store.variables, store.clauses, store.rows, literals, ends, images);
    return 0;
}
