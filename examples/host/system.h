/* What the host needs of the system: files and a solver. Each call ends the program with a message where the system fails it. */
#ifndef SYSTEM_H
#define SYSTEM_H

#include <stddef.h>
#include <stdint.h>

typedef struct {
    uint8_t *bytes;
    size_t length;
} text;

_Noreturn void fail(const char *why, const char *what);

text read_file(const char *path);

/* Cuts the first line off the rest. A last line feed starts no further line. */
int cut_line(text *rest, text *line);

/* The path of a file in /tmp that is removed at the end. */
const char *temporary(void);

/* Solves the formula in a file with minisat or cadical, whichever is on PATH; 1 with a model in a, which has room for its variables, or 0 if there is none. */
int solve(const char *path, uint64_t *a, uint64_t variables);

#endif
