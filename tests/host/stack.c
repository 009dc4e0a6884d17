/* Calls each export at the limits on a stack that was painted before, and prints a line for each: its name, and how many bytes below its caller's stack
 * pointer are no longer painted. Compiled and run by test_archive.py. */
#include <assert.h>
#include <stdint.h>
#include <stdio.h>
#include <string.h>
#include <ucontext.h>
#include "symbreak.h"

#define N SYMBREAK_MAX_VARIABLES
#define M SYMBREAK_MAX_CLAUSES
#define L SYMBREAK_MAX_LITERALS
#define R SYMBREAK_MAX_ROWS
#define W SYMBREAK_MAX_WORDS
#define MADE_CLAUSES (M + 6 * R * (N - 1))
#define PAINT 0x5a5a5a5a5a5a5a5a

static uint64_t stack[1 << 15];
static uint64_t *from, *lowest;

/* Without the compiler's pushes (-maccumulate-outgoing-args) the stack pointer is here what it is at the call. */
#define ON_STACK(call)                                               \
    do {                                                             \
        __asm__ volatile("mov %%rsp, %0" : "=r"(from) : : "memory"); \
        call;                                                        \
        for (lowest = stack; *lowest == PAINT; lowest++) {           \
        }                                                            \
    } while (0)

static char text[1 << 17], names[1 << 12], values[1 << 12];
static uint16_t literals[L], ends[M], images[R * N];
static uint64_t keys[M], plain[N / 64], full[W];
static uint8_t out[64];
static symbreak_record record;
static symbreak_stored stored;
static symbreak_answer answer;
static symbreak_sizes sizes;
static symbreak_descent descent;

#define RECORD record.variables, record.clauses, record.rows, record.is_open
#define STORE RECORD, literals, L, ends, M, keys, M, images, R *N

static void call_new_record(void) { ON_STACK(record = symbreak_new_record()); }
static void call_open(void) { ON_STACK(stored = symbreak_open(RECORD, (uint8_t *)text, strlen(text), literals, L, ends, M, keys, M)); }
static void call_offer(void) { ON_STACK(stored = symbreak_offer(STORE, (uint8_t *)names, strlen(names), (uint8_t *)values, strlen(values))); }
static void call_withdraw(void) { ON_STACK(stored = symbreak_withdraw(STORE)); }
static void call_figures(void) { ON_STACK(sizes = symbreak_figures(STORE)); }
static void call_header(void) { ON_STACK(answer = symbreak_header(STORE, out, sizeof out)); }
static void call_clause(void) { ON_STACK(answer = symbreak_clause(STORE, MADE_CLAUSES, out, sizeof out)); }
static void call_fill_in(void) { ON_STACK(answer = symbreak_fill_in(STORE, plain, N / 64, full, W)); }
static void call_check(void) { ON_STACK(answer = symbreak_check(STORE, full, W)); }
static void call_descend(void) { ON_STACK(descent = symbreak_descend(STORE, plain, N / 64, UINT64_MAX)); }
static void call_compare(void) { ON_STACK(answer = symbreak_compare(full, W, full, W)); }
static void call_efficiency(void) { ON_STACK(answer = symbreak_efficiency(1000000000000, 0, 1)); }

static void measure(const char *name, void (*call)(void)) {
    static ucontext_t here, there;
    for (size_t i = 0; i < sizeof stack / sizeof *stack; i++)
        stack[i] = PAINT;
    getcontext(&there);
    there.uc_stack.ss_sp = stack;
    there.uc_stack.ss_size = sizeof stack;
    there.uc_link = &here;
    makecontext(&there, call, 0);
    swapcontext(&here, &there);
    printf("%s %zu\n", name, (size_t)((char *)from - (char *)lowest));
}

static void take_stored(void) {
    assert(stored.refusal == 0);
    record = (symbreak_record){stored.variables, stored.clauses, stored.rows, stored.is_open};
}

/* The literals one after the other: 1, .., N, -1, .., -N, and from the start again. */
static int literal(int at) { return at % (2 * N) < N ? at % N + 1 : -(at % N + 1); }

/* A formula with all the limits reached that sending each literal to the next keeps, and the two lines of that. It is one cycle that turns the sign once, so no
 * variable is left out. Of any N literals one after the other each clause has one, so all variables false is a model, and no row makes that smaller. */
static void write_input(void) {
    char *at = text + sprintf(text, "p cnf %d %d\n", N, M);
    for (int kind = 0; kind < M / (2 * N); kind++)
        for (int i = 0; i < 2 * N; i++)
            at += sprintf(at, "%d %d %d 0\n", literal(i), literal(i + 2 * N / 3 + kind), literal(i + 4 * N / 3));
    char *name = names, *value = values;
    for (int i = 0; i < N; i++) {
        name += sprintf(name, "%d ", literal(i));
        value += sprintf(value, "%d ", literal(i + 1));
    }
}

int main(void) {
    write_input();
    measure("symbreak_new_record", call_new_record);
    measure("symbreak_open", call_open);
    take_stored();
    assert(record.variables == N && record.clauses == M && ends[M - 1] == L);
    while (record.rows < R) {
        call_offer();
        take_stored();
        if (record.rows == R - 1)
            measure("symbreak_offer", call_offer);
    }
    measure("symbreak_withdraw", call_withdraw);
    assert(stored.refusal == 0 && stored.rows == R - 1);
    measure("symbreak_figures", call_figures);
    assert(sizes.refusal == 0 && sizes.variables == 33216 && sizes.clauses == MADE_CLAUSES && sizes.literals == L + R * (19 * (N - 1) - 2));
    measure("symbreak_header", call_header);
    assert(answer.refusal == 0 && memcmp(out, "p cnf 33216 200320\n", 19) == 0);
    measure("symbreak_clause", call_clause);
    assert(answer.refusal == 0);
    measure("symbreak_fill_in", call_fill_in);
    assert(answer.refusal == 0 && answer.value == W);
    measure("symbreak_check", call_check);
    assert(answer.refusal == 0 && answer.value == 0);
    memset(plain, 0xf0, sizeof plain);
    measure("symbreak_descend", call_descend);
    assert(descent.refusal == 0 && descent.settled == 1 && descent.moves > 0);
    measure("symbreak_compare", call_compare);
    assert(answer.refusal == 0 && answer.value == 0);
    measure("symbreak_efficiency", call_efficiency);
    assert(answer.refusal == 0);
    return 0;
}
