#define _POSIX_C_SOURCE 200809L
#include "system.h"

#include <fcntl.h>
#include <spawn.h>
#include <stdio.h>
#include <stdlib.h>
#include <string.h>
#include <sys/wait.h>
#include <unistd.h>

extern char **environ;

_Noreturn void fail(const char *why, const char *what)
{
    fflush(stdout);
    fprintf(stderr, "host: %s %s\n", why, what);
    exit(EXIT_FAILURE);
}

text read_file(const char *path)
{
    size_t room = 65536, got;
    text all = {malloc(room), 0};
    FILE *file = fopen(path, "rb");
    if (!file)
        fail("can't open", path);
    while (all.bytes && (got = fread(all.bytes + all.length, 1, room - all.length, file)) > 0)
        if ((all.length += got) == room)
            all.bytes = realloc(all.bytes, room *= 2);
    if (!all.bytes || ferror(file))
        fail("can't read", path);
    fclose(file);
    return all;
}

int cut_line(text *rest, text *line)
{
    if (rest->length == 0)
        return 0;
    uint8_t *feed = memchr(rest->bytes, '\n', rest->length);
    *line = (text){rest->bytes, feed ? (size_t)(feed - rest->bytes) : rest->length};
    size_t cut = line->length + (feed != NULL);
    *rest = (text){rest->bytes + cut, rest->length - cut};
    return 1;
}

enum { MOST_FILES = 4 };
static char paths[MOST_FILES][sizeof "/tmp/host-XXXXXX"];
static int files;

static void remove_files(void)
{
    while (files > 0)
        unlink(paths[--files]);
}

const char *temporary(void)
{
    if (files == MOST_FILES)
        fail("too many files in", "/tmp");
    int made = mkstemp(strcpy(paths[files], "/tmp/host-XXXXXX"));
    if (made < 0 || close(made))
        fail("can't make a file in", "/tmp");
    if (files == 0)
        atexit(remove_files);
    return paths[files++];
}

/* The exit code of a command found on PATH, or -1 if it isn't there. */
static int run(char *const command[], const char *output)
{
    posix_spawn_file_actions_t actions;
    pid_t child;
    int status;
    posix_spawn_file_actions_init(&actions);
    posix_spawn_file_actions_addopen(&actions, STDOUT_FILENO, output, O_WRONLY | O_TRUNC, 0);
    int missing = posix_spawnp(&child, command[0], &actions, NULL, command, environ);
    posix_spawn_file_actions_destroy(&actions);
    if (missing)
        return -1;
    return waitpid(child, &status, 0) == child && WIFEXITED(status) ? WEXITSTATUS(status) : 0;
}

/* Reads minisat's reply (`SAT`, then literals) or cadical's (`s SATISFIABLE`, then `v` lines of literals). A variable left out stays false. */
static void read_model(const char *path, uint64_t *a, uint64_t variables)
{
    char word[16];
    FILE *file = fopen(path, "r");
    if (!file)
        fail("can't open", path);
    memset(a, 0, (variables + 63) / 64 * sizeof *a);
    while (fscanf(file, "%15s", word) == 1) {
        uint64_t i = strtoull(word, NULL, 10); /* no number gives 0, and a negative one a number beyond all variables */
        if (0 < i && i <= variables)
            a[(i - 1) / 64] |= UINT64_C(1) << (63 - (i - 1) % 64);
    }
    fclose(file);
}

int solve(const char *path, uint64_t *a, uint64_t variables)
{
    static const char *reply;
    if (!reply)
        reply = temporary();
    int code = run((char *[]){"minisat", "-verb=0", (char *)path, (char *)reply, NULL}, "/dev/null");
    if (code == -1)
        code = run((char *[]){"cadical", "-q", (char *)path, NULL}, reply);
    if (code == -1) {
        puts("no solver on PATH: install minisat or cadical, please");
        exit(EXIT_SUCCESS);
    }
    if (code != 10 && code != 20) /* what solvers agreed on: 10 has a model, 20 has none */
        fail("no answer from the solver on", path);
    if (code == 10)
        read_model(reply, a, variables);
    return code == 10;
}
