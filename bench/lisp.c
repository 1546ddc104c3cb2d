#define _GNU_SOURCE
#include "lisp.h"
#include <fcntl.h>
#include <signal.h>
#include <stdlib.h>
#include <string.h>
#include <sys/wait.h>
#include <unistd.h>

enum { MOST_SETS = 8 };

static FILE *to, *from;
static pid_t child;

static void write_set(const char *path, const question_set *set)
{
    FILE *file = fopen(path, "w");
    if (!file)
        perror(path), exit(1);
    for (int i = 0; i < set->count; i++)
        write_lisp(file, &set->questions[i]);
    fclose(file);
}

bool lisp_start(const char *directory, const question_set *sets, int count)
{
    char program[512], path[MOST_SETS][512], *arguments[MOST_SETS + 5] = { 0 };
    char *sbcl = getenv("BENCH_SBCL");
    if (!sbcl || !*sbcl || count > MOST_SETS)
        return false;
    snprintf(program, sizeof program, "%s/../dr34.lisp", directory);
    arguments[0] = sbcl, arguments[1] = "--script", arguments[2] = program, arguments[3] = "sets";
    for (int i = 0; i < count; i++) {
        snprintf(path[i], sizeof path[i], "%s/%s.lisp", directory, sets[i].name);
        write_set(path[i], &sets[i]);
        arguments[4 + i] = path[i];
    }
    int in[2], out[2];
    if (pipe2(in, O_CLOEXEC) || pipe2(out, O_CLOEXEC))
        perror("pipe"), exit(1);
    signal(SIGPIPE, SIG_IGN);
    child = fork();
    if (child == 0) {
        dup2(in[0], 0);
        dup2(out[1], 1);
        execvp(sbcl, arguments);
        _exit(127);
    }
    close(in[0]);
    close(out[1]);
    to = fdopen(in[1], "w");
    from = fdopen(out[0], "r");
    return child > 0;
}

static void ask(int set, int times, char *line, int room)
{
    fprintf(to, "%d %d\n", set, times);
    fflush(to);
    if (!fgets(line, room, from)) {
        fprintf(stderr, "bench: the LISP process ended\n");
        exit(1);
    }
}

double lisp_pass(int set, int times)
{
    char line[64];
    ask(set, times, line, sizeof line);
    return atof(line);
}

void lisp_verdicts(int set, char *line, int room) { ask(set, 0, line, room); }

void lisp_stop(void)
{
    fclose(to);
    fclose(from);
    waitpid(child, 0, 0);
}
