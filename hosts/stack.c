/* usage: stack FILE..
 * Measures the stack of a thread that judges each file, or inspects it without numbers or with them, and of one that makes the clauses of a full
 * table: a stack is painted, and the lowest byte that a thread changed says how far it went. Status 1 where less than SPARE of DRF_STACK is
 * left. */
#define _DEFAULT_SOURCE
#include <pthread.h>
#include <stdio.h>
#include <stdlib.h>
#include <string.h>
#include <sys/resource.h>
#include <sys/wait.h>
#include <unistd.h>

#include "lent.h"

/* For the frames of signal handlers and of the host's own functions */
#define SPARE 16384
#define MEASURED (2 * DRF_STACK)
#define KIB 1024

/* What tells of a file, and how the thread that calls it is named */
struct telling {
    uint64_t (*call)(const uint8_t *, size_t, uint8_t *, size_t, uint64_t *, size_t);
    const char *named;
};

#define TELLING 3

static const struct telling telling[TELLING] = {
    {drf_judge, "judges"},
    {drf_inspect, "inspects"},
    {drf_inspect_numbers, "inspects with numbers"},
};

/* What a thread does */
struct work {
    const struct telling *tells;
    struct file file;
    uint8_t out[DRF_MOST_WITH_NUMBERS];
};

static void *no_work(void *given)
{
    return given;
}

static void *work_on(void *given)
{
    struct work *work = (struct work *)given;
    uint64_t ends[2];
    work->tells->call(work->file.bytes, work->file.count, work->out, sizeof work->out, ends, 2);
    return given;
}

/* The clauses of a table of as many rows as it may have, by approximate match. */
static void *make_table(void *given)
{
    struct work *work = (struct work *)given;
    static int32_t rows[DRF_MOST_ROWS];
    for (int k = 0; k < DRF_MOST_ROWS; k++)
        rows[k] = k;
    drf_table(rows, DRF_MOST_ROWS, rows, DRF_MOST_ROWS, DRF_APPROXIMATE, work->out, sizeof work->out);
    return given;
}

static void run_on(struct stack stack, void *(*work)(void *), void *given)
{
    pthread_t thread;
    int fault = start_on(stack, &thread, work, given);
    if (fault) {
        fprintf(stderr, "stack: no thread: %s\n", strerror(fault));
        exit(2);
    }
    pthread_join(thread, NULL);
}

static struct stack some_stack(size_t size)
{
    struct stack stack = new_stack(size);
    if (stack.size == 0) {
        fprintf(stderr, "stack: no memory\n");
        exit(2);
    }
    return stack;
}

/* How many bytes from its top on a thread changed of a stack painted so */
static size_t painted(struct stack stack, int paint, void *(*work)(void *), void *given)
{
    memset(stack.lowest, paint, stack.size);
    run_on(stack, work, given);
    size_t same = 0;
    while (same < stack.size && stack.lowest[same] == paint)
        same++;
    return stack.size - same;
}

/* A byte that is changed to the paint is not seen to be changed, so there are two paints. */
static size_t deepest(struct stack stack, void *(*work)(void *), void *given)
{
    size_t one = painted(stack, 0xA5, work, given);
    size_t other = painted(stack, 0x5A, work, given);
    return one < other ? other : one;
}

struct range {
    size_t least;
    size_t most;
};

static void note(struct range *seen, size_t depth)
{
    if (depth < seen->least)
        seen->least = depth;
    if (depth > seen->most)
        seen->most = depth;
}

/* How a thread ends on a stack so long: 0 for well, or the signal, or -1 where there is no such thread. It is tried in a process of its own,
 * which may die. */
static int ended_by(size_t size, struct work *work)
{
    fflush(stdout);
    pid_t child = fork();
    if (child == 0) {
        struct rlimit none = {0, 0};
        setrlimit(RLIMIT_CORE, &none);
        run_on(some_stack(size), work_on, work);
        _exit(0);
    }
    int status = 0;
    if (child < 0 || waitpid(child, &status, 0) != child)
        return -1;
    if (WIFSIGNALED(status))
        return WTERMSIG(status);
    return WEXITSTATUS(status) == 0 ? 0 : -1;
}

/* The least stack, in pages, on which a thread lives, and how it ends on a page less */
static void print_least(struct work *work)
{
    size_t page = (size_t)sysconf(_SC_PAGESIZE);
    size_t size = DRF_STACK;
    int signal = ended_by(size - page, work);
    while (signal == 0) {
        size -= page;
        signal = ended_by(size - page, work);
    }
    printf("stack: a thread lives on %zu KiB; on %zu KiB ", size / KIB, (size - page) / KIB);
    if (signal > 0)
        printf("it is ended by signal %d\n", signal);
    else
        printf("there is none\n");
}

/* The depths of threads that tell of each file named, by what tells, and the work of the deepest; or none where a file can't be read */
static int measure(char **names, int count, struct stack stack, struct work *deep, struct range *seen)
{
    static struct work work;
    size_t most = 0;
    for (int k = 0; k < count; k++) {
        if (!read_file(names[k], &work.file))
            return 0;
        for (int j = 0; j < TELLING; j++) {
            work.tells = &telling[j];
            size_t depth = deepest(stack, work_on, &work);
            note(&seen[j], depth);
            if (depth > most) {
                most = depth;
                *deep = work;
            }
        }
    }
    return 1;
}

int main(int count, char **words)
{
    static struct work deep;
    struct range seen[TELLING];
    if (count < 2) {
        fprintf(stderr, "usage: stack FILE..\n");
        return 2;
    }
    for (int k = 0; k < TELLING; k++) {
        seen[k].least = MEASURED;
        seen[k].most = 0;
    }
    struct stack stack = some_stack(MEASURED);
    size_t empty = deepest(stack, no_work, NULL);
    if (!measure(words + 1, count - 1, stack, &deep, seen))
        return 2;
    size_t table = deepest(stack, make_table, &deep);
    size_t most = table;
    printf("stack: over %d files\n", count - 1);
    printf("stack: %zu bytes of a thread that does nothing\n", empty);
    for (int k = 0; k < TELLING; k++) {
        printf("stack: %zu to %zu bytes of one that %s\n", seen[k].least, seen[k].most, telling[k].named);
        most = most < seen[k].most ? seen[k].most : most;
    }
    printf("stack: %zu bytes of one that makes the clauses of a table\n", table);
    print_least(&deep);
    printf("stack: %d bytes are stated, and %ld of them to spare\n", DRF_STACK, (long)DRF_STACK - (long)most);
    return most + SPARE <= DRF_STACK ? 0 : 1;
}
