/* usage: host FILE..
 * A host in C, and C++: judges each run file and inspects it without numbers and with them, and then makes the clauses of small tables, on several
 * threads at once, each with a stack of DRF_STACK bytes, and prints what one of them was told. Status 0; 1 where a file can't be read or the
 * threads are told different things; 2 for no file. */
#define _DEFAULT_SOURCE
#include <pthread.h>
#include <stdio.h>
#include <stdlib.h>
#include <string.h>

#include "lent.h"

#define THREADS 4
#define ROWS 3
#define TABLES 3

/* A table by its keys, each of which is its own result, and the kind of match */
struct table {
    const char *name;
    int32_t keys[ROWS];
    enum drf_match kind;
};

static const struct table tables[TABLES] = {
    {"exact", {4100, 4120, 4200}, DRF_EXACT},
    {"approximate", {4100, 4120, 4200}, DRF_APPROXIMATE},
    {"not in order", {4120, 4100, 4200}, DRF_APPROXIMATE},
};

/* What a thread reads, writes to and is told */
struct work {
    const struct file *file;
    uint8_t listing[DRF_MOST_LISTING];
    uint8_t inspection[DRF_MOST_INSPECTION];
    uint8_t numbers[DRF_MOST_WITH_NUMBERS];
    uint8_t clauses[TABLES][DRF_MOST_TABLE];
    struct drf_told judged;
    struct drf_told inspected;
    struct drf_told numbered;
    struct drf_made made[TABLES];
};

static void *work_on(void *given)
{
    struct work *work = (struct work *)given;
    const struct file *file = work->file;
    work->judged = drf_judged(file->bytes, file->count, work->listing, sizeof work->listing);
    work->inspected = drf_inspected(file->bytes, file->count, work->inspection, sizeof work->inspection);
    work->numbered = drf_inspected_numbers(file->bytes, file->count, work->numbers, sizeof work->numbers);
    return NULL;
}

static void *make_on(void *given)
{
    struct work *work = (struct work *)given;
    for (int k = 0; k < TABLES; k++) {
        const int32_t *keys = tables[k].keys;
        work->made[k] = drf_tabled(keys, ROWS, keys, ROWS, tables[k].kind, work->clauses[k], sizeof work->clauses[k]);
    }
    return NULL;
}

/* Runs all works at once. A host that can have no thread ends. */
static void run(void *(*on)(void *), struct work *works, const struct stack *stacks)
{
    pthread_t threads[THREADS];
    for (int k = 0; k < THREADS; k++) {
        int fault = start_on(stacks[k], &threads[k], on, &works[k]);
        if (fault) {
            fprintf(stderr, "host: no thread: %s\n", strerror(fault));
            exit(1);
        }
    }
    for (int k = 0; k < THREADS; k++)
        pthread_join(threads[k], NULL);
}

static int same(struct drf_told a, const uint8_t *text, struct drf_told b, const uint8_t *other)
{
    return a.count == b.count && a.verdict == b.verdict && a.number == b.number && a.place == b.place && memcmp(text, other, a.count) == 0;
}

/* Whether all threads were told the same */
static int agree(const struct work *works)
{
    for (int k = 1; k < THREADS; k++) {
        if (!same(works[0].judged, works[0].listing, works[k].judged, works[k].listing))
            return 0;
        if (!same(works[0].inspected, works[0].inspection, works[k].inspected, works[k].inspection))
            return 0;
        if (!same(works[0].numbered, works[0].numbers, works[k].numbered, works[k].numbers))
            return 0;
    }
    return 1;
}

static void print(const char *name, struct drf_told told, const uint8_t *text)
{
    printf("%s: %s, number %d, place %llu\n", name, drf_verdict_name(told.verdict), told.number, (unsigned long long)told.place);
    fwrite(text, 1, told.count, stdout);
}

/* Whether a file was read and all threads were told the same of it */
static int tell(const char *name, struct work *works, const struct stack *stacks)
{
    static struct file file;
    if (!read_file(name, &file))
        return 0;
    for (int k = 0; k < THREADS; k++)
        works[k].file = &file;
    run(work_on, works, stacks);
    if (!agree(works)) {
        fprintf(stderr, "%s: the threads are told different things\n", name);
        return 0;
    }
    printf("%s\n", name);
    print("judge", works[0].judged, works[0].listing);
    print("inspect", works[0].inspected, works[0].inspection);
    print("inspect, numbers", works[0].numbered, works[0].numbers);
    return 1;
}

/* Whether all threads were told the same of a table */
static int agree_on_table(const struct work *works, int table)
{
    struct drf_made first = works[0].made[table];
    for (int k = 1; k < THREADS; k++) {
        struct drf_made made = works[k].made[table];
        if (made.count != first.count || made.number != first.number || made.place != first.place)
            return 0;
        if (memcmp(works[k].clauses[table], works[0].clauses[table], first.count) != 0)
            return 0;
    }
    return 1;
}

/* The bytes of clauses, a clause a line: three counts, of which the second is that of its atoms, six bytes for each of these, and four for the
 * literal. */
static void print_clauses(const uint8_t *clauses, size_t count)
{
    size_t end = 0;
    for (size_t k = 0; k < count; k++) {
        if (k == end)
            end += 3 + 6 * (size_t)clauses[k + 1] + 4;
        printf("%02x%c", clauses[k], k + 1 == end ? '\n' : ' ');
    }
}

/* Whether all threads were told the same of each table */
static int tell_tables(struct work *works, const struct stack *stacks)
{
    run(make_on, works, stacks);
    for (int k = 0; k < TABLES; k++) {
        struct drf_made made = works[0].made[k];
        if (!agree_on_table(works, k)) {
            fprintf(stderr, "table, %s: the threads are told different things\n", tables[k].name);
            return 0;
        }
        printf("table, %s: %d bytes, number %d, place %d\n", tables[k].name, (int)made.count, made.number, made.place);
        print_clauses(works[0].clauses[k], made.count);
    }
    return 1;
}

int main(int count, char **words)
{
    static struct work works[THREADS];
    struct stack stacks[THREADS];
    int status = 0;
    if (count < 2) {
        fprintf(stderr, "usage: host FILE..\n");
        return 2;
    }
    for (int k = 0; k < THREADS; k++) {
        stacks[k] = new_stack(DRF_STACK);
        if (stacks[k].size == 0) {
            fprintf(stderr, "host: no memory\n");
            return 1;
        }
    }
    for (int k = 1; k < count; k++)
        if (!tell(words[k], works, stacks))
            status = 1;
    if (!tell_tables(works, stacks))
        status = 1;
    for (int k = 0; k < THREADS; k++)
        free_stack(stacks[k]);
    if (fflush(stdout) != 0 || ferror(stdout)) {
        fprintf(stderr, "host: standard output can't be written\n");
        status = 1;
    }
    return status;
}
