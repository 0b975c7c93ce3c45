#define _DEFAULT_SOURCE
#include <errno.h>
#include <pthread.h>
#include <stdio.h>
#include <string.h>
#include <sys/mman.h>
#include <unistd.h>

#include "lent.h"

int read_file(const char *name, struct file *to)
{
    FILE *from = fopen(name, "rb");
    if (!from) {
        fprintf(stderr, "%s: %s\n", name, strerror(errno));
        return 0;
    }
    errno = 0;
    to->count = fread(to->bytes, 1, DRF_MOST_READ, from);
    int failed = ferror(from);
    if (failed)
        fprintf(stderr, "%s: %s\n", name, strerror(errno));
    fclose(from);
    return !failed;
}

static size_t page(void)
{
    return (size_t)sysconf(_SC_PAGESIZE);
}

struct stack new_stack(size_t size)
{
    struct stack none = {NULL, 0};
    void *at = mmap(NULL, page() + size, PROT_READ | PROT_WRITE, MAP_PRIVATE | MAP_ANONYMOUS, -1, 0);
    if (at == MAP_FAILED)
        return none;
    if (mprotect(at, page(), PROT_NONE) != 0) {
        munmap(at, page() + size);
        return none;
    }
    struct stack stack = {(uint8_t *)at + page(), size};
    return stack;
}

void free_stack(struct stack stack)
{
    munmap(stack.lowest - page(), page() + stack.size);
}

int start_on(struct stack stack, pthread_t *thread, void *(*work)(void *), void *given)
{
    pthread_attr_t how;
    int fault = pthread_attr_init(&how);
    if (fault)
        return fault;
    fault = pthread_attr_setstack(&how, stack.lowest, stack.size);
    if (!fault)
        fault = pthread_create(thread, &how, work, given);
    pthread_attr_destroy(&how);
    return fault;
}
