/* What the programs here share: a file read whole, and a thread whose stack has exactly so many bytes. */
#ifndef LENT_H
#define LENT_H

#include <pthread.h>

#include "drf.h"

/* The first bytes of a file, no more than are judged */
struct file {
    uint8_t bytes[DRF_MOST_READ];
    size_t count;
};

/* Whether a file was read. Where not, standard error says why. */
int read_file(const char *name, struct file *to);

/* A stack to lend to a thread. The page below it can't be touched: a thread that needs more ends the program by a signal. */
struct stack {
    uint8_t *lowest;
    size_t size;
};

/* A new stack; of size 0 where the system gives none. */
struct stack new_stack(size_t size);

void free_stack(struct stack stack);

/* Starts a thread on a stack. 0, or the number of the fault. */
int start_on(struct stack stack, pthread_t *thread, void *(*work)(void *), void *given);

#endif
