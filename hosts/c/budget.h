/* What a state may take of memory, and what it has taken. */
#ifndef GRAIN_BUDGET_H
#define GRAIN_BUDGET_H

#include <stddef.h>
#include <stdint.h>

typedef struct {
    uint64_t number; /* no other budget of the process has it */
    size_t taken;    /* how many bytes its blocks have */
    size_t most;     /* how many they may have */
} budget;

/* A budget of this many bytes, of which none is taken. */
budget new_budget(size_t most);

/* From now on what this thread takes counts for this budget, or for none if it is NULL. */
void use_budget(budget *next);

/* A block that counts for the budget in use, or NULL. */
void *take_block(size_t size, size_t alignment);
void free_block(void *block);

#endif
