/* The allocator of the proved code, as C sees it. */
#ifndef GRAIN_KIT_H
#define GRAIN_KIT_H

#include <stdbool.h>
#include <stddef.h>

/* An allocation says whether there is a block, and has a pointer that is never NULL. */
typedef struct {
    bool made;
    void *block;
} answer;

answer rattle_alloc(size_t size, size_t alignment);
answer rattle_realloc(void *block, size_t old_size, size_t size, size_t alignment);
void rattle_dealloc(void *block);

static inline answer answer_of(void *block) {
    static char nothing;
    return (answer){block != NULL, block != NULL ? block : &nothing};
}

#endif
