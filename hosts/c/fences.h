/* An allocator for fuzzing: an allocation can be refused, blocks are counted, and they can end at a page that can't be touched. */
#ifndef GRAIN_FENCES_H
#define GRAIN_FENCES_H

#include "grain.h"

#include <stdio.h>
#include <stdlib.h>
#include <string.h>
#include <sys/mman.h>

enum { PAGE = 4096, HEAD = 16 };

static long left = -1;  /* how many allocations succeed still; all if it is negative */
static long live = 0;   /* how many blocks of the library there are */
static bool are_fenced; /* whether blocks end at a page that can't be touched */

#define REQUIRE(what) ((what) ? (void)0 : (fprintf(stderr, "line %d: %s\n", __LINE__, #what), abort()))

static size_t fenced_size(size_t size) {
    return (size + HEAD + PAGE - 1) / PAGE * PAGE;
}

/* A block that ends at a page that can't be touched, except for its alignment. */
static uint8_t *fenced(size_t size, size_t alignment) {
    size_t room = fenced_size((size + alignment - 1) / alignment * alignment);
    uint8_t *start = mmap(NULL, room + PAGE, PROT_READ | PROT_WRITE, MAP_PRIVATE | MAP_ANONYMOUS, -1, 0);
    REQUIRE(start != MAP_FAILED && mprotect(start + room, PAGE, PROT_NONE) == 0);
    return start + room - (size + alignment - 1) / alignment * alignment;
}

/* The head of a block keeps the size of its mapping, or 0 for one of malloc. */
void *grain_alloc(size_t size, size_t alignment) {
    if (left == 0)
        return NULL;
    left -= left > 0;
    live++;
    uint8_t *block = are_fenced ? fenced(size, alignment) : (uint8_t *)malloc(size + HEAD) + HEAD;
    size_t mapped = are_fenced ? fenced_size((size + alignment - 1) / alignment * alignment) + PAGE : 0;
    memcpy(block - HEAD, &mapped, sizeof mapped);
    return block;
}

void grain_dealloc(void *block) {
    uint8_t *head = (uint8_t *)block - HEAD;
    size_t mapped;
    memcpy(&mapped, head, sizeof mapped);
    live--;
    if (mapped == 0)
        free(head);
    else
        munmap(head - (uintptr_t)head % PAGE, mapped);
}

void *grain_realloc(void *block, size_t old_size, size_t size, size_t alignment) {
    void *grown = grain_alloc(size, alignment);
    if (grown != NULL) {
        memcpy(grown, block, old_size < size ? old_size : size);
        grain_dealloc(block);
    }
    return grown;
}

#endif
