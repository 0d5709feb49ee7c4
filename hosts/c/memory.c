/* The functions by which the kit's code allocates, over grain_alloc, grain_realloc and grain_dealloc. */
#include "grain.h"
#include "kit.h"

/* The kit's code allocates blocks of no bytes too. */
static size_t some_size(size_t size, size_t alignment) {
    return size != 0 ? size : alignment;
}

answer rattle_alloc(size_t size, size_t alignment) {
    return answer_of(grain_alloc(some_size(size, alignment), alignment));
}

answer rattle_realloc(void *block, size_t old_size, size_t size, size_t alignment) {
    return answer_of(grain_realloc(block, some_size(old_size, alignment), some_size(size, alignment), alignment));
}

void rattle_dealloc(void *block) {
    grain_dealloc(block);
}
