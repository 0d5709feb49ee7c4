/* How the library allocates, unless the program defines these three itself: by the C library. */
#include "grain.h"

void *malloc(size_t size);
void *realloc(void *block, size_t size);
void free(void *block);

__attribute__((weak)) void *grain_alloc(size_t size, size_t alignment) {
    (void)alignment;
    return malloc(size);
}

__attribute__((weak)) void *grain_realloc(void *block, size_t old_size, size_t size, size_t alignment) {
    (void)old_size;
    (void)alignment;
    return realloc(block, size);
}

__attribute__((weak)) void grain_dealloc(void *block) {
    free(block);
}
