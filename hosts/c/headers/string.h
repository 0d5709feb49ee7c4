/* For the kit's clang, which comes without headers: what the library and its tests need of them. */
#include <stddef.h>
void *memcpy(void *, const void *, size_t);
