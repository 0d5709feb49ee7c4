/* For the kit's clang, which comes without headers: what the library and its tests need of them. */
#ifndef GRAIN_STDDEF_H
#define GRAIN_STDDEF_H
#define NULL ((void *)0)
#define offsetof(type, field) __builtin_offsetof(type, field)
typedef __SIZE_TYPE__ size_t;
#endif
