/* For the kit's clang, which comes without headers: what the library and its tests need of them. */
#ifndef GRAIN_STDINT_H
#define GRAIN_STDINT_H
#define SIZE_MAX __SIZE_MAX__
#define UINT16_MAX __UINT16_MAX__
#define UINT32_MAX __UINT32_MAX__
#define UINT64_MAX __UINT64_MAX__
#define UINT64_C(number) number##ULL
typedef __UINT8_TYPE__ uint8_t;
typedef __UINT16_TYPE__ uint16_t;
typedef __UINT32_TYPE__ uint32_t;
typedef __UINT64_TYPE__ uint64_t;
typedef __INT64_TYPE__ int64_t;
#endif
