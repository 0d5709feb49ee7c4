/* For the kit's clang, which comes without headers: what the library and its tests need of them. */
#define bool _Bool
#define true 1
#define false 0
