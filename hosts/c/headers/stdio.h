/* For the kit's clang, which comes without headers: what the library and its tests need of them. */
int printf(const char *, ...);
