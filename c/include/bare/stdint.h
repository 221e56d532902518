// GCC's <stdint.h> asks for that of a C library, but has what is needed where there is none.
#ifdef __clang__
#include_next <stdint.h>
#else
#include <stdint-gcc.h>
#endif
