/* What stands in for the environment of C, as one file, so that it is compiled at once. */
#include "heap.c"
#undef WEAK
#include "streams.c"
#undef WEAK
#include "start.c"
__asm__(".include \"ends.s\"");
