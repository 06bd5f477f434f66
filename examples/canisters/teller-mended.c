// teller.c, mended.
#define MENDED
#include "teller.c"
