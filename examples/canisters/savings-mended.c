// savings.c, mended.
#define MENDED
#include "savings.c"
