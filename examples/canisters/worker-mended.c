// worker.c, mended.
#define MENDED
#include "worker.c"
