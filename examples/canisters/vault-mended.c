// vault.c, mended.
#define MENDED
#include "vault.c"
