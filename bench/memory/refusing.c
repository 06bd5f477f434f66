// Refuses one request for memory: loaded before the C library (LD_PRELOAD), it counts the requests of `malloc` and the
// like, and answers the one with the number REFUSED with none. At the end it writes to the file COUNTED how many
// there were, where one is named. Threads may ask at the same time.
#define _GNU_SOURCE
#include <errno.h>
#include <stddef.h>
#include <stdio.h>
#include <stdlib.h>
#include <sys/syscall.h>
#include <unistd.h>

void *__libc_malloc(size_t size);
void *__libc_calloc(size_t count, size_t size);
void *__libc_realloc(void *old, size_t size);
void *__libc_memalign(size_t align, size_t size);

static unsigned long counted, refused;

__attribute__((constructor)) static void begin(void) {
    const char *number = getenv("REFUSED");
    refused = number ? strtoul(number, NULL, 10) : 0;
    counted = 0;
}

static void end(void) {
    const char *path = getenv("COUNTED");
    unsigned long requests = counted;
    FILE *file = path ? fopen(path, "w") : NULL;
    if (file) {
        fprintf(file, "%lu\n", requests);
        fclose(file);
    }
}

// The program ends by this call, which runs no destructor.
void _exit(int status) {
    end();
    syscall(SYS_exit_group, status);
    __builtin_unreachable();
}

// Whether this request is the one that is refused.
static int is_refused(void) {
    if (__atomic_add_fetch(&counted, 1, __ATOMIC_SEQ_CST) != refused)
        return 0;
    errno = ENOMEM;
    return 1;
}

void *malloc(size_t size) { return is_refused() ? NULL : __libc_malloc(size); }

void *calloc(size_t count, size_t size) { return is_refused() ? NULL : __libc_calloc(count, size); }

void *realloc(void *old, size_t size) { return is_refused() ? NULL : __libc_realloc(old, size); }

void *memalign(size_t align, size_t size) { return is_refused() ? NULL : __libc_memalign(align, size); }

void *aligned_alloc(size_t align, size_t size) { return is_refused() ? NULL : __libc_memalign(align, size); }

int posix_memalign(void **to, size_t align, size_t size) {
    void *made = is_refused() ? NULL : __libc_memalign(align, size);
    if (!made)
        return ENOMEM;
    *to = made;
    return 0;
}
