// Refuses one allocation of the program that is run with this library in LD_PRELOAD: that of the number RAVEN_REFUSE, from 1, or none with 0.
// When it does, it makes the file RAVEN_REFUSED. That is not left to the end of the program, which may come without a word to any library.
#include <fcntl.h>
#include <stdlib.h>
#include <unistd.h>

extern void *__libc_malloc(size_t size);
extern void *__libc_realloc(void *at, size_t size);

static unsigned long refused, calls;

__attribute__((constructor)) static void begin(void) {
    const char *number = getenv("RAVEN_REFUSE");
    refused = number ? strtoul(number, NULL, 10) : 0;
}

// Counts one allocation. They can come from several threads.
static int is_refused(void) {
    if (__atomic_add_fetch(&calls, 1, __ATOMIC_SEQ_CST) != refused) {
        return 0;
    }
    const char *path = getenv("RAVEN_REFUSED");
    int file = path ? open(path, O_WRONLY | O_CREAT, 0600) : -1;
    if (file >= 0) {
        close(file);
    }
    return 1;
}

void *malloc(size_t size) {
    return is_refused() ? NULL : __libc_malloc(size);
}

void *realloc(void *at, size_t size) {
    return is_refused() ? NULL : __libc_realloc(at, size);
}
