// Refuses one growth of memory of a program that it is loaded before (LD_PRELOAD): the one whose number stands in REFUSED_GROWTH,
// counted from 1. Once that was asked for, the file that REFUSED_NOTE names is there.
#include <errno.h>
#include <fcntl.h>
#include <stdatomic.h>
#include <stdlib.h>
#include <unistd.h>

extern void *__libc_malloc(size_t);
extern void *__libc_realloc(void *, size_t);

static atomic_long asked;
static long refused;
static const char *note;

__attribute__((constructor)) static void begin(void) {
    const char *number = getenv("REFUSED_GROWTH");
    note = getenv("REFUSED_NOTE");
    refused = number ? atol(number) : 0;
}

static int is_refused(void) {
    if (refused == 0 || ++asked != refused) {
        return 0;
    }
    if (note) {
        close(open(note, O_CREAT | O_WRONLY, 0600));
    }
    errno = ENOMEM;
    return 1;
}

void *malloc(size_t size) { return is_refused() ? NULL : __libc_malloc(size); }

void *realloc(void *kept, size_t size) { return is_refused() ? NULL : __libc_realloc(kept, size); }
