// Counts the requests for memory of a program, and refuses that with the number FAIL_AT, counted from 1. Where one was
// refused, the file REFUSED_TO is there afterwards.
#include <errno.h>
#include <fcntl.h>
#include <stdatomic.h>
#include <stddef.h>
#include <stdlib.h>
#include <unistd.h>

extern void *__libc_malloc(size_t size);
extern void *__libc_realloc(void *old, size_t size);

static atomic_ulong count;
static unsigned long refused;
static const char *mark;

__attribute__((constructor)) static void begin(void) {
    const char *text = getenv("FAIL_AT");
    refused = text ? strtoul(text, NULL, 10) : 0;
    mark = getenv("REFUSED_TO");
    count = 0;
}

static int is_refused(void) {
    if (++count != refused) return 0;
    if (mark) close(open(mark, O_WRONLY | O_CREAT, 0600));
    errno = ENOMEM;
    return 1;
}

void *malloc(size_t size) { return is_refused() ? NULL : __libc_malloc(size); }

void *realloc(void *old, size_t size) { return is_refused() ? NULL : __libc_realloc(old, size); }
