// Allocation functions that refuse one growth. They are put before the C library's by LD_PRELOAD:
//
//     REFUSE=N REFUSE_TO=FD LD_PRELOAD=./refuse.so PROGRAM
//
// The Nth call that asks for memory, counted from 1 over all of these functions, gets none, and then one byte is written to the open
// file FD. If that file stays empty, the program ended before an Nth call. Rattle's programs ask by malloc and realloc; the others
// are here so that no growth goes by.
#define _GNU_SOURCE
#include <errno.h>
#include <stddef.h>
#include <stdlib.h>
#include <unistd.h>

// The C library's own, by the names under which it exports them beside those that stand here.
void *__libc_malloc(size_t size);
void *__libc_calloc(size_t count, size_t size);
void *__libc_realloc(void *old, size_t size);
void *__libc_memalign(size_t alignment, size_t size);

static unsigned long number_of(const char *name) {
    const char *text = getenv(name);
    return text ? strtoul(text, NULL, 10) : 0;
}

// Whether this call is the one that is refused. One thread alone is counted right, which is all that is needed here.
static int is_refused(void) {
    static unsigned long calls, refused;
    if (calls == 0)
        refused = number_of("REFUSE");
    calls++;
    if (calls != refused)
        return 0;
    if (write((int)number_of("REFUSE_TO"), "x", 1) != 1)
        _exit(125);
    errno = ENOMEM;
    return 1;
}

void *malloc(size_t size) {
    return is_refused() ? NULL : __libc_malloc(size);
}

void *calloc(size_t count, size_t size) {
    return is_refused() ? NULL : __libc_calloc(count, size);
}

void *realloc(void *old, size_t size) {
    return is_refused() ? NULL : __libc_realloc(old, size);
}

void *memalign(size_t alignment, size_t size) {
    return is_refused() ? NULL : __libc_memalign(alignment, size);
}

void *aligned_alloc(size_t alignment, size_t size) {
    return is_refused() ? NULL : __libc_memalign(alignment, size);
}

int posix_memalign(void **found, size_t alignment, size_t size) {
    void *memory = is_refused() ? NULL : __libc_memalign(alignment, size);
    if (memory == NULL)
        return ENOMEM;
    *found = memory;
    return 0;
}
