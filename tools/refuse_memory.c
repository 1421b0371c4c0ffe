// Refuses one allocation of a program that it is preloaded into: the one whose number, from 1 on, is REFUSE_AT. The file
// REFUSE_COUNT holds how many of them there were, whatever ends the program.
#include <errno.h>
#include <fcntl.h>
#include <stddef.h>
#include <stdlib.h>
#include <sys/mman.h>
#include <unistd.h>

void *__libc_malloc(size_t);
void *__libc_calloc(size_t, size_t);
void *__libc_realloc(void *, size_t);
void *__libc_memalign(size_t, size_t);

static unsigned long nowhere;
static unsigned long *count = &nowhere;
static unsigned long refused_at;
static int counts;

__attribute__((constructor)) static void begin(void) {
    const char *at = getenv("REFUSE_AT"), *path = getenv("REFUSE_COUNT");
    int file = path ? open(path, O_RDWR | O_CREAT | O_TRUNC, 0600) : -1;
    if (file >= 0 && ftruncate(file, sizeof *count) == 0) {
        void *page = mmap(NULL, sizeof *count, PROT_READ | PROT_WRITE, MAP_SHARED, file, 0);
        if (page != MAP_FAILED) count = page;
        close(file);
    }
    refused_at = at ? strtoul(at, NULL, 10) : 0;
    counts = 1;
}

static int has_none(void) {
    if (!counts || ++*count != refused_at) return 0;
    errno = ENOMEM;
    return 1;
}

void *malloc(size_t size) { return has_none() ? NULL : __libc_malloc(size); }

void *calloc(size_t items, size_t size) { return has_none() ? NULL : __libc_calloc(items, size); }

void *realloc(void *old, size_t size) { return has_none() ? NULL : __libc_realloc(old, size); }

void *aligned_alloc(size_t align, size_t size) { return has_none() ? NULL : __libc_memalign(align, size); }

int posix_memalign(void **made, size_t align, size_t size) {
    if (has_none()) return ENOMEM;
    *made = __libc_memalign(align, size);
    return *made ? 0 : ENOMEM;
}
