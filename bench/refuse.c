// Refuses requests for memory of the program that loads it (LD_PRELOAD): REFUSE_FROM is the first that is refused, counted from 1, and 0
// is none; REFUSE_UNTIL is the last. REFUSE_COUNT names a file whose first eight bytes count the requests.
#define _GNU_SOURCE
#include <errno.h>
#include <fcntl.h>
#include <stddef.h>
#include <stdint.h>
#include <stdlib.h>
#include <sys/mman.h>
#include <unistd.h>

extern void *__libc_malloc(size_t);
extern void *__libc_calloc(size_t, size_t);
extern void *__libc_realloc(void *, size_t);
extern void *__libc_memalign(size_t, size_t);

static uint64_t *count;
static uint64_t from, until;

__attribute__((constructor)) static void begin(void) {
    const char *name = getenv("REFUSE_COUNT");
    int file = name ? open(name, O_RDWR | O_CLOEXEC) : -1;
    void *place = file < 0 ? MAP_FAILED : mmap(NULL, 8, PROT_READ | PROT_WRITE, MAP_SHARED, file, 0);
    if (file >= 0) close(file);
    from = getenv("REFUSE_FROM") ? strtoull(getenv("REFUSE_FROM"), NULL, 10) : 0;
    until = getenv("REFUSE_UNTIL") ? strtoull(getenv("REFUSE_UNTIL"), NULL, 10) : 0;
    if (place == MAP_FAILED) _exit(99);
    unsetenv("LD_PRELOAD");  // (children have their memory)
    count = place;
}

static int refused(void) {
    if (!count) return 0;
    uint64_t now = ++*count;
    if (!from || now < from || now > until) return 0;
    errno = ENOMEM;
    return 1;
}

void *malloc(size_t size) { return refused() ? NULL : __libc_malloc(size); }
void *calloc(size_t many, size_t size) { return refused() ? NULL : __libc_calloc(many, size); }
void *realloc(void *old, size_t size) { return refused() ? NULL : __libc_realloc(old, size); }
void *aligned_alloc(size_t to, size_t size) { return refused() ? NULL : __libc_memalign(to, size); }

int posix_memalign(void **place, size_t to, size_t size) {
    if (refused()) return ENOMEM;
    *place = __libc_memalign(to, size);
    return *place ? 0 : ENOMEM;
}
