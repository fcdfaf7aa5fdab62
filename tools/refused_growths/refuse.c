/* Refuses allocations of the program that it is preloaded into. malloc, calloc, realloc and the aligned ones are
   counted from 1. REFUSE=K refuses the one of that number, REFUSE_FROM=K that one and each behind it; where
   REFUSE_COUNT names a file, the count is written there at the end of the program. What free gives back, and what the
   system maps without malloc, is not counted. */
#include <errno.h>
#include <fcntl.h>
#include <stddef.h>
#include <stdlib.h>
#include <unistd.h>

extern void *__libc_malloc(size_t);
extern void *__libc_calloc(size_t, size_t);
extern void *__libc_realloc(void *, size_t);
extern void *__libc_memalign(size_t, size_t);

static unsigned long count, one, from;
static int ready;

static unsigned long number(const char *name) {
    const char *text = getenv(name);
    unsigned long n = 0;
    for (; text && *text >= '0' && *text <= '9'; text++) n = n * 10 + (unsigned long)(*text - '0');
    return n;
}

/* Whether the next allocation is refused. Before main nothing is counted, so that the numbers are the program's. */
static int refused(void) {
    if (!ready) return 0;
    count++;
    if (count != one && (from == 0 || count < from)) return 0;
    errno = ENOMEM;
    return 1;
}

void *malloc(size_t size) { return refused() ? NULL : __libc_malloc(size); }
void *calloc(size_t items, size_t size) { return refused() ? NULL : __libc_calloc(items, size); }
void *realloc(void *old, size_t size) { return refused() ? NULL : __libc_realloc(old, size); }
void *memalign(size_t align, size_t size) { return refused() ? NULL : __libc_memalign(align, size); }
void *aligned_alloc(size_t align, size_t size) { return memalign(align, size); }

int posix_memalign(void **out, size_t align, size_t size) {
    void *made = memalign(align, size);
    if (!made) return ENOMEM;
    *out = made;
    return 0;
}

__attribute__((constructor)) static void begin(void) {
    one = number("REFUSE");
    from = number("REFUSE_FROM");
    ready = 1;
}

__attribute__((destructor)) static void end(void) {
    const char *name = getenv("REFUSE_COUNT");
    char digits[24];
    int at = sizeof digits, file;
    unsigned long n = count;
    ready = 0;
    if (!name || (file = open(name, O_WRONLY | O_CREAT | O_TRUNC, 0644)) < 0) return;
    do digits[--at] = (char)('0' + n % 10); while (n /= 10);
    if (write(file, digits + at, sizeof digits - (size_t)at) < 0) _exit(127);
    close(file);
}
