/* Loaded before the C library: counts the requests for memory of a run, from 1 on, and refuses those from the number in
 * the variable FIRST up to that in LAST. At the end the count is written to standard error. */
#include <errno.h>
#include <stdint.h>
#include <stdio.h>
#include <stdlib.h>
#include <sys/mman.h>
#include <sys/syscall.h>
#include <unistd.h>

void *__libc_malloc(size_t);
void *__libc_calloc(size_t, size_t);
void *__libc_realloc(void *, size_t);
void *__libc_memalign(size_t, size_t);

static unsigned long requests;

static unsigned long number(const char *name) {
    const char *text = getenv(name);
    return text ? strtoul(text, NULL, 10) : 0;
}

static int is_refused(void) {
    requests++;
    return number("FIRST") <= requests && requests <= number("LAST");
}

void *malloc(size_t size) {
    return is_refused() ? NULL : __libc_malloc(size);
}

void *realloc(void *block, size_t size) {
    return is_refused() ? NULL : __libc_realloc(block, size);
}

void *calloc(size_t count, size_t size) {
    return is_refused() ? NULL : __libc_calloc(count, size);
}

void *memalign(size_t alignment, size_t size) {
    return is_refused() ? NULL : __libc_memalign(alignment, size);
}

void *aligned_alloc(size_t alignment, size_t size) {
    return memalign(alignment, size);
}

int posix_memalign(void **block, size_t alignment, size_t size) {
    void *made = memalign(alignment, size);
    if (made == NULL)
        return ENOMEM;
    *block = made;
    return 0;
}

void *mmap(void *at, size_t size, int rights, int kind, int file, off_t from) {
    if (is_refused()) {
        errno = ENOMEM;
        return MAP_FAILED;
    }
    return (void *)(intptr_t)syscall(SYS_mmap, at, size, rights, kind, file, from);
}

void *mmap64(void *at, size_t size, int rights, int kind, int file, off_t from) {
    return mmap(at, size, rights, kind, file, from);
}

__attribute__((destructor)) static void report(void) {
    char text[32];
    int length = snprintf(text, sizeof text, "%lu", requests);
    if (write(2, text, length) != length)
        _exit(99);
}
