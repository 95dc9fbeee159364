/* Loaded before the C library: counts the bytes that a run has of memory. At the end the most that it had at once is written
 * to standard error; while a block is made larger, its old and its new bytes count. */
#include <malloc.h>
#include <stdio.h>
#include <unistd.h>

void *__libc_malloc(size_t);
void *__libc_realloc(void *, size_t);
void __libc_free(void *);

static size_t held, peak;

static void took(size_t size) {
    held += size;
    peak = held > peak ? held : peak;
}

void *malloc(size_t size) {
    void *block = __libc_malloc(size);
    took(malloc_usable_size(block));
    return block;
}

void *realloc(void *old, size_t size) {
    size_t before = malloc_usable_size(old);
    void *block = __libc_realloc(old, size);
    if (block != NULL) {
        took(malloc_usable_size(block));
        held -= before;
    }
    return block;
}

void free(void *block) {
    held -= malloc_usable_size(block);
    __libc_free(block);
}

__attribute__((destructor)) static void report(void) {
    char text[32];
    int length = snprintf(text, sizeof text, "%zu", peak);
    if (write(2, text, length) != length)
        _exit(99);
}
