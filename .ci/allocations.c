/* Is in front of the C library's allocation, by LD_PRELOAD: counts the allocations of a program, which are the calls that ask for memory,
   and refuses the one of the number in ALLOCATION_REFUSED, from 1, and the one after it, by which a vector asks again where it cannot be made longer in its
   place. At its end the program writes how many there were to the file ALLOCATION_COUNT. */
#include <errno.h>
#include <fcntl.h>
#include <stdio.h>
#include <stdlib.h>
#include <unistd.h>

extern void *__libc_malloc(size_t);
extern void *__libc_calloc(size_t, size_t);
extern void *__libc_realloc(void *, size_t);
extern void *__libc_memalign(size_t, size_t);

static unsigned long allocations, refused;

/* The program begins: what came before was the loader's. */
__attribute__((constructor)) static void begin(void) {
    const char *number = getenv("ALLOCATION_REFUSED");
    refused = number ? strtoul(number, 0, 10) : 0;
    allocations = 0;
}

__attribute__((destructor)) static void end(void) {
    const char *path = getenv("ALLOCATION_COUNT");
    char text[24];
    int length = snprintf(text, sizeof text, "%lu\n", allocations);
    int file = path ? open(path, O_WRONLY | O_CREAT | O_TRUNC, 0644) : -1;
    if (path && (file < 0 || write(file, text, length) != length)) _exit(99);
}

static int is_refused(void) {
    allocations++;
    int is_it = refused && (allocations == refused || allocations == refused + 1);
    if (is_it) errno = ENOMEM;
    return is_it;
}

void *malloc(size_t size) { return is_refused() ? 0 : __libc_malloc(size); }
void *calloc(size_t count, size_t size) { return is_refused() ? 0 : __libc_calloc(count, size); }
void *realloc(void *old, size_t size) { return is_refused() ? 0 : __libc_realloc(old, size); }
void *aligned_alloc(size_t align, size_t size) { return is_refused() ? 0 : __libc_memalign(align, size); }
void *memalign(size_t align, size_t size) { return is_refused() ? 0 : __libc_memalign(align, size); }

int posix_memalign(void **made, size_t align, size_t size) {
    if (is_refused()) return ENOMEM;
    *made = __libc_memalign(align, size);
    return *made ? 0 : ENOMEM;
}
