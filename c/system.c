/* What the proved program calls of the toolchain's layer between it and the C library, for processors for which the toolchain has none: the words of the
 * command line, the environment, and the number of the last error. c/heap.c has the heap; the rest it calls of the C library itself. */
#include <errno.h>
#include <stdint.h>
#include <stdlib.h>
#include <string.h>

enum { NOT_THERE = -1, TOO_LONG = -2 };

extern char **environ;
static int64_t count;
static char **words;

/* Keeps the words of the command line before `main`, which is the program's. */
__attribute__((constructor)) static void keep(int given, char **these) {
    count = given;
    words = these;
}

/* Copies a text without its 0, if there is one and there is room; the answer is its length, or what is wrong. */
static int64_t copy(const char *text, uint8_t *out, uint64_t room) {
    if (!text) {
        return NOT_THERE;
    }
    uint64_t length = strlen(text);
    if (length > room) {
        return TOO_LONG;
    }
    memcpy(out, text, length);
    return (int64_t)length;
}

int64_t rattle_arg(uint64_t number, uint8_t *out, uint64_t room) {
    return copy(number < (uint64_t)count ? words[number] : NULL, out, room);
}

int64_t rattle_env(const char *name, uint8_t *out, uint64_t room) {
    return copy(getenv(name), out, room);
}

int64_t rattle_env_at(uint64_t number, uint8_t *out, uint64_t room) {
    char **at = environ;
    while (at && *at && number--) {
        at++;
    }
    return copy(at ? *at : NULL, out, room);
}

/* The program asks here whether the processor has what x86-64-v2 has, as the C library of x86-64 says it: each bit is set, since its code for another
 * processor needs none of that. */
const uint32_t *__x86_get_cpuid_feature_leaf(uint32_t leaf);
const uint32_t *__x86_get_cpuid_feature_leaf(uint32_t leaf) {
    static const uint32_t all[8] = {~0u, ~0u, ~0u, ~0u, ~0u, ~0u, ~0u, ~0u};
    (void)leaf;
    return all;
}

int rattle_errno(void) {
    return errno;
}

void rattle_set_errno(int number) {
    errno = number;
}
