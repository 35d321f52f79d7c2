/* Is in front of the C library's `write`, by LD_PRELOAD: counts the calls that a program makes to standard output, or to the stream in
   WRITING_STREAM, and takes of each what the habit in WRITING_HABIT says. At its end the program writes to the file WRITING_COUNT how many calls there were, and how many of them took
   nothing.

       all          takes all
       one          takes one byte a call
       sixteenth    takes one byte at each sixteenth call, and nothing at any other
       fails N      takes all, but the call of the number N, from 1, and each after it fail
       breaks N     takes N bytes in all, and then each call fails
       stops N      takes N bytes in all, and then nothing */
#define _GNU_SOURCE
#include <dlfcn.h>
#include <errno.h>
#include <fcntl.h>
#include <stdio.h>
#include <stdlib.h>
#include <string.h>
#include <unistd.h>

static unsigned long calls, idle, taken, most;
static char habit[16];
static int stream = STDOUT_FILENO;
static ssize_t (*real)(int, const void *, size_t);

__attribute__((constructor)) static void begin(void) {
    const char *words = getenv("WRITING_HABIT"), *number = getenv("WRITING_STREAM");
    if (number) stream = atoi(number);
    real = (ssize_t (*)(int, const void *, size_t))dlsym(RTLD_NEXT, "write");
    if (!real || !words || sscanf(words, "%15s %lu", habit, &most) < 1) _exit(98);
}

__attribute__((destructor)) static void end(void) {
    const char *path = getenv("WRITING_COUNT");
    char text[48];
    int length = snprintf(text, sizeof text, "%lu %lu\n", calls, idle);
    int file = path ? open(path, O_WRONLY | O_CREAT | O_TRUNC, 0644) : -1;
    if (file < 0 || real(file, text, length) != length) _exit(99);
}

static int is(const char *word) { return strcmp(habit, word) == 0; }

/* How many of that many bytes are taken of the call that was counted last, or -1 if it fails. */
static ssize_t taken_of(size_t count) {
    size_t left = most - taken;
    if (is("all")) return count;
    if (is("one")) return count < 1 ? count : 1;
    if (is("sixteenth")) return calls % 16 == 0 && count > 0;
    if (is("fails")) return calls < most ? (ssize_t)count : -1;
    if (is("breaks") && left == 0) return -1;
    if (is("breaks") || is("stops")) return count < left ? count : left;
    _exit(97);
}

ssize_t write(int file, const void *bytes, size_t count) {
    if (file != stream) return real(file, bytes, count);
    calls++;
    ssize_t wanted = taken_of(count);
    if (wanted <= 0) idle++;
    if (wanted < 0) errno = EPIPE;
    if (wanted <= 0) return wanted;
    ssize_t written = real(file, bytes, wanted);
    if (written > 0) taken += written;
    return written;
}
