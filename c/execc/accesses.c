/* Accesses of the program to memory, which its compiler reports as for -fsanitize=thread. One to a word that another
 * task or an interrupt uses too, and that one of them writes, is a step of its own. Which words these are is found by
 * runs: at a new one all begins anew, in new processes. */
#include "execc.h"
#include <stdlib.h>
#include <sys/mman.h>
#include <unistd.h>

static struct {
    int is_on, count, is_whole;
    uintptr_t word[4096];
} * shared; /* one for all processes */
static struct {
    uintptr_t word;
    int who, is_written;
} touched[1 << 16]; /* a table of who used which word first */

void accesses_begin(int is_on) {
    shared = mmap(0, sizeof *shared, PROT_READ | PROT_WRITE, MAP_SHARED | MAP_ANONYMOUS, -1, 0);
    if (shared == MAP_FAILED) stop(FAILED, "out of memory");
    shared->is_on = is_on;
}
int accesses_shared(void) { return shared->count; }

/* A machine begins with a small memory, which takes less time. What shows how much there is begins all anew with the
 * whole one: what is refused, an alert, AvailMem, a recorded file. */
int memory_is_small(void) { return !shared->is_whole; }
void need_memory(int is_needed) {
    if (!is_needed || shared->is_whole) return;
    shared->is_whole = 1;
    if (task_count) _exit(AGAIN);
}

static int is_shared(uintptr_t word) {
    for (int i = 0; i < shared->count; i++)
        if (shared->word[i] == word) return 1;
    return 0;
}

/* Whether a word is new among those that are shared. */
static int becomes_shared(uintptr_t word, int who, int is_write) {
    unsigned at = (uint32_t)((uint32_t)(word >> 2) * 2654435761u) >> 16;
    for (int i = 0; touched[at].word && touched[at].word != word; i++) {
        if (i == 1 << 16) stop(FAILED, "the program uses more than 65,536 words of memory; give --accesses none");
        at = (at + 1) & 0xFFFF;
    }
    if (touched[at].word && touched[at].who != who && (is_write || touched[at].is_written)) return 1;
    if (!touched[at].word) touched[at].who = who;
    touched[at].word = word;
    touched[at].is_written |= is_write;
    return 0;
}

static void access_to(const void *place, int is_write, const void *from) {
    if ((current < 0 && serving < 0) || !shared->is_on || place == &execc_here) return;
    char *stack = serving >= 0 ? interrupts[serving].fiber.stack : tasks[current].fiber.stack;
    if ((char *)place >= stack && (char *)place < stack + STACK) return;
    uintptr_t word = (uintptr_t)place & ~(uintptr_t)3;
    if (!is_shared(word)) {
        if (!becomes_shared(word, serving >= 0 ? MOST_TASKS + serving : current, is_write)) return;
        if (shared->count == 4096)
            stop(FAILED, "the program shares more than 4,096 words of memory; give --accesses none");
        shared->word[shared->count++] = word;
        _exit(AGAIN);
    }
    if (serving >= 0) return;
    struct execc_place *outer = execc_here;
    const char *text = is_write ? "a write of shared memory" : "a read of shared memory";
    struct execc_place here = {outer, outer ? outer->file : 0, text, outer ? outer->line : 0, from};
    execc_here = &here;
    issue("Set 0");
    execc_here = here.outer;
}

#define FROM __builtin_return_address(0)
#define SIZED(size) \
    void __tsan_read##size(void *at) { access_to(at, 0, FROM); } \
    void __tsan_write##size(void *at) { access_to(at, 1, FROM); } \
    void __tsan_unaligned_read##size(void *at) { access_to(at, 0, FROM); } \
    void __tsan_unaligned_write##size(void *at) { access_to(at, 1, FROM); } \
    void __tsan_volatile_read##size(void *at) { access_to(at, 0, FROM); } \
    void __tsan_volatile_write##size(void *at) { access_to(at, 1, FROM); }
SIZED(1) SIZED(2) SIZED(4) SIZED(8) SIZED(16) void *__tsan_memcpy(void *to, const void *from, size_t size) {
    access_to(from, 0, FROM);
    access_to(to, 1, FROM);
    return memcpy(to, from, size);
}
void *__tsan_memmove(void *to, const void *from, size_t size) {
    access_to(from, 0, FROM);
    access_to(to, 1, FROM);
    return memmove(to, from, size);
}
void *__tsan_memset(void *to, int value, size_t size) {
    access_to(to, 1, FROM);
    return memset(to, value, size);
}
void __tsan_read_range(void *at, size_t size) { access_to(at, 0, size ? FROM : 0); }
void __tsan_write_range(void *at, size_t size) { access_to(at, 1, size ? FROM : 0); }
void __tsan_init(void) {}
void __tsan_func_entry(void *from) { (void)from; }
void __tsan_func_exit(void) {}

/* The lines of the program at which the accesses were, by one addr2line for all. */
enum { MOST_NAMED = 2048, TRIES = 5 };
static struct {
    const void *access;
    const char *file;
    int line;
} named[MOST_NAMED];
static int named_count;

static int named_at(const void *access) {
    int at = 0;
    while (at < named_count && named[at].access != access) at++;
    return at;
}

/* What addr2line says of an access, FILE:LINE. */
static void note_name(int at, const char *said) {
    extern const char *execc_files[];
    const char *colon = strchr(said, ':');
    for (int f = 0; colon && execc_files[f]; f++) {
        const char *slash = strrchr(execc_files[f], '/'), *name = slash ? slash + 1 : execc_files[f];
        if (named[at].line || strncmp(name, said, colon - said) || name[colon - said]) continue;
        named[at].file = execc_files[f];
        named[at].line = atoi(colon + 1);
    }
}

void accesses_name(void) {
    static const int back[TRIES] = {1, 6, 12, 24, 48}; /* clang gives no line to some of its instructions */
    int begun = named_count;
    char *command, said[512];
    size_t length;
    FILE *to = open_memstream(&command, &length);
    fprintf(to, "addr2line -s -e '%s'", self);
    for (int i = 0; i < task_count; i++)
        for (int k = 0; k < tasks[i].lines.count; k++) {
            const void *access = tasks[i].lines.line[k].access;
            if (!access || named_count == MOST_NAMED || named_at(access) < named_count) continue;
            named[named_count++].access = access;
            for (int n = 0; n < TRIES; n++) fprintf(to, " %p", (void *)((const char *)access - back[n]));
        }
    fputs(" 2>/dev/null", to);
    fclose(to);
    FILE *from = begun < named_count ? popen(command, "r") : 0;
    for (int n = 0; from && n < (named_count - begun) * TRIES && fgets(said, sizeof said, from); n++)
        note_name(begun + n / TRIES, said);
    if (from) pclose(from);
    free(command);
    for (int i = 0; i < task_count; i++)
        for (int k = 0; k < tasks[i].lines.count; k++) {
            Line *line = &tasks[i].lines.line[k];
            int at = line->access ? named_at(line->access) : named_count;
            if (at == named_count || !named[at].line) continue;
            line->file = named[at].file;
            line->line = named[at].line;
        }
}
