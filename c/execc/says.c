/* What is shown of a run, which is kept until it ends or stops, and the sentences that end it: each names the place,
 * the thing and the way out. */
#include "execc.h"
#include <stdlib.h>
#include <sys/time.h>
#include <sys/wait.h>
#include <unistd.h>

char *shown;
size_t shown_length;
static size_t shown_room;
char self[4096];
sigjmp_buf end_of_way;
struct execc_place *execc_here;
void execc_back(struct execc_place *place) { execc_here = place->outer; }

void show(const char *text, size_t length) {
    if (shown_length + length > shown_room) {
        shown_room = 2 * (shown_length + length) + 4096;
        shown = realloc(shown, shown_room);
        if (!shown) stop(FAILED, "out of memory for what is shown");
    }
    memcpy(shown + shown_length, text, length);
    shown_length += length;
}

/* Writes what is shown, also from a handler of signals. */
void flush(void) {
    size_t from = 0;
    if (is_quiet) return;
    while (from < shown_length) {
        ssize_t n = write(1, shown + from, shown_length - from);
        if (n <= 0) {
            static const char text[] = "execc: the output cannot be written\n";
            shown_length = 0;
            if (write(2, text, sizeof text - 1) < 0) _exit(FAILED);
            _exit(FAILED);
        }
        from += n;
    }
    shown_length = 0;
}

static void write_place(FILE *to) {
    int has_place = execc_here && execc_here->file;
    if (has_place) fprintf(to, "%s:%d: ", execc_here->file, execc_here->line);
    else if (!is_quiet) fprintf(to, "execc: ");
    if (serving >= 0) fprintf(to, "in interrupt \"%s\", ", interrupts[serving].name);
    else if (current >= 0) fprintf(to, "in task \"%s\", ", tasks[current].name);
    if (has_place) fprintf(to, "%s: ", execc_here->text);
}

/* In a search a sentence is what is seen at the end of its way. */
static void end_way(const char *what, const char *text) {
    show("  ", 2);
    show(what, strlen(what));
    show(text, strcspn(text, "\n"));
    show("\n", 1);
    siglongjmp(end_of_way, 1);
}

static void say_values(int ends_way, const char *format, va_list values) {
    char text[2048];
    FILE *to = fmemopen(text, sizeof text, "w");
    write_place(to);
    vfprintf(to, format, values);
    fputc('\n', to);
    fclose(to);
    if (is_quiet && ends_way) end_way("refused: ", text);
    flush();
    if (write(2, text, strnlen(text, sizeof text)) < 0) _exit(FAILED);
}

/* A sentence on standard error, after what was shown. */
void say(const char *format, ...) {
    va_list values;
    va_start(values, format);
    say_values(0, format, values);
    va_end(values);
}

/* A sentence that ends the run: the program does what is not here. */
void refuse(const char *format, ...) {
    va_list values;
    va_start(values, format);
    say_values(1, format, values);
    _exit(REFUSED);
}

void stop(int status, const char *format, ...) {
    va_list values;
    va_start(values, format);
    say_values(0, format, values);
    _exit(status);
}

/* A crash, a full stack, or a loop with no call: the task, the last call before it, and the line of the program, by
 * addr2line. */
static void say_fault(const char *what, const char *mend, void *code) {
    char text[600], at[32];
    FILE *to = fmemopen(text, sizeof text, "w");
    flush();
    fprintf(to, is_quiet ? "%s" : "execc: %s", what);
    if (serving >= 0) fprintf(to, " in interrupt \"%s\"", interrupts[serving].name);
    else if (current >= 0) fprintf(to, " in task \"%s\"", tasks[current].name);
    else fprintf(to, " outside of all tasks");
    Lines *lines = serving >= 0 ? &interrupts[serving].lines : current >= 0 ? &tasks[current].lines : 0;
    Line *last = lines && lines->count ? &lines->line[lines->count - 1] : 0;
    if (last && last->file) fprintf(to, ", after %s at %s:%d", last->call, last->file, last->line);
    if (!is_quiet) fprintf(to, "; %s: ", mend);
    fclose(to);
    if (is_quiet) end_way("crash: ", text);
    if (write(2, text, strnlen(text, sizeof text)) < 0) return;
    snprintf(at, sizeof at, "%p", code);
    pid_t child = fork();
    if (!child) {
        dup2(2, 1);
        execlp("addr2line", "addr2line", "-e", self, "-s", "-f", "-p", at, (char *)0);
        _exit(1);
    }
    while (waitpid(child, 0, 0) < 0) {}
}

static void crashed(int number, siginfo_t *info, void *context) {
    char what[120];
    const char *mend = "mend this line";
    char *at = info->si_addr, *stack = 0;
    if (serving >= 0) stack = interrupts[serving].fiber.stack;
    else if (current >= 0) stack = tasks[current].fiber.stack;
    snprintf(what, sizeof what, "a wrong memory access, address 0x%lx,", (unsigned long)at);
    if (number == SIGFPE) strcpy(what, "a division by zero");
    if (number == SIGABRT) strcpy(what, "abort() or a failed assert()");
    if (stack && at >= stack && at < stack + 4096) {
        strcpy(what, "the stack of 256 KB is full");
        mend = "use less of it here";
    }
    say_fault(what, mend, (void *)((ucontext_t *)context)->uc_mcontext.gregs[REG_RIP]);
    _exit(CRASHED);
}

static void watched(int number, siginfo_t *info, void *context) {
    static long last = -1;
    static int times;
    (void)number, (void)info;
    times = actions == last && (current >= 0 || serving >= 0) ? times + 1 : 0;
    last = actions;
    if (times < 4) return;
    say_fault("2 s of processor without a call of Exec", "let this loop wait, or end",
              (void *)((ucontext_t *)context)->uc_mcontext.gregs[REG_RIP]);
    _exit(CRASHED);
}

static void interrupted(int number) {
    (void)number;
    flush();
    _exit(INTERRUPTED);
}

/* From here on a crash has its sentence, and so has a loop without a call. */
void watch_faults(void) {
    static char stack[1 << 16];
    sigaltstack(&(stack_t){.ss_sp = stack, .ss_size = sizeof stack}, 0);
    struct sigaction action = {.sa_sigaction = crashed, .sa_flags = SA_SIGINFO | SA_ONSTACK | SA_NODEFER};
    const int faults[] = {SIGSEGV, SIGBUS, SIGFPE, SIGILL, SIGABRT};
    for (size_t i = 0; i < sizeof faults / sizeof *faults; i++) sigaction(faults[i], &action, 0);
    action.sa_sigaction = watched;
    sigaction(SIGVTALRM, &action, 0);
    signal(SIGINT, interrupted);
    signal(SIGTERM, interrupted);
    setitimer(ITIMER_VIRTUAL, &(struct itimerval){{0, 500000}, {0, 500000}}, 0);
}
