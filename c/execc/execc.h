/* A C program for Exec that runs on the proved machine: what the files of this folder share. Each task of the program
 * is a coroutine. Each call of Exec that it makes is one more line of its task's body in a machine file, and the answer
 * is the machine's. The lines are kept: they are a machine file, whose run over the same events is this run. None of
 * this folder is proved. */
#ifndef EXECC_H
#define EXECC_H
#define EXECC_OWN
#define _GNU_SOURCE
#include <clib/alib_protos.h>
#include <clib/exec_protos.h>
#include <devices/timer.h>
#include <setjmp.h>
#include <signal.h>
#include <ucontext.h>

enum {
    MOST_TASKS = 64,
    MOST_INTERRUPTS = 32,
    MOST_LINES = 1024,
    STACK = 1 << 18,
    BASE = 0x00200000,
    SIZE = 0x00100000,
    SMALL = 0x00010000
};
/* How execc ends, beside 0: the program is refused; the command line or the events are; an alert or findings; a file or
 * memory; a crash; not the same. */
enum { REFUSED = 1, BAD_WORDS = 2, FOUND = 3, FAILED = 4, CRASHED = 5, DIFFERS = 6, INTERRUPTED = 130, AGAIN = 77 };
enum { STEP, TICK, PORTS, EXTER, EVENTS }; /* what an action is */
enum { SOFTINT, SERVER };                  /* what an interrupt is */

/* A command that was fed, with the call that it comes from; or, without a call, the address of the access that it is.
 */
typedef struct {
    char *text;
    const char *call, *file;
    int line;
    const void *access;
} Line;
typedef struct {
    Line *line;
    int count, room;
} Lines;
/* A stack with what runs on it. */
typedef struct {
    ucontext_t context;
    char *stack;
    const void *bottom;
    size_t size;
    void *fake;
} Fiber;
/* A task of the program. It is whole if its code has returned. */
typedef struct {
    struct Task *host;
    char name[32];
    LONG pri;
    int starts, is_whole;
    Lines lines;
    ULONG answer;
    void (*code)(void);
    Fiber fiber;
} Task;
/* An interrupt server or a software interrupt. It is whole if it was served once. */
typedef struct {
    struct Interrupt *host;
    char name[32];
    int kind, source, pri, is_whole, is_removed, at;
    Lines lines;
    ULONG answer;
    Line next; /* the call that its code has made, if it has */
    Fiber fiber;
} Interrupt;
/* What is seen of a task of the machine. */
typedef struct {
    ULONG state, received, allocated, waits_for;
    int priority, forbids, disables, place;
} View;

/* What is seen of a request of timer.device. */
typedef struct {
    ULONG command, seconds, micros, is_quick;
    LONG error;
} Request;
/* A line of the trace: its two first words, the addresses behind them, and what is answered. */
typedef struct {
    char first[40], second[40];
    ULONG address[2], answer;
    int has_answer, waits, is_long; /* there is a third word */
} Said;

extern Task tasks[MOST_TASKS];
extern Interrupt interrupts[MOST_INTERRUPTS];
extern int task_count, interrupt_count;
extern int current, serving; /* the task and the interrupt whose code runs, or -1 */
extern int is_quiet;         /* nothing is shown: a search */
extern int is_stopped;       /* an alert ended the run */
extern long actions;         /* how many were done */
extern int in_progress;      /* requests of timer.device */
extern int served[3];        /* how often each source was served */
extern int active;           /* the interrupt whose body the machine runs, or -1 */
extern int too_long;         /* the task whose call 1,025 no machine file has, or -1 */
extern struct {
    const char *name;
    int (*main)();
} execc_programs[];

/* machine.c: the only file that calls the library */
void machine_open(void);
void machine_act(int kind);
void machine_changed(void);  /* there is a task that starts, a new interrupt, or a new line of an interrupt */
void machine_add(int task);  /* there is a new task that does not start */
void machine_feed(int task); /* there is a new line of a task */
int machine_at_end(void);
int machine_running(void);
void machine_view(int task, View *view);
ULONG machine_signal_of_port(ULONG address);
Request machine_request(ULONG address);
int machine_record(const char *path);
const char *machine_differs(int is_recorded);
int machine_shows(const char *what, const char *number, const char *names);
unsigned long machine_ways(const char *actions, size_t count, int extra, const char *kinds);
int machine_replied(ULONG address);
extern int quantum;
extern char alerted[32];
char *machine_events(void);
int machine_read_events(const char *path, char **actions, size_t *count);
char *grouped(const char *actions, size_t count, const char *between);

/* tasks.c */
void fiber_make(Fiber *fiber, void (*code)(int), int number);
void fiber_run(Fiber *fiber);
void fiber_stop(Fiber *fiber);
Task *task_add(struct Task *host, const char *name, LONG pri, void (*code)(void), int starts);
Task *task_named(const char *name);
void free_name(char to[32], const char *name);
ULONG task_number(struct Task *host, const char *who);
void act(int kind);
extern int fresh; /* what fresh memory is filled with */
void add_line(Lines *lines, Line line);
ULONG issue(const char *format, ...) __attribute__((format(printf, 1, 2)));

/* objects.c: pointers of the program and addresses of the machine; a kind is 'p'ort, 'm'essage, 's'emaphore or
 * 'r'equest */
typedef struct {
    void *host;
    ULONG address;
    char kind;
    UBYTE flags;
    ULONG reply;
} Object;
Object *object_add(void *host, ULONG address, char kind);
Object *object_of(const void *host, char kind);
Object *object_at(ULONG address);
Object *object_within(const void *from, size_t size);
void object_remove(Object *object);
void *host_at(ULONG address);
const char *name_of(const char *name, const char *what);

/* ports.c, requests.c, interrupts.c */
ULONG port_address(struct MsgPort *port, const char *who);
void trace_line(const Said *said);
void get_fields(struct IORequest *request);
Interrupt *interrupt_named(const char *name);
int interrupt_begins(const char *name);
int interrupt_goes_on(ULONG answer);
const char *softint_name(struct Interrupt *host);

/* says.c, print.c, accesses.c, search.c */
void show(const char *text, size_t length);
void show_rest(void);
void flush(void);
extern char *shown;
extern size_t shown_length;
void refuse(const char *format, ...) __attribute__((format(printf, 1, 2), noreturn));
void stop(int status, const char *format, ...) __attribute__((format(printf, 2, 3), noreturn));
void say(const char *format, ...) __attribute__((format(printf, 1, 2)));
void watch_faults(void);
extern sigjmp_buf end_of_way;
void accesses_begin(int is_on);
int accesses_shared(void);
void accesses_name(void);
int memory_is_small(void);
void need_memory(int is_needed);
extern char self[4096];
void explore_begin(void);
void explore_share(const char *actions, size_t count, int extra, const char *of, int share, int shares);
int explore_report(const char *actions, size_t count, int extra, const char *of, const char *of_names, long wanted,
                   const char *names, int rounds);
#endif
