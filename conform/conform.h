/* What the files of the Amiga side share: a compiled run, and its tasks, interrupts and memory while it runs. */
#ifndef CONFORM_H
#define CONFORM_H
#include "exec.h"
#include "words.h"

enum { MOST_REGIONS = 8, MOST_INTERRUPTS = 32, OWN_VARIABLES = 32, SHARED_VARIABLES = 64 };
#define NO_TARGET 0xFFFFFFFFUL
#define SHARED_TARGET 0x100UL
enum { KIND_NUMBER, KIND_OWN, KIND_SHARED, KIND_NAME };
enum { EVENT_RUN, EVENT_TICK, EVENT_REQUEST };
enum { STACK = 8192, NAME_WORDS = 8 };

/* The code of a task or of an interrupt. */
struct Body {
    const char *name;
    const u32 *code;
    u32 words;
    u32 own[OWN_VARIABLES];
};

/* A task of a run. The one after the last is the idle task. */
struct Actor {
    struct Task task;
    struct Body body;
    s8 pri;
    u8 starts, is_added, is_removed;
    u8 *stack;
};

/* A software interrupt or a server of a run; `source` is the bit of a server's source. */
struct Handler {
    struct Interrupt interrupt;
    struct Body body;
    u32 source, claim;
};

/* A compiled run: see README.md for its words. */
struct Run {
    u32 words, quantum, regions, softints, servers, tasks, events, names_at, commands_at, events_at;
    char title[64];
    u32 tables[];
};

/* The run that is under way. */
extern const struct Run *run;
extern u32 is_strict;
extern struct Actor *actors;
extern struct Handler softints[MOST_INTERRUPTS], servers[MOST_INTERRUPTS];
extern u32 shared[SHARED_VARIABLES];
extern u32 is_logging;

/* trace.c */
extern void (*say_at_once)(const char *text, u32 length);
u32 trace_open(u32 most);
void trace_close(void);
void trace_begin(void);
u32 trace_length(void);
u32 trace_sum(void);
u32 trace_is_cut(void);
const char *trace_text(void);
void print_char(char one);
void print(const char *text);
void print_number(u32 value);
void print_decimal(u32 value);
void end_line(void);

/* The ends of a list of the system that is empty meanwhile. */
struct Ends {
    struct Node *head, *tail;
};

/* memory.c */
void empty_list(struct List *list, struct Ends *ends);
void fill_list(struct List *list, const struct Ends *ends);
u32 memory_begin(const u32 *regions);
void memory_end(void);
u32 real_address(u32 shown);
u32 shown_address(u32 real);
void use_regions(void);
void use_system(void);
u32 take_memory(u32 size, u32 requirements);
void free_memory(u32 block, u32 size);
void clear(void *memory, u32 size);

/* rom.c */
u32 rom_sum(void);
u32 rom_is_known(void);
void rom_prepare_region(struct MemHeader *header, u32 number);
void rom_release_region(struct MemHeader *header, u32 number);
u32 rom_pause_checks(void);
void rom_resume_checks(u32 before);
void rom_forget_stale_switch(void);

/* calls.c */
struct Call {
    struct Body *body;
    struct Actor *caller;
    const u32 *code;
    u32 word, count, values[4];
};
void call_exec(struct Call *call);
void calls_begin(void);

/* bodies.c */
extern struct Task *control;
extern u32 control_signal;
void bodies_begin(void);
void put_answer(struct Call *call, u32 answer);
void log_call(struct Call *call, const char *after);
void log_answer(struct Call *call, u32 answer);
void take_own_step(void);
struct Task *task_of(u32 number);
u32 number_of(const struct Task *task);
struct Interrupt *softint_of(const char *name);
void make_new(struct Actor *actor);

/* runs.c */
const char *run_one(const struct Run *which);

/* main.c */
typedef void (*writer)(const char *text, u32 length);
u32 conform(const u32 *file, writer write, writer at_once);

/* entries.S: where Exec calls C */
void softint_entry(void);
void server_entry(void);
void launch_entry(void);
void task_entry(void);
void task_exit(void);

#endif
