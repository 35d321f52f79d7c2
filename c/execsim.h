/* execsim.h: the proved simulator of the Amiga's Exec for C programs, in the library libexecsim.a. A run of two texts is one call, execsim_run; others
 * give its log, its states, its picture, what a checker finds, and every way in which interrupts can come. Or a program keeps a machine, and asks
 * for its events step by step: execsim_open, execsim_events, execsim_take, the readers, execsim_close.
 *
 * Link with no other library: it calls malloc, realloc and free alone, which are to be of one allocator, and to align a block to each power of two up
 * to 16 that divides its size. What a program keeps is all in its machines, so calls in several threads need not wait for one another if each has a
 * machine of its own; a machine stays in the thread that opened it. No call is to be made from a signal handler.
 *
 * Proved is what execsim_run, execsim_open, execsim_events and execsim_take hand out, what execsim_view, execsim_task, execsim_request,
 * execsim_message and execsim_at_end show, what execsim_feed and execsim_add_task make of a machine, and that execsim_check refuses exactly what is
 * refused and does not pass over an alert. Tested is what execsim_log, execsim_state, execsim_picture, execsim_chrome, execsim_explore and
 * execsim_way put into the buffer: it is compared with what the commands write; and names, blocks and other findings. */
#ifndef EXECSIM_H
#define EXECSIM_H

#include <stddef.h>
#include <stdint.h>

#ifdef __cplusplus
extern "C" {
#endif

/* What the calls answer. */
enum {
    EXECSIM_RAN = 0,             /* the machine ran over all its events, or what was asked for is there */
    EXECSIM_MACHINE_REFUSED = 1, /* the machine file is refused */
    EXECSIM_EVENTS_REFUSED = 2,  /* the event text is refused */
    EXECSIM_ALERTED = 3,         /* an alert ended the run */
    EXECSIM_NO_MEMORY = 4,       /* memory was refused */
    EXECSIM_TOO_LONG = 5,        /* what is to be put into the buffer is longer than it */
    EXECSIM_NO_MACHINE = 6,      /* there is no machine: none was opened, or it was closed */
    EXECSIM_NOT_THERE = 7,       /* there is no such task, step or outcome, or no block at that address; or a number is out of range */
    EXECSIM_TOO_MANY = 8         /* a search has more ways than the limit, or more outcomes, bytes or ticks than it takes */
};

/* The most bytes that the program takes of a machine file or of an event text. Here a longer text is read too. */
#define EXECSIM_FILE_LIMIT 4194304

/* Runs a machine file over an event text, and puts the trace into a buffer.
 *
 * machine, machine_length   the bytes of the machine file, which need not end with a 0, and how many they are
 * events, events_length     those of the event text
 * out, out_length           the buffer, and how many bytes it has room for
 * length                    gets a number of bytes
 *
 * EXECSIM_RAN, EXECSIM_ALERTED: the first *length bytes of the buffer are the whole trace, and it is proved that they are.
 * EXECSIM_TOO_LONG: the trace has *length bytes, more than the buffer, which is as it was; a call with a buffer of that length gets it.
 * The others: the buffer begins with what the program prints of the fault after its own name, as "machine: BadCommand" or "events: BadLine 3",
 * without a line feed or a 0, as far as there is room: *length bytes.
 *
 * Requires: no pointer is null, also if its length is 0; each points to as many bytes as its length says, fewer than 2^63; the buffer and
 * *length overlap nothing else. The caller owns all memory, before and after; what the call allocates it frees. */
uint32_t execsim_run(const uint8_t *machine, size_t machine_length, const uint8_t *events, size_t events_length, uint8_t *out,
                     size_t out_length, uint64_t *length);

/* Of the calls below up to execsim_way each takes two texts and a buffer as execsim_run does, with the same answers and requirements, and puts what a
 * command writes of the texts into the buffer, with a line feed at the end of each line. In it the machine file is called machine.toml and the
 * event text run.events, and a number that is refused as it is called here. What else they answer is said at each. */

/* The last step of a run, whichever it is. */
#define EXECSIM_LAST_STEP UINT64_MAX

/* The log of a run from a step to a step, as `execlog --json` writes it: a JSON object a line. Steps, ticks and requests of interrupts are counted from
 * 1; 0 is the start. With words that is not 0, words that print nothing have lines too, as by `--plain-words`.
 * EXECSIM_ALERTED: an alert has stopped the machine by then. EXECSIM_NOT_THERE: the run has no such steps; the buffer begins with a sentence. */
uint32_t execsim_log(const uint8_t *machine, size_t machine_length, const uint8_t *events, size_t events_length, uint64_t from, uint64_t to,
                     uint32_t words, uint8_t *out, size_t out_length, uint64_t *length);

/* All that the machine shows after a step, as `execlog --state` writes it: a page of text, whose first line says how many steps the run has.
 * EXECSIM_ALERTED, EXECSIM_NOT_THERE: as execsim_log. */
uint32_t execsim_state(const uint8_t *machine, size_t machine_length, const uint8_t *events, size_t events_length, uint64_t step, uint8_t *out,
                       size_t out_length, uint64_t *length);

/* A picture of a run from what the machine shows after a step to a step, as `execlog --svg` draws it: an SVG document.
 * EXECSIM_ALERTED, EXECSIM_NOT_THERE: as execsim_log; EXECSIM_NOT_THERE also if there are more steps than a picture shows, as the sentence says. */
uint32_t execsim_picture(const uint8_t *machine, size_t machine_length, const uint8_t *events, size_t events_length, uint64_t from, uint64_t to,
                         uint8_t *out, size_t out_length, uint64_t *length);

/* The same steps in the Trace Event Format, as `execlog --chrome` writes it: a JSON document, which Perfetto opens.
 * EXECSIM_ALERTED, EXECSIM_NOT_THERE: as execsim_log. */
uint32_t execsim_chrome(const uint8_t *machine, size_t machine_length, const uint8_t *events, size_t events_length, uint64_t from, uint64_t to,
                        uint8_t *out, size_t out_length, uint64_t *length);

/* What is wrong with the texts and how their run ends, as `execcheck` writes it: for each finding its place, a line with marks, and the reason.
 * EXECSIM_RAN: nothing was found, or notes alone. EXECSIM_ALERTED: there are warnings, or an alert. EXECSIM_MACHINE_REFUSED,
 * EXECSIM_EVENTS_REFUSED: the machine file is refused, or the event text alone is, and the buffer has what was found. It is proved that each is
 * answered exactly if the text is refused, and EXECSIM_ALERTED if an alert ends the run. */
uint32_t execsim_check(const uint8_t *machine, size_t machine_length, const uint8_t *events, size_t events_length, uint8_t *out, size_t out_length,
                       uint64_t *length);

/* Interrupts that a search inserts: a sum of these, or EXECSIM_SERVED for ticks and the sources that servers of the machine file serve. */
enum { EXECSIM_SERVED = 0, EXECSIM_PORTS = 1, EXECSIM_VERTB = 2, EXECSIM_EXTER = 4 };

/* What a search sees of a way: its end alone, also the lines of Print, or the whole trace. */
enum { EXECSIM_SEE_END = 0, EXECSIM_SEE_PRINTS = 1, EXECSIM_SEE_TRACE = 2 };

/* Every way to insert at most so many more interrupts (0 to 8) into the events, and what is seen of each, as `execexplore` writes it.
 * limit: how many ways are tried at most; the program's own limit is 2^40.
 * EXECSIM_RAN: there is one outcome and no alert. EXECSIM_ALERTED: there are more, or an alert. EXECSIM_TOO_MANY: nothing was searched, and the buffer
 * begins with a sentence that has the number of ways; or there are more than 65,536 outcomes, 160,000,000 bytes of outcomes or 1,000,000 ticks.
 * EXECSIM_NOT_THERE: a number is out of range. */
uint32_t execsim_explore(const uint8_t *machine, size_t machine_length, const uint8_t *events, size_t events_length, uint32_t extra, uint32_t kinds,
                         uint32_t see, uint64_t limit, uint8_t *out, size_t out_length, uint64_t *length);

/* The same search, and of it the event text of the first way of an outcome, which are counted from 1.
 * The answers are those of execsim_explore. EXECSIM_NOT_THERE: also if there is no such outcome. */
uint32_t execsim_way(const uint8_t *machine, size_t machine_length, const uint8_t *events, size_t events_length, uint32_t extra, uint32_t kinds,
                     uint32_t see, uint64_t limit, uint64_t outcome, uint8_t *out, size_t out_length, uint64_t *length);

/* A machine that a program keeps. It has to be EXECSIM_NO_MACHINE_YET before it is first used, and is changed by the calls below alone. It may be
 * moved, but of two copies only one may be used. What it points to is the library's: execsim_close frees it. */
typedef struct {
    void *machine;
} execsim_machine;

#define EXECSIM_NO_MACHINE_YET {0}

/* Of the calls below each requires that no pointer is null, that each points to as many bytes as its length says, and that what it writes overlaps
 * nothing else. The caller owns the texts, the buffers and the structs, before and after. */

/* Reads a machine file, and starts its machine: the tasks are added whose `start` is true, and it settles once. A machine that *machine had is closed
 * first.
 *
 * EXECSIM_RAN, EXECSIM_ALERTED: it is open, and execsim_take gives the lines of its start. After an alert it is read as before, and its events do nothing.
 * EXECSIM_MACHINE_REFUSED, EXECSIM_NO_MEMORY: *machine has none, and the buffer begins with the words of the fault, as those of execsim_run. */
uint32_t execsim_open(execsim_machine *machine, const uint8_t *file, size_t file_length, uint8_t *out, size_t out_length, uint64_t *length);

/* Does the events of an event text one after another, as "run 1", which is the next step, or "tick 1", "irq PORTS", or a whole text.
 *
 * EXECSIM_RAN, EXECSIM_ALERTED: they are done, and execsim_take gives their lines.
 * EXECSIM_EVENTS_REFUSED: none is done; the buffer begins with the words of the fault. "events: TooMany" is also said if they would take the ticks of
 * this machine past 1,000,000. Of steps each text may have 1,000,000.
 * EXECSIM_NO_MEMORY: the machine is closed. EXECSIM_NO_MACHINE: there is none. */
uint32_t execsim_events(execsim_machine *machine, const uint8_t *events, size_t events_length, uint8_t *out, size_t out_length, uint64_t *length);

/* Moves the lines that were printed since the last call of it into a buffer, *length bytes; each ends with a line feed.
 * EXECSIM_TOO_LONG: they are *length bytes, more than the buffer, which is as it was; they stay. EXECSIM_NO_MACHINE: there is none. */
uint32_t execsim_take(execsim_machine *machine, uint8_t *out, size_t out_length, uint64_t *length);

/* Closes the machine, and frees all its memory. Nothing happens if there is none. */
void execsim_close(execsim_machine *machine);

/* Tasks are numbered from 0 here, in the order of the file: one less than the number by which a script names them. This is no task. */
#define EXECSIM_NO_TASK UINT64_MAX

/* What is seen of a machine. */
typedef struct {
    uint64_t clock;        /* the clock, in microseconds */
    uint64_t system_time;  /* system time, in microseconds */
    uint64_t tasks;        /* how many tasks the file has */
    uint64_t running;      /* the task that runs, or EXECSIM_NO_TASK */
    uint32_t quantum_left; /* the servings of VERTB that are left to it */
    uint32_t latches;      /* the sources that ask to be served: bit 0 is PORTS, bit 1 VERTB, bit 2 EXTER */
    uint32_t stopped;      /* 1 if an alert has stopped the machine */
} execsim_machine_view;

/* The states of a task. */
enum {
    EXECSIM_TASK_ABSENT = 0,    /* it was never added */
    EXECSIM_TASK_READY = 1,     /* it may run */
    EXECSIM_TASK_RUNNING = 2,   /* it runs */
    EXECSIM_TASK_SIGNALS = 3,   /* it waits for signals */
    EXECSIM_TASK_SEMAPHORE = 4, /* it waits for a semaphore */
    EXECSIM_TASK_REMOVED = 5    /* it has ended, or was removed */
};

/* What is seen of a task. Bit n of a mask is signal n. */
typedef struct {
    uint64_t place;     /* its next command, from 0; the number of its commands at their end. If it waits: the call that it waits in */
    uint32_t state;     /* EXECSIM_TASK_.. */
    uint32_t waits_for; /* the signals that it waits for */
    uint32_t received;  /* the signals that it has received */
    uint32_t allocated; /* the signals that it has allocated */
    int32_t priority;
    int32_t forbids;  /* its count of Forbid, -1 if it has none outstanding */
    int32_t disables; /* its count of Disable, as that of Forbid */
} execsim_task_view;

/* What is in a block. */
enum {
    EXECSIM_PLAIN = 0, /* memory of AllocMem */
    EXECSIM_LIST = 1,
    EXECSIM_NODE = 2,
    EXECSIM_PORT = 3,
    EXECSIM_MESSAGE = 4,
    EXECSIM_SEMAPHORE = 5,
    EXECSIM_LIBRARY = 6,
    EXECSIM_REQUEST = 7
};

/* What is seen of a block. What a thing of its kind does not have is 0, or EXECSIM_NO_TASK. */
typedef struct {
    uint64_t task;       /* the task of a port, or the owner of a semaphore */
    uint32_t size;       /* in bytes */
    uint32_t kind;       /* EXECSIM_PLAIN .. */
    uint32_t count;      /* how often the owner of a semaphore has to release it, or how often a library is open */
    uint32_t signal;     /* the number of a port's signal */
    uint32_t word;       /* the word of a message */
    uint32_t reply_port; /* the address of the reply port of a message or of a request */
    uint32_t state;      /* of a request: 0 never begun, 1 in progress, 2 finished at once, 3 replied */
    int32_t priority;    /* of a node */
} execsim_block_view;

/* Put what is seen into *view, and change nothing of the machine. EXECSIM_RAN: it is there. EXECSIM_NOT_THERE: there is no such task, or no block
 * begins at the address; EXECSIM_NO_MACHINE: there is none; *view is as it was then. */
uint32_t execsim_view(execsim_machine *machine, execsim_machine_view *view);
uint32_t execsim_task(execsim_machine *machine, size_t task, execsim_task_view *view);
uint32_t execsim_block(execsim_machine *machine, uint32_t address, execsim_block_view *view);

/* What is seen of a timer request. */
typedef struct {
    uint32_t reply_port; /* the address of its reply port */
    uint32_t state;      /* 0 never begun, 1 in progress, 2 finished at once, 3 replied */
    uint32_t unit;       /* the unit that it is open for, or EXECSIM_NO_UNIT */
    uint32_t command;
    uint32_t seconds;    /* its time */
    uint32_t micros;
    int32_t error;       /* 0, or why it failed */
    uint32_t quick;      /* 1 if IOF_QUICK is set in its flags */
} execsim_request_view;

#define EXECSIM_NO_UNIT UINT32_MAX

/* Puts what is seen of the timer request that begins at an address into *view. EXECSIM_RAN: it is there. EXECSIM_NOT_THERE: no request begins there;
 * EXECSIM_NO_MACHINE: there is none; *view is as it was then. */
uint32_t execsim_request(execsim_machine *machine, uint32_t address, execsim_request_view *view);

/* Puts the address of the message, or request, after another one in a port into *message, or of the first one if after is 0, in order of arrival; 0 at the
 * end, and if no port begins at the address or it does not have that message. EXECSIM_RAN: it is there. EXECSIM_NO_MACHINE: there is no machine. */
uint32_t execsim_message(execsim_machine *machine, uint32_t port, uint32_t after, uint32_t *message);

/* Puts the name of a task into a buffer: *length bytes, without a 0. EXECSIM_TOO_LONG if it has more than the buffer, which is as it was; at most 31. */
uint32_t execsim_task_name(execsim_machine *machine, size_t task, uint8_t *out, size_t out_length, uint64_t *length);

/* Feeds a line to a task, which is the last one of its body then: one line of a `code`, as `Wait $1000`, without a variable, a label or a jump. Nothing else
 * changes. A run in which no step has found a task at the end of its body that is fed later is the run of the machine file whose bodies have all lines
 * from the start, over the same events: that is proved. No event takes memory; this does.
 *
 * task                the number of the task, from 0
 * line, line_length   the bytes of the line, which need not end with a 0, and how many they are
 *
 * A software interrupt that the line names is to be one of the machine: no other is caused.
 * EXECSIM_RAN: it is fed. Otherwise the machine is as it was. EXECSIM_MACHINE_REFUSED: it is no such line. EXECSIM_NOT_THERE: there is no such task.
 * EXECSIM_NO_MEMORY: memory was refused. EXECSIM_NO_MACHINE: there is no machine. */
uint32_t execsim_feed(execsim_machine *machine, size_t task, const uint8_t *line, size_t line_length);

/* Adds a task after the others, and puts its number in *task. It is one that a machine file has as its last, with `start = false` and no lines: it was
 * never added, until the word AddTask adds it, by its number there, one more than *task; its lines are fed to it. Nothing else changes. The run is that of
 * the machine file that has it from the start: that is proved. No event takes memory; this does.
 *
 * name, name_length   the bytes of its name, which need not end with a 0, and how many they are. A machine file refuses two tasks, servers or software
 *                     interrupts of one name; this call does not
 * priority            from -128 to 127
 *
 * EXECSIM_RAN: it is there. Otherwise the machine is as it was. EXECSIM_MACHINE_REFUSED: a machine file has no such name or priority.
 * EXECSIM_ALERTED: an alert has stopped the machine. EXECSIM_TOO_MANY: it has 4,096 tasks; a machine file has at most 64.
 * EXECSIM_NO_MEMORY: memory was refused. EXECSIM_NO_MACHINE: there is no machine. */
uint32_t execsim_add_task(execsim_machine *machine, const uint8_t *name, size_t name_length, int32_t priority, uint64_t *task);

/* Puts the task that the next step finds at the end of its body in *task, or EXECSIM_NO_TASK for none: it runs, no software interrupt runs first, it waits
 * in no call, and none of its lines is left. That step ends the task, unless it is fed before; so who has more lines for it feeds them now.
 * EXECSIM_RAN: *task is there. EXECSIM_NO_MACHINE: there is no machine; *task is as it was. */
uint32_t execsim_at_end(execsim_machine *machine, uint64_t *task);

#ifdef __cplusplus
}
#endif

#endif
