/* Runs examples through the library: test NAME.., each of which has NAME.toml, NAME.events and NAME.trace: whole, and event by event in a machine that
 * is kept. If there is NAME.numbers (two steps, an outcome, and the statuses of the calls), what each command writes is in NAME.log and the like, and
 * the library has to give the same; without NAME.trace that is all. Then what is refused, buffers that are too short, what is read of a machine, and, linked with
 * --wrap=malloc, --wrap=realloc and --wrap=free, calls that are refused memory. Its last line is 'N passed, M failed'. */
#include "execsim.h"
#include <inttypes.h>
#include <stdio.h>
#include <stdlib.h>
#include <string.h>

typedef struct {
    uint8_t *bytes;
    size_t length;
} Text;

static unsigned passed, failed;

static void count(const char *title, int is_well) {
    if (is_well) {
        passed++;
    } else {
        failed++;
        printf("library: %s\n", title);
    }
}

static Text read_text(const char *name, const char *ending) {
    char path[4096];
    snprintf(path, sizeof path, "%s.%s", name, ending);
    FILE *file = fopen(path, "rb");
    Text text = {(uint8_t *)malloc(EXECSIM_FILE_LIMIT), 0};
    if (!file || !text.bytes) {
        printf("library: cannot read %s\n", path);
        exit(1);
    }
    text.length = fread(text.bytes, 1, EXECSIM_FILE_LIMIT, file);
    fclose(file);
    return text;
}

static int has_trace(const char *name) {
    char path[4096];
    snprintf(path, sizeof path, "%s.trace", name);
    FILE *file = fopen(path, "rb");
    if (file) {
        fclose(file);
    }
    return file != NULL;
}

/* The status of a trace: its last line is that of an alert, or it ran to its end. */
static uint32_t status_of(Text trace) {
    size_t begins = trace.length ? trace.length - 1 : 0;
    while (begins > 0 && trace.bytes[begins - 1] != '\n') {
        begins--;
    }
    return trace.length - begins > 6 && !memcmp(trace.bytes + begins, "alert ", 6) ? EXECSIM_ALERTED : EXECSIM_RAN;
}

/* The run of an example, in a buffer of exactly its length, and in one that is a byte shorter. */
static void run_example(const char *name) {
    Text machine = read_text(name, "toml"), events = read_text(name, "events"), trace = read_text(name, "trace");
    uint8_t *out = (uint8_t *)malloc(trace.length + 1);
    uint64_t length = 0;
    uint32_t status = execsim_run(machine.bytes, machine.length, events.bytes, events.length, out, trace.length, &length);
    count(name, status == status_of(trace) && length == trace.length && !memcmp(out, trace.bytes, length));
    memset(out, 'x', trace.length + 1);
    status = execsim_run(machine.bytes, machine.length, events.bytes, events.length, out, trace.length - 1, &length);
    int is_left = 1;
    for (size_t at = 0; at <= trace.length; at++) {
        is_left &= out[at] == 'x';
    }
    count("a buffer that is a byte too short", status == EXECSIM_TOO_LONG && length == trace.length && is_left);
    free(out);
    free(machine.bytes);
    free(events.bytes);
    free(trace.bytes);
}

/* An example as the commands saw it: parts of its run are from a step to a step. */
typedef struct {
    Text machine, events;
    uint64_t from, to, outcome;
} Example;

#define TEXTS it->machine.bytes, it->machine.length, it->events.bytes, it->events.length

static uint32_t log_of(const Example *it, uint8_t *out, size_t room, uint64_t *length) {
    return execsim_log(TEXTS, 0, EXECSIM_LAST_STEP, 0, out, room, length);
}

static uint32_t words_of(const Example *it, uint8_t *out, size_t room, uint64_t *length) {
    return execsim_log(TEXTS, it->from, it->to, 1, out, room, length);
}

static uint32_t state_of(const Example *it, uint8_t *out, size_t room, uint64_t *length) {
    return execsim_state(TEXTS, it->from, out, room, length);
}

static uint32_t end_of(const Example *it, uint8_t *out, size_t room, uint64_t *length) {
    return execsim_state(TEXTS, EXECSIM_LAST_STEP, out, room, length);
}

static uint32_t picture_of(const Example *it, uint8_t *out, size_t room, uint64_t *length) {
    return execsim_picture(TEXTS, it->from, it->to, out, room, length);
}

static uint32_t chrome_of(const Example *it, uint8_t *out, size_t room, uint64_t *length) {
    return execsim_chrome(TEXTS, 0, EXECSIM_LAST_STEP, out, room, length);
}

static uint32_t check_of(const Example *it, uint8_t *out, size_t room, uint64_t *length) {
    return execsim_check(TEXTS, out, room, length);
}

static uint32_t report_of(const Example *it, uint8_t *out, size_t room, uint64_t *length) {
    return execsim_explore(TEXTS, 1, EXECSIM_SERVED, EXECSIM_SEE_PRINTS, 100000, out, room, length);
}

static uint32_t ticks_of(const Example *it, uint8_t *out, size_t room, uint64_t *length) {
    return execsim_explore(TEXTS, 2, EXECSIM_VERTB + EXECSIM_EXTER, EXECSIM_SEE_END, 100000, out, room, length);
}

static uint32_t way_of(const Example *it, uint8_t *out, size_t room, uint64_t *length) {
    return execsim_way(TEXTS, 1, EXECSIM_SERVED, EXECSIM_SEE_PRINTS, 100000, it->outcome, out, room, length);
}

/* What is asked for of an example, each by the ending of the file that has what the command wrote. */
typedef uint32_t Call(const Example *it, uint8_t *out, size_t room, uint64_t *length);
static const struct {
    const char *name;
    Call *call;
} CALLS[] = {{"log", log_of},         {"words", words_of},   {"state", state_of}, {"end", end_of},     {"picture", picture_of},
             {"chrome", chrome_of},   {"check", check_of},   {"report", report_of}, {"ticks", ticks_of}, {"way", way_of}};

enum { CALLS_MADE = sizeof CALLS / sizeof *CALLS };

/* A call into a buffer of exactly the length of what is wanted, and into one that is a byte shorter: words of a refusal are cut off there. */
static void try_call(const Example *it, Call *call, const char *title, uint32_t wanted, Text text) {
    uint8_t *out = (uint8_t *)malloc(text.length + 1);
    uint64_t length = 0;
    uint32_t status = call(it, out, text.length, &length);
    count(title, status == wanted && length == text.length && !memcmp(out, text.bytes, length));
    if (text.length) {
        memset(out, 'x', text.length + 1);
        status = call(it, out, text.length - 1, &length);
        int is_left = 1;
        for (size_t at = 0; at <= text.length; at++) {
            is_left &= out[at] == 'x';
        }
        int is_cut = status == wanted && length < text.length && !memcmp(out, text.bytes, length) && out[text.length] == 'x';
        int is_shown = wanted == EXECSIM_RAN || wanted == EXECSIM_ALERTED || call == check_of;
        count(title, is_shown ? status == EXECSIM_TOO_LONG && length == text.length && is_left : is_cut);
    }
    free(out);
}

/* What each command writes of an example. */
static void show_example(const char *name) {
    char path[4096], title[5000];
    snprintf(path, sizeof path, "%s.numbers", name);
    FILE *numbers = fopen(path, "r");
    if (!numbers) {
        return;
    }
    Example it = {read_text(name, "toml"), read_text(name, "events"), 0, 0, 0};
    int is_read = fscanf(numbers, "%" SCNu64 " %" SCNu64 " %" SCNu64, &it.from, &it.to, &it.outcome) == 3;
    for (unsigned at = 0; at < CALLS_MADE; at++) {
        uint32_t wanted = 0;
        is_read &= fscanf(numbers, "%" SCNu32, &wanted) == 1;
        Text text = read_text(name, CALLS[at].name);
        snprintf(title, sizeof title, "%s of %s", CALLS[at].name, name);
        try_call(&it, CALLS[at].call, title, wanted, text);
        free(text.bytes);
    }
    count(path, is_read);
    fclose(numbers);
    free(it.machine.bytes);
    free(it.events.bytes);
}

static uint32_t open_text(execsim_machine *machine, const char *text) {
    uint8_t out[64];
    uint64_t length;
    return execsim_open(machine, (const uint8_t *)text, strlen(text), out, sizeof out, &length);
}

static uint32_t do_text(execsim_machine *machine, const char *text) {
    uint8_t out[64];
    uint64_t length;
    return execsim_events(machine, (const uint8_t *)text, strlen(text), out, sizeof out, &length);
}

/* Whether the lines that the machine has now are the text. */
static int has_lines(execsim_machine *machine, const char *text) {
    uint8_t out[256];
    uint64_t length = 0;
    uint32_t status = execsim_take(machine, out, sizeof out, &length);
    return status == EXECSIM_RAN && length == strlen(text) && !memcmp(out, text, length);
}

/* The run of an example event by event: a line of the event text, then the lines that it adds to the trace. */
static void step_example(const char *name) {
    Text file = read_text(name, "toml"), events = read_text(name, "events"), trace = read_text(name, "trace");
    execsim_machine machine = EXECSIM_NO_MACHINE_YET;
    uint8_t *out = (uint8_t *)malloc(trace.length + 1);
    uint64_t length = 0;
    size_t taken = 0;
    uint32_t status = execsim_open(&machine, file.bytes, file.length, out, trace.length, &length);
    int is_well = status == EXECSIM_RAN || status == EXECSIM_ALERTED;
    for (size_t at = 0, end; is_well && at <= events.length; at = end + 1) {
        for (end = at; end < events.length && events.bytes[end] != '\n';) {
            end++;
        }
        status = execsim_events(&machine, events.bytes + at, end - at, out, trace.length, &length);
        is_well &= status == EXECSIM_RAN || status == EXECSIM_ALERTED;
        is_well &= execsim_take(&machine, out + taken, trace.length - taken, &length) == EXECSIM_RAN;
        taken += length;
    }
    execsim_machine_view view;
    is_well &= execsim_view(&machine, &view) == EXECSIM_RAN && view.stopped == (status == EXECSIM_ALERTED);
    count(name, is_well && status == status_of(trace) && taken == trace.length && !memcmp(out, trace.bytes, taken));
    execsim_close(&machine);
    free(out);
    free(file.bytes);
    free(events.bytes);
    free(trace.bytes);
}

/* What is read of two tasks, one of which waits for a signal of the other. */
static void read_tasks(void) {
    static const char *file = "[[task]]\nname = \"first\"\npri = 3\ncode = [\"Wait $1000\", \"Print 1\"]\n"
                              "[[task]]\nname = \"second\"\ncode = [\"Forbid\", \"Signal 1 $3000\"]\n";
    execsim_machine machine = EXECSIM_NO_MACHINE_YET;
    execsim_machine_view view;
    execsim_task_view task;
    count("a machine is opened", open_text(&machine, file) == EXECSIM_RAN);
    count("the lines of its start", has_lines(&machine, "switch first\n"));
    count("its view", execsim_view(&machine, &view) == EXECSIM_RAN && view.tasks == 2 && view.running == 0 && view.clock == 0 &&
                          view.quantum_left == 4 && view.latches == 0 && !view.stopped);
    count("a task waits", do_text(&machine, "run 1") == EXECSIM_RAN && execsim_task(&machine, 0, &task) == EXECSIM_RAN &&
                              task.state == EXECSIM_TASK_SIGNALS && task.waits_for == 0x1000 && task.priority == 3 && task.place == 0);
    count("another runs", execsim_view(&machine, &view) == EXECSIM_RAN && view.running == 1);
    count("a tick", do_text(&machine, "# a tick\ntick 1\n") == EXECSIM_RAN && execsim_view(&machine, &view) == EXECSIM_RAN &&
                        view.clock == 20000 && view.quantum_left == 3);
    count("two steps", do_text(&machine, "run 1\nrun 1\n") == EXECSIM_RAN && execsim_task(&machine, 1, &task) == EXECSIM_RAN &&
                           task.state == EXECSIM_TASK_RUNNING && task.forbids == 0 && task.disables == -1 && task.place == 2);
    count("a task is ready", execsim_task(&machine, 0, &task) == EXECSIM_RAN && task.state == EXECSIM_TASK_READY && task.received == 0x3000);
    uint8_t name[31], few[5] = {'.', '.', '.', '.', '.'};
    uint64_t length = 0;
    count("a name", execsim_task_name(&machine, 1, name, sizeof name, &length) == EXECSIM_RAN && length == 6 && !memcmp(name, "second", 6));
    count("a name in a short buffer",
          execsim_task_name(&machine, 1, few, 5, &length) == EXECSIM_TOO_LONG && length == 6 && !memcmp(few, ".....", 5));
    count("no such task", execsim_task(&machine, 2, &task) == EXECSIM_NOT_THERE &&
                              execsim_task_name(&machine, 2, name, sizeof name, &length) == EXECSIM_NOT_THERE);
    count("lines in a short buffer",
          execsim_take(&machine, few, 5, &length) == EXECSIM_TOO_LONG && length > 5 && !memcmp(few, ".....", 5));
    count("the lines later", has_lines(&machine, "first Wait $00001000 waits\nswitch second\nserve VERTB\nsecond Forbid\n"
                                                 "second Signal $00000001 $00003000\n"));
    count("no lines twice", has_lines(&machine, ""));
    execsim_close(&machine);
}

/* What is read of blocks: a port, a message in it, a semaphore and its owner, plain memory. */
static void read_blocks(void) {
    static const char *file = "[[region]]\nbase = 0x1000\nsize = 0x1000\n[[task]]\nname = \"a\"\n"
                              "code = [\"p = CreateMsgPort\", \"@s = NewSem\", \"ObtainSemaphore @s\", \"m = AllocMem 24 1\"]\n";
    execsim_machine machine = EXECSIM_NO_MACHINE_YET;
    execsim_block_view block;
    execsim_task_view task;
    count("a machine with memory", open_text(&machine, file) == EXECSIM_RAN && do_text(&machine, "run 4") == EXECSIM_RAN &&
                                        execsim_task(&machine, 0, &task) == EXECSIM_RAN);
    unsigned kinds[8] = {0};
    for (uint32_t address = 0x1000; address < 0x2000; address += 8) {
        uint32_t status = execsim_block(&machine, address, &block);
        if (status == EXECSIM_RAN && block.kind < 8) {
            kinds[block.kind]++;
            count("its owner", (block.kind != EXECSIM_SEMAPHORE && block.kind != EXECSIM_PORT) || block.task == 0);
            count("its count", block.count == (block.kind == EXECSIM_SEMAPHORE));
            count("its signal", block.kind == EXECSIM_PORT ? (task.allocated >> block.signal & 1) == 1 : block.signal == 0);
            count("its size", block.size >= 8 && block.size % 8 == 0);
        }
    }
    count("each block once", kinds[EXECSIM_PORT] == 1 && kinds[EXECSIM_SEMAPHORE] == 1 && kinds[EXECSIM_PLAIN] == 1);
    count("no block", execsim_block(&machine, 0x9000, &block) == EXECSIM_NOT_THERE);
    execsim_close(&machine);
}

/* A machine whose task is fed its commands one after another runs as that whose task has them all. */
static void feed(void) {
    static const char *file = "[[task]]\nname = \"a\"\ncode = []\n[[task]]\nname = \"b\"\npri = -1\ncode = [\"Wait $1000\"]\n";
    static const char *lines[] = {"Print 1", "Signal 2 $1000", "Wait $2000"};
    execsim_machine machine = EXECSIM_NO_MACHINE_YET;
    uint64_t task = 7;
    count("no machine is fed", execsim_feed(&machine, 0, (const uint8_t *)lines[0], 7) == EXECSIM_NO_MACHINE &&
                                   execsim_at_end(&machine, &task) == EXECSIM_NO_MACHINE && task == 7);
    count("a machine to be fed", open_text(&machine, file) == EXECSIM_RAN && has_lines(&machine, "switch a\n"));
    for (size_t i = 0; i < 3; i++) {
        count("a task at its end", execsim_at_end(&machine, &task) == EXECSIM_RAN && task == 0);
        count("a line is fed", execsim_feed(&machine, 0, (const uint8_t *)lines[i], strlen(lines[i])) == EXECSIM_RAN);
        count("no task at its end", execsim_at_end(&machine, &task) == EXECSIM_RAN && task == EXECSIM_NO_TASK);
        count("its step", do_text(&machine, "run 1") == EXECSIM_RAN);
    }
    count("the lines of the whole", has_lines(&machine, "a Print $00000001\na Signal $00000002 $00001000\na Wait $00002000 waits\nswitch b\n"));
    static const char *refused[] = {"Print x", "x = FindTask 0", "here:", "Jump here", "Pritn 1", "Print 1 ", "", "Print \xff"};
    for (size_t i = 0; i < sizeof refused / sizeof *refused; i++) {
        count("a line that is refused",
              execsim_feed(&machine, 1, (const uint8_t *)refused[i], strlen(refused[i])) == EXECSIM_MACHINE_REFUSED);
    }
    count("no task to be fed", execsim_feed(&machine, 2, (const uint8_t *)"Print 1", 7) == EXECSIM_NOT_THERE);
    count("it ends", do_text(&machine, "run 2") == EXECSIM_RAN && has_lines(&machine, "b Wait $00001000 -> $00001000\nb RemTask $00000000\nidle\n"));
    execsim_close(&machine);
}

/* A task that is added to a machine, and fed its lines, runs as one that the file has. */
static void add(void) {
    static const char *file = "[[task]]\nname = \"a\"\ncode = [\"Print 1\", \"AddTask 2\", \"Wait $1000\"]\n";
    static const char *lines[] = {"Print 2", "Signal 1 $1000"};
    execsim_machine machine = EXECSIM_NO_MACHINE_YET;
    execsim_task_view view;
    uint64_t task = 7;
    uint8_t name[31];
    uint64_t length = 0;
    count("no machine to add to", execsim_add_task(&machine, (const uint8_t *)"b", 1, 1, &task) == EXECSIM_NO_MACHINE && task == 7);
    count("a machine to add to", open_text(&machine, file) == EXECSIM_RAN && do_text(&machine, "run 1") == EXECSIM_RAN);
    count("names and priorities that are refused",
          execsim_add_task(&machine, (const uint8_t *)"", 0, 1, &task) == EXECSIM_MACHINE_REFUSED &&
              execsim_add_task(&machine, (const uint8_t *)"a b", 3, 1, &task) == EXECSIM_MACHINE_REFUSED &&
              execsim_add_task(&machine, (const uint8_t *)"abcdefghijklmnopqrstuvwxyz012345", 32, 1, &task) == EXECSIM_MACHINE_REFUSED &&
              execsim_add_task(&machine, (const uint8_t *)"b", 1, 128, &task) == EXECSIM_MACHINE_REFUSED &&
              execsim_add_task(&machine, (const uint8_t *)"b", 1, -129, &task) == EXECSIM_MACHINE_REFUSED && task == 7);
    count("a task is added", execsim_add_task(&machine, (const uint8_t *)"b", 1, 1, &task) == EXECSIM_RAN && task == 1);
    count("it is absent", execsim_task(&machine, 1, &view) == EXECSIM_RAN && view.state == EXECSIM_TASK_ABSENT && view.priority == 1 && view.place == 0);
    count("its name", execsim_task_name(&machine, 1, name, sizeof name, &length) == EXECSIM_RAN && length == 1 && *name == 'b');
    for (size_t i = 0; i < 2; i++)
        count("a line of it", execsim_feed(&machine, 1, (const uint8_t *)lines[i], strlen(lines[i])) == EXECSIM_RAN);
    count("the lines of the whole",
          do_text(&machine, "run 9") == EXECSIM_RAN &&
              has_lines(&machine, "switch a\na Print $00000001\na AddTask $00000002 -> $00000002\nswitch b\nb Print $00000002\nb Signal $00000001 $00001000\n"
                                  "b RemTask $00000000\nswitch a\na Wait $00001000 -> $00001000\na RemTask $00000000\nidle\n"));
    execsim_close(&machine);
    count("an alert", open_text(&machine, "[[task]]\nname = \"a\"\ncode = [\"Signal 7 1\"]\n") == EXECSIM_RAN && do_text(&machine, "run 1") == EXECSIM_ALERTED &&
                          execsim_add_task(&machine, (const uint8_t *)"b", 1, 1, &task) == EXECSIM_ALERTED);
    execsim_close(&machine);
}

/* Requests, and the messages of a port in order. */
static void objects(void) {
    static const char *file = "[[region]]\nbase = 4096\nsize = 4096\n[[task]]\nname = \"a\"\ncode = [\"p = CreateMsgPort\", \"m = NewMsg p 1\", \"n = NewMsg p 2\", \"PutMsg p m\", \"PutMsg p n\", "
                              "\"r = CreateIORequest p\", \"Wait $1000\"]\n";
    execsim_machine machine = EXECSIM_NO_MACHINE_YET;
    execsim_request_view request;
    execsim_block_view block;
    uint32_t message = 7, ports = 0, port = 0, first = 0, second = 0, at = 0;
    count("no machine of objects", execsim_request(&machine, 8, &request) == EXECSIM_NO_MACHINE &&
                                       execsim_message(&machine, 8, 0, &message) == EXECSIM_NO_MACHINE && message == 7);
    count("a machine of objects", open_text(&machine, file) == EXECSIM_RAN && do_text(&machine, "run 9") == EXECSIM_RAN);
    for (uint32_t address = 0x1000; address < 0x2000; address += 8)
        if (execsim_block(&machine, address, &block) == EXECSIM_RAN) {
            if (block.kind == EXECSIM_PORT) ports++, port = address;
            if (block.kind == EXECSIM_REQUEST) at = address;
        }
    count("its port", ports == 1 && execsim_message(&machine, port, 0, &first) == EXECSIM_RAN && execsim_block(&machine, first, &block) == EXECSIM_RAN &&
                          block.kind == EXECSIM_MESSAGE && block.word == 1);
    count("its second message", execsim_message(&machine, port, first, &second) == EXECSIM_RAN && execsim_block(&machine, second, &block) == EXECSIM_RAN &&
                                    block.word == 2 && execsim_message(&machine, port, second, &message) == EXECSIM_RAN && message == 0);
    count("its request", execsim_request(&machine, at, &request) == EXECSIM_RAN && request.reply_port == port && request.state == 0 &&
                             request.unit == EXECSIM_NO_UNIT && request.command == 0 && request.error == 0 && request.quick == 0);
    count("no request", execsim_request(&machine, port, &request) == EXECSIM_NOT_THERE);
    execsim_close(&machine);
}

/* Calls on no machine, texts that are refused, a machine that an alert stops, and too many ticks. */
static void misuse(void) {
    static const char *file = "[[task]]\nname = \"a\"\ncode = [\"Signal 7 1\"]\n";
    execsim_machine machine = EXECSIM_NO_MACHINE_YET;
    execsim_machine_view view;
    execsim_task_view task;
    execsim_block_view block;
    uint8_t out[64];
    uint64_t length = 7;
    count("no machine", do_text(&machine, "run 1") == EXECSIM_NO_MACHINE && execsim_view(&machine, &view) == EXECSIM_NO_MACHINE &&
                            execsim_task(&machine, 0, &task) == EXECSIM_NO_MACHINE && execsim_block(&machine, 8, &block) == EXECSIM_NO_MACHINE &&
                            execsim_take(&machine, out, sizeof out, &length) == EXECSIM_NO_MACHINE &&
                            execsim_task_name(&machine, 0, out, sizeof out, &length) == EXECSIM_NO_MACHINE);
    execsim_close(&machine);
    count("a file that is refused", execsim_open(&machine, (const uint8_t *)"?", 1, out, sizeof out, &length) == EXECSIM_MACHINE_REFUSED &&
                                        length == 16 && !memcmp(out, "machine: NotToml", 16) && !machine.machine);
    count("a machine after it", open_text(&machine, file) == EXECSIM_RAN && machine.machine);
    count("an event that is refused", execsim_events(&machine, (const uint8_t *)"run 1\nrun 0", 11, out, sizeof out, &length) == EXECSIM_EVENTS_REFUSED &&
                                          length == 17 && !memcmp(out, "events: BadLine 2", 17) && has_lines(&machine, "switch a\n"));
    count("many ticks", do_text(&machine, "tick 999999") == EXECSIM_RAN && do_text(&machine, "tick 1") == EXECSIM_RAN);
    count("too many ticks", execsim_events(&machine, (const uint8_t *)"tick 1", 6, out, sizeof out, &length) == EXECSIM_EVENTS_REFUSED && length == 15 &&
                                !memcmp(out, "events: TooMany", 15));
    count("steps all the same", do_text(&machine, "run 1") == EXECSIM_ALERTED);
    count("after an alert", do_text(&machine, "run 1") == EXECSIM_ALERTED && execsim_view(&machine, &view) == EXECSIM_RAN && view.stopped == 1);
    count("a machine in place of another", open_text(&machine, "") == EXECSIM_RAN && has_lines(&machine, "idle\n") &&
                                               execsim_view(&machine, &view) == EXECSIM_RAN && view.running == EXECSIM_NO_TASK && view.tasks == 0);
    execsim_close(&machine);
    execsim_close(&machine);
    count("a machine that was closed", !machine.machine && do_text(&machine, "run 1") == EXECSIM_NO_MACHINE);
}

/* Texts that are refused: the status, and the words in the buffer. */
static void refuse(const char *machine, const char *events, uint32_t wanted, const char *words) {
    uint8_t out[64];
    uint64_t length = 0;
    uint32_t status =
        execsim_run((const uint8_t *)machine, strlen(machine), (const uint8_t *)events, strlen(events), out, sizeof out, &length);
    count(words, status == wanted && length == strlen(words) && !memcmp(out, words, length));
    uint8_t few[4] = {'.', '.', '.', '.'};
    status = execsim_run((const uint8_t *)machine, strlen(machine), (const uint8_t *)events, strlen(events), few, 3, &length);
    count("words in a short buffer", status == wanted && length <= 3 && !memcmp(few, words, length) && few[3] == '.');
}

static Text text_of(const char *words) {
    Text text = {(uint8_t *)words, strlen(words)};
    return text;
}

/* What a call says of two texts, and its status. */
static void say(Call *call, const char *machine, const char *events, uint64_t from, uint64_t to, uint32_t wanted, const char *words) {
    Example it = {text_of(machine), text_of(events), from, to, to};
    uint8_t out[512], few[4] = {'.', '.', '.', '.'};
    uint64_t length = 0;
    uint32_t status = call(&it, out, sizeof out, &length);
    count(words, status == wanted && length == strlen(words) && !memcmp(out, words, length));
    status = call(&it, few, 3, &length);
    if (status == EXECSIM_TOO_LONG) {
        count(words, length == strlen(words) && !memcmp(few, "....", 4));
    } else {
        count(words, status == wanted && length <= 3 && !memcmp(few, words, length) && few[3] == '.');
    }
}

static const char *const TWO = "[[task]]\nname = \"a\"\ncode = [\"Print 1\", \"Print 2\"]\n";

static uint32_t few_ways(const Example *it, uint8_t *out, size_t room, uint64_t *length) {
    return execsim_explore(TEXTS, 1, 0, 0, 4, out, room, length);
}

static uint32_t many_extras(const Example *it, uint8_t *out, size_t room, uint64_t *length) {
    return execsim_explore(TEXTS, 9, 0, 0, 4, out, room, length);
}

static uint32_t odd_kinds(const Example *it, uint8_t *out, size_t room, uint64_t *length) {
    return execsim_explore(TEXTS, 1, 8, 0, 4, out, room, length);
}

static uint32_t odd_sight(const Example *it, uint8_t *out, size_t room, uint64_t *length) {
    return execsim_way(TEXTS, 1, 1, 3, 4, 1, out, room, length);
}

/* Texts, steps and numbers that are refused. */
static void refuse_calls(void) {
    static Call *const both[] = {words_of, state_of, end_of, report_of, way_of};
    for (unsigned at = 0; at < sizeof both / sizeof *both; at++) {
        say(both[at], "?", "run 1\n", 0, 1, EXECSIM_MACHINE_REFUSED, "machine: NotToml");
        say(both[at], "[[task]]\nname = \"a\"\ncode = [\"Pritn 1\"]\n", "tic", 0, 1, EXECSIM_MACHINE_REFUSED, "machine: BadCommand");
        say(both[at], TWO, "run 1\n\ntic 1\n", 0, 1, EXECSIM_EVENTS_REFUSED, "events: BadLine 3");
    }
    say(words_of, TWO, "run 2\n", 0, 3, EXECSIM_NOT_THERE, "to 3: the run ends with step 2; give a number from 0 to 2, or add events");
    say(words_of, TWO, "run 2\n", 2, 1, EXECSIM_NOT_THERE, "from 2 is after to 1; give a from that is not greater than to");
    say(state_of, TWO, "run 2\n", 3, 3, EXECSIM_NOT_THERE, "step 3: the run ends with step 2; give a number from 0 to 2, or add events");
    say(few_ways, TWO, "run 4\n", 0, 0, EXECSIM_TOO_MANY, "there are 6 ways, and at most 4 are tried; ask for fewer extras, or shorten the events");
    say(many_extras, TWO, "run 4\n", 0, 0, EXECSIM_NOT_THERE, "extra is a number from 0 to 8");
    say(odd_kinds, TWO, "run 4\n", 0, 0, EXECSIM_NOT_THERE, "kinds is a sum of 1 (PORTS), 2 (ticks) and 4 (EXTER), or 0");
    say(odd_sight, TWO, "run 4\n", 0, 0, EXECSIM_NOT_THERE, "see is 0 (the end), 1 (the prints) or 2 (the trace)");
    say(way_of, TWO, "run 4\n", 0, 2, EXECSIM_NOT_THERE, "outcome 2: there is 1 outcome");
    say(way_of, TWO, "run 4\n", 0, 0, EXECSIM_NOT_THERE, "outcome 0: there is 1 outcome");
}

#ifdef WRAPPED
/* The allocation, from 1, that is refused, and all after it; how many were asked for; how many blocks are not freed. */
static unsigned long refused_from, asked, kept;

#ifdef __cplusplus
extern "C" {
#endif
void *__real_malloc(size_t length);
void *__real_realloc(void *old, size_t length);
void __real_free(void *block);

void *__wrap_malloc(size_t length) {
    void *block = ++asked >= refused_from && refused_from ? NULL : __real_malloc(length);
    kept += block != NULL;
    return block;
}

void *__wrap_realloc(void *old, size_t length) {
    void *block = ++asked >= refused_from && refused_from ? NULL : __real_realloc(old, length);
    kept += block && !old;
    return block;
}

void __wrap_free(void *block) {
    kept -= block != NULL;
    __real_free(block);
}
#ifdef __cplusplus
}
#endif

/* A call that is refused memory from its first allocation on, then from its second, and so on until it is refused none. */
static void starve(Call *call, const char *title) {
    Example it = {text_of(TWO), text_of("run 3\ntick 1\n"), 1, 3, 1};
    static uint8_t out[1 << 16];
    uint64_t length = 0;
    uint32_t status = EXECSIM_NO_MEMORY;
    unsigned long before = kept;
    int is_well = 1;
    refused_from = 0;
    while (is_well && status == EXECSIM_NO_MEMORY) {
        asked = 0;
        refused_from++;
        status = call(&it, out, sizeof out, &length);
        is_well &= kept == before;
        is_well &= status != EXECSIM_NO_MEMORY || (length == 9 && !memcmp(out, "no memory", 9));
    }
    is_well &= asked < refused_from;
    printf("library: %s takes %lu allocations of a small run\n", title, refused_from - 1);
    refused_from = 0;
    count(title, is_well && status != EXECSIM_NO_MEMORY && refused_from == 0);
}

static uint32_t run_of(const Example *it, uint8_t *out, size_t room, uint64_t *length) {
    return execsim_run(TEXTS, out, room, length);
}

/* A line that is refused memory at each of its allocations in turn: the machine is as it was. Then it is fed. */
static void starve_feed(void) {
    execsim_machine machine = EXECSIM_NO_MACHINE_YET;
    uint64_t task = 0;
    uint32_t status = EXECSIM_NO_MEMORY;
    int is_well = open_text(&machine, "[[task]]\nname = \"a\"\ncode = []\n") == EXECSIM_RAN;
    refused_from = 0;
    while (is_well && status == EXECSIM_NO_MEMORY) {
        asked = 0;
        refused_from++;
        status = execsim_feed(&machine, 0, (const uint8_t *)"Print 1", 7);
        is_well &= execsim_at_end(&machine, &task) == EXECSIM_RAN && (task == 0) == (status == EXECSIM_NO_MEMORY);
    }
    is_well &= refused_from > 1;
    refused_from = 0;
    count("a line that is refused memory", is_well && status == EXECSIM_RAN && do_text(&machine, "run 1") == EXECSIM_RAN &&
                                               has_lines(&machine, "switch a\na Print $00000001\n"));
    execsim_close(&machine);
}

/* A task that is refused memory at each allocation in turn: the machine is as it was. Then it is added. */
static void starve_add(void) {
    execsim_machine machine = EXECSIM_NO_MACHINE_YET;
    execsim_machine_view view;
    uint64_t task = 0;
    uint32_t status = EXECSIM_NO_MEMORY;
    int is_well = open_text(&machine, "[[task]]\nname = \"a\"\ncode = [\"Print 1\"]\n") == EXECSIM_RAN;
    refused_from = 0;
    while (is_well && status == EXECSIM_NO_MEMORY) {
        asked = 0;
        refused_from++;
        status = execsim_add_task(&machine, (const uint8_t *)"b", 1, 0, &task);
        is_well &= execsim_view(&machine, &view) == EXECSIM_RAN && view.tasks == (status == EXECSIM_NO_MEMORY ? 1u : 2u);
    }
    is_well &= refused_from > 5;
    refused_from = 0;
    count("a task that is refused memory", is_well && status == EXECSIM_RAN && task == 1 && do_text(&machine, "run 1") == EXECSIM_RAN &&
                                               has_lines(&machine, "switch a\na Print $00000001\n"));
    execsim_close(&machine);
}

static void starve_calls(void) {
    starve(run_of, "run");
    for (unsigned at = 0; at < CALLS_MADE; at++) {
        starve(CALLS[at].call, CALLS[at].name);
    }
    starve_feed();
    starve_add();
}
#else
static void starve_calls(void) {}
#endif

int main(int argc, char **names) {
    for (int at = 1; at < argc; at++) {
        if (has_trace(names[at])) {
            run_example(names[at]);
            step_example(names[at]);
        }
        show_example(names[at]);
    }
    refuse("?", "run 1\n", EXECSIM_MACHINE_REFUSED, "machine: NotToml");
    refuse("[[task]]\nname = \"a\"\ncode = [\"Pritn 1\"]\n", "run 1\n", EXECSIM_MACHINE_REFUSED, "machine: BadCommand");
    refuse("", "run 1\n\ntic 1\n", EXECSIM_EVENTS_REFUSED, "events: BadLine 3");
    refuse("", "run 1000000\nrun 1\n", EXECSIM_EVENTS_REFUSED, "events: TooMany");
    uint8_t none;
    uint64_t length = 7;
    uint32_t status = execsim_run(&none, 0, &none, 0, &none, 0, &length);
    count("no machine, no events and no room", status == EXECSIM_TOO_LONG && length == 5);
    read_tasks();
    read_blocks();
    feed();
    add();
    objects();
    misuse();
    refuse_calls();
    starve_calls();
    printf("%u passed, %u failed\n", passed, failed);
    return failed != 0;
}
