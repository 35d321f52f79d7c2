/* Tasks of the program: each is a coroutine, which runs when the machine's running task is at the end of what was fed
 * to it, up to its next call. */
#include "execc.h"
#include <stdlib.h>
#include <sys/mman.h>
#ifdef EXECC_ASAN /* the program is compiled with -fsanitize=address */
#include <sanitizer/common_interface_defs.h>
#else
#define __sanitizer_start_switch_fiber(fake, bottom, size) ((void)0)
#define __sanitizer_finish_switch_fiber(fake, bottom, size) ((void)0)
#endif

Task tasks[MOST_TASKS];
int task_count, current = -1, serving = -1, is_quiet, is_stopped, in_progress, fresh = 0xA5;
long actions;
int too_long = -1;
static Fiber own; /* what runs the machine */
static Fiber *running;
static void (*code_of)(int);
static int number_of;
static struct ExecBase base = {
    .LibNode = {.lib_Version = 37, .lib_Node.ln_Type = NT_LIBRARY}, .VBlankFrequency = 50, .PowerSupplyFrequency = 50};
struct ExecBase *SysBase = &base;

static void switch_fiber(Fiber *from, Fiber *to) {
    struct execc_place *here = execc_here;
    running = to;
    __sanitizer_start_switch_fiber(&from->fake, to->bottom, to->size);
    swapcontext(&from->context, &to->context);
    __sanitizer_finish_switch_fiber(from->fake, 0, 0);
    execc_here = here;
}

static void begin(void) {
    void (*code)(int) = code_of;
    int number = number_of;
    __sanitizer_finish_switch_fiber(0, &own.bottom, &own.size);
    execc_here = 0;
    code(number);
}

/* A new stack, below 4 GB and with a page at its end that may not be touched, on which code begins. */
void fiber_make(Fiber *fiber, void (*code)(int), int number) {
    if (!fiber->stack) {
        fiber->stack = mmap(0, STACK, PROT_READ | PROT_WRITE, MAP_PRIVATE | MAP_ANONYMOUS | MAP_32BIT, -1, 0);
        if (fiber->stack == MAP_FAILED || mprotect(fiber->stack, 4096, PROT_NONE))
            stop(FAILED, "out of memory for a stack");
        if (fresh != 0xA5) memset(fiber->stack + 4096, fresh, STACK - 4096);
    }
    getcontext(&fiber->context);
    fiber->context.uc_stack = (stack_t){.ss_sp = fiber->stack, .ss_size = STACK};
    fiber->bottom = fiber->stack;
    fiber->size = STACK;
    code_of = code;
    number_of = number;
    makecontext(&fiber->context, begin, 0);
    fiber_run(fiber);
}

/* Goes on with what runs on a stack, until it stops; and stops it, from within. */
void fiber_run(Fiber *fiber) { switch_fiber(&own, fiber); }
void fiber_stop(Fiber *fiber) { switch_fiber(fiber, &own); }

static void run_task(int number) {
    static char *words[] = {"program", 0};
    if (tasks[number].code) tasks[number].code();
    else execc_programs[number].main(1, words);
    tasks[number].is_whole = 1;
    fiber_stop(&tasks[number].fiber);
}

Task *task_named(const char *name) {
    for (int i = 0; i < task_count; i++)
        if (!strcmp(tasks[i].name, name)) return &tasks[i];
    return 0;
}

/* A name that no task or interrupt has: of two of one name the second is NAME-2. */
void free_name(char to[32], const char *name) {
    char made[48];
    snprintf(made, sizeof made, "%s", name);
    for (int k = 2; task_named(made) || interrupt_named(made); k++) snprintf(made, sizeof made, "%.26s-%d", name, k);
    memcpy(to, made, 32);
}

/* A task that the machine does not have yet. */
Task *task_add(struct Task *host, const char *name, LONG pri, void (*code)(void), int starts) {
    if (task_count == MOST_TASKS) refuse("this is task 65, and a machine has at most 64; begin fewer");
    if (pri < -128 || pri > 127) refuse("the priority %d is not from -128 to 127", (int)pri);
    Task *task = &tasks[task_count];
    *task = (Task){.host = host, .pri = pri, .code = code, .starts = starts};
    free_name(task->name, name_of(name, "task"));
    task_count++;
    host->tc_Node.ln_Type = NT_TASK;
    if (starts) machine_changed();
    else machine_add(task_count - 1);
    return task;
}

ULONG task_number(struct Task *host, const char *who) {
    for (int i = task_count - 1; host && i >= 0; i--)
        if (tasks[i].host == host) return i + 1;
    if (host) refuse("the pointer given to %s is no task's; FindTask or CreateTask gives one", who);
    return 0;
}

/* The fields of the program's struct Task, as the machine has them. */
static void write_tasks(void) {
    static const UBYTE states[] = {TS_ADDED, TS_READY, TS_RUN, TS_WAIT, TS_WAIT, TS_REMOVED};
    for (int i = 0; i < task_count; i++) {
        struct Task *host = tasks[i].host;
        View view;
        machine_view(i, &view);
        host->tc_State = states[view.state];
        host->tc_SigRecvd = view.received;
        host->tc_SigAlloc = view.allocated;
        host->tc_SigWait = view.waits_for;
        host->tc_Node.ln_Pri = view.priority;
        host->tc_IDNestCnt = view.disables;
        host->tc_TDNestCnt = view.forbids;
    }
}

/* Lets the task make its next call that the next step finds at the end of its lines. */
static void resume(void) {
    int number = machine_at_end();
    if (number < 0 || tasks[number].is_whole) return;
    current = number;
    base.ThisTask = tasks[number].host;
    write_tasks();
    actions++;
    if (tasks[number].fiber.stack) fiber_run(&tasks[number].fiber);
    else fiber_make(&tasks[number].fiber, run_task, number);
    current = -1;
}

/* One action: a step, a tick, or a request of an interrupt. */
void act(int kind) {
    if (is_stopped) return;
    if (sigsetjmp(end_of_way, 0)) {
        current = serving = -1;
        is_stopped = 1;
        return;
    }
    if (kind == STEP) resume();
    machine_act(kind);
    actions++;
}

void add_line(Lines *lines, Line line) {
    if (lines->count == lines->room &&
        !(lines->line = realloc(lines->line, (lines->room = 2 * lines->room + 16) * sizeof(Line))))
        stop(FAILED, "out of memory");
    lines->line[lines->count++] = line;
}

/* A call: one more line of the body of the task or the interrupt that makes it; goes on when the machine has done it,
 * with its answer. */
ULONG issue(const char *format, ...) {
    char text[160];
    va_list values;
    va_start(values, format);
    vsnprintf(text, sizeof text, format, values);
    va_end(values);
    struct execc_place *here = execc_here;
    Line line =
        here ? (Line){strdup(text), here->text, here->file, here->line, here->access} : (Line){.text = strdup(text)};
    if (serving >= 0) {
        int me = serving;
        interrupts[me].next = line;
        fiber_stop(&interrupts[me].fiber);
        return interrupts[me].answer;
    }
    if (current < 0) stop(REFUSED, "a call of Exec outside of all tasks; make it in a task");
    int me = current;
    if (tasks[me].lines.count == MOST_LINES && too_long < 0) too_long = me;
    add_line(&tasks[me].lines, line);
    machine_feed(me);
    fiber_stop(&tasks[me].fiber);
    current = me;
    return tasks[me].answer;
}

struct Task *CreateTask(CONST_STRPTR name, LONG pri, APTR code, ULONG stack) {
    struct Task *host = calloc(1, sizeof *host);
    (void)stack;
    if (!host) stop(FAILED, "out of memory");
    host->tc_Node.ln_Name = name ? strdup(name) : 0;
    host->tc_Node.ln_Pri = pri;
    return AddTask(host, code, 0);
}
APTR AddTask(struct Task *host, APTR code, APTR final) {
    if (final) refuse("a task ends by its return here; give 0 as finalPC");
    if (current < 0) stop(REFUSED, "a task is begun by a task");
    task_add(host, host->tc_Node.ln_Name, host->tc_Node.ln_Pri, (void (*)(void))code, 0);
    ULONG number = issue("AddTask %d", task_count);
    return number ? tasks[number - 1].host : 0;
}
void RemTask(struct Task *host) {
    ULONG number = task_number(host, "RemTask");
    if (serving >= 0) refuse("an interrupt cannot end a task; signal it");
    if (number && (int)number != current + 1) {
        issue("RemTask %u", number);
        return;
    }
    int me = current;
    tasks[me].is_whole = 1;
    for (;;) fiber_stop(&tasks[me].fiber);
}
void DeleteTask(struct Task *host) { RemTask(host); }
void execc_exit(int status) {
    (void)status;
    RemTask(0);
}
static struct Task *host_of(ULONG number) { return number ? tasks[number - 1].host : 0; }
struct Task *FindTask(CONST_STRPTR name) {
    return host_of(name ? issue("FindTask \"%s\"", name_of(name, "task")) : issue("FindTask 0"));
}
BYTE SetTaskPri(struct Task *host, LONG pri) {
    return issue("SetTaskPri %u %d", task_number(host, "SetTaskPri"), (int)pri);
}
LONG AllocSignal(LONG number) { return (LONG)issue("AllocSignal %d", (int)number); }
void FreeSignal(LONG number) { issue("FreeSignal %d", (int)number); }
ULONG SetSignal(ULONG new, ULONG mask) { return issue("SetSignal $%X $%X", new, mask); }
void Signal(struct Task *host, ULONG mask) { issue("Signal %u $%X", task_number(host, "Signal"), mask); }
ULONG Wait(ULONG mask) { return issue("Wait $%X", mask); }
void Forbid(void) { issue("Forbid"); }
void Permit(void) { issue("Permit"); }
void Disable(void) { issue("Disable"); }
void Enable(void) { issue("Enable"); }
