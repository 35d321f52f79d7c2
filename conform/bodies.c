/* The bodies of a run: how far each goes by the events, and its commands. Exec decides which of them runs. */
#include "conform.h"

u32 shared[SHARED_VARIABLES];
struct Task *control;
u32 control_signal, is_logging;

static u32 next_at, steps_left, steps_owed, ticks_left;
static const struct Actor *last_to_run;

void bodies_begin(void)
{
    clear(shared, sizeof shared);
    next_at = steps_left = steps_owed = ticks_left = 0;
    last_to_run = 0;
}

/* The run is over: the task that set it up goes on, and this one never again. */
static void finish(void)
{
    is_logging = 0;
    call_Signal(control, control_signal);
    for (;;)
        call_Wait(0);
}

/* Requests an interrupt source as hardware does. All sources are disabled while a run is under way, and this one is enabled for this request alone:
   a request that the hardware had left made servers run that nobody had asked for. VERTB waits until the picture's end is far, since a
   real one at the same time was a second serving. A source that is enabled still has a request that waits, under Disable: another is none. */
static void request(u32 bit)
{
    if (INTENAR & 1 << bit)
        return;
    if (bit == VERTB_BIT) {
        u32 row;
        do
            row = (VPOSR & 7) << 8 | VHPOSR >> 8;
        while (row < 60 || row > 180);
    }
    INTREQ = SET | 1 << bit;
    INTENA = SET | 1 << bit;
    __asm__ volatile("nop\n\tnop\n\tnop\n\tnop" ::: "memory");
    (void)INTENAR;
    (void)INTENAR;
}

static void begin_event(const u32 *event)
{
    switch (event[0]) {
    case EVENT_RUN:
        steps_left = event[1];
        break;
    case EVENT_TICK:
        ticks_left = event[1];
        break;
    case EVENT_REQUEST:
        request(event[1]);
        break;
    }
}

/* Does what comes next: the rest of a tick, or an event. A software interrupt ran as soon as it was caused, so its step is owed. */
static void next_event(void)
{
    if (ticks_left) {
        ticks_left--;
        request(VERTB_BIT);
        return;
    }
    if (next_at >= run->events)
        finish();
    begin_event((const u32 *)run + run->events_at + 2 * next_at++);
    for (; steps_owed && steps_left; steps_owed--)
        steps_left--;
}

/* Returns once the caller may take a step. Events happen meanwhile, in the caller's task. */
void take_own_step(void)
{
    while (!steps_left)
        next_event();
    steps_left--;
}

struct Task *task_of(u32 number)
{
    static struct Task none; /* a number of no task: a structure that was never added */
    return number - 1 < run->tasks ? &actors[number - 1].task : &none;
}

u32 number_of(const struct Task *task)
{
    u32 index;
    for (index = 0; index < run->tasks; index++)
        if (task == &actors[index].task)
            return index + 1;
    return task ? 0xEEEEEEEE : 0; /* a task of the system, which no run can name */
}

struct Interrupt *softint_of(const char *name)
{
    u32 index;
    for (index = 0; index < run->softints; index++) {
        const char *one = softints[index].body.name, *other = name;
        for (; *one && *one == *other; one++)
            other++;
        if (*one == *other)
            return &softints[index].interrupt;
    }
    return 0;
}

/* Makes a task's structure new, as a program does before it adds the task. `tc_Launch` shows that it begins to run, since `switch` is no call. */
void make_new(struct Actor *actor)
{
    struct Task *task = &actor->task;
    struct List *entries = &task->tc_MemEntry;
    clear(task, sizeof *task);
    task->tc_Node.ln_Type = NT_TASK;
    task->tc_Node.ln_Pri = actor->pri;
    task->tc_Node.ln_Name = actor->body.name;
    task->tc_Flags = TF_LAUNCH;
    task->tc_Launch = launch_entry;
    task->tc_SPLower = actor->stack;
    task->tc_SPUpper = task->tc_SPReg = actor->stack + STACK;
    entries->lh_Head = (struct Node *)&entries->lh_Tail;
    entries->lh_TailPred = (struct Node *)&entries->lh_Head;
    actor->is_added = 1;
    actor->is_removed = 0;
}

/* Exec calls this in supervisor mode as a task begins to run. A task that goes on after an interrupt is no switch, and the lines of `idle` are
   those of the idle task, of the lowest priority, which no file has. */
void on_launch(void)
{
    u32 index;
    if (!is_logging)
        return;
    rom_forget_stale_switch();
    for (index = 0; index <= run->tasks; index++)
        if (SysBase->ThisTask == &actors[index].task && last_to_run != &actors[index]) {
            last_to_run = &actors[index];
            if (index < run->tasks)
                print("switch ");
            print(actors[index].body.name);
            end_line();
        }
}

void put_answer(struct Call *call, u32 answer)
{
    u32 target = call->code[1];
    if (target == NO_TARGET)
        return;
    if (target & SHARED_TARGET)
        shared[target & 0xFF] = answer;
    else
        call->body->own[target & 0xFF] = answer;
}

static u32 kind_of(const struct Call *call, u32 index) { return call->code[0] >> (16 + 2 * index) & 3; }

static void print_call(struct Call *call)
{
    u32 index;
    print(call->body->name);
    print_char(' ');
    print(word_rows[call->word].name);
    for (index = 0; index < call->count; index++) {
        print_char(' ');
        if (kind_of(call, index) == KIND_NAME) {
            print_char('"');
            print((const char *)call->values[index]);
            print_char('"');
        } else {
            u32 is_shown = word_rows[call->word].shown >> index & 1;
            print_number(is_shown ? shown_address(call->values[index]) : call->values[index]);
        }
    }
}

void log_call(struct Call *call, const char *after)
{
    if (!is_logging)
        return;
    print_call(call);
    print(after);
    end_line();
}

void log_answer(struct Call *call, u32 answer)
{
    if (!is_logging)
        return;
    print_call(call);
    print(" -> ");
    print_number(word_rows[call->word].answers == 2 ? shown_address(answer) : answer);
    end_line();
}

static u32 value_of(struct Call *call, u32 index)
{
    u32 word = call->code[2 + index];
    switch (kind_of(call, index)) {
    case KIND_OWN:
        return call->body->own[word];
    case KIND_SHARED:
        return shared[word];
    case KIND_NAME:
        return (u32)((const u32 *)run + run->names_at + NAME_WORDS * word);
    }
    return word_rows[call->word].addresses >> index & 1 ? real_address(word) : word;
}

/* The words that ask nothing of Exec. Returns where the body goes on, or 0 if the word is another. */
static const u32 *plain_word(struct Call *call, const u32 *after)
{
    u32 one = call->values[0], other = call->values[1];
    const u32 *there = call->body->code + call->code[1];
    switch (call->word) {
    case WORD_Set: put_answer(call, one); return after;
    case WORD_Add: put_answer(call, one + other); return after;
    case WORD_Sub: put_answer(call, one - other); return after;
    case WORD_And: put_answer(call, one & other); return after;
    case WORD_Or: put_answer(call, one | other); return after;
    case WORD_Jump: return there;
    case WORD_JumpZ: return one ? after : there;
    case WORD_JumpNZ: return one ? there : after;
    }
    return 0;
}

/* Does a command, and returns where the body goes on. */
static const u32 *do_command(struct Body *body, struct Actor *caller, const u32 *code)
{
    struct Call call = {body, caller, code, code[0] & 0xFF, code[0] >> 8 & 0xF, {0, 0, 0, 0}};
    const u32 *after = code + 2 + call.count, *there;
    u32 index;
    for (index = 0; index < call.count; index++)
        call.values[index] = value_of(&call, index);
    there = plain_word(&call, after);
    if (!there) {
        call_exec(&call);
        there = after;
    }
    return there;
}

static void end_task(struct Actor *actor)
{
    if (is_logging) {
        print(actor->body.name);
        print(" RemTask $00000000");
        end_line();
    }
    actor->is_removed = 1;
    call_RemTask(0);
}

/* The code of every task. The idle task takes no step: what steps are left when it runs are used up. */
void task_main(void)
{
    struct Actor *actor = (struct Actor *)call_FindTask(0);
    const u32 *code = actor->body.code;
    if (actor == &actors[run->tasks])
        for (;;) {
            steps_left = 0;
            next_event();
        }
    for (;;) {
        take_own_step();
        if (code >= actor->body.code + actor->body.words)
            end_task(actor);
        code = do_command(&actor->body, actor, code);
    }
}

static void do_body(struct Body *body)
{
    const u32 *code = body->code;
    while (code < body->code + body->words)
        code = do_command(body, 0, code);
}

static void log_begin(const char *what, const char *name)
{
    print(what);
    print(name);
    end_line();
}

/* A software interrupt runs: it takes a step, of those that are left or of the next ones. */
void on_softint(struct Handler *handler)
{
    if (!is_logging)
        return;
    if (steps_left)
        steps_left--;
    else
        steps_owed++;
    log_begin("softint ", handler->body.name);
    do_body(&handler->body);
}

/* A server runs: first that of this program, without code, which takes back the enabling of its source and shows the serving. A request that
   was left from before the run shows nothing. Returns whether the chain ends. */
u32 on_server(struct Handler *handler)
{
    u32 is_first = !handler->body.code;
    if (is_first)
        INTENA = 1 << handler->source;
    if (!is_logging)
        return is_first ? 0 : handler->claim;
    log_begin(is_first ? "serve " : "server ", handler->body.name);
    if (!is_first)
        do_body(&handler->body);
    return handler->claim;
}
