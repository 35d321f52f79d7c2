/* One run: the system is kept still, the run's memory, interrupts and tasks are made, the events happen, and all is put back. */
#include "conform.h"

const struct Run *run;
u32 is_strict;
struct Actor *actors;
struct Handler softints[MOST_INTERRUPTS], servers[MOST_INTERRUPTS];

enum { SOURCES = 3, MOST_STILL = 64 };
static const u8 source_bits[SOURCES] = {PORTS_BIT, VERTB_BIT, EXTER_BIT};
static const char *const source_names[SOURCES] = {"PORTS", "VERTB", "EXTER"};
static struct Handler first_servers[SOURCES];

static struct Ends chains[SOURCES], ports;
static struct Still { struct Task *task; s8 pri; } still[MOST_STILL];
static u32 still_count;
static u16 quantum_kept, enabled_kept;

/* The first task of a list that is neither this program's nor low already. */
static struct Task *task_to_lower(const struct List *list)
{
    struct Node *node;
    for (node = list->lh_Head; node->ln_Succ; node = node->ln_Succ)
        if ((struct Task *)node != control && node->ln_Pri > -127)
            return (struct Task *)node;
    return 0;
}

/* Every task of the system goes below those of the run: one that was ready already put a running task after its equals. */
static void lower_tasks(const struct List *list)
{
    struct Task *task;
    while (still_count < MOST_STILL && (task = task_to_lower(list))) {
        still[still_count].task = task;
        still[still_count++].pri = task->tc_Node.ln_Pri;
        call_SetTaskPri(task, -127);
    }
}

static void raise_tasks(void)
{
    while (still_count) {
        still_count--;
        call_SetTaskPri(still[still_count].task, still[still_count].pri);
    }
}

static void make_interrupt(struct Handler *handler, const char *name, s8 pri, void (*code)(void))
{
    clear(handler, sizeof *handler);
    handler->interrupt.is_Node.ln_Type = NT_INTERRUPT;
    handler->interrupt.is_Node.ln_Pri = pri;
    handler->interrupt.is_Node.ln_Name = name;
    handler->interrupt.is_Data = handler;
    handler->interrupt.is_Code = code;
    handler->body.name = name;
}

static const char *name_at(u32 index) { return (const char *)((const u32 *)run + run->names_at + NAME_WORDS * index); }

static void set_code(struct Body *body, const u32 *words)
{
    body->code = (const u32 *)run + run->commands_at + words[0];
    body->words = words[1];
}

/* The tables of a run, one after another: 4 words for a region, 4 for a software interrupt, 6 for a server, 5 for a task. */
static const u32 *softint_table(void) { return run->tables + 4 * run->regions; }
static const u32 *server_table(void) { return softint_table() + 4 * run->softints; }
static const u32 *task_table(void) { return server_table() + 6 * run->servers; }

static void make_handlers(void)
{
    const u32 *words = softint_table();
    u32 index;
    for (index = 0; index < run->softints; index++, words += 4) {
        make_interrupt(&softints[index], name_at(words[0]), words[1], softint_entry);
        set_code(&softints[index].body, words + 2);
    }
    for (index = 0; index < run->servers; index++, words += 6) {
        make_interrupt(&servers[index], name_at(words[0]), words[2], server_entry);
        servers[index].source = words[1];
        servers[index].claim = words[3];
        set_code(&servers[index].body, words + 4);
    }
    for (index = 0; index < SOURCES; index++) {
        make_interrupt(&first_servers[index], source_names[index], 127, server_entry);
        first_servers[index].source = source_bits[index];
    }
}

/* The servers of this program go first in the chains: they show the serving. The system's own are out of them: one on VERTB made tasks ready. */
static void add_servers(void)
{
    u32 index;
    for (index = 0; index < SOURCES; index++) {
        empty_list(SysBase->IntVects[source_bits[index]].chain, &chains[index]);
        call_AddIntServer(source_bits[index], &first_servers[index].interrupt);
    }
    for (index = 0; index < run->servers; index++)
        call_AddIntServer(servers[index].source, &servers[index].interrupt);
    INTENA = 1 << PORTS_BIT | 1 << VERTB_BIT | 1 << EXTER_BIT;
}

static void make_tasks(void)
{
    const u32 *words = task_table();
    u8 *stacks = (u8 *)&actors[run->tasks + 1];
    u32 index;
    for (index = 0; index < run->tasks; index++, words += 5) {
        actors[index].body.name = name_at(words[0]);
        actors[index].pri = words[1];
        actors[index].starts = words[2];
        set_code(&actors[index].body, words + 3);
    }
    actors[run->tasks].body.name = "idle";
    actors[run->tasks].pri = -128;
    for (index = 0; index <= run->tasks; index++)
        actors[index].stack = stacks + STACK * index;
}

static void start_task(struct Actor *actor)
{
    make_new(actor);
    call_AddTask(&actor->task, task_entry, task_exit);
}

/* From here on nothing of the system runs: all interrupt sources but SOFTINT are disabled, its tasks are low, its servers and ports are out
   of their lists. Before, the vertical blank, the timer and input.device came in at any place. */
static void still_system(void)
{
    if (run->quantum) {
        quantum_kept = SysBase->Quantum;
        SysBase->Quantum = run->quantum;
    }
    enabled_kept = INTENAR;
    INTENA = 0x7FFF & ~(INTEN | 1 << SOFTINT_BIT);
    INTENA = SET | INTEN | 1 << SOFTINT_BIT;
    empty_list(&SysBase->PortList, &ports);
    call_Forbid();
    lower_tasks(&SysBase->TaskReady);
    lower_tasks(&SysBase->TaskWait);
    call_Permit();
}

static void wake_system(void)
{
    u32 index;
    for (index = 0; index < SOURCES; index++)
        fill_list(SysBase->IntVects[source_bits[index]].chain, &chains[index]);
    fill_list(&SysBase->PortList, &ports);
    if (run->quantum)
        SysBase->Quantum = quantum_kept;
    call_Forbid();
    raise_tasks();
    call_Permit();
    INTENA = 0x7FFF & ~INTEN;
    INTENA = SET | INTEN | enabled_kept;
}

/* Starts the tasks, and waits until the events are over. Forbid ends with the Wait. */
static void let_tasks_run(void)
{
    u32 index;
    trace_begin();
    is_logging = 1;
    call_Forbid();
    for (index = 0; index < run->tasks; index++)
        if (actors[index].starts)
            start_task(&actors[index]);
    start_task(&actors[run->tasks]);
    call_Wait(control_signal);
    is_logging = 0;
    for (index = 0; index <= run->tasks; index++)
        if (actors[index].is_added && !actors[index].is_removed)
            call_RemTask(&actors[index].task);
    call_Permit();
}

/* Does a run. Returns 0, or what it lacks. */
const char *run_one(const struct Run *which)
{
    u32 size = (which->tasks + 1) * (sizeof(struct Actor) + STACK);
    run = which;
    actors = (struct Actor *)call_AllocMem(size, MEMF_PUBLIC);
    if (!actors)
        return "no memory for its tasks";
    if (!memory_begin(run->tables)) {
        call_FreeMem(actors, size);
        return "no memory for its regions";
    }
    clear(actors, size);
    make_tasks();
    make_handlers();
    calls_begin();
    bodies_begin();
    still_system();
    add_servers();
    let_tasks_run();
    wake_system();
    memory_end();
    call_FreeMem(actors, size);
    return 0;
}
