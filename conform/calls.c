/* The words that ask something of Exec: each is the call of that name, or what a C program writes for it (docs/FROM-C.md). Nothing is checked: a
   call that this machine refuses is made there. */
#include "conform.h"

/* Strict: AllocSignal -1 takes the highest free signal. All others look taken meanwhile, and only for this call. */
static u32 hide_lower_signals(void)
{
    u32 allocated = SysBase->ThisTask->tc_SigAlloc;
    int number;
    if (is_strict)
        for (number = 31; number >= 16; number--)
            if (!(allocated >> number & 1)) {
                SysBase->ThisTask->tc_SigAlloc = allocated | (0xFFFF0000UL & ~(1UL << number));
                break;
            }
    return allocated;
}

static void show_lower_signals(u32 before)
{
    if (is_strict) {
        u32 taken = SysBase->ThisTask->tc_SigAlloc & ~before;
        int number;
        for (number = 31; number >= 16; number--)
            if (!(before >> number & 1)) {
                SysBase->ThisTask->tc_SigAlloc = before | (taken & 1UL << number);
                return;
            }
    }
}

/* A signal is a signed byte. */
static u32 signal_number(u32 answer) { return (u32)(long)(s8)answer; }

static u32 do_AllocSignal(u32 *a)
{
    u32 before = 0, answer;
    if (a[0] == 0xFFFFFFFF)
        before = hide_lower_signals();
    answer = signal_number(call_AllocSignal(a[0]));
    if (a[0] == 0xFFFFFFFF)
        show_lower_signals(before);
    return answer;
}

static u32 do_FreeSignal(u32 *a) { return call_FreeSignal(a[0]); }
static u32 do_SetSignal(u32 *a) { return call_SetSignal(a[0], a[1]); }
static u32 do_Signal(u32 *a) { return call_Signal(task_of(a[0]), a[1]); }
static u32 do_Forbid(u32 *a) { (void)a; return call_Forbid(); }
static u32 do_Permit(u32 *a) { (void)a; return call_Permit(); }
static u32 do_Disable(u32 *a) { (void)a; return call_Disable(); }

/* Strict: AROS's Enable does not look for a task that became ready meanwhile; Permit does. */
static u32 do_Enable(u32 *a)
{
    (void)a;
    call_Enable();
    if (is_strict) {
        call_Forbid();
        call_Permit();
    }
    return 0;
}

static u32 do_SetTaskPri(u32 *a) { return signal_number(call_SetTaskPri(task_of(a[0]), a[1])); }

/* A task that has ended, or was never added, gets a new structure first, as in a program; one that is in the system is added as it is.
   Strict: a task is added once, and then 0 is answered without a call. */
static u32 do_AddTask(u32 *a)
{
    struct Actor *actor = (struct Actor *)task_of(a[0]);
    u32 is_one = number_of(&actor->task) == a[0];
    if (is_one && is_strict && actor->is_added)
        return 0;
    if (is_one && (!actor->is_added || actor->is_removed))
        make_new(actor);
    return number_of((struct Task *)call_AddTask(&actor->task, task_entry, task_exit));
}

static u32 do_RemTask(u32 *a)
{
    struct Task *task = a[0] ? task_of(a[0]) : SysBase->ThisTask;
    if (number_of(task) != 0xEEEEEEEE)
        ((struct Actor *)task)->is_removed = 1;
    return call_RemTask(task == SysBase->ThisTask ? 0 : task);
}

static u32 do_FindTask(u32 *a) { return number_of((struct Task *)call_FindTask(a[0])); }

static u32 do_NewList(u32 *a)
{
    struct List *list = (struct List *)take_memory(sizeof *list, MEMF_PUBLIC);
    (void)a;
    if (list) {
        clear(list, sizeof *list);
        list->lh_Head = (struct Node *)&list->lh_Tail;
        list->lh_TailPred = (struct Node *)&list->lh_Head;
    }
    return (u32)list;
}

static u32 do_NewNode(u32 *a)
{
    struct Node *node = (struct Node *)take_memory(sizeof *node, MEMF_PUBLIC);
    if (node) {
        clear(node, sizeof *node);
        node->ln_Pri = a[0];
        node->ln_Name = (const char *)a[1];
    }
    return (u32)node;
}

static u32 do_FreeList(u32 *a) { free_memory(a[0], sizeof(struct List)); return 0; }
static u32 do_FreeNode(u32 *a) { free_memory(a[0], sizeof(struct Node)); return 0; }
static u32 do_AddHead(u32 *a) { return call_AddHead((void *)a[0], (void *)a[1]); }
static u32 do_AddTail(u32 *a) { return call_AddTail((void *)a[0], (void *)a[1]); }
static u32 do_Enqueue(u32 *a) { return call_Enqueue((void *)a[0], (void *)a[1]); }
static u32 do_Insert(u32 *a) { return call_Insert((void *)a[0], (void *)a[1], (void *)a[2]); }
static u32 do_Remove(u32 *a) { return call_Remove((void *)a[0]); }
static u32 do_RemHead(u32 *a) { return call_RemHead((void *)a[0]); }
static u32 do_RemTail(u32 *a) { return call_RemTail((void *)a[0]); }

/* First to Pred read a pointer, and answer 0 at a list's end, as a C program does for itself: that 0 is not Exec's. */
static u32 pointer(struct Node *node, const void *beyond) { return beyond ? (u32)node : 0; }
static u32 do_First(u32 *a) { struct Node *node = ((struct List *)a[0])->lh_Head; return pointer(node, node->ln_Succ); }
static u32 do_Last(u32 *a) { struct Node *node = ((struct List *)a[0])->lh_TailPred; return pointer(node, node->ln_Pred); }
static u32 do_Succ(u32 *a) { struct Node *node = ((struct Node *)a[0])->ln_Succ; return pointer(node, node->ln_Succ); }
static u32 do_Pred(u32 *a) { struct Node *node = ((struct Node *)a[0])->ln_Pred; return pointer(node, node->ln_Pred); }
static u32 do_FindName(u32 *a) { return call_FindName((void *)a[0], (void *)a[1]); }

static u32 do_AllocMem(u32 *a) { return take_memory(a[0], a[1]); }
static u32 do_FreeMem(u32 *a) { free_memory(a[0], a[1]); return 0; }

static u32 do_AvailMem(u32 *a)
{
    u32 answer;
    use_regions();
    answer = call_AvailMem(a[0]);
    use_system();
    return answer;
}

static u32 do_CreateMsgPort(u32 *a)
{
    u32 before = hide_lower_signals(), port;
    (void)a;
    use_regions();
    port = call_CreateMsgPort();
    use_system();
    show_lower_signals(before);
    return port;
}

static u32 do_DeleteMsgPort(u32 *a)
{
    use_regions();
    call_DeleteMsgPort((void *)a[0]);
    use_system();
    return 0;
}

static u32 do_AddPort(u32 *a)
{
    struct MsgPort *port = (struct MsgPort *)a[0];
    port->mp_Node.ln_Name = (const char *)a[1];
    port->mp_Node.ln_Pri = a[2];
    return call_AddPort(port);
}

static u32 do_RemPort(u32 *a) { return call_RemPort((void *)a[0]); }
static u32 do_FindPort(u32 *a) { return call_FindPort((void *)a[0]); }

/* PortCause writes the interrupt into mp_SigTask, so PortSignal has to write the task again: the one whose stack or signal the port has. */
static struct Owner { struct MsgPort *port; void *task; } owners[128];

/* Where the task of a port is kept: its place, or the first that is free. */
static struct Owner *owner_of(const struct MsgPort *port)
{
    struct Owner *owner = owners;
    while (owner < &owners[127] && owner->port && owner->port != port)
        owner++;
    return owner;
}

void calls_begin(void) { clear(owners, sizeof owners); }

static u32 do_PortSignal(u32 *a)
{
    struct MsgPort *port = (struct MsgPort *)a[0];
    if (port->mp_Flags == PA_SOFTINT)
        port->mp_SigTask = owner_of(port)->task;
    port->mp_Flags = PA_SIGNAL;
    return 0;
}

static u32 do_PortCause(u32 *a)
{
    struct MsgPort *port = (struct MsgPort *)a[0];
    if (port->mp_Flags != PA_SOFTINT) {
        struct Owner *owner = owner_of(port);
        owner->port = port;
        owner->task = port->mp_SigTask;
    }
    port->mp_Flags = PA_SOFTINT;
    port->mp_SigTask = softint_of((const char *)a[1]);
    return 0;
}

static u32 do_PortIgnore(u32 *a)
{
    struct MsgPort *port = (struct MsgPort *)a[0];
    if (port->mp_Flags == PA_SOFTINT)
        do_PortSignal(a);
    port->mp_Flags = PA_IGNORE;
    return 0;
}

static u32 do_NewMsg(u32 *a)
{
    struct Message *message = (struct Message *)take_memory(sizeof *message, MEMF_PUBLIC);
    if (message) {
        clear(message, sizeof *message);
        message->mn_ReplyPort = (struct MsgPort *)a[0];
        message->mn_Length = sizeof *message;
        message->word = a[1];
    }
    return (u32)message;
}

static u32 do_FreeMsg(u32 *a) { free_memory(a[0], sizeof(struct Message)); return 0; }
static u32 do_MsgWord(u32 *a) { return ((struct Message *)a[0])->word; }
static u32 do_SetMsgWord(u32 *a) { return ((struct Message *)a[0])->word = a[1]; }
static u32 do_MsgType(u32 *a) { return ((struct Message *)a[0])->mn_Node.ln_Type; }
static u32 do_PutMsg(u32 *a) { return call_PutMsg((void *)a[0], (void *)a[1]); }
static u32 do_GetMsg(u32 *a) { return call_GetMsg((void *)a[0]); }
static u32 do_ReplyMsg(u32 *a) { return call_ReplyMsg((void *)a[0]); }

static u32 do_NewSem(u32 *a)
{
    struct SignalSemaphore *semaphore = (struct SignalSemaphore *)take_memory(sizeof *semaphore, MEMF_PUBLIC);
    (void)a;
    if (semaphore) {
        clear(semaphore, sizeof *semaphore);
        call_InitSemaphore(semaphore);
    }
    return (u32)semaphore;
}

static u32 do_FreeSem(u32 *a) { free_memory(a[0], sizeof(struct SignalSemaphore)); return 0; }

/* Exec answers any number but 0 if the caller has it now. */
static u32 do_AttemptSemaphore(u32 *a) { return call_AttemptSemaphore((void *)a[0]) != 0; }
static u32 do_ReleaseSemaphore(u32 *a) { return call_ReleaseSemaphore((void *)a[0]); }
static u32 do_Cause(u32 *a) { return call_Cause(softint_of((const char *)a[0])); }
static u32 do_Print(u32 *a) { (void)a; return 0; }

static u32 do_Wait(u32 *a) { return call_Wait(a[0]); }
static u32 do_WaitPort(u32 *a) { return call_WaitPort((void *)a[0]); }
static u32 do_ObtainSemaphore(u32 *a) { return call_ObtainSemaphore((void *)a[0]); }

/* Whether a call that may wait will. It is read before the call, since the line `waits` comes before the switch. */
static u32 will_wait(const struct Call *call)
{
    const u32 *a = call->values;
    switch (call->word) {
    case WORD_Wait:
        return !(call->caller->task.tc_SigRecvd & a[0]);
    case WORD_WaitPort:
        return !((struct MsgPort *)a[0])->mp_MsgList.lh_Head->ln_Succ;
    default: {
        struct Task *owner = ((struct SignalSemaphore *)a[0])->ss_Owner;
        return owner && owner != &call->caller->task;
    }
    }
}

static u32 (*const calls[WORD_COUNT])(u32 *values) = {
#define CALL(word) [WORD_##word] = do_##word
    CALL(Print), CALL(AllocSignal), CALL(FreeSignal), CALL(SetSignal), CALL(Signal), CALL(Wait), CALL(Forbid), CALL(Permit), CALL(Disable),
    CALL(Enable), CALL(SetTaskPri), CALL(AddTask), CALL(RemTask), CALL(FindTask), CALL(NewList), CALL(FreeList), CALL(NewNode), CALL(FreeNode),
    CALL(AddHead), CALL(AddTail), CALL(Enqueue), CALL(Insert), CALL(Remove), CALL(RemHead), CALL(RemTail), CALL(First), CALL(Last), CALL(Succ),
    CALL(Pred), CALL(FindName), CALL(AllocMem), CALL(FreeMem), CALL(AvailMem), CALL(CreateMsgPort), CALL(DeleteMsgPort), CALL(AddPort),
    CALL(RemPort), CALL(FindPort), CALL(PortSignal), CALL(PortCause), CALL(PortIgnore), CALL(NewMsg), CALL(FreeMsg), CALL(MsgWord),
    CALL(SetMsgWord), CALL(MsgType), CALL(PutMsg), CALL(GetMsg), CALL(WaitPort), CALL(ReplyMsg), CALL(NewSem), CALL(FreeSem),
    CALL(ObtainSemaphore), CALL(AttemptSemaphore), CALL(ReleaseSemaphore), CALL(Cause),
#undef CALL
};

/* A call that may wait: its line comes at each try, and going on after a wait is a step of its own. */
static void call_that_waits(struct Call *call)
{
    u32 waits = will_wait(call), answer;
    if (waits)
        log_call(call, " waits");
    answer = calls[call->word](call->values);
    if (waits)
        take_own_step();
    if (word_rows[call->word].answers) {
        log_answer(call, answer);
        put_answer(call, answer);
    } else
        log_call(call, "");
}

/* A call that answers. AddTask and SetTaskPri may switch to another task inside the call: the switch waits until the line is there and the
   variable has the answer, or the other task's lines came first, and it saw the old value. */
static void call_that_answers(struct Call *call)
{
    u32 may_switch = call->word == WORD_AddTask || call->word == WORD_SetTaskPri, answer;
    if (may_switch)
        call_Forbid();
    answer = calls[call->word](call->values);
    log_answer(call, answer);
    put_answer(call, answer);
    if (may_switch)
        call_Permit();
}

/* Does a call and logs it. One without an answer is logged before, since a task to which it switches logs its own lines inside the call. */
void call_exec(struct Call *call)
{
    if (word_rows[call->word].waits)
        call_that_waits(call);
    else if (word_rows[call->word].answers)
        call_that_answers(call);
    else {
        log_call(call, "");
        calls[call->word](call->values);
    }
}
