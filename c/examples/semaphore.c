/* A public semaphore that guards a list: one task fills it in, another waits for it and adds up. */
#include <clib/alib_protos.h>
#include <clib/exec_protos.h>
#include <dos/dos.h>
#include <exec/memory.h>
#include <exec/semaphores.h>
#include <stdio.h>

struct ListSem {
    struct SignalSemaphore sem;
    struct List list;
};
struct Item {
    struct Node node;
    LONG value;
};
static struct Task *parent;
static LONG done;

static void child(void)
{
    struct ListSem *shared;
    struct Item *item;
    LONG sum = 0;

    Forbid();
    shared = (struct ListSem *)FindSemaphore("list.sem");
    if (shared) ObtainSemaphore(&shared->sem);
    Permit();
    if (shared) {
        for (item = (struct Item *)shared->list.lh_Head; item->node.ln_Succ; item = (struct Item *)item->node.ln_Succ) {
            printf("%s = %ld\n", item->node.ln_Name, item->value);
            sum += item->value;
        }
        ReleaseSemaphore(&shared->sem);
        printf("the sum is %ld\n", sum);
    }
    Signal(parent, 1L << done);
}

int main(void)
{
    static char *names[] = {"one", "two", "three"};
    struct ListSem *shared = AllocVec(sizeof *shared, MEMF_PUBLIC | MEMF_CLEAR);
    struct Item *item;
    int i;

    if (!shared) return RETURN_FAIL;
    NewList(&shared->list);
    shared->sem.ss_Link.ln_Name = "list.sem";
    AddSemaphore(&shared->sem);
    parent = FindTask(NULL);
    done = AllocSignal(-1L);
    ObtainSemaphore(&shared->sem);
    CreateTask("child", 5, child, 4000L);
    for (i = 0; i < 3; i++) {
        item = AllocMem(sizeof *item, MEMF_CLEAR);
        item->node.ln_Name = names[i];
        item->node.ln_Pri = i == 1 ? 10 : 0;
        item->value = i + 1;
        Enqueue(&shared->list, &item->node);
    }
    ReleaseSemaphore(&shared->sem);
    Wait(1L << done);
    while ((item = (struct Item *)RemHead(&shared->list))) FreeMem(item, sizeof *item);
    RemSemaphore(&shared->sem);
    FreeSignal(done);
    FreeVec(shared);
    return RETURN_OK;
}
