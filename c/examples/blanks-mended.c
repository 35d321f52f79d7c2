/* blanks.c, mended: the software interrupt signals a task, which may be done twice; there is no port that could go. */
#include <clib/alib_protos.h>
#include <clib/exec_protos.h>
#include <exec/interrupts.h>
#include <exec/tasks.h>
#include <hardware/intbits.h>
#include <stdio.h>

struct Data {
    ULONG count, mask;
    struct Task *task;
    struct Interrupt soft;
};

static ULONG blank(struct Data *data)
{
    data->count++;
    Cause(&data->soft);
    return 0;
}

static void later(struct Data *data)
{
    Signal(data->task, data->mask);
}

int main(void)
{
    static struct Data data;
    static struct Interrupt server;
    LONG bit = AllocSignal(-1L);

    data.task = FindTask(NULL);
    data.mask = 1L << bit;
    data.soft.is_Node.ln_Name = "later";
    data.soft.is_Data = &data;
    data.soft.is_Code = (void (*)())later;
    server.is_Node.ln_Name = "blank";
    server.is_Node.ln_Pri = -60;
    server.is_Data = &data;
    server.is_Code = (void (*)())blank;
    AddIntServer(INTB_VERTB, &server);
    while (data.count < 3) Wait(data.mask);
    printf("three blanks\n");
    RemIntServer(INTB_VERTB, &server);
    FreeSignal(bit);
    return 0;
}
