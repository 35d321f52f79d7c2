/* A program that asks answer.c. Its message is a structure in memory that it allocates. */
#include <clib/alib_protos.h>
#include <clib/exec_protos.h>
#include <dos/dos.h>
#include <exec/memory.h>
#include <exec/ports.h>
#include <stdio.h>
#include <string.h>

struct Point {
    struct Message msg;
    WORD x, y;
    char name[16];
};

static BOOL put(STRPTR name, struct Message *msg)
{
    struct MsgPort *port;

    Forbid();
    if ((port = FindPort(name))) PutMsg(port, msg);
    Permit();
    return port != NULL;
}

int main(void)
{
    struct MsgPort *reply = CreateMsgPort();
    struct Point *point = AllocMem(sizeof *point, MEMF_PUBLIC | MEMF_CLEAR);
    struct Task *other;

    point->msg.mn_Length = sizeof *point;
    point->msg.mn_ReplyPort = reply;
    point->x = 3;
    point->y = 4;
    strcpy(point->name, "the point");
    if (put("answer", &point->msg)) {
        WaitPort(reply);
        GetMsg(reply);
        printf("now at %d %d\n", point->x, point->y);
    } else
        printf("nobody answers\n");
    if ((other = FindTask("answer"))) Signal(other, SIGBREAKF_CTRL_C);
    FreeMem(point, sizeof *point);
    DeleteMsgPort(reply);
    return RETURN_OK;
}
