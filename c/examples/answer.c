/* A program with a public port: it adds 100 to what it is sent, and answers, until Ctrl-C. ask.c asks it. */
#include <clib/alib_protos.h>
#include <clib/exec_protos.h>
#include <dos/dos.h>
#include <exec/ports.h>
#include <stdio.h>

struct Point {
    struct Message msg;
    WORD x, y;
    char name[16];
};

int main(int argc, char **argv)
{
    struct MsgPort *port;
    struct Point *point;
    ULONG got = 0;

    if (!(port = CreatePort("answer", 0))) return RETURN_FAIL;
    while (!(got & SIGBREAKF_CTRL_C)) {
        got = Wait(1L << port->mp_SigBit | SIGBREAKF_CTRL_C);
        while ((point = (struct Point *)GetMsg(port))) {
            printf("%s is at %d %d\n", point->name, point->x, point->y);
            point->x += 100;
            point->y += 100;
            ReplyMsg(&point->msg);
        }
    }
    DeletePort(port);
    return RETURN_OK;
}
