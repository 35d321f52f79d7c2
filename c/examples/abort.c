/* A timer request that Ctrl-C of another task ends, as every program with a timeout has it. */
#include <clib/alib_protos.h>
#include <clib/exec_protos.h>
#include <devices/timer.h>
#include <dos/dos.h>
#include <stdio.h>

static struct Task *parent;

static void user(void)
{
    Signal(parent, SIGBREAKF_CTRL_C);
}

int main(void)
{
    struct MsgPort *port = CreateMsgPort();
    struct timerequest *request;
    ULONG got;

    if (port == NULL) return RETURN_FAIL;
    request = (struct timerequest *)CreateIORequest(port, sizeof(*request));
    if (request == NULL) {
        DeleteMsgPort(port);
        return RETURN_FAIL;
    }
    parent = FindTask(NULL);
    CreateTask("user", -1, user, 4096);
    if (OpenDevice("timer.device", UNIT_VBLANK, (struct IORequest *)request, 0L) == 0) {
        request->tr_node.io_Command = TR_ADDREQUEST;
        request->tr_time.tv_secs = 0;
        request->tr_time.tv_micro = 50000;
        SendIO((struct IORequest *)request);
        got = Wait(1L << port->mp_SigBit | SIGBREAKF_CTRL_C);
        if (got & SIGBREAKF_CTRL_C) AbortIO((struct IORequest *)request);
        WaitIO((struct IORequest *)request);
        printf("%s, error %ld\n", got & SIGBREAKF_CTRL_C ? "break" : "time", (long)request->tr_node.io_Error);
        CloseDevice((struct IORequest *)request);
    }
    DeleteIORequest((struct IORequest *)request);
    DeleteMsgPort(port);
    return RETURN_OK;
}
