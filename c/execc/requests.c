/* Requests of timer.device. A request is told what the program filled in when it is begun, if the machine has it
 * otherwise; and the program what the machine has when it is done. */
#include "execc.h"
#include <stdlib.h>

static ULONG request_address(struct IORequest *request, const char *who) {
    Object *object = object_of(request, 'r');
    if (!object) refuse("the pointer given to %s is no request's; CreateIORequest makes one", who);
    return object->address;
}

struct IORequest *CreateIORequest(struct MsgPort *port, ULONG size) {
    ULONG least = sizeof(struct timerequest);
    if (size < sizeof(struct IORequest))
        refuse("a size of %u is below that of a request; give sizeof (struct timerequest)", size);
    ULONG address = issue("CreateIORequest $%X", port_address(port, "CreateIORequest"));
    need_memory(!address);
    struct IORequest *request = address ? calloc(1, size < least ? least : size) : 0;
    if (!request) return 0;
    request->io_Message.mn_ReplyPort = port;
    object_add(request, address, 'r');
    return request;
}
void DeleteIORequest(APTR request) {
    issue("DeleteIORequest $%X", request ? request_address(request, "DeleteIORequest") : 0);
    if (request) object_remove(object_of(request, 'r'));
    free(request);
}
struct IORequest *CreateExtIO(struct MsgPort *port, LONG size) {
    return CreateIORequest(port, size);
}
void DeleteExtIO(struct IORequest *request) { DeleteIORequest(request); }
struct IORequest *CreateStdIO(struct MsgPort *port) {
    return CreateIORequest(port, sizeof(struct IOStdReq));
}
void DeleteStdIO(struct IORequest *request) { DeleteIORequest(request); }

BYTE OpenDevice(CONST_STRPTR name, ULONG unit, struct IORequest *request, ULONG flags) {
    (void)flags;
    ULONG address = request_address(request, "OpenDevice");
    return request->io_Error = (BYTE)issue("OpenDevice \"%s\" %u $%X", name_of(name, "device"), unit, address);
}
void CloseDevice(struct IORequest *request) { issue("CloseDevice $%X", request_address(request, "CloseDevice")); }

/* Tells the machine what the program filled in. */
static ULONG set_fields(struct IORequest *request, const char *who) {
    struct timerequest *timer = (struct timerequest *)request;
    ULONG address = request_address(request, who), seconds = timer->tr_time.tv_secs, micros = timer->tr_time.tv_micro;
    if (serving >= 0)
        refuse("an interrupt may call Signal, Cause, PutMsg, GetMsg and ReplyMsg here; let a task begin the request");
    port_address(request->io_Message.mn_ReplyPort, "mn_ReplyPort");
    Request has = machine_request(address);
    if (has.command != request->io_Command || has.seconds != seconds || has.micros != micros)
        issue("SetIO $%X %u %u %u", address, request->io_Command, seconds, micros);
    return address;
}

/* Tells the program the error, whether it was done at once, and the time that TR_GETSYSTIME answered. */
void get_fields(struct IORequest *request) {
    struct timerequest *timer = (struct timerequest *)request;
    Request has = machine_request(request_address(request, "GetMsg"));
    request->io_Error = (BYTE)has.error;
    request->io_Flags = has.is_quick ? IOF_QUICK : 0;
    if (request->io_Command != TR_GETSYSTIME) return;
    timer->tr_time.tv_secs = has.seconds;
    timer->tr_time.tv_micro = has.micros;
}

static BYTE finish(struct IORequest *request, ULONG error) {
    get_fields(request);
    return request->io_Error = (BYTE)error;
}
BYTE DoIO(struct IORequest *request) { return finish(request, issue("DoIO $%X", set_fields(request, "DoIO"))); }
void SendIO(struct IORequest *request) { issue("SendIO $%X", set_fields(request, "SendIO")); }
void BeginIO(struct IORequest *request) { SendIO(request); }
struct IORequest *CheckIO(struct IORequest *request) {
    return issue("CheckIO $%X", request_address(request, "CheckIO")) ? request : 0;
}
BYTE WaitIO(struct IORequest *request) {
    return finish(request, issue("WaitIO $%X", request_address(request, "WaitIO")));
}
LONG AbortIO(struct IORequest *request) { return (BYTE)issue("AbortIO $%X", request_address(request, "AbortIO")); }
