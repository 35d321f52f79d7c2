/* A server of the vertical blank that counts, and causes a software interrupt, which sends a message. It has two
 * mistakes: a second blank may come while the message is in the port still, and the last one may send it when the port
 * goes. blanks-mended.c has none. */
#include <clib/exec_protos.h>
#include <exec/interrupts.h>
#include <exec/ports.h>
#include <hardware/intbits.h>
#include <stdio.h>

struct Data {
    ULONG count;
    struct MsgPort *port;
    struct Message note;
    struct Interrupt soft;
};

static ULONG blank(struct Data *data)
{
    data->count++;
    Cause(&data->soft);
    return 0;
}

static void later(struct Data *data)
{
    PutMsg(data->port, &data->note);
}

int main(void)
{
    static struct Data data;
    static struct Interrupt server;
    struct MsgPort *back = CreateMsgPort();

    data.port = CreateMsgPort();
    data.note.mn_ReplyPort = back;
    data.soft.is_Node.ln_Name = "later";
    data.soft.is_Data = &data;
    data.soft.is_Code = (void (*)())later;
    server.is_Node.ln_Name = "blank";
    server.is_Node.ln_Pri = -60;
    server.is_Data = &data;
    server.is_Code = (void (*)())blank;
    PutMsg(data.port, &data.note);
    GetMsg(data.port);
    AddIntServer(INTB_VERTB, &server);
    while (data.count < 3) {
        WaitPort(data.port);
        GetMsg(data.port);
        printf("a blank\n");
    }
    RemIntServer(INTB_VERTB, &server);
    DeleteMsgPort(data.port);
    DeleteMsgPort(back);
    return 0;
}
