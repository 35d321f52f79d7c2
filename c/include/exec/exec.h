/* The structures and constants of Exec, V37, by their names there. Structures have the sizes of the host. */
#ifndef EXEC_EXEC_H
#define EXEC_EXEC_H
#include <exec/types.h>

struct Node {
    struct Node *ln_Succ, *ln_Pred;
    UBYTE ln_Type;
    BYTE ln_Pri;
    char *ln_Name;
};
struct MinNode {
    struct MinNode *mln_Succ, *mln_Pred;
};
struct List {
    struct Node *lh_Head, *lh_Tail, *lh_TailPred;
    UBYTE lh_Type, l_pad;
};
struct MinList {
    struct MinNode *mlh_Head, *mlh_Tail, *mlh_TailPred;
};
struct Task {
    struct Node tc_Node;
    UBYTE tc_Flags, tc_State;
    BYTE tc_IDNestCnt, tc_TDNestCnt;
    ULONG tc_SigAlloc, tc_SigWait, tc_SigRecvd, tc_SigExcept;
    UWORD tc_TrapAlloc, tc_TrapAble;
    APTR tc_ExceptData, tc_ExceptCode, tc_TrapData, tc_TrapCode, tc_SPReg, tc_SPLower, tc_SPUpper;
    void (*tc_Switch)(), (*tc_Launch)();
    struct List tc_MemEntry;
    APTR tc_UserData;
};
struct Interrupt {
    struct Node is_Node;
    APTR is_Data;
    void (*is_Code)();
};
struct MsgPort {
    struct Node mp_Node;
    UBYTE mp_Flags, mp_SigBit;
    void *mp_SigTask;
    struct List mp_MsgList;
};
struct Message {
    struct Node mn_Node;
    struct MsgPort *mn_ReplyPort;
    UWORD mn_Length;
};
struct SignalSemaphore {
    struct Node ss_Link;
    WORD ss_NestCount;
    struct Task *ss_Owner;
    WORD ss_QueueCount;
};
struct Library {
    struct Node lib_Node;
    UBYTE lib_Flags, lib_pad;
    UWORD lib_NegSize, lib_PosSize, lib_Version, lib_Revision;
    APTR lib_IdString;
    ULONG lib_Sum;
    UWORD lib_OpenCnt;
};
struct Device {
    struct Library dd_Library;
};
struct Unit {
    struct MsgPort unit_MsgPort;
    UBYTE unit_flags, unit_pad;
    UWORD unit_OpenCnt;
};
struct IORequest {
    struct Message io_Message;
    struct Device *io_Device;
    struct Unit *io_Unit;
    UWORD io_Command;
    UBYTE io_Flags;
    BYTE io_Error;
};
struct IOStdReq {
    struct Message io_Message;
    struct Device *io_Device;
    struct Unit *io_Unit;
    UWORD io_Command;
    UBYTE io_Flags;
    BYTE io_Error;
    ULONG io_Actual, io_Length;
    APTR io_Data;
    ULONG io_Offset;
};
#define EXECC_NO_LIST(serves) "the lists of Exec itself cannot be read here; " serves
struct ExecBase {
    struct Library LibNode;
    struct Task *ThisTask;
    UBYTE VBlankFrequency, PowerSupplyFrequency;
#if defined __clang__ || __GNUC__ >= 12
    struct List TaskReady __attribute__((unavailable(EXECC_NO_LIST("FindTask finds a task by its name"))));
    struct List TaskWait __attribute__((unavailable(EXECC_NO_LIST("FindTask finds a task by its name"))));
    struct List PortList __attribute__((unavailable(EXECC_NO_LIST("FindPort finds a port by its name"))));
    struct List SemaphoreList __attribute__((unavailable(EXECC_NO_LIST("FindSemaphore finds a semaphore by its name"))));
    struct List MemList __attribute__((unavailable(EXECC_NO_LIST("AvailMem says how much memory is free"))));
    struct List LibList __attribute__((unavailable(EXECC_NO_LIST("there are no libraries that C could call"))));
    struct List DeviceList __attribute__((unavailable(EXECC_NO_LIST("timer.device is the only device"))));
#endif
};
extern struct ExecBase *SysBase;

#define mp_SoftInt mp_SigTask
#define PF_ACTION 3
enum { PA_SIGNAL, PA_SOFTINT, PA_IGNORE };
#define MEMF_ANY 0L
#define MEMF_PUBLIC 1L
#define MEMF_CHIP 2L
#define MEMF_FAST 4L
#define MEMF_CLEAR 0x10000L
#define MEMF_LARGEST 0x20000L
#define MEMF_TOTAL 0x80000L
enum {
    NT_UNKNOWN, NT_TASK, NT_INTERRUPT, NT_DEVICE, NT_MSGPORT, NT_MESSAGE, NT_FREEMSG, NT_REPLYMSG, NT_RESOURCE, NT_LIBRARY, NT_MEMORY, NT_SOFTINT,
    NT_FONT, NT_PROCESS, NT_SEMAPHORE, NT_SIGNALSEM
};
enum { TS_INVALID, TS_ADDED, TS_RUN, TS_READY, TS_WAIT, TS_EXCEPT, TS_REMOVED };
enum { CMD_INVALID, CMD_RESET, CMD_READ, CMD_WRITE, CMD_UPDATE, CMD_CLEAR, CMD_STOP, CMD_START, CMD_FLUSH, CMD_NONSTD };
enum { IOERR_OPENFAIL = -1, IOERR_ABORTED = -2, IOERR_NOCMD = -3, IOERR_BADLENGTH = -4 };
#define IOB_QUICK 0
#define IOF_QUICK 1
#define SIGB_SINGLE 4
#define SIGF_SINGLE (1L << 4)
#define IsListEmpty(l) ((l)->lh_TailPred == (struct Node *)(l))
#define IsMsgPortEmpty(p) IsListEmpty(&(p)->mp_MsgList)
#endif
