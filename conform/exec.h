/* What the Amiga side uses of Exec's header files: its structures, the numbers in them, and its calls by their offsets in the library.
   Written by hand for what is used; each structure has the size that the header files give it. */
#ifndef CONFORM_EXEC_H
#define CONFORM_EXEC_H

typedef unsigned long u32;
typedef unsigned short u16;
typedef unsigned char u8;
typedef signed char s8;

/* exec/nodes.h and exec/lists.h */
struct Node {
    struct Node *ln_Succ, *ln_Pred;
    u8 ln_Type;
    s8 ln_Pri;
    const char *ln_Name;
};
struct List {
    struct Node *lh_Head, *lh_Tail, *lh_TailPred;
    u8 lh_Type, l_pad;
};
enum { NT_TASK = 1, NT_INTERRUPT = 2, NT_MEMORY = 10 };

/* exec/tasks.h */
struct Task {
    struct Node tc_Node;
    u8 tc_Flags, tc_State;
    s8 tc_IDNestCnt, tc_TDNestCnt;
    u32 tc_SigAlloc, tc_SigWait, tc_SigRecvd, tc_SigExcept;
    u16 tc_TrapAlloc, tc_TrapAble;
    void *tc_ExceptData, *tc_ExceptCode, *tc_TrapData, *tc_TrapCode, *tc_SPReg, *tc_SPLower, *tc_SPUpper;
    void (*tc_Switch)(void);
    void (*tc_Launch)(void);
    struct List tc_MemEntry;
    void *tc_UserData;
};
enum { TF_LAUNCH = 0x80 };

/* exec/ports.h; a message of a run has one word after it */
struct MsgPort {
    struct Node mp_Node;
    u8 mp_Flags, mp_SigBit;
    void *mp_SigTask;
    struct List mp_MsgList;
};
enum { PA_SIGNAL = 0, PA_SOFTINT = 1, PA_IGNORE = 2 };
struct Message {
    struct Node mn_Node;
    struct MsgPort *mn_ReplyPort;
    u16 mn_Length;
    u32 word;
};

/* exec/semaphores.h */
struct SignalSemaphore {
    struct Node ss_Link;
    short ss_NestCount;
    u8 ss_WaitQueue[12], ss_MultipleLink[12];
    struct Task *ss_Owner;
    short ss_QueueCount;
};

/* exec/interrupts.h */
struct Interrupt {
    struct Node is_Node;
    void *is_Data;
    void (*is_Code)(void);
};

/* exec/memory.h */
struct MemChunk {
    struct MemChunk *mc_Next;
    u32 mc_Bytes;
};
struct MemHeader {
    struct Node mh_Node;
    u16 mh_Attributes;
    struct MemChunk *mh_First;
    u8 *mh_Lower, *mh_Upper;
    u32 mh_Free;
};
enum { MEMF_PUBLIC = 1 };

/* exec/execbase.h: the fields that are used, at their offsets */
struct ExecBase {
    struct Node lib_Node;
    u16 before_version[3];
    u16 lib_Version, lib_Revision;
    u8 before_vectors[60];
    struct { struct List *chain; void *code; struct Node *node; } IntVects[16];
    struct Task *ThisTask;
    u32 IdleCount, DispCount;
    u16 Quantum, Elapsed, SysFlags;
    s8 IDNestCnt, TDNestCnt;
    u16 AttnFlags, AttnResched;
    u8 before_memory[22];
    struct List MemList, ResourceList, DeviceList, IntrList, LibList, PortList, TaskReady, TaskWait;
    u8 before_handlers[182];
    struct List ex_MemHandlers; /* from version 39 on, without the last two bytes */
};

#define offset_of(type, field) ((u32) & ((type *)0)->field)
_Static_assert(sizeof(struct Node) == 14 && sizeof(struct List) == 14, "nodes and lists");
_Static_assert(sizeof(struct Task) == 92 && sizeof(struct MsgPort) == 34 && sizeof(struct Message) == 24, "tasks, ports, messages");
_Static_assert(sizeof(struct SignalSemaphore) == 46 && sizeof(struct Interrupt) == 22 && sizeof(struct MemHeader) == 32, "the others");
_Static_assert(__builtin_offsetof(struct ExecBase, IntVects) == 84 && __builtin_offsetof(struct ExecBase, ThisTask) == 276, "ExecBase");
_Static_assert(__builtin_offsetof(struct ExecBase, MemList) == 322 && __builtin_offsetof(struct ExecBase, PortList) == 392, "its lists");
_Static_assert(__builtin_offsetof(struct ExecBase, ex_MemHandlers) == 616, "its handlers of low memory");

#define SysBase (*(struct ExecBase *volatile *)4)

/* A call of the library: its offset, and what is in D0, D1, A0 to A3. Each `call_` has the arguments of the autodoc that are used. */
u32 exec_call(long offset, u32 d0, u32 d1, u32 a0, u32 a1, u32 a2, u32 a3);

#define call_Disable() exec_call(-120, 0, 0, 0, 0, 0, 0)
#define call_Enable() exec_call(-126, 0, 0, 0, 0, 0, 0)
#define call_Forbid() exec_call(-132, 0, 0, 0, 0, 0, 0)
#define call_Permit() exec_call(-138, 0, 0, 0, 0, 0, 0)
#define call_AddIntServer(source, interrupt) exec_call(-168, (u32)(source), 0, 0, (u32)(interrupt), 0, 0)
#define call_Cause(interrupt) exec_call(-180, 0, 0, 0, (u32)(interrupt), 0, 0)
#define call_AllocMem(size, requirements) exec_call(-198, (u32)(size), (u32)(requirements), 0, 0, 0, 0)
#define call_FreeMem(block, size) exec_call(-210, (u32)(size), 0, 0, (u32)(block), 0, 0)
#define call_AvailMem(requirements) exec_call(-216, 0, (u32)(requirements), 0, 0, 0, 0)
#define call_Insert(list, node, before) exec_call(-234, 0, 0, (u32)(list), (u32)(node), (u32)(before), 0)
#define call_AddHead(list, node) exec_call(-240, 0, 0, (u32)(list), (u32)(node), 0, 0)
#define call_AddTail(list, node) exec_call(-246, 0, 0, (u32)(list), (u32)(node), 0, 0)
#define call_Remove(node) exec_call(-252, 0, 0, 0, (u32)(node), 0, 0)
#define call_RemHead(list) exec_call(-258, 0, 0, (u32)(list), 0, 0, 0)
#define call_RemTail(list) exec_call(-264, 0, 0, (u32)(list), 0, 0, 0)
#define call_Enqueue(list, node) exec_call(-270, 0, 0, (u32)(list), (u32)(node), 0, 0)
#define call_FindName(list, name) exec_call(-276, 0, 0, (u32)(list), (u32)(name), 0, 0)
#define call_AddTask(task, first, last) exec_call(-282, 0, 0, 0, (u32)(task), (u32)(first), (u32)(last))
#define call_RemTask(task) exec_call(-288, 0, 0, 0, (u32)(task), 0, 0)
#define call_FindTask(name) exec_call(-294, 0, 0, 0, (u32)(name), 0, 0)
#define call_SetTaskPri(task, pri) exec_call(-300, (u32)(pri), 0, 0, (u32)(task), 0, 0)
#define call_SetSignal(set, mask) exec_call(-306, (u32)(set), (u32)(mask), 0, 0, 0, 0)
#define call_Wait(mask) exec_call(-318, (u32)(mask), 0, 0, 0, 0, 0)
#define call_Signal(task, mask) exec_call(-324, (u32)(mask), 0, 0, (u32)(task), 0, 0)
#define call_AllocSignal(number) exec_call(-330, (u32)(number), 0, 0, 0, 0, 0)
#define call_FreeSignal(number) exec_call(-336, (u32)(number), 0, 0, 0, 0, 0)
#define call_AddPort(port) exec_call(-354, 0, 0, 0, (u32)(port), 0, 0)
#define call_RemPort(port) exec_call(-360, 0, 0, 0, (u32)(port), 0, 0)
#define call_PutMsg(port, message) exec_call(-366, 0, 0, (u32)(port), (u32)(message), 0, 0)
#define call_GetMsg(port) exec_call(-372, 0, 0, (u32)(port), 0, 0, 0)
#define call_ReplyMsg(message) exec_call(-378, 0, 0, 0, (u32)(message), 0, 0)
#define call_WaitPort(port) exec_call(-384, 0, 0, (u32)(port), 0, 0, 0)
#define call_FindPort(name) exec_call(-390, 0, 0, 0, (u32)(name), 0, 0)
#define call_CloseLibrary(base) exec_call(-414, 0, 0, 0, (u32)(base), 0, 0)
#define call_OpenLibrary(name, version) exec_call(-552, (u32)(version), 0, 0, (u32)(name), 0, 0)
#define call_InitSemaphore(semaphore) exec_call(-558, 0, 0, (u32)(semaphore), 0, 0, 0)
#define call_ObtainSemaphore(semaphore) exec_call(-564, 0, 0, (u32)(semaphore), 0, 0, 0)
#define call_ReleaseSemaphore(semaphore) exec_call(-570, 0, 0, (u32)(semaphore), 0, 0, 0)
#define call_AttemptSemaphore(semaphore) exec_call(-576, 0, 0, (u32)(semaphore), 0, 0, 0)
#define call_CreateMsgPort() exec_call(-666, 0, 0, 0, 0, 0, 0)
#define call_DeleteMsgPort(port) exec_call(-672, 0, 0, (u32)(port), 0, 0, 0)

/* The custom chips' registers that are used (hardware/custom.h). */
#define CUSTOM(offset) (*(volatile u16 *)(0xDFF000 + (offset)))
#define VPOSR CUSTOM(0x004)
#define VHPOSR CUSTOM(0x006)
#define SERDATR CUSTOM(0x018)
#define INTENAR CUSTOM(0x01C)
#define SERDAT CUSTOM(0x030)
#define SERPER CUSTOM(0x032)
#define INTENA CUSTOM(0x09A)
#define INTREQ CUSTOM(0x09C)
enum { SET = 0x8000, INTEN = 0x4000, SOFTINT_BIT = 2, PORTS_BIT = 3, VERTB_BIT = 5, EXTER_BIT = 13 };

#endif
