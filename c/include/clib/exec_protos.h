/* Made by tools/make-headers of docs/words.json: the calls of exec.library. */
#ifndef CLIB_EXEC_PROTOS_H
#define CLIB_EXEC_PROTOS_H
#include <execc_call.h>
LONG AllocSignal(LONG);
void FreeSignal(LONG);
ULONG SetSignal(ULONG, ULONG);
void Signal(struct Task *, ULONG);
ULONG Wait(ULONG);
void Forbid(void);
void Permit(void);
void Disable(void);
void Enable(void);
void RemTask(struct Task *);
struct Task *FindTask(CONST_STRPTR);
APTR AllocMem(ULONG, ULONG);
void FreeMem(APTR, ULONG);
ULONG AvailMem(ULONG);
struct MsgPort *CreateMsgPort(void);
void DeleteMsgPort(struct MsgPort *);
void RemPort(struct MsgPort *);
struct MsgPort *FindPort(CONST_STRPTR);
void PutMsg(struct MsgPort *, struct Message *);
struct Message *GetMsg(struct MsgPort *);
struct Message *WaitPort(struct MsgPort *);
void ReplyMsg(struct Message *);
void ObtainSemaphore(struct SignalSemaphore *);
ULONG AttemptSemaphore(struct SignalSemaphore *);
void ReleaseSemaphore(struct SignalSemaphore *);
void Cause(struct Interrupt *);
void CloseDevice(struct IORequest *);
BYTE DoIO(struct IORequest *);
void SendIO(struct IORequest *);
struct IORequest *CheckIO(struct IORequest *);
BYTE WaitIO(struct IORequest *);
void AddHead(struct List *, struct Node *);
void AddTail(struct List *, struct Node *);
void Insert(struct List *, struct Node *, struct Node *);
void Enqueue(struct List *, struct Node *);
void Remove(struct Node *);
struct Node *RemHead(struct List *);
struct Node *RemTail(struct List *);
struct Node *FindName(struct List *, CONST_STRPTR);
BYTE SetTaskPri(struct Task *, LONG);
APTR AddTask(struct Task *, APTR, APTR);
void AddPort(struct MsgPort *);
APTR AllocVec(ULONG, ULONG);
void FreeVec(APTR);
void InitSemaphore(struct SignalSemaphore *);
void AddSemaphore(struct SignalSemaphore *);
void RemSemaphore(struct SignalSemaphore *);
struct SignalSemaphore *FindSemaphore(CONST_STRPTR);
LONG AbortIO(struct IORequest *);
void AddIntServer(ULONG, struct Interrupt *);
void RemIntServer(ULONG, struct Interrupt *);
struct IORequest *CreateIORequest(struct MsgPort *, ULONG);
void DeleteIORequest(APTR);
BYTE OpenDevice(CONST_STRPTR, ULONG, struct IORequest *, ULONG);
#ifndef EXECC_OWN
int ObtainSemaphoreShared() __attribute__((error("this machine has no shared semaphores; ObtainSemaphore is stricter")));
int AttemptSemaphoreShared() __attribute__((error("this machine has no shared semaphores; ObtainSemaphore is stricter")));
int ObtainSemaphoreList() __attribute__((error("this machine has no such call; obtain the semaphores one after another, always in one order")));
int ReleaseSemaphoreList() __attribute__((error("this machine has no such call; obtain the semaphores one after another, always in one order")));
int Procure() __attribute__((error("this machine has no semaphore messages; use ObtainSemaphore")));
int Vacate() __attribute__((error("this machine has no semaphore messages; use ObtainSemaphore")));
int OpenLibrary() __attribute__((error("libraries of this machine have no functions that C could call; leave it out")));
int OldOpenLibrary() __attribute__((error("libraries of this machine have no functions that C could call; leave it out")));
int CloseLibrary() __attribute__((error("libraries of this machine have no functions that C could call; leave it out")));
int AddLibrary() __attribute__((error("libraries of this machine have no functions that C could call; leave it out")));
int RemLibrary() __attribute__((error("libraries of this machine have no functions that C could call; leave it out")));
int MakeLibrary() __attribute__((error("libraries of this machine have no functions that C could call; leave it out")));
int SetFunction() __attribute__((error("calls of Exec cannot be replaced here")));
int MakeFunctions() __attribute__((error("calls of Exec cannot be replaced here")));
int SumLibrary() __attribute__((error("calls of Exec cannot be replaced here")));
int AddDevice() __attribute__((error("timer.device is the only device, and is there from the start")));
int RemDevice() __attribute__((error("timer.device is the only device, and is there from the start")));
int AddResource() __attribute__((error("this machine has no resources")));
int RemResource() __attribute__((error("this machine has no resources")));
int OpenResource() __attribute__((error("this machine has no resources")));
int SetIntVector() __attribute__((error("interrupts are here by AddIntServer and Cause alone")));
int SetExcept() __attribute__((error("tasks have no exceptions here; wait for a signal")));
int AllocTrap() __attribute__((error("this machine has no traps")));
int FreeTrap() __attribute__((error("this machine has no traps")));
int SuperState() __attribute__((error("this machine has no status register; use Disable or Forbid")));
int UserState() __attribute__((error("this machine has no status register; use Disable or Forbid")));
int Supervisor() __attribute__((error("this machine has no status register; use Disable or Forbid")));
int SetSR() __attribute__((error("this machine has no status register; use Disable or Forbid")));
int GetCC() __attribute__((error("this machine has no status register; use Disable or Forbid")));
int Allocate() __attribute__((error("memory is here by AllocMem alone")));
int Deallocate() __attribute__((error("memory is here by AllocMem alone")));
int AddMemList() __attribute__((error("memory is here by AllocMem alone")));
int CreatePool() __attribute__((error("memory is here by AllocMem alone")));
int DeletePool() __attribute__((error("memory is here by AllocMem alone")));
int AllocPooled() __attribute__((error("memory is here by AllocMem alone")));
int FreePooled() __attribute__((error("memory is here by AllocMem alone")));
int AllocEntry() __attribute__((error("use AllocMem for each block")));
int FreeEntry() __attribute__((error("use AllocMem for each block")));
int AllocAbs() __attribute__((error("AllocMem chooses where a block is")));
int TypeOfMem() __attribute__((error("all memory here is MEMF_PUBLIC")));
int Alert() __attribute__((error("an alert comes here of a wrong call alone; use printf")));
int Debug() __attribute__((error("there is no debugger here; execc --log shows the run")));
int StackSwap() __attribute__((error("a task has a stack of 256 KB here, which is enough")));
int ColdReboot() __attribute__((error("a run ends when its events end")));
int RawDoFmt() __attribute__((error("use sprintf")));
int ReadEClock() __attribute__((error("this machine has no E clock; use TR_GETSYSTIME")));
int execc_no_getchar() __attribute__((error("there is no input here; wait for a signal")));
#undef getchar
#define getchar(...) execc_no_getchar()
int execc_no_getc() __attribute__((error("there is no input here; wait for a signal")));
#undef getc
#define getc(...) execc_no_getc()
int execc_no_fgetc() __attribute__((error("there is no input here; wait for a signal")));
#undef fgetc
#define fgetc(...) execc_no_fgetc()
int execc_no_fgets() __attribute__((error("there is no input here; wait for a signal")));
#undef fgets
#define fgets(...) execc_no_fgets()
int execc_no_scanf() __attribute__((error("there is no input here; wait for a signal")));
#undef scanf
#define scanf(...) execc_no_scanf()
int execc_no_fscanf() __attribute__((error("there is no input here; wait for a signal")));
#undef fscanf
#define fscanf(...) execc_no_fscanf()
int execc_no_time() __attribute__((error("the clock of the host is not here; use TR_GETSYSTIME of timer.device")));
#undef time
#define time(...) execc_no_time()
int execc_no_clock() __attribute__((error("the clock of the host is not here; use TR_GETSYSTIME of timer.device")));
#undef clock
#define clock(...) execc_no_clock()
int execc_no_localtime() __attribute__((error("the clock of the host is not here; use TR_GETSYSTIME of timer.device")));
#undef localtime
#define localtime(...) execc_no_localtime()
int execc_no_ctime() __attribute__((error("the clock of the host is not here; use TR_GETSYSTIME of timer.device")));
#undef ctime
#define ctime(...) execc_no_ctime()
int execc_no_getenv() __attribute__((error("a run depends on its events alone")));
#undef getenv
#define getenv(...) execc_no_getenv()
int execc_no_system() __attribute__((error("no other program is here")));
#undef system
#define system(...) execc_no_system()
int execc_no_fopen() __attribute__((error("files are not here")));
#undef fopen
#define fopen(...) execc_no_fopen()
int execc_no_freopen() __attribute__((error("files are not here")));
#undef freopen
#define freopen(...) execc_no_freopen()
#define AllocSignal(a) EXECC_CALL(AllocSignal(a), "AllocSignal(" #a ")")
#define FreeSignal(a) EXECC_CALL(FreeSignal(a), "FreeSignal(" #a ")")
#define SetSignal(a, b) EXECC_CALL(SetSignal(a, b), "SetSignal(" #a ", " #b ")")
#define Signal(a, b) EXECC_CALL(Signal(a, b), "Signal(" #a ", " #b ")")
#define Wait(a) EXECC_CALL(Wait(a), "Wait(" #a ")")
#define Forbid() EXECC_CALL(Forbid(), "Forbid(" ")")
#define Permit() EXECC_CALL(Permit(), "Permit(" ")")
#define Disable() EXECC_CALL(Disable(), "Disable(" ")")
#define Enable() EXECC_CALL(Enable(), "Enable(" ")")
#define RemTask(a) EXECC_CALL(RemTask(a), "RemTask(" #a ")")
#define FindTask(a) EXECC_CALL(FindTask(a), "FindTask(" #a ")")
#define AllocMem(a, b) EXECC_CALL(AllocMem(a, b), "AllocMem(" #a ", " #b ")")
#define FreeMem(a, b) EXECC_CALL(FreeMem(a, b), "FreeMem(" #a ", " #b ")")
#define AvailMem(a) EXECC_CALL(AvailMem(a), "AvailMem(" #a ")")
#define CreateMsgPort() EXECC_CALL(CreateMsgPort(), "CreateMsgPort(" ")")
#define DeleteMsgPort(a) EXECC_CALL(DeleteMsgPort(a), "DeleteMsgPort(" #a ")")
#define RemPort(a) EXECC_CALL(RemPort(a), "RemPort(" #a ")")
#define FindPort(a) EXECC_CALL(FindPort(a), "FindPort(" #a ")")
#define PutMsg(a, b) EXECC_CALL(PutMsg(a, b), "PutMsg(" #a ", " #b ")")
#define GetMsg(a) EXECC_CALL(GetMsg(a), "GetMsg(" #a ")")
#define WaitPort(a) EXECC_CALL(WaitPort(a), "WaitPort(" #a ")")
#define ReplyMsg(a) EXECC_CALL(ReplyMsg(a), "ReplyMsg(" #a ")")
#define ObtainSemaphore(a) EXECC_CALL(ObtainSemaphore(a), "ObtainSemaphore(" #a ")")
#define AttemptSemaphore(a) EXECC_CALL(AttemptSemaphore(a), "AttemptSemaphore(" #a ")")
#define ReleaseSemaphore(a) EXECC_CALL(ReleaseSemaphore(a), "ReleaseSemaphore(" #a ")")
#define Cause(a) EXECC_CALL(Cause(a), "Cause(" #a ")")
#define CloseDevice(a) EXECC_CALL(CloseDevice(a), "CloseDevice(" #a ")")
#define DoIO(a) EXECC_CALL(DoIO(a), "DoIO(" #a ")")
#define SendIO(a) EXECC_CALL(SendIO(a), "SendIO(" #a ")")
#define CheckIO(a) EXECC_CALL(CheckIO(a), "CheckIO(" #a ")")
#define WaitIO(a) EXECC_CALL(WaitIO(a), "WaitIO(" #a ")")
#define AddHead(a, b) EXECC_CALL(AddHead(a, b), "AddHead(" #a ", " #b ")")
#define AddTail(a, b) EXECC_CALL(AddTail(a, b), "AddTail(" #a ", " #b ")")
#define Insert(a, b, c) EXECC_CALL(Insert(a, b, c), "Insert(" #a ", " #b ", " #c ")")
#define Enqueue(a, b) EXECC_CALL(Enqueue(a, b), "Enqueue(" #a ", " #b ")")
#define Remove(a) EXECC_CALL(Remove(a), "Remove(" #a ")")
#define RemHead(a) EXECC_CALL(RemHead(a), "RemHead(" #a ")")
#define RemTail(a) EXECC_CALL(RemTail(a), "RemTail(" #a ")")
#define FindName(a, b) EXECC_CALL(FindName(a, b), "FindName(" #a ", " #b ")")
#define SetTaskPri(a, b) EXECC_CALL(SetTaskPri(a, b), "SetTaskPri(" #a ", " #b ")")
#define AddTask(a, b, c) EXECC_CALL(AddTask(a, b, c), "AddTask(" #a ", " #b ", " #c ")")
#define AddPort(a) EXECC_CALL(AddPort(a), "AddPort(" #a ")")
#define AllocVec(a, b) EXECC_CALL(AllocVec(a, b), "AllocVec(" #a ", " #b ")")
#define FreeVec(a) EXECC_CALL(FreeVec(a), "FreeVec(" #a ")")
#define InitSemaphore(a) EXECC_CALL(InitSemaphore(a), "InitSemaphore(" #a ")")
#define AddSemaphore(a) EXECC_CALL(AddSemaphore(a), "AddSemaphore(" #a ")")
#define RemSemaphore(a) EXECC_CALL(RemSemaphore(a), "RemSemaphore(" #a ")")
#define FindSemaphore(a) EXECC_CALL(FindSemaphore(a), "FindSemaphore(" #a ")")
#define AbortIO(a) EXECC_CALL(AbortIO(a), "AbortIO(" #a ")")
#define AddIntServer(a, b) EXECC_CALL(AddIntServer(a, b), "AddIntServer(" #a ", " #b ")")
#define RemIntServer(a, b) EXECC_CALL(RemIntServer(a, b), "RemIntServer(" #a ", " #b ")")
#define CreateIORequest(a, b) EXECC_CALL(CreateIORequest(a, b), "CreateIORequest(" #a ", " #b ")")
#define DeleteIORequest(a) EXECC_CALL(DeleteIORequest(a), "DeleteIORequest(" #a ")")
#define OpenDevice(a, b, c, d) EXECC_CALL(OpenDevice(a, b, c, d), "OpenDevice(" #a ", " #b ", " #c ", " #d ")")
#endif
#endif
