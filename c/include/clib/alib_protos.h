/* Made by tools/make-headers of docs/words.json: the calls of amiga.lib. */
#ifndef CLIB_ALIB_PROTOS_H
#define CLIB_ALIB_PROTOS_H
#include <clib/exec_protos.h>
struct Task *CreateTask(CONST_STRPTR, LONG, APTR, ULONG);
void DeleteTask(struct Task *);
struct MsgPort *CreatePort(CONST_STRPTR, LONG);
void DeletePort(struct MsgPort *);
struct IORequest *CreateExtIO(struct MsgPort *, LONG);
void DeleteExtIO(struct IORequest *);
struct IORequest *CreateStdIO(struct MsgPort *);
void DeleteStdIO(struct IORequest *);
void BeginIO(struct IORequest *);
void NewList(struct List *);
#ifndef EXECC_OWN
#define CreateTask(a, b, c, d) EXECC_CALL(CreateTask(a, b, c, d), "CreateTask(" #a ", " #b ", " #c ", " #d ")")
#define DeleteTask(a) EXECC_CALL(DeleteTask(a), "DeleteTask(" #a ")")
#define CreatePort(a, b) EXECC_CALL(CreatePort(a, b), "CreatePort(" #a ", " #b ")")
#define DeletePort(a) EXECC_CALL(DeletePort(a), "DeletePort(" #a ")")
#define CreateExtIO(a, b) EXECC_CALL(CreateExtIO(a, b), "CreateExtIO(" #a ", " #b ")")
#define DeleteExtIO(a) EXECC_CALL(DeleteExtIO(a), "DeleteExtIO(" #a ")")
#define CreateStdIO(a) EXECC_CALL(CreateStdIO(a), "CreateStdIO(" #a ")")
#define DeleteStdIO(a) EXECC_CALL(DeleteStdIO(a), "DeleteStdIO(" #a ")")
#define BeginIO(a) EXECC_CALL(BeginIO(a), "BeginIO(" #a ")")
#define NewList(a) EXECC_CALL(NewList(a), "NewList(" #a ")")
#endif
#endif
