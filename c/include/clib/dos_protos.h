/* Made by tools/make-headers of docs/words.json: what is not here of dos.library. */
#ifndef CLIB_DOS_PROTOS_H
#define CLIB_DOS_PROTOS_H
#include <clib/exec_protos.h>
#ifndef EXECC_OWN
int CreateNewProc() __attribute__((error("processes are of dos.library, which is not here; CreateTask begins a task")));
int CreateNewProcTags() __attribute__((error("processes are of dos.library, which is not here; CreateTask begins a task")));
int CreateProc() __attribute__((error("processes are of dos.library, which is not here; CreateTask begins a task")));
int Delay() __attribute__((error("dos.library is not here; send a request to timer.device")));
int DateStamp() __attribute__((error("dos.library is not here; use TR_GETSYSTIME of timer.device")));
int Open() __attribute__((error("files are of dos.library, which is not here")));
int Close() __attribute__((error("files are of dos.library, which is not here")));
int Read() __attribute__((error("files are of dos.library, which is not here")));
int Write() __attribute__((error("files are of dos.library, which is not here")));
int Lock() __attribute__((error("files are of dos.library, which is not here")));
int UnLock() __attribute__((error("files are of dos.library, which is not here")));
int LoadSeg() __attribute__((error("files are of dos.library, which is not here")));
int Execute() __attribute__((error("no other program is here; leave it out")));
int Output() __attribute__((error("dos.library is not here; use printf")));
int Input() __attribute__((error("dos.library is not here; use printf")));
int Printf() __attribute__((error("dos.library is not here; use printf")));
int VPrintf() __attribute__((error("dos.library is not here; use printf")));
int FPuts() __attribute__((error("dos.library is not here; use printf")));
int PutStr() __attribute__((error("dos.library is not here; use printf")));
int WriteChars() __attribute__((error("dos.library is not here; use printf")));
int Flush() __attribute__((error("dos.library is not here; use printf")));
int CheckSignal() __attribute__((error("dos.library is not here; use SetSignal(0, mask)")));
#endif
#endif
