/* The way in for a system with dos.library 37 or later: `conform RUNS TRACES` reads a compiled file, does its runs and writes their traces. */
#include "conform.h"

enum { MODE_OLDFILE = 1005, MODE_NEWFILE = 1006, OFFSET_BEGINNING = -1, OFFSET_END = 1, RETURN_OK = 0, RETURN_FAIL = 20, DOS_VERSION = 37 };
/* Offsets of dos.library's calls; arguments are in D1, D2, D3. */
enum { OPEN = -30, CLOSE = -36, READ = -42, WRITE = -48, SEEK = -66, IOERR = -132, PRINT_FAULT = -474, READ_ARGS = -798, FREE_ARGS = -858 };

extern char __bss_start[], __bss_end[];
u32 start(void);
u32 dos_call(u32 base, long offset, u32 d1, u32 d2, u32 d3);

static u32 dos, traces, is_short;

static void write_file(const char *text, u32 length)
{
    if (dos_call(dos, WRITE, traces, (u32)text, length) != length)
        is_short = 1;
}

/* Reads a whole file into memory. Returns its size, or 0. */
static u32 read_file(const char *name, u32 **data)
{
    u32 file = dos_call(dos, OPEN, (u32)name, MODE_OLDFILE, 0), size = 0;
    if (!file)
        return 0;
    dos_call(dos, SEEK, file, 0, OFFSET_END);
    size = dos_call(dos, SEEK, file, 0, OFFSET_BEGINNING);
    *data = (u32 *)call_AllocMem(size, MEMF_PUBLIC);
    if (*data && dos_call(dos, READ, file, (u32)*data, size) != size) {
        call_FreeMem(*data, size);
        *data = 0;
    }
    dos_call(dos, CLOSE, file, 0, 0);
    return *data ? size : 0;
}

static u32 do_file(u32 *file, u32 size, const char *to)
{
    u32 status = RETURN_FAIL;
    traces = dos_call(dos, OPEN, (u32)to, MODE_NEWFILE, 0);
    if (traces) {
        if (size >= 32 && file[2] <= size / 4)
            status = conform(file, write_file, 0) ? RETURN_FAIL : RETURN_OK;
        else
            write_file("@refused no compiled runs\n", 26);
        dos_call(dos, CLOSE, traces, 0, 0);
    }
    return is_short ? RETURN_FAIL : status;
}

static u32 do_command(void)
{
    static u32 arguments[2];
    u32 read = dos_call(dos, READ_ARGS, (u32)"RUNS/A,TRACES/A", (u32)arguments, 0), status = RETURN_FAIL;
    u32 *file = 0, size = read ? read_file((const char *)arguments[0], &file) : 0;
    if (size) {
        status = do_file(file, size, (const char *)arguments[1]);
        call_FreeMem(file, size);
    }
    if (status != RETURN_OK)
        dos_call(dos, PRINT_FAULT, dos_call(dos, IOERR, 0, 0, 0), (u32)"conform", 0);
    if (read)
        dos_call(dos, FREE_ARGS, read, 0, 0);
    return status;
}

u32 start(void)
{
    u32 status = RETURN_FAIL;
    clear(__bss_start, __bss_end - __bss_start);
    dos = call_OpenLibrary("dos.library", DOS_VERSION);
    if (dos) {
        status = do_command();
        call_CloseLibrary(dos);
    }
    return status;
}
