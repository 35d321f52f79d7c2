/* Does all runs of a compiled file, and writes their traces. */
#include "conform.h"

enum { FILE_MARK = 0x5852554E, FILE_VERSION = 1, FILE_HEADER = 8, MOST_OF_TRACE = 0x80000, CONTROL_PRIORITY = 126 };

static writer write;

/* A line that is not of a trace begins with @, as no name does. */
static void write_line(void)
{
    print_char('\n');
    write(trace_text(), trace_length());
    trace_begin();
}

static void print_pair(const char *what, u32 number)
{
    print(what);
    print_decimal(number);
}

static void write_head(void)
{
    print_pair("@conform ", FILE_VERSION);
    print_pair(" exec=", SysBase->lib_Version);
    print_pair(".", SysBase->lib_Revision);
    print(" rom=");
    print_number(rom_sum());
    print_pair(" quantum=", SysBase->Quantum);
    print(is_strict ? " mode=strict" : " mode=plain");
    write_line();
}

/* What is wrong with a file, or 0. */
static const char *mistake_of(const u32 *file, u32 is_known)
{
    u32 sum = 0, index;
    if (file[0] != FILE_MARK || file[1] != FILE_VERSION)
        return "no compiled runs of version 1";
    for (index = 4; index < file[2]; index++)
        sum = (sum << 5) - sum + file[index];
    if (sum != file[3])
        return "the sum of the file is wrong";
    if (file[6] != WORDS_SUM)
        return "compiled with another docs/words.json";
    if (is_strict && !is_known)
        return "the strict mode changes places of AROS 51.3's ROM, and this ROM is another; compile with --mode plain";
    return 0;
}

/* Writes a trace between its frame, a line with its length and its sum, and an end. The frame is printed after it in memory, and written
   before it. Returns 0 if memory was too small for both. */
static u32 write_trace(u32 number)
{
    u32 length = trace_length(), sum = trace_sum();
    print_pair("@trace ", number);
    print(" ");
    print_number(length);
    print(" ");
    print_number(sum);
    print_char('\n');
    if (trace_is_cut())
        return 0;
    write(trace_text() + length, trace_length() - length);
    write(trace_text(), length);
    trace_begin();
    print_pair("@end ", number);
    write_line();
    return 1;
}

static void do_run(const struct Run *which, u32 number)
{
    const char *lacks;
    trace_begin();
    print_pair("@run ", number);
    print(" ");
    print(which->title);
    write_line();
    lacks = run_one(which);
    if (!lacks && write_trace(number))
        return;
    trace_begin();
    print_pair("@cannot ", number);
    print(" ");
    print(lacks ? lacks : "no memory for its trace");
    write_line();
}

static void do_runs(const u32 *at, u32 count)
{
    u32 number, before = call_SetTaskPri(control, CONTROL_PRIORITY);
    for (number = 0; number < count; number++) {
        do_run((const struct Run *)at, number);
        at += *at;
    }
    call_SetTaskPri(control, before);
    print("@done");
    write_line();
}

/* Does the runs of a file that is in memory. Returns 0, or 1 if it cannot be used; `write` gets the traces and says why. `at_once`, or 0, can write
   in the middle of a run: it gets each line as it is made. */
u32 conform(const u32 *file, writer to, writer at_once)
{
    const char *mistake;
    u32 signal;
    write = to;
    is_strict = file[5] & 1;
    say_at_once = file[5] & 2 ? at_once : 0;
    if (!trace_open(MOST_OF_TRACE))
        return 1;
    mistake = mistake_of(file, rom_is_known());
    write_head();
    if (mistake) {
        print("@refused ");
        print(mistake);
        write_line();
    } else {
        control = (struct Task *)call_FindTask(0);
        signal = call_AllocSignal(-1);
        control_signal = 1UL << signal;
        do_runs(file + FILE_HEADER, file[4]);
        call_FreeSignal(signal);
    }
    trace_close();
    return mistake != 0;
}
