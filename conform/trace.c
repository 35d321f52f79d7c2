/* The trace of a run: its lines are kept in memory, since no device can be used while a run has the machine for itself. */
#include "conform.h"

static char *first, *next, *limit;
static u32 is_cut;

/* Writes a line as soon as it ends, if the way in can do that in the middle of a run; else it is 0. */
void (*say_at_once)(const char *text, u32 length);
static char *line;

/* Takes memory for a trace: `most` bytes, or half of that as often as there is not so much. Returns 0 if there is none. */
u32 trace_open(u32 most)
{
    while (!(first = (char *)call_AllocMem(most, MEMF_PUBLIC)) && most > 4096)
        most /= 2;
    limit = first + most;
    trace_begin();
    return first != 0;
}

void trace_close(void) { call_FreeMem(first, limit - first); }

void trace_begin(void)
{
    next = line = first;
    is_cut = 0;
}

u32 trace_length(void) { return next - first; }
u32 trace_is_cut(void) { return is_cut; }
const char *trace_text(void) { return first; }

/* The sum by which a reader knows that no byte was lost: serial lines lose some on a busy machine. */
u32 trace_sum(void)
{
    u32 sum = 0;
    const char *at;
    for (at = first; at < next; at++)
        sum = (sum << 5) - sum + (u8)*at;
    return sum;
}

void print_char(char one)
{
    if (next < limit)
        *next++ = one;
    else
        is_cut = 1;
}

void print(const char *text)
{
    while (*text)
        print_char(*text++);
}

void print_number(u32 value)
{
    int shift;
    print_char('$');
    for (shift = 28; shift >= 0; shift -= 4)
        print_char("0123456789ABCDEF"[value >> shift & 15]);
}

void print_decimal(u32 value)
{
    static const u32 powers[] = {1000000000, 100000000, 10000000, 1000000, 100000, 10000, 1000, 100, 10, 1};
    u32 index, has_begun = 0;
    for (index = 0; index < sizeof powers / sizeof *powers; index++) {
        char digit = '0';
        for (; value >= powers[index]; value -= powers[index])
            digit++;
        if (has_begun || digit != '0' || powers[index] == 1) {
            has_begun = 1;
            print_char(digit);
        }
    }
}

void end_line(void)
{
    print_char('\n');
    if (say_at_once && is_logging)
        say_at_once(line, next - line);
    line = next;
}
