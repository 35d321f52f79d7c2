/* The way in that needs nothing but Exec: a boot block has read this program and the compiled runs into memory, and traces go to the
   serial port, by its registers. */
#include "conform.h"

extern char __bss_start[], __bss_end[];
void start(const u32 *file, u32 unused);

enum { FAST = 8, STOP_BIT = 0x100, BUFFER_IS_EMPTY = 0x2000 };

static void write_serial(const char *text, u32 length)
{
    SERPER = FAST;
    while (length--) {
        while (!(SERDATR & BUFFER_IS_EMPTY))
            ;
        SERDAT = STOP_BIT | (u8)*text++;
    }
}

void start(const u32 *file, u32 unused)
{
    (void)unused;
    clear(__bss_start, __bss_end - __bss_start);
    conform(file, write_serial, write_serial);
    for (;;)
        call_Wait(0);
}
