/* What is known of one build of a ROM, AROS's exec.library 51.3 of Debian's fs-uae: places that no header file names. A build is known by the sum of
   its ROM. On any other nothing here is used, and a run can be asked in the plain mode only.

   Strict mode needs them to change AROS as docs/REAL-EXEC.md lists. Both modes need the first two, or AROS takes some of a region for itself:
   a context of its own for each region, 160 bytes, which made every address differ. */
#include "conform.h"

enum { ROM_START = 0xF80000, ROM_WORDS = 0x20000, CONTEXT = 160 };

static const struct Build {
    u32 sum;
    void (*prepare_context)(struct MemHeader *header, u32 number, void *context); /* fills a context that is ours */
    u32 contexts;      /* the offset in ExecBase of the list of contexts */
    u32 cache;         /* the offset in a context of its cache of hints */
    u32 checks, check; /* the offset in ExecBase of flags, and the flag that has each block of memory get walls */
} builds[] = {
    {0xE282F522UL, (void (*)(struct MemHeader *, u32, void *))0xF8C9E4, 856, 22, 0x344, 1},
};
static const struct Build *known;
static u8 contexts[MOST_REGIONS][CONTEXT] __attribute__((aligned(4)));

u32 rom_sum(void)
{
    const u32 *at = (const u32 *)ROM_START;
    u32 sum = 0, left;
    for (left = ROM_WORDS; left; left--)
        sum = (sum << 5) - sum + *at++;
    return sum;
}

u32 rom_is_known(void)
{
    u32 sum = rom_sum(), number;
    known = 0;
    for (number = 0; number < sizeof builds / sizeof *builds; number++)
        if (builds[number].sum == sum)
            known = &builds[number];
    return known != 0;
}

/* Strict: without its cache of hints AROS takes the first gap that is large enough, as the manual has it; with it another one. */
void rom_prepare_region(struct MemHeader *header, u32 number)
{
    if (!known)
        return;
    clear(contexts[number], CONTEXT);
    known->prepare_context(header, 10, contexts[number]);
    if (is_strict)
        *(u32 *)(contexts[number] + known->cache) = 0;
    call_AddTail((u8 *)SysBase + known->contexts, contexts[number]);
}

/* Takes the context of a region out of the system: ours, or the one that an AROS of another build made at the region's start. */
void rom_release_region(struct MemHeader *header, u32 number)
{
    u32 *made = (u32 *)header->mh_Lower;
    if (known)
        call_Remove(contexts[number]);
    else if (made[2] == (u32)header)
        call_Remove(made);
}

/* AROS's ROM has a flag by which each block gets walls, which takes memory of its own. It was on in the ROM of fs-uae. */
u32 rom_pause_checks(void)
{
    volatile u32 *flags = (volatile u32 *)((u8 *)SysBase + (known ? known->checks : 0));
    u32 before = known ? *flags : 0;
    if (known)
        *flags = before & ~known->check;
    return before;
}

void rom_resume_checks(u32 before)
{
    if (known)
        *(volatile u32 *)((u8 *)SysBase + known->checks) = before;
}

/* Strict: AROS keeps the mark that asks for a switch, though the switch has been made, and then switches once more between equals. */
void rom_forget_stale_switch(void)
{
    if (is_strict)
        SysBase->AttnResched &= ~0x80;
}
