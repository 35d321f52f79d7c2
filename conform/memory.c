/* The memory of a run: its regions lie in one block of the system's memory, at real addresses, and have the file's addresses in the trace. */
#include "conform.h"

static struct Region {
    u32 shown, size, real;
    struct MemHeader header;
} regions[MOST_REGIONS];
static u32 count, block, block_size;
static struct Ends memory_kept, libraries_kept, devices_kept, handlers_kept;
static u32 checks_kept;

void clear(void *memory, u32 size)
{
    u8 *at = memory;
    while (size--)
        *at++ = 0;
}

/* GCC calls these by itself, for structures. */
void *memset(void *memory, int value, unsigned long size)
{
    u8 *at = memory;
    while (size--)
        *at++ = value;
    return memory;
}

void *memcpy(void *to, const void *from, unsigned long size)
{
    u8 *at = to;
    const u8 *source = from;
    while (size--)
        *at++ = *source++;
    return to;
}

static void make_region(u32 number, const u32 *words, u32 real)
{
    struct Region *region = &regions[number];
    struct MemHeader *header = &region->header;
    struct MemChunk *chunk = (struct MemChunk *)real;
    region->shown = words[0];
    region->size = words[1];
    region->real = real;
    clear(header, sizeof *header);
    header->mh_Node.ln_Type = NT_MEMORY;
    header->mh_Node.ln_Pri = words[3];
    header->mh_Node.ln_Name = "region";
    header->mh_Attributes = words[2];
    header->mh_First = chunk;
    header->mh_Lower = (u8 *)real;
    header->mh_Upper = (u8 *)real + words[1];
    header->mh_Free = words[1];
    chunk->mc_Next = 0;
    chunk->mc_Bytes = words[1];
    rom_prepare_region(header, number);
}

/* Takes the memory of a run's regions from the system, and clears it. Returns 0 if there is not so much. */
u32 memory_begin(const u32 *words)
{
    u32 number, real, gap = 4096;
    count = run->regions;
    block_size = gap;
    for (number = 0; number < count; number++)
        block_size += words[4 * number + 1] + 2 * gap;
    block = call_AllocMem(block_size, MEMF_PUBLIC);
    if (!block)
        return 0;
    clear((void *)block, block_size);
    real = (block + gap - 1) & ~(gap - 1);
    for (number = 0; number < count; number++) {
        make_region(number, words + 4 * number, real);
        real += ((words[4 * number + 1] + gap - 1) & ~(gap - 1)) + gap;
    }
    return 1;
}

void memory_end(void)
{
    u32 number;
    for (number = 0; number < count; number++)
        rom_release_region(&regions[number].header, number);
    call_FreeMem(block, block_size);
    count = 0;
}

/* A number that a script writes for an address: the real one. */
u32 real_address(u32 shown)
{
    u32 number;
    for (number = 0; number < count; number++)
        if (shown - regions[number].shown < regions[number].size)
            return shown - regions[number].shown + regions[number].real;
    return shown;
}

/* An address as the trace shows it. It is asked for values that may be addresses alone: a size of 4 MB was one of a region. */
u32 shown_address(u32 real)
{
    u32 number;
    for (number = 0; number < count; number++)
        if (real - regions[number].real < regions[number].size)
            return real - regions[number].real + regions[number].shown;
    return real;
}

/* Takes all nodes out of a list of the system, and keeps its ends. */
void empty_list(struct List *list, struct Ends *ends)
{
    ends->head = list->lh_Head;
    ends->tail = list->lh_TailPred;
    list->lh_Head = (struct Node *)&list->lh_Tail;
    list->lh_TailPred = (struct Node *)&list->lh_Head;
}

/* Puts them back. A list that was empty has its ends in itself. */
void fill_list(struct List *list, const struct Ends *ends)
{
    list->lh_Head = ends->head;
    list->lh_TailPred = ends->tail;
}

static u32 has_memory_handlers(void) { return SysBase->lib_Version >= 39; }

/* From here on the system's list of memory has the regions of the run alone, so that AllocMem, AvailMem and CreateMsgPort take what the file
   says. Without it every address was another one. What Exec does if memory is low is kept out, too: it expunged libraries of the
   system, whose memory is in no region, and the machine stopped. */
void use_regions(void)
{
    u32 number;
    call_Forbid();
    empty_list(&SysBase->MemList, &memory_kept);
    empty_list(&SysBase->LibList, &libraries_kept);
    empty_list(&SysBase->DeviceList, &devices_kept);
    if (has_memory_handlers())
        empty_list(&SysBase->ex_MemHandlers, &handlers_kept);
    for (number = 0; number < count; number++)
        call_Enqueue(&SysBase->MemList, &regions[number].header.mh_Node);
    checks_kept = rom_pause_checks();
}

void use_system(void)
{
    rom_resume_checks(checks_kept);
    if (has_memory_handlers())
        fill_list(&SysBase->ex_MemHandlers, &handlers_kept);
    fill_list(&SysBase->DeviceList, &devices_kept);
    fill_list(&SysBase->LibList, &libraries_kept);
    fill_list(&SysBase->MemList, &memory_kept);
    call_Permit();
}

u32 take_memory(u32 size, u32 requirements)
{
    u32 taken;
    use_regions();
    taken = call_AllocMem(size, requirements);
    use_system();
    return taken;
}

void free_memory(u32 memory, u32 size)
{
    use_regions();
    call_FreeMem(memory, size);
    use_system();
}
