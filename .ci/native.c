/* The heap of the page's library, and the instruction that stands in for one of x86-64, as this processor runs them. .ci/native compiles it
 * with web/heap.c and tools/shuffle.ll, and with AddressSanitizer. What differs is printed, and at the end `N passed, M failed`. */
#include <immintrin.h>
#include <sanitizer/asan_interface.h>
#include <stdint.h>
#include <stdio.h>
#include <string.h>
#include <sys/mman.h>

/* the memory of the module: below the address that the heap has at most, as in a browser */
enum { PAGES = 2048, BLOCKS = 300, TURNS = 200000 };
static char *const memory = (char *)0x10000000;
static uint64_t pages;
static int grants = 1; /* whether more memory is granted at all */
char __heap_base;

uint64_t wasm_memory_size(void) { return pages; }

/* Grants pages, but one request of seven, and none past the end. What was not granted is poisoned. */
uint64_t wasm_memory_grow(uint64_t more) {
    static unsigned asked;
    if (!grants || ++asked % 7 == 0 || pages + more > ((uintptr_t)memory >> 16) + PAGES) {
        return (uint64_t)-1;
    }
    ASAN_UNPOISON_MEMORY_REGION((char *)(pages << 16), more << 16);
    pages += more;
    return pages - more;
}

typedef struct {
    uint64_t is_there;
    unsigned char *at;
} Block;

Block rattle_alloc(uint64_t length, uint64_t alignment);
Block rattle_realloc(unsigned char *old, uint64_t kept, uint64_t length, uint64_t alignment);
void rattle_dealloc(unsigned char *at);
void heap_from(uint64_t at);

typedef unsigned char Bytes __attribute__((vector_size(16)));
Bytes shuffle_bytes(Bytes bytes, Bytes places);

static uint64_t seed = 88172645463325252ull;

static uint64_t random_below(uint64_t most) {
    seed ^= seed << 13, seed ^= seed >> 7, seed ^= seed << 17;
    return seed % most;
}

typedef struct {
    unsigned char *at;
    uint64_t length;
    unsigned char fill;
} Live;

static Live live[BLOCKS];
static unsigned refused, moved, failed;

static void judge(int is_well, const char *what) {
    if (!is_well && failed++ < 10) {
        printf("native: the heap: %s\n", what);
    }
}

/* A block as it came: in memory, aligned, and in no other block. */
static void look(unsigned number) {
    Live *it = &live[number];
    judge(((uintptr_t)it->at & 15) == 0, "a block is not aligned");
    judge(it->at >= (unsigned char *)memory && it->at + it->length <= (unsigned char *)(pages << 16), "a block is not in memory");
    for (unsigned other = 0; other < BLOCKS; other++) {
        Live *one = &live[other];
        judge(other == number || !one->at || it->at + it->length <= one->at || one->at + one->length <= it->at, "two blocks overlap");
    }
}

/* The bytes of a block that are kept: no other block wrote to them. */
static int is_filled(const Live *it, uint64_t length) {
    for (uint64_t i = 0; i < length; i++) {
        if (it->at[i] != it->fill) {
            return 0;
        }
    }
    return 1;
}

static void fill(Live *it) {
    memset(it->at, it->fill = (unsigned char)random_below(256), it->length);
}

static uint64_t some_length(void) { return 1 + random_below(random_below(20) ? 600 : 60000); }

static void take(unsigned number) {
    uint64_t length = some_length();
    Block block = rattle_alloc(length, 1ull << random_below(5));
    if (!block.is_there) {
        refused++;
        return;
    }
    live[number] = (Live){block.at, length, 0};
    look(number);
    fill(&live[number]);
}

static void give(unsigned number) {
    Live *it = &live[number];
    judge(is_filled(it, it->length), "a block was written to");
    rattle_dealloc(it->at);
    it->at = 0;
}

static void change(unsigned number) {
    Live *it = &live[number];
    uint64_t length = some_length(), kept = it->length < length ? it->length : length;
    Block block = rattle_realloc(it->at, it->length, length, 16);
    if (!block.is_there) {
        refused++;
        judge(is_filled(it, it->length), "a block that could not grow was written to");
        return;
    }
    moved += block.at != it->at;
    it->at = block.at, it->length = length;
    judge(is_filled(it, kept), "a block lost bytes");
    look(number);
    fill(it);
}

static void try_heap(void) {
    if (mmap(memory, (size_t)PAGES << 16, PROT_READ | PROT_WRITE, MAP_PRIVATE | MAP_ANONYMOUS | MAP_FIXED_NOREPLACE | MAP_NORESERVE, -1, 0) != memory) {
        judge(0, "there is no memory at its address");
        return;
    }
    pages = ((uintptr_t)memory >> 16) + 1;
    ASAN_POISON_MEMORY_REGION((char *)(pages << 16), (size_t)(PAGES - 1) << 16);
    heap_from((uint64_t)(uintptr_t)memory + 5);
    for (unsigned turn = 0; turn < TURNS; turn++) {
        unsigned number = (unsigned)random_below(BLOCKS);
        if (!live[number].at) {
            take(number);
        } else if (random_below(3)) {
            give(number);
        } else {
            change(number);
        }
    }
    judge(refused > 0, "memory was never refused");
    judge(moved > 0, "no block moved");
    judge(!rattle_alloc((1ull << 34) + 1, 1).is_there, "a block of more bytes than memory has was given");
}

/* Where memory ends, and where the heap may end at most, as .ci/native has it. */
#define ROOM ((uint64_t)1 << 16)
#define MOST ((uint64_t)1 << 29)

/* A heap of some bytes up to an end past which no memory is granted: each block is aligned, lies in it and after the one before it and its header,
 * and there are as many as fit: a block takes what its kind has, 16*2^n or 24*2^n bytes, and a header of 16. */
static void fill_up(uintptr_t to, uint64_t room, uint64_t length, uint64_t size) {
    uint64_t count = 0, wanted = room / ((size + 16 + 15) & ~15ull);
    uintptr_t after = to - room;
    heap_from(to - room);
    for (Block it; (it = rattle_alloc(length, 1)).is_there; count++) {
        uintptr_t at = (uintptr_t)it.at;
        judge((at & 15) == 0 && at >= after + 16, "a block of a full heap is not aligned, or no header is before it");
        judge(at + length <= to, "a block is past the end of memory");
        if (at + length > to || count > wanted) {
            return;
        }
        memset(it.at, 255, length);
        after = at + length;
    }
    judge(count == wanted, "another number of blocks fits than has room");
}

/* What is given back is handed out again: a block that is freed, and one whose bytes have moved. */
static void try_again(void) {
    heap_from((uint64_t)(uintptr_t)memory);
    Block one = rattle_alloc(40, 8), other = rattle_alloc(40, 8), more = rattle_alloc(1, 1);
    rattle_dealloc(one.at);
    judge(rattle_alloc(48, 8).at == one.at, "a freed block is not handed out again");
    judge(rattle_realloc(other.at, 40, 50, 8).at != other.at && more.is_there, "a block that is not the last grew in its place");
    judge(rattle_alloc(33, 8).at == other.at, "a block whose bytes have moved is not handed out again");
    Block last = rattle_alloc(40, 8);
    judge(rattle_realloc(last.at, 40, 1000, 8).at == last.at, "the last block did not grow in its place");
    rattle_dealloc(last.at);
    judge(rattle_alloc(1000, 8).at == last.at, "a block that grew is not handed out again as it is now");
}

static void try_ends(void) {
    static const uint64_t lengths[][2] = {{1, 16}, {16, 16}, {24, 24}, {32, 32}, {33, 48}, {48, 48}, {49, 64}, {1000, 1024}, {21000, 24576}};
    char *last = (char *)(uintptr_t)(MOST - ROOM);
    if (mmap(last, ROOM, PROT_READ | PROT_WRITE, MAP_PRIVATE | MAP_ANONYMOUS | MAP_FIXED_NOREPLACE, -1, 0) != last) {
        judge(0, "there is no memory at the last address");
        return;
    }
    for (unsigned i = 0; i < sizeof lengths / sizeof *lengths; i++) {
        grants = 0;
        for (uint64_t room = ROOM - 64; room <= ROOM; room += 16) {
            pages = ((uintptr_t)memory >> 16) + 1;
            fill_up((uintptr_t)memory + ROOM, room, lengths[i][0], lengths[i][1]); /* no more memory is granted */
            pages = 2 * MOST >> 16;
            fill_up(MOST, room, lengths[i][0], lengths[i][1]); /* there is memory, but the heap may have no more */
        }
    }
}

/* Each of the 256 bytes at each of the 16 places, beside others. */
static unsigned try_shuffle(void) {
    unsigned differ = 0;
    for (unsigned place = 0; place < 16; place++) {
        for (unsigned value = 0; value < 256; value++) {
            unsigned char bytes[16], places[16], here[16], there[16];
            for (unsigned i = 0; i < 16; i++) {
                bytes[i] = (unsigned char)random_below(256), places[i] = (unsigned char)random_below(256);
            }
            places[place] = (unsigned char)value;
            __m128i wanted = _mm_shuffle_epi8(_mm_loadu_si128((__m128i *)bytes), _mm_loadu_si128((__m128i *)places));
            Bytes of, at;
            memcpy(&of, bytes, 16), memcpy(&at, places, 16);
            Bytes found = shuffle_bytes(of, at);
            memcpy(here, &found, 16);
            _mm_storeu_si128((__m128i *)there, wanted);
            differ += memcmp(here, there, 16) != 0;
        }
    }
    if (differ) {
        printf("native: tools/shuffle.ll: %u of 4096 differ from the instruction\n", differ);
    }
    return differ;
}

int main(void) {
    unsigned differ = try_shuffle();
    try_heap();
    try_again();
    try_ends();
    printf("%d passed, %d failed\n", !differ + !failed, !!differ + !!failed);
    return differ || failed;
}
