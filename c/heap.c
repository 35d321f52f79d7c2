/* The heap of the library on other processors, as the kit has it for x86-64: the C library's. */
#include <stdint.h>
#include <stdlib.h>

typedef struct {
    uint64_t is_there;
    void *at;
} Block;

static char nothing;

static Block block(void *at) {
    Block it = {at != NULL, at ? at : &nothing};
    return it;
}

Block rattle_alloc(uint64_t length, uint64_t alignment) {
    return block(malloc(length ? length : alignment));
}

Block rattle_realloc(void *old, uint64_t kept, uint64_t length, uint64_t alignment) {
    (void)kept;
    return block(realloc(old, length ? length : alignment));
}

void rattle_dealloc(void *at) {
    free(at);
}
