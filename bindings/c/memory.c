/* The three calls by which the crate has memory of the C library, for targets for which the kit has no archive of them.
 * A block of no bytes is one of `align` bytes. What is handed out is whether there is a block, and its address. */
#include <stdint.h>
#include <stdlib.h>

struct handed_out {
    uint64_t is_there;
    uint64_t address;
};

struct handed_out rattle_alloc(uint64_t size, uint64_t align);
struct handed_out rattle_realloc(void *block, uint64_t old_size, uint64_t size, uint64_t align);
void rattle_dealloc(void *block);

static char nothing;

static struct handed_out handed(void *block)
{
    struct handed_out out;
    out.is_there = block != NULL;
    out.address = (uint64_t)(uintptr_t)(block ? block : (void *)&nothing);
    return out;
}

struct handed_out rattle_alloc(uint64_t size, uint64_t align)
{
    return handed(malloc(size ? size : align));
}

struct handed_out rattle_realloc(void *block, uint64_t old_size, uint64_t size, uint64_t align)
{
    (void)old_size;
    return handed(realloc(block, size ? size : align));
}

void rattle_dealloc(void *block)
{
    free(block);
}
