/* What the library calls of C, for a WebAssembly module that imports nothing: memory by classes of powers of two, and
 * copies of bytes. A block of a class that was given back is handed out again; the module's memory only grows. */
typedef __SIZE_TYPE__ size_t;
typedef __UINT64_TYPE__ uint64_t;
typedef __UINTPTR_TYPE__ uintptr_t;
#define NULL ((void *)0)

#define CLASSES 32 /* the largest block has 2^31 bytes with its header */
#define HEADER 16  /* before each block: its class */
#define PAGE 65536

struct handed_out {
    uint64_t is_there;
    uint64_t address;
};

struct spare {
    struct spare *next;
};

extern unsigned char __heap_base;
static uintptr_t top, end;
static struct spare *spares[CLASSES];
static char nothing[HEADER];

/* the class whose blocks have so many bytes beside their header; CLASSES where there is none */
static unsigned class_of(uint64_t size)
{
    unsigned number = 5;
    while (number < CLASSES && ((uint64_t)1 << number) - HEADER < size)
        number++;
    return number;
}

static int has_grown(uint64_t size)
{
    if (!top) {
        top = ((uintptr_t)&__heap_base + HEADER - 1) / HEADER * HEADER;
        end = __builtin_wasm_memory_size(0) * PAGE;
    }
    if (end - top < size) {
        uint64_t pages = (size - (end - top)) / PAGE + 16;
        if (pages > 65535 || __builtin_wasm_memory_grow(0, (size_t)pages) == (size_t)-1)
            return 0;
        end += (uintptr_t)(pages * PAGE);
    }
    return 1;
}

static void *taken(uint64_t size)
{
    unsigned number = class_of(size);
    struct spare *block;
    if (number == CLASSES)
        return NULL;
    block = spares[number];
    if (block) {
        spares[number] = block->next;
        return block;
    }
    if (!has_grown((uint64_t)1 << number))
        return NULL;
    *(uint64_t *)top = number;
    block = (struct spare *)(top + HEADER);
    top += (uintptr_t)1 << number;
    return block;
}

static unsigned class_at(const void *block)
{
    return (unsigned)*(const uint64_t *)((const char *)block - HEADER);
}

static struct handed_out handed(void *block)
{
    struct handed_out out = {block != NULL, (uintptr_t)(block ? block : (void *)nothing)};
    return out;
}

void *memcpy(void *to, const void *from, size_t count)
{
    return __builtin_memcpy(to, from, count); /* an instruction of the module */
}

void *memmove(void *to, const void *from, size_t count)
{
    return __builtin_memmove(to, from, count);
}

void *memset(void *to, int byte, size_t count)
{
    return __builtin_memset(to, byte, count);
}

struct handed_out rattle_alloc(uint64_t size, uint64_t align)
{
    return handed(taken(size ? size : align));
}

void rattle_dealloc(void *block)
{
    struct spare *spare = block;
    unsigned number = class_at(block);
    spare->next = spares[number];
    spares[number] = spare;
}

struct handed_out rattle_realloc(void *block, uint64_t old_size, uint64_t size, uint64_t align)
{
    void *made;
    if (class_of(size ? size : align) <= class_at(block))
        return handed(block);
    made = taken(size ? size : align);
    if (made) {
        memcpy(made, block, (size_t)(old_size < size ? old_size : size));
        rattle_dealloc(block);
    }
    return handed(made);
}

/* for the host: memory that it writes what it asks into; an address, or 0 */
__attribute__((export_name("allocate"))) void *allocate(size_t size)
{
    return taken(size);
}

__attribute__((export_name("release"))) void release(void *block)
{
    if (block)
        rattle_dealloc(block);
}
