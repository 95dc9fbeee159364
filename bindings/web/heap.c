/* The memory of the WebAssembly module.
 *
 * On x86-64 the Rattle kit asks malloc, realloc and free of the C library by the same three functions. A block that is freed
 * is kept for the next one of its kind. Kinds of blocks have 64, 80, 96, 112, 128, 160 .. bytes.
 */
typedef unsigned long size;

/* A block begins with its kind, or where it is free with the next free one beside it. */
struct block {
    size kind;
    struct block *next;
};

/* What a request returns: whether it was met, and where the block is. */
struct tried {
    size is_met;
    void *at;
};

enum { PAGE = 65536, LEAST = 6, MOST = 40, KINDS = 4 * (MOST - LEAST) + 5 };

extern unsigned char __heap_base;
static struct block *freed[KINDS];
static size top;
static char nothing;

static size kind_of(size bytes)
{
    if (bytes <= 1 << LEAST)
        return 0;
    size bit = 63 - (size)__builtin_clzl(bytes - 1);
    return 4 * (bit - LEAST) + ((bytes - 1) >> (bit - 2) & 3) + 1;
}

static size room_of(size kind)
{
    return (4 + kind % 4) << (kind / 4 + LEAST - 2);
}

/* A block beyond all others, or null where the memory does not grow so far. */
static struct block *fresh(size kind)
{
    if (top == 0)
        top = ((size)&__heap_base + 15) & ~(size)15;
    size end = top + sizeof(struct block) + room_of(kind), has = __builtin_wasm_memory_size(0) * PAGE;
    if (end > has && __builtin_wasm_memory_grow(0, (end - has + PAGE - 1) / PAGE) == (size)-1)
        return 0;
    struct block *block = (struct block *)top;
    block->kind = kind;
    top = end;
    return block;
}

/* At least one byte, at a multiple of 16; null where there is no memory. */
void *vindaesk_take(size bytes)
{
    size kind = kind_of(bytes);
    if (bytes > (size)1 << MOST)
        return 0;
    struct block *block = freed[kind];
    if (block != 0)
        freed[kind] = block->next;
    else
        block = fresh(kind);
    return block == 0 ? 0 : block + 1;
}

void vindaesk_free(void *at)
{
    struct block *block = (struct block *)at - 1;
    block->next = freed[block->kind];
    freed[block->kind] = block;
}

static struct tried tried(void *at)
{
    return at == 0 ? (struct tried){0, &nothing} : (struct tried){1, at};
}

struct tried rattle_alloc(size bytes, size align)
{
    return tried(vindaesk_take(bytes != 0 ? bytes : align));
}

struct tried rattle_realloc(void *at, size kept, size bytes, size align)
{
    size wanted = bytes != 0 ? bytes : align, kind = ((struct block *)at - 1)->kind;
    if (kind_of(wanted) == kind)
        return tried(at);
    void *moved = vindaesk_take(wanted);
    if (moved != 0) {
        __builtin_memcpy(moved, at, room_of(kind) < wanted ? room_of(kind) : wanted);
        vindaesk_free(at);
    }
    return tried(moved);
}

void rattle_dealloc(void *at)
{
    vindaesk_free(at);
}
