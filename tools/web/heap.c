// The heap of the page: what the library asks of an allocator on a target with no C library. Nothing proves it; it
// stands where malloc stands in the program, and like malloc it may answer that there is no memory.
//
// A block has 16 bytes before it, which say its class. Classes are the powers of two and three steps between them. A block
// that was freed is kept for its class. What no kept block serves is taken from the end, which grows with the memory.
typedef unsigned long long u64;
typedef unsigned char u8;
typedef struct {
    u64 ok;
    u8 *p;
} Tried;
typedef struct Block {
    u64 class, unused;
    struct Block *next;  // in the block's own bytes, while it is free
} Block;

extern u8 __heap_base;
#define CLASSES 256
#define HEAD 16
#define PAGE 65536ULL
static Block *kept[CLASSES];
static u64 end, limit;
static u8 nothing;

// Class 4k + j has blocks of 2^k + j * 2^(k - 2) bytes, from 16 on.
static u64 size_of(unsigned class) {
    u64 whole = 1ULL << (class / 4);
    return whole + (class % 4) * (whole / 4);
}

static unsigned class_of(u64 n) {
    if (n <= 16) return 16;
    unsigned k = 63 - __builtin_clzll(n);
    for (unsigned class = 4 * k;; class ++)
        if (size_of(class) >= n && size_of(class) % 16 == 0) return class;
}

static int reach(u64 to) {
    if (to <= limit) return 1;
    u64 have = __builtin_wasm_memory_size(0) * PAGE;
    if (to > have) {
        u64 pages = (to - have + PAGE - 1) / PAGE;
        u64 more = have / PAGE / 8;  // an eighth more, so that it seldom grows
        if (more < pages || __builtin_wasm_memory_grow(0, more) == (u64)-1)
            if (__builtin_wasm_memory_grow(0, pages) == (u64)-1) return 0;
    }
    limit = __builtin_wasm_memory_size(0) * PAGE;
    return 1;
}

static u8 *take(u64 n) {
    if (n >> 40) return 0;
    unsigned class = class_of(n);
    Block *block = kept[class];
    if (block) {
        kept[class] = block->next;
        return (u8 *)block + HEAD;
    }
    if (end == 0) end = ((u64)&__heap_base + 15) & ~15ULL;
    u64 size = size_of(class);
    if (!reach(end + HEAD + size)) return 0;
    block = (Block *)end;
    end += HEAD + size;
    block->class = class;
    return (u8 *)block + HEAD;
}

static void give(u8 *p) {
    Block *block = (Block *)(p - HEAD);
    block->next = kept[block->class];
    kept[block->class] = block;
}

static Tried tried(u8 *p) {
    Tried it = {p != 0, p ? p : &nothing};
    return it;
}

Tried rattle_alloc(u64 n, u64 a) {
    return tried(take(n ? n : a));
}

void rattle_dealloc(u8 *p) {
    if (p) give(p);
}

Tried rattle_realloc(u8 *p, u64 kept_bytes, u64 n, u64 a) {
    n = n ? n : a;
    Block *block = (Block *)(p - HEAD);
    u64 size = size_of(block->class);
    if (n <= size && n >= size / 2) return tried(p);
    if ((u64)p + size == end && n > size && !(n >> 40)) {  // the last block grows where it stands
        unsigned class = class_of(n);
        if (reach((u64)p + size_of(class))) {
            block->class = class;
            end = (u64)p + size_of(class);
            return tried(p);
        }
    }
    u8 *to = take(n);
    if (!to) return n <= size ? tried(p) : tried(0);
    __builtin_memcpy(to, p, kept_bytes < n ? kept_bytes : n);
    give(p);
    return tried(to);
}

// For the host: room for what it hands in and takes out.
__attribute__((export_name("xl_room"))) u8 *xl_room(u64 n) {
    return take(n);
}

__attribute__((export_name("xl_free"))) void xl_free(u8 *p) {
    give(p);
}
