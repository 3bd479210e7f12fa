// The heap of the WebAssembly module, in place of malloc, realloc and free. The proof of the crate assumes that
// rattle_alloc, rattle_realloc and rattle_dealloc do what the kit's libc/src/heap.rt says. Nothing proves that they do;
// tools/check module tries them.
//
// A block has 16 << class bytes, behind a header with its class. Each class has a list of freed blocks, and the first
// one is the next to be allocated. If the list is empty, the block is taken from the end of the heap, and the memory
// grows. Blocks are never split or joined.
typedef unsigned char u8;
typedef unsigned long long u64;
typedef struct Block { struct Block *next; u64 class; } Block;
// In the kit's struct the flag is a bool, and nothing reads the seven bytes after it. Without a block the pointer may
// be any but null.
typedef struct { u64 has_block; u8 *p; } Tried;

#define PAGE 65536ULL
#define LARGEST_CLASS 28 // 4 GiB, as much memory as 32-bit addresses reach

extern u8 __heap_base; // after the stack and the data; the linker aligns it to 16
static u64 end = (u64)&__heap_base;
static Block *freed[LARGEST_CLASS + 1];

static u64 memory_end(void) { return __builtin_wasm_memory_size(0) * PAGE; }

static Block *take_from_end(u64 size) {
    u64 begin = end;
    if (begin + size > memory_end()) {
        __builtin_wasm_memory_grow(0, (begin + size - memory_end() + PAGE - 1) / PAGE);
        // The size tells whether it grew. The answer for a failure differs between memories of 32 and 64 bits.
        if (begin + size > memory_end()) {
            return 0;
        }
    }
    end = begin + size;
    return (Block *)begin;
}

// Every block is aligned to 16, which `align` divides.
Tried rattle_alloc(u64 n, u64 align) {
    (void)align;
    Tried none = {0, &__heap_base};
    u64 class = n <= 16 ? 0 : 60 - __builtin_clzll(n - 1);
    if (class > LARGEST_CLASS) {
        return none;
    }
    Block *block = freed[class];
    if (block) {
        freed[class] = block->next;
    } else {
        block = take_from_end(sizeof(Block) + (16ULL << class));
        if (!block) {
            return none;
        }
        block->class = class;
    }
    return (Tried){1, (u8 *)(block + 1)};
}

void rattle_dealloc(u8 *p) {
    Block *block = (Block *)p - 1;
    block->next = freed[block->class];
    freed[block->class] = block;
}

// Keeps the first `kept` bytes, of which a block of n bytes has room for all.
Tried rattle_realloc(u8 *p, u64 kept, u64 n, u64 align) {
    if (n <= 16ULL << ((Block *)p - 1)->class) {
        return (Tried){1, p};
    }
    Tried tried = rattle_alloc(n, align);
    if (tried.has_block) {
        __builtin_memcpy(tried.p, p, kept);
        rattle_dealloc(p);
    }
    return tried;
}

// Blocks for what the host passes to a call and gets from it. Without memory the address is 0.
u8 *cdc6600_allocate(u64 n) {
    Tried tried = rattle_alloc(n, 16);
    return tried.has_block ? tried.p : 0;
}

void cdc6600_deallocate(u8 *p) { rattle_dealloc(p); }
