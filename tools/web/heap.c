/* The heap of the module: the three calls by which the program asks for memory.
 *
 * A block has a head of 16 bytes, which holds its class, and is at a multiple of 16. Classes are of 16, 32, .. 112
 * bytes, and then four for each doubling, heads included. A block that is given back goes into the list of its class, from
 * which the next one of that class is taken; else one is cut off after the last, and the memory is made larger if need
 * be. Blocks are never split or joined: a run of the program has a memory of its own, which goes with it. */

typedef unsigned long size;
typedef struct head { size kind; struct head *next; } head;
typedef struct tried { _Bool ok; unsigned char *block; } tried;

#define GRAIN 16
#define PAGE 65536
#define STEP 256
#define KINDS 256
#define MOST ((size)1 << 32)

extern unsigned char __heap_base;
static head *free_of[KINDS];
static unsigned char *end, *limit;

/* the class of a number of grains, and in *grains how many that class has */
static size kind_of(size *grains) {
    size count = *grains;
    if (count < 8) return count;
    size shift = 61 - (size)__builtin_clzl(count);
    size quarters = (count + (((size)1 << shift) - 1)) >> shift;
    *grains = quarters << shift;
    return 4 * shift + quarters;
}

/* The memory is made larger by many pages at once, since each time takes long; what isn't written takes nothing. */
static _Bool grow(size bytes) {
    size pages = (bytes + PAGE - 1) / PAGE;
    if (pages < STEP && __builtin_wasm_memory_grow(0, STEP) != (size)-1) pages = STEP;
    else if (__builtin_wasm_memory_grow(0, pages) == (size)-1) return 0;
    limit += pages * PAGE;
    return 1;
}

static head *cut_off(size bytes) {
    if (!end) {
        end = (unsigned char *)(((size)&__heap_base + (GRAIN - 1)) & ~(size)(GRAIN - 1));
        limit = (unsigned char *)((size)__builtin_wasm_memory_size(0) * PAGE);
    }
    size left = (size)(limit - end);
    if (bytes > left && !grow(bytes - left)) return 0;
    head *cut = (head *)end;
    end += bytes;
    return cut;
}

tried rattle_alloc(size count, size align) {
    tried none = {0, (unsigned char *)GRAIN};
    (void)align; /* 16 at most */
    if (count >= MOST) return none;
    size grains = (count + sizeof(head) + GRAIN - 1) / GRAIN, kind = kind_of(&grains);
    head *block = free_of[kind];
    if (block) free_of[kind] = block->next;
    else block = cut_off(grains * GRAIN);
    if (!block) return none;
    block->kind = grains << 8 | kind;
    return (tried){1, (unsigned char *)(block + 1)};
}

void rattle_dealloc(unsigned char *given) {
    head *block = (head *)given - 1;
    size kind = block->kind & 255;
    block->next = free_of[kind];
    free_of[kind] = block;
}

tried rattle_realloc(unsigned char *given, size kept, size count, size align) {
    head *block = (head *)given - 1;
    if (count < MOST && count + sizeof(head) <= (block->kind >> 8) * GRAIN) return (tried){1, given};
    tried made = rattle_alloc(count, align);
    if (!made.ok) return made;
    __builtin_memcpy(made.block, given, kept);
    rattle_dealloc(given);
    return made;
}
