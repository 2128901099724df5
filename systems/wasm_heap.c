/* The heap of the WebAssembly module: blocks of sizes in classes, four for each doubling, each class with a list of its
   free blocks. When the last block in use is freed, all of it is free again: the library keeps nothing between calls. */
typedef unsigned long u64;

/* As many classes as the greatest size that is asked for has. */
enum { PAGE = 65536, HEAD = 16, CLASSES = 108 };
/* No address may pass this, so that the module also runs where memory has 32 bits. */
static const u64 MOST = 0xffff0000ul;

typedef struct block {
    u64 size;           /* how many bytes lie behind it */
    struct block *next; /* the next free block of its class */
} block;

extern unsigned char __heap_base;
static block *freed[CLASSES];
static u64 top, in_use;

/* The class of a size, the smallest whose blocks have room for it; sets the room, whose class is the same one. Rooms
   are multiples of 16: up to 64 each of them, and from there on four for each doubling. */
static int class_of(u64 size, u64 *room) {
    if (size <= 64) {
        u64 parts = size ? (size - 1) / 16 : 0;
        *room = (parts + 1) * 16;
        return (int)parts;
    }
    int bits = 63 - __builtin_clzl(size - 1);
    u64 step = 1ul << (bits - 2);
    u64 parts = (size - 1) / step;
    *room = (parts + 1) * step;
    return (bits - 6) * 4 + (int)parts;
}

/* Whether there is memory up to an address, after more was asked for where it was short. */
static int reaches(u64 address) {
    u64 have = __builtin_wasm_memory_size(0) * PAGE;
    if (address > MOST)
        return 0;
    if (address <= have)
        return 1;
    u64 pages = (address - have + PAGE - 1) / PAGE;
    u64 before = __builtin_wasm_memory_grow(0, pages);
    return before != ~0ul && before != 0xfffffffful;
}

void *malloc(u64 size) {
    u64 room;
    if (size > MOST)
        return 0;
    int at = class_of(size, &room);
    block *found = freed[at];
    if (found) {
        freed[at] = found->next;
    } else {
        if (!top)
            top = ((u64)&__heap_base + 15) & ~15ul;
        if (!reaches(top + HEAD + room))
            return 0;
        found = (block *)top;
        found->size = room;
        top += HEAD + room;
    }
    in_use++;
    return (char *)found + HEAD;
}

void free(void *address) {
    if (!address)
        return;
    block *it = (block *)((char *)address - HEAD);
    if (--in_use == 0) {
        for (int at = 0; at < CLASSES; at++)
            freed[at] = 0;
        top = 0;
        return;
    }
    u64 room;
    int at = class_of(it->size, &room);
    it->next = freed[at];
    freed[at] = it;
}

/* Makes the last block of all longer where it stands; whether it is the last and there is memory. */
static int lengthens(block *it, u64 size) {
    u64 room, start = (u64)it + HEAD;
    if (start + it->size != top || size > MOST)
        return 0;
    class_of(size, &room);
    if (!reaches(start + room))
        return 0;
    it->size = room;
    top = start + room;
    return 1;
}

void *realloc(void *address, u64 size) {
    if (!address)
        return malloc(size);
    block *it = (block *)((char *)address - HEAD);
    if (size <= it->size || lengthens(it, size))
        return address;
    void *moved = malloc(size);
    if (moved) {
        __builtin_memcpy(moved, address, it->size);
        free(address);
    }
    return moved;
}
