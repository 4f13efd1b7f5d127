// The heap of the page's module: what the kit's Global calls, over the memory that the host grows. No proof covers it.
//
// A block is its size, with its head, and behind the head what is handed out. A small one is a power of two of bytes, one of the equal parts of a page
// of GRAIN bytes, and a list for each size has those that were given back. A large one is some such pages. Of those that were given back one list has all,
// by where they lie, and two that touch are one. So a table's vectors, which grow by moving to twice their size, use again what they left.
typedef __SIZE_TYPE__ usize;
typedef unsigned char u8;

struct tried { unsigned long long ok; void *at; };

// The head of a block. Only one that was given back has the next of its list.
struct head { usize size; struct head *next; };

enum { HEAD = 16, SMALLEST = 5, SMALL_MOST = 11, GRAIN = 4096, LARGEST = 40, PAGE = 65536, PAGES_AT_ONCE = 64 };
// A test's AddressSanitizer sees what was given back as out of bounds, and there is where a head can lie.
#define OF_HEADS __attribute__((no_sanitize("address")))

extern u8 __heap_base;
// The end of all blocks, and that of the memory.
static u8 *next, *end;
static struct head *lists[SMALL_MOST + 1], *gaps;
static u8 none[HEAD] __attribute__((aligned(HEAD)));

static usize rounded(usize size, usize to) { return (size + to - 1) & ~(to - 1); }

static struct head *head_of(void *at) { return (struct head *)((u8 *)at - HEAD); }

OF_HEADS static usize room_of(void *at) { return head_of(at)->size - HEAD; }

// Grows the memory by so many pages, or, if the host allows no more than are needed, by these.
static int grow(usize needed) {
    usize pages = needed < PAGES_AT_ONCE ? PAGES_AT_ONCE : needed;
    if (__builtin_wasm_memory_grow(0, pages) == (usize)-1) {
        pages = needed;
        if (__builtin_wasm_memory_grow(0, pages) == (usize)-1) return 0;
    }
    end += pages * PAGE;
    return 1;
}

// Moves the end of all blocks by so many bytes, and gives where they begin; 0 if there is no more memory.
static u8 *more(usize size) {
    if (!next) {
        next = &__heap_base + (HEAD - (usize)&__heap_base % HEAD) % HEAD;
        end = (u8 *)(__builtin_wasm_memory_size(0) * PAGE);
    }
    usize left = (usize)(end - next);
    if (size > left && !grow((size - left + PAGE - 1) / PAGE)) return 0;
    u8 *at = next;
    next += size;
    return at;
}

// Takes so many bytes off the front of the gap that a link names.
OF_HEADS static void cut(struct head **link, usize size) {
    struct head *gap = *link, *rest = (struct head *)((u8 *)gap + size);
    if (gap->size == size) {
        *link = gap->next;
        return;
    }
    *rest = (struct head){gap->size - size, gap->next};
    *link = rest;
}

// A large block: the first gap that has so many bytes, or what is behind all blocks.
OF_HEADS static struct head *large(usize size) {
    struct head **link = &gaps;
    while (*link && (*link)->size < size) link = &(*link)->next;
    struct head *block = *link;
    if (block) cut(link, size);
    else block = (struct head *)more(size);
    if (block) block->size = size;
    return block;
}

// Fills the list of a small size from a large block.
OF_HEADS static int part_page(usize number) {
    u8 *page = (u8 *)large(GRAIN);
    if (!page) return 0;
    for (usize from = GRAIN, size = (usize)1 << number; from; ) {
        from -= size;
        struct head *part = (struct head *)(page + from);
        *part = (struct head){size, lists[number]};
        lists[number] = part;
    }
    return 1;
}

OF_HEADS static struct head *small(usize size) {
    usize number = SMALLEST;
    while (((usize)1 << number) < size) number++;
    if (!lists[number] && !part_page(number)) return 0;
    struct head *block = lists[number];
    lists[number] = block->next;
    return block;
}

static void *take(usize size) {
    if (size > ((usize)1 << LARGEST) - HEAD) return 0;
    size += HEAD;
    struct head *block = size <= (usize)1 << SMALL_MOST ? small(size) : large(rounded(size, GRAIN));
    return block ? (u8 *)block + HEAD : 0;
}

// Makes a block one with the one that lies right behind it, if that is its next.
OF_HEADS static void join(struct head *block) {
    if ((u8 *)block + block->size != (u8 *)block->next) return;
    block->size += block->next->size;
    block->next = block->next->next;
}

OF_HEADS static void give_large(struct head *block) {
    struct head **link = &gaps, *before = 0;
    while (*link && *link < block) {
        before = *link;
        link = &before->next;
    }
    block->next = *link;
    *link = block;
    join(block);
    if (before) join(before);
}

OF_HEADS static void give(void *at) {
    struct head *block = head_of(at);
    if (block->size >= GRAIN) {
        give_large(block);
        return;
    }
    usize number = SMALLEST;
    while ((usize)1 << number < block->size) number++;
    block->next = lists[number];
    lists[number] = block;
}

// Makes a large block longer where it lies, if there is room behind it.
OF_HEADS static int widen(struct head *block, usize size) {
    u8 *behind = (u8 *)block + block->size;
    usize lacking = size - block->size;
    struct head **link = &gaps;
    while (*link && (u8 *)*link < behind) link = &(*link)->next;
    if ((u8 *)*link == behind && (*link)->size >= lacking) cut(link, lacking);
    else if (behind != next || !more(lacking)) return 0;
    block->size = size;
    return 1;
}

static struct tried tried(void *at) {
    struct tried made = {at != 0, at ? at : none};
    return made;
}

struct tried rattle_alloc(usize size, usize align) { return tried(take(size ? size : align)); }

struct tried rattle_realloc(void *at, usize kept, usize size, usize align) {
    if (!size) size = align;
    usize room = room_of(at);
    if (room >= size) return tried(at);
    struct head *block = head_of(at);
    if (room + HEAD >= GRAIN && size < (usize)1 << LARGEST && widen(block, rounded(size + HEAD, GRAIN))) return tried(at);
    void *moved = take(size);
    if (moved) {
        __builtin_memcpy(moved, at, kept < room ? kept : room);
        give(at);
    }
    return tried(moved);
}

void rattle_dealloc(void *at) { give(at); }

// What the page asks for, to hand bytes in and out.
__attribute__((export_name("page_take"))) void *page_take(usize size) { return take(size); }
__attribute__((export_name("page_give"))) void page_give(void *at) { give(at); }
