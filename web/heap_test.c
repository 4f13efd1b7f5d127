// web/heap_test.c: tries web/heap.c on this machine, by random requests over memory that grows as a page's does: heap_test SEED REQUESTS
//
// A block must lie where memory was grown, be aligned, lie apart from all others and keep its bytes; only a request that is larger than the
// memory may be refused, and must change nothing then.
// Built with AddressSanitizer, for which all bytes of a block beyond its request, and all of one that was given back, are out of bounds.
//
// Statuses: 0; 1 if the heap is wrong, with the line of this file on standard error; 2 for other words.
#include "heap_host.h"

enum { BLOCKS = 300 };
// What was handed out: as many bytes as were asked for, of those that the heap has room for.
static struct block { u8 *at; size_t size, room; u8 sign; } blocks[BLOCKS];
static size_t refusals;

static unsigned long long drawn = 1;
static size_t below(size_t limit) {
    drawn = drawn * 6364136223846793005u + 1442695040888963407u;
    return (size_t)(drawn >> 33) % limit;
}

// Mostly small sizes, none and now and then one that is larger than the memory.
static size_t some_size(void) { return below(400) ? below((size_t)1 << below(21)) : (size_t)1 << (27 + below(36)); }

static size_t some_alignment(void) { return (size_t)1 << below(5); }

// The bytes that are handed out: as many as were asked for, or a value's alignment if these are none.
static size_t handed(size_t size, size_t alignment) { return size ? size : alignment; }

static void close_block(struct block block) {
    __asan_poison_memory_region(block.at, block.room);
}

static void open_block(struct block block) {
    close_block(block);
    __asan_unpoison_memory_region(block.at, block.size);
}

static void assert_apart(struct block block, const struct block *itself) {
    HOLDS(block.at >= memory && block.at + block.room <= memory + pages * BYTES);
    for (struct block *other = blocks; other < blocks + BLOCKS; other++)
        HOLDS(other == itself || !other->at || block.at + block.room <= other->at || other->at + other->room <= block.at);
}

static void assert_holds(const u8 *at, size_t count, u8 sign) {
    for (size_t place = 0; place < count; place++) HOLDS(at[place] == (u8)(sign + place));
}

static void fill(struct block *block) {
    block->sign = (u8)below(256);
    for (size_t place = 0; place < block->size; place++) block->at[place] = (u8)(block->sign + place);
}

// Only what is larger than all memory: the other blocks' room does for the rest if what is given back is used again.
static void assert_may_refuse(size_t size) {
    HOLDS(size >= (size_t)PAGES_MOST * BYTES);
    refusals++;
}

static void try_alloc(struct block *block) {
    size_t size = some_size(), alignment = some_alignment();
    struct tried made = rattle_alloc(size, alignment);
    HOLDS(made.at);
    if (!made.ok) {
        assert_may_refuse(size);
        return;
    }
    struct block now = {made.at, handed(size, alignment), room_of(made.at), 0};
    HOLDS((size_t)now.at % alignment == 0 && now.room >= now.size);
    assert_apart(now, block);
    open_block(now);
    *block = now;
    fill(block);
}

static void try_realloc(struct block *block) {
    size_t size = some_size(), alignment = some_alignment(), kept = block->size < size ? block->size : size;
    struct tried made = rattle_realloc(block->at, kept, size, alignment);
    HOLDS(made.at);
    if (!made.ok) {
        assert_may_refuse(size);
        assert_holds(block->at, block->size, block->sign);
        return;
    }
    if (made.at != block->at) close_block(*block);
    struct block now = {made.at, handed(size, alignment), room_of(made.at), block->sign};
    HOLDS((size_t)now.at % alignment == 0 && now.room >= now.size);
    assert_apart(now, block);
    open_block(now);
    assert_holds(now.at, kept, block->sign);
    *block = now;
    fill(block);
}

static void try_dealloc(struct block *block) {
    assert_holds(block->at, block->size, block->sign);
    close_block(*block);
    rattle_dealloc(block->at);
    block->at = 0;
}

int main(int count, char **words) {
    if (count != 3) return 2;
    drawn = strtoull(words[1], 0, 10) * 2 + 1;
    keep_room();
    for (size_t left = strtoull(words[2], 0, 10); left; left--) {
        struct block *block = blocks + below(BLOCKS);
        if (!block->at) try_alloc(block);
        else if (below(3)) try_realloc(block);
        else try_dealloc(block);
    }
    for (struct block *block = blocks; block < blocks + BLOCKS; block++)
        if (block->at) try_dealloc(block);
    printf("%zu pages of %d, %zu requests refused\n", pages, BYTES, refusals);
    return 0;
}
