// web/heap.c on this machine, for its tests: over memory that grows as a page's does, PAGES_MOST pages at most.
//
// Built with AddressSanitizer. The bytes that the heap itself may move are those that were asked for.
#define _GNU_SOURCE
#include <sanitizer/asan_interface.h>
#include <stdio.h>
#include <stdlib.h>
#include <string.h>
#include <sys/mman.h>

// The heap's memory: room is kept for all of it, and pages are made usable as they are asked for.
enum { BYTES = 65536, PAGES_MOST = 1280 };
unsigned char *memory;
static size_t pages = 3;

#define HOLDS(fact) do { if (!(fact)) { fprintf(stderr, "%s: line %d: %s\n", __FILE__, __LINE__, #fact); exit(1); } } while (0)

static void keep_room(void) {
    unsigned char *room = mmap(0, (size_t)(PAGES_MOST + 1) * BYTES, PROT_NONE, MAP_PRIVATE | MAP_ANONYMOUS | MAP_NORESERVE, -1, 0);
    HOLDS(room != MAP_FAILED);
    memory = room + (BYTES - (size_t)room % BYTES) % BYTES;
    HOLDS(!mprotect(memory, pages * BYTES, PROT_READ | PROT_WRITE));
}

static size_t grown(size_t more) {
    size_t before = pages;
    if (more > PAGES_MOST - pages) return (size_t)-1;
    if (mprotect(memory, (pages + more) * BYTES, PROT_READ | PROT_WRITE)) abort();
    pages += more;
    return ((size_t)memory / BYTES) + before;
}

// Copies to a block that is not yet handed out.
static void copied(void *to, const void *from, size_t count) {
    __asan_unpoison_memory_region(to, count);
    memcpy(to, from, count);
}

#define __heap_base (*memory)
#define __builtin_wasm_memory_size(index) ((size_t)memory / BYTES + pages)
#define __builtin_wasm_memory_grow(index, more) grown(more)
#define __builtin_memcpy copied
#include "heap.c"
#undef __builtin_memcpy
