// web/refusals_test.c: the page's calls over web/heap.c on this machine, with each request of memory refused in turn: refusals_test TABLE MATRIX
//
// Each call is made as the page makes it, after the table in a file was read. Then its first request is refused, then its second, and so on; and then all from the
// first on, from the second on. With a request refused a call may still make its text, and else gives 109 and holds the words for it, or nothing. In any case
// the table's bytes stay, all memory is given back once the text is freed, and the next call makes the whole text.
// Each request and each answer is held to what the kit says of its heap.
//
// Statuses: 0; 1 if that does not hold, with the line on standard error; 2 for other words.
#define rattle_alloc heap_alloc
#define rattle_realloc heap_realloc
#define rattle_dealloc heap_dealloc
#include "heap_host.h"
#undef rattle_alloc
#undef rattle_realloc
#undef rattle_dealloc

#include "../clib/tapebox.h"

enum { CHUNK = 4096 };
typedef uint32_t making(tapebox_handle *handle, uint32_t matrix);

static const struct { const char *name; making *make; } CALLS[] = {{"report", tapebox_report}, {"tape", tapebox_tape}, {"explain", tapebox_explain}};

// Requests so far, those that are refused, and how many blocks are handed out.
static size_t requests, first_refused, last_refused, handed_out;

static int is_refused(void) {
    requests++;
    return first_refused <= requests && requests <= last_refused;
}

// What the kit asks of a request, and says of its answer.
static struct tried held_to(struct tried made, size_t size, size_t alignment) {
    HOLDS(made.at);
    if (made.ok) {
        HOLDS((size_t)made.at % (alignment ? alignment : 1) == 0 && room_of(made.at) >= size);
        HOLDS((u8 *)made.at >= memory && (u8 *)made.at + size <= memory + pages * BYTES);
    }
    return made;
}

struct tried rattle_alloc(size_t size, size_t alignment) {
    HOLDS(alignment && 16 % alignment == 0 && size >> 63 == 0);
    struct tried made = is_refused() ? tried(0) : heap_alloc(size, alignment);
    handed_out += made.ok;
    return held_to(made, size, alignment);
}

struct tried rattle_realloc(void *at, size_t kept, size_t size, size_t alignment) {
    HOLDS(alignment && 16 % alignment == 0 && size >> 63 == 0 && kept <= size && kept <= room_of(at));
    u8 *before = malloc(kept + 1);
    HOLDS(before);
    memcpy(before, at, kept);
    struct tried made = is_refused() ? tried(0) : heap_realloc(at, kept, size, alignment);
    HOLDS(!memcmp(before, made.ok ? made.at : at, kept));
    free(before);
    return held_to(made, size, alignment);
}

void rattle_dealloc(void *at) {
    handed_out--;
    heap_dealloc(at);
}

// A text that was copied out of a handle by pieces, which the caller frees.
struct text { u8 *bytes; size_t count; };

static struct text text_of(tapebox_handle *handle) {
    struct text text = {malloc(tapebox_text_length(handle) + CHUNK), tapebox_text_length(handle)};
    HOLDS(text.bytes);
    size_t from = 0;
    for (size_t count; (count = tapebox_text_copy(handle, from, text.bytes + from, CHUNK)); from += count) HOLDS(from + count <= text.count);
    HOLDS(from == text.count);
    return text;
}

static int is_same(struct text one, struct text other) {
    return one.count == other.count && !memcmp(one.bytes, other.bytes, one.count);
}

// Reads a table into a handle that holds nothing, and makes a text of it: 0, or the number of why there is none.
static uint32_t made(making *make, tapebox_handle *handle, unsigned matrix, struct text table) {
    uint32_t refused = tapebox_read_table(handle, table.bytes, table.count);
    return refused ? refused : make(handle, matrix);
}

static const char WORDS[] = "out of memory";

// What a call came to: how many requests it made, and whether it made its text.
struct end { size_t requests; int is_made; };

static struct end end_of(making *make, unsigned matrix, struct text table, struct text whole, size_t first, size_t last) {
    tapebox_handle handle = TAPEBOX_HANDLE;
    requests = 0;
    first_refused = first;
    last_refused = last;
    uint32_t refused = made(make, &handle, matrix, table);
    struct end end = {requests, refused != TAPEBOX_OUT_OF_MEMORY};
    first_refused = (size_t)-1;
    struct text text = text_of(&handle);
    if (end.is_made) HOLDS(refused == 0 && is_same(text, whole));
    else HOLDS(!text.count || is_same(text, (struct text){(u8 *)WORDS, strlen(WORDS)}));
    free(text.bytes);
    tapebox_free(&handle);
    HOLDS(tapebox_text_length(&handle) == 0 && handed_out == 0);
    return end;
}

// Tries a call with each of its requests refused, and says how often it made no text.
static void try_call(const char *name, making *make, unsigned matrix, struct text table) {
    tapebox_handle handle = TAPEBOX_HANDLE;
    first_refused = (size_t)-1;
    HOLDS(made(make, &handle, matrix, table) == 0);
    struct text whole = text_of(&handle), kept = {malloc(table.count + 1), table.count};
    HOLDS(whole.count && kept.bytes);
    memcpy(kept.bytes, table.bytes, table.count);
    tapebox_free(&handle);
    HOLDS(handed_out == 0);
    size_t all = end_of(make, matrix, table, whole, 1, 0).requests, ends = 0;
    for (size_t first = 1; first <= all; first++) {
        int alone = end_of(make, matrix, table, whole, first, first).is_made, from = end_of(make, matrix, table, whole, first, (size_t)-2).is_made;
        HOLDS(alone || !from);
        ends += !from;
        HOLDS(is_same(table, kept));
        HOLDS(end_of(make, matrix, table, whole, 1, 0).is_made);
    }
    HOLDS(ends);
    printf("%s: %zu requests, %zu of them needed\n", name, all, ends);
    free(whole.bytes);
    free(kept.bytes);
}

int main(int count, char **words) {
    FILE *file = count == 3 ? fopen(words[1], "rb") : 0;
    if (!file) return 2;
    keep_room();
    // The table is where the page puts it.
    struct text table = {page_take((size_t)1 << 20), 0};
    HOLDS(table.bytes);
    table.count = fread(table.bytes, 1, (size_t)1 << 20, file);
    fclose(file);
    HOLDS(table.count);
    for (size_t call = 0; call < sizeof CALLS / sizeof *CALLS; call++) try_call(CALLS[call].name, CALLS[call].make, (unsigned)atoi(words[2]), table);
    return 0;
}
