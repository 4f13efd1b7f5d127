/* A libFuzzer harness: the calls of the library, in an order and with arguments of the fuzzer's choosing, on two handles that hold a tape, a
 * subscriber or a table.
 *
 * The library is a draft whose own code is compiled with coverage and AddressSanitizer (dev/draft.py --fuzzed). Each thing that a call is given lies at
 * the end of pages of its own, with a page behind it that nothing can be read from or written to, which holds for the proved library too. If a call
 * answers what its page excludes, the harness ends by abort(). It prints how often each call was made when it ends well. corpus.txt has inputs in
 * hexadecimal digits, one a line. tests/cases/test_fuzz.py builds it, adds the samples and the worked rows, and runs it. */
#define _GNU_SOURCE
#include "../tapebox.h"

#include <stdio.h>
#include <stdlib.h>
#include <string.h>
#include <sys/mman.h>
#include <unistd.h>

/* The calls by the byte of the input that has them made, and after them what is made of several calls. A byte above 127 is that of the other
 * handle. */
enum {
    OPEN, SUBSCRIBE, FREE, ADMIT, CLOSE, SUMMARY, SUMMARY_OF, COUNT, ENTRY, TOTALS, SYMBOL, PARTICIPANT, CUT, SERVE, DELIVER, DRAIN, MISSING,
    NEWS_OF, ENCODE, DECODE, BEAT, END, READ_PACKET, PACKET_ENTRY, READ_REQUEST, READ_ANSWER, ANSWER_PACKET, CELLS, ADMIT_MANY,
    READ_TABLE, REPORT, TAPE, EXPLAIN, TEXT_LENGTH, TEXT_COPY, CALLS,
    SEND_ALL = CALLS, SEND_CHANGED, TRADE, STEPS
};

enum { PLACES = 4, ROOM = 1 << 14, NUMBERS_END = 114, SESSION = 7 };

static const char *const NAMES[CALLS] = {
    "open", "subscribe", "free", "admit", "close", "summary", "summary_of", "count", "entry", "totals",
    "symbol", "participant", "cut", "serve", "deliver", "drain", "missing", "news_of", "encode", "decode",
    "beat", "end", "read_packet", "packet_entry", "read_request", "read_answer", "answer_packet", "cells", "admit_many",
    "read_table", "report", "tape", "explain", "text_length", "text_copy",
};
static uint64_t made[CALLS];

/* The bytes that are left of the fuzzer's input. */
typedef struct input {
    const uint8_t *at;
    size_t left;
} input;

/* Bytes for a call, which end where a page begins that can't be touched. */
typedef struct bytes {
    uint8_t *at;
    size_t len;
} bytes;

static uint8_t *ends[PLACES];

static void fail(const char *call, const char *why) {
    fprintf(stderr, "calls: %s: %s\n", call, why);
    abort();
}

/* Room for so many bytes at the end of a place's pages. */
static void *room(int place, size_t len) { return ends[place] - len; }

static uint64_t number(input *in, size_t len) {
    uint64_t value = 0;
    for (; len && in->left; len--, in->at++, in->left--) value = value << 8 | *in->at;
    return value;
}

/* A number that is mostly small: one byte, or four after the byte 255. */
static uint32_t small(input *in) {
    uint64_t value = number(in, 1);
    return (uint32_t)(value == 255 ? number(in, 4) : value);
}

/* Bytes of the input, after how many they are. None are null. */
static bytes text(input *in, int place) {
    size_t len = number(in, 2) & (ROOM - 1);
    if (len > in->left) len = in->left;
    bytes taken = {len ? room(place, len) : NULL, len};
    if (len) memcpy(taken.at, in->at, len);
    in->at += len;
    in->left -= len;
    return taken;
}

static uint32_t answered(int call, uint32_t code) {
    made[call]++;
    if (code >= NUMBERS_END) fail(NAMES[call], "no refusal has this number");
    return code;
}

/* Bytes that a call wrote, of which it told how many there are. */
static void check_length(int call, size_t len, size_t most) {
    if (len > most) fail(NAMES[call], "it told of more bytes than there are");
}

/* Delivers to the subscriber all that is on the tape. */
static void send_all(tapebox_handle *tape, tapebox_handle *subscriber, uint32_t version, uint64_t session) {
    uint32_t last = tapebox_count(tape);
    for (uint32_t from = 1, many; from <= last; from += many) {
        tapebox_packet *packet = room(0, sizeof *packet);
        tapebox_packet_fields *fields = room(1, sizeof *fields);
        tapebox_taken *taken = room(2, sizeof *taken);
        if (answered(CUT, tapebox_cut(tape, version, session, from, UINT32_MAX, packet))) return;
        check_length(CUT, packet->len, sizeof packet->bytes);
        if (answered(READ_PACKET, tapebox_read_packet(packet->bytes, packet->len, fields))) fail("read_packet", "it refuses a packet of the library's");
        if (fields->number != from || !fields->count || fields->session != session) fail("read_packet", "it reads another packet");
        answered(DELIVER, tapebox_deliver(subscriber, from & 1, packet->bytes, packet->len, taken));
        many = fields->count;
    }
}

/* Delivers to the subscriber a packet of the tape of which one byte was changed. */
static void send_changed(tapebox_handle *tape, tapebox_handle *subscriber, input *in) {
    tapebox_packet *packet = room(0, sizeof *packet);
    if (answered(CUT, tapebox_cut(tape, 2, SESSION, small(in), small(in), packet))) return;
    uint8_t *bytes = room(1, packet->len);
    memcpy(bytes, packet->bytes, packet->len);
    bytes[number(in, 2) % packet->len] ^= (uint8_t)number(in, 1);
    answered(DELIVER, tapebox_deliver(subscriber, 0, bytes, packet->len, room(2, sizeof(tapebox_taken))));
}

/* Admits a message whose fields are mostly such that the tape takes it. */
static void trade(tapebox_handle *tape, input *in) {
    static const char *const conditions[] = {"@   ", "@  I", "@ Z ", "@ L ", "@4  ", "@  M", "@  Q", "C   "};
    tapebox_fields *fields = room(0, sizeof *fields);
    tapebox_message *row = room(1, sizeof *row);
    uint8_t choice = (uint8_t)number(in, 1);
    memset(fields, 0, sizeof *fields);
    fields->kind = (uint8_t)"RRXCSRXC"[choice & 7], fields->participant = choice & 8 ? 'Q' : 'N';
    fields->number = tapebox_count(tape) + 1, fields->target = 1 + small(in) % (fields->number + 1);
    fields->price = 1 + number(in, 2), fields->size = 1 + small(in) % 99999999;
    memcpy(fields->condition, conditions[choice >> 5], 4);
    memcpy(fields->symbol, choice & 16 ? "CD      " : "AB      ", 8);
    if (answered(ENCODE, tapebox_encode(fields, row))) fail("encode", "it refuses fields that are in their ranges");
    answered(ADMIT, tapebox_admit(tape, row->bytes, row->len, room(2, sizeof(tapebox_answer))));
}

/* A message of fields, which reads back as it was. */
static void encode(input *in) {
    tapebox_fields *fields = room(0, sizeof *fields), *read = room(2, sizeof *read);
    tapebox_message *row = room(1, sizeof *row);
    memset(fields, 0, sizeof *fields);
    memset(read, 0, sizeof *read);
    fields->kind = (uint8_t)number(in, 1), fields->participant = (uint8_t)number(in, 1), fields->number = small(in);
    fields->target = small(in), fields->price = number(in, 5), fields->size = small(in), fields->moment = small(in);
    uint32_t condition = (uint32_t)number(in, 4);
    uint64_t symbol = number(in, 8);
    memcpy(fields->condition, &condition, 4);
    memcpy(fields->symbol, &symbol, 8);
    if (answered(ENCODE, tapebox_encode(fields, row))) return;
    check_length(ENCODE, row->len, sizeof row->bytes);
    if (answered(DECODE, tapebox_decode(row->bytes, row->len, read))) fail("decode", "it refuses a message of the library's");
    if (read->kind != fields->kind || read->number != fields->number || memcmp(read->symbol, fields->symbol, 8)) fail("decode", "it reads another");
}

/* The calls that read bytes, or make bytes of numbers. */
static void call_on_bytes(int call, input *in) {
    if (call == ENCODE) {
        encode(in);
        return;
    }
    uint32_t one = small(in), other = small(in);
    bytes given = text(in, 0);
    size_t *len = room(2, sizeof *len);
    tapebox_packet *packet = room(1, sizeof *packet);
    switch (call) {
    case DECODE: answered(call, tapebox_decode(given.at, given.len, room(1, sizeof(tapebox_fields)))); break;
    case BEAT: answered(call, tapebox_beat(one, other, one ^ other, packet)); break;
    case END: answered(call, tapebox_end(one, other, one ^ other, packet)); break;
    case READ_PACKET: answered(call, tapebox_read_packet(given.at, given.len, room(1, sizeof(tapebox_packet_fields)))); break;
    case PACKET_ENTRY: answered(call, tapebox_packet_entry(given.at, given.len, one, room(1, sizeof(tapebox_entry_row)))); break;
    case READ_REQUEST: answered(call, tapebox_read_request(given.at, given.len, room(1, sizeof(tapebox_request_fields)))); break;
    case READ_ANSWER: answered(call, tapebox_read_answer(given.at, given.len, room(1, sizeof(tapebox_reply)))); break;
    case ANSWER_PACKET:
        if (!answered(call, tapebox_answer_packet(given.at, given.len, one, room(1, other & 4095), other & 4095, len))) check_length(call, *len, other & 4095);
        break;
    default: answered(call, tapebox_cells(one, given.at, given.len, room(1, sizeof(tapebox_cells_row)))); break;
    }
}

/* Makes a text of a table: it is there if the call says so, and a table that is none has words. */
static void make_text(int call, tapebox_handle *handle, uint32_t matrix) {
    uint32_t code = call == REPORT ? tapebox_report(handle, matrix) : call == TAPE ? tapebox_tape(handle, matrix) : tapebox_explain(handle, matrix);
    answered(call, code);
    if ((code == 0 || code == TAPEBOX_BAD_TABLE) && !tapebox_text_length(handle)) fail(NAMES[call], "there is no text");
}

/* Copies a part of a text: as much as there is and as there is room for. */
static void copy_text(tapebox_handle *handle, size_t from, size_t most) {
    size_t len = tapebox_text_length(handle), count = tapebox_text_copy(handle, from, room(1, most), most);
    size_t left = from < len ? len - from : 0;
    made[TEXT_COPY]++;
    if (count != (left < most ? left : most)) fail("text_copy", "it copies another count");
}

/* The calls with a handle that read no more than a number. */
static void call_on_numbers(int call, tapebox_handle *handle, input *in) {
    uint32_t value = small(in);
    switch (call) {
    case FREE: answered(call, tapebox_free(handle)); break;
    case CLOSE: answered(call, tapebox_close(handle)); break;
    case COUNT: tapebox_count(handle), made[call]++; break;
    case ENTRY: answered(call, tapebox_entry(handle, value, room(1, sizeof(tapebox_entry_row)))); break;
    case TOTALS: answered(call, tapebox_totals(handle, (uint8_t)value, room(1, sizeof(tapebox_totals_row)))); break;
    case SYMBOL: answered(call, tapebox_symbol(handle, value, room(1, sizeof(tapebox_name)))); break;
    case PARTICIPANT: answered(call, tapebox_participant(handle, value, room(1, 1))); break;
    case CUT: answered(call, tapebox_cut(handle, value, small(in), small(in), small(in), room(1, sizeof(tapebox_packet)))); break;
    case DRAIN: answered(call, tapebox_drain(handle, room(1, sizeof(uint32_t)))); break;
    case MISSING: answered(call, tapebox_missing(handle, room(1, sizeof(tapebox_request)))); break;
    case REPORT:
    case TAPE:
    case EXPLAIN: make_text(call, handle, value); break;
    case TEXT_LENGTH: tapebox_text_length(handle), made[call]++; break;
    case TEXT_COPY: copy_text(handle, value, small(in) & (ROOM - 1)); break;
    default: answered(call, tapebox_news_of(handle, room(1, sizeof(tapebox_news)))); break;
    }
}

/* The calls with a handle and bytes. */
static void call_on_handle(int call, tapebox_handle *handle, input *in) {
    uint32_t value = small(in);
    bytes given = text(in, 0), more;
    uint32_t count = tapebox_count(handle);
    size_t *len = room(3, sizeof *len);
    switch (call) {
    case OPEN:
    case SUBSCRIBE:
        more = text(in, 1);
        if (call == OPEN)
            answered(call, tapebox_open(handle, given.at, given.len, more.at, more.len, value, small(in)));
        else
            answered(call, tapebox_subscribe(handle, given.at, given.len, more.at, more.len, value, small(in), small(in)));
        break;
    case ADMIT: {
        tapebox_answer *answer = room(1, sizeof *answer);
        uint32_t code = answered(call, tapebox_admit(handle, given.at, given.len, answer));
        if (tapebox_count(handle) != count + (code == 0)) fail("admit", "the tape has another count");
        if (!code && answer->number != count + 1) fail("admit", "it tells another number");
        break;
    }
    case ADMIT_MANY: {
        size_t most = value & 255;
        uint32_t *numbers = room(1, most * sizeof *numbers);
        tapebox_many *many = room(2, sizeof *many);
        if (answered(call, tapebox_admit_many(handle, given.at, given.len, numbers, most, many)) == TAPEBOX_NO_TAPE) break;
        check_length(call, many->answered, most);
        check_length(call, many->taken, given.len);
        for (size_t at = 0; at < many->answered; at++) count += numbers[at] == 0;
        if (tapebox_count(handle) != count) fail("admit_many", "the tape has another count");
        break;
    }
    case READ_TABLE: answered(call, tapebox_read_table(handle, given.at, given.len)); break;
    case SUMMARY: answered(call, tapebox_summary(handle, given.at, given.len, room(1, sizeof(tapebox_figures)))); break;
    case SUMMARY_OF: answered(call, tapebox_summary_of(handle, given.at, given.len, (uint8_t)value, room(1, sizeof(tapebox_figures)))); break;
    case SERVE:
        count = small(in) * 32 & (ROOM - 1);
        if (!answered(call, tapebox_serve(handle, value, small(in), given.at, given.len, room(1, count), count, len))) check_length(call, *len, count);
        break;
    default: answered(call, tapebox_deliver(handle, value, given.at, given.len, room(1, sizeof(tapebox_taken)))); break;
    }
}

static void print_made(void) {
    uint64_t all = 0;
    for (int call = 0; call < CALLS; all += made[call], call++) fprintf(stderr, "calls: %s %llu\n", NAMES[call], (unsigned long long)made[call]);
    fprintf(stderr, "calls: all %llu\n", (unsigned long long)all);
}

int LLVMFuzzerInitialize(int *count, char ***words) {
    (void)count, (void)words;
    size_t page = (size_t)sysconf(_SC_PAGESIZE);
    for (int place = 0; place < PLACES; place++) {
        uint8_t *pages = mmap(NULL, ROOM + page, PROT_READ | PROT_WRITE, MAP_PRIVATE | MAP_ANONYMOUS, -1, 0);
        if (pages == MAP_FAILED || mprotect(pages + ROOM, page, PROT_NONE)) abort();
        ends[place] = pages + ROOM;
    }
    atexit(print_made);
    return 0;
}

static void step(tapebox_handle *handles, input *in) {
    int call = (int)number(in, 1);
    tapebox_handle *handle = &handles[call >> 7];
    call &= 127;
    switch (call < STEPS ? call : call % STEPS) {
    case OPEN:
    case SUBSCRIBE:
    case ADMIT:
    case SUMMARY:
    case SUMMARY_OF:
    case SERVE:
    case ADMIT_MANY:
    case READ_TABLE:
    case DELIVER: call_on_handle(call % STEPS, handle, in); break;
    case ENCODE:
    case DECODE:
    case BEAT:
    case END:
    case READ_PACKET:
    case PACKET_ENTRY:
    case READ_REQUEST:
    case READ_ANSWER:
    case ANSWER_PACKET:
    case CELLS: call_on_bytes(call % STEPS, in); break;
    case SEND_ALL: send_all(&handles[0], &handles[1], small(in), small(in)); break;
    case SEND_CHANGED: send_changed(&handles[0], &handles[1], in); break;
    case TRADE: trade(&handles[0], in); break;
    default: call_on_numbers(call % STEPS, handle, in);
    }
}

/* Both handles are open at first, unless the first byte is odd. */
int LLVMFuzzerTestOneInput(const uint8_t *data, size_t size) {
    static const uint8_t symbols[] = {'A', 'B', ' ', 'C', 'D'}, participants[] = {'N', ' ', 'Q'};
    input in = {data, size};
    tapebox_handle handles[2] = {TAPEBOX_HANDLE, TAPEBOX_HANDLE};
    if (!(number(&in, 1) & 1)) {
        answered(OPEN, tapebox_open(&handles[0], symbols, sizeof symbols, participants, sizeof participants, 1, 4096));
        answered(SUBSCRIBE, tapebox_subscribe(&handles[1], symbols, sizeof symbols, participants, sizeof participants, 1, 4096, SESSION));
    }
    while (in.left) {
        step(handles, &in);
        if (handles[0].state > 1 || handles[1].state > 1) fail("a handle", "it stays in use");
    }
    tapebox_free(&handles[0]);
    tapebox_free(&handles[1]);
    return 0;
}
