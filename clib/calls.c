/* What stands before each call of the crate, and is C that no proof covers: what a call needs is not null, null with a length of 0 is an empty text or
 * row, and one call at a time uses a handle. clib/build renames the crate's calls, such as tapebox_open to tapebox_inner_open, and puts them and
 * these into both libraries. The one call that is not the crate's is tapebox_version. */
#include "tapebox.h"

#include <stdbool.h>

enum { EMPTY, HOLDS, IN_USE };

#define INNER(name) extern __typeof__(tapebox_##name) tapebox_inner_##name;
INNER(open) INNER(admit) INNER(admit_many) INNER(close) INNER(summary) INNER(summary_of) INNER(count) INNER(entry) INNER(totals)
INNER(symbol) INNER(participant) INNER(cut) INNER(serve) INNER(subscribe) INNER(deliver) INNER(drain) INNER(missing) INNER(news_of)
INNER(read_table) INNER(report) INNER(tape) INNER(explain) INNER(text_length) INNER(text_copy) INNER(encode) INNER(decode) INNER(beat)
INNER(end) INNER(read_packet) INNER(packet_entry) INNER(read_request) INNER(read_answer) INNER(answer_packet) INNER(cells)
void tapebox_inner_free(tapebox_handle *handle);

/* A call's turn: the caller's handle, unless that holds nothing, and the crate's, which no other call sees. Its state is 0 or 1. */
typedef struct turn {
    tapebox_handle *taken;
    tapebox_handle inner;
} turn;

/* Takes a handle for a call. Returns 0, or why it was not taken. */
static uint32_t begin(turn *mine, const tapebox_handle *handle, bool fills) {
    if (!handle) return TAPEBOX_NULL_POINTER;
    *mine = (turn){NULL, TAPEBOX_HANDLE};
    uint8_t state = __atomic_load_n(&handle->state, __ATOMIC_SEQ_CST);
    /* A handle that holds nothing may be a constant, so a call that can't fill it writes nothing there. */
    if (state == EMPTY && !fills) return 0;
    tapebox_handle *given = (tapebox_handle *)(uintptr_t)handle;
    if (state > HOLDS || !__atomic_compare_exchange_n(&given->state, &state, IN_USE, false, __ATOMIC_SEQ_CST, __ATOMIC_SEQ_CST)) return TAPEBOX_BUSY;
    *mine = (turn){given, {state, given->inside}};
    return 0;
}

/* Gives a handle back, and returns what the call told. */
static size_t end(turn *mine, size_t told) {
    if (mine->taken) {
        mine->taken->inside = mine->inner.inside;
        __atomic_store_n(&mine->taken->state, mine->inner.state, __ATOMIC_SEQ_CST);
    }
    return told;
}

/* Where an empty text or row lies that is given as null. */
static uint32_t nowhere;
#define THERE(bytes) ((bytes) ? (bytes) : (void *)&nowhere)
#define IS_THERE(bytes) ((bytes) || !bytes##_len)

/* The bodies of a call: it has its turn of a handle, or has none, if what it is given is there. */
#define IN_TURN(handle, fills, is_given, call) \
    turn mine; \
    uint32_t code = (is_given) ? begin(&mine, handle, fills) : TAPEBOX_NULL_POINTER; \
    return code ? code : (uint32_t)end(&mine, call)
#define WITHOUT_TURN(is_given, call) return (is_given) ? (call) : TAPEBOX_NULL_POINTER

uint32_t tapebox_version(void) { return TAPEBOX_VERSION; }

uint32_t tapebox_open(tapebox_handle *handle, const uint8_t *symbols, size_t symbols_len, const uint8_t *participants, size_t participants_len,
                      uint32_t matrix, uint32_t limit) {
    IN_TURN(handle, true, IS_THERE(symbols) && IS_THERE(participants),
            tapebox_inner_open(&mine.inner, THERE(symbols), symbols_len, THERE(participants), participants_len, matrix, limit));
}

uint32_t tapebox_admit(tapebox_handle *handle, const uint8_t *message, size_t message_len, tapebox_answer *answer) {
    IN_TURN(handle, false, IS_THERE(message) && answer, tapebox_inner_admit(&mine.inner, THERE(message), message_len, answer));
}

uint32_t tapebox_admit_many(tapebox_handle *handle, const uint8_t *messages, size_t messages_len, uint32_t *numbers, size_t numbers_len,
                            tapebox_many *row) {
    IN_TURN(handle, false, IS_THERE(messages) && IS_THERE(numbers) && row,
            tapebox_inner_admit_many(&mine.inner, THERE(messages), messages_len, THERE(numbers), numbers_len, row));
}

uint32_t tapebox_close(tapebox_handle *handle) { IN_TURN(handle, false, true, tapebox_inner_close(&mine.inner)); }

uint32_t tapebox_summary(const tapebox_handle *handle, const uint8_t *symbol, size_t symbol_len, tapebox_figures *row) {
    IN_TURN(handle, false, IS_THERE(symbol) && row, tapebox_inner_summary(&mine.inner, THERE(symbol), symbol_len, row));
}

uint32_t tapebox_summary_of(const tapebox_handle *handle, const uint8_t *symbol, size_t symbol_len, uint8_t participant, tapebox_figures *row) {
    IN_TURN(handle, false, IS_THERE(symbol) && row, tapebox_inner_summary_of(&mine.inner, THERE(symbol), symbol_len, participant, row));
}

uint32_t tapebox_count(const tapebox_handle *handle) {
    turn mine;
    return begin(&mine, handle, false) ? TAPEBOX_NO_COUNT : (uint32_t)end(&mine, tapebox_inner_count(&mine.inner));
}

uint32_t tapebox_entry(const tapebox_handle *handle, uint32_t number, tapebox_entry_row *row) {
    IN_TURN(handle, false, row, tapebox_inner_entry(&mine.inner, number, row));
}

uint32_t tapebox_totals(const tapebox_handle *handle, uint8_t participant, tapebox_totals_row *row) {
    IN_TURN(handle, false, row, tapebox_inner_totals(&mine.inner, participant, row));
}

uint32_t tapebox_symbol(const tapebox_handle *handle, uint32_t place, tapebox_name *row) {
    IN_TURN(handle, false, row, tapebox_inner_symbol(&mine.inner, place, row));
}

uint32_t tapebox_participant(const tapebox_handle *handle, uint32_t place, uint8_t *letter) {
    IN_TURN(handle, false, letter, tapebox_inner_participant(&mine.inner, place, letter));
}

uint32_t tapebox_cut(const tapebox_handle *handle, uint32_t version, uint64_t session, uint32_t from, uint32_t to, tapebox_packet *row) {
    IN_TURN(handle, false, row, tapebox_inner_cut(&mine.inner, version, session, from, to, row));
}

uint32_t tapebox_serve(const tapebox_handle *handle, uint32_t version, uint64_t session, const uint8_t *request, size_t request_len, uint8_t *bytes,
                       size_t bytes_len, size_t *len) {
    IN_TURN(handle, false, IS_THERE(request) && IS_THERE(bytes) && len,
            tapebox_inner_serve(&mine.inner, version, session, THERE(request), request_len, THERE(bytes), bytes_len, len));
}

uint32_t tapebox_free(tapebox_handle *handle) { IN_TURN(handle, false, true, (tapebox_inner_free(&mine.inner), 0)); }

uint32_t tapebox_subscribe(tapebox_handle *handle, const uint8_t *symbols, size_t symbols_len, const uint8_t *participants, size_t participants_len,
                           uint32_t matrix, uint32_t limit, uint64_t session) {
    IN_TURN(handle, true, IS_THERE(symbols) && IS_THERE(participants),
            tapebox_inner_subscribe(&mine.inner, THERE(symbols), symbols_len, THERE(participants), participants_len, matrix, limit, session));
}

uint32_t tapebox_deliver(tapebox_handle *handle, uint32_t line, const uint8_t *packet, size_t packet_len, tapebox_taken *row) {
    IN_TURN(handle, false, IS_THERE(packet) && row, tapebox_inner_deliver(&mine.inner, line, THERE(packet), packet_len, row));
}

uint32_t tapebox_drain(tapebox_handle *handle, uint32_t *drained) { IN_TURN(handle, false, drained, tapebox_inner_drain(&mine.inner, drained)); }

uint32_t tapebox_missing(const tapebox_handle *handle, tapebox_request *row) { IN_TURN(handle, false, row, tapebox_inner_missing(&mine.inner, row)); }

uint32_t tapebox_news_of(const tapebox_handle *handle, tapebox_news *row) { IN_TURN(handle, false, row, tapebox_inner_news_of(&mine.inner, row)); }

uint32_t tapebox_read_table(tapebox_handle *handle, const uint8_t *table, size_t table_len) {
    IN_TURN(handle, true, IS_THERE(table), tapebox_inner_read_table(&mine.inner, THERE(table), table_len));
}

uint32_t tapebox_report(tapebox_handle *handle, uint32_t matrix) { IN_TURN(handle, false, true, tapebox_inner_report(&mine.inner, matrix)); }

uint32_t tapebox_tape(tapebox_handle *handle, uint32_t matrix) { IN_TURN(handle, false, true, tapebox_inner_tape(&mine.inner, matrix)); }

uint32_t tapebox_explain(tapebox_handle *handle, uint32_t matrix) { IN_TURN(handle, false, true, tapebox_inner_explain(&mine.inner, matrix)); }

size_t tapebox_text_length(const tapebox_handle *handle) {
    turn mine;
    return begin(&mine, handle, false) ? TAPEBOX_NO_LENGTH : end(&mine, tapebox_inner_text_length(&mine.inner));
}

size_t tapebox_text_copy(const tapebox_handle *handle, size_t from, uint8_t *bytes, size_t bytes_len) {
    turn mine;
    if (!IS_THERE(bytes) || begin(&mine, handle, false)) return TAPEBOX_NO_LENGTH;
    return end(&mine, tapebox_inner_text_copy(&mine.inner, from, THERE(bytes), bytes_len));
}

uint32_t tapebox_encode(const tapebox_fields *fields, tapebox_message *row) { WITHOUT_TURN(fields && row, tapebox_inner_encode(fields, row)); }

uint32_t tapebox_decode(const uint8_t *message, size_t message_len, tapebox_fields *fields) {
    WITHOUT_TURN(IS_THERE(message) && fields, tapebox_inner_decode(THERE(message), message_len, fields));
}

uint32_t tapebox_beat(uint32_t version, uint64_t session, uint32_t last, tapebox_packet *row) {
    WITHOUT_TURN(row, tapebox_inner_beat(version, session, last, row));
}

uint32_t tapebox_end(uint32_t version, uint64_t session, uint32_t count, tapebox_packet *row) {
    WITHOUT_TURN(row, tapebox_inner_end(version, session, count, row));
}

uint32_t tapebox_read_packet(const uint8_t *packet, size_t packet_len, tapebox_packet_fields *row) {
    WITHOUT_TURN(IS_THERE(packet) && row, tapebox_inner_read_packet(THERE(packet), packet_len, row));
}

uint32_t tapebox_packet_entry(const uint8_t *packet, size_t packet_len, uint32_t place, tapebox_entry_row *row) {
    WITHOUT_TURN(IS_THERE(packet) && row, tapebox_inner_packet_entry(THERE(packet), packet_len, place, row));
}

uint32_t tapebox_read_request(const uint8_t *request, size_t request_len, tapebox_request_fields *row) {
    WITHOUT_TURN(IS_THERE(request) && row, tapebox_inner_read_request(THERE(request), request_len, row));
}

uint32_t tapebox_read_answer(const uint8_t *answer, size_t answer_len, tapebox_reply *row) {
    WITHOUT_TURN(IS_THERE(answer) && row, tapebox_inner_read_answer(THERE(answer), answer_len, row));
}

uint32_t tapebox_answer_packet(const uint8_t *answer, size_t answer_len, uint32_t place, uint8_t *bytes, size_t bytes_len, size_t *len) {
    WITHOUT_TURN(IS_THERE(answer) && IS_THERE(bytes) && len,
                 tapebox_inner_answer_packet(THERE(answer), answer_len, place, THERE(bytes), bytes_len, len));
}

uint32_t tapebox_cells(uint32_t matrix, const uint8_t *condition, size_t condition_len, tapebox_cells_row *row) {
    WITHOUT_TURN(IS_THERE(condition) && row, tapebox_inner_cells(matrix, THERE(condition), condition_len, row));
}
