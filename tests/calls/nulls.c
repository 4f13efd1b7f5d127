/* Makes each call with a null handle; with a null row, and null for bytes or numbers of a length that is not 0; and with null and a length of 0, which
 * is as bytes of that length. Prints each answer that is another than it should be, and how many calls were made. */
#include "../../clib/tapebox.h"
#include <stdio.h>
#include <string.h>

static unsigned calls;

static void want(const char *call, uint64_t got, uint64_t wanted) {
    calls++;
    if (got != wanted) printf("%s: %llu and not %llu\n", call, (unsigned long long)got, (unsigned long long)wanted);
}
#define REFUSED(call) want(#call, call, TAPEBOX_NULL_POINTER)
#define GIVES(wanted, call) want(#call, call, wanted)

static const uint8_t text[] = {'A', 'B'};
static tapebox_answer answer;
static tapebox_many many;
static tapebox_figures figures;
static tapebox_entry_row entry;
static tapebox_totals_row totals;
static tapebox_name name;
static tapebox_packet packet;
static tapebox_taken taken;
static tapebox_request request;
static tapebox_news news;
static tapebox_message message;
static tapebox_fields fields;
static tapebox_packet_fields packet_fields;
static tapebox_request_fields request_fields;
static tapebox_reply reply;
static tapebox_cells_row cells;
static uint32_t number;
static uint8_t bytes[8];
static size_t len;

static void call_without_handle(void) {
    tapebox_handle *none = NULL;
    REFUSED(tapebox_open(none, text, 2, text, 2, 1, 8));
    REFUSED(tapebox_admit(none, text, 2, &answer));
    REFUSED(tapebox_admit_many(none, text, 2, &number, 1, &many));
    REFUSED(tapebox_close(none));
    REFUSED(tapebox_summary(none, text, 2, &figures));
    REFUSED(tapebox_summary_of(none, text, 2, 'N', &figures));
    GIVES(TAPEBOX_NO_COUNT, tapebox_count(none));
    REFUSED(tapebox_entry(none, 1, &entry));
    REFUSED(tapebox_totals(none, 'N', &totals));
    REFUSED(tapebox_symbol(none, 0, &name));
    REFUSED(tapebox_participant(none, 0, bytes));
    REFUSED(tapebox_cut(none, 2, 7, 1, 1, &packet));
    REFUSED(tapebox_serve(none, 2, 7, text, 2, bytes, 8, &len));
    REFUSED(tapebox_free(none));
    REFUSED(tapebox_subscribe(none, text, 2, text, 2, 1, 8, 7));
    REFUSED(tapebox_deliver(none, 0, text, 2, &taken));
    REFUSED(tapebox_drain(none, &number));
    REFUSED(tapebox_missing(none, &request));
    REFUSED(tapebox_news_of(none, &news));
    REFUSED(tapebox_read_table(none, text, 2));
    REFUSED(tapebox_report(none, 1));
    REFUSED(tapebox_tape(none, 1));
    REFUSED(tapebox_explain(none, 1));
    GIVES(TAPEBOX_NO_LENGTH, tapebox_text_length(none));
    GIVES(TAPEBOX_NO_LENGTH, tapebox_text_copy(none, 0, bytes, 8));
}

static void call_with_nulls(tapebox_handle *tape, tapebox_handle *empty) {
    REFUSED(tapebox_open(empty, NULL, 2, text, 2, 1, 8));
    REFUSED(tapebox_open(empty, text, 2, NULL, 2, 1, 8));
    REFUSED(tapebox_subscribe(empty, NULL, 2, text, 2, 1, 8, 7));
    REFUSED(tapebox_subscribe(empty, text, 2, NULL, 2, 1, 8, 7));
    REFUSED(tapebox_read_table(empty, NULL, 2));
    REFUSED(tapebox_admit(tape, NULL, 2, &answer));
    REFUSED(tapebox_admit(tape, text, 2, NULL));
    REFUSED(tapebox_admit_many(tape, NULL, 2, &number, 1, &many));
    REFUSED(tapebox_admit_many(tape, text, 2, NULL, 1, &many));
    REFUSED(tapebox_admit_many(tape, text, 2, &number, 1, NULL));
    REFUSED(tapebox_summary(tape, NULL, 2, &figures));
    REFUSED(tapebox_summary(tape, text, 2, NULL));
    REFUSED(tapebox_summary_of(tape, NULL, 2, 'N', &figures));
    REFUSED(tapebox_summary_of(tape, text, 2, 'N', NULL));
    REFUSED(tapebox_entry(tape, 1, NULL));
    REFUSED(tapebox_totals(tape, 'N', NULL));
    REFUSED(tapebox_symbol(tape, 0, NULL));
    REFUSED(tapebox_participant(tape, 0, NULL));
    REFUSED(tapebox_cut(tape, 2, 7, 1, 1, NULL));
    REFUSED(tapebox_serve(tape, 2, 7, NULL, 2, bytes, 8, &len));
    REFUSED(tapebox_serve(tape, 2, 7, text, 2, NULL, 8, &len));
    REFUSED(tapebox_serve(tape, 2, 7, text, 2, bytes, 8, NULL));
    REFUSED(tapebox_deliver(tape, 0, NULL, 2, &taken));
    REFUSED(tapebox_deliver(tape, 0, text, 2, NULL));
    REFUSED(tapebox_drain(tape, NULL));
    REFUSED(tapebox_missing(tape, NULL));
    REFUSED(tapebox_news_of(tape, NULL));
    GIVES(TAPEBOX_NO_LENGTH, tapebox_text_copy(tape, 0, NULL, 2));
}

static void call_on_nulls(void) {
    REFUSED(tapebox_encode(NULL, &message));
    REFUSED(tapebox_encode(&fields, NULL));
    REFUSED(tapebox_decode(NULL, 2, &fields));
    REFUSED(tapebox_decode(text, 2, NULL));
    REFUSED(tapebox_beat(2, 7, 1, NULL));
    REFUSED(tapebox_end(2, 7, 1, NULL));
    REFUSED(tapebox_read_packet(NULL, 2, &packet_fields));
    REFUSED(tapebox_read_packet(text, 2, NULL));
    REFUSED(tapebox_packet_entry(NULL, 2, 0, &entry));
    REFUSED(tapebox_packet_entry(text, 2, 0, NULL));
    REFUSED(tapebox_read_request(NULL, 2, &request_fields));
    REFUSED(tapebox_read_request(text, 2, NULL));
    REFUSED(tapebox_read_answer(NULL, 2, &reply));
    REFUSED(tapebox_read_answer(text, 2, NULL));
    REFUSED(tapebox_answer_packet(NULL, 2, 0, bytes, 8, &len));
    REFUSED(tapebox_answer_packet(text, 2, 0, NULL, 8, &len));
    REFUSED(tapebox_answer_packet(text, 2, 0, bytes, 8, NULL));
    REFUSED(tapebox_cells(1, NULL, 4, &cells));
    REFUSED(tapebox_cells(1, text, 2, NULL));
}

/* `given` is null, and then it is not. */
static void call_with_none(tapebox_handle *tape, tapebox_handle *empty, const uint8_t *given, uint8_t *row) {
    GIVES(TAPEBOX_BAD_HEADER, tapebox_open(empty, given, 0, text, 2, 1, 8));
    GIVES(TAPEBOX_EMPTY, tapebox_subscribe(empty, text, 2, given, 0, 1, 8, 7));
    GIVES(TAPEBOX_SHORT_12, tapebox_admit(tape, given, 0, &answer));
    GIVES(0, tapebox_admit_many(tape, given, 0, given ? &number : NULL, 0, &many));
    GIVES(TAPEBOX_UNKNOWN_SYMBOL, tapebox_summary(tape, given, 0, &figures));
    GIVES(TAPEBOX_UNKNOWN_SYMBOL, tapebox_summary_of(tape, given, 0, 'N', &figures));
    GIVES(TAPEBOX_NO_REQUEST, tapebox_serve(tape, 2, 7, given, 0, row, 0, &len));
    GIVES(TAPEBOX_NO_SUBSCRIBER, tapebox_deliver(tape, 0, given, 0, &taken));
    GIVES(0, tapebox_text_copy(tape, 0, row, 0));
    GIVES(TAPEBOX_SHORT_12, tapebox_decode(given, 0, &fields));
    GIVES(TAPEBOX_SHORT_51, tapebox_read_packet(given, 0, &packet_fields));
    GIVES(TAPEBOX_SHORT_51, tapebox_packet_entry(given, 0, 0, &entry));
    GIVES(TAPEBOX_NO_REQUEST, tapebox_read_request(given, 0, &request_fields));
    GIVES(TAPEBOX_READ_FAULT, tapebox_read_answer(given, 0, &reply));
    GIVES(TAPEBOX_READ_FAULT, tapebox_answer_packet(given, 0, 0, row, 0, &len));
    GIVES(TAPEBOX_BAD_CONDITION, tapebox_cells(1, given, 0, &cells));
    GIVES(TAPEBOX_BAD_TABLE, tapebox_read_table(empty, given, 0));
    GIVES(0, tapebox_free(empty));
}

int main(void) {
    tapebox_handle tape = TAPEBOX_HANDLE, empty = TAPEBOX_HANDLE;
    const uint8_t names[] = {'N'};
    GIVES(0, tapebox_open(&tape, text, 2, names, 1, 1, 8));
    call_without_handle();
    call_with_nulls(&tape, &empty);
    call_on_nulls();
    GIVES(0, empty.state);
    call_with_none(&tape, &empty, NULL, NULL);
    call_with_none(&tape, &empty, text, bytes);
    GIVES(0, tapebox_totals(&tape, 'N', &totals));
    GIVES(0, totals.messages);
    GIVES(0, tapebox_free(&tape));
    printf("%u calls\n", calls);
    return 0;
}
