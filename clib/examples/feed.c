/* Reads a batch (as `./run encode` writes it), sends its tape to a subscriber on two lines that lose packets, sends again what both lost,
 * and prints the subscriber's report. */
#include "day.h"

enum { VERSION = 2, SESSION = 7, LINE_A = 0, LINE_B = 1, RETRANSMISSION = 2 };

/* Ends the program if a call was refused. */
static int is_fine(const char *call, uint32_t refused) {
    if (refused) fprintf(stderr, "%s: refused %" PRIu32 "\n", call, refused);
    return !refused;
}

/* Sends the tape in packets, of which line A loses every second and line B every third. */
static int send_tape(tapebox_handle *tape, tapebox_handle *subscriber) {
    uint32_t last = tapebox_count(tape), place = 0;
    for (uint32_t from = 1; from <= last; place++) {
        tapebox_packet packet;
        tapebox_packet_fields sent;
        tapebox_taken taken;
        if (!is_fine("cut", tapebox_cut(tape, VERSION, SESSION, from, from + 3, &packet))) return 0;
        if (!is_fine("read", tapebox_read_packet(packet.bytes, packet.len, &sent))) return 0;
        if (place % 2 == 0 && !is_fine("A", tapebox_deliver(subscriber, LINE_A, packet.bytes, packet.len, &taken))) return 0;
        if (place % 3 == 0 && !is_fine("B", tapebox_deliver(subscriber, LINE_B, packet.bytes, packet.len, &taken))) return 0;
        from += sent.count;
    }
    tapebox_packet end;
    tapebox_taken taken;
    return is_fine("end", tapebox_end(VERSION, SESSION, last, &end)) && is_fine("A", tapebox_deliver(subscriber, LINE_A, end.bytes, end.len, &taken));
}

/* Takes the packets of the answer to a request. */
static int take_answer(tapebox_handle *subscriber, const uint8_t *answer, size_t len) {
    tapebox_reply reply;
    if (!is_fine("answer", tapebox_read_answer(answer, len, &reply))) return 0;
    for (uint32_t place = 0; place < reply.packets; place++) {
        uint8_t bytes[TAPEBOX_LONGEST_PACKET];
        size_t packet_len;
        tapebox_taken taken;
        if (!is_fine("packet", tapebox_answer_packet(answer, len, place, bytes, sizeof bytes, &packet_len))) return 0;
        if (!is_fine("R", tapebox_deliver(subscriber, RETRANSMISSION, bytes, packet_len, &taken))) return 0;
    }
    return 1;
}

/* Asks for what is missing, until nothing is. */
static int recover(tapebox_handle *tape, tapebox_handle *subscriber) {
    for (;;) {
        tapebox_request request;
        uint8_t answer[TAPEBOX_LONGEST_ANSWER];
        uint32_t drained;
        size_t len;
        if (!is_fine("drain", tapebox_drain(subscriber, &drained))) return 0;
        if (!is_fine("missing", tapebox_missing(subscriber, &request))) return 0;
        if (!request.count) return 1;
        if (!is_fine("serve", tapebox_serve(tape, VERSION, SESSION, request.bytes, sizeof request.bytes, answer, sizeof answer, &len))) return 0;
        if (!take_answer(subscriber, answer, len)) return 0;
    }
}

int main(void) {
    static names day;
    if (!read_names(&day)) return 2;
    tapebox_handle tape = TAPEBOX_HANDLE, subscriber = TAPEBOX_HANDLE;
    const uint8_t *symbols = (uint8_t *)day.symbols, *who = (uint8_t *)day.participants;
    size_t symbols_len = strlen(day.symbols), who_len = strlen(day.participants);
    int is_done = is_fine("open", tapebox_open(&tape, symbols, symbols_len, who, who_len, 1, 1048576))
        && is_fine("subscribe", tapebox_subscribe(&subscriber, symbols, symbols_len, who, who_len, 1, 1048576, SESSION));
    if (is_done) admit_all(&tape);
    is_done = is_done && send_tape(&tape, &subscriber) && recover(&tape, &subscriber);
    if (is_done) print_report(&subscriber, &day);
    tapebox_free(&subscriber);
    tapebox_free(&tape);
    return is_done ? 0 : 2;
}
