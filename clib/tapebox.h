/* A tape, its sender, its subscriber and the texts of a table in a process of your own: the calls of the static library libtapebox.a, which
 * clib/build makes, and which is all that a program links:
 *
 *     cc -I clib PROGRAM.c clib/libtapebox.a
 *     c++ -std=c++17 -I clib PROGRAM.cpp clib/libtapebox.a
 *     rustc --edition 2024 -L clib -l static=tapebox PROGRAM.rs
 *
 * Unless the library is a draft (clib/build --draft), each call of the crate is proved (crates/tapebox_c): it is safe, it returns, and it answers as
 * written here. Before it stands a call of clib/calls.c, which is C that no proof covers, and which is tested. It refuses these:
 *
 * - 113, before all else: a null handle, a null row, and null for bytes or numbers whose length is not 0. Null with a length of 0 is none of them.
 * - 112, before all else but 113: a handle that another call is using. There is no lock, and no call waits. So threads may share a handle: of calls at
 *   once, also of those that only read, one has it, and the others are refused or have it later. A sanitizer of threads sees that order if the library
 *   is linked for it: CFLAGS=-fsanitize=thread clib/build link.
 *
 * A caller keeps these, which nothing checks:
 *
 * 1. A pointer that is not null points to what its type says, or to as many bytes or numbers as its length says. Until the call returns, nothing else
 *    uses what it writes to or changes what it reads. No two pointers of a call point to the same. Nothing is kept of them after the call.
 * 2. A handle is all zeros before its first call. Only these calls change it. It may be moved while no call uses it, but not copied and used twice.
 * 3. malloc, realloc and free are of one allocator. No call is made from a signal handler, or by a forked child of threads.
 *
 * A handle that holds nothing, holds another kind, or was freed twice is no fault of a caller: such a call answers 101, 102 or 110, or does nothing.
 *
 * A call that returns uint32_t returns 0, or the number of a refusal (docs/RULES.md, "Refusals by number and name", and those below). What a refused
 * call would have changed is as it was before, unless it is said otherwise. A call that only reads what a handle holds takes it as const, and marks
 * it while it does. */
#ifndef TAPEBOX_H
#define TAPEBOX_H

#include <stddef.h>
#include <stdint.h>

#ifdef __cplusplus
extern "C" {
#endif

/* Each refusal: its number, its constant behind TAPEBOX_, and its name in docs/RULES.md. A name that several have ends in its number, except 109. */
#define TAPEBOX_REFUSALS(ROW) \
    ROW(1, EMPTY, "Empty") \
    ROW(2, TOO_MANY, "TooMany") \
    ROW(3, REPEATED, "Repeated") \
    ROW(4, OUT_OF_MEMORY_4, "OutOfMemory") \
    ROW(5, BAD_LIMIT, "BadLimit") \
    ROW(6, OUT_OF_MEMORY_6, "OutOfMemory") \
    ROW(9, BAD_HEADER, "BadHeader") \
    ROW(11, OVERSIZE, "Oversize") \
    ROW(12, SHORT_12, "Short") \
    ROW(13, BAD_KIND_13, "BadKind") \
    ROW(14, BAD_LENGTH, "BadLength") \
    ROW(15, BAD_PARTICIPANT, "BadParticipant") \
    ROW(16, BAD_NUMBER, "BadNumber") \
    ROW(17, BAD_SYMBOL, "BadSymbol") \
    ROW(18, BAD_TARGET, "BadTarget") \
    ROW(19, BAD_PRICE, "BadPrice") \
    ROW(20, BAD_SIZE, "BadSize") \
    ROW(21, BAD_CONDITION, "BadCondition") \
    ROW(23, EXTRA_BYTES, "ExtraBytes") \
    ROW(31, CLOSED, "Closed") \
    ROW(32, FULL, "Full") \
    ROW(33, WRONG_LINE, "WrongLine") \
    ROW(34, UNKNOWN_PARTICIPANT, "UnknownParticipant") \
    ROW(35, STALE, "Stale") \
    ROW(36, UNKNOWN_SYMBOL, "UnknownSymbol") \
    ROW(37, NO_SUCH_REPORT, "NoSuchReport") \
    ROW(38, OTHER_SYMBOL, "OtherSymbol") \
    ROW(39, CANCELLED, "Cancelled") \
    ROW(40, OUT_OF_MEMORY_40, "OutOfMemory") \
    ROW(41, WRONG_NUMBER, "WrongNumber") \
    ROW(42, OTHER_SUMMARY, "OtherSummary") \
    ROW(43, STANDING, "Standing") \
    ROW(44, NOT_IN_MATRIX, "NotInMatrix") \
    ROW(51, SHORT_51, "Short") \
    ROW(52, BAD_VERSION, "BadVersion") \
    ROW(53, BAD_KIND_53, "BadKind") \
    ROW(54, BAD_COUNT, "BadCount") \
    ROW(55, BAD_ENTRY, "BadEntry") \
    ROW(56, NOT_IN_ORDER, "NotInOrder") \
    ROW(57, TRAILING, "Trailing") \
    ROW(61, FOREIGN, "Foreign") \
    ROW(62, CONFLICT, "Conflict") \
    ROW(63, PAST_END, "PastEnd") \
    ROW(64, FAILED, "Failed") \
    ROW(71, OTHER_SESSION, "OtherSession") \
    ROW(72, BEYOND, "Beyond") \
    ROW(73, BAD_SPAN, "BadSpan") \
    ROW(74, READ_FAULT, "ReadFault") \
    ROW(76, BAD_ANSWER, "BadAnswer") \
    ROW(77, REFUSED, "Refused") \
    ROW(78, OUT_OF_MEMORY_78, "OutOfMemory") \
    ROW(101, NO_TAPE, "NoTape") /* the handle holds no tape (for a summary or an entry: no subscriber either) */ \
    ROW(102, NO_SUBSCRIBER, "NoSubscriber") /* the handle holds no subscriber */ \
    ROW(103, IN_USE, "InUse") /* the handle holds something already */ \
    ROW(104, BAD_MATRIX, "BadMatrix") /* the matrix is neither 1 nor 2 */ \
    ROW(105, NO_ENTRY, "NoEntry") /* the tape, the packet or the answer has none of that number or place */ \
    ROW(106, NO_LINE, "NoLine") /* the line is none of 0, 1 and 2 */ \
    ROW(107, NO_REQUEST, "NoRequest") /* a request has 14 bytes */ \
    ROW(108, NO_ROOM, "NoRoom") /* the row is shorter than the answer */ \
    ROW(109, OUT_OF_MEMORY, "OutOfMemory") /* memory ran out for a packet, an answer, a table or a text */ \
    ROW(110, NO_TABLE, "NoTable") /* the handle holds no table */ \
    ROW(111, BAD_TABLE, "BadTable") /* the bytes are no table, or have no row or too many symbols; the handle's text says which, and where */ \
    ROW(112, BUSY, "Busy") /* another call is using the handle */ \
    ROW(113, NULL_POINTER, "NullPointer") /* the handle or a row is null, or bytes of a length that is not 0 */

#define TAPEBOX_CONSTANT(code, constant, name) TAPEBOX_##constant = code,
enum { TAPEBOX_REFUSALS(TAPEBOX_CONSTANT) TAPEBOX_ADMITTED = 0 };
#undef TAPEBOX_CONSTANT

/* Returns the name of a refusal's number: "Admitted" for 0, "?" for a number that no call returns. */
static inline const char *tapebox_refusal_name(uint32_t code) {
#define TAPEBOX_NAME(number, constant, name) case number: return name;
    switch (code) {
        case TAPEBOX_ADMITTED: return "Admitted";
        TAPEBOX_REFUSALS(TAPEBOX_NAME)
        default: return "?";
    }
#undef TAPEBOX_NAME
}

/* The version of this header, 100 times the first number and the second, and that of the library. A library serves the headers of its first number
 * that are not newer. */
#define TAPEBOX_VERSION 100
uint32_t tapebox_version(void);

/* How many bytes the longest packet and the longest answer to a request have. */
#define TAPEBOX_LONGEST_PACKET 1823
#define TAPEBOX_LONGEST_ANSWER 7370

/* What a call that returns a count or a length returns for a handle that is null or that another call is using. */
#define TAPEBOX_NO_COUNT UINT32_MAX
#define TAPEBOX_NO_LENGTH SIZE_MAX

/* What you keep of a tape, of a subscriber or of a table. TAPEBOX_HANDLE is one that holds nothing. */
typedef struct tapebox_handle {
    uint8_t state; /* 0 if it holds nothing, 1 if it holds something, 2 while a call uses it */
    void *inside;
} tapebox_handle;
#define TAPEBOX_HANDLE {0, NULL}

/* A report that a summary names: its price in ten-thousandths of a dollar, its place and its participant's letter. All 0 for none. */
typedef struct tapebox_mark {
    uint64_t price;
    uint32_t place;
    uint32_t who;
} tapebox_mark;

typedef struct tapebox_figures {
    tapebox_mark opening, high, low, last;
    uint64_t volume;
    uint64_t trades;
} tapebox_figures;

/* An admission: the tape number, and the symbol's figures after it if the entry carries them (every kind but a report). */
typedef struct tapebox_answer {
    uint32_t number;
    uint32_t carries; /* 1 or 0; all of `after` is 0 then */
    tapebox_figures after;
} tapebox_answer;

/* An entry of a tape, with its message's bytes. */
typedef struct tapebox_entry_row {
    tapebox_answer answer;
    uint32_t len;
    uint8_t message[44];
} tapebox_entry_row;

/* The fields of a message: kind 'R', 'X', 'C' or 'S'; the symbol filled up with spaces; those that a kind does not have are not read. */
typedef struct tapebox_fields {
    uint64_t moment, price;
    uint32_t number, target, size;
    uint8_t kind, participant, condition[4], symbol[8];
} tapebox_fields;

typedef struct tapebox_message {
    uint32_t len;
    uint8_t bytes[44];
} tapebox_message;

/* What became of a packet's entries. `conflict` is the entry of which another is known if the packet was refused with 62, else 0. */
typedef struct tapebox_taken {
    uint32_t fresh, repeated, beyond, conflict;
} tapebox_taken;

/* A request for what is missing, if count is not 0. */
typedef struct tapebox_request {
    uint32_t count;
    uint8_t bytes[14];
} tapebox_request;

/* What a subscriber knows of its feed. `ended` counts only if is_ended is 1. A gap is open if more was announced than is held.
 * brought_a, brought_b and brought_r are the entries that each line was the first to bring. */
typedef struct tapebox_news {
    uint32_t held, announced, is_ended, ended, brought_a, brought_b, brought_r;
} tapebox_news;

/* A packet. */
typedef struct tapebox_packet {
    uint32_t len;
    uint8_t bytes[TAPEBOX_LONGEST_PACKET];
} tapebox_packet;

/* What a packet says besides its entries: version 1 or 2; kind 'D' (entries), 'H' (a beat) or 'E' (an end); the number of its first entry,
 * or the one that a beat or an end tells; and how many entries it has, 0 for a beat or an end. */
typedef struct tapebox_packet_fields {
    uint64_t session;
    uint32_t number, count;
    uint8_t version, kind;
} tapebox_packet_fields;

/* A request: `count` entries from the number `from` on. */
typedef struct tapebox_request_fields {
    uint64_t session;
    uint32_t from, count;
} tapebox_request_fields;

/* An answer to a request: how many packets it has, how many bytes were read of it, and the number of its refusal (71 to 73) or 0. */
typedef struct tapebox_reply {
    size_t packets, taken;
    uint32_t refusal;
} tapebox_reply;

/* How many messages were answered of many, and how many bytes they have. */
typedef struct tapebox_many {
    size_t answered, taken;
} tapebox_many;

/* What a participant has sent: the shares of its reports as first reported, how many messages of every kind, and its greatest number. */
typedef struct tapebox_totals_row {
    uint64_t shares;
    uint32_t messages, last;
} tapebox_totals_row;

/* A symbol's name, with spaces to the end. */
typedef struct tapebox_name {
    uint8_t bytes[8];
} tapebox_name;

/* Which figures a sale condition changes: 'Y' or 'N'; for a last also 'S' (only if its market set the last) or 'F' (only the first). */
typedef struct tapebox_cells_row {
    uint8_t high_low, last, own_high_low, own_last, volume;
} tapebox_cells_row;

/* Opens a tape. Names have single spaces between them, as in a batch's header ("AB CD", "N Q"). Refused, the first that applies:
 * 103, 104, 5 (limit), 9, 1, 2, 3 (names), and 4 or 6 if memory runs out. */
uint32_t tapebox_open(tapebox_handle *handle, const uint8_t *symbols, size_t symbols_len, const uint8_t *participants,
                      size_t participants_len, uint32_t matrix, uint32_t limit);

/* Admits the message that all the bytes are. Refused: 101, 11 to 21 and 23 (its bytes), 31 to 40, 43 and 44 (the tape). */
uint32_t tapebox_admit(tapebox_handle *handle, const uint8_t *message, size_t len, tapebox_answer *answer);

/* Admits the messages that stand one after another in the bytes, in their order, and writes a number for each at the front of `numbers`, which has
 * room for `numbers_len`: 0 if it was admitted, else that of its refusal (31 to 40, 43, 44). Those that are admitted have the next tape
 * numbers in their order. Refused: 101. Stops: 108 if there is no room for another number, and 11 to 21 at bytes that begin with no message;
 * the messages before are answered, and `row` says how many these are and how many bytes they have. */
uint32_t tapebox_admit_many(tapebox_handle *handle, const uint8_t *messages, size_t len, uint32_t *numbers, size_t numbers_len, tapebox_many *row);

/* Closes a tape: it admits nothing more. Refused: 101. */
uint32_t tapebox_close(tapebox_handle *handle);

/* The calls from here to tapebox_serve read a tape, or a subscriber's own tape. */

/* The consolidated figures of a symbol, by its name without padding. Refused: 101, 36. */
uint32_t tapebox_summary(const tapebox_handle *handle, const uint8_t *symbol, size_t len, tapebox_figures *row);

/* A participant's own figures of a symbol. Refused: 101, 36, 34. */
uint32_t tapebox_summary_of(const tapebox_handle *handle, const uint8_t *symbol, size_t len, uint8_t participant, tapebox_figures *row);

/* How many entries there are, 0 for a handle that holds neither, TAPEBOX_NO_COUNT for one that is null or busy. */
uint32_t tapebox_count(const tapebox_handle *handle);

/* The entry of a tape number, from 1. Refused: 101, 105. */
uint32_t tapebox_entry(const tapebox_handle *handle, uint32_t number, tapebox_entry_row *row);

/* What a participant has sent; zeros for one that is not listed. Refused: 101, 34 (no letter). */
uint32_t tapebox_totals(const tapebox_handle *handle, uint8_t participant, tapebox_totals_row *row);

/* The symbol, or the participant's letter, at a place of the listing, from 0. Refused: 101, and 36 or 34 if there are no more. */
uint32_t tapebox_symbol(const tapebox_handle *handle, uint32_t place, tapebox_name *row);
uint32_t tapebox_participant(const tapebox_handle *handle, uint32_t place, uint8_t *letter);

/* The packet of the entries from the number `from` on: as many as the version takes, but none above `to` (UINT32_MAX for no bound) or
 * above the version's greatest number. Refused: 52 (the version), 101, 105 (`from`), 109. */
uint32_t tapebox_cut(const tapebox_handle *handle, uint32_t version, uint64_t session, uint32_t from, uint32_t to, tapebox_packet *row);

/* The answer to a request, with what is on the tape at the time, at the front of `bytes`, and how many bytes it has. A request that can't be
 * served is answered too, by one byte. Refused: 107, 52, 101, 109, 108 (TAPEBOX_LONGEST_ANSWER bytes are always enough). */
uint32_t tapebox_serve(const tapebox_handle *handle, uint32_t version, uint64_t session, const uint8_t *request, size_t request_len, uint8_t *bytes,
                       size_t bytes_len, size_t *len);

/* Frees what the handle holds, if anything. It holds nothing then, and may be opened again. Refused: 112, 113. */
uint32_t tapebox_free(tapebox_handle *handle);

/* Opens a subscriber of a session. Refused as tapebox_open. */
uint32_t tapebox_subscribe(tapebox_handle *handle, const uint8_t *symbols, size_t symbols_len, const uint8_t *participants,
                           size_t participants_len, uint32_t matrix, uint32_t limit, uint64_t session);

/* Takes the packet that the bytes are, by line 0 (A), 1 (B) or 2 (retransmission). Refused: 106, 102, 64, 51 to 57, 61 to 63. A refusal
 * but for 102, 106, 112 and 113 writes `conflict`, and nothing else. */
uint32_t tapebox_deliver(tapebox_handle *handle, uint32_t line, const uint8_t *packet, size_t len, tapebox_taken *row);

/* Replays what is ready. `drained` is written also if it stops. Refused: 102 (nothing is written); stops: 31 to 44, 64. */
uint32_t tapebox_drain(tapebox_handle *handle, uint32_t *drained);

/* A request for the first numbers that are missing; its count is 0 if none is. Refused: 102. */
uint32_t tapebox_missing(const tapebox_handle *handle, tapebox_request *row);

/* What is held, announced, ended and brought. Refused: 102. */
uint32_t tapebox_news_of(const tapebox_handle *handle, tapebox_news *row);

/* Reads a table (docs/FORMATS.md, "A table") into a handle that holds nothing. Nothing is kept of the bytes. Refused: 103, and the handle is as it
 * was; 109 and 111, and the handle holds what is wrong in words, as `out of memory` or `row 3: size "0" is not 1 to 99999999 in at most 20 digits`;
 * or nothing, with 109, if memory runs out for these words too. A handle that holds words has to be freed before it reads another table. */
uint32_t tapebox_read_table(tapebox_handle *handle, const uint8_t *table, size_t len);

/* These three make a text of the table that the handle holds, by matrix 1 or 2, in place of the text that it had: its report, its readable tape,
 * and what became of each of its reports (docs/FORMATS.md). The table is not read again. Refused: 104 and 110, and the handle is as it was; 109,
 * and 111 for names that make no listing, and the text says so in words, or is empty if memory runs out for these. */
uint32_t tapebox_report(tapebox_handle *handle, uint32_t matrix);
uint32_t tapebox_tape(tapebox_handle *handle, uint32_t matrix);
uint32_t tapebox_explain(tapebox_handle *handle, uint32_t matrix);

/* How many bytes the text has that the handle holds, 0 for none; and those from the byte `from` on, at the front of `bytes`: as many as there are
 * and as it has room for. The second returns how many it copied, 0 at the end of the text. Both return TAPEBOX_NO_LENGTH where another call would be
 * refused by 112 or 113. */
size_t tapebox_text_length(const tapebox_handle *handle);
size_t tapebox_text_copy(const tapebox_handle *handle, size_t from, uint8_t *bytes, size_t bytes_len);

/* The bytes of a message made of its fields. Refused: 13, 15 to 21. */
uint32_t tapebox_encode(const tapebox_fields *fields, tapebox_message *row);

/* The fields of the message that all the bytes are. Refused: 11 to 21, 23. */
uint32_t tapebox_decode(const uint8_t *message, size_t len, tapebox_fields *fields);

/* A beat, which tells how many entries the tape has so far, and an end, which tells how many it has. Refused: 52 (the version),
 * 54 (the number is above the version's greatest), 109. */
uint32_t tapebox_beat(uint32_t version, uint64_t session, uint32_t last, tapebox_packet *row);
uint32_t tapebox_end(uint32_t version, uint64_t session, uint32_t count, tapebox_packet *row);

/* The packet that all the bytes are, and its entry at a place from 0. Refused: 51 to 57; 105 (it has fewer entries). */
uint32_t tapebox_read_packet(const uint8_t *packet, size_t len, tapebox_packet_fields *row);
uint32_t tapebox_packet_entry(const uint8_t *packet, size_t len, uint32_t place, tapebox_entry_row *row);

/* The request that all the bytes are. Refused: 107, 73. */
uint32_t tapebox_read_request(const uint8_t *request, size_t len, tapebox_request_fields *row);

/* The answer at the front of the bytes. Refused: 74 (it goes on after them), 76 (it is no answer), 77 (the request was refused), 78 (memory ran
 * out). With each but 78 and 113 `taken` is written, with 77 also `refusal`. */
uint32_t tapebox_read_answer(const uint8_t *answer, size_t len, tapebox_reply *row);

/* The packet at a place, from 0, in the answer at the front of the bytes, at the front of `bytes`, and how many bytes it has. What they say
 * is not looked at. Refused: 74, 76 to 78; 105 (it has fewer packets); 108 (TAPEBOX_LONGEST_PACKET bytes are always enough). */
uint32_t tapebox_answer_packet(const uint8_t *answer, size_t answer_len, uint32_t place, uint8_t *bytes, size_t bytes_len, size_t *len);

/* The cells of a sale condition, four bytes, by a matrix. Refused: 104, 21, 44. */
uint32_t tapebox_cells(uint32_t matrix, const uint8_t *condition, size_t len, tapebox_cells_row *row);

#ifdef __cplusplus
}
#endif

#endif
