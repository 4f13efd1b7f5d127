/* One thread admits messages to a tape while another reads it, and then two read it at once. Prints whether a call was refused as busy while the tape
 * was written, each answer that is another than it should be, and how many entries and trades the tape has at the end. */
#include "../../clib/tapebox.h"
#include <pthread.h>
#include <stdatomic.h>
#include <stdio.h>
#include <string.h>

enum { MESSAGES = 100000, BEFORE = 10, TURNS = 100000 };

static tapebox_handle tape = TAPEBOX_HANDLE;
static uint8_t messages[MESSAGES * 40];
static uint32_t numbers[MESSAGES];
static atomic_int is_over;

static void *admit_all(void *given) {
    tapebox_many row;
    uint32_t code;
    while ((code = tapebox_admit_many(&tape, messages + 40 * BEFORE, 40 * (MESSAGES - BEFORE), numbers, MESSAGES, &row)) == TAPEBOX_BUSY) {}
    if (code || row.answered != MESSAGES - BEFORE) printf("admit_many: %u\n", code);
    atomic_store(&is_over, 1);
    return given;
}

/* Reads the tape, which has `least` entries until it was written, and then `most`. Returns how often it was busy. */
static unsigned read_all(uint32_t most, uint32_t least) {
    tapebox_figures figures;
    tapebox_totals_row totals;
    uint32_t count = tapebox_count(&tape);
    uint32_t code = tapebox_summary(&tape, (const uint8_t *)"AB", 2, &figures), other = tapebox_totals(&tape, 'N', &totals);
    if (count != TAPEBOX_NO_COUNT && count != least && count != most) printf("count: %u\n", count);
    if (code != TAPEBOX_BUSY && (code || (figures.trades != least && figures.trades != most))) printf("summary: %u\n", code);
    if (other != TAPEBOX_BUSY && (other || (totals.messages != least && totals.messages != most))) printf("totals: %u\n", other);
    return (count == TAPEBOX_NO_COUNT) + (code == TAPEBOX_BUSY) + (other == TAPEBOX_BUSY);
}

static void *read_often(void *given) {
    for (int turn = 0; turn < TURNS; turn++) read_all(MESSAGES, MESSAGES);
    return given;
}

int main(void) {
    pthread_t thread, other;
    tapebox_many row;
    tapebox_figures figures;
    for (uint32_t at = 0; at < MESSAGES; at++) {
        tapebox_message message;
        tapebox_fields fields = {.kind = 'R', .participant = 'N', .number = at + 1, .price = 10000, .size = 1};
        memcpy(fields.condition, "@   ", 4), memcpy(fields.symbol, "AB      ", 8);
        if (tapebox_encode(&fields, &message) || message.len != 40) return 1;
        memcpy(messages + 40 * at, message.bytes, 40);
    }
    if (tapebox_open(&tape, (const uint8_t *)"AB", 2, (const uint8_t *)"N", 1, 1, MESSAGES)) return 1;
    if (tapebox_admit_many(&tape, messages, 40 * BEFORE, numbers, BEFORE, &row)) return 1;
    if (pthread_create(&thread, NULL, admit_all, NULL)) return 1;
    unsigned busy = 0;
    while (!atomic_load(&is_over)) busy += read_all(MESSAGES, BEFORE);
    if (pthread_join(thread, NULL) || pthread_create(&thread, NULL, read_often, NULL) || pthread_create(&other, NULL, read_often, NULL)) return 1;
    if (pthread_join(thread, NULL) || pthread_join(other, NULL)) return 1;
    if (tapebox_summary(&tape, (const uint8_t *)"AB", 2, &figures)) return 1;
    printf("%d %u %u\n", busy > 0, tapebox_count(&tape), (unsigned)figures.trades);
    return (int)tapebox_free(&tape);
}
