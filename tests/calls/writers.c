/* Two threads admit messages to one tape, each again and again until a call is not refused as busy, while a third opens and frees other handles and reads
 * this one. Prints how many messages were admitted, and how many entries and trades the tape has. */
#include "../../clib/tapebox.h"
#include <pthread.h>
#include <stdatomic.h>
#include <stdio.h>
#include <string.h>

enum { MESSAGES = 20000 };

static tapebox_handle tape = TAPEBOX_HANDLE;
static atomic_uint admitted;
static atomic_int is_over;

static void *admit_all(void *given) {
    const char *participant = given;
    for (uint32_t number = 1; number <= MESSAGES; number++) {
        tapebox_fields fields = {.kind = 'R', .participant = *participant, .number = number, .price = 10000, .size = 1};
        tapebox_message message;
        tapebox_answer answer;
        uint32_t code;
        memcpy(fields.condition, "@   ", 4), memcpy(fields.symbol, "AB      ", 8);
        if (tapebox_encode(&fields, &message)) return given;
        while ((code = tapebox_admit(&tape, message.bytes, message.len, &answer)) == TAPEBOX_BUSY) {}
        admitted += !code;
    }
    return given;
}

static void *read_all(void *given) {
    while (!atomic_load(&is_over)) {
        tapebox_handle other = TAPEBOX_HANDLE;
        tapebox_figures figures;
        tapebox_open(&other, (const uint8_t *)"AB", 2, (const uint8_t *)"N Q", 3, 1, 10);
        tapebox_summary(&tape, (const uint8_t *)"AB", 2, &figures);
        tapebox_free(&other);
    }
    return given;
}

int main(void) {
    pthread_t threads[3];
    tapebox_figures figures;
    if (tapebox_open(&tape, (const uint8_t *)"AB", 2, (const uint8_t *)"N Q", 3, 1, 2 * MESSAGES)) return 1;
    if (pthread_create(&threads[0], NULL, admit_all, "N") || pthread_create(&threads[1], NULL, admit_all, "Q")) return 1;
    if (pthread_create(&threads[2], NULL, read_all, NULL) || pthread_join(threads[0], NULL) || pthread_join(threads[1], NULL)) return 1;
    atomic_store(&is_over, 1);
    if (pthread_join(threads[2], NULL) || tapebox_summary(&tape, (const uint8_t *)"AB", 2, &figures)) return 1;
    printf("%u %u %u\n", admitted, tapebox_count(&tape), (unsigned)figures.trades);
    return (int)tapebox_free(&tape);
}
