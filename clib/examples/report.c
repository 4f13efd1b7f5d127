/* Reads a batch (as `./run encode` writes it) and prints the report of the tape that it leaves. */
#include "day.h"

int main(void) {
    static names day;
    if (!read_names(&day)) return 2;
    tapebox_handle tape = TAPEBOX_HANDLE;
    uint32_t refused = tapebox_open(&tape, (uint8_t *)day.symbols, strlen(day.symbols), (uint8_t *)day.participants, strlen(day.participants), 1,
                                    1048576);
    if (refused) {
        fprintf(stderr, "refused %" PRIu32 "\n", refused);
        return 2;
    }
    admit_all(&tape);
    print_report(&tape, &day);
    tapebox_free(&tape);
    return 0;
}
