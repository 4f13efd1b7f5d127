/* Reads a constant handle that holds nothing, and a tape by a const handle. Prints the number of each call. It is C++ too. */
#include "../../clib/tapebox.h"
#include <stdio.h>

static const tapebox_handle none = TAPEBOX_HANDLE;

static void print_reads(const tapebox_handle *handle) {
    tapebox_figures figures;
    tapebox_entry_row entry;
    tapebox_totals_row totals;
    tapebox_name name;
    tapebox_packet packet;
    tapebox_request request;
    tapebox_news news;
    uint8_t bytes[14] = {0};
    size_t len;
    const uint32_t codes[] = {
        tapebox_summary(handle, bytes, 1, &figures), tapebox_summary_of(handle, bytes, 1, 'N', &figures), tapebox_count(handle),
        tapebox_entry(handle, 1, &entry), tapebox_totals(handle, 'N', &totals), tapebox_symbol(handle, 0, &name),
        tapebox_participant(handle, 0, bytes), tapebox_cut(handle, 2, 7, 1, 1, &packet), tapebox_serve(handle, 2, 7, bytes, 14, bytes, 0, &len),
        tapebox_missing(handle, &request), tapebox_news_of(handle, &news), (uint32_t)tapebox_text_length(handle),
        (uint32_t)tapebox_text_copy(handle, 0, bytes, 14),
    };
    for (size_t at = 0; at < sizeof codes / sizeof *codes; at++) printf(at ? " %u" : "%u", codes[at]);
    printf("\n");
}

int main(void) {
    tapebox_handle tape = TAPEBOX_HANDLE;
    const uint8_t symbols[] = {'A', 'B'}, participants[] = {'N'};
    if (tapebox_open(&tape, symbols, 2, participants, 1, 1, 8)) return 1;
    print_reads(&none);
    print_reads(&tape);
    return (int)tapebox_free(&tape);
}
