/* Makes each call on a handle that another is using, which holds a tape. Prints each answer that is another than it should be, and how many calls were
 * made. */
#include "../../clib/tapebox.h"
#include <stdio.h>

static unsigned calls;

static void want(const char *call, uint64_t got, uint64_t wanted) {
    calls++;
    if (got != wanted) printf("%s: %llu and not %llu\n", call, (unsigned long long)got, (unsigned long long)wanted);
}
#define REFUSED(call) want(#call, call, TAPEBOX_BUSY)

static const uint8_t text[] = {'A', 'B'};

static void call_all(tapebox_handle *busy) {
    tapebox_answer answer;
    tapebox_many many;
    tapebox_figures figures;
    tapebox_entry_row entry;
    tapebox_totals_row totals;
    tapebox_name name;
    tapebox_packet packet;
    tapebox_taken taken;
    tapebox_request request;
    tapebox_news news;
    uint32_t number;
    uint8_t bytes[8];
    size_t len;
    REFUSED(tapebox_open(busy, text, 2, text, 2, 1, 8));
    REFUSED(tapebox_subscribe(busy, text, 2, text, 2, 1, 8, 7));
    REFUSED(tapebox_read_table(busy, text, 2));
    REFUSED(tapebox_admit(busy, text, 2, &answer));
    REFUSED(tapebox_admit_many(busy, text, 2, &number, 1, &many));
    REFUSED(tapebox_close(busy));
    REFUSED(tapebox_summary(busy, text, 2, &figures));
    REFUSED(tapebox_summary_of(busy, text, 2, 'N', &figures));
    want("count", tapebox_count(busy), TAPEBOX_NO_COUNT);
    REFUSED(tapebox_entry(busy, 1, &entry));
    REFUSED(tapebox_totals(busy, 'N', &totals));
    REFUSED(tapebox_symbol(busy, 0, &name));
    REFUSED(tapebox_participant(busy, 0, bytes));
    REFUSED(tapebox_cut(busy, 9, 7, 1, 1, &packet));
    REFUSED(tapebox_serve(busy, 2, 7, text, 2, bytes, 8, &len));
    REFUSED(tapebox_deliver(busy, 9, text, 2, &taken));
    REFUSED(tapebox_drain(busy, &number));
    REFUSED(tapebox_missing(busy, &request));
    REFUSED(tapebox_news_of(busy, &news));
    REFUSED(tapebox_report(busy, 9));
    REFUSED(tapebox_tape(busy, 1));
    REFUSED(tapebox_explain(busy, 1));
    want("text_length", tapebox_text_length(busy), TAPEBOX_NO_LENGTH);
    want("text_copy", tapebox_text_copy(busy, 0, bytes, 8), TAPEBOX_NO_LENGTH);
    REFUSED(tapebox_free(busy));
    want("open of null", tapebox_open(busy, NULL, 1, text, 2, 1, 8), TAPEBOX_NULL_POINTER);
}

int main(void) {
    tapebox_handle tape = TAPEBOX_HANDLE;
    want("open", tapebox_open(&tape, text, 2, (const uint8_t *)"N", 1, 1, 8), 0);
    void *inside = tape.inside;
    tape.state = 2;
    calls = 0;
    call_all(&tape);
    printf("%u calls\n", calls);
    want("state", tape.state, 2);
    want("inside", tape.inside == inside, 1);
    tape.state = 1;
    want("count", tapebox_count(&tape), 0);
    want("free", tapebox_free(&tape), 0);
    want("freed", tape.state, 0);
    return 0;
}
