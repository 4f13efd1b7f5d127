/* What the examples share: a batch's lines read, and a report printed. */
#ifndef DAY_H
#define DAY_H

#include "../tapebox.h"

#include <inttypes.h>
#include <stdio.h>
#include <string.h>

/* A batch's header: the symbols, and the participants' letters, with single spaces between them. */
typedef struct names {
    char symbols[65536], participants[256];
} names;

/* The next line of standard input without its end, or 0 if there is none. */
static int next_line(char *line, int size) {
    if (!fgets(line, size, stdin)) return 0;
    line[strcspn(line, "\n")] = 0;
    return 1;
}

/* Reads the header of the batch on standard input. */
static int read_names(names *names) {
    return next_line(names->symbols, sizeof names->symbols) && next_line(names->participants, sizeof names->participants);
}

/* The bytes that the digits of a message line ("N 0026..") write, and how many they are. */
static size_t message_bytes(const char *line, uint8_t *bytes, size_t room) {
    size_t len = 0;
    if (strlen(line) < 2) return 0;
    for (unsigned byte; len < room && sscanf(line + 2 + 2 * len, "%2x", &byte) == 1; len++) bytes[len] = (uint8_t)byte;
    return len;
}

/* Admits the messages of the batch on standard input, and says on standard error which are refused. */
static void admit_all(tapebox_handle *tape) {
    char line[256];
    while (next_line(line, sizeof line)) {
        uint8_t bytes[64];
        tapebox_answer answer;
        uint32_t refused = tapebox_admit(tape, bytes, message_bytes(line, bytes, sizeof bytes), &answer);
        if (refused) fprintf(stderr, "refused %" PRIu32 "\n", refused);
    }
}

static void print_mark(tapebox_mark mark) {
    if (mark.place)
        printf(",%" PRIu64 ",%" PRIu32, mark.price, mark.place);
    else
        printf(",,");
}

static void print_row(const char *symbol, const char *who, const tapebox_figures *figures) {
    printf("%s,%s", symbol, who);
    print_mark(figures->opening);
    print_mark(figures->high);
    print_mark(figures->low);
    print_mark(figures->last);
    printf(",%" PRIu64 ",%" PRIu64 "\n", figures->volume, figures->trades);
}

/* Prints the report of a tape, or of a subscriber's own. */
static void print_report(tapebox_handle *held, names *names) {
    puts("symbol,who,open,open_at,high,high_at,low,low_at,last,last_at,volume,trades");
    for (char *symbol = strtok(names->symbols, " "); symbol; symbol = strtok(NULL, " ")) {
        const uint8_t *name = (const uint8_t *)symbol;
        tapebox_figures figures;
        if (!tapebox_summary(held, name, strlen(symbol), &figures)) print_row(symbol, "ALL", &figures);
        for (const char *who = names->participants; *who; who++) {
            if (*who == ' ' || tapebox_summary_of(held, name, strlen(symbol), (uint8_t)*who, &figures) || !figures.trades) continue;
            print_row(symbol, (char[]){*who, 0}, &figures);
        }
    }
}

#endif
