/* Writes a text of the table on standard input: texts report|tape|explain [1|2] */
#include "../tapebox.h"

#include <stdio.h>
#include <stdlib.h>
#include <string.h>

typedef uint32_t text_call(tapebox_handle *handle, uint32_t matrix);

/* The call of a word, or none. */
static text_call *call_of(const char *word) {
    if (!strcmp(word, "report")) return tapebox_report;
    if (!strcmp(word, "tape")) return tapebox_tape;
    return strcmp(word, "explain") ? NULL : tapebox_explain;
}

/* All of a file, and how many bytes it has; NULL if memory runs out or a read fails. */
static uint8_t *read_all(FILE *file, size_t *len) {
    size_t room = 1 << 16;
    uint8_t *bytes = malloc(room);
    *len = 0;
    while (bytes && !feof(file)) {
        if (*len == room) {
            uint8_t *more = realloc(bytes, room *= 2);
            if (!more) free(bytes);
            if (!(bytes = more)) break;
        }
        *len += fread(bytes + *len, 1, room - *len, file);
        if (ferror(file)) {
            free(bytes);
            bytes = NULL;
        }
    }
    return bytes;
}

/* Writes the text of a handle to a file, piece by piece. */
static void write_text(tapebox_handle *handle, FILE *file) {
    uint8_t piece[4096];
    size_t from = 0, count;
    while ((count = tapebox_text_copy(handle, from, piece, sizeof piece))) {
        fwrite(piece, 1, count, file);
        from += count;
    }
}

int main(int count, char **words) {
    text_call *call = count > 1 ? call_of(words[1]) : NULL;
    if (!call) return 2;
    tapebox_handle table = TAPEBOX_HANDLE;
    size_t len;
    uint8_t *bytes = read_all(stdin, &len);
    if (!bytes) return 5;
    uint32_t refused = tapebox_read_table(&table, bytes, len);
    free(bytes);
    if (!refused) refused = call(&table, count > 2 && !strcmp(words[2], "2") ? 2 : 1);
    write_text(&table, refused ? stderr : stdout);
    if (refused) fputc('\n', stderr);
    tapebox_free(&table);
    return refused ? 2 : 0;
}
