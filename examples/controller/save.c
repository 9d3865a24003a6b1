// Saves a line file as a route editor does: the gate loads the bytes that the editor holds and writes the line that it
// loaded. So what is saved is a file that the controller accepts, and the very line; otherwise nothing is saved.
//   save LINE FILE   reads a line file and saves it under another name; prints each answer, and ends with status 1 if
//                    nothing is saved
#include <stdio.h>
#include <stdlib.h>

#include "sorter_gate.h"

// One byte more than an accepted line file can have, so that a longer one shows.
enum { ROOM = SORTER_GATE_LONGEST_LINE + 1 };

// An answer in words: its kind says what its number is.
static void tell(uint64_t answer) {
    unsigned number = (unsigned)SORTER_GATE_NUMBER(answer);
    switch (SORTER_GATE_KIND(answer)) {
    case SORTER_GATE_DONE:
        printf("done: %u bytes are written\n", number);
        break;
    case SORTER_GATE_REFUSED:
        printf("refused by question %u\n", number);
        break;
    case SORTER_GATE_SHORT:
        printf("short: %u bytes are needed\n", number);
        break;
    default:
        printf("an answer of a later version\n");
    }
}

// The length that the line's file needs, by a call with an area of 0 bytes, whose pointer is not null all the same. A
// line that is accepted is always too long for that; 0 if it is refused.
static size_t needed(const uint8_t *line, size_t line_len) {
    uint8_t none[1];
    uint64_t answer = gate_rewrite(line, line_len, none, 0);
    tell(answer);
    return SORTER_GATE_KIND(answer) == SORTER_GATE_SHORT ? SORTER_GATE_NUMBER(answer) : 0;
}

// Whether the line was written into the area, which has then as many bytes as its file.
static int written(const uint8_t *line, size_t line_len, uint8_t *out, size_t out_len) {
    uint64_t answer = gate_rewrite(line, line_len, out, out_len);
    tell(answer);
    return SORTER_GATE_KIND(answer) == SORTER_GATE_DONE && SORTER_GATE_NUMBER(answer) == out_len;
}

// A file that has to outlast a power cut is stored as restore.c stores an area.
static int put_down(const char *name, const uint8_t *bytes, size_t count) {
    FILE *f = fopen(name, "wb");
    if (!f) {
        return 0;
    }
    int whole = fwrite(bytes, 1, count, f) == count;
    return fclose(f) == 0 && whole;
}

static int save(const char *name, const uint8_t *line, size_t line_len) {
    size_t length = needed(line, line_len);
    uint8_t *out = length > 0 ? (uint8_t *)malloc(length) : NULL;
    int saved = out && written(line, line_len, out, length) && put_down(name, out, length);
    free(out);
    return saved;
}

int main(int argc, char **argv) {
    static uint8_t line[ROOM];
    FILE *f = argc == 3 ? fopen(argv[1], "rb") : NULL;
    if (!f) {
        fprintf(stderr, "save LINE FILE: there must be a file LINE\n");
        return 2;
    }
    size_t line_len = fread(line, 1, sizeof line, f);
    fclose(f);
    int saved = save(argv[2], line, line_len);
    printf("%s: %s\n", argv[2], saved ? "saved" : "not saved");
    return !saved;
}
