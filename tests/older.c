// Makes stored calls anew, and prints them with what they give, in the form in which they are stored
// (tests/stored/older.txt, which tests/older.py writes). Each row of the input is a call or sets something up; what
// stands behind its `=` is left out and told anew. Whoever gives back the very rows answers as was stored.
//   older < ROWS             each state area gets as many zeros at its end as there are lock bytes; they must stay 0
//   older --as-long < ROWS   the areas are as long as the rows say, as when they are stored
// Rows, bytes in hexadecimal digits, and `-` for none:
//   line BYTES                   the line file of the calls that follow
//   area LENGTH PLACE:BYTES ..   their state area: 0 but for these bytes
//   put PLACE:BYTES ..           bytes of the area, put there from outside
//   answer LENGTH                their answer area, each byte of it OLD
//   length = LENGTH              the length of the line's state area is told, without the zeros
//   fresh = NUMBER CHANGES       a fresh state is made
//   bad = NUMBER                 the first bad record is asked for
//   do RECORD = NUMBER CHANGES   an operation; the changes of the answer area stand behind a `|`
// A number is an answer, or for those that have a kind kind * 2^32 + number. Changes are PLACE:BYTES, rising.
#include <inttypes.h>
#include <stdio.h>
#include <stdlib.h>
#include <string.h>

#include "sorter_gate.h"

enum { ROOM = 8192, ROW = 4 * ROOM, OLD = 0xAA };

struct bytes {
    uint8_t now[ROOM], before[ROOM];
    size_t length;
};

static struct bytes line, state, record, answer;
static size_t zeros;
static unsigned long row_place;

static void end(const char *what) {
    fprintf(stderr, "older: row %lu: %s\n", row_place, what);
    exit(1);
}

static size_t number_of(const char *text, size_t most) {
    char *rest;
    unsigned long number = strtoul(text, &rest, 10);
    if (rest == text || (*rest && *rest != ':') || number > most) {
        end("a number that is none, or too large");
    }
    return number;
}

// Bytes in hexadecimal digits; how many they are.
static size_t read_hex(const char *text, uint8_t *to, size_t most) {
    size_t count = 0;
    if (strcmp(text, "-") == 0) {
        return 0;
    }
    for (; text[0]; text += 2, count++) {
        unsigned byte;
        if (count == most || !text[1] || sscanf(text, "%2x", &byte) != 1) {
            end("bytes that are none, or too many");
        }
        to[count] = (uint8_t)byte;
    }
    return count;
}

// The words PLACE:BYTES that are left of the row, into the state area but not into its zeros.
static void read_runs(void) {
    size_t length = state.length - zeros;
    for (char *word = strtok(NULL, " "); word; word = strtok(NULL, " ")) {
        char *colon = strchr(word, ':');
        if (!colon) {
            end("bytes without a place");
        }
        size_t place = number_of(word, length);
        read_hex(colon + 1, state.now + place, length - place);
    }
}

static const char *next_word(void) {
    char *word = strtok(NULL, " ");
    if (!word) {
        end("a word is missing");
    }
    return word;
}

static void print_changes(const struct bytes *area, size_t length, const char *ahead) {
    for (size_t i = 0; i < length; i++) {
        if (area->now[i] == area->before[i]) {
            continue;
        }
        printf("%s %zu:", ahead, i);
        for (ahead = ""; i < length && area->now[i] != area->before[i]; i++) {
            printf("%02x", area->now[i]);
        }
    }
}

// The answer of a call, and what it changed; what is not to be stored must be as it was.
static void print_result(uint64_t number) {
    size_t length = state.length - zeros;
    printf(" = %" PRIu64, number);
    print_changes(&state, length, "");
    print_changes(&answer, answer.length, " |");
    for (size_t i = length; i < ROOM; i++) {
        if (state.now[i]) {
            end("a byte behind the older area is not 0");
        }
    }
    if (memcmp(answer.now + answer.length, answer.before + answer.length, ROOM - answer.length) != 0) {
        end("a byte behind the answer area was changed");
    }
}

static int make_call(const char *what) {
    memcpy(state.before, state.now, ROOM);
    memcpy(answer.before, answer.now, ROOM);
    if (strcmp(what, "do") == 0) {
        record.length = read_hex(next_word(), record.now, ROOM);
        print_result(gate_operate(line.now, line.length, state.now, state.length, record.now, record.length, answer.now,
                                  answer.length));
    } else if (strcmp(what, "fresh") == 0) {
        print_result(gate_fresh(line.now, line.length, state.now, state.length));
    } else if (strcmp(what, "bad") == 0) {
        print_result(gate_first_bad(line.now, line.length, state.now, state.length));
    } else if (strcmp(what, "length") == 0) {
        uint64_t told = gate_state_bytes(line.now, line.length);
        print_result(SORTER_GATE_KIND(told) == SORTER_GATE_DONE ? told - zeros : told);
    } else {
        return 0;
    }
    return 1;
}

static void set_up(const char *what) {
    if (strcmp(what, "line") == 0) {
        line.length = read_hex(next_word(), line.now, ROOM);
    } else if (strcmp(what, "area") == 0) {
        memset(state.now, 0, ROOM);
        state.length = number_of(next_word(), ROOM - zeros) + zeros;
        read_runs();
    } else if (strcmp(what, "put") == 0) {
        read_runs();
    } else if (strcmp(what, "answer") == 0) {
        answer.length = number_of(next_word(), ROOM);
        memset(answer.now, OLD, ROOM);
    } else {
        end("not known");
    }
}

int main(int argc, char **argv) {
    static char row[ROW];
    int as_long = argc == 2 && strcmp(argv[1], "--as-long") == 0;
    if (argc > 1 && !as_long) {
        fprintf(stderr, "older [--as-long] < ROWS\n");
        return 2;
    }
    zeros = as_long ? 0 : SORTER_GATE_LOCK_BYTES;
    state.length = zeros;
    while (fgets(row, sizeof row, stdin)) {
        row_place++;
        row[strcspn(row, "\n")] = 0;
        char *told = strstr(row, " = ");
        if (told && row[0] != '#') {
            *told = 0;
        }
        printf("%s", row);
        if (row[0] && row[0] != '#') {
            const char *what = strtok(row, " ");
            if (!make_call(what)) {
                set_up(what);
            }
        }
        printf("\n");
    }
    return 0;
}
