// The example of a host that does what it owes, examples/controller/host.c: its rows for a record of every code, which
// tell the order of what it does, and many runs of calls and cards' transfers in any order on lines that are made up.
// After each of them the machine is what the area says, in every descriptor; every report is accepted; and no card
// leaves its partition.
//   owing FOLDER rows     prints the rows
//   owing FOLDER runs N   makes N runs, and prints how much was met
#define main example_main
#ifndef EXAMPLE
#define EXAMPLE "../examples/controller/host.c"
#endif
// Where the host stores, a run only counts: a file for each would take too long.
#include "../examples/controller/kept.h"
static int really = 1;
static size_t stores;
static int counted(const char *name, const uint8_t *line, size_t line_len, const uint8_t *state, size_t state_len) {
    stores++;
    return really ? store(name, line, line_len, state, state_len) : 1;
}
#define store counted
#include EXAMPLE
#undef main
#include <stdlib.h>

#include "owing.h"

static void fault(const char *what, size_t number) {
    fflush(stdout);
    fprintf(stderr, "owing: %s %zu\n", what, number);
    exit(1);
}

// The machine is what the area says. Contents of function descriptors and data may be newer there, but what was just
// cleared or written is not looked at by itself: the rows tell it.
static void compare(void) {
    for (size_t i = 1; i <= made.objects; i++) {
        uint8_t partition = state[object_at(i)];
        if (machine.partition[i] != partition) {
            fault("the machine has in another partition object", i);
        }
        int descriptor = made.kind[i] == TRANSFER_DESCRIPTOR || made.kind[i] == HARD_WIRED;
        if (partition != 0 && descriptor && memcmp(machine.contents[i], contents_of(i), CONTENT_BYTES) != 0) {
            fault("the machine holds something else in object", i);
        }
    }
    for (size_t i = 1; i <= MOST_MEMBERS; i++) {
        if (machine.drivers[i] != state[DRIVERS_AT + i - 1] || machine.cards[i] != state[CARDS_AT + i - 1]) {
            fault("another partition for driver or card", i);
        }
    }
}

static void call_or_fail(const uint8_t *record, size_t length) {
    uint32_t n = 0;
    if (!operate(record, length, &n)) {
        fault("a report was refused, or an area not stored, before a record of code", record[0]);
    }
    compare();
}

// Every code, on the line of owing.h, and one transfer of a card.
static void rows_of_all(void) {
    line = ALL_LINE;
    line_len = sizeof ALL_LINE;
    if (!begin(1)) {
        fault("no fresh state of the line of", sizeof ALL_LINE);
    }
    for (size_t i = 0; i < sizeof ALL_RECORDS / sizeof *ALL_RECORDS; i++) {
        if (ALL_RECORDS[i].length == 0 && !card_writes(1, 6, 3)) {
            fault("the card could not put value", 3);
        }
        if (ALL_RECORDS[i].length != 0) {
            call_or_fail(ALL_RECORDS[i].bytes, ALL_RECORDS[i].length);
        }
    }
    // What was restored is what was left, and the machine is put to it.
    memset(state, 0, sizeof state);
    if (!begin(0)) {
        fault("the stored area is not taken, of length", state_len);
    }
    compare();
}

// What was met in all runs.
static size_t reports, refusals, accepted, transfers;

// Most that is tried no descriptor tells; so some are tried.
static void some_transfer(void) {
    size_t card = 0, object = 0;
    int done = 0;
    for (int i = 0; i < TRIES && !done; i++) {
        card = some(made.cards) + 1, object = some(made.objects) + 1;
        size_t put = some(made.values + 1);
        done = card_writes(card, object, made.kind[object] == TRANSFER_DESCRIPTOR ? put : 0);
    }
    if (!done) {
        return;
    }
    transfers++;
    if (machine.partition[object] == 0 || machine.partition[object] != machine.cards[card]) {
        fault("a card left its partition, to object", object);
    }
}

static void some_call(void) {
    uint8_t record[MOST_RECORD];
    size_t length = some_record(record), told = machine.puts;
    uint32_t n = 0;
    if (!operate(record, length, &n)) {
        fault("a report was refused before a record of code", record[0]);
    }
    reports += told;
    accepted += n == SORTER_GATE_ACCEPTED;
    refusals += n == SORTER_GATE_OUTSIDE || n == SORTER_GATE_IN_REACH || n == SORTER_GATE_ENTERS_OUTSIDE;
    compare();
}

// A line that is made up, and calls and transfers in any order. Some lines the gate refuses.
static void one_run(void) {
    static uint8_t made_up[SORTER_GATE_LONGEST_LINE];
    line = made_up;
    line_len = some_line(made_up);
    if (gate_load_check(line, line_len) != SORTER_GATE_ACCEPTED) {
        return;
    }
    remove(file_name);
    if (!begin(1)) {
        fault("no fresh state of a line of", line_len);
    }
    for (size_t i = 0; i < sizeof BEGINNING / sizeof *BEGINNING; i++) {
        call_or_fail(BEGINNING[i], BEGINNING[i][0] == SORTER_GATE_CODE_CREATE_PARTITION ? 2 : 3);
    }
    for (int i = 0; i < EVENTS_OF_A_RUN; i++) {
        if (some(3) == 0) {
            some_call();
        } else {
            some_transfer();
        }
    }
}

int main(int argc, char **argv) {
    static char name[256];
    if (argc < 3) {
        return 2;
    }
    snprintf(name, sizeof name, "%s/owing.bin", argv[1]);
    file_name = name;
    remove(name);
    if (strcmp(argv[2], "rows") == 0) {
        rows_of_all();
        return 0;
    }
    if (!freopen("/dev/null", "w", stdout)) {
        return 2;
    }
    really = 0;
    for (int i = 0; i < atoi(argv[3]); i++) {
        one_run();
    }
    fprintf(stderr, "owing: %zu calls accepted, %zu refused for reach, %zu transfers, %zu reports\n", accepted,
            refusals, transfers, reports);
    return accepted == 0 || refusals == 0 || transfers == 0 || reports == 0;
}
