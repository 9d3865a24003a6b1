// A machine in small, in place of a real one, for host.c: what each object holds, the partition in which the bus lets
// it be used, and cards whose firmware does what their descriptors tell. Whatever the host does to it is printed behind
// the record that it is done for.
#ifndef MACHINE_H
#define MACHINE_H

#include <stdint.h>
#include <stdio.h>
#include <string.h>

enum { MOST_OBJECTS = 192, MOST_MEMBERS = 16, MOST_VALUES = 47, MOST_ENTRIES = 6, CONTENT_BYTES = 16, MOST_PUTS = 64 };
enum { TRANSFER_DESCRIPTOR = 1, HARD_WIRED = 4, READS = 1, WRITES = 2 };

struct entry {
    size_t object, mode, put;
};

// What the machine is made of, as its line file says. Numbers are from 1 on; place 0 stands for nothing.
static struct {
    size_t cards, objects, values;
    size_t kind[MOST_OBJECTS + 1], owner[MOST_OBJECTS + 1];
    size_t entries[MOST_VALUES + 1];
    struct entry entry[MOST_VALUES + 1][MOST_ENTRIES];
} made;

// What a card put into a transfer descriptor, until the gate is told. A real card says it in its completion queue.
struct card_put {
    size_t card, object, value;
};

static struct {
    uint8_t drivers[MOST_MEMBERS + 1], cards[MOST_MEMBERS + 1], partition[MOST_OBJECTS + 1];
    uint8_t contents[MOST_OBJECTS + 1][CONTENT_BYTES];
    struct card_put untold[MOST_PUTS];
    size_t puts;
    int held, done; // whether cards are held; how much was done for a record
} machine;

// The next number of a line file or record that was accepted: seven bits in each byte, the lowest first.
static size_t next_number(const uint8_t **at) {
    size_t number = 0;
    for (int shift = 0;; shift += 7) {
        uint8_t byte = *(*at)++;
        number += (size_t)(byte % 128) << shift;
        if (byte < 128) {
            return number;
        }
    }
}

// The machine of an accepted line file. Nothing is in a partition, and memory holds what it will.
static void power_on(const uint8_t *line) {
    size_t edition = next_number(&line);
    next_number(&line); // the drivers
    made.cards = next_number(&line);
    made.objects = next_number(&line);
    made.values = next_number(&line);
    for (size_t i = 1; i <= made.objects; i++) {
        made.kind[i] = next_number(&line);
        next_number(&line); // whether a driver, a card or nobody owns it
        made.owner[i] = next_number(&line);
    }
    memset(&machine, 0, sizeof machine);
    memset(machine.contents, 0xEE, sizeof machine.contents);
    size_t hard_wired[MOST_MEMBERS + 1] = {0};
    for (size_t card = 1; card <= made.cards; card++) {
        hard_wired[card] = next_number(&line);
        if (edition > 1) {
            next_number(&line); // its serial
        }
    }
    for (size_t i = 1; i <= made.objects; i++) {
        if (made.kind[i] == HARD_WIRED) {
            memset(machine.contents[i], 0, CONTENT_BYTES);
            machine.contents[i][0] = (uint8_t)hard_wired[made.owner[i]];
        }
    }
    for (size_t v = 1; v <= made.values; v++) {
        made.entries[v] = next_number(&line);
        for (size_t i = 0; i < made.entries[v]; i++) {
            made.entry[v][i].object = next_number(&line);
            made.entry[v][i].mode = next_number(&line);
            made.entry[v][i].put = next_number(&line);
        }
    }
}

// No card begins a transfer while they are held.
static void hold_cards(void) {
    machine.held = 1;
}

static void release_cards(void) {
    machine.held = 0;
}

// What the host does to the machine, each printed behind the record.
static void did(const char *what, size_t number) {
    printf("%s%s", machine.done++ ? ", " : ": ", what);
    if (number != 0) {
        printf(" %zu", number);
    }
}

static void put_contents(const char *how, size_t object, const uint8_t *contents) {
    memcpy(machine.contents[object], contents, CONTENT_BYTES);
    did(how, object);
}

static void move_object(size_t object, uint8_t partition) {
    machine.partition[object] = partition;
    did(partition ? "let in" : "take out", object);
}

static void move_driver(size_t driver, uint8_t partition) {
    machine.drivers[driver] = partition;
    did(partition ? "start driver" : "stop driver", driver);
}

static void move_card(size_t card, uint8_t partition) {
    machine.cards[card] = partition;
    did(partition ? "start card" : "stop card", card);
}

// The descriptors that a card reads with what they hold now: its hard-wired one, and each one in a partition that an
// entry of such a descriptor lets it read.
static void find_read(size_t card, int reads[]) {
    size_t found = 0, before;
    for (size_t i = 1; i <= made.objects; i++) {
        reads[i] = made.kind[i] == HARD_WIRED && made.owner[i] == card && machine.partition[i] != 0;
        found += (size_t)reads[i];
    }
    do {
        before = found;
        for (size_t d = 1; d <= made.objects; d++) {
            size_t value = reads[d] ? machine.contents[d][0] : 0;
            for (size_t i = 0; i < made.entries[value]; i++) {
                size_t o = made.entry[value][i].object, kind = made.kind[o];
                int one = (made.entry[value][i].mode & READS) && (kind == TRANSFER_DESCRIPTOR || kind == HARD_WIRED);
                if (one && machine.partition[o] != 0 && !reads[o]) {
                    reads[o] = 1;
                    found++;
                }
            }
        }
    } while (found != before);
}

// What the firmware of a card does: a write into an object, where an entry that it reads now tells it to, with the
// entry's put value into a transfer descriptor and some bytes into the rest. Returns whether it was done.
static int card_writes(size_t card, size_t object, size_t put) {
    int reads[MOST_OBJECTS + 1], told = 0;
    find_read(card, reads);
    for (size_t d = 1; d <= made.objects; d++) {
        size_t value = reads[d] ? machine.contents[d][0] : 0;
        for (size_t i = 0; i < made.entries[value]; i++) {
            const struct entry *e = &made.entry[value][i];
            told |= e->object == object && (e->mode & WRITES) && e->put == put;
        }
    }
    if (!told || machine.held || machine.puts == MOST_PUTS || made.kind[object] == HARD_WIRED) {
        return 0;
    }
    if (made.kind[object] != TRANSFER_DESCRIPTOR) {
        memset(machine.contents[object], 'x', CONTENT_BYTES);
        return 1;
    }
    const struct card_put done = {card, object, put};
    machine.contents[object][0] = (uint8_t)put;
    machine.untold[machine.puts++] = done;
    return 1;
}

#endif
