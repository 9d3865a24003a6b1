// A host that does all that it owes to the gate (docs/CONTROLLER.md, 'What the host owes'), on a machine in small: it
// tells what cards put into transfer descriptors before the next call; at answer 0 it takes away, stores the area, and
// then gives; and after a restart it puts the machine as the area says.
//   host [--first] [--silent] FILE   prints each record with its answer and, behind it, what is done on the machine.
//   The
//                                    area is kept in FILE; --first says that nothing was ever stored, and carries out
//                                    the records below. --silent leaves the telling out, to show what comes of it:
//                                    ends with status 1 if the card leaves its partition, or if a step fails.
#include "kept.h"

#include "machine.h"

// Driver 1, and card 1 with its hard-wired descriptor, object 1, and two transfer descriptors, 2 and 3; object 4 is
// external data. Value 1 reads object 2, value 2 puts value 3 into object 3, value 3 writes object 4, value 4 reads 3.
static const uint8_t LINE[] = {1, 1, 1, 4, 4, 4, 2, 1, 1, 2, 1, 1, 2, 1, 3, 0, 0,
                               1, 1, 2, 1, 0, 1, 3, 2, 3, 1, 4, 2, 0, 1, 3, 1, 0};

static const uint8_t *line = LINE;
static size_t line_len = sizeof LINE, state_len;
static uint8_t state[SORTER_GATE_STATE_BYTES_WIDE], before[SORTER_GATE_STATE_BYTES_WIDE];
static uint8_t answer[SORTER_GATE_ANSWER_BYTES];
static const uint8_t NOTHING[] = {0, 0};
static const char *file_name;
static int silent;

// Where things stand in a state area: standings of partitions, partitions of drivers and of cards, and for each object
// its partition with its contents behind it.
enum { DRIVERS_AT = 64, CARDS_AT = 80, OBJECTS_AT = 96, RECORD_BYTES = 1 + CONTENT_BYTES };

static size_t object_at(size_t object) {
    return OBJECTS_AT + (object - 1) * RECORD_BYTES;
}

static const uint8_t *contents_of(size_t object) {
    return state + object_at(object) + 1;
}

// What is at this place of the area, a partition: whether the call brought it in, or took it out.
static int came_in(size_t at) {
    return before[at] == 0 && state[at] != 0;
}

static int went_out(size_t at) {
    return before[at] != 0 && state[at] == 0;
}

// First what takes away. Drivers and cards that go out stop, and their objects and those listed are out of use, each
// with what it holds. What comes in is cleared before anybody may use it, but for hard-wired descriptors: the area has
// value 0 or sixteen zeros for it by now.
static void take_away(void) {
    for (size_t i = 1; i <= MOST_MEMBERS; i++) {
        if (went_out(DRIVERS_AT + i - 1)) {
            move_driver(i, 0);
        }
        if (went_out(CARDS_AT + i - 1)) {
            move_card(i, 0);
        }
    }
    for (size_t i = 1; i <= made.objects; i++) {
        if (went_out(object_at(i))) {
            move_object(i, 0);
        }
        if (came_in(object_at(i)) && made.kind[i] != HARD_WIRED) {
            put_contents("clear", i, contents_of(i));
        }
    }
}

// A driver's write: each object gets what the area has for it now.
static void write_items(const uint8_t *at, size_t count) {
    for (size_t i = 0; i < count; i++) {
        size_t object = next_number(&at);
        if (next_number(&at) == 0) {
            next_number(&at); // a value number
        } else {
            at += CONTENT_BYTES;
        }
        put_contents("write", object, contents_of(object));
    }
}

// A driver's read: of the machine, since what it has in function descriptors and data may be newer than the area's. All
// sources are read before anything is stored.
static void copy_pairs(const uint8_t *at, size_t count) {
    uint8_t held[8][CONTENT_BYTES];
    size_t destinations[8];
    for (size_t i = 0; i < count; i++) {
        memcpy(held[i], machine.contents[next_number(&at)], CONTENT_BYTES);
        destinations[i] = next_number(&at);
    }
    for (size_t i = 0; i < count; i++) {
        if (destinations[i] != 0) {
            put_contents("copy to", destinations[i], held[i]);
        }
    }
}

// Last what gives: what came in may be used, drivers' writes are done, and whoever locked a card may open the guard.
// What cards did is done already.
static void give(const uint8_t *record) {
    size_t code = next_number(&record), first = next_number(&record);
    for (size_t i = 1; i <= made.objects; i++) {
        if (came_in(object_at(i))) {
            move_object(i, state[object_at(i)]);
        }
    }
    for (size_t i = 1; i <= MOST_MEMBERS; i++) {
        if (came_in(DRIVERS_AT + i - 1)) {
            move_driver(i, state[DRIVERS_AT + i - 1]);
        }
        if (came_in(CARDS_AT + i - 1)) {
            move_card(i, state[CARDS_AT + i - 1]);
        }
    }
    if (code == SORTER_GATE_CODE_DRIVER_WRITE) {
        size_t count = next_number(&record);
        write_items(record, count);
    } else if (code == SORTER_GATE_CODE_DRIVER_READ) {
        size_t count = next_number(&record);
        copy_pairs(record, count);
    } else if (code == SORTER_GATE_CODE_LOCK_CARD) {
        did("open the guard of card", first);
    }
}

// One call, and what is done at answer 0: take away, store, give. `n` is the answer. Whether the host can go on: after
// a store that failed it cannot, and the cards stay held, since nobody knows which area is on the device.
static int called(const uint8_t *record, size_t length, uint32_t *n) {
    memcpy(before, state, state_len);
    *n = gate_operate(line, line_len, state, state_len, record, length, answer, sizeof answer);
    machine.done = 0;
    printf("%2u ", *n);
    for (size_t i = 0; i < length; i++) {
        printf(" %u", record[i]);
    }
    if (*n == SORTER_GATE_ACCEPTED) {
        take_away();
        if (!store(file_name, line, line_len, state, state_len)) {
            did("not stored", 0);
            printf("\n");
            return 0;
        }
        did("store", 0);
        give(record);
    }
    printf("\n");
    return 1;
}

// Puts a number of at most two bytes, as that of an object is, at a place of a record; the place behind it.
static size_t put_number(uint8_t *record, size_t at, size_t number) {
    if (number >= 128) {
        record[at++] = (uint8_t)(number % 128 + 128);
        number /= 128;
    }
    record[at++] = (uint8_t)number;
    return at;
}

// What cards have put into transfer descriptors since the last call, in the order in which they did. That an honest
// report is never refused is proved: a refusal says that the card did what no descriptor told it, or that something was
// not told. Then the area is not what the machine holds, and the cards stay held.
static int tell(void) {
    for (size_t i = 0; i < machine.puts && !silent; i++) {
        const struct card_put *p = &machine.untold[i];
        uint8_t record[8] = {SORTER_GATE_CODE_CARD_WRITE, (uint8_t)p->card, 1};
        size_t length = put_number(record, 3, p->object);
        record[length++] = 0;
        record[length++] = (uint8_t)p->value;
        uint32_t n = 0;
        if (!called(record, length, &n) || n != SORTER_GATE_ACCEPTED) {
            return 0;
        }
    }
    machine.puts = 0;
    return 1;
}

// An operation, between two moments at which cards run: they are held, what they did is told, and they go on when the
// machine is what the area says. A card that leaves has come to rest before it is judged.
static int operate(const uint8_t *record, size_t length, uint32_t *n) {
    hold_cards();
    if (!tell() || !called(record, length, n)) {
        return 0;
    }
    release_cards();
    return 1;
}

// After a restart the area is what the machine is put to, with the cards held. Here memory lost everything, so that
// function descriptors and data get the area's contents too; a machine that went on keeps these.
static void put_in_line(void) {
    hold_cards();
    memset(before, 0, sizeof before);
    machine.done = 0;
    printf("    the machine is put as the area says");
    for (size_t i = 1; i <= made.objects; i++) {
        if (came_in(object_at(i)) && made.kind[i] != HARD_WIRED) {
            put_contents("write", i, contents_of(i));
        }
    }
    give(NOTHING);
    printf("\n");
    release_cards();
}

// The area of the last run; at the first start, which somebody has to say, a fresh one.
static int begin(int first) {
    uint64_t needed = gate_state_bytes(line, line_len);
    state_len = SORTER_GATE_NUMBER(needed);
    if (SORTER_GATE_KIND(needed) != SORTER_GATE_DONE || state_len > sizeof state) {
        return 0;
    }
    power_on(line);
    enum stored found = restore(file_name, line, line_len, state, state_len);
    printf("    %s: %s\n", file_name, SAYS[found]);
    if (first != (found == ABSENT)) {
        printf("    refused: only a first start has nothing stored, and makes a fresh state, without a lock\n");
        return 0;
    }
    if (first) {
        return gate_fresh(line, line_len, state, state_len) == SORTER_GATE_ACCEPTED &&
               store(file_name, line, line_len, state, state_len);
    }
    // An empty record looks at the area: 10 says that it is in order.
    if (!may_be_used(found) ||
        gate_operate(line, line_len, state, state_len, NOTHING, 0, answer, sizeof answer) != SORTER_GATE_RECORD) {
        return 0;
    }
    put_in_line();
    return 1;
}

// What happens: a record that is put to the gate, or a card that writes an object.
struct event {
    uint8_t record[8];
    size_t length;
    size_t card, object, put;
};
static const struct event EVENTS[] = {
    {{SORTER_GATE_CODE_CREATE_PARTITION, 1}, 2, 0, 0, 0},
    {{SORTER_GATE_CODE_ACTIVATE_DRIVER, 1, 1}, 3, 0, 0, 0},
    {{SORTER_GATE_CODE_ACTIVATE_CARD, 1, 1}, 3, 0, 0, 0},
    {{SORTER_GATE_CODE_ACTIVATE_OBJECTS, 1, 1, 4}, 4, 0, 0, 0},
    {{SORTER_GATE_CODE_DRIVER_WRITE, 1, 1, 2, 0, 2}, 6, 0, 0, 0},
    {{0}, 0, 1, 3, 3}, // card 1 puts value 3 into object 3
    {{SORTER_GATE_CODE_DRIVER_WRITE, 1, 1, 2, 0, 0}, 6, 0, 0, 0},
    {{SORTER_GATE_CODE_DEACTIVATE_OBJECTS, 1, 1, 4}, 4, 0, 0, 0},
    {{SORTER_GATE_CODE_DRIVER_WRITE, 1, 1, 2, 0, 4}, 6, 0, 0, 0},
    {{0}, 0, 1, 4, 0}, // card 1 would write object 4
};

// What a card does, and whether it stays in its partition.
static int card_acts(const struct event *e) {
    if (!card_writes(e->card, e->object, e->put)) {
        printf("    card %zu cannot write object %zu: no descriptor tells it\n", e->card, e->object);
        return 1;
    }
    if (made.kind[e->object] == TRANSFER_DESCRIPTOR) {
        printf("    card %zu puts value %zu into object %zu\n", e->card, e->put, e->object);
    } else {
        printf("    card %zu writes object %zu, which is in %s\n", e->card, e->object,
               machine.partition[e->object] ? "a partition" : "no partition");
    }
    return machine.partition[e->object] == machine.cards[e->card];
}

int main(int argc, char **argv) {
    int first = 0;
    for (int i = 1; i < argc; i++) {
        if (strcmp(argv[i], "--first") == 0) {
            first = 1;
        } else if (strcmp(argv[i], "--silent") == 0) {
            silent = 1;
        } else {
            file_name = argv[i];
        }
    }
    if (!file_name) {
        fprintf(stderr, "host [--first] [--silent] FILE\n");
        return 2;
    }
    if (!begin(first)) {
        return 1;
    }
    for (size_t i = 0; first && i < sizeof EVENTS / sizeof *EVENTS; i++) {
        const struct event *e = &EVENTS[i];
        uint32_t n = 0;
        if (e->length > 0 ? !operate(e->record, e->length, &n) : !card_acts(e)) {
            return 1;
        }
    }
    return 0;
}
