// Questions 18 to 21: what cards read now, and what they can come to read and name.
//
// For questions 19 to 21 cards are put into groups whose cards the question does not tell apart: by partition for 19
// and 21, the leaving card and the others for 20. What a value lets a card do depends on the value alone, so that a
// group visits a value once. In 19 and 21 there is then one visit for each value, since a second group would find its
// entries outside.
#include "parts.h"

enum { MOST_GROUPS = MOST_CARDS };
// The groups of question 20.
enum { OTHERS = 0, LEAVING = 1 };

// A bit for a group, a bit for a value number. Value 0 has no entries, so that coming to it changes nothing.
struct search {
    const struct line *line;
    const uint8_t *state;
    uint32_t busy;                       // groups that have values to visit
    uint64_t waiting[MOST_GROUPS];       // the values to be visited by a group
    uint64_t done[MOST_GROUPS];          // those that it has visited
    uint64_t put[MOST_OBJECTS + 1];      // value numbers that can be put into an object
    uint16_t readers[MOST_OBJECTS + 1];  // groups that read an object
    uint8_t concerned[MOST_OBJECTS + 1]; // for 20: whether the object is to leave
    uint8_t group_in[PARTITIONS];        // for 19, 21: the group of a partition, from 1
};

// The value number that a descriptor holds now, as a bit; none if it is inactive.
static inline uint64_t held(const uint8_t *state, uint32_t object) {
    const uint8_t *record = state + record_at(object);
    return record[0] ? (uint64_t)1 << record[1] : 0;
}

// The other groups that read an object come to a value that is put there.
static void tell_readers(struct search *search, uint32_t groups, uint64_t value) {
    for (search->busy |= groups; groups; groups &= groups - 1) {
        search->waiting[__builtin_ctz(groups)] |= value;
    }
}

// Whether a group must not name an object; the question is 19 or 21 if `outside`, and otherwise 20.
static inline bool stops(const struct search *search, uint32_t group, uint32_t object, uint32_t kind, bool outside) {
    if (!outside) {
        return group == OTHERS && search->concerned[object];
    }
    return kind == HARDWIRED || search->group_in[search->state[record_at(object)]] != group + 1;
}

// Visits all values that a group comes to; whether it comes to no entry that it must not have. Compiled for each of the
// two questions by itself.
__attribute__((always_inline)) static inline bool group_passes(struct search *search, uint32_t group, bool outside) {
    const struct line *line = search->line;
    const uint8_t *state = search->state;
    const uint32_t self = 1u << group;
    uint64_t done = search->done[group], waiting = search->waiting[group] & ~done;
    while (waiting) {
        uint32_t value = (uint32_t)__builtin_ctzll(waiting);
        const struct entry *entry = line->entries[value], *end = entry + line->count[value];
        done |= waiting & -waiting;
        for (; entry < end; entry++) {
            uint32_t object = entry->object, mode = entry->mode, kind = line->kind[object];
            if (stops(search, group, object, kind, outside)) {
                return false;
            }
            if ((mode & WRITE) && kind == TRANSFER) {
                uint64_t put = (uint64_t)1 << entry->put;
                search->put[object] |= put;
                waiting |= search->readers[object] & self ? put : 0;
                if (search->readers[object] & ~self) {
                    tell_readers(search, search->readers[object] & ~self, put);
                }
            }
            if ((mode & READ) && is_descriptor(kind) && !(search->readers[object] & self)) {
                search->readers[object] |= (uint16_t)self;
                waiting |= search->put[object] | held(state, object);
            }
        }
        waiting &= ~done;
    }
    search->done[group] = done;
    search->waiting[group] = 0;
    return true;
}

__attribute__((always_inline)) static inline bool passes(struct search *search, bool outside) {
    while (search->busy) {
        uint32_t group = (uint32_t)__builtin_ctz(search->busy);
        search->busy &= search->busy - 1;
        if (!group_passes(search, group, outside)) {
            return false;
        }
    }
    return true;
}

static void begin(struct search *search, const struct line *line, const uint8_t *state) {
    search->line = line;
    search->state = state;
    search->busy = 0;
    memset(search->waiting, 0, sizeof search->waiting);
    memset(search->done, 0, sizeof search->done);
    // Only what the line has: no other object can be named.
    memset(search->put, 0, (line->objects + 1) * sizeof *search->put);
    memset(search->readers, 0, (line->objects + 1) * sizeof *search->readers);
}

// A card comes to its hard-wired value.
static inline void enter(struct search *search, uint32_t card, uint32_t group) {
    search->busy |= 1u << group;
    search->waiting[group] |= (uint64_t)1 << search->line->hardwired[card];
}

static bool nothing_outside(const struct line *line, const uint8_t *state) {
    struct search search;
    uint8_t groups = 0;
    begin(&search, line, state);
    memset(search.group_in, 0, sizeof search.group_in);
    for (uint32_t card = 1; card <= line->cards; card++) {
        uint32_t partition = state[owner_at(BY_CARD, card)];
        if (partition) {
            if (!search.group_in[partition]) {
                search.group_in[partition] = ++groups;
            }
            enter(&search, card, search.group_in[partition] - 1u);
        }
    }
    return passes(&search, true);
}

// What a read puts into its destination, or a write into its target, is all that the search sees of the state that
// would follow. So only these bytes are changed, and put back.
bool stays_inside(const struct line *line, uint8_t *state, const struct operation *operation) {
    const uint32_t *into = operation->code == DRIVER_WRITE ? operation->object : operation->into;
    uint8_t before[MOST_ITEMS], after[MOST_ITEMS];
    bool write = operation->code == DRIVER_WRITE;
    uint32_t places = 0, at[MOST_ITEMS];
    for (uint32_t i = 0; i < operation->count; i++) {
        if (into[i] && line->kind[into[i]] == TRANSFER) {
            at[places] = (uint32_t)record_at(into[i]) + 1;
            before[places] = state[at[places]];
            after[places++] = write ? (uint8_t)operation->value[i] : state[record_at(operation->object[i]) + 1];
        }
    }
    for (uint32_t i = 0; i < places; i++) {
        state[at[i]] = after[i];
    }
    bool inside = nothing_outside(line, state);
    for (uint32_t i = 0; i < places; i++) {
        state[at[i]] = before[i];
    }
    return inside;
}

// The card and its objects come in, and its transfer descriptors are cleared; the search looks at no other contents.
// Then all goes back: what an inactive card owns is in no partition.
bool enters_inside(const struct line *line, uint8_t *state, const struct operation *operation) {
    uint8_t *card = state + owner_at(BY_CARD, operation->owner), before[MOST_OBJECTS + 1];
    *card = (uint8_t)operation->partition;
    for (uint32_t object = 1; object <= line->objects; object++) {
        if (line->class[object] == BY_CARD && line->owner[object] == operation->owner) {
            uint8_t *record = state + record_at(object);
            before[object] = record[1];
            record[0] = *card;
            record[1] = line->kind[object] == TRANSFER ? 0 : record[1];
        }
    }
    bool inside = nothing_outside(line, state);
    for (uint32_t object = 1; object <= line->objects; object++) {
        if (line->class[object] == BY_CARD && line->owner[object] == operation->owner) {
            uint8_t *record = state + record_at(object);
            record[0] = 0;
            record[1] = before[object];
        }
    }
    *card = 0;
    return inside;
}

// The objects that the record takes out.
static void note_concerned(struct search *search, const struct operation *operation) {
    const struct line *line = search->line;
    memset(search->concerned, 0, line->objects + 1);
    if (operation->code == OBJECTS_OUT) {
        for (uint32_t i = 0; i < operation->count; i++) {
            search->concerned[operation->object[i]] = true;
        }
        return;
    }
    uint32_t class = operation->code == DRIVER_OUT ? BY_DRIVER : BY_CARD;
    for (uint32_t object = 1; object <= line->objects; object++) {
        if (line->class[object] == class && line->owner[object] == operation->owner) {
            search->concerned[object] = true;
        }
    }
}

bool may_leave(const struct line *line, const uint8_t *state, const struct operation *operation) {
    struct search search;
    uint32_t leaving = operation->code == CARD_OUT ? operation->owner : 0;
    begin(&search, line, state);
    note_concerned(&search, operation);
    for (uint32_t card = 1; card <= line->cards; card++) {
        if (state[owner_at(BY_CARD, card)]) {
            enter(&search, card, card == leaving ? LEAVING : OTHERS);
        }
    }
    return none_named(line, state, operation, search.concerned) && passes(&search, false);
}

// What a card's entries describe now: objects to read, and for each object the put values of entries that write it.
struct today {
    uint64_t reads[OBJECT_WORDS], writes[MOST_OBJECTS + 1];
};

static void describe(const struct line *line, const uint8_t *state, uint32_t card, struct today *today) {
    uint64_t seen = 0, waiting = (uint64_t)1 << line->hardwired[card];
    memset(today->reads, 0, sizeof today->reads);
    memset(today->writes, 0, (line->objects + 1) * sizeof *today->writes);
    while (waiting) {
        uint32_t value = (uint32_t)__builtin_ctzll(waiting);
        const struct entry *entry = line->entries[value], *end = entry + line->count[value];
        seen |= waiting & -waiting;
        for (; entry < end; entry++) {
            uint32_t object = entry->object;
            if (entry->mode & READ) {
                today->reads[object / 64] |= (uint64_t)1 << object % 64;
                waiting |= is_descriptor(line->kind[object]) ? held(state, object) : 0;
            }
            if (entry->mode & WRITE) {
                today->writes[object] |= (uint64_t)1 << entry->put;
            }
        }
        waiting &= ~seen;
    }
}

bool described(const struct line *line, const uint8_t *state, const struct operation *operation) {
    struct today today;
    describe(line, state, operation->owner, &today);
    for (uint32_t i = 0; i < operation->count; i++) {
        uint32_t object = operation->object[i], into = object, value = operation->value[i];
        if (operation->code == CARD_READ) {
            if (!(today.reads[object / 64] >> object % 64 & 1)) {
                return false;
            }
            into = operation->into[i];
            if (!into) {
                continue;
            }
            value = line->kind[into] == TRANSFER ? state[record_at(object) + 1] : 0;
        }
        if (!(today.writes[into] >> value & 1)) {
            return false;
        }
    }
    return true;
}
