// The calls that judge, in the order of document 01's questions, and what an accepted operation does.
#include "parts.h"
#include "plain.h"

uint32_t plain_load_check(const uint8_t *line, size_t line_len) {
    struct line loaded;
    return load(&loaded, line, line_len);
}

uint64_t plain_state_bytes(const uint8_t *line, size_t line_len) {
    struct line loaded;
    uint32_t number = load(&loaded, line, line_len);
    return number ? REFUSED | number : area_bytes(&loaded);
}

uint64_t plain_first_bad(const uint8_t *line, size_t line_len, const uint8_t *state, size_t state_len) {
    struct line loaded;
    uint32_t number = load(&loaded, line, line_len);
    if (!number && state_len != area_bytes(&loaded)) {
        number = 7;
    }
    return number ? REFUSED | number : first_bad(&loaded, state);
}

uint32_t plain_fresh(const uint8_t *line, size_t line_len, uint8_t *state, size_t state_len) {
    struct line loaded;
    uint32_t number = load(&loaded, line, line_len);
    if (number) {
        return number;
    }
    if (state_len != area_bytes(&loaded)) {
        return 7;
    }
    memset(state, 0, state_len);
    for (uint32_t card = 1; card <= loaded.cards; card++) {
        state[record_at(loaded.descriptor[card]) + 1] = loaded.hardwired[card];
    }
    return 0;
}

static void carry_out_write(uint8_t *state, const struct operation *operation) {
    for (uint32_t i = 0; i < operation->count; i++) {
        uint8_t *contents = state + record_at(operation->object[i]) + 1;
        if (operation->raw[i]) {
            memcpy(contents, operation->raw[i], CONTENT);
        } else {
            *contents = (uint8_t)operation->value[i];
        }
    }
}

// All sources are read before anything is stored, and the answer area has then what is to be stored.
static void carry_out_read(uint8_t *state, const struct operation *operation, uint8_t *answer) {
    for (uint32_t i = 0; i < operation->count; i++) {
        memcpy(answer + CONTENT * i, state + record_at(operation->object[i]) + 1, CONTENT);
    }
    for (uint32_t i = 0; i < operation->count; i++) {
        if (operation->into[i]) {
            memcpy(state + record_at(operation->into[i]) + 1, answer + CONTENT * i, CONTENT);
        }
    }
}

// An object comes into a partition and is cleared, unless it is of kind 4; or it goes out and keeps its contents.
static inline void move(const struct line *line, uint8_t *state, uint32_t object, uint32_t partition) {
    uint8_t *record = state + record_at(object);
    *record = (uint8_t)partition;
    if (partition && line->kind[object] != HARDWIRED) {
        memset(record + 1, 0, CONTENT);
    }
}

static void move_owner(const struct line *line, uint8_t *state, uint32_t class, uint32_t owner, uint32_t partition) {
    state[owner_at(class, owner)] = (uint8_t)partition;
    for (uint32_t object = 1; object <= line->objects; object++) {
        if (line->class[object] == class && line->owner[object] == owner) {
            move(line, state, object, partition);
        }
    }
}

static void move_list(const struct line *line, uint8_t *state, const struct operation *operation, uint32_t partition) {
    for (uint32_t i = 0; i < operation->count; i++) {
        move(line, state, operation->object[i], partition);
    }
}

void carry_out(const struct line *line, uint8_t *state, const struct operation *operation, uint8_t *answer) {
    switch (operation->code) {
    case DRIVER_WRITE:
    case CARD_WRITE:
        carry_out_write(state, operation);
        break;
    case DRIVER_READ:
    case CARD_READ:
        carry_out_read(state, operation, answer);
        break;
    case CREATE:
        state[operation->partition] = EXISTING;
        break;
    case CREATE_GREEN:
        state[operation->partition] = GREEN;
        break;
    case DESTROY:
        state[operation->partition] = DESTROYED;
        break;
    case DRIVER_IN:
        move_owner(line, state, BY_DRIVER, operation->owner, operation->partition);
        break;
    case CARD_IN:
        move_owner(line, state, BY_CARD, operation->owner, operation->partition);
        break;
    case OBJECTS_IN:
        move_list(line, state, operation, operation->partition);
        break;
    case DRIVER_OUT:
        move_owner(line, state, BY_DRIVER, operation->owner, 0);
        break;
    case CARD_OUT:
        move_owner(line, state, BY_CARD, operation->owner, 0);
        break;
    case LOCK:
        state[lock_at(line, operation->owner)] = LOCKED;
        break;
    case UNLOCK:
        state[lock_at(line, operation->owner)] = UNLOCKED;
        break;
    default:
        move_list(line, state, operation, 0);
    }
}

// Question 19 of a driver's write or read, or 22 in its place: in a green zone nothing is searched.
static uint32_t ask_stores(const struct line *line, uint8_t *state, const struct operation *operation) {
    if (state[state[owner_at(BY_DRIVER, operation->owner)]] == GREEN) {
        return stores_green(line, state, operation) ? 0 : 22;
    }
    return stays_inside(line, state, operation) ? 0 : 19;
}

// Questions 22 and 21 of a card that comes in.
static uint32_t ask_entering(const struct line *line, uint8_t *state, const struct operation *operation) {
    if (state[operation->partition] == GREEN && !card_green(line, operation)) {
        return 22;
    }
    return enters_inside(line, state, operation) ? 0 : 21;
}

// Questions 18 to 22: the first that is answered with no, or 0.
static uint32_t ask_reach(const struct line *line, uint8_t *state, const struct operation *operation) {
    switch (operation->code) {
    case CARD_WRITE:
    case CARD_READ:
        return described(line, state, operation) ? 0 : 18;
    case DRIVER_WRITE:
    case DRIVER_READ:
        return ask_stores(line, state, operation);
    case DRIVER_OUT:
    case CARD_OUT:
    case OBJECTS_OUT:
        return may_leave(line, state, operation) ? 0 : 20;
    case CARD_IN:
        return ask_entering(line, state, operation);
    default:
        return 0;
    }
}

uint32_t plain_operate(const uint8_t *line, size_t line_len, uint8_t *state, size_t state_len, const uint8_t *record,
                       size_t record_len, uint8_t *answer, size_t answer_len) {
    struct line loaded;
    struct operation operation;
    uint32_t number = load(&loaded, line, line_len);
    if (number) {
        return number;
    }
    if (state_len != area_bytes(&loaded)) {
        return 7;
    }
    if (answer_len < ANSWER_BYTES) {
        return 8;
    }
    if (!well_formed(&loaded, state)) {
        return 9;
    }
    if (!take_apart(&operation, record, record_len)) {
        return 10;
    }
    number = ask_record(&loaded, state, &operation);
    if (!number) {
        number = ask_reach(&loaded, state, &operation);
    }
    if (!number) {
        carry_out(&loaded, state, &operation, answer);
    }
    return number;
}
