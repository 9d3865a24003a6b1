// A controller in small: makes a fresh state of document 01's line L, carries out its sequence P, and prints each
// record with its answer. Ends with status 1 if an answer is not the one that document 01 gives.
#include <stdio.h>
#include <string.h>

#include "sorter_gate.h"

static const uint8_t LINE_L[] = {1, 2, 2, 6, 5, 4, 2, 1, 1, 2, 1, 4, 2, 2, 1, 2, 2, 3, 0, 0, 3, 1, 1,
                                 1, 2, 1, 2, 1, 0, 1, 4, 1, 0, 1, 5, 2, 0, 1, 4, 2, 3, 1, 2, 2, 4};

struct step {
    uint8_t record[8];
    size_t length;
    uint32_t answer;
    const char *what;
};

static const struct step SEQUENCE_P[] = {
    {{SORTER_GATE_CODE_CREATE_PARTITION, 1}, 2, 0, "create partition 1"},
    {{SORTER_GATE_CODE_CREATE_PARTITION, 2}, 2, 0, "create partition 2"},
    {{SORTER_GATE_CODE_ACTIVATE_DRIVER, 1, 1}, 3, 0, "driver 1 into partition 1"},
    {{SORTER_GATE_CODE_ACTIVATE_CARD, 1, 1}, 3, 0, "card 1 into partition 1"},
    {{SORTER_GATE_CODE_ACTIVATE_CARD, 2, 2}, 3, 0, "card 2 into partition 2"},
    {{SORTER_GATE_CODE_ACTIVATE_OBJECTS, 1, 1, 5}, 4, 0, "object 5 into partition 1"},
    {{SORTER_GATE_CODE_DRIVER_WRITE, 1, 1, 2, 0, 3}, 6, 0, "driver 1 writes value 3 to object 2"},
    {{SORTER_GATE_CODE_DEACTIVATE_OBJECTS, 1, 1, 5}, 4, 20, "object 5 out: card 1 can still write it"},
    {{SORTER_GATE_CODE_DRIVER_WRITE, 1, 1, 2, 0, 4}, 6, 19, "driver 1 writes value 4: it names card 2's object"},
    {{SORTER_GATE_CODE_DRIVER_WRITE, 1, 1, 2, 0, 5}, 6, 19, "driver 1 writes value 5: a chain of two leads there"},
    {{SORTER_GATE_CODE_DRIVER_WRITE, 1, 1, 4, 0, 3}, 6, 17, "driver 1 writes object 4, which is elsewhere"},
    {{SORTER_GATE_CODE_DRIVER_WRITE, 1, 1, 1, 0, 0}, 6, 13, "driver 1 writes a hard-wired descriptor"},
    {{SORTER_GATE_CODE_DRIVER_WRITE, 2, 1, 2, 0, 0}, 6, 16, "driver 2 is not active"},
    {{SORTER_GATE_CODE_DESTROY_PARTITION, 2}, 2, 15, "destroy partition 2: card 2 is in it"},
    {{SORTER_GATE_CODE_DEACTIVATE_CARD, 2}, 2, 0, "card 2 out"},
    {{SORTER_GATE_CODE_DESTROY_PARTITION, 2}, 2, 0, "destroy partition 2"},
};

int main(void) {
    // The longest area that a line can need; the library is lent as many bytes of it as this line needs.
    static uint8_t state[SORTER_GATE_STATE_BYTES_WIDE], answer[SORTER_GATE_ANSWER_BYTES];
    uint64_t needed = gate_state_bytes(LINE_L, sizeof LINE_L);
    if (SORTER_GATE_KIND(needed) != SORTER_GATE_DONE || SORTER_GATE_NUMBER(needed) > sizeof state) {
        printf("the line is refused: %u\n", (unsigned)SORTER_GATE_NUMBER(needed));
        return 1;
    }
    size_t state_len = SORTER_GATE_NUMBER(needed);
    uint32_t fresh = gate_fresh(LINE_L, sizeof LINE_L, state, state_len);
    if (fresh != SORTER_GATE_ACCEPTED) {
        printf("there is no fresh state: %u\n", fresh);
        return 1;
    }
    int wrong = 0;
    for (size_t i = 0; i < sizeof SEQUENCE_P / sizeof *SEQUENCE_P; i++) {
        const struct step *s = &SEQUENCE_P[i];
        uint32_t n = gate_operate(LINE_L, sizeof LINE_L, state, state_len, s->record, s->length, answer, sizeof answer);
        printf("%2zu %2u  %s\n", i + 1, n, s->what);
        wrong += n != s->answer;
    }
    return wrong != 0;
}
