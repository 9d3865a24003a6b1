// The stack that a call takes: each call is made in a thread of its own whose stack was painted before. From the frame
// of the caller down to the lowest byte that changed is what the call took. Two paints, so that a byte stored with the
// paint's own value is not missed.
//   stack LINE AREA RECORD   prints the bytes and the answer of a load check, of a fresh state, of the operation, of a
//                            rewriting of the line, of the length of its state area, and of the first bad record of an
//                            area whose last record is broken
#define _POSIX_C_SOURCE 200809L
#include <inttypes.h>
#include <pthread.h>
#include <stdio.h>
#include <stdlib.h>
#include <string.h>

#include "slurp.h"
#include "sorter_gate.h"

enum { STACK_BYTES = 1 << 20, RECORD_BYTES = 17 };

enum call { LOAD, FRESH, OPERATE, REWRITE, STATE_LENGTH, FIRST_BAD };

static uint8_t line[4096], area[4096], state[4096], record[4096], answer[SORTER_GATE_ANSWER_BYTES], out[4096];
static size_t line_len, area_len, record_len;
static _Alignas(4096) uint8_t stack[STACK_BYTES];
static enum call wanted;
static uint64_t number;
static const uint8_t *frame;

// What the thread does: the caller, whose frame is where the counting begins.
static void *work(void *unused) {
    (void)unused;
    frame = __builtin_frame_address(0);
    if (wanted == LOAD) {
        number = gate_load_check(line, line_len);
    } else if (wanted == FRESH) {
        number = gate_fresh(line, line_len, state, area_len);
    } else if (wanted == OPERATE) {
        number = gate_operate(line, line_len, state, area_len, record, record_len, answer, sizeof answer);
    } else if (wanted == REWRITE) {
        number = gate_rewrite(line, line_len, out, sizeof out);
    } else if (wanted == STATE_LENGTH) {
        number = gate_state_bytes(line, line_len);
    } else {
        number = gate_first_bad(line, line_len, state, area_len);
    }
    return NULL;
}

static void stop(const char *what) {
    fprintf(stderr, "stack: %s failed\n", what);
    exit(2);
}

// The bytes between the caller's frame and the lowest byte that is no longer as it was painted.
static size_t painted_depth(enum call call, int paint) {
    pthread_attr_t attributes;
    pthread_t thread;
    memcpy(state, area, area_len);
    if (call == FIRST_BAD) {
        // No partition has this number. The last record stands before the lock bytes.
        state[area_len - SORTER_GATE_LOCK_BYTES - RECORD_BYTES] = 255;
    }
    memset(stack, paint, sizeof stack);
    wanted = call;
    if (pthread_attr_init(&attributes) || pthread_attr_setstack(&attributes, stack, sizeof stack) ||
        pthread_create(&thread, &attributes, work, NULL) || pthread_join(thread, NULL)) {
        stop("the thread");
    }
    pthread_attr_destroy(&attributes);
    const uint8_t *lowest = stack;
    while (lowest < frame && *lowest == (uint8_t)paint) {
        lowest++;
    }
    return (size_t)(frame - lowest);
}

// The same call twice, which must give the same answer.
static void measure(enum call call) {
    size_t first = painted_depth(call, 0xA5);
    uint64_t first_number = number;
    size_t second = painted_depth(call, 0x5A);
    if (first_number != number) {
        stop("the second call of two");
    }
    printf("%zu %" PRIu64 "\n", first > second ? first : second, number);
}

int main(int argc, char **argv) {
    if (argc != 4) {
        fprintf(stderr, "stack LINE AREA RECORD\n");
        return 2;
    }
    line_len = slurp(argv[1], line, sizeof line);
    area_len = slurp(argv[2], area, sizeof area);
    record_len = slurp(argv[3], record, sizeof record);
    for (enum call call = LOAD; call <= FIRST_BAD; call++) {
        measure(call);
    }
    return 0;
}
