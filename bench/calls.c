// Makes one call on the same areas again and again, so that callgrind can count one.
//   calls LINE AREA RECORD TIMES load|fresh|operate|short   prints the answer; short: the answer area lacks a byte
#include <stdio.h>
#include <stdlib.h>
#include <string.h>

#include "slurp.h"
#include "sorter_gate.h"

int main(int argc, char **argv) {
    static uint8_t line[4096], area[4096], state[4096], record[4096], answer[SORTER_GATE_ANSWER_BYTES];
    if (argc != 6) {
        fprintf(stderr, "calls LINE AREA RECORD TIMES load|fresh|operate|short\n");
        return 2;
    }
    size_t n = slurp(argv[1], line, sizeof line), m = slurp(argv[2], area, sizeof area);
    size_t k = slurp(argv[3], record, sizeof record);
    long times = atol(argv[4]);
    int load = !strcmp(argv[5], "load"), fresh = !strcmp(argv[5], "fresh");
    size_t room = sizeof answer - !strcmp(argv[5], "short");
    uint32_t number = 0;
    for (long i = 0; i < times; i++) {
        if (load) {
            number = gate_load_check(line, n);
        } else {
            memcpy(state, area, m);
            number = fresh ? gate_fresh(line, n, state, m) : gate_operate(line, n, state, m, record, k, answer, room);
        }
    }
    printf("%u\n", number);
    return 0;
}
