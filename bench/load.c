// Judges a configuration file again and again, so that callgrind can count the instructions of one call.
//   load FILE TIMES gate|plain   prints the answer
#include <stdint.h>
#include <stdio.h>
#include <stdlib.h>
#include <string.h>

#include "slurp.h"

uint32_t gate_load_check(const uint8_t *line, size_t line_len);
uint32_t plain_load_check(const uint8_t *line, size_t line_len);

int main(int argc, char **argv) {
    static uint8_t file[65536];
    if (argc != 4) {
        fprintf(stderr, "load FILE TIMES gate|plain\n");
        return 2;
    }
    size_t n = slurp(argv[1], file, sizeof file);
    uint32_t (*check)(const uint8_t *, size_t) = strcmp(argv[3], "gate") ? plain_load_check : gate_load_check;
    long times = atol(argv[2]);
    uint32_t answer = 0;
    for (long i = 0; i < times; i++) {
        answer = check(file, n);
    }
    printf("%u\n", answer);
    return 0;
}
