// Makes one call of the library or of the plain gate on the same areas again and again, so that callgrind can count
// one. A line is rewritten into as many bytes as AREA has.
//   beside CALL LINE AREA RECORD TIMES gate|plain   prints the answer; CALL is load, fresh, operate, rewrite, or walk
//                                                   for the first bad record
//   beside CALL LINE AREA RECORD 1 both             and ends with 1 if they leave different areas
#include <inttypes.h>
#include <stdbool.h>
#include <stdio.h>
#include <stdlib.h>
#include <string.h>

#include "plain/plain.h"
#include "slurp.h"
#include "sorter_gate.h"

enum { LONGEST = 65536, ROOM = 4096 };

static uint8_t line[LONGEST], area[ROOM], record[ROOM];
static size_t line_len, area_len, record_len;

struct areas {
    uint8_t state[ROOM], answer[SORTER_GATE_ANSWER_BYTES];
};

static uint64_t gate_call(char call, struct areas *to) {
    if (call == 'l') {
        return gate_load_check(line, line_len);
    }
    if (call == 'r') {
        return gate_rewrite(line, line_len, to->state, area_len);
    }
    if (call == 'w') {
        return gate_first_bad(line, line_len, area, area_len);
    }
    memcpy(to->state, area, area_len);
    return call == 'f'
               ? gate_fresh(line, line_len, to->state, area_len)
               : gate_operate(line, line_len, to->state, area_len, record, record_len, to->answer, sizeof to->answer);
}

static uint64_t plain_call(char call, struct areas *to) {
    if (call == 'l') {
        return plain_load_check(line, line_len);
    }
    if (call == 'r') {
        return plain_rewrite(line, line_len, to->state, area_len);
    }
    if (call == 'w') {
        return plain_first_bad(line, line_len, area, area_len);
    }
    memcpy(to->state, area, area_len);
    return call == 'f'
               ? plain_fresh(line, line_len, to->state, area_len)
               : plain_operate(line, line_len, to->state, area_len, record, record_len, to->answer, sizeof to->answer);
}

// Both, once: the answer if they agree.
static uint64_t same_call(char call) {
    static struct areas first, second;
    uint64_t number = gate_call(call, &first), other = plain_call(call, &second);
    if (number != other || memcmp(&first, &second, sizeof first)) {
        fprintf(stderr, "the library answers %" PRIu64 ", the plain gate %" PRIu64 "%s\n", number, other,
                number == other ? ", and they leave different areas" : "");
        exit(1);
    }
    return number;
}

int main(int argc, char **argv) {
    static struct areas areas;
    if (argc != 7 || !strchr("lforw", argv[1][0])) {
        fprintf(stderr, "beside load|fresh|operate|rewrite|walk LINE AREA RECORD TIMES gate|plain|both\n");
        return 2;
    }
    line_len = slurp(argv[2], line, sizeof line);
    area_len = slurp(argv[3], area, sizeof area);
    record_len = slurp(argv[4], record, sizeof record);
    char call = argv[1][0];
    bool plain = !strcmp(argv[6], "plain");
    uint64_t number = strcmp(argv[6], "both") ? 0 : same_call(call);
    for (long times = strcmp(argv[6], "both") ? atol(argv[5]) : 0; times > 0; times--) {
        number = plain ? plain_call(call, &areas) : gate_call(call, &areas);
    }
    printf("%" PRIu64 "\n", number);
    return 0;
}
