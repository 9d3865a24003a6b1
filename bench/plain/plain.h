// A gate in plain C, written from document 01 for speed and proved by nobody: what the library's instructions are
// compared with. The calls, their areas and their answers are those of include/sorter_gate.h.
#ifndef PLAIN_H
#define PLAIN_H

#include <stddef.h>
#include <stdint.h>

uint32_t plain_load_check(const uint8_t *line, size_t line_len);

uint32_t plain_fresh(const uint8_t *line, size_t line_len, uint8_t *state, size_t state_len);

uint32_t plain_operate(const uint8_t *line, size_t line_len, uint8_t *state, size_t state_len, const uint8_t *record,
                       size_t record_len, uint8_t *answer, size_t answer_len);

uint64_t plain_first_bad(const uint8_t *line, size_t line_len, const uint8_t *state, size_t state_len);

uint64_t plain_state_bytes(const uint8_t *line, size_t line_len);

uint64_t plain_rewrite(const uint8_t *line, size_t line_len, uint8_t *out, size_t out_len);

#endif
