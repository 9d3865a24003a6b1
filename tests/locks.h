// What locks ask of an answer (question 23, and the rule of question 9), told without the library.
#ifndef LOCKS_H
#define LOCKS_H

#include <stdint.h>

// What is wrong with the answer of an operation that found its state well formed, or NULL: the line is accepted, the
// state has the length that it needs and is as it was before the call, and the record meets questions 10 and 11.
const char *lock_fault(const uint8_t *line, const uint8_t *state, const uint8_t *record, uint32_t number);

#endif
