// What green zones ask (request N5): question 22, in place of 19, and what question 20 asks there besides.
#ifndef GREEN_H
#define GREEN_H

#include <stdint.h>

// What is wrong with a number that is answered to a record which meets questions 10 to 18 in this state, by what green
// zones ask; NULL if they have nothing against it. The state is the one before the call.
const char *green_fault(const uint8_t *line, const uint8_t *state, const uint8_t *record, uint32_t number);

#endif
