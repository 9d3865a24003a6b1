// The calls on the areas as they stand, one by one: each is held to its answer, and to the bytes that it must leave.
#ifndef CALLS_H
#define CALLS_H

#include <stddef.h>
#include <stdint.h>

#include "areas.h"
#include "sorter_gate.h"

// What areas are filled with before a call.
enum { OLD = 0xEE };

void fill(enum area_name name, size_t length, uint8_t byte);

// Puts an object of a line file down; where the next one stands.
uint8_t *put_object(uint8_t *at, uint8_t kind, uint8_t class, unsigned owner);

// A line of cards, each of which has its hardcoded descriptor and nothing else, and of external data behind these,
// stands in its area.
void lend_cards(unsigned cards, unsigned objects);

// The fresh state of the line that stands in its area.
void lend_fresh(void);

// Keeps the areas as they are: so the next calls must leave them, but for what is changed where it is expected. The
// state area stands a second time, for the call that only reads it.
void keep(void);
uint8_t *expected_start(enum area_name name);

// The calls.
uint32_t load_check(void);
uint64_t state_bytes(void);
uint32_t make_fresh(void);
uint32_t operate(void);
uint64_t first_bad(void);
uint64_t rewrite(void);

// The answer of a call that has a kind, where a question refuses.
uint64_t refused_by(enum sorter_gate_answer question);

// The answer is the one wanted, and every page is as it is expected; the rest is for the message.
void hold(uint64_t answer, uint64_t wanted, const char *what, size_t which);

#endif
