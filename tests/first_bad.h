// The function that names the first broken record, on lines and state areas of every length, damaged ones too: its
// answer follows from what an operation answers on the same areas, and from document 01's rules of a record.
#ifndef FIRST_BAD_H
#define FIRST_BAD_H

#include <stdint.h>

#include "refusals.h"

// How often what must come came: a record named that is an object's and one that is not, on small lines and on wide
// ones; none named of a well formed state, of one that is not, and of one whose lock bytes break a rule, on lines of
// both kinds; each refusal; an empty line or area.
struct first_bads {
    unsigned long present[2], absent[2], sound, head, locks[2], refused[AREA_QUESTIONS + 1], empty_line, empty_state;
};

// Damages the state area, now and then and in up to three places, which may leave it well formed.
void spoil_state(const uint8_t *sound);

// Asks for the state area, to which an operation on the line that stands in its area answers `operated`; ends the
// program if the answer is another than it must be.
void checked_first_bad(uint32_t operated, struct first_bads *tally);

// Ends the program if something never came.
void demand_first_bads(const struct first_bads *tally);

void print_first_bads(const struct first_bads *tally);

#endif
