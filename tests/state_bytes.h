// The function that tells the length of a line's state area, on lines of every length: its answer follows from what a
// load check says of the line, and from the count of its objects.
#ifndef STATE_BYTES_H
#define STATE_BYTES_H

#include <stdint.h>

#include "refusals.h"

// How often what must come came: each length, each refusal, and an empty line.
struct state_lengths {
    unsigned long small, wide, refused[LINE_QUESTIONS + 1], empty_line;
};

// Asks for the line that stands in its area, to which a load check answers `loaded`; ends the program if the answer is
// another than it must be.
void checked_state_bytes(uint32_t loaded, struct state_lengths *tally);

// Ends the program if something never came.
void demand_state_bytes(const struct state_lengths *tally);

void print_state_bytes(const struct state_lengths *tally);

#endif
