// The function that writes a line file, on lines and areas of every length: its answer and the whole area behind the
// call are told by the line that is loaded, and by what a load check says of it.
#ifndef REWRITING_H
#define REWRITING_H

#include <stdint.h>

#include "refusals.h"

// How often what must come came: each answer, an empty line or area, and an area of just the length that is needed.
struct rewritings {
    unsigned long done, refused[LINE_QUESTIONS + 1], too_short, empty_line, empty_out, exact;
};

// Spoils the line that stands in its area, now and then: mere bytes in its place, more than any line has too, or a
// number changed, which may leave a line that can be read.
void spoil_line(void);

// Rewrites the line that stands in its area, to which a load check answers `loaded`, into an area of some length, full
// of noise; ends the program if the answer or a byte is another than it must be.
void checked_rewriting(uint32_t loaded, struct rewritings *tally);

// Ends the program if something never came.
void demand_rewritings(const struct rewritings *tally);

void print_rewritings(const struct rewritings *tally);

#endif
