// Request N7: serials of every length for every card, editions, files that are cut or badly written inside a serial,
// and numbers of a record that were too large once, tried out one by one; and, of any call, that edition and serials
// decide nothing.
#ifndef SERIALS_H
#define SERIALS_H

#include <stdint.h>

#include "line.h"

// How many calls of each sort were made, and how many on lines of edition 2 were made again in edition 1.
struct serials {
    unsigned long rewritten, refused, editions, cuts, large, again;
};

// Makes the calls; ends the program if one answers otherwise than it must, or leaves another byte.
void checked_serials(struct serials *tally);

// The calls that are made again on the line's file of edition 1.
enum judging { JUDGES_LINE, JUDGES_RECORD };

// Makes a call again, if the line that stands in its area is one of edition 2 that meets questions 1 to 4: on its file
// of edition 1, and on state and answer area as they were before it. Ends the program if the answer or a byte of these
// areas is another.
void checked_silence(enum judging judging, uint32_t number, const uint8_t *state, const uint8_t *answer,
                     struct serials *tally);

void print_serials(const struct serials *tally);

#endif
