// Random inputs in which much is linked: lines whose values lead from descriptor to descriptor, small ones and wide
// ones (tests/effect.h), areas in which nearly everything is in one partition, and records about what entries of the
// line name.
#ifndef LINKED_H
#define LINKED_H

#include <stddef.h>
#include <stdint.h>

// A line that meets questions 1 to 6; returns its length.
size_t linked_line(uint8_t *to, int wide);

// Puts a number of some entry of the line beyond its range, or to its end, in a copy of the line.
void spoil_entry(const uint8_t *line, size_t length, uint8_t *to);

// An area that is well formed for a line that meets questions 1 to 6, with partitions 1 to 3 in use at most, and half
// of the inactive cards locked.
void random_state(const uint8_t *line, uint8_t *state);

// A record by which a card writes or copies what entries of the line name, by which such an object leaves, or by which
// a card comes in; 0 if the line has no card or no entry.
size_t linked_record(const uint8_t *line, size_t length, uint8_t *to);

#endif
