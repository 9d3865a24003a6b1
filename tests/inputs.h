// Random inputs: line files and operation records, sound, mutated, and of mere bytes. One seed gives one row of them.
#ifndef INPUTS_H
#define INPUTS_H

#include <stddef.h>
#include <stdint.h>

// No line or record that is made is longer.
enum { MOST_LINE = 1900, MOST_RECORD = 300 };

void seed_inputs(uint64_t seed);

// A number below n, 0 for n = 0.
size_t below(size_t n);

void random_bytes(uint8_t *to, size_t n);

// A line of edition 1 as it is or, as often, in edition 2 with serials of all lengths; returns the length.
size_t in_some_edition(uint8_t *line, size_t length);

// Document 01's line L, one whose descriptor no card reads, or a random one that meets questions 1 to 6, up to full
// size, in either edition. One line out of eight is a wide one, every second of them one of the first two with more
// objects before its own. All return the length. (tests/known.h: the file L is read before.)
size_t sound_line(uint8_t *to);

// A sound line as it is, with one number changed, or made a large one, cut, mutated, or bytes in its place.
size_t any_line(const uint8_t *sound, size_t length, uint8_t *to);

// The record that brings in what the line has at a step from 0: a driver, a device, or external objects; 0 where there
// is nothing to be done.
size_t opening_record(const uint8_t *sound, size_t step, uint8_t *to);

// A record for a sound line: often one that can be accepted, sometimes mutated, sometimes bytes in its place.
size_t any_record(const uint8_t *sound, uint8_t *to);

#endif
