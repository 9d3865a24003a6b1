// Lines that are known, with records that are worth a try on them.
#ifndef KNOWN_H
#define KNOWN_H

#include <stddef.h>
#include <stdint.h>

// Document 01's line L, and one whose descriptor no card reads. None is longer, among as many objects as there may be.
enum known_name { KNOWN_L, KNOWN_HELD, KNOWN_LINES };
enum { MOST_KNOWN = 800 };

// Reads document 01's file L; before anything else here, in the repository's root.
void read_line_l(void);

// The line as it is; and with so many objects: its own are the last ones, and what stands before them is external data.
// Both are of edition 1, and return the length.
size_t known_line(enum known_name name, uint8_t *to);
size_t lifted_line(enum known_name name, unsigned objects, uint8_t *to);

// One of the records for a line that is a known one, or that among more objects, in either edition; 0 for any other.
size_t known_record(const uint8_t *line, size_t which, uint8_t *to);

#endif
