// What must come in a test of a call whose answers have a kind, and how often each question refused it.
#ifndef REFUSALS_H
#define REFUSALS_H

#include <stdint.h>

// The last question that is put to a line, and the last that is put to a line and a state area alone.
enum { LINE_QUESTIONS = 6, AREA_QUESTIONS = 7 };

// Whether an answer is refused; ends the program if it is not done either.
int is_refused(uint64_t answer);

// Ends the program if it came no times.
void demand(unsigned long times, const char *what);

// The counts from 1 on, up to the last question. Ends the program if one never refused.
void demand_refusals(const unsigned long *refused, unsigned last);

// The end of a row.
void print_refusals(const unsigned long *refused, unsigned last);

#endif
