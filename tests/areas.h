// The byte areas of the calls, each with forbidden pages on both sides: who reads or writes beside one, or writes into
// one that is only to be read, ends the program with a message.
#ifndef AREAS_H
#define AREAS_H

#include <stddef.h>
#include <stdint.h>

enum { PAGE = 4096 };

// STORED is a state area for the call that only reads it.
enum area_name { LINE, STATE, RECORD, ANSWER, OUT, STORED, AREAS };

// Where an area stands in its page: it ends where the forbidden page behind begins, or begins where the one before
// ends.
enum place { ENDS_AT_BORDER, BEGINS_AT_BORDER, PLACES };

struct area {
    uint8_t *own;  // the test's view of the page, which it may write to
    uint8_t *lent; // the library's view of the same page, between the forbidden ones
    size_t length;
};

// What is being tried: each message ends with it.
struct trial {
    const char *call;
    enum place place;
    uint64_t seed;
    unsigned long input;
};

extern struct area areas[AREAS];
extern struct trial trial;

// Makes the areas, and has faults told. Line, record and stored state are lent without the permission to write.
void make_areas(void);

// The first byte of an area, in the test's view and in the library's.
uint8_t *own_start(enum area_name name);
uint8_t *lent_start(enum area_name name);

// The area's name, for a message: that of the header's parameter.
const char *area_text(enum area_name name);

// Bytes stand in an area.
void put_area(enum area_name name, const uint8_t *bytes, size_t length);

// Tells what went wrong and at which input, and ends the program with 1.
void complain(const char *format, ...) __attribute__((noreturn, format(printf, 1, 2)));

#endif
