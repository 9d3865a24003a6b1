// Which records can be accepted, and what an accepted call leaves, as document 01 says: the whole state area, and the
// bytes that a read puts down; and which record of a state area is the first that breaks a rule.
#ifndef EFFECT_H
#define EFFECT_H

#include <stddef.h>
#include <stdint.h>

#include "line.h"

// The standings of a partition: 1 and 3 exist, and 3 is a green zone.
enum { NEVER_USED = 0, EXISTING = 1, DESTROYED = 2, GREEN = 3 };

// The limits of a record, and the bytes of an object's contents.
enum { MOST_PARTITION = 63, MOST_COUNT = 8, CONTENT = 16 };

// A line of at most so many objects is a small one, whose state area has as many records; a wide one's has a record for
// each object that there may be.
enum { MOST_SMALL = 96 };

// Where a state area has its first record, and the bytes of one: an object's partition, and its contents. Behind the
// last record there is a lock byte for each card that there may be.
enum { OBJECTS_FROM = MOST_PARTITION + 1 + 2 * MOST_OWNERS, RECORD_BYTES = 1 + CONTENT };
enum { UNLOCKED = 0, LOCKED = 1 };

// The records of the state area of an accepted line file, and the area's length.
unsigned room_of(const uint8_t *line);
size_t state_bytes_of(const uint8_t *line);

// Where a state area has the record of an object, and the partition of a driver or card; and a card's lock byte in that
// of an accepted line file.
size_t record_at(unsigned object);
size_t owner_at(uint8_t class, uint8_t owner);
size_t lock_at(const uint8_t *line, unsigned card);

// Whether a record meets questions 10 and 11 on an accepted line file.
int record_fits(const uint8_t *line, const uint8_t *record, size_t length);

// The first object whose record in the state area of an accepted line file breaks a rule of a well formed state, also
// one that the line does not have; 0 if none does. The area has the length that the line needs.
unsigned first_bad_of(const uint8_t *line, const uint8_t *state);

// Whether the lock bytes in the state area of an accepted line file keep their rules: each is 0 or 1, and 0 for a card
// that is active or that the line does not have.
int locks_right(const uint8_t *line, const uint8_t *state);

// Makes of a state area the fresh one of an accepted line file.
void follow_fresh(const uint8_t *line, uint8_t *state);

// Does to both areas what an accepted operation does.
void follow_operation(const uint8_t *line, const uint8_t *record, uint8_t *state, uint8_t *answer);

#endif
