// What depends on how many records a line's state area has, tried out one by one: every length of state and answer area
// from 0 to a page, for lines of both kinds; every count of objects; every byte of an object that the line does not
// have; every record broken; every lock byte, and every card locked and unlocked; every place at which a file of many
// objects can be cut.
#ifndef ROOMS_H
#define ROOMS_H

// How many calls of each sort were made.
struct rooms {
    unsigned long lengths, counts, absent, broken, locks, cuts;
};

// Makes the calls; ends the program if one answers otherwise than it must, or leaves another byte.
void checked_rooms(struct rooms *tally);

void print_rooms(const struct rooms *tally);

#endif
