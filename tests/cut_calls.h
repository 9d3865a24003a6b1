// The system calls by which a file is stored, in a test's hands: the linker puts them between the code under test and
// the system (--wrap), so that a process can be ended after one of them, or one fails.
#ifndef CUT_CALLS_H
#define CUT_CALLS_H

#include <stddef.h>

enum { MOST_CALLS = 64 };

// What the calls of one storing did.
struct seen {
    int calls;
    char order[MOST_CALLS]; // open, write, flush, close, rename: a letter each, a capital for the folder
    int loose;              // the file has bytes that are not flushed
    int renamed;            // the new file has the name
    int named;              // and the folder is flushed since
    int told;               // what the storing gave back
};

// What is to happen to it: after which call it ends, which call fails and how, how much one write takes.
struct plan {
    int cut, fail, error;
    size_t portion;
};

// In memory that outlives the process that stores; the test makes it.
extern struct seen *seen;
extern struct plan plan;

// The call itself, which the test needs too.
int __real_rename(const char *from, const char *to);

#endif
