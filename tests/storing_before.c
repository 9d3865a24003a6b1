// The example that stores a state area, examples/controller/restore.c, on files of before version 0.2.0, whose areas
// have no lock bytes: each is restored with zeros there, once, and what is wrong with it is refused. With the file that
// tests/stored has of such a time, and with files that are made here as the example made them then, of lines of both
// kinds.
//   storing_before FOLDER   to be called in the repository's root
#define _DEFAULT_SOURCE
#define main example_main
#ifndef EXAMPLE
#define EXAMPLE "../examples/controller/restore.c"
#endif
#include EXAMPLE
#undef main
#include <stdlib.h>
#include <sys/wait.h>

#include "storing.h"

// What areas are filled with before a call; the bytes of a file around its area.
enum { OLD_BYTE = 0xEE, AROUND = STATE_AT + SUM_BYTES };

static char name[256];
static uint8_t area[SORTER_GATE_STATE_BYTES_WIDE], wanted[sizeof area], file[MOST_BYTES + SORTER_GATE_LOCK_BYTES];

static size_t older_len(void) {
    return state_len - SORTER_GATE_LOCK_BYTES;
}

// A file with so many bytes of the wanted area behind a mark; how long it is.
static size_t make_file(const char *mark, size_t length) {
    memcpy(file, mark, LINE_AT);
    put(file + LINE_AT, digest(line, line_len));
    memcpy(file + STATE_AT, wanted, length);
    put(file + STATE_AT + length, digest(file, STATE_AT + length));
    return AROUND + length;
}

// Restoring gives the wanted area, and says so.
static void must_restore(enum stored says, const char *what) {
    memset(area, OLD_BYTE, sizeof area);
    enum stored found = restore(name, line, line_len, area, state_len);
    if (found != says) {
        fault("%s is not restored: it is said to be '%s'", what, SAYS[found]);
    }
    if (memcmp(area, wanted, state_len) != 0) {
        fault("%s is restored as another one", what);
    }
}

// The file is not taken, and the area stays as it was.
static void must_refuse(const char *what, size_t place) {
    memset(area, OLD_BYTE, sizeof area);
    enum stored found = restore(name, line, line_len, area, state_len);
    if (found == WHOLE || found == OLDER) {
        fault("%s %zu: it is said to be '%s'", what, place, SAYS[found]);
    }
    for (size_t i = 0; i < sizeof area; i++) {
        if (area[i] != OLD_BYTE) {
            fault("%s %zu: refused, and yet the state area was changed", what, place);
        }
    }
}

// An older area, and what becomes of it: stored again it is one of today, whose lock bytes are kept.
static void try_carried(size_t count) {
    put_file(name, file, count);
    must_restore(OLDER, "an area of before");
    must_restore(OLDER, "an area of before, a second time,");
    for (uint8_t lock = 0; lock <= 1; lock++) {
        wanted[state_len - 1] = lock;
        if (!store(name, line, line_len, wanted, state_len)) {
            fault("an area of before is not stored again");
        }
        must_restore(WHOLE, "an area of before that was stored again");
    }
    wanted[state_len - 1] = 0;
}

static void try_refused(size_t count) {
    static const uint8_t other[] = {1, 2, 0, 0, 0};
    for (size_t place = 0; place < count; place++) {
        file[place] ^= 1;
        put_file(name, file, count);
        must_refuse("a changed byte of an older file at place", place);
        file[place] ^= 1;
    }
    for (size_t length = 0; length <= count + SORTER_GATE_LOCK_BYTES; length += length < LINE_AT + 2 ? 1 : 7) {
        put_file(name, file, length);
        if (length != count) {
            must_refuse("an older file of length", length);
        }
    }
    put_file(name, file, count);
    if (restore(name, other, sizeof other, area, state_len) != OTHER_LINE) {
        fault("an older area of another line is not refused");
    }
    put_file(name, file, make_file("SGSTATE1", state_len));
    must_refuse("an older file with an area of", state_len);
    put_file(name, file, make_file("SGSTATE2", older_len()));
    must_refuse("a file of today with an area of", older_len());
}

// Areas with every sort of bytes, as this example stored them then.
static void try_made(void) {
    for (size_t i = 0; i < state_len; i++) {
        wanted[i] = i < older_len() ? (uint8_t)(i % 251 + 1) : 0;
    }
    size_t count = make_file("SGSTATE1", older_len());
    try_carried(count);
    try_refused(make_file("SGSTATE1", older_len()));
}

// One start of the example, which says nothing here; whether it ended as it should.
static int started(void) {
    char program[] = "restore", *words[] = {program, name, NULL};
    fflush(stdout);
    pid_t child = fork();
    if (child == 0) {
        _exit(freopen("/dev/null", "w", stdout) ? example_main(2, words) : 2);
    }
    int status = 0;
    return child > 0 && waitpid(child, &status, 0) == child && WIFEXITED(status) && WEXITSTATUS(status) == 0;
}

// The file that was stored then: partitions 1 and 2 exist, and nothing else is in its area. A start goes on from it.
static void try_stored(void) {
    FILE *f = fopen("tests/stored/state.bin", "rb");
    size_t count = f ? fread(file, 1, sizeof file, f) : 0;
    if (!f || fclose(f) != 0 || count != AROUND + older_len()) {
        fault("tests/stored/state.bin is not an older file of the small line");
    }
    memset(wanted, 0, sizeof wanted);
    wanted[1] = wanted[2] = 1;
    put_file(name, file, count);
    must_restore(OLDER, "tests/stored/state.bin");
    if (!started()) {
        fault("a start with an area of before does not end as it should");
    }
    wanted[3] = 1;
    must_restore(WHOLE, "what a start made of an area of before");
}

int main(int argc, char **argv) {
    if (argc != 2) {
        return 2;
    }
    snprintf(name, sizeof name, "%s/before.bin", argv[1]);
    const char *lines[] = {NULL, wide_line(argv[1])};
    for (int i = 0; i < 2; i++) {
        if (!begin_line(lines[i])) {
            fault("a line is not accepted");
        }
        try_made();
    }
    if (!begin_line(NULL)) {
        fault("the example's own line is not accepted");
    }
    try_stored();
    printf("storing: areas of before are restored with zeros for their locks, once\n");
    return 0;
}
