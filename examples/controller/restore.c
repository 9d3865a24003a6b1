// Keeps a state area over a restart. Each run is one start of a controller: it restores the area of the last run, or
// makes a fresh one if none is stored, looks at it, creates the next partition, and stores the area. An area that is
// damaged is not used; the technician is told which object's record is broken. One that was stored before version 0.2.0
// has no lock bytes, and is carried over: sixteen zeros are put at its end.
//   restore FILE [LINE]   prints each step; ends with status 1 if one does not go as it should. The line is that of the
//                         line file LINE, or a small one that stands here.
// A controller takes over `store` and `restore`, which are for POSIX systems. docs/CONTROLLER.md says what they are
// for.
#define _POSIX_C_SOURCE 200809L
#include <errno.h>
#include <fcntl.h>
#include <stdio.h>
#include <string.h>
#include <unistd.h>

#include "sorter_gate.h"

// A stored file: a mark that names this form, the digest of the line file, the state area, which has the length that
// the line needs, and the digest of all before. The older mark names the form of before version 0.2.0, when cards had
// no locks: its area ends before the lock bytes, and is as much shorter.
enum { LINE_AT = 8, STATE_AT = 16, SUM_BYTES = 8, MOST_BYTES = STATE_AT + SORTER_GATE_STATE_BYTES_WIDE + SUM_BYTES };
enum { PATH_BYTES = 4096 };
static const char MARK[] = "SGSTATE2", OLDER_MARK[] = "SGSTATE1";

// What becomes of a restored file. Only a whole one may be used, also one that is older.
enum stored { WHOLE, OLDER, ABSENT, UNREADABLE, OTHER_LENGTH, OTHER_FORM, DAMAGED, OTHER_LINE };
static const char *const SAYS[] = {
    "whole, and of this line",
    "whole, and of this line; stored before cards had locks: none is locked",
    "nothing is stored yet",
    "refused: it cannot be read",
    "refused: it has another length",
    "refused: it does not begin as a stored area does",
    "refused: its checksum does not fit",
    "refused: it was stored with another line file",
};

// FNV-1a of 64 bits: a checksum against damage, and a digest that tells one line file from another. One changed byte
// always changes it; other damage might leave it as it was, by a rare chance. It has no key: whoever wants to can make
// it fit, so that it is no protection against people.
static uint64_t digest(const uint8_t *bytes, size_t count) {
    uint64_t sum = 0xcbf29ce484222325u;
    for (size_t i = 0; i < count; i++) {
        sum = (sum ^ bytes[i]) * 0x100000001b3u;
    }
    return sum;
}

// Lowest byte first, on every machine.
static void put(uint8_t *to, uint64_t number) {
    for (int i = 0; i < 8; i++) {
        to[i] = (uint8_t)(number >> 8 * i);
    }
}

static int holds(const uint8_t *from, uint64_t number) {
    uint8_t wanted[8];
    put(wanted, number);
    return memcmp(from, wanted, sizeof wanted) == 0;
}

// One call may write less than it was given.
static int write_all(int file, const uint8_t *bytes, size_t count) {
    size_t done = 0;
    while (done < count) {
        ssize_t n = write(file, bytes + done, count - done);
        if (n == 0 || (n < 0 && errno != EINTR)) {
            return 0;
        }
        done += n > 0 ? (size_t)n : 0;
    }
    return 1;
}

// A file whose bytes are on the device. After a flush that failed the bytes may be lost, and a second flush would not
// tell: the file is written anew then, from the first byte.
static int write_new(const char *name, const uint8_t *bytes, size_t count) {
    int file = open(name, O_WRONLY | O_CREAT | O_TRUNC, 0644);
    if (file < 0) {
        return 0;
    }
    int flushed = write_all(file, bytes, count) && fsync(file) == 0;
    return close(file) == 0 && flushed;
}

// The names of a folder are on the device only when the folder is flushed itself.
static int flush_folder(const char *name) {
    char folder[PATH_BYTES];
    const char *slash = strrchr(name, '/');
    int length = snprintf(folder, sizeof folder, "%.*s.", slash ? (int)(slash + 1 - name) : 0, name);
    if (length < 0 || (size_t)length >= sizeof folder) {
        return 0;
    }
    int file = open(folder, O_RDONLY | O_DIRECTORY);
    if (file < 0) {
        return 0;
    }
    int flushed = fsync(file) == 0;
    return close(file) == 0 && flushed;
}

// A new file, flushed; then the name; then the folder, flushed. A power cut leaves the old file or the new one, and
// after a 1 the new one. After a 0 it may be either: store again before anything else is done.
static int store(const char *name, const uint8_t *line, size_t line_len, const uint8_t *state, size_t state_len) {
    uint8_t file[MOST_BYTES];
    char fresh[PATH_BYTES];
    size_t sum_at = STATE_AT + state_len;
    int length = snprintf(fresh, sizeof fresh, "%s.new", name);
    if (length < 0 || (size_t)length >= sizeof fresh || state_len > SORTER_GATE_STATE_BYTES_WIDE) {
        return 0;
    }
    memcpy(file, MARK, LINE_AT);
    put(file + LINE_AT, digest(line, line_len));
    memcpy(file + STATE_AT, state, state_len);
    put(file + sum_at, digest(file, sum_at));
    return write_new(fresh, file, sum_at + SUM_BYTES) && rename(fresh, name) == 0 && flush_folder(name);
}

// How many bytes of the line's area a file has, which its mark tells.
static size_t stored_len(const uint8_t *file, size_t count, size_t state_len) {
    int older = count >= LINE_AT && memcmp(file, OLDER_MARK, LINE_AT) == 0;
    return older ? state_len - SORTER_GATE_LOCK_BYTES : state_len;
}

static enum stored judge(const uint8_t *file, size_t count, const uint8_t *line, size_t line_len, size_t state_len) {
    size_t area_len = stored_len(file, count, state_len), sum_at = STATE_AT + area_len;
    enum stored whole = area_len == state_len ? WHOLE : OLDER;
    if (count != sum_at + SUM_BYTES) {
        return OTHER_LENGTH;
    }
    if (whole != OLDER && memcmp(file, MARK, LINE_AT) != 0) {
        return OTHER_FORM;
    }
    if (!holds(file + sum_at, digest(file, sum_at))) {
        return DAMAGED;
    }
    return holds(file + LINE_AT, digest(line, line_len)) ? whole : OTHER_LINE;
}

// As many bytes of a file as there is room for, and how many they are.
static enum stored read_file(const char *name, uint8_t *to, size_t room, size_t *count) {
    FILE *f = fopen(name, "rb");
    if (!f) {
        return errno == ENOENT ? ABSENT : UNREADABLE;
    }
    *count = fread(to, 1, room, f);
    int failed = ferror(f);
    fclose(f);
    return failed ? UNREADABLE : WHOLE;
}

// An older area becomes one of today by zeros where its lock bytes are to be: no card is locked.
static void take_area(uint8_t *to, const uint8_t *from, size_t area_len, size_t state_len) {
    memmove(to, from, area_len);
    memset(to + area_len, 0, state_len - area_len);
}

static int may_be_used(enum stored found) {
    return found == WHOLE || found == OLDER;
}

// Puts the stored area into `state` if the file is whole and of this line; otherwise `state` is as it was. `state` has
// the length that the line needs, so that an area of the other length shows. The file of an older area stays as it is
// until the next one is stored, which has the lock bytes: the zeros are put there once.
static enum stored restore(const char *name, const uint8_t *line, size_t line_len, uint8_t *state, size_t state_len) {
    uint8_t file[MOST_BYTES + 1]; // one byte more, so that a longer file shows
    size_t count = 0;
    enum stored found = read_file(name, file, sizeof file, &count);
    if (found == WHOLE) {
        found = judge(file, count, line, line_len, state_len);
    }
    if (may_be_used(found)) {
        take_area(state, file + STATE_AT, stored_len(file, count, state_len), state_len);
    }
    return found;
}

// A line with one driver and nothing else.
static const uint8_t LINE[] = {1, 1, 0, 0, 0};
// The line of this run, in one byte more than a line file can have, so that a longer one shows; and its state area, in
// the longest that a line can need.
static uint8_t line[SORTER_GATE_LONGEST_LINE + 1], state[SORTER_GATE_STATE_BYTES_WIDE];
static uint8_t answer[SORTER_GATE_ANSWER_BYTES];
static size_t line_len, state_len;

// The line of this run, and how long its state area is, which the library tells of a line that it accepts.
static int begin_line(const char *name) {
    memcpy(line, LINE, sizeof LINE);
    line_len = sizeof LINE;
    if (name && read_file(name, line, sizeof line, &line_len) != WHOLE) {
        return 0;
    }
    uint64_t needed = gate_state_bytes(line, line_len);
    state_len = SORTER_GATE_NUMBER(needed);
    return SORTER_GATE_KIND(needed) == SORTER_GATE_DONE && state_len <= sizeof state;
}

static uint32_t call(const uint8_t *record, size_t length, const char *what) {
    uint32_t n = gate_operate(line, line_len, state, state_len, record, length, answer, sizeof answer);
    printf("%2u  %s\n", n, what);
    return n;
}

// For the technician: which object's record breaks a rule first in an area that is not used, or, if none does, what
// that means. An object that the line does not have is named if its record is not 0.
static void tell_place(const uint8_t *damaged, const char *none) {
    uint64_t found = gate_first_bad(line, line_len, damaged, state_len);
    unsigned number = (unsigned)SORTER_GATE_NUMBER(found);
    if (SORTER_GATE_KIND(found) != SORTER_GATE_DONE) {
        printf("    no record can be named: refused by question %u\n", number);
    } else if (number > 0) {
        printf("    the first broken record is that of object %u\n", number);
    } else {
        printf("    no record is broken: %s\n", none);
    }
}

// A file whose checksum does not fit may be damaged anywhere, in bytes too that look well. Its area is only looked at,
// where it was read, and is never used; if the file does not name this line, it is not even looked at.
static void tell_damage(const char *name) {
    uint8_t file[MOST_BYTES];
    size_t count = 0;
    if (read_file(name, file, sizeof file, &count) != WHOLE) {
        return;
    }
    size_t area_len = stored_len(file, count, state_len);
    if (count == STATE_AT + area_len + SUM_BYTES && holds(file + LINE_AT, digest(line, line_len))) {
        take_area(file + STATE_AT, file + STATE_AT, area_len, state_len);
        tell_place(file + STATE_AT, "the damage does not show there");
    }
}

// Whether the area is in order. An empty record changes nothing: 10 says that line file and areas are in order, less
// says what is not; 9 says that the area is damaged, whatever its file's checksum says, as if another program stored
// it.
static int look(void) {
    static const uint8_t nothing[1] = {0};
    uint32_t n = call(nothing, 0, "look at the area");
    if (n == SORTER_GATE_STATE_FORM) {
        tell_place(state, "the fault is in the bytes of partitions, drivers, cards or locks");
    }
    return n == SORTER_GATE_RECORD;
}

// The area of the last run, or a fresh one.
static int begin(const char *name) {
    enum stored found = restore(name, line, line_len, state, state_len);
    printf("    %s: %s\n", name, SAYS[found]);
    if (found == ABSENT) {
        printf(" %u  a fresh state\n", gate_fresh(line, line_len, state, state_len));
    } else if (found == DAMAGED) {
        tell_damage(name);
    }
    if (found != ABSENT && !may_be_used(found)) {
        return 0; // what is on the machine is known to the operator alone
    }
    return look();
}

// The first partition that was never used before.
static int create_next(void) {
    for (uint8_t partition = 1; partition < 64; partition++) {
        const uint8_t record[] = {SORTER_GATE_CODE_CREATE_PARTITION, partition};
        char what[32];
        snprintf(what, sizeof what, "create partition %u", partition);
        if (call(record, sizeof record, what) == SORTER_GATE_ACCEPTED) {
            return 1;
        }
    }
    return 0;
}

int main(int argc, char **argv) {
    if (argc != 2 && argc != 3) {
        fprintf(stderr, "restore FILE [LINE]\n");
        return 2;
    }
    if (!begin_line(argc == 3 ? argv[2] : NULL)) {
        fprintf(stderr, "%s: not a line file that is accepted\n", argv[argc - 1]);
        return 1;
    }
    if (!begin(argv[1]) || !create_next()) {
        return 1;
    }
    int stored = store(argv[1], line, line_len, state, state_len);
    printf("    %s: %s\n", argv[1], stored ? "stored" : "not stored");
    return !stored;
}
