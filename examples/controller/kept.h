// Keeps a state area over a restart: `store` and `restore`, for POSIX systems, which a controller takes over. host.c
// uses them; restore.c has them in itself, and shows them alone. docs/CONTROLLER.md says what they are for.
#ifndef KEPT_H
#define KEPT_H

#ifndef _POSIX_C_SOURCE
#define _POSIX_C_SOURCE 200809L
#endif
#include <errno.h>
#include <fcntl.h>
#include <stdio.h>
#include <string.h>
#include <unistd.h>

#include "sorter_gate.h"

// A stored file: a mark that names this form, the digest of the line file, the state area, which has the length that
// the line needs, and the digest of all before. The older mark names the form of before version 0.2.0, when cards had
// no locks: its area ends before the lock bytes, and is as much shorter.
enum { LINE_AT = 8, STATE_AT = 16, SUM_BYTES = 8, MOST_BYTES = STATE_AT + SORTER_GATE_STATE_BYTES_WIDE + SUM_BYTES };
enum { PATH_BYTES = 4096 };
static const char MARK[] = "SGSTATE2", OLDER_MARK[] = "SGSTATE1";

// What becomes of a restored file. Only a whole one may be used, also one that is older.
enum stored { WHOLE, OLDER, ABSENT, UNREADABLE, OTHER_LENGTH, OTHER_FORM, DAMAGED, OTHER_LINE };
static const char *const SAYS[] = {
    "whole, and of this line",
    "whole, and of this line; stored before cards had locks: none is locked",
    "nothing is stored there",
    "refused: it cannot be read",
    "refused: it has another length",
    "refused: it does not begin as a stored area does",
    "refused: its checksum does not fit",
    "refused: it was stored with another line file",
};

// FNV-1a of 64 bits: a checksum against damage, and a digest that tells one line file from another. One changed byte
// always changes it; other damage might leave it as it was, by a rare chance. It has no key: whoever wants to can make
// it fit, so that it is no protection against people.
static uint64_t digest(const uint8_t *bytes, size_t count) {
    uint64_t sum = 0xcbf29ce484222325u;
    for (size_t i = 0; i < count; i++) {
        sum = (sum ^ bytes[i]) * 0x100000001b3u;
    }
    return sum;
}

// Lowest byte first, on every machine.
static void put(uint8_t *to, uint64_t number) {
    for (int i = 0; i < 8; i++) {
        to[i] = (uint8_t)(number >> 8 * i);
    }
}

static int holds(const uint8_t *from, uint64_t number) {
    uint8_t wanted[8];
    put(wanted, number);
    return memcmp(from, wanted, sizeof wanted) == 0;
}

// One call may write less than it was given.
static int write_all(int file, const uint8_t *bytes, size_t count) {
    size_t done = 0;
    while (done < count) {
        ssize_t n = write(file, bytes + done, count - done);
        if (n == 0 || (n < 0 && errno != EINTR)) {
            return 0;
        }
        done += n > 0 ? (size_t)n : 0;
    }
    return 1;
}

// A file whose bytes are on the device. After a flush that failed the bytes may be lost, and a second flush would not
// tell: the file is written anew then, from the first byte.
static int write_new(const char *name, const uint8_t *bytes, size_t count) {
    int file = open(name, O_WRONLY | O_CREAT | O_TRUNC, 0644);
    if (file < 0) {
        return 0;
    }
    int flushed = write_all(file, bytes, count) && fsync(file) == 0;
    return close(file) == 0 && flushed;
}

// The names of a folder are on the device only when the folder is flushed itself.
static int flush_folder(const char *name) {
    char folder[PATH_BYTES];
    const char *slash = strrchr(name, '/');
    int length = snprintf(folder, sizeof folder, "%.*s.", slash ? (int)(slash + 1 - name) : 0, name);
    if (length < 0 || (size_t)length >= sizeof folder) {
        return 0;
    }
    int file = open(folder, O_RDONLY | O_DIRECTORY);
    if (file < 0) {
        return 0;
    }
    int flushed = fsync(file) == 0;
    return close(file) == 0 && flushed;
}

// A new file, flushed; then the name; then the folder, flushed. A power cut leaves the old file or the new one, and
// after a 1 the new one. After a 0 it may be either: store again before anything else is done.
static int store(const char *name, const uint8_t *line, size_t line_len, const uint8_t *state, size_t state_len) {
    uint8_t file[MOST_BYTES];
    char fresh[PATH_BYTES];
    size_t sum_at = STATE_AT + state_len;
    int length = snprintf(fresh, sizeof fresh, "%s.new", name);
    if (length < 0 || (size_t)length >= sizeof fresh || state_len > SORTER_GATE_STATE_BYTES_WIDE) {
        return 0;
    }
    memcpy(file, MARK, LINE_AT);
    put(file + LINE_AT, digest(line, line_len));
    memcpy(file + STATE_AT, state, state_len);
    put(file + sum_at, digest(file, sum_at));
    return write_new(fresh, file, sum_at + SUM_BYTES) && rename(fresh, name) == 0 && flush_folder(name);
}

// How many bytes of the line's area a file has, which its mark tells.
static size_t stored_len(const uint8_t *file, size_t count, size_t state_len) {
    int older = count >= LINE_AT && memcmp(file, OLDER_MARK, LINE_AT) == 0;
    return older ? state_len - SORTER_GATE_LOCK_BYTES : state_len;
}

static enum stored judge(const uint8_t *file, size_t count, const uint8_t *line, size_t line_len, size_t state_len) {
    size_t area_len = stored_len(file, count, state_len), sum_at = STATE_AT + area_len;
    enum stored whole = area_len == state_len ? WHOLE : OLDER;
    if (count != sum_at + SUM_BYTES) {
        return OTHER_LENGTH;
    }
    if (whole != OLDER && memcmp(file, MARK, LINE_AT) != 0) {
        return OTHER_FORM;
    }
    if (!holds(file + sum_at, digest(file, sum_at))) {
        return DAMAGED;
    }
    return holds(file + LINE_AT, digest(line, line_len)) ? whole : OTHER_LINE;
}

// As many bytes of a file as there is room for, and how many they are.
static enum stored read_file(const char *name, uint8_t *to, size_t room, size_t *count) {
    FILE *f = fopen(name, "rb");
    if (!f) {
        return errno == ENOENT ? ABSENT : UNREADABLE;
    }
    *count = fread(to, 1, room, f);
    int failed = ferror(f);
    fclose(f);
    return failed ? UNREADABLE : WHOLE;
}

// An older area becomes one of today by zeros where its lock bytes are to be: no card is locked.
static void take_area(uint8_t *to, const uint8_t *from, size_t area_len, size_t state_len) {
    memmove(to, from, area_len);
    memset(to + area_len, 0, state_len - area_len);
}

static int may_be_used(enum stored found) {
    return found == WHOLE || found == OLDER;
}

// Puts the stored area into `state` if the file is whole and of this line; otherwise `state` is as it was. `state` has
// the length that the line needs, so that an area of the other length shows. The file of an older area stays as it is
// until the next one is stored, which has the lock bytes: the zeros are put there once.
static enum stored restore(const char *name, const uint8_t *line, size_t line_len, uint8_t *state, size_t state_len) {
    uint8_t file[MOST_BYTES + 1]; // one byte more, so that a longer file shows
    size_t count = 0;
    enum stored found = read_file(name, file, sizeof file, &count);
    if (found == WHOLE) {
        found = judge(file, count, line, line_len, state_len);
    }
    if (may_be_used(found)) {
        take_area(state, file + STATE_AT, stored_len(file, count, state_len), state_len);
    }
    return found;
}

#endif
