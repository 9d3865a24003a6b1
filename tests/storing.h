// What the tests of the example that stores a state area share: a fault is told and ends them, files are put down, and
// there is a line whose state area has the longer length.
#ifndef STORING_H
#define STORING_H

#include <stdarg.h>
#include <stdint.h>
#include <stdio.h>
#include <stdlib.h>

// The objects of the wide line.
enum { WIDE_OBJECTS = 97 };

static void fault(const char *form, ...) {
    va_list more;
    va_start(more, form);
    fprintf(stderr, "storing: ");
    vfprintf(stderr, form, more);
    fprintf(stderr, "\n");
    va_end(more);
    exit(1);
}

// A new file each time: some file systems flush one that is cut to nothing first, which takes long.
static void put_file(const char *path, const uint8_t *bytes, size_t count) {
    remove(path);
    FILE *f = fopen(path, "wb");
    if (!f || fwrite(bytes, 1, count, f) != count || fclose(f) != 0) {
        fault("%s cannot be written", path);
    }
}

// A line file of one object more than the shorter area has room for, all external data.
static const char *wide_line(const char *folder) {
    static char path[256];
    static uint8_t wide[5 + 3 * WIDE_OBJECTS] = {1, 0, 0, WIDE_OBJECTS, 0};
    for (size_t at = 5; at < sizeof wide; at += 3) {
        wide[at] = 3;
    }
    snprintf(path, sizeof path, "%s/wide.bin", folder);
    put_file(path, wide, sizeof wide);
    return path;
}

#endif
