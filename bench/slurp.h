// Reads a file into a buffer; ends the program if there is none.
#ifndef SLURP_H
#define SLURP_H

#include <stdint.h>
#include <stdio.h>
#include <stdlib.h>

static inline size_t slurp(const char *name, uint8_t *to, size_t most) {
    FILE *f = fopen(name, "rb");
    if (!f) {
        perror(name);
        exit(2);
    }
    size_t n = fread(to, 1, most, f);
    fclose(f);
    return n;
}

#endif
