// What the programs that measure calls on a file share: they read files, and hold what one gives against another.
#ifndef HELD_H
#define HELD_H

#include <stdio.h>
#include <stdlib.h>

#include "face.h"

static inline bytes read_file(const char *name, uint8_t *to, size_t room) {
    FILE *f = fopen(name, "rb");
    if (f == NULL) {
        perror(name);
        exit(1);
    }
    size_t length = fread(to, 1, room, f);
    fclose(f);
    return (bytes){to, length};
}

static inline void hold(bool as_expected, const char *what) {
    if (as_expected) return;
    fprintf(stderr, "%s is another one\n", what);
    exit(1);
}

#endif
