/* Files and runs for the test programs. */
#ifndef MEKHTURIA_TEST_FILES_H
#define MEKHTURIA_TEST_FILES_H

#include <stdint.h>
#include <stdio.h>
#include <stdlib.h>

enum { PIECE = 1048576 };

/* How a run over the octets of a file went: the status of a call that was not answered, or the refusal of a frame that ended it; and where. */
typedef struct {
    uint64_t status, refusal, frames;
    size_t octet;
} course;

/* All the octets of a file, or NULL where it cannot be read. */
static uint8_t *read_file(const char *path, size_t *size) {
    FILE *file = fopen(path, "rb");
    if (file == NULL) return NULL;
    uint8_t *octets = NULL;
    size_t have = 0, room = 0;
    do {
        if (have == room) {
            uint8_t *more = realloc(octets, room = 2 * room + PIECE);
            if (more == NULL) break;
            octets = more;
        }
        have += fread(octets + have, 1, room - have, file);
    } while (!feof(file) && !ferror(file));
    const int whole = feof(file) && !ferror(file);
    fclose(file);
    *size = have;
    if (whole) return octets;
    free(octets);
    return NULL;
}

#endif
