/* A run by pieces: one call for each MiB of frames, which writes their lines. */
#ifndef MEKHTURIA_TEST_PIECES_H
#define MEKHTURIA_TEST_PIECES_H

#include "files.h"
#include "lab.h"

/* The lines go to `out`, or nowhere where that is NULL. */
static course by_pieces(const lab *l, const uint8_t *input, size_t size, FILE *out) {
    static uint8_t output[PIECE];
    uint64_t answer[MEKHTURIA_ANSWER_WORDS] = {0};
    course c = {0};
    int over = 0;
    while (!over) {
        const size_t piece = size - c.octet < PIECE ? size - c.octet : PIECE;
        const int last = c.octet + piece == size;
        c.status = mekhturia_frames(LEND(l), input + c.octet, piece, output, sizeof output, c.frames, (uint64_t)last, answer, MEKHTURIA_ANSWER_WORDS);
        if (c.status != MEKHTURIA_ANSWERED) return c;
        const size_t written = answer[MEKHTURIA_FRAMES_WRITTEN];
        if (out != NULL) fwrite(output, 1, written, out);
        c.octet += answer[MEKHTURIA_FRAMES_READ];
        c.frames += answer[MEKHTURIA_FRAMES_COUNT];
        const uint64_t state = answer[MEKHTURIA_FRAMES_STATE];
        if (state == MEKHTURIA_FRAMES_ENDED) c.refusal = (uint64_t)(output[written - 2] - '0'); /* its line ends with 1 to 4 */
        over = state == MEKHTURIA_FRAMES_ENDED || (state == MEKHTURIA_FRAMES_WAITS && last);
    }
    return c;
}

#endif
