/* What an event costs, by a call for each and by one call for many: nanoseconds for each frame of a file, the least of nine rounds.
 *
 *   timing FILE     frames, as `tools/frames gen` makes them
 */
#include <inttypes.h>
#include <time.h>

#include "events.h"
#include "files.h"
#include "pieces.h"

enum { ROUNDS = 9 };

static double now(void) {
    struct timespec t;
    timespec_get(&t, TIME_UTC);
    return (double)t.tv_sec * 1e9 + (double)t.tv_nsec;
}

static uint64_t by_each(const lab *l, const uint8_t *input, size_t size) {
    static uint8_t buffer[MEKHTURIA_LONG_TEXT];
    uint64_t answer[MEKHTURIA_ANSWER_WORDS], count = 0;
    frame f;
    for (size_t at = 0; at < size && take_apart(input + at, size - at, &f) == 0; at += MEKHTURIA_FRAME + f.length, count++)
        if (make(l, &f, buffer, answer) != MEKHTURIA_ANSWERED) break;
    return count;
}

static uint64_t by_many(const lab *l, const uint8_t *input, size_t size) { return by_pieces(l, input, size, NULL).frames; }

static void measure(const char *what, uint64_t (*run)(const lab *, const uint8_t *, size_t), const uint8_t *input, size_t size) {
    double least = 1e30;
    uint64_t count = 0;
    for (int round = 0; round < ROUNDS; round++) {
        const lab l = new_lab(MEKHTURIA_FLOOR);
        const double begin = now();
        count = run(&l, input, size);
        const double spent = now() - begin;
        if (spent < least) least = spent;
    }
    printf("%s: %" PRIu64 " frames, %.0f ns for each\n", what, count, count == 0 ? 0.0 : least / (double)count);
}

int main(int count, char **args) {
    size_t size = 0;
    if (count != 2) return fprintf(stderr, "usage: timing FILE\n"), 2;
    uint8_t *input = read_file(args[1], &size);
    if (input == NULL) return fprintf(stderr, "timing: %s cannot be read\n", args[1]), 1;
    measure("a call for each", by_each, input, size);
    measure("calls for 1 MiB", by_many, input, size);
    free(input);
    return 0;
}
