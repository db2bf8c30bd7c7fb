/* The stored runs from C: for each file its name and the lines of its frames, as the crates `runs` and `demos` print them.
 *
 *   runs floor|kit events|frames FILE..
 *
 * `events` makes every event by its own call, `frames` runs them by one call for each piece of 1 MiB. The exit status is 0; 1 where a file cannot
 * be read or a call was not answered; 3 where a frame was refused with 1 to 4, which ends its file's run; 2 where the words are others than these.
 */
#include <inttypes.h>

#include "events.h"
#include "files.h"
#include "pieces.h"

/* The line of an event. A radio step has its text behind the numbers, `-` if that is empty. */
static void put_line(FILE *out, uint64_t index, const uint64_t *answer, const uint8_t *buffer) {
    fprintf(out, "%" PRIu64, index);
    if (answer[MEKHTURIA_REFUSAL] != MEKHTURIA_NOT_REFUSED) {
        fprintf(out, " no %" PRIu64 "\n", answer[MEKHTURIA_REFUSAL]);
        return;
    }
    for (int word = MEKHTURIA_KIND; word <= MEKHTURIA_PLACE; word++) fprintf(out, " %" PRIu64, answer[word]);
    if (answer[MEKHTURIA_KIND] == MEKHTURIA_KIND_RADIO) fputs(answer[MEKHTURIA_SIZE] == 0 ? " -" : " ", out);
    for (uint64_t i = 0; i < answer[MEKHTURIA_SIZE]; i++) fprintf(out, "%02x", buffer[i]);
    fputs("\n", out);
}

static course by_events(const lab *l, const uint8_t *input, size_t size, FILE *out) {
    static uint8_t buffer[MEKHTURIA_LONG_TEXT];
    uint64_t answer[MEKHTURIA_ANSWER_WORDS] = {0};
    course c = {0};
    frame f;
    for (; c.octet < size; c.octet += MEKHTURIA_FRAME + f.length) {
        c.refusal = (uint64_t)take_apart(input + c.octet, size - c.octet, &f);
        if (c.refusal != MEKHTURIA_NOT_REFUSED) {
            fprintf(out, "%" PRIu64 " no %" PRIu64 "\n", c.frames++, c.refusal);
            return c;
        }
        c.status = make(l, &f, buffer, answer);
        if (c.status != MEKHTURIA_ANSWERED) return c;
        put_line(out, c.frames++, answer, buffer);
    }
    return c;
}

/* Runs one file: the exit status. */
static int run_file(uint64_t product, int frames, const char *path) {
    size_t size = 0;
    uint8_t *input = read_file(path, &size);
    if (input == NULL) return fprintf(stderr, "runs: %s cannot be read\n", path), 1;
    const char *name = strrchr(path, '/');
    printf("%s\n", name == NULL ? path : name + 1);
    const lab l = new_lab(product);
    const course c = frames ? by_pieces(&l, input, size, stdout) : by_events(&l, input, size, stdout);
    free(input);
    if (c.status != MEKHTURIA_ANSWERED) return fprintf(stderr, "runs: %s: octet %zu: %s\n", path, c.octet, mekhturia_status(c.status)), 1;
    if (c.refusal != MEKHTURIA_NOT_REFUSED) return fprintf(stderr, "runs: %s: octet %zu: %s\n", path, c.octet, mekhturia_refusal(c.refusal)), 3;
    return 0;
}

int main(int count, char **args) {
    const int kit = count > 2 && strcmp(args[1], "kit") == 0, frames = count > 2 && strcmp(args[2], "frames") == 0;
    if (count < 3 || (!kit && strcmp(args[1], "floor") != 0) || (!frames && strcmp(args[2], "events") != 0))
        return fprintf(stderr, "usage: runs floor|kit events|frames FILE..\n"), 2;
    int status = 0;
    for (int i = 3; i < count && status != 1; i++) {
        const int one = run_file(kit ? MEKHTURIA_KIT : MEKHTURIA_FLOOR, frames, args[i]);
        status = one != 0 ? one : status;
    }
    if (fflush(stdout) != 0) return fprintf(stderr, "runs: the lines cannot be written\n"), 1;
    return status;
}
