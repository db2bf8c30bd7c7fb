/* K1 of the scope paper, by the library's calls: two stations, one cart, a correction that reaches the cart although it rolls on before it has it.
 *
 *   tools/prove mekhturia
 *   cc -Iinclude examples/k1.c target/staticlib/libmekhturia.a -o k1 && ./k1
 *
 * It prints for each event the line that the program `floor` prints for its frame. The exit status is 1 if an event was not answered.
 */
#include <inttypes.h>
#include <stdio.h>

#include "mekhturia.h"

static mekhturia_floor lab; /* all 0: not started */
static uint64_t answer[MEKHTURIA_ANSWER_WORDS];
static uint8_t buffer[MEKHTURIA_LONG_TEXT];

/* The line of the event that was just made: 0, or 1 if it was not answered. */
static int tell(uint64_t status) {
    static int index = 0;
    if (status != MEKHTURIA_ANSWERED) {
        fprintf(stderr, "k1: event %d was not answered: %s\n", index, mekhturia_status(status));
        return 1;
    }
    if (answer[MEKHTURIA_REFUSAL] != MEKHTURIA_NOT_REFUSED) {
        printf("%d no %" PRIu64 "\n", index++, answer[MEKHTURIA_REFUSAL]);
        return 0;
    }
    printf("%d", index++);
    for (int word = MEKHTURIA_KIND; word <= MEKHTURIA_PLACE; word++) printf(" %" PRIu64, answer[word]);
    for (uint64_t i = 0; i < answer[MEKHTURIA_SIZE]; i++) printf("%s%02x", i == 0 ? " " : "", buffer[i]);
    printf("\n");
    return 0;
}

#define LEND MEKHTURIA_LEND_FLOOR(&lab)
#define ANSWER answer, MEKHTURIA_ANSWER_WORDS

int main(void) {
    const uint8_t shift[] = {0xA1};
    int bad = 0;
    bad |= tell(mekhturia_start(LEND, 2, 1, ANSWER));
    bad |= tell(mekhturia_enter(LEND, 0, 0, ANSWER));
    bad |= tell(mekhturia_send(LEND, 1, 1, shift, sizeof shift, ANSWER)); /* cart 0 has weight 2^0 */
    bad |= tell(mekhturia_wire(LEND, 1, 1, ANSWER));
    bad |= tell(mekhturia_move(LEND, 0, 1, ANSWER));
    bad |= tell(mekhturia_wire(LEND, 1, 0, ANSWER));
    bad |= tell(mekhturia_radio(LEND, 0, 0, buffer, sizeof buffer, ANSWER)); /* no 16: it has left station 0 */
    bad |= tell(mekhturia_wire(LEND, 1, 0, ANSWER));
    bad |= tell(mekhturia_wire(LEND, 0, 1, ANSWER));
    bad |= tell(mekhturia_radio(LEND, 1, 0, buffer, sizeof buffer, ANSWER));
    bad |= tell(mekhturia_wire(LEND, 1, 1, ANSWER));
    bad |= tell(mekhturia_wire(LEND, 1, 0, ANSWER));
    bad |= tell(mekhturia_wire(LEND, 1, 1, ANSWER));
    return bad;
}
