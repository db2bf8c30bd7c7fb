/* What must not go wrong with frames: too few words for the answer, an index that is too far, lent memory of the wrong size, a floor whose words are
 * damaged, frames that are cut, an output without room. The last line is `N passed, N failed`.
 */
#include "checks.h"

static uint8_t output[4096];

/* The call, and the state that it stopped with. */
static uint64_t frames(const lab *l, const uint8_t *input, size_t size, size_t room, uint64_t index, uint64_t last) {
    holds(mekhturia_frames(LEND(l), input, size, output, room, index, last, answer, 8) == MEKHTURIA_ANSWERED, "it is answered");
    return answer[MEKHTURIA_FRAMES_STATE];
}

/* Were these lines written, for so many frames of so many octets? */
static int wrote(const char *lines, uint64_t count, uint64_t octets) {
    return answer[MEKHTURIA_FRAMES_COUNT] == count && answer[MEKHTURIA_FRAMES_READ] == octets &&
           answer[MEKHTURIA_FRAMES_WRITTEN] == strlen(lines) && memcmp(output, lines, strlen(lines)) == 0;
}

static void statuses(void) {
    const uint8_t start[16] = {0x01};
    lab l = new_lab(MEKHTURIA_FLOOR);
    memset(answer, 0x55, sizeof answer);
    memset(output, 0xEE, sizeof output);
    remember();
    holds(mekhturia_frames(LEND(&l), start, 16, output, sizeof output, UINT64_MAX, 1, answer, 7) == MEKHTURIA_TOO_FEW_WORDS, "7 words are asked first");
    holds(mekhturia_frames(LEND(&l), start, 16, output, sizeof output, UINT64_MAX, 1, answer, 8) == MEKHTURIA_TOO_FAR, "an index of 2^64 - 1");
    holds(mekhturia_frames(LEND(&l), start, 16, output, sizeof output, UINT64_C(1) << 63, 1, answer, 8) == MEKHTURIA_TOO_FAR, "an index of 2^63");
    l.product = 2;
    holds(mekhturia_frames(LEND(&l), start, 16, output, sizeof output, UINT64_MAX, 1, answer, 8) == MEKHTURIA_NO_SUCH_PRODUCT, "product 2");
    holds(answer[0] == answer[7] && output[0] == 0xEE && memcmp(output, output + 1, sizeof output - 1) == 0, "neither words nor output are written");
    holds(untouched(), "the floor is not touched");
    l.product = MEKHTURIA_FLOOR;
    frames(&l, start, 16, sizeof output, (UINT64_C(1) << 63) - 1, 1);
    holds(wrote("9223372036854775807 0 2 1 0 0 0\n", 1, 16), "an index of 2^63 - 1");
}

/* Every frame is refused on a floor that no event can go on with, and a start is 6 where only the words are damaged. */
static void no_floor(void) {
    const uint8_t input[48] = {[0] = 0x01, [16] = 0x10, [32] = 0x30};
    lab l = new_lab(MEKHTURIA_FLOOR);
    l.cart_words--;
    remember();
    frames(&l, input, 48, sizeof output, 7, 1), holds(wrote("7 no 5\n8 no 5\n9 no 5\n", 3, 48), "carts one word short");
    l = new_lab(MEKHTURIA_FLOOR), l.station_words = 0;
    frames(&l, input, 48, sizeof output, 7, 1), holds(wrote("7 no 5\n8 no 5\n9 no 5\n", 3, 48), "no stations at all");
    holds(untouched(), "parts of the wrong length are not touched");
    l = new_lab(MEKHTURIA_FLOOR);
    frames(&l, input, 16, sizeof output, 0, 1), holds(wrote("0 0 2 1 0 0 0\n", 1, 16), "a start");
    floor_memory.stations[1] = 99;
    remember();
    frames(&l, input, 48, sizeof output, 0, 1), holds(wrote("0 no 6\n1 no 5\n2 no 5\n", 3, 48), "damaged words");
    holds(untouched(), "a damaged floor stays as it is");
}

/* Cut frames wait where more may come, and at the end are 1. An output without room takes nothing. */
static void cut(void) {
    const uint8_t start[16] = {0x01};
    const lab l = new_lab(MEKHTURIA_FLOOR);
    remember();
    holds(frames(&l, start, 15, sizeof output, 0, 0) == MEKHTURIA_FRAMES_WAITS && wrote("", 0, 0), "15 octets, and more may come");
    holds(frames(&l, start, 15, sizeof output, 3, 1) == MEKHTURIA_FRAMES_ENDED && wrote("3 no 1\n", 1, 0), "15 octets, and no more come");
    holds(frames(&l, start, 16, MEKHTURIA_LINE - 1, 0, 1) == MEKHTURIA_FRAMES_FULL && wrote("", 0, 0), "an output one octet too small");
    holds(frames(&l, start, 16, 0, 0, 1) == MEKHTURIA_FRAMES_FULL && wrote("", 0, 0), "no output at all");
    holds(frames(&l, start, 0, sizeof output, 0, 1) == MEKHTURIA_FRAMES_WAITS && wrote("", 0, 0), "no input at all");
    holds(untouched(), "none of these touches the floor");
    holds(frames(&l, start, 16, MEKHTURIA_LINE, 0, 1) == MEKHTURIA_FRAMES_FULL && wrote("0 0 2 1 0 0 0\n", 1, 16), "an output of one line");
}

int main(void) {
    statuses();
    no_floor();
    cut();
    return result();
}
