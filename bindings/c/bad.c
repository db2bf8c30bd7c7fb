/* What must not go wrong: too few words for an answer, a product that is none, lent memory of the wrong size, a floor whose words are damaged. Each must
 * be answered, and nothing be written half. The last line is `N passed, N failed`.
 *
 *   bad                makes the checks
 *   bad wrong-size     lends a part that is one word short, as a program might, and says so: the exit status is 1
 */
#include "checks.h"

static uint8_t buffer[MEKHTURIA_LONG_TEXT];
static const uint8_t text[40] = {1};

/* Every call but the run over frames, with a product and so many words for its answer: whether each has this status. */
static void all_have(uint64_t status, lab l, uint64_t *words, size_t count, const char *what) {
    const uint64_t statuses[] = {
        mekhturia_start(LEND(&l), 2, 1, words, count),
        mekhturia_enter(LEND(&l), 0, 0, words, count),
        mekhturia_send(LEND(&l), 0, 1, text, 1, words, count),
        mekhturia_wire(LEND(&l), 0, 0, words, count),
        mekhturia_radio(LEND(&l), 0, 0, buffer, sizeof buffer, words, count),
        mekhturia_move(LEND(&l), 0, 1, words, count),
        mekhturia_flag(LEND(&l), 0, 1, words, count),
        mekhturia_group(LEND(&l), 0, 1, words, count),
        mekhturia_send_group(LEND(&l), 0, 0, text, 1, words, count),
        mekhturia_send_long(LEND(&l), 0, 1, text, sizeof text, words, count),
        mekhturia_retire(LEND(&l), 0, words, count),
        mekhturia_quiet(LEND(&l), buffer, sizeof buffer, words, count),
        mekhturia_text(LEND(&l), 0, 0, words, count),
    };
    for (size_t i = 0; i < sizeof statuses / sizeof *statuses; i++) {
        holds(statuses[i] == status, what);
        if (statuses[i] != status) printf("    call %zu has status %d\n", i, (int)statuses[i]);
    }
}

/* A floor on which events would do something: a cart that has entered, and a correction on its way to it. */
static lab busy(void) {
    lab l = new_lab(MEKHTURIA_FLOOR);
    mekhturia_start(LEND(&l), 2, 2, answer, 8), holds(answer[MEKHTURIA_REFUSAL] == 0, "start");
    mekhturia_enter(LEND(&l), 0, 0, answer, 8), holds(answer[MEKHTURIA_REFUSAL] == 0, "enter");
    mekhturia_send(LEND(&l), 0, 1, text, 1, answer, 8), holds(answer[MEKHTURIA_REFUSAL] == 0, "send");
    return l;
}

/* With a status that is not 0 nothing is touched; too few words are asked for first. */
static void statuses(void) {
    uint64_t words[MEKHTURIA_ANSWER_WORDS], marked[MEKHTURIA_ANSWER_WORDS];
    lab l = busy();
    memset(words, 0x55, sizeof words);
    memset(marked, 0x55, sizeof marked);
    memset(buffer, 0xEE, sizeof buffer);
    remember();
    all_have(MEKHTURIA_TOO_FEW_WORDS, l, words, 7, "with 7 words there are too few");
    all_have(MEKHTURIA_TOO_FEW_WORDS, l, words, 0, "with none there are too few");
    l.product = 2;
    all_have(MEKHTURIA_NO_SUCH_PRODUCT, l, words, 8, "there is no product 2");
    all_have(MEKHTURIA_TOO_FEW_WORDS, l, words, 7, "too few words come before a product that is none");
    l.product = UINT64_MAX;
    all_have(MEKHTURIA_NO_SUCH_PRODUCT, l, words, 8, "there is no product 2^64 - 1");
    holds(memcmp(words, marked, sizeof words) == 0, "no word for the answer is written");
    holds(buffer[0] == 0xEE && memcmp(buffer, buffer + 1, sizeof buffer - 1) == 0, "no octet of the buffer is written");
    holds(untouched(), "no word of the floor is written");
}

/* An event and a start on parts of which one has the wrong length: 5, and the header's function says which part. */
static void wrong_part(lab l, const char *says) {
    holds(mekhturia_enter(LEND(&l), 1, 1, answer, 8) == MEKHTURIA_ANSWERED && answer[MEKHTURIA_REFUSAL] == MEKHTURIA_REFUSED_FLOOR, says);
    holds(mekhturia_start(LEND(&l), 2, 2, answer, 8) == MEKHTURIA_ANSWERED && answer[MEKHTURIA_REFUSAL] == MEKHTURIA_REFUSED_FLOOR, says);
    const char *said = mekhturia_wrong_part(LEND(&l));
    holds(said != NULL && strcmp(said, says) == 0, says);
}

static void wrong_lengths(void) {
    const lab whole = busy(), kit = new_lab(MEKHTURIA_KIT);
    lab l;
    remember();
    l = whole, l.station_words--, wrong_part(l, "stations of a floor has 1972 words");
    l = whole, l.cart_words--, wrong_part(l, "carts of a floor has 1216 words");
    l = whole, l.message_words--, wrong_part(l, "messages of a floor has 224 words");
    l = whole, l.line_words--, wrong_part(l, "lines of a floor has 11250 words");
    l = whole, l.text_octets--, wrong_part(l, "texts of a floor has 1024 octets");
    l = whole, l.store_octets--, wrong_part(l, "store of a floor has 4096 octets");
    l = whole, l.station_words = 0, wrong_part(l, "stations of a floor has 1972 words");
    l = whole, l.store_octets = 0, wrong_part(l, "store of a floor has 4096 octets");
    l = whole, l.product = MEKHTURIA_KIT, wrong_part(l, "stations of a kit has 580 words");
    l = kit, l.product = MEKHTURIA_FLOOR, wrong_part(l, "stations of a floor has 1972 words");
    l = kit, l.cart_words--, wrong_part(l, "carts of a kit has 152 words");
    l = kit, l.message_words--, wrong_part(l, "messages of a kit has 56 words");
    l = kit, l.line_words--, wrong_part(l, "lines of a kit has 2250 words");
    l = kit, l.text_octets--, wrong_part(l, "texts of a kit has 256 octets");
    l = kit, l.store_octets--, wrong_part(l, "store of a kit has 4096 octets");
    holds(untouched(), "a refusal writes no word of the floor");
    holds(mekhturia_wrong_part(LEND(&whole)) == NULL && mekhturia_wrong_part(LEND(&kit)) == NULL, "no part of a floor or kit is wrong");
    l = whole, l.product = 2, holds(strcmp(mekhturia_wrong_part(LEND(&l)), mekhturia_status(MEKHTURIA_NO_SUCH_PRODUCT)) == 0, "product 2 has no parts");
}

/* A floor whose words are damaged answers 5 to every event, and 6 to a start. */
static void damaged(void) {
    const lab l = busy();
    floor_memory.stations[1] = 99; /* how many stations there are */
    remember();
    mekhturia_start(LEND(&l), 2, 2, answer, 8), holds(answer[MEKHTURIA_REFUSAL] == MEKHTURIA_REFUSED_STARTED, "a start on a damaged floor");
    mekhturia_enter(LEND(&l), 0, 1, answer, 8), holds(answer[MEKHTURIA_REFUSAL] == MEKHTURIA_REFUSED_FLOOR, "an enter on a damaged floor");
    mekhturia_quiet(LEND(&l), buffer, sizeof buffer, answer, 8), holds(answer[MEKHTURIA_REFUSAL] == MEKHTURIA_REFUSED_FLOOR, "quiet on a damaged floor");
    mekhturia_text(LEND(&l), 0, 0, answer, 8), holds(answer[MEKHTURIA_REFUSAL] == MEKHTURIA_REFUSED_FLOOR, "a reading call on a damaged floor");
    holds(untouched(), "a damaged floor stays as it is");
}

/* The text of a held message, in either table, until nothing is held. */
static void texts(void) {
    uint8_t table[33];
    const lab l = busy();
    memset(table, 0xAB, sizeof table);
    mekhturia_send_long(LEND(&l), 1, 1, table, sizeof table, answer, 8), holds(answer[MEKHTURIA_REFUSAL] == 0, "a long send");
    mekhturia_text(LEND(&l), 0, 0, answer, 8);
    holds(answer[MEKHTURIA_REFUSAL] == 0 && answer[MEKHTURIA_TEXT_STORED] == 0 && answer[MEKHTURIA_TEXT_OCTETS] == 1, "where a short text lies");
    holds(floor_memory.texts[answer[MEKHTURIA_TEXT_AT]] == text[0], "the short text");
    mekhturia_text(LEND(&l), 1, 0, answer, 8);
    holds(answer[MEKHTURIA_REFUSAL] == 0 && answer[MEKHTURIA_TEXT_STORED] == 1 && answer[MEKHTURIA_TEXT_OCTETS] == 33, "where a long text lies");
    holds(memcmp(floor_memory.store + answer[MEKHTURIA_TEXT_AT], table, sizeof table) == 0, "the long text");
    mekhturia_text(LEND(&l), 0, 9, answer, 8), holds(answer[MEKHTURIA_REFUSAL] == MEKHTURIA_REFUSED_NOT_HELD, "a message that is not held");
    mekhturia_retire(LEND(&l), 0, answer, 8), holds(answer[MEKHTURIA_REFUSAL] == MEKHTURIA_REFUSED_NAMED, "a cart that a held message names");
    mekhturia_quiet(LEND(&l), buffer, 511, answer, 8), holds(answer[MEKHTURIA_REFUSAL] == MEKHTURIA_REFUSED_BUFFER, "quiet with 511 octets");
    mekhturia_quiet(LEND(&l), buffer, 512, answer, 8), holds(answer[MEKHTURIA_REFUSAL] == 0 && answer[MEKHTURIA_QUIET_STEPS] > 0, "quiet");
    mekhturia_text(LEND(&l), 0, 0, answer, 8), holds(answer[MEKHTURIA_REFUSAL] == MEKHTURIA_REFUSED_NOT_HELD, "nothing is held when all is quiet");
    mekhturia_retire(LEND(&l), 0, answer, 8), holds(answer[MEKHTURIA_REFUSAL] == 0 && answer[MEKHTURIA_KIND] == MEKHTURIA_KIND_RETIRE, "retire");
    mekhturia_move(LEND(&l), 0, 1, answer, 8), holds(answer[MEKHTURIA_REFUSAL] == MEKHTURIA_REFUSED_OUTSIDE, "a retired cart is not on the floor");
}

/* What a program can say that has lent memory of the wrong size. */
static int wrong_size(void) {
    lab l = new_lab(MEKHTURIA_FLOOR);
    l.cart_words--;
    const uint64_t status = mekhturia_start(LEND(&l), 2, 1, answer, 8);
    if (status != MEKHTURIA_ANSWERED) return fprintf(stderr, "bad: %s\n", mekhturia_status(status)), 1;
    if (answer[MEKHTURIA_REFUSAL] == MEKHTURIA_NOT_REFUSED) return 0;
    const char *part = mekhturia_wrong_part(LEND(&l));
    fprintf(stderr, "bad: no %d: %s\n", (int)answer[MEKHTURIA_REFUSAL], part != NULL ? part : mekhturia_refusal(answer[MEKHTURIA_REFUSAL]));
    return 1;
}

int main(int count, char **args) {
    if (count == 2 && strcmp(args[1], "wrong-size") == 0) return wrong_size();
    statuses();
    wrong_lengths();
    damaged();
    texts();
    return result();
}
