/* MEKHTURIA, THE FLOOR CONTROLLER, for C.
 *
 * Corrections of the mass axis to instrument carts, each taken exactly once, also while carts move. The floor lies in memory that you lend; the
 * library has none of its own, and calls nothing but memcpy, memmove and memset. Build it with `tools/prove mekhturia`, and
 * link target/staticlib/libmekhturia.a.
 *
 * Every call may be made with any numbers and any lent memory. It hands back a STATUS, MEKHTURIA_ANSWERED or why nothing was touched, and
 * writes its ANSWER into words that you lend, eight at least: the refusal's number, or 0 and what was done. A refusal changes nothing that is
 * lent. What stays with you: the lengths that you pass are those of the memory behind the addresses, which are not NULL, the slices of one call
 * do not overlap, and between calls nobody else writes the floor. (Whoever does is met by refusal 5, unless it is still a floor.)
 */
#ifndef MEKHTURIA_H
#define MEKHTURIA_H

#include <stddef.h>
#include <stdint.h>

#ifdef __cplusplus
extern "C" {
#endif

/* ---- The products: the first argument of every call ---- */

enum {
    MEKHTURIA_FLOOR = 0,  /* the floor of a laboratory: at most 16 stations, 64 carts and 32 held messages; 4,294,967,294 is the last number */
    MEKHTURIA_KIT = 1     /* the demonstration kit: at most 4 stations, 8 carts and 8 held messages; 65,534 is the last number */
};

/* ---- Lengths of the lent parts: words of eight octets, and octets ---- */

enum {
    MEKHTURIA_FLOOR_STATIONS = 1972,  /* words: the floor's own row and a row for each of 16 stations */
    MEKHTURIA_FLOOR_CARTS = 1216,     /* words: a row for each of 64 carts */
    MEKHTURIA_FLOOR_MESSAGES = 224,   /* words: a row for each of 32 held messages */
    MEKHTURIA_FLOOR_LINES = 11250,    /* words: the records on the lines between stations */
    MEKHTURIA_FLOOR_TEXTS = 1024,     /* octets: the texts of up to 32 octets */
    MEKHTURIA_FLOOR_STORE = 4096,     /* octets: the texts of 33 to 512 octets */

    MEKHTURIA_KIT_STATIONS = 580,     /* words: the kit's own row and a row for each of 4 stations */
    MEKHTURIA_KIT_CARTS = 152,        /* words: a row for each of 8 carts */
    MEKHTURIA_KIT_MESSAGES = 56,      /* words: a row for each of 8 held messages */
    MEKHTURIA_KIT_LINES = 2250,       /* words: the records on the lines between stations */
    MEKHTURIA_KIT_TEXTS = 256,        /* octets: the texts of up to 32 octets */
    MEKHTURIA_KIT_STORE = 4096,       /* octets: the texts of 33 to 512 octets */

    MEKHTURIA_TEXT = 32,              /* octets: the longest text of a send */
    MEKHTURIA_LONG_TEXT = 512,        /* octets: the longest text of all, and the buffer that takes every one */
    MEKHTURIA_FRAME = 16,             /* octets of a frame, before its text */
    MEKHTURIA_LINE = 1172,            /* octets: an output with so many free takes every line; with fewer a run over frames stops */
    MEKHTURIA_ANSWER_WORDS = 8        /* words for an answer; fewer are MEKHTURIA_TOO_FEW_WORDS */
};

/* A floor, and a kit, in memory. Set it all to 0 before the first start: only the mark, stations[0], must not be 1. */
typedef struct {
    uint64_t stations[MEKHTURIA_FLOOR_STATIONS], carts[MEKHTURIA_FLOOR_CARTS];
    uint64_t messages[MEKHTURIA_FLOOR_MESSAGES], lines[MEKHTURIA_FLOOR_LINES];
    uint8_t texts[MEKHTURIA_FLOOR_TEXTS], store[MEKHTURIA_FLOOR_STORE];
} mekhturia_floor;

typedef struct {
    uint64_t stations[MEKHTURIA_KIT_STATIONS], carts[MEKHTURIA_KIT_CARTS];
    uint64_t messages[MEKHTURIA_KIT_MESSAGES], lines[MEKHTURIA_KIT_LINES];
    uint8_t texts[MEKHTURIA_KIT_TEXTS], store[MEKHTURIA_KIT_STORE];
} mekhturia_kit;

/* The product and the six parts of such a floor or kit, as the first arguments of a call: mekhturia_wire(MEKHTURIA_LEND_FLOOR(&f), 1, 0, answer, 8) */
#define MEKHTURIA_LEND_FLOOR(f) MEKHTURIA_FLOOR, MEKHTURIA_LEND_PARTS(f)
#define MEKHTURIA_LEND_KIT(k) MEKHTURIA_KIT, MEKHTURIA_LEND_PARTS(k)
#define MEKHTURIA_LEND_PARTS(f) \
    (f)->stations, sizeof (f)->stations / 8, (f)->carts, sizeof (f)->carts / 8, (f)->messages, sizeof (f)->messages / 8, \
    (f)->lines, sizeof (f)->lines / 8, (f)->texts, sizeof (f)->texts, (f)->store, sizeof (f)->store

/* ---- The status of a call. With any but MEKHTURIA_ANSWERED nothing was touched: no lent word, no octet of a buffer, no word for the answer. ---- */

enum {
    MEKHTURIA_ANSWERED = 0,         /* the answer is in the lent words */
    MEKHTURIA_TOO_FEW_WORDS = 1,    /* fewer than MEKHTURIA_ANSWER_WORDS were lent for the answer */
    MEKHTURIA_NO_SUCH_PRODUCT = 2,  /* the product is neither MEKHTURIA_FLOOR nor MEKHTURIA_KIT */
    MEKHTURIA_TOO_FAR = 3           /* a run over frames: the first index or the input's length is 2^63 or more */
};

/* What a status says, for a person to read. */
static inline const char *mekhturia_status(uint64_t status) {
    switch (status) {
        case MEKHTURIA_ANSWERED: return "answered";
        case MEKHTURIA_TOO_FEW_WORDS: return "fewer than 8 words were lent for the answer";
        case MEKHTURIA_NO_SUCH_PRODUCT: return "the product is neither the floor nor the kit";
        case MEKHTURIA_TOO_FAR: return "the first index or the input's length is 2^63 or more";
        default: return "no status has this number";
    }
}

/* ---- The words of an answer ---- */

enum {
    MEKHTURIA_REFUSAL = 0,  /* of every answer but that of frames: the refusal's number, or 0 */

    MEKHTURIA_KIND = 1,     /* of an event: its kind (MEKHTURIA_KIND_...); */
    MEKHTURIA_A = 2,        /*   a and b, as each call says; */
    MEKHTURIA_B = 3,
    MEKHTURIA_PASSED = 4,   /*   p: the numbers passed over in the step; */
    MEKHTURIA_RECORDS = 5,  /*   w: the records put on lines; */
    MEKHTURIA_PLACE = 6,    /*   q: the largest place in a queue that the step gave, 0 if none; */
    MEKHTURIA_SIZE = 7,     /*   of a radio step, how many octets of the buffer are the text */

    MEKHTURIA_QUIET_STEPS = 1,   /* of quiet: how many steps it took, at most 5,248 (208 for the kit) */

    MEKHTURIA_TEXT_STORED = 1,   /* of text: 1 if it lies in store, 0 if in texts; */
    MEKHTURIA_TEXT_AT = 2,       /*   from which octet on; */
    MEKHTURIA_TEXT_OCTETS = 3,   /*   and how many octets it has */

    MEKHTURIA_FRAMES_STATE = 0,    /* of frames: why it stopped, MEKHTURIA_FRAMES_...; */
    MEKHTURIA_FRAMES_READ = 1,     /*   octets read from the front of the input; */
    MEKHTURIA_FRAMES_WRITTEN = 2,  /*   octets written to the front of the output; */
    MEKHTURIA_FRAMES_COUNT = 3     /*   frames, the one among them that ended the run */
};

enum {
    MEKHTURIA_FRAMES_FULL = 0,   /* the output has no room for another line: empty it, and go on behind what was read */
    MEKHTURIA_FRAMES_WAITS = 1,  /* no whole frame is left: go on with more input behind what was not read */
    MEKHTURIA_FRAMES_ENDED = 2   /* a frame was refused with 1 to 4, which ends the run; it begins at the first octet not read */
};

/* The kinds of events; and the kinds of records on a line, which are a of a wire step. */
enum {
    MEKHTURIA_KIND_START = 0,
    MEKHTURIA_KIND_ENTER = 1,
    MEKHTURIA_KIND_SEND = 2,
    MEKHTURIA_KIND_WIRE = 3,
    MEKHTURIA_KIND_RADIO = 4,
    MEKHTURIA_KIND_MOVE = 5,
    MEKHTURIA_KIND_FLAG = 6,
    MEKHTURIA_KIND_GROUP = 7,
    MEKHTURIA_KIND_SEND_GROUP = 8,
    MEKHTURIA_KIND_SEND_LONG = 9,
    MEKHTURIA_KIND_RETIRE = 10,

    MEKHTURIA_RECORD_MULTICAST = 1,   /* a message reaches a station; b is its number */
    MEKHTURIA_RECORD_ACK = 2,         /* its initiator hears who has it; b is its number */
    MEKHTURIA_RECORD_DELETE = 3,      /* all have it, and a station forgets it; b is its number */
    MEKHTURIA_RECORD_DEREGISTER = 4,  /* a cart's old station hears that it left; b is the cart */
    MEKHTURIA_RECORD_REGISTER = 5     /* a cart's record reaches its new station; b is the cart */
};

/* ---- Refusals: MEKHTURIA_REFUSED_... and what each says. The first that applies is the answer. ---- */

#define MEKHTURIA_REFUSALS(each) \
    each(1, MEKHTURIA_REFUSED_CUT, "a frame is cut short") \
    each(2, MEKHTURIA_REFUSED_KIND, "a frame has a kind that is not there") \
    each(3, MEKHTURIA_REFUSED_FIELD, "a field that the frame's kind does not list is not zero, or a flag is above 1") \
    each(4, MEKHTURIA_REFUSED_TEXT, "a text is longer than 32 octets, or that of a long send has not 33 to 512") \
    each(5, MEKHTURIA_REFUSED_FLOOR, "the floor is not started, a lent part has the wrong length, or its words are not those of a floor") \
    each(6, MEKHTURIA_REFUSED_STARTED, "the floor is started already") \
    each(7, MEKHTURIA_REFUSED_LIMITS, "a start with more stations or carts than there may be, or with none") \
    each(8, MEKHTURIA_REFUSED_STATION, "the floor has no such station") \
    each(9, MEKHTURIA_REFUSED_CART, "the floor has no such cart") \
    each(10, MEKHTURIA_REFUSED_ENTERED, "the cart is on the floor already") \
    each(11, MEKHTURIA_REFUSED_NO_CARTS, "the set of carts is empty") \
    each(12, MEKHTURIA_REFUSED_NAMED_OUTSIDE, "a cart of the set is not on the floor now") \
    each(13, MEKHTURIA_REFUSED_NUMBERS, "the station has used its last number") \
    each(14, MEKHTURIA_REFUSED_HELD, "as many messages are held as there may be") \
    each(15, MEKHTURIA_REFUSED_LINE, "the line is empty") \
    each(16, MEKHTURIA_REFUSED_ELSEWHERE, "the cart is not at this station") \
    each(17, MEKHTURIA_REFUSED_NOT_ITS_TURN, "the head of the queue is not for this cart") \
    each(18, MEKHTURIA_REFUSED_OUTSIDE, "the cart is not on the floor now") \
    each(19, MEKHTURIA_REFUSED_ON_ITS_WAY, "the cart is leaving or travelling") \
    each(20, MEKHTURIA_REFUSED_THERE, "the cart is at this station already") \
    each(21, MEKHTURIA_REFUSED_BUFFER, "the lent buffer is shorter than the text, or, to run until quiet, than 512 octets") \
    each(24, MEKHTURIA_REFUSED_NO_TEXT, "the text is empty") \
    each(25, MEKHTURIA_REFUSED_UNSTEADY, "the cart is not steady") \
    each(26, MEKHTURIA_REFUSED_GROUP, "the group is not defined, or above 15") \
    each(27, MEKHTURIA_REFUSED_STORE, "fewer octets of the store are free than the text has") \
    each(28, MEKHTURIA_REFUSED_NOT_HELD, "the message is not held") \
    each(29, MEKHTURIA_REFUSED_NAMED, "a held message names the cart")

#define MEKHTURIA_NAME_(number, name, says) name = number,
enum { MEKHTURIA_REFUSALS(MEKHTURIA_NAME_) MEKHTURIA_NOT_REFUSED = 0 };
#undef MEKHTURIA_NAME_

/* What a refusal says, for a person to read. */
static inline const char *mekhturia_refusal(uint64_t number) {
#define MEKHTURIA_SAYS_(number, name, says) case number: return says;
    switch (number) {
        case 0: return "not refused";
        MEKHTURIA_REFUSALS(MEKHTURIA_SAYS_)
        default: return "no refusal has this number";
    }
#undef MEKHTURIA_SAYS_
}

/* ---- The calls. Behind each stand the refusals that it can answer, in their order. ---- */

/* The six lent parts, each with its length: see MEKHTURIA_LEND_FLOOR and MEKHTURIA_LEND_KIT. */
#define MEKHTURIA_PARTS \
    uint64_t *stations, size_t station_words, uint64_t *carts, size_t cart_words, uint64_t *messages, size_t message_words, \
    uint64_t *lines, size_t line_words, uint8_t *texts, size_t text_octets, uint8_t *store, size_t store_octets
#define MEKHTURIA_READ_PARTS \
    const uint64_t *stations, size_t station_words, const uint64_t *carts, size_t cart_words, const uint64_t *messages, size_t message_words, \
    const uint64_t *lines, size_t line_words, const uint8_t *texts, size_t text_octets, const uint8_t *store, size_t store_octets

/* A start: so many stations and carts. a, b: stations, carts. 5, 6, 7. */
uint64_t mekhturia_start(uint64_t product, MEKHTURIA_PARTS,
    uint64_t stations_wanted, uint64_t carts_wanted, uint64_t *answer, size_t answer_words);

/* A cart rolls in at a station. a, b: station, cart. 5, 8, 9, 10. */
uint64_t mekhturia_enter(uint64_t product, MEKHTURIA_PARTS, uint64_t station, uint64_t cart, uint64_t *answer, size_t answer_words);

/* A correction to the carts of the set (cart c has weight 2^c), of 1 to 32 octets. a, b: station, number. 4, 5, 8, 9, 11, 12, 24, 13, 14. */
uint64_t mekhturia_send(uint64_t product, MEKHTURIA_PARTS,
    uint64_t station, uint64_t set, const uint8_t *text, size_t text_size, uint64_t *answer, size_t answer_words);

/* The first record on the line is handled. a, b: the record's kind (MEKHTURIA_RECORD_...), its message's number or its cart. 5, 8, 15. */
uint64_t mekhturia_wire(uint64_t product, MEKHTURIA_PARTS, uint64_t from, uint64_t to, uint64_t *answer, size_t answer_words);

/* The head of the station's queue goes to the cart; the text is the first octets of the buffer, 512 take every text. a, b: initiator, number.
 * 5, 8, 9, 16, 25, 17, 21. */
uint64_t mekhturia_radio(uint64_t product, MEKHTURIA_PARTS,
    uint64_t station, uint64_t cart, uint8_t *buffer, size_t buffer_size, uint64_t *answer, size_t answer_words);

/* The cart greets another station. a, b: cart, to. 5, 8, 9, 18, 19, 20. */
uint64_t mekhturia_move(uint64_t product, MEKHTURIA_PARTS, uint64_t cart, uint64_t to, uint64_t *answer, size_t answer_words);

/* The cart is told steady, or not (0). a, b: cart, flag. 5, 9, 18. */
uint64_t mekhturia_flag(uint64_t product, MEKHTURIA_PARTS, uint64_t cart, uint64_t steady, uint64_t *answer, size_t answer_words);

/* The group's members from now on; an empty set undefines it. a, b: group, how many members. 5, 9, 12, 26. */
uint64_t mekhturia_group(uint64_t product, MEKHTURIA_PARTS, uint64_t group, uint64_t set, uint64_t *answer, size_t answer_words);

/* A correction to the members of the group. a, b: station, number. 4, 5, 8, 26, 24, 13, 14. */
uint64_t mekhturia_send_group(uint64_t product, MEKHTURIA_PARTS,
    uint64_t station, uint64_t group, const uint8_t *text, size_t text_size, uint64_t *answer, size_t answer_words);

/* A full calibration table, of 33 to 512 octets. a, b: station, number. 4, 5, 8, 9, 11, 12, 13, 14, 27. */
uint64_t mekhturia_send_long(uint64_t product, MEKHTURIA_PARTS,
    uint64_t station, uint64_t set, const uint8_t *text, size_t text_size, uint64_t *answer, size_t answer_words);

/* The cart goes back to the factory: its number becomes free, and it leaves every group. a, b: cart, 0. 5, 9, 18, 19, 29. */
uint64_t mekhturia_retire(uint64_t product, MEKHTURIA_PARTS, uint64_t cart, uint64_t *answer, size_t answer_words);

/* Wire and radio steps until there is none to be taken, into a buffer of 512 octets at least. Its answer: MEKHTURIA_QUIET_... 5, 21. */
uint64_t mekhturia_quiet(uint64_t product, MEKHTURIA_PARTS, uint8_t *buffer, size_t buffer_size, uint64_t *answer, size_t answer_words);

/* Where the text of a held message lies, until the next event. Its answer: MEKHTURIA_TEXT_... 5, 8, 28. */
uint64_t mekhturia_text(uint64_t product, MEKHTURIA_READ_PARTS, uint64_t initiator, uint64_t number, uint64_t *answer, size_t answer_words);

/* FRAMES FROM ONE SLICE, THEIR LINES INTO ANOTHER, for whoever has many events: the floor is tested once for each call and not for each event. Whole
 * frames are taken from the front of the input while the output has room for a line (MEKHTURIA_LINE); `index` is the number of the first, and `last` is
 * 0 where more input may come. The lines are those that the program `floor` prints. On a floor that is none every frame's line is a refusal. A call
 * also costs as much as about a thousand frames, so lend it pieces of 1 MiB. Its answer: MEKHTURIA_FRAMES_... */
uint64_t mekhturia_frames(uint64_t product, MEKHTURIA_PARTS,
    const uint8_t *input, size_t input_size, uint8_t *output, size_t output_size, uint64_t index, uint64_t last, uint64_t *answer, size_t answer_words);

/* WHICH PART HAS THE WRONG LENGTH, the first that has, and NULL where all are right: refusal 5 alone does not say. It reads none of them. */
static inline const char *mekhturia_wrong_part(uint64_t product, MEKHTURIA_READ_PARTS) {
    (void)stations, (void)carts, (void)messages, (void)lines, (void)texts, (void)store;
    const int kit = product == MEKHTURIA_KIT;
    if (!kit && product != MEKHTURIA_FLOOR) return mekhturia_status(MEKHTURIA_NO_SUCH_PRODUCT);
    if (station_words != (kit ? MEKHTURIA_KIT_STATIONS : MEKHTURIA_FLOOR_STATIONS))
        return kit ? "stations of a kit has 580 words" : "stations of a floor has 1972 words";
    if (cart_words != (kit ? MEKHTURIA_KIT_CARTS : MEKHTURIA_FLOOR_CARTS))
        return kit ? "carts of a kit has 152 words" : "carts of a floor has 1216 words";
    if (message_words != (kit ? MEKHTURIA_KIT_MESSAGES : MEKHTURIA_FLOOR_MESSAGES))
        return kit ? "messages of a kit has 56 words" : "messages of a floor has 224 words";
    if (line_words != (kit ? MEKHTURIA_KIT_LINES : MEKHTURIA_FLOOR_LINES))
        return kit ? "lines of a kit has 2250 words" : "lines of a floor has 11250 words";
    if (text_octets != (kit ? MEKHTURIA_KIT_TEXTS : MEKHTURIA_FLOOR_TEXTS))
        return kit ? "texts of a kit has 256 octets" : "texts of a floor has 1024 octets";
    if (store_octets != (kit ? MEKHTURIA_KIT_STORE : MEKHTURIA_FLOOR_STORE))
        return kit ? "store of a kit has 4096 octets" : "store of a floor has 4096 octets";
    return NULL;
}

#undef MEKHTURIA_PARTS
#undef MEKHTURIA_READ_PARTS

#ifdef __cplusplus
}
#endif

#endif
