/* A floor or a kit in memory of its own, for tests that try both: its product, and its six parts with their lengths. */
#ifndef MEKHTURIA_TEST_LAB_H
#define MEKHTURIA_TEST_LAB_H

#include <string.h>

#include "mekhturia.h"

typedef struct {
    uint64_t product;
    uint64_t *stations, *carts, *messages, *lines;
    uint8_t *texts, *store;
    size_t station_words, cart_words, message_words, line_words, text_octets, store_octets;
} lab;

#define LEND(l) \
    (l)->product, (l)->stations, (l)->station_words, (l)->carts, (l)->cart_words, (l)->messages, (l)->message_words, \
    (l)->lines, (l)->line_words, (l)->texts, (l)->text_octets, (l)->store, (l)->store_octets

static mekhturia_floor floor_memory;
static mekhturia_kit kit_memory;

#define LAB_OF(number, memory)                                                                                                                     \
    (lab) {                                                                                                                                        \
        .product = number, .stations = (memory).stations, .carts = (memory).carts, .messages = (memory).messages, .lines = (memory).lines,         \
        .texts = (memory).texts, .store = (memory).store, .station_words = sizeof (memory).stations / 8, .cart_words = sizeof (memory).carts / 8,  \
        .message_words = sizeof (memory).messages / 8, .line_words = sizeof (memory).lines / 8, .text_octets = sizeof (memory).texts,              \
        .store_octets = sizeof (memory).store                                                                                                      \
    }

/* One that is not started. There is one of each product. */
static lab new_lab(uint64_t product) {
    if (product == MEKHTURIA_KIT) {
        memset(&kit_memory, 0, sizeof kit_memory);
        return LAB_OF(MEKHTURIA_KIT, kit_memory);
    }
    memset(&floor_memory, 0, sizeof floor_memory);
    return LAB_OF(MEKHTURIA_FLOOR, floor_memory);
}

#endif
