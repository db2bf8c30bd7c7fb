/* Frames taken apart in C, for tests that make every event by its own call: the same lines as a run over the frames. */
#ifndef MEKHTURIA_TEST_EVENTS_H
#define MEKHTURIA_TEST_EVENTS_H

#include "lab.h"

typedef struct {
    uint64_t kind, station, cart, other, length, zero, set;
    const uint8_t *text;
} frame;

static uint64_t big_endian(const uint8_t *octets) {
    uint64_t n = 0;
    for (int i = 0; i < 8; i++) n = n << 8 | octets[i];
    return n;
}

/* The fields that a kind does not list, as a sum: 0 where they are all 0. */
static uint64_t unlisted(const frame *f) {
    const uint64_t station = f->station, cart = f->cart, other = f->other, length = f->length, zero = f->zero, set = f->set != 0;
    switch (f->kind) {
        case MEKHTURIA_KIND_START: case MEKHTURIA_KIND_ENTER: case MEKHTURIA_KIND_RADIO: return other + length + zero + set;
        case MEKHTURIA_KIND_SEND: return cart + other + zero;
        case MEKHTURIA_KIND_WIRE: return cart + length + zero + set;
        case MEKHTURIA_KIND_MOVE: return station + length + zero + set;
        case MEKHTURIA_KIND_FLAG: return station + length + zero + set + (other > 1);
        case MEKHTURIA_KIND_GROUP: return station + cart + length + zero;
        case MEKHTURIA_KIND_SEND_GROUP: return cart + zero + set;
        case MEKHTURIA_KIND_SEND_LONG: return cart + other + length + (zero >> 16);
        default: return station + other + length + zero + set;
    }
}

/* The frame at the front of these octets: 0, or its refusal. */
static int take_apart(const uint8_t *octets, size_t have, frame *f) {
    if (have < MEKHTURIA_FRAME) return MEKHTURIA_REFUSED_CUT;
    const uint64_t head = big_endian(octets);
    *f = (frame){head >> 60, head >> 56 & 15, head >> 50 & 63, head >> 46 & 15, head >> 40 & 63, head & 0xFFFFFFFFFF, big_endian(octets + 8), octets + 16};
    if (f->kind > MEKHTURIA_KIND_RETIRE) return MEKHTURIA_REFUSED_KIND;
    if (unlisted(f) != 0) return MEKHTURIA_REFUSED_FIELD;
    if (f->kind == MEKHTURIA_KIND_SEND_LONG) {
        f->length = f->zero;
        if (f->length <= MEKHTURIA_TEXT || f->length > MEKHTURIA_LONG_TEXT) return MEKHTURIA_REFUSED_TEXT;
    } else if (f->length > MEKHTURIA_TEXT) {
        return MEKHTURIA_REFUSED_TEXT;
    }
    return have - MEKHTURIA_FRAME < f->length ? MEKHTURIA_REFUSED_CUT : 0;
}

/* The frame's event, by its call: its status. */
static uint64_t make(const lab *l, const frame *f, uint8_t *buffer, uint64_t *answer) {
    switch (f->kind) {
        case MEKHTURIA_KIND_START: return mekhturia_start(LEND(l), f->station + 1, f->cart + 1, answer, 8);
        case MEKHTURIA_KIND_ENTER: return mekhturia_enter(LEND(l), f->station, f->cart, answer, 8);
        case MEKHTURIA_KIND_SEND: return mekhturia_send(LEND(l), f->station, f->set, f->text, f->length, answer, 8);
        case MEKHTURIA_KIND_WIRE: return mekhturia_wire(LEND(l), f->station, f->other, answer, 8);
        case MEKHTURIA_KIND_RADIO: return mekhturia_radio(LEND(l), f->station, f->cart, buffer, MEKHTURIA_LONG_TEXT, answer, 8);
        case MEKHTURIA_KIND_MOVE: return mekhturia_move(LEND(l), f->cart, f->other, answer, 8);
        case MEKHTURIA_KIND_FLAG: return mekhturia_flag(LEND(l), f->cart, f->other, answer, 8);
        case MEKHTURIA_KIND_GROUP: return mekhturia_group(LEND(l), f->other, f->set, answer, 8);
        case MEKHTURIA_KIND_SEND_GROUP: return mekhturia_send_group(LEND(l), f->station, f->other, f->text, f->length, answer, 8);
        case MEKHTURIA_KIND_SEND_LONG: return mekhturia_send_long(LEND(l), f->station, f->set, f->text, f->length, answer, 8);
        default: return mekhturia_retire(LEND(l), f->cart, answer, 8);
    }
}

#endif
