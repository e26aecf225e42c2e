/*
 * What the tests expect, by the header's words: the reasons that hold of a key, a round count, rights, a size block and a contractor, the
 * first of several, and the bytes of a roll.
 */
#ifndef RULES_H
#define RULES_H

#include "gordzila.h"

/* The earlier reason if there is one, else this number where it holds, else 0. */
static inline uint32_t then(uint32_t earlier, int holds, uint32_t number) { return earlier != 0 ? earlier : holds ? number : 0; }

static inline uint32_t of_key(size_t length) { return length == 12 || length == 18 || length == 24 ? 0 : GORDZILA_KEY_LENGTH; }

/* Of a key and a round count, in the header's order. */
static inline uint32_t of_rounds(size_t key_length, uint32_t rounds) {
    uint32_t t = (uint32_t)key_length / 6;
    uint32_t least = t == 2 ? 10 : 4 * t + 2;
    uint32_t most = t == 2 ? 11 : t == 3 ? 17 : 23;
    return then(of_key(key_length), rounds < least || rounds > most, GORDZILA_ROUND_COUNT);
}

static inline int is_right(uint32_t right) { return right == GORDZILA_READING || right == GORDZILA_OVERWRITING; }

/* For sweeps. Some have one byte alone that is not 0, each in another place, so that a number that is cut is found out. */
static const uint32_t size_blocks[] = {0, 1, 256, 65536, 16777216, 0xffffffffu};

/* Every number is one but 0. */
static inline int is_size_block(uint32_t number) { return number != 0; }

/* Of the right and the size block that a check, a queue or an issue is asked for, in the header's order, after an earlier reason. */
static inline uint32_t of_asked(uint32_t earlier, uint32_t right, uint32_t block) {
    return then(then(earlier, !is_right(right), GORDZILA_RIGHT), !is_size_block(block), GORDZILA_BLOCK_ZERO);
}

/* The one case in which a grant for the size block does not open it for the right asked for. */
static inline int falls_short(uint32_t in_grant, uint32_t asked) {
    return in_grant == GORDZILA_READING && asked == GORDZILA_OVERWRITING;
}

/* A contractor's entry on the roll. Any byte may be their highest right. */
struct entry {
    unsigned count;
    uint8_t highest;
};

static inline int is_contractor(uint32_t number) { return number >= 1 && number <= 200; }

static inline int in_standing(struct entry e) { return e.count % 2 == 1 && e.count < 65535; }

/* Whether a right is above the highest one: only 2 as the highest lets its contractor overwrite. */
static inline int is_above(uint32_t asked, struct entry e) { return asked == GORDZILA_OVERWRITING && e.highest != 2; }

/* Where the rights begin on a roll, after the counts. */
enum { RIGHTS_AT = 400 };

/* Bytes as of a roll, cut or made longer, on which all counts are 0 and all highest rights the same. */
static inline void fill_roll(uint8_t *bytes, size_t length, uint8_t highest) {
    for (size_t i = 0; i < length; i++) {
        bytes[i] = i < RIGHTS_AT ? 0 : highest;
    }
}

/* Puts the entry of a contractor, who has to be one, in its place on a roll. */
static inline void put_entry(uint8_t *roll, uint32_t contractor, struct entry e) {
    roll[2 * (contractor - 1)] = (uint8_t)(e.count / 256);
    roll[2 * (contractor - 1) + 1] = (uint8_t)(e.count % 256);
    roll[RIGHTS_AT + contractor - 1] = e.highest;
}

#endif
