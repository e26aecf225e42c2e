/*
 * The calls on a key holder, tested as bounds.c tests the others: every buffer lies between two pages that may not be touched,
 * once right after the first, once right before the second (guard.h); lengths and numbers lie on both sides of each limit; the
 * answer has to be the first reason in the header's order that holds; and nothing may change but what a call that does not refuse
 * writes. Where a step or a walk does not refuse, the holder has to be at the right stage, with zeros past the key's length.
 *
 * Whether a holder is whole is known from how it is put together. There are 65,536 with each pair of first bytes, 432 with one
 * byte that is not zero (3 key lengths, 3 bytes, 24 places, 2 stages), 54 at each stage of a key, and 24 of 8 lengths: 66,046,
 * each for 2 steps, 11 walks and 6 subkeys. 72 are to be made, of 12 key lengths in 6 lengths of output. On both sides,
 * 2 * (66,046 * 19 + 72) are 2,509,892 calls. Prints how many did what they have to; the status is 1 where one did not.
 */
#include "guard.h"

static const size_t key_lengths[] = {0, 1, 11, 12, 13, 17, 18, 19, 23, 24, 25, 268};
static const size_t made_lengths[] = {0, 25, 26, 27, 52, 256};
static const size_t holder_lengths[] = {0, 1, 24, 25, 26, 27, 52, 282};
static const size_t subkey_lengths[] = {0, 11, 12, 13, 24, 256};
static const uint32_t stages[] = {0, 1, 11, 12, 17, 18, 23, 24, 256, 261, 0xffffffffu};
static const uint8_t turns[] = {12, 18, 24};
static const uint8_t lone_bytes[] = {1, 128, 255};

/* A holder to be lent, and whether it is whole. */
struct held {
    uint8_t bytes[282];
    size_t length;
    int whole;
};

static struct lent key, holder, out;

static int is_turn(size_t length) { return length == 12 || length == 18 || length == 24; }

static void make(size_t key_length, size_t out_length) {
    uint8_t bytes[GORDZILA_HOLDER_BYTES] = {(uint8_t)key_length};
    uint32_t expected = !is_turn(key_length) ? GORDZILA_KEY_LENGTH : out_length < 26 ? GORDZILA_OUTPUT_TOO_SHORT : 0;
    lend_any(&key, key_length);
    lend_any(&out, out_length);
    uint32_t got = gordzila_holder_make(key.at, key.length, out.at, out.length);
    int wrong = changed_beside(got, &out, sizeof bytes);
    if (expected == 0) {
        memcpy(bytes + 2, key.before, key_length);
        wrong |= memcmp(out.at, bytes, sizeof bytes) != 0;
    }
    count("make", got, expected, wrong);
}

/* A step or a walk answered; where it may not refuse, the holder has to be at this stage. */
static void moved(const char *call, uint32_t got, uint32_t expected, uint32_t number) {
    int wrong = changed_beside(got, &holder, GORDZILA_HOLDER_BYTES);
    if (!refused(expected)) {
        wrong |= holder.at[0] != holder.before[0] || holder.at[1] != number;
        for (size_t i = 2 + (size_t)holder.before[0]; i < GORDZILA_HOLDER_BYTES; i++) {
            wrong |= holder.at[i] != 0;
        }
    }
    count(call, got, expected, wrong);
}

static void steps(const struct held *h) {
    uint32_t expected = h->whole ? 0 : GORDZILA_BROKEN_HOLDER;
    uint32_t last = h->bytes[0] - 1u;
    uint32_t at = h->bytes[1];
    lend(&holder, h->bytes, h->length);
    moved("forward", gordzila_holder_forward(holder.at, holder.length), expected, at == last ? 0 : at + 1);
    lend(&holder, h->bytes, h->length);
    moved("back", gordzila_holder_back(holder.at, holder.length), expected, at == 0 ? last : at - 1);
}

/* What a walk of a whole holder answers. */
static uint32_t walked(uint32_t turn, uint32_t from, uint32_t to) {
    uint32_t ahead = to >= from ? to - from : to + turn - from;
    return ahead <= turn - ahead ? 1000 + ahead : 2000 + turn - ahead;
}

static void walks(const struct held *h) {
    for (size_t i = 0; i < COUNT(stages); i++) {
        uint32_t expected = GORDZILA_BROKEN_HOLDER;
        if (h->whole) {
            expected = stages[i] < h->bytes[0] ? walked(h->bytes[0], h->bytes[1], stages[i]) : GORDZILA_STAGE_OR_LIST;
        }
        lend(&holder, h->bytes, h->length);
        moved("walk", gordzila_holder_walk(holder.at, holder.length, stages[i]), expected, stages[i]);
    }
}

static void subkeys(const struct held *h) {
    lend(&holder, h->bytes, h->length);
    for (size_t i = 0; i < COUNT(subkey_lengths); i++) {
        uint32_t short_of = subkey_lengths[i] < 12 ? GORDZILA_OUTPUT_TOO_SHORT : 0;
        lend_any(&out, subkey_lengths[i]);
        judge("subkey", gordzila_holder_subkey(holder.at, holder.length, out.at, out.length),
              h->whole ? short_of : GORDZILA_BROKEN_HOLDER, &out, 12);
    }
}

static void calls(const struct held *h) {
    steps(h);
    walks(h);
    subkeys(h);
}

/* Every two first bytes, before zeros. */
static void first_bytes(void) {
    for (unsigned length = 0; length < 256; length++) {
        for (unsigned number = 0; number < 256; number++) {
            struct held h = {{(uint8_t)length, (uint8_t)number}, 26, is_turn(length) && number < length};
            calls(&h);
        }
    }
}

/* One byte that is not zero, in the stage or past the key's length, at the first stage and the last. */
static void one_byte(uint8_t turn, uint8_t byte) {
    for (size_t place = 0; place < GORDZILA_STAGE_BYTES; place++) {
        struct held h = {{turn, 0}, 26, place < turn};
        h.bytes[2 + place] = byte;
        calls(&h);
        h.bytes[1] = (uint8_t)(turn - 1);
        calls(&h);
    }
}

/* Any bytes for a stage: every stage of a key, and other lengths of the holder. */
static void any_bytes(uint8_t turn) {
    struct held h = {{turn, 0}, 26, 1};
    for (size_t i = 0; i < turn; i++) {
        h.bytes[2 + i] = (uint8_t)(91 * i + turn);
    }
    for (h.bytes[1] = 0; h.bytes[1] < turn; h.bytes[1]++) {
        calls(&h);
    }
    h.bytes[1] = 5;
    for (size_t i = 0; i < COUNT(holder_lengths); i++) {
        h.length = holder_lengths[i];
        h.whole = h.length == 26;
        calls(&h);
    }
}

static void all(void) {
    for (size_t k = 0; k < COUNT(key_lengths); k++) {
        for (size_t o = 0; o < COUNT(made_lengths); o++) {
            make(key_lengths[k], made_lengths[o]);
        }
    }
    first_bytes();
    for (size_t t = 0; t < COUNT(turns); t++) {
        for (size_t b = 0; b < COUNT(lone_bytes); b++) {
            one_byte(turns[t], lone_bytes[b]);
        }
        any_bytes(turns[t]);
    }
}

int main(void) {
    make_room(&key);
    make_room(&holder);
    make_room(&out);
    for (at_the_end = 0; at_the_end <= 1; at_the_end++) {
        all();
    }
    return told("calls");
}
