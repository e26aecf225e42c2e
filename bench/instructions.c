/*
 * Makes a call of the library over and over, for count-instructions, which has valgrind count the instructions. It is no test: it prints
 * what it called.
 *
 *     instructions OPERATION CALLS KEY_BYTES
 *
 * An operation has the name of its call without gordzila_, and is one of those below. A key has 12 bytes, and is used with 10 rounds, or
 * 24, with 23 rounds. A page has a payload of 492 bytes, a walk goes half a turn, and the stage is the last. Each operation is done once
 * before, whichever is asked for, so that memcpy and memset are bound already, and so two runs with other numbers of calls, of as many
 * digits, differ in those calls and their loop alone. A call that refuses ends the program.
 */
#include <stdio.h>
#include <stdlib.h>
#include <string.h>

#include "gordzila.h"

struct size { size_t key_length; uint32_t rounds; };
static const struct size sizes[] = {{12, 10}, {24, 23}};

static uint8_t keys[2][24], list[288], other_list[288], block[12], next[12], payload[492], page[512], scratch[576], out[492], holder[26];

/* Each makes a call, and says whether it did what it is for: it answers 0, or the steps of the walk, or the page opens. */

static int prepare_enciphering(struct size size) {
    return gordzila_prepare_enciphering(keys[0], size.key_length, size.rounds, list, sizeof list) == 0;
}

static int prepare_deciphering(struct size size) {
    return gordzila_prepare_deciphering(keys[0], size.key_length, size.rounds, other_list, sizeof other_list) == 0;
}

/* The engine over the list for enciphering. The block that comes out goes into the next call. */
static int run(struct size size) {
    uint32_t answer = gordzila_run(list, 12 * (size.rounds + 1), block, sizeof block, next, sizeof next);
    memcpy(block, next, sizeof block);
    return answer == 0;
}

static int holder_make(struct size size) {
    return gordzila_holder_make(keys[0], size.key_length, holder, sizeof holder) == 0;
}

/* Half a turn forward from where the holder is, so that every other walk goes over the seam. */
static int holder_walk(struct size size) {
    uint32_t half = (uint32_t)size.key_length / 2;
    return gordzila_holder_walk(holder, sizeof holder, (holder[1] + half) % (2 * half)) == 1000 + half;
}

/* The last stage. */
static int stage(struct size size) {
    return gordzila_stage(keys[0], size.key_length, (uint32_t)size.key_length - 1, out, sizeof out) == 0;
}

static int seal_page(struct size size) {
    uint32_t answer = gordzila_seal_page(keys[0], size.key_length, keys[1], size.key_length, size.rounds, 300, 4,
                                         payload, sizeof payload, scratch, sizeof scratch, page, sizeof page);
    return answer == 0;
}

static int open_page(struct size size) {
    uint64_t answer = gordzila_open_page(keys[0], size.key_length, keys[1], size.key_length, size.rounds, page, sizeof page,
                                         scratch, sizeof scratch, out, sizeof out);
    return gordzila_page_opens(answer);
}

/* In this order each finds what it needs: the engine its list, a walk its holder, and opening its page. */
static const struct operation { const char *name; int (*function)(struct size size); } operations[] = {
    {"prepare_enciphering", prepare_enciphering}, {"prepare_deciphering", prepare_deciphering}, {"run", run},
    {"holder_make", holder_make}, {"holder_walk", holder_walk}, {"stage", stage}, {"seal_page", seal_page}, {"open_page", open_page}};

enum { SIZES = sizeof sizes / sizeof sizes[0], OPERATIONS = sizeof operations / sizeof operations[0] };

static void repeat(const struct operation *operation, struct size size, long calls) {
    for (long i = 0; i < calls; i++) {
        if (!operation->function(size)) {
            fprintf(stderr, "gordzila_%s refused\n", operation->name);
            exit(1);
        }
    }
}

static const struct operation *find_operation(const char *name) {
    for (int i = 0; i < OPERATIONS; i++) {
        if (strcmp(operations[i].name, name) == 0) return &operations[i];
    }
    return NULL;
}

static const struct size *find_size(const char *key_length) {
    for (int i = 0; i < SIZES; i++) {
        if (sizes[i].key_length == strtoul(key_length, NULL, 10)) return &sizes[i];
    }
    return NULL;
}

static int usage(void) {
    fprintf(stderr, "usage: instructions OPERATION CALLS KEY_BYTES\n");
    return 2;
}

int main(int count, char **arguments) {
    if (count != 4) return usage();
    const struct operation *operation = find_operation(arguments[1]);
    const struct size *size = find_size(arguments[3]);
    long calls = strtol(arguments[2], NULL, 10);
    if (operation == NULL || size == NULL || calls < 1) return usage();
    for (size_t i = 0; i < 24; i++) keys[0][i] = (uint8_t)(7 * i + 1), keys[1][i] = (uint8_t)(11 * i + 5);
    for (size_t i = 0; i < sizeof payload; i++) payload[i] = (uint8_t)(3 * i + 9);
    for (int i = 0; i < OPERATIONS; i++) repeat(&operations[i], *size, 1);
    repeat(operation, *size, calls);
    printf("gordzila_%s, key of %zu bytes, %u rounds\n", operation->name, size->key_length, (unsigned)size->rounds);
    return 0;
}
