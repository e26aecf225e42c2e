/*
 * How much stack the check of a grant, the check of a queue, the calls that write a roll and the calls on pages take. It is no test:
 * it prints what it finds.
 *
 * It measures by painting. A call runs on a stack of its own, every byte of which was set to one value before, and the lowest byte
 * that has another value afterwards tells how far down the call wrote. This is done with two values, since the call may write the
 * paint itself, and from four places to start. What the way to the call takes, the arguments among it, is found with a function in
 * the call's place that writes nothing, and is taken off; the return address, 8 bytes, is counted. Bytes that a call reserves below
 * the last one that it writes are not seen. Each call is made once before it is measured, so that memcpy and memset are bound already.
 *
 * The calls are made for the outcomes that are written out below, and those with a key for each key length, with its least and its
 * greatest round count; one that does not answer as it has to ends the program. For x86-64 and gcc.
 */
#include <stdio.h>
#include <stdlib.h>
#include <string.h>

#include "gordzila.h"

enum kind { CHECK, QUEUE, EMPTY_ROLL, ENTER, CHANGE_RIGHT, WITHDRAW, SEAL, OPEN, KINDS };
enum { STACK_BYTES = 65536, RETURN_ADDRESS_BYTES = 8 };

/* One call: what is lent to it, whether the function that writes nothing is in its place, and the refusal that it answered, or 0. */
struct call {
    const uint8_t *first, *second, *roll, *in;
    size_t first_length, second_length, roll_length, in_length, scratch_length, out_length;
    uint32_t rounds, contractor, size_block, right, refusal;
    int empty;
};

static _Alignas(64) uint8_t stack[STACK_BYTES];
static uint8_t keys[2][24], grants[768], reading[12], none[12], payload[493], page[512], scratch[576], out[GORDZILA_ROLL_BYTES];

/* Rolls on which contractor 7 may overwrite; entered again; may only read; was never entered; has a count that is spent. */
static uint8_t roll[GORDZILA_ROLL_BYTES], later_roll[GORDZILA_ROLL_BYTES], low_roll[GORDZILA_ROLL_BYTES];
static uint8_t nobody[GORDZILA_ROLL_BYTES], spent_roll[GORDZILA_ROLL_BYTES];

/* What a call writes to that changes a roll. */
static uint8_t changed[GORDZILA_ROLL_BYTES];
static size_t most[KINDS];

/* Makes a call on another stack, and the function that does and writes nothing, under the type of each call. */
void on_stack(uint8_t *top, void (*function)(struct call *), struct call *call) __asm__("on_stack");
__typeof__(gordzila_check) no_check __asm__("nothing");
__typeof__(gordzila_check_queue) no_queue __asm__("nothing");
__typeof__(gordzila_empty_roll) no_empty_roll __asm__("nothing");
__typeof__(gordzila_enter) no_enter __asm__("nothing");
__typeof__(gordzila_change_right) no_change __asm__("nothing");
__typeof__(gordzila_withdraw) no_withdraw __asm__("nothing");
__typeof__(gordzila_seal_page) no_seal __asm__("nothing");
__typeof__(gordzila_open_page) no_open __asm__("nothing");
__asm__(".pushsection .text\n"
        "on_stack:\n push %rbp\n mov %rsp, %rbp\n mov %rdi, %rsp\n mov %rdx, %rdi\n call *%rsi\n mov %rbp, %rsp\n pop %rbp\n ret\n"
        "nothing:\n xor %eax, %eax\n ret\n"
        ".popsection\n");

static __typeof__(gordzila_check) *const volatile checks[] = {gordzila_check, no_check};
static __typeof__(gordzila_check_queue) *const volatile queues[] = {gordzila_check_queue, no_queue};
static __typeof__(gordzila_empty_roll) *const volatile empty_rolls[] = {gordzila_empty_roll, no_empty_roll};
static __typeof__(gordzila_enter) *const volatile enters[] = {gordzila_enter, no_enter};
static __typeof__(gordzila_change_right) *const volatile changes[] = {gordzila_change_right, no_change};
static __typeof__(gordzila_withdraw) *const volatile withdraws[] = {gordzila_withdraw, no_withdraw};
static __typeof__(gordzila_seal_page) *const volatile seals[] = {gordzila_seal_page, no_seal};
static __typeof__(gordzila_open_page) *const volatile opens[] = {gordzila_open_page, no_open};

static void check(struct call *c) {
    uint32_t answer = checks[c->empty](c->first, c->first_length, c->rounds, c->roll, c->roll_length, c->in, c->in_length,
                                       c->size_block, c->right);
    c->refusal = gordzila_opens(answer) ? 0 : answer;
}

static void queue(struct call *c) {
    c->refusal = queues[c->empty](c->first, c->first_length, c->rounds, c->roll, c->roll_length, c->in, c->in_length,
                                  c->size_block, c->right, out, c->out_length);
}

static void empty_roll(struct call *c) {
    c->refusal = empty_rolls[c->empty](out, c->out_length);
}

static void enter(struct call *c) {
    c->refusal = enters[c->empty](changed, c->roll_length, c->contractor, c->right);
}

static void change_right(struct call *c) {
    c->refusal = changes[c->empty](changed, c->roll_length, c->contractor, c->right);
}

static void withdraw(struct call *c) {
    c->refusal = withdraws[c->empty](changed, c->roll_length, c->contractor);
}

static void seal(struct call *c) {
    c->refusal = seals[c->empty](c->first, c->first_length, c->second, c->second_length, c->rounds, c->size_block, 4, c->in,
                                 c->in_length, scratch, c->scratch_length, out, c->out_length);
}

static void open_page(struct call *c) {
    uint64_t answer = opens[c->empty](c->first, c->first_length, c->second, c->second_length, c->rounds, c->in, c->in_length,
                                      scratch, c->scratch_length, out, c->out_length);
    c->refusal = gordzila_page_refusal(answer);
}

static const struct { const char *name; void (*function)(struct call *); } kinds[KINDS] = {
    {"gordzila_check", check}, {"gordzila_check_queue", queue}, {"gordzila_empty_roll", empty_roll}, {"gordzila_enter", enter},
    {"gordzila_change_right", change_right}, {"gordzila_withdraw", withdraw}, {"gordzila_seal_page", seal},
    {"gordzila_open_page", open_page}};

/* How far down a call writes, from a place to start that lies some bytes below the top. A roll that it changes is a new copy. */
static size_t depth(enum kind kind, struct call *call, size_t below, uint8_t paint) {
    memset(stack, paint, sizeof stack);
    memcpy(changed, call->roll, sizeof changed);
    on_stack(stack + STACK_BYTES - below, kinds[kind].function, call);
    size_t kept = 0;
    while (kept < STACK_BYTES - below && stack[kept] == paint) kept++;
    return STACK_BYTES - below - kept;
}

static size_t deeper(enum kind kind, struct call *call, size_t below) {
    size_t one = depth(kind, call, below, 0xa5), other = depth(kind, call, below, 0x5a);
    return one > other ? one : other;
}

/* Makes a call that has to answer a refusal, or 0 for none, and keeps what it takes if that is the most so far. */
static void try(enum kind kind, struct call call, uint32_t refusal) {
    struct call empty = call;
    empty.empty = 1;
    memcpy(changed, call.roll, sizeof changed);
    kinds[kind].function(&call);
    for (size_t below = 0; below < 64; below += 16) {
        size_t taken = deeper(kind, &call, below) - deeper(kind, &empty, below) + RETURN_ADDRESS_BYTES;
        if (taken > most[kind]) most[kind] = taken;
        if (call.refusal != refusal) {
            fprintf(stderr, "%s answered %u in place of %u\n", kinds[kind].name, (unsigned)call.refusal, (unsigned)refusal);
            exit(1);
        }
    }
}

/* A wrong key and a wrong round count, which all calls with a key refuse. */
static void try_settings(enum kind kind, struct call right) {
    struct call call = right;
    call.first_length = 11;
    try(kind, call, GORDZILA_KEY_LENGTH);
    call = right, call.rounds = 24;
    try(kind, call, GORDZILA_ROUND_COUNT);
}

/* Every outcome of the check of a grant. */
static void try_check(struct call right) {
    struct call call = right;
    try(CHECK, right, 0);
    try_settings(CHECK, right);
    call.in_length = 11, try(CHECK, call, GORDZILA_INPUT_LENGTH);
    call = right, call.right = 3, try(CHECK, call, GORDZILA_RIGHT);
    call = right, call.size_block = 0, try(CHECK, call, GORDZILA_BLOCK_ZERO);
    call = right, call.in = none, try(CHECK, call, GORDZILA_NOT_A_GRANT);
    call = right, call.size_block = 301, try(CHECK, call, GORDZILA_OTHER_BLOCK);
    call = right, call.in = reading, try(CHECK, call, GORDZILA_OTHER_RIGHT);
    call = right, call.roll = nobody, try(CHECK, call, GORDZILA_NOT_IN_STANDING);
    call = right, call.roll = later_roll, try(CHECK, call, GORDZILA_OTHER_COUNT);
    call = right, call.roll = low_roll, try(CHECK, call, GORDZILA_ABOVE_HIGHEST);
    call.right = GORDZILA_READING, try(CHECK, call, 0);
}

/* Queues of 64 grants, of 1 and of none, which open or do not, and each refusal of a whole queue. */
static void try_queue(struct call right) {
    struct call call = right;
    try_settings(QUEUE, right);
    for (size_t count = 0; count <= 64; count += count ? 63 : 1) {
        call = right, call.in_length = 12 * count, try(QUEUE, call, 0);
        call.roll = nobody, try(QUEUE, call, 0);
        call.roll = later_roll, try(QUEUE, call, 0);
        call.roll = low_roll, try(QUEUE, call, 0);
    }
    call = right, call.in_length = 767, try(QUEUE, call, GORDZILA_INPUT_LENGTH);
    call = right, call.out_length = 63, try(QUEUE, call, GORDZILA_OUTPUT_TOO_SHORT);
    call = right, call.right = 3, try(QUEUE, call, GORDZILA_RIGHT);
    call = right, call.size_block = 0, try(QUEUE, call, GORDZILA_BLOCK_ZERO);
}

/* What the calls that change a roll refuse: its length, a number of no contractor, and, if they are given a right, one that is none. */
static void try_roll_settings(enum kind kind, struct call right) {
    struct call call = right;
    call.roll_length--, try(kind, call, GORDZILA_INPUT_LENGTH);
    call = right, call.contractor = 201, try(kind, call, GORDZILA_CONTRACTOR);
    call = right, call.right = 3;
    if (kind != WITHDRAW) try(kind, call, GORDZILA_RIGHT);
}

/* Every outcome of the calls that write a roll, for either right. */
static void try_rolls(uint32_t highest) {
    struct call right = {.roll = roll, .roll_length = sizeof roll, .contractor = 7, .right = highest, .out_length = sizeof out};
    struct call call = right;
    try(EMPTY_ROLL, right, 0);
    call.out_length--, try(EMPTY_ROLL, call, GORDZILA_OUTPUT_TOO_SHORT);
    call = right, call.roll = nobody, try(ENTER, call, 0);
    try_roll_settings(ENTER, call);
    call.roll = roll, try(ENTER, call, GORDZILA_IN_STANDING);
    call.roll = spent_roll, try(ENTER, call, GORDZILA_COUNT_SPENT);
    for (enum kind kind = CHANGE_RIGHT; kind <= WITHDRAW; kind++) {
        call = right, try(kind, call, 0);
        try_roll_settings(kind, call);
        call.roll = low_roll, try(kind, call, 0);
        call.roll = nobody, try(kind, call, GORDZILA_NOT_IN_STANDING);
        call.roll = spent_roll, try(kind, call, GORDZILA_NOT_IN_STANDING);
    }
}

/* What both calls on pages refuse: keys and round count, a short scratch, a short output. */
static void try_page_settings(enum kind kind, struct call right) {
    struct call call = right;
    try_settings(kind, right);
    call.second = right.first, try(kind, call, GORDZILA_KEY_LENGTH);
    call = right, call.scratch_length = 575, try(kind, call, GORDZILA_OUTPUT_TOO_SHORT);
    call = right, call.out_length = kind == SEAL ? 511 : 491, try(kind, call, GORDZILA_OUTPUT_TOO_SHORT);
}

/* Every outcome of sealing and of opening a page with so many bytes used. */
static void try_page(struct call right, size_t used) {
    right.in = payload, right.in_length = used;
    try(SEAL, right, 0);
    try_page_settings(SEAL, right);
    struct call call = right;
    call.in_length = 493, try(SEAL, call, GORDZILA_PAYLOAD_TOO_LONG);
    call = right, call.size_block = 0, try(SEAL, call, GORDZILA_BLOCK_ZERO);
    seal(&right);
    memcpy(page, out, sizeof page);
    right.in = page, right.in_length = sizeof page;
    try(OPEN, right, 0);
    try_page_settings(OPEN, right);
    call = right, call.in_length = 511, try(OPEN, call, GORDZILA_NOT_A_PAGE);
    call = right, call.first = right.second, call.second = right.first, try(OPEN, call, GORDZILA_CHECK_DIFFERS);
    call = right, call.first = payload, try(OPEN, call, used < GORDZILA_PAYLOAD_BYTES ? GORDZILA_NOT_A_PAGE : 0);
    page[511] ^= 1, try(OPEN, right, GORDZILA_CHECK_DIFFERS), page[511] ^= 1;
    page[8] = 1, try(OPEN, right, GORDZILA_NOT_A_PAGE);
}

/* All calls with keys of one length and one round count. */
static void try_all(size_t length, uint32_t rounds) {
    struct call right = {.first = keys[0], .second = keys[1], .roll = roll, .in = grants, .first_length = length, .second_length = length,
                         .roll_length = sizeof roll, .scratch_length = sizeof scratch, .out_length = sizeof out, .rounds = rounds,
                         .size_block = 300, .right = GORDZILA_OVERWRITING};
    gordzila_issue(keys[0], length, rounds, roll, sizeof roll, 7, 300, GORDZILA_READING, reading, sizeof reading);
    gordzila_issue(keys[0], length, rounds, roll, sizeof roll, 7, 300, GORDZILA_OVERWRITING, grants, 12);
    for (size_t i = 12; i < sizeof grants; i++) grants[i] = grants[i - 12];
    right.in_length = 12, try_check(right);
    right.in_length = sizeof grants, try_queue(right);
    try_page(right, 0);
    try_page(right, 1);
    try_page(right, GORDZILA_PAYLOAD_BYTES);
}

/*
 * Makes the rolls, by their bytes and not by the calls that are measured: 200 counts of two bytes, and 200 highest rights. Contractor 7
 * has the count in bytes 12 and 13, and the right in byte 406.
 */
static void make_rolls(void) {
    memset(nobody + 400, 1, sizeof nobody - 400);
    memcpy(roll, nobody, sizeof roll);
    roll[13] = 1, roll[406] = GORDZILA_OVERWRITING;
    memcpy(later_roll, roll, sizeof roll);
    later_roll[13] = 3;
    memcpy(low_roll, roll, sizeof roll);
    low_roll[406] = GORDZILA_READING;
    memcpy(spent_roll, roll, sizeof roll);
    spent_roll[12] = 255, spent_roll[13] = 254;
}

int main(void) {
    for (size_t i = 0; i < 24; i++) keys[0][i] = (uint8_t)(7 * i + 1), keys[1][i] = (uint8_t)(11 * i + 5);
    for (size_t i = 0; i < sizeof payload; i++) payload[i] = (uint8_t)(3 * i + 9);
    make_rolls();
    try_rolls(GORDZILA_READING), try_rolls(GORDZILA_OVERWRITING);
    try_all(12, 10), try_all(12, 11);
    try_all(18, 14), try_all(18, 17);
    try_all(24, 18), try_all(24, 23);
    for (int kind = 0; kind < KINDS; kind++) {
        printf("%s: %zu bytes of stack, with the return address and without the arguments\n", kinds[kind].name, most[kind]);
    }
    return 0;
}
