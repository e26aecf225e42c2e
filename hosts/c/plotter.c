/*
 * A plotter's day and the next morning, in small. The store enters a contractor and issues an overwriting grant; a plotter box caches it
 * and checks it against the roll as it is now: before it looks at the size block, and before it overwrites it. A form that was left blank
 * asks for size block 0: that is refused, and says nothing of the grant. The contractor is demoted: they may go on looking, and overwrite
 * again with the same grant once they are raised. The contractor is withdrawn, and the cached grant stops opening, also after a new
 * standing. With a reading grant the contractor may then look, but not overwrite. Next morning the box checks its pile of cached grants in
 * one call. Once a grant opens the size block for overwriting, a page of it is sealed; once one opens it for reading, the page is opened.
 * Prints a line for each step.
 */
#include <stdio.h>
#include <string.h>

#include "gordzila.h"

/* A maker's key and round count. */
static const uint8_t key[12] = {0xc6, 0x7e, 0x81, 0x6b, 0x4b, 0xfb, 0xe2, 0xfb, 0x54, 0xf6, 0xbd, 0xdf};
static const uint32_t rounds = 10;

/* The two keys of the maker's pages, which are used for nothing else. */
static const uint8_t first_key[12] = {0x3d, 0x91, 0x0a, 0xe4, 0x57, 0xc8, 0x26, 0x7b, 0xf0, 0x1e, 0x99, 0x42};
static const uint8_t second_key[12] = {0xa8, 0x14, 0xd3, 0x6f, 0x2c, 0x05, 0xb9, 0xe1, 0x78, 0x4a, 0x93, 0x5e};

static const char *reason(uint32_t number) {
    switch (number) {
    case GORDZILA_NOT_A_GRANT:
        return "not a grant under this key";
    case GORDZILA_OTHER_BLOCK:
        return "grant for another size block";
    case GORDZILA_OTHER_RIGHT:
        return "overwriting asked of a reading grant";
    case GORDZILA_NOT_A_PAGE:
        return "not a page";
    case GORDZILA_PAYLOAD_TOO_LONG:
        return "too much for a page";
    case GORDZILA_CHECK_DIFFERS:
        return "page changed, or sealed with another second key or round count";
    case GORDZILA_BLOCK_ZERO:
        return "size block number left blank";
    case GORDZILA_NOT_IN_STANDING:
        return "contractor not in standing";
    case GORDZILA_IN_STANDING:
        return "contractor already in standing";
    case GORDZILA_COUNT_SPENT:
        return "contractor's number is used up";
    case GORDZILA_OTHER_COUNT:
        return "grant from an earlier standing";
    case GORDZILA_ABOVE_HIGHEST:
        return "contractor may only read";
    default:
        return "the request is wrong";
    }
}

/* What a call on the roll, an issue or the sealing of a page answered. */
static void done(uint32_t number) {
    if (number == 0) {
        printf("done\n");
    } else {
        printf("refused with %u, %s\n", (unsigned)number, reason(number));
    }
}

static const char *name(uint32_t right) { return right == GORDZILA_READING ? "reading" : "overwriting"; }

static void enter(uint8_t roll[GORDZILA_ROLL_BYTES], uint32_t contractor, uint32_t highest) {
    printf("enter contractor %u for %s: ", (unsigned)contractor, name(highest));
    done(gordzila_enter(roll, GORDZILA_ROLL_BYTES, contractor, highest));
}

static void change_right(uint8_t roll[GORDZILA_ROLL_BYTES], uint32_t contractor, uint32_t highest) {
    printf("%s contractor %u to %s: ", highest == GORDZILA_READING ? "demote" : "raise", (unsigned)contractor, name(highest));
    done(gordzila_change_right(roll, GORDZILA_ROLL_BYTES, contractor, highest));
}

static void withdraw(uint8_t roll[GORDZILA_ROLL_BYTES], uint32_t contractor) {
    printf("withdraw contractor %u: ", (unsigned)contractor);
    done(gordzila_withdraw(roll, GORDZILA_ROLL_BYTES, contractor));
}

/* A grant for size block 300. Where it is refused, the bytes for it stay as they were. */
static void issue(const uint8_t roll[GORDZILA_ROLL_BYTES], uint32_t contractor, uint32_t right,
                  uint8_t grant[GORDZILA_GRANT_BYTES]) {
    printf("issue %s %s grant to contractor %u: ", right == GORDZILA_READING ? "a" : "an", name(right), (unsigned)contractor);
    done(gordzila_issue(key, sizeof key, rounds, roll, GORDZILA_ROLL_BYTES, contractor, 300, right, grant, GORDZILA_GRANT_BYTES));
}

static const char *verb(uint32_t right) { return right == GORDZILA_READING ? "read" : "overwrite"; }

/*
 * The plotter's question: may this size block be read, or overwritten? Says so. Where the grant opens, the answer has the right asked
 * for.
 */
static int may(uint32_t right, const uint8_t roll[GORDZILA_ROLL_BYTES], const uint8_t grant[GORDZILA_GRANT_BYTES],
               uint32_t size_block) {
    uint32_t answer = gordzila_check(key, sizeof key, rounds, roll, GORDZILA_ROLL_BYTES, grant, GORDZILA_GRANT_BYTES,
                                     size_block, right);
    if (gordzila_opens(answer)) {
        printf("%s size block %u: opens for contractor %u\n", verb(gordzila_answered_right(answer)), (unsigned)size_block,
               (unsigned)gordzila_answered_contractor(answer));
    } else {
        printf("%s size block %u: refused with %u, %s\n", verb(right), (unsigned)size_block, (unsigned)answer, reason(answer));
    }
    return gordzila_opens(answer);
}

/* The pile of cached grants, one after the other as the queue takes them, and its length in bytes. */
struct pile {
    uint8_t grants[GORDZILA_LONGEST_QUEUE_BYTES];
    size_t length;
};

/* A full pile takes no more. */
static void cache(struct pile *pile, const uint8_t grant[GORDZILA_GRANT_BYTES]) {
    if (pile->length < sizeof pile->grants) {
        memcpy(pile->grants + pile->length, grant, GORDZILA_GRANT_BYTES);
        pile->length += GORDZILA_GRANT_BYTES;
    }
}

/* The same question of the whole pile, in one call. What it returned and a grant's byte say together whether the grant opens. */
static void may_with_pile(uint32_t right, const uint8_t roll[GORDZILA_ROLL_BYTES], const struct pile *pile, uint32_t size_block) {
    uint8_t answers[GORDZILA_QUEUE_MOST_GRANTS];
    uint32_t returned = gordzila_check_queue(key, sizeof key, rounds, roll, GORDZILA_ROLL_BYTES, pile->grants, pile->length,
                                             size_block, right, answers, sizeof answers);
    if (returned != 0) {
        printf("%s size block %u with the pile: refused with %u, %s\n", verb(right), (unsigned)size_block,
               (unsigned)returned, reason(returned));
        return;
    }
    for (size_t i = 0; i < pile->length / GORDZILA_GRANT_BYTES; i++) {
        printf("%s size block %u with grant %u of the pile: ", verb(right), (unsigned)size_block, (unsigned)i + 1);
        if (gordzila_queue_opens(returned, answers[i])) {
            printf("opens\n");
        } else {
            printf("refused with %u, %s\n", (unsigned)answers[i], reason(answers[i]));
        }
    }
}

/* A page of a size block that was opened for overwriting. Whatever the call answers, no subkey is left in the scratch. */
static void seal(uint8_t page[GORDZILA_PAGE_BYTES], uint32_t size_block, uint16_t number, const char *pattern) {
    uint8_t scratch[GORDZILA_SCRATCH_BYTES];
    uint32_t refusal = gordzila_seal_page(first_key, sizeof first_key, second_key, sizeof second_key, rounds, size_block, number,
                                          (const uint8_t *)pattern, strlen(pattern), scratch, sizeof scratch, page,
                                          GORDZILA_PAGE_BYTES);
    printf("seal page %u of size block %u: ", (unsigned)number, (unsigned)size_block);
    done(refusal);
}

/* A page that opens says which one it is. Only the box knows which one it wanted, and has to compare. */
static void look(const uint8_t page[GORDZILA_PAGE_BYTES], uint32_t size_block, uint16_t number) {
    uint8_t scratch[GORDZILA_SCRATCH_BYTES];
    uint8_t payload[GORDZILA_PAYLOAD_BYTES];
    uint64_t answer = gordzila_open_page(first_key, sizeof first_key, second_key, sizeof second_key, rounds, page,
                                         GORDZILA_PAGE_BYTES, scratch, sizeof scratch, payload, sizeof payload);
    printf("open page %u of size block %u: ", (unsigned)number, (unsigned)size_block);
    if (!gordzila_page_opens(answer)) {
        uint32_t refusal = gordzila_page_refusal(answer);
        printf("refused with %u, %s\n", (unsigned)refusal, reason(refusal));
    } else if (gordzila_opened_size_block(answer) != size_block || gordzila_opened_page_number(answer) != number) {
        printf("it is page %u of size block %u, and not used\n", (unsigned)gordzila_opened_page_number(answer),
               (unsigned)gordzila_opened_size_block(answer));
    } else {
        printf("%.*s\n", (int)gordzila_opened_used(answer), (const char *)payload);
    }
}

/* A demotion is seen by the next check, and ends no grant: the one that was cached overwrites again once the contractor is raised. */
static void demotion(uint8_t roll[GORDZILA_ROLL_BYTES], const uint8_t cached[GORDZILA_GRANT_BYTES]) {
    uint8_t grant[GORDZILA_GRANT_BYTES] = {0};
    change_right(roll, 7, GORDZILA_READING);
    may(GORDZILA_READING, roll, cached, 300);
    may(GORDZILA_OVERWRITING, roll, cached, 300);
    issue(roll, 7, GORDZILA_OVERWRITING, grant);
    change_right(roll, 7, GORDZILA_OVERWRITING);
    may(GORDZILA_OVERWRITING, roll, cached, 300);
}

/* Two grants come into the pile: one that has stopped opening, and one for reading. */
static void day(uint8_t roll[GORDZILA_ROLL_BYTES], struct pile *pile) {
    uint8_t grant[GORDZILA_GRANT_BYTES] = {0};
    issue(roll, 7, GORDZILA_OVERWRITING, grant);
    enter(roll, 7, GORDZILA_OVERWRITING);
    issue(roll, 7, GORDZILA_OVERWRITING, grant);
    cache(pile, grant);
    may(GORDZILA_READING, roll, grant, 300);
    may(GORDZILA_OVERWRITING, roll, grant, 300);
    may(GORDZILA_OVERWRITING, roll, grant, 301);
    may(GORDZILA_OVERWRITING, roll, grant, 0);
    demotion(roll, grant);
    withdraw(roll, 7);
    may(GORDZILA_READING, roll, grant, 300);
    may(GORDZILA_OVERWRITING, roll, grant, 300);
    enter(roll, 7, GORDZILA_OVERWRITING);
    may(GORDZILA_OVERWRITING, roll, grant, 300);
    issue(roll, 7, GORDZILA_READING, grant);
    cache(pile, grant);
    may(GORDZILA_READING, roll, grant, 300);
    may(GORDZILA_OVERWRITING, roll, grant, 300);
}

/*
 * Another contractor's grant comes into the pile, and a copy of it with a damaged byte. Who has it, only the single check says. It opens
 * the size block for overwriting, and a page of it is sealed.
 */
static void morning(uint8_t roll[GORDZILA_ROLL_BYTES], struct pile *pile, uint8_t page[GORDZILA_PAGE_BYTES]) {
    uint8_t grant[GORDZILA_GRANT_BYTES] = {0};
    enter(roll, 12, GORDZILA_OVERWRITING);
    issue(roll, 12, GORDZILA_OVERWRITING, grant);
    cache(pile, grant);
    grant[0] ^= 1;
    cache(pile, grant);
    may_with_pile(GORDZILA_OVERWRITING, roll, pile, 300);
    if (may(GORDZILA_OVERWRITING, roll, pile->grants + 2 * GORDZILA_GRANT_BYTES, 300)) {
        seal(page, 300, 4, "front panel, sizes 40 to 46");
    }
    withdraw(roll, 12);
    may_with_pile(GORDZILA_READING, roll, pile, 300);
}

/* The page is opened with the reading grant: as it was sealed, in the place of the next page, and with a byte changed. */
static void reading(const uint8_t roll[GORDZILA_ROLL_BYTES], const struct pile *pile, uint8_t page[GORDZILA_PAGE_BYTES]) {
    if (may(GORDZILA_READING, roll, pile->grants + GORDZILA_GRANT_BYTES, 300)) {
        look(page, 300, 4);
        look(page, 300, 5);
        page[GORDZILA_PAGE_BYTES - 1] ^= 1;
        look(page, 300, 4);
    }
}

int main(void) {
    uint8_t roll[GORDZILA_ROLL_BYTES];
    uint8_t page[GORDZILA_PAGE_BYTES] = {0};
    struct pile pile = {{0}, 0};
    /* Only because the store is new: over a roll in use the counts would start anew, and grants that were revoked might open. */
    if (gordzila_empty_roll(roll, sizeof roll) != 0) {
        return 1;
    }
    day(roll, &pile);
    morning(roll, &pile, page);
    reading(roll, &pile, page);
    return 0;
}
