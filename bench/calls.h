/*
 * The calls of a baseline, around its cipher. A C file includes this at its end,
 * when it has defined
 *
 *   fill_list  the subkeys of a key, from the front or, for deciphering, from the
 *              back and diffused but for the two ends;
 *   run_list   the engine: one block under a list of rounds + 1 subkeys;
 *   walk_stage a stage of a key, in 24 bytes with zeros past the key's length,
 *              walked so many steps either way, in place.
 */
#include "baseline.h"

#include <stdbool.h>
#include <string.h>

/* The checks, in the order in which the calls make them. */

static uint32_t check_key(size_t key_len, uint32_t rounds)
{
    uint32_t least, most;

    switch (key_len) {
    case 12:
        least = 10;
        most = 11;
        break;
    case 18:
        least = 14;
        most = 17;
        break;
    case 24:
        least = 18;
        most = 23;
        break;
    default:
        return KEY_LENGTH;
    }
    if (rounds < least || rounds > most)
        return ROUND_COUNT;
    return DONE;
}

static uint32_t check_block(size_t block_len, size_t out_len)
{
    if (block_len != BLOCK)
        return INPUT_LENGTH;
    if (out_len < BLOCK)
        return OUTPUT_TOO_SHORT;
    return DONE;
}

static bool is_key_length(size_t n)
{
    return n == 12 || n == 18 || n == 24;
}

static bool is_list_length(size_t n)
{
    return n >= BLOCK * (LEAST_ROUNDS + 1) && n <= MOST_LIST && n % BLOCK == 0;
}

static bool is_queue_length(size_t n)
{
    return n <= BLOCK * MOST_GRANTS && n % BLOCK == 0;
}

static bool is_right(uint32_t right)
{
    return right == READING || right == OVERWRITING;
}

/* The calls of the cipher. */

static uint32_t run_block(enum direction direction, const uint8_t *key,
                          size_t key_len, uint32_t rounds,
                          const uint8_t *block, size_t block_len,
                          uint8_t *out, size_t out_len)
{
    uint32_t refusal = check_key(key_len, rounds);
    uint8_t list[MOST_LIST];

    if (refusal == DONE)
        refusal = check_block(block_len, out_len);
    if (refusal != DONE)
        return refusal;
    fill_list(direction, key, key_len, rounds, list);
    run_list(list, rounds, block, out);
    return DONE;
}

static uint32_t prepare(enum direction direction, const uint8_t *key,
                        size_t key_len, uint32_t rounds,
                        uint8_t *out, size_t out_len)
{
    uint32_t refusal = check_key(key_len, rounds);

    if (refusal != DONE)
        return refusal;
    if (out_len < BLOCK * ((size_t)rounds + 1))
        return OUTPUT_TOO_SHORT;
    fill_list(direction, key, key_len, rounds, out);
    return DONE;
}

static uint32_t encipher(const uint8_t *key, size_t key_len, uint32_t rounds,
                         const uint8_t *block, size_t block_len,
                         uint8_t *out, size_t out_len)
{
    return run_block(ENCIPHERING, key, key_len, rounds, block, block_len, out,
                     out_len);
}

static uint32_t decipher(const uint8_t *key, size_t key_len, uint32_t rounds,
                         const uint8_t *block, size_t block_len,
                         uint8_t *out, size_t out_len)
{
    return run_block(DECIPHERING, key, key_len, rounds, block, block_len, out,
                     out_len);
}

static uint32_t prepare_enciphering(const uint8_t *key, size_t key_len,
                                    uint32_t rounds,
                                    uint8_t *out, size_t out_len)
{
    return prepare(ENCIPHERING, key, key_len, rounds, out, out_len);
}

static uint32_t prepare_deciphering(const uint8_t *key, size_t key_len,
                                    uint32_t rounds,
                                    uint8_t *out, size_t out_len)
{
    return prepare(DECIPHERING, key, key_len, rounds, out, out_len);
}

static uint32_t run(const uint8_t *list, size_t list_len,
                    const uint8_t *block, size_t block_len,
                    uint8_t *out, size_t out_len)
{
    uint32_t refusal;

    if (!is_list_length(list_len))
        return STAGE_OR_LIST;
    refusal = check_block(block_len, out_len);
    if (refusal != DONE)
        return refusal;
    run_list(list, (uint32_t)(list_len / BLOCK) - 1, block, out);
    return DONE;
}

/*
 * The check of a grant. Its plain bytes, each number big end first: 2 for the
 * contractor, 2 for the count, 4 for the size block, 1 for the right, 3 for the
 * mark. The roll has two bytes for the count of each contractor from 1 on, and
 * after these one byte for the highest right of each, which is overwriting if the
 * byte is 2 and reading if it is any other. A grant for overwriting opens for
 * reading too; the answer has the right asked for, which is the one that is
 * compared with the highest.
 */

static uint32_t number(const uint8_t *bytes, int length)
{
    uint32_t n = 0;

    for (int i = 0; i < length; i++)
        n = n << 8 | bytes[i];
    return n;
}

static bool is_in_standing(uint32_t count)
{
    return count % 2 == 1 && count < 65535;
}

static uint32_t check_plain(const uint8_t plain[BLOCK], const uint8_t *roll,
                            uint32_t size_block, uint32_t right)
{
    uint32_t contractor = number(plain, 2);
    uint32_t count;

    if (number(plain + 9, 3) != 0x475244 || !is_right(plain[8])
        || contractor < 1 || contractor > CONTRACTORS)
        return NOT_A_GRANT;
    if (number(plain + 4, 4) != size_block)
        return OTHER_BLOCK;
    if (plain[8] == READING && right == OVERWRITING)
        return OTHER_RIGHT;
    count = number(roll + 2 * (contractor - 1), 2);
    if (!is_in_standing(count))
        return NOT_IN_STANDING;
    if (number(plain + 2, 2) != count)
        return OTHER_COUNT;
    if (right == OVERWRITING && roll[COUNTS + contractor - 1] != OVERWRITING)
        return ABOVE_HIGHEST;
    return 1000 * right + contractor;
}

static uint32_t check(const uint8_t *key, size_t key_len, uint32_t rounds,
                      const uint8_t *roll, size_t roll_len,
                      const uint8_t *grant, size_t grant_len,
                      uint32_t size_block, uint32_t right)
{
    uint32_t refusal = check_key(key_len, rounds);
    uint8_t list[MOST_LIST];
    uint8_t plain[BLOCK];

    if (refusal != DONE)
        return refusal;
    if (grant_len != BLOCK || roll_len != ROLL)
        return INPUT_LENGTH;
    if (!is_right(right))
        return RIGHT;
    if (size_block == 0)
        return BLOCK_ZERO;
    fill_list(DECIPHERING, key, key_len, rounds, list);
    run_list(list, rounds, grant, plain);
    return check_plain(plain, roll, size_block, right);
}

/* The checks of a queue of grants: the list is prepared once for all of them. */
static uint32_t check_queue(const uint8_t *key, size_t key_len,
                            uint32_t rounds,
                            const uint8_t *roll, size_t roll_len,
                            const uint8_t *grants, size_t grants_len,
                            uint32_t size_block, uint32_t right,
                            uint8_t *answers, size_t answers_len)
{
    uint32_t refusal = check_key(key_len, rounds);
    uint8_t list[MOST_LIST];
    uint8_t plain[BLOCK];

    if (refusal != DONE)
        return refusal;
    if (!is_queue_length(grants_len) || roll_len != ROLL)
        return INPUT_LENGTH;
    if (answers_len < grants_len / BLOCK)
        return OUTPUT_TOO_SHORT;
    if (!is_right(right))
        return RIGHT;
    if (size_block == 0)
        return BLOCK_ZERO;
    fill_list(DECIPHERING, key, key_len, rounds, list);
    for (size_t i = 0; i < grants_len / BLOCK; i++) {
        uint32_t answer;

        run_list(list, rounds, grants + BLOCK * i, plain);
        answer = check_plain(plain, roll, size_block, right);
        answers[i] = answer < 1000 ? (uint8_t)answer : DONE;
    }
    return DONE;
}

/*
 * Pages. A page has a header, which stays plain, 492 bytes of payload, and a check
 * of 8 bytes. The header, each number big end first: 4 for the size block, 2 for
 * the page number, 2 for the used count, 4 zeros. The payload is chained under the
 * first key, from the enciphered header. The check is the first bytes of the last
 * block of header and payload as they are stored, chained from zero under the
 * second key. One list after the other is made in the scratch.
 */

static uint32_t check_page_keys(const uint8_t *first_key, size_t first_key_len,
                                const uint8_t *second_key,
                                size_t second_key_len, uint32_t rounds)
{
    uint32_t refusal = check_key(first_key_len, rounds);

    if (refusal == KEY_LENGTH || second_key_len != first_key_len
        || memcmp(first_key, second_key, first_key_len) == 0)
        return KEY_LENGTH;
    return refusal;
}

static void put_number(uint8_t *bytes, int length, uint32_t n)
{
    for (int i = length - 1; i >= 0; i--) {
        bytes[i] = (uint8_t)n;
        n >>= 8;
    }
}

static inline void add_block(uint8_t sum[BLOCK], const uint8_t block[BLOCK])
{
    for (int i = 0; i < BLOCK; i++)
        sum[i] ^= block[i];
}

/*
 * Chains whole blocks where they stand. The first is added to what link holds, and
 * the last one is left there.
 */
static void chain(const uint8_t *list, uint32_t rounds, uint8_t link[BLOCK],
                  uint8_t *bytes, size_t length)
{
    for (size_t at = 0; at < length; at += BLOCK) {
        add_block(link, bytes + at);
        run_list(list, rounds, link, link);
        memcpy(bytes + at, link, BLOCK);
    }
}

/* The check of a page, over all that stands before it. */
static void make_check(const uint8_t *list, uint32_t rounds,
                       const uint8_t *page, uint8_t check[BLOCK])
{
    memset(check, 0, BLOCK);
    for (size_t at = 0; at < CHECKED; at += BLOCK) {
        add_block(check, page + at);
        run_list(list, rounds, check, check);
    }
}

static uint32_t seal_page(const uint8_t *first_key, size_t first_key_len,
                          const uint8_t *second_key, size_t second_key_len,
                          uint32_t rounds,
                          uint32_t size_block, uint16_t page_number,
                          const uint8_t *payload, size_t payload_len,
                          uint8_t *scratch, size_t scratch_len,
                          uint8_t *out, size_t out_len)
{
    uint32_t refusal = check_page_keys(first_key, first_key_len, second_key,
                                       second_key_len, rounds);
    uint8_t link[BLOCK];

    if (refusal != DONE)
        return refusal;
    if (scratch_len < SCRATCH || out_len < PAGE)
        return OUTPUT_TOO_SHORT;
    if (size_block == 0)
        return BLOCK_ZERO;
    if (payload_len > PAYLOAD)
        return PAYLOAD_TOO_LONG;
    put_number(out, 4, size_block);
    put_number(out + 4, 2, page_number);
    put_number(out + 6, 2, (uint32_t)payload_len);
    put_number(out + 8, 4, 0);
    memcpy(out + BLOCK, payload, payload_len);
    memset(out + BLOCK + payload_len, 0, PAYLOAD - payload_len);
    fill_list(ENCIPHERING, first_key, first_key_len, rounds, scratch);
    run_list(scratch, rounds, out, link);
    chain(scratch, rounds, link, out + BLOCK, PAYLOAD);
    fill_list(ENCIPHERING, second_key, second_key_len, rounds, scratch);
    make_check(scratch, rounds, out, link);
    memcpy(out + CHECKED, link, CHECK);
    memset(scratch, 0, SCRATCH);
    return DONE;
}

/*
 * A block of a page from 1 on, deciphered. What it was added to is the block
 * before it, or the start for the first.
 */
static inline void undo_block(const uint8_t *list, uint32_t rounds,
                              const uint8_t start[BLOCK], const uint8_t *page,
                              size_t at, uint8_t out[BLOCK])
{
    run_list(list, rounds, page + at, out);
    add_block(out, at == BLOCK ? start : page + at - BLOCK);
}

/* Whether all bytes of the payload from a place on are zero. */
static bool is_zero_from(const uint8_t *list, uint32_t rounds,
                         const uint8_t start[BLOCK], const uint8_t *page,
                         size_t place)
{
    size_t skip = place % BLOCK;
    uint8_t plain[BLOCK], rest = 0;

    for (size_t at = BLOCK + place - skip; at < CHECKED; at += BLOCK) {
        undo_block(list, rounds, start, page, at, plain);
        for (size_t i = skip; i < BLOCK; i++)
            rest |= plain[i];
        skip = 0;
    }
    return rest == 0;
}

/* The part of opening that needs the lists: 0, 13 or 11. */
static uint32_t open_checked(const uint8_t *first_key,
                             const uint8_t *second_key, size_t key_len,
                             uint32_t rounds, const uint8_t *page,
                             uint8_t *scratch, uint8_t *out)
{
    uint8_t start[BLOCK], check[BLOCK];

    fill_list(ENCIPHERING, second_key, key_len, rounds, scratch);
    make_check(scratch, rounds, page, check);
    if (memcmp(check, page + CHECKED, CHECK) != 0)
        return OTHER_CHECK;
    fill_list(ENCIPHERING, first_key, key_len, rounds, scratch);
    run_list(scratch, rounds, page, start);
    fill_list(DECIPHERING, first_key, key_len, rounds, scratch);
    if (!is_zero_from(scratch, rounds, start, page, number(page + 6, 2)))
        return NOT_A_PAGE;
    for (size_t at = BLOCK; at < CHECKED; at += BLOCK)
        undo_block(scratch, rounds, start, page, at, out + at - BLOCK);
    return DONE;
}

static uint64_t open_page(const uint8_t *first_key, size_t first_key_len,
                          const uint8_t *second_key, size_t second_key_len,
                          uint32_t rounds,
                          const uint8_t *page, size_t page_len,
                          uint8_t *scratch, size_t scratch_len,
                          uint8_t *out, size_t out_len)
{
    uint32_t refusal = check_page_keys(first_key, first_key_len, second_key,
                                       second_key_len, rounds);

    if (refusal != DONE)
        return refusal;
    if (scratch_len < SCRATCH || out_len < PAYLOAD)
        return OUTPUT_TOO_SHORT;
    if (page_len != PAGE || number(page + 6, 2) > PAYLOAD
        || number(page + 8, 4) != 0)
        return NOT_A_PAGE;
    refusal = open_checked(first_key, second_key, first_key_len, rounds, page,
                           scratch, out);
    memset(scratch, 0, SCRATCH);
    if (refusal != DONE)
        return refusal;
    return UINT64_C(1) << 63 | (uint64_t)number(page + 6, 2) << 48
           | (uint64_t)number(page + 4, 2) << 32 | number(page, 4);
}

/*
 * Key stages. A holder that the host keeps has 26 bytes: the key's length, which is
 * the number of stages too, the number of the stage that it is at, and the stage,
 * with zeros past the key's length.
 */

static bool is_whole(const uint8_t *holder, size_t holder_len)
{
    uint8_t rest = 0;

    if (holder_len != HOLDER || !is_key_length(holder[0])
        || holder[1] >= holder[0])
        return false;
    for (size_t i = 2 + (size_t)holder[0]; i < HOLDER; i++)
        rest |= holder[i];
    return rest == 0;
}

/* The shorter way around, and forward where both are as long. */
static uint32_t holder_walk(uint8_t *holder, size_t holder_len, uint32_t n)
{
    uint32_t turn, s, ahead;

    if (!is_whole(holder, holder_len))
        return BROKEN_HOLDER;
    turn = holder[0];
    s = holder[1];
    if (n >= turn)
        return STAGE_OR_LIST;
    holder[1] = (uint8_t)n;
    ahead = n >= s ? n - s : n + turn - s;
    if (ahead <= turn / 2) {
        walk_stage(FORWARD, holder + 2, turn, s, ahead);
        return WALKED_FORWARD + ahead;
    }
    walk_stage(BACK, holder + 2, turn, s, turn - ahead);
    return WALKED_BACK + turn - ahead;
}

static uint32_t key_stage(const uint8_t *key, size_t key_len, uint32_t n,
                          uint8_t *out, size_t out_len)
{
    if (!is_key_length(key_len))
        return KEY_LENGTH;
    if (n >= key_len)
        return STAGE_OR_LIST;
    if (out_len < STAGE)
        return OUTPUT_TOO_SHORT;
    memcpy(out, key, key_len);
    memset(out + key_len, 0, STAGE - key_len);
    walk_stage(FORWARD, out, key_len, 0, n);
    return DONE;
}

const struct baseline BASELINE = {
    .encipher = encipher,
    .decipher = decipher,
    .prepare_enciphering = prepare_enciphering,
    .prepare_deciphering = prepare_deciphering,
    .run = run,
    .check = check,
    .check_queue = check_queue,
    .seal_page = seal_page,
    .open_page = open_page,
    .holder_walk = holder_walk,
    .stage = key_stage
};
