/*
 * Lends every buffer of every call, but of those on a key holder (holder_bounds.c), of the queue (queue_bounds.c) and of sealed pages
 * (page_bounds.c), between two pages that may not be touched: once right after the first, once right before the second (guard.h).
 * Lengths and numbers lie on both sides of each limit; the answer has to be the first reason in the header's order that holds
 * (rules.h), and nothing may change but what a call that does not refuse writes. What is written on a roll has to be what the header
 * says, byte by byte.
 *
 * Of each of 11 keys with each of 13 round counts there are 25 lengths of input and output for 2 directions, 3 outputs for 2 lists, and
 * 1,050 issues (6 size blocks, 5 rights, 7 rolls, 5 outputs) with 5 checks each: 143 * 6,356. Of the 6 of these pairs that are right
 * there are, for each of 3 contractors, 30 grants that are enciphered here (6 size blocks, 5 rights), each checked for 6 size blocks and 5
 * rights on rolls with 3 counts and 5 highest rights, and to each of 6 contractors issues for 6 size blocks and 5 rights with 2 counts and
 * 5 highest rights: 6 * (3 * 30 * 451 + 1,800). Of each key there are 10 stages in 5 outputs, for 2 calls: 1,100. The engine has
 * 11 * 5 * 5 lengths. On rolls of 7 lengths, 6 contractors with 7 counts and 5 highest rights are withdrawn, and entered and changed with
 * 5 rights: 1,470 * 11. The empty roll has 7 outputs. The header's reader of highest rights is asked for 6 contractors with 256 figures:
 * 1,536. On both sides, 2 * (908,908 + 254,340 + 1,100 + 275 + 16,170 + 7 + 1,536) are 2,364,672 calls. Prints how many did what they have
 * to; the status is 1 where one did not.
 */
#include "guard.h"
#include "rules.h"

static const size_t key_lengths[] = {0, 1, 11, 12, 13, 17, 18, 19, 23, 24, 25};
static const uint32_t round_counts[] = {0, 9, 10, 11, 12, 13, 14, 17, 18, 23, 24, 266, 0xffffffffu};
static const size_t small_lengths[] = {0, 11, 12, 13, 24};
static const size_t roll_lengths[] = {0, 399, 400, 401, 599, 600, 601};
static const size_t list_lengths[] = {0, 12, 131, 132, 133, 144, 276, 287, 288, 289, 300};
static const uint32_t contractors[] = {0, 1, 7, 200, 201, 0xffffffffu};
static const uint8_t on_roll[] = {1, 7, 200};
static const unsigned counts[] = {0, 1, 2, 65532, 65533, 65534, 65535};
static const uint8_t highest_rights[] = {0, 1, 2, 3, 255};
static const uint32_t rights[] = {0, 1, 2, 3, 258};
static const uint8_t rights_in_grants[] = {0, 1, 2, 3, 255};
static const uint32_t stages[] = {0, 1, 11, 12, 17, 18, 23, 24, 256, 0xffffffffu};

static struct lent key, input, roll, out;

/*
 * A roll, cut or made longer, on which a contractor has an entry. All others have count 0 and a highest right of the other meaning, so
 * that a right that is looked for in another place is found out.
 */
static void lend_entry(uint32_t contractor, struct entry e, size_t length) {
    uint8_t bytes[GORDZILA_ROLL_BYTES + 1];
    fill_roll(bytes, sizeof bytes, e.highest == 2 ? 1 : 2);
    if (is_contractor(contractor)) {
        put_entry(bytes, contractor, e);
    }
    lend(&roll, bytes, length);
}

static void cipher(uint32_t rounds) {
    for (size_t i = 0; i < COUNT(small_lengths); i++) {
        for (size_t o = 0; o < COUNT(small_lengths); o++) {
            uint32_t expected = then(of_rounds(key.length, rounds), small_lengths[i] != 12, GORDZILA_INPUT_LENGTH);
            expected = then(expected, small_lengths[o] < 12, GORDZILA_OUTPUT_TOO_SHORT);
            lend_any(&input, small_lengths[i]);
            lend_any(&out, small_lengths[o]);
            judge("encipher",
                  gordzila_encipher(key.at, key.length, rounds, input.at, input.length, out.at, out.length), expected, &out, 12);
            lend_any(&out, small_lengths[o]);
            judge("decipher",
                  gordzila_decipher(key.at, key.length, rounds, input.at, input.length, out.at, out.length), expected, &out, 12);
        }
    }
}

static void prepare(uint32_t rounds) {
    size_t need = rounds < 24 ? 12 * ((size_t)rounds + 1) : 288;
    for (size_t o = need - 1; o <= need + 1; o++) {
        uint32_t expected = then(of_rounds(key.length, rounds), o < need, GORDZILA_OUTPUT_TOO_SHORT);
        lend_any(&out, o);
        judge("prepare_enciphering", gordzila_prepare_enciphering(key.at, key.length, rounds, out.at, out.length), expected,
              &out, need);
        lend_any(&out, o);
        judge("prepare_deciphering", gordzila_prepare_deciphering(key.at, key.length, rounds, out.at, out.length), expected,
              &out, need);
    }
}

/* One check. Where no reason holds, the answer has the contractor and the right asked for, whichever the grant has. */
static void check(uint32_t rounds, uint32_t contractor, uint32_t block, uint32_t asked, uint32_t expected) {
    judge("check",
          gordzila_check(key.at, key.length, rounds, roll.at, roll.length, input.at, input.length, block, asked),
          expected == 0 ? 1000 * asked + contractor : expected, NULL, 0);
}

/*
 * Checks the bytes that an issue for a right and a size block has left, for each right and that size block. Where the right was none,
 * they are no grant.
 */
static void check_issued(uint32_t rounds, uint32_t issued, uint32_t block) {
    int fits = roll.length == GORDZILA_ROLL_BYTES && input.length == 12;
    uint32_t start = then(of_rounds(key.length, rounds), !fits, GORDZILA_INPUT_LENGTH);
    for (size_t i = 0; i < COUNT(rights); i++) {
        uint32_t expected = of_asked(start, rights[i], block);
        expected = then(expected, !is_right(issued), GORDZILA_NOT_A_GRANT);
        check(rounds, 7, block, rights[i], then(expected, falls_short(issued, rights[i]), GORDZILA_OTHER_RIGHT));
    }
}

/* Issues to contractor 7 and checks what was issued, on rolls and outputs of several lengths. */
static void grant(uint32_t rounds, uint32_t right, uint32_t block) {
    for (size_t r = 0; r < COUNT(roll_lengths); r++) {
        for (size_t o = 0; o < COUNT(small_lengths); o++) {
            int fits = roll_lengths[r] == GORDZILA_ROLL_BYTES;
            uint32_t expected = then(of_rounds(key.length, rounds), !fits, GORDZILA_INPUT_LENGTH);
            expected = then(expected, small_lengths[o] < 12, GORDZILA_OUTPUT_TOO_SHORT);
            uint8_t given[512] = {0};
            lend_entry(7, (struct entry){1, 2}, roll_lengths[r]);
            lend_any(&out, small_lengths[o]);
            judge("issue",
                  gordzila_issue(key.at, key.length, rounds, roll.at, roll.length, 7, block, right, out.at, out.length),
                  of_asked(expected, right, block), &out, 12);
            memcpy(given, out.at, out.length);
            lend(&input, given, out.length);
            lend_any(&out, 0);
            check_issued(rounds, right, block);
        }
    }
}

/*
 * A grant to a contractor of count 1, for any size block and with any byte as its right: plain bytes, enciphered. So there are grants for
 * size block 0 too, as they were issued before version 0.7.
 */
static void lend_grant(uint32_t rounds, uint8_t contractor, uint32_t block, uint8_t right) {
    const uint8_t plain[12] = {0, contractor, 0, 1, (uint8_t)(block >> 24), (uint8_t)(block >> 16), (uint8_t)(block >> 8),
                               (uint8_t)block, right, 0x47, 0x52, 0x44};
    uint8_t given[12];
    lend(&input, plain, sizeof plain);
    lend_any(&out, sizeof given);
    judge("encipher", gordzila_encipher(key.at, key.length, rounds, input.at, input.length, out.at, out.length), 0, &out, 12);
    memcpy(given, out.at, sizeof given);
    lend(&input, given, sizeof given);
    lend_any(&out, 0);
}

/* What a grant says. */
struct granted {
    uint8_t contractor, right;
    uint32_t block;
};

/* Checks the grant that is lent for a right and a size block, where its contractor may be withdrawn (2) or in another standing (3). */
static void check_around(uint32_t rounds, struct granted g, uint32_t block, uint32_t asked) {
    uint32_t start = then(of_asked(0, asked, block), !is_right(g.right), GORDZILA_NOT_A_GRANT);
    start = then(start, block != g.block, GORDZILA_OTHER_BLOCK);
    start = then(start, falls_short(g.right, asked), GORDZILA_OTHER_RIGHT);
    for (unsigned count = 1; count <= 3; count++) {
        for (size_t h = 0; h < COUNT(highest_rights); h++) {
            struct entry e = {count, highest_rights[h]};
            uint32_t expected = then(start, count == 2, GORDZILA_NOT_IN_STANDING);
            expected = then(expected, count == 3, GORDZILA_OTHER_COUNT);
            lend_entry(g.contractor, e, GORDZILA_ROLL_BYTES);
            check(rounds, g.contractor, block, asked, then(expected, is_above(asked, e), GORDZILA_ABOVE_HIGHEST));
        }
    }
}

/* Each size block and each right asked for, of the grant that is lent. */
static void asked(uint32_t rounds, struct granted g) {
    for (size_t b = 0; b < COUNT(size_blocks); b++) {
        for (size_t a = 0; a < COUNT(rights); a++) {
            check_around(rounds, g, size_blocks[b], rights[a]);
        }
    }
}

/* Each size block and each right in a grant. */
static void granted(uint32_t rounds, uint8_t contractor) {
    for (size_t b = 0; b < COUNT(size_blocks); b++) {
        for (size_t r = 0; r < COUNT(rights_in_grants); r++) {
            lend_grant(rounds, contractor, size_blocks[b], rights_in_grants[r]);
            asked(rounds, (struct granted){contractor, rights_in_grants[r], size_blocks[b]});
        }
    }
}

/* Issues for a right and a size block, to a contractor who is in standing (1) or not (2). */
static void issue_around(uint32_t rounds, uint32_t contractor, uint32_t right, uint32_t block) {
    uint32_t start = of_asked(!is_contractor(contractor) ? GORDZILA_CONTRACTOR : 0, right, block);
    for (unsigned count = 1; count <= 2; count++) {
        for (size_t h = 0; h < COUNT(highest_rights); h++) {
            struct entry e = {count, highest_rights[h]};
            uint32_t expected = then(start, count == 2, GORDZILA_NOT_IN_STANDING);
            lend_entry(contractor, e, GORDZILA_ROLL_BYTES);
            lend_any(&out, 13);
            judge("issue",
                  gordzila_issue(key.at, key.length, rounds, roll.at, roll.length, contractor, block, right, out.at, out.length),
                  then(expected, is_above(right, e), GORDZILA_ABOVE_HIGHEST), &out, 12);
        }
    }
}

static void issues(uint32_t rounds, uint32_t contractor) {
    for (size_t b = 0; b < COUNT(size_blocks); b++) {
        for (size_t i = 0; i < COUNT(rights); i++) {
            issue_around(rounds, contractor, rights[i], size_blocks[b]);
        }
    }
}

/* What can be opened and issued: for each size block, by the highest rights on a roll. */
static void grants(uint32_t rounds) {
    for (size_t c = 0; c < COUNT(on_roll); c++) {
        granted(rounds, on_roll[c]);
    }
    for (size_t c = 0; c < COUNT(contractors); c++) {
        issues(rounds, contractors[c]);
    }
}

/* Rolls and outputs of several lengths, for each size block and each right. */
static void grant_lengths(uint32_t rounds) {
    for (size_t b = 0; b < COUNT(size_blocks); b++) {
        for (size_t i = 0; i < COUNT(rights); i++) {
            grant(rounds, rights[i], size_blocks[b]);
        }
    }
}

static void stage(uint32_t n) {
    for (size_t o = 0; o < COUNT(small_lengths); o++) {
        uint32_t expected = then(of_key(key.length), n >= key.length, GORDZILA_STAGE_OR_LIST);
        lend_any(&out, small_lengths[o]);
        judge("stage", gordzila_stage(key.at, key.length, n, out.at, out.length),
              then(expected, out.length < 24, GORDZILA_OUTPUT_TOO_SHORT), &out, 24);
        lend_any(&out, small_lengths[o]);
        judge("subkey", gordzila_subkey(key.at, key.length, n, out.at, out.length),
              then(expected, out.length < 12, GORDZILA_OUTPUT_TOO_SHORT), &out, 12);
    }
}

static void with_keys(void) {
    for (size_t k = 0; k < COUNT(key_lengths); k++) {
        lend_any(&key, key_lengths[k]);
        for (size_t r = 0; r < COUNT(round_counts); r++) {
            cipher(round_counts[r]);
            prepare(round_counts[r]);
            grant_lengths(round_counts[r]);
            if (of_rounds(key.length, round_counts[r]) == 0) {
                grants(round_counts[r]);
            }
        }
        for (size_t n = 0; n < COUNT(stages); n++) {
            stage(stages[n]);
        }
    }
}

static void engine(void) {
    for (size_t l = 0; l < COUNT(list_lengths); l++) {
        for (size_t i = 0; i < COUNT(small_lengths); i++) {
            for (size_t o = 0; o < COUNT(small_lengths); o++) {
                size_t n = list_lengths[l];
                uint32_t expected = n < 132 || n > 288 || n % 12 != 0 ? GORDZILA_STAGE_OR_LIST : 0;
                expected = then(expected, small_lengths[i] != 12, GORDZILA_INPUT_LENGTH);
                lend_any(&key, n);
                lend_any(&input, small_lengths[i]);
                lend_any(&out, small_lengths[o]);
                judge("run", gordzila_run(key.at, key.length, input.at, input.length, out.at, out.length),
                      then(expected, out.length < 12, GORDZILA_OUTPUT_TOO_SHORT), &out, 12);
            }
        }
    }
}

/* A roll, cut or made longer, on which a contractor has an entry and all others have any bytes. */
static void lend_among_others(uint32_t contractor, struct entry e, size_t length) {
    uint8_t bytes[GORDZILA_ROLL_BYTES + 1];
    for (size_t i = 0; i < sizeof bytes; i++) {
        bytes[i] = (uint8_t)(37 * i + 11);
    }
    if (is_contractor(contractor)) {
        put_entry(bytes, contractor, e);
    }
    lend(&roll, bytes, length);
}

/* A call on the roll answered. Where it does not refuse, it leaves the contractor this entry; every other byte stays. */
static void judge_entry(const char *call, uint32_t got, uint32_t expected, uint32_t contractor, struct entry left) {
    uint8_t bytes[GORDZILA_ROLL_BYTES + 1];
    memcpy(bytes, roll.before, roll.length);
    if (expected == 0) {
        put_entry(bytes, contractor, left);
    }
    int wrong = memcmp(roll.at, bytes, roll.length) != 0;
    count(call, got, expected, wrong || changed_beside(got, &roll, GORDZILA_ROLL_BYTES));
}

/* Each call on the roll, for a contractor who has an entry. */
static void entries(size_t length, uint32_t c, struct entry e) {
    uint32_t start = length != GORDZILA_ROLL_BYTES ? GORDZILA_INPUT_LENGTH : 0;
    start = then(start, !is_contractor(c), GORDZILA_CONTRACTOR);
    lend_among_others(c, e, length);
    judge_entry("withdraw", gordzila_withdraw(roll.at, roll.length, c), then(start, !in_standing(e), GORDZILA_NOT_IN_STANDING), c,
                (struct entry){e.count + 1, 1});
    for (size_t i = 0; i < COUNT(rights); i++) {
        uint32_t expected = then(start, !is_right(rights[i]), GORDZILA_RIGHT);
        uint32_t entering = then(expected, in_standing(e), GORDZILA_IN_STANDING);
        uint8_t right = (uint8_t)rights[i];
        lend_among_others(c, e, length);
        judge_entry("enter", gordzila_enter(roll.at, roll.length, c, rights[i]),
                    then(entering, e.count >= 65534, GORDZILA_COUNT_SPENT), c, (struct entry){e.count + 1, right});
        lend_among_others(c, e, length);
        judge_entry("change_right", gordzila_change_right(roll.at, roll.length, c, rights[i]),
                    then(expected, !in_standing(e), GORDZILA_NOT_IN_STANDING), c, (struct entry){e.count, right});
    }
}

static void rolls(size_t length, uint32_t contractor) {
    for (size_t n = 0; n < COUNT(counts); n++) {
        for (size_t h = 0; h < COUNT(highest_rights); h++) {
            entries(length, contractor, (struct entry){counts[n], highest_rights[h]});
        }
    }
}

static void empty_roll(size_t length) {
    uint8_t bytes[GORDZILA_ROLL_BYTES];
    fill_roll(bytes, sizeof bytes, 1);
    lend_any(&out, length);
    uint32_t got = gordzila_empty_roll(out.at, out.length);
    int wrong = length >= sizeof bytes && memcmp(out.at, bytes, sizeof bytes) != 0;
    count("empty_roll", got, length < sizeof bytes ? GORDZILA_OUTPUT_TOO_SHORT : 0,
          wrong || changed_beside(got, &out, sizeof bytes));
}

/* The header's reader, of each figure. Outside 1 to 200 it touches nothing. */
static void read_right(uint32_t contractor) {
    for (unsigned figure = 0; figure < 256; figure++) {
        uint32_t expected = figure == 2 ? GORDZILA_OVERWRITING : GORDZILA_READING;
        lend_entry(contractor, (struct entry){1, (uint8_t)figure}, GORDZILA_ROLL_BYTES);
        judge("highest_right", gordzila_highest_right(roll.at, contractor), is_contractor(contractor) ? expected : 0, NULL, 0);
    }
}

static void on_rolls(void) {
    for (size_t r = 0; r < COUNT(roll_lengths); r++) {
        for (size_t i = 0; i < COUNT(contractors); i++) {
            rolls(roll_lengths[r], contractors[i]);
        }
        empty_roll(roll_lengths[r]);
    }
    for (size_t i = 0; i < COUNT(contractors); i++) {
        read_right(contractors[i]);
    }
}

int main(void) {
    make_room(&key);
    make_room(&input);
    make_room(&roll);
    make_room(&out);
    for (at_the_end = 0; at_the_end <= 1; at_the_end++) {
        with_keys();
        engine();
        on_rolls();
    }
    return told("calls");
}
