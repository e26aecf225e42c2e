/*
 * Replays the lives of grants that the independent program prints (reference/README.md, `grants`) through the C calls on the roll, of the
 * issue, of the check and of the queue: standard input has its lines. Each lent buffer ends where a page that may not be touched begins
 * (guard.h).
 *
 * A life starts with an empty roll, and has 3 entries, 6 changes of the right, 2 withdrawals and 6 issues; 15 checks, 12 of damaged
 * grants, and 7 here of wrong lengths and of a wrong right. The 27 that the independent program has are also made in a queue. At the end of
 * each life there are here 4 calls for size block 0 and 4 on a grant for it. Of 48 lives, 48 * (1 + 17 + 34 + 27 + 8) are 4,176. Prints how
 * many agreed; the status is 1 where one did not.
 */
#include "guard.h"
#include "rules.h"

enum { ISSUES = 6, CHECKS = 15 };

/* The grants that are checked, by the number of their issue in the life. */
enum { A = 1, C = 4, B = 5 };

/* What a life is about, and what it has come to: its contractor's entry on the roll, and the grants, where an issue gave one. */
struct life {
    uint8_t key[24];
    size_t key_length;
    unsigned rounds, contractor, block, right;
    struct entry entry;
    uint8_t grants[ISSUES][12];
    int given[ISSUES];
    int issues;
    int checks;
};

static struct lent key, roll, grant, out;

/* The roll as it is now, cut or made longer. */
static void fill(const struct life *l, uint8_t *bytes, size_t length) {
    fill_roll(bytes, length, 1);
    put_entry(bytes, l->contractor, l->entry);
}

static void lend_roll(const struct life *l, size_t roll_length) {
    uint8_t bytes[GORDZILA_ROLL_BYTES + 1];
    fill(l, bytes, sizeof bytes);
    lend(&key, l->key, l->key_length);
    lend(&roll, bytes, roll_length);
}

/* A call on the roll has to give this answer, and to leave the contractor this entry if that is 0. */
static void expect_left(struct life *l, const char *call, uint32_t got, unsigned answer, struct entry left) {
    uint8_t bytes[GORDZILA_ROLL_BYTES];
    l->entry = answer == 0 ? left : l->entry;
    fill(l, bytes, sizeof bytes);
    count(call, got, answer,
          memcmp(roll.at, bytes, sizeof bytes) != 0 || changed_beside(got, &roll, GORDZILA_ROLL_BYTES));
}

static void start(struct life *l) {
    l->issues = 0;
    l->checks = 0;
    lend(&key, l->key, l->key_length);
    lend_any(&roll, GORDZILA_ROLL_BYTES);
    expect_left(l, "empty_roll", gordzila_empty_roll(roll.at, roll.length), 0, (struct entry){0, 1});
}

static void enter(struct life *l, unsigned highest, unsigned answer) {
    lend_roll(l, GORDZILA_ROLL_BYTES);
    expect_left(l, "enter", gordzila_enter(roll.at, roll.length, l->contractor, highest), answer,
                (struct entry){l->entry.count + 1, (uint8_t)highest});
}

static void change_right(struct life *l, unsigned highest, unsigned answer) {
    lend_roll(l, GORDZILA_ROLL_BYTES);
    expect_left(l, "change_right", gordzila_change_right(roll.at, roll.length, l->contractor, highest), answer,
                (struct entry){l->entry.count, (uint8_t)highest});
}

static void withdraw(struct life *l, unsigned answer) {
    lend_roll(l, GORDZILA_ROLL_BYTES);
    expect_left(l, "withdraw", gordzila_withdraw(roll.at, roll.length, l->contractor), answer,
                (struct entry){l->entry.count + 1, 1});
}

/* An issue has to give this answer, and the grant with these digits if that is 0. */
static void issue(struct life *l, unsigned right, unsigned answer, const char *hex) {
    int i = l->issues++ % ISSUES;
    l->given[i] = answer == 0;
    from_hex(hex, l->grants[i], 12);
    lend_roll(l, GORDZILA_ROLL_BYTES);
    lend_any(&out, 13);
    uint32_t got = gordzila_issue(key.at, key.length, l->rounds, roll.at, roll.length, l->contractor, l->block, right, out.at,
                                  out.length);
    count("issue", got, answer, changed_beside(got, &out, 12) || (answer == 0 && memcmp(out.at, l->grants[i], 12) != 0));
}

/* What a check answers of bytes as the grant. */
static uint32_t checked(const struct life *l, const uint8_t *bytes, size_t grant_length, unsigned block, unsigned right) {
    lend(&grant, bytes, grant_length);
    return gordzila_check(key.at, key.length, l->rounds, roll.at, roll.length, grant.at, grant.length, block, right);
}

/* One check, on lent bytes of these lengths, has to give this answer. */
static void expect(const struct life *l, const uint8_t *bytes, size_t grant_length, size_t roll_length, unsigned block,
                   unsigned right, unsigned answer) {
    lend_roll(l, roll_length);
    judge("check", checked(l, bytes, grant_length, block, right), answer, NULL, 0);
}

/* The byte of a queue for a grant of which a check answers so. */
static uint8_t verdict(uint32_t answer) { return (uint8_t)(gordzila_opens(answer) ? 0 : answer); }

/*
 * A grant, of which a check has to answer so, in a queue after all that were issued in its life: it has the byte for this answer, and
 * the others have those for what single checks answer now.
 */
static void expect_queued(const struct life *l, const uint8_t *bytes, unsigned block, unsigned right, unsigned answer) {
    uint8_t grants[ISSUES + 1][12];
    uint8_t verdicts[ISSUES + 1];
    size_t n = 0;
    lend_roll(l, GORDZILA_ROLL_BYTES);
    for (int i = 0; i < l->issues && i < ISSUES; i++) {
        if (l->given[i]) {
            memcpy(grants[n], l->grants[i], 12);
            verdicts[n] = verdict(checked(l, grants[n], 12, block, right));
            n++;
        }
    }
    memcpy(grants[n], bytes, 12);
    verdicts[n] = verdict(answer);
    n++;
    lend(&grant, grants[0], 12 * n);
    lend_any(&out, n + 2);
    uint32_t got = gordzila_check_queue(key.at, key.length, l->rounds, roll.at, roll.length, grant.at, grant.length, block, right,
                                        out.at, out.length);
    count("queue", got, 0, changed_beside(got, &out, n) || memcmp(out.at, verdicts, n) != 0);
}

/* The checks of a life, in their order: which grant, and for which block. The second is for the next one. */
static void check(struct life *l, unsigned right, unsigned answer) {
    static const int checked_grants[CHECKS] = {A, A, A, A, A, A, C, C, C, A, A, C, B, A, B};
    int i = l->checks++;
    unsigned block = i == 1 ? (l->block + 1u) & 0xffffffffu : l->block;
    if (i < CHECKS) {
        expect(l, l->grants[checked_grants[i]], 12, GORDZILA_ROLL_BYTES, block, right, answer);
        expect_queued(l, l->grants[checked_grants[i]], block, right, answer);
    }
}

/* Lengths that are wrong, by one or as they were before version 0.6: 3, whatever else holds of grant and roll. */
static void short_and_long(const struct life *l) {
    static const size_t wrong_rolls[] = {0, 400, GORDZILA_ROLL_BYTES - 1, GORDZILA_ROLL_BYTES + 1};
    uint8_t bytes[13];
    memcpy(bytes, l->grants[B], 12);
    bytes[12] = 0;
    expect(l, bytes, 11, GORDZILA_ROLL_BYTES, l->block, l->right, GORDZILA_INPUT_LENGTH);
    expect(l, bytes, 13, GORDZILA_ROLL_BYTES, l->block, l->right, GORDZILA_INPUT_LENGTH);
    for (size_t i = 0; i < COUNT(wrong_rolls); i++) {
        expect(l, bytes, 12, wrong_rolls[i], l->block, l->right, GORDZILA_INPUT_LENGTH);
    }
    expect(l, bytes, 12, GORDZILA_ROLL_BYTES, l->block, 257, GORDZILA_RIGHT);
}

/*
 * Size block 0, as a form that was left blank asks for it: the issue to the contractor of the life, who is in standing, the check of a
 * grant that opens its own size block, and a queue of the life's grants are refused with 14, and nothing is written. What is no right is 7
 * all the same.
 */
static void blank_form(const struct life *l) {
    lend_roll(l, GORDZILA_ROLL_BYTES);
    lend_any(&out, 13);
    judge("issue",
          gordzila_issue(key.at, key.length, l->rounds, roll.at, roll.length, l->contractor, 0, l->right, out.at, out.length),
          GORDZILA_BLOCK_ZERO, &out, 12);
    expect(l, l->grants[B], 12, GORDZILA_ROLL_BYTES, 0, l->right, GORDZILA_BLOCK_ZERO);
    expect(l, l->grants[B], 12, GORDZILA_ROLL_BYTES, 0, 257, GORDZILA_RIGHT);
    lend(&grant, l->grants[A], 12 * (B - A + 1));
    judge("queue",
          gordzila_check_queue(key.at, key.length, l->rounds, roll.at, roll.length, grant.at, grant.length, 0, l->right, out.at,
                               out.length),
          GORDZILA_BLOCK_ZERO, &out, B - A + 1);
}

/* A grant for size block 0, as it was issued before version 0.7, in the standing of now: it opens nothing, alone or in a queue. */
static void old_grant(const struct life *l) {
    const uint8_t plain[12] = {0, (uint8_t)l->contractor, (uint8_t)(l->entry.count / 256), (uint8_t)(l->entry.count % 256), 0, 0, 0, 0,
                               (uint8_t)l->right, 0x47, 0x52, 0x44};
    uint8_t bytes[12];
    lend(&grant, plain, sizeof plain);
    lend_any(&out, sizeof bytes);
    judge("encipher", gordzila_encipher(key.at, key.length, l->rounds, grant.at, grant.length, out.at, out.length), 0, &out, 12);
    memcpy(bytes, out.at, sizeof bytes);
    expect(l, bytes, 12, GORDZILA_ROLL_BYTES, 0, l->right, GORDZILA_BLOCK_ZERO);
    expect(l, bytes, 12, GORDZILA_ROLL_BYTES, l->block, l->right, GORDZILA_OTHER_BLOCK);
    expect_queued(l, bytes, l->block, l->right, GORDZILA_OTHER_BLOCK);
}

static void damaged(const struct life *l, unsigned at, unsigned answer) {
    uint8_t bytes[12];
    memcpy(bytes, l->grants[B], 12);
    bytes[at % 12] ^= 1;
    expect(l, bytes, 12, GORDZILA_ROLL_BYTES, l->block, l->right, answer);
    expect_queued(l, bytes, l->block, l->right, answer);
    if (at == 11) {
        short_and_long(l);
        blank_form(l);
        old_grant(l);
    }
}

static void line(struct life *l, const char *text) {
    char hex[64] = "";
    unsigned asked, n, contractor, right, at;
    if (sscanf(text, "life %63s %u %u %u %u", hex, &l->rounds, &l->contractor, &l->block, &l->right) == 5) {
        l->key_length = from_hex(hex, l->key, sizeof l->key);
        start(l);
    } else if (sscanf(text, "enter %u %u", &asked, &n) == 2) {
        enter(l, asked, n);
    } else if (sscanf(text, "right %u %u", &asked, &n) == 2) {
        change_right(l, asked, n);
    } else if (sscanf(text, "withdraw %u", &n) == 1) {
        withdraw(l, n);
    } else if (sscanf(text, "issue %u %u %63s", &asked, &n, hex) >= 2) {
        issue(l, asked, n, hex);
    } else if (sscanf(text, "check %u %u %u %u", &asked, &n, &contractor, &right) == 4) {
        check(l, asked, n == 0 ? 1000 * right + contractor : n);
    } else if (sscanf(text, "damaged %u %u %u %u", &at, &n, &contractor, &right) == 4) {
        damaged(l, at, n == 0 ? 1000 * right + contractor : n);
    }
}

int main(void) {
    static struct life life;
    char text[256];
    at_the_end = 1;
    make_room(&key);
    make_room(&roll);
    make_room(&grant);
    make_room(&out);
    while (fgets(text, sizeof text, stdin) != NULL) {
        line(&life, text);
    }
    return told("calls");
}
