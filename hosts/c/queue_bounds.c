/*
 * The queue, tested as bounds.c tests the other calls: every buffer lies between two pages that may not be touched, once right after
 * the first, once right before the second (guard.h); lengths and numbers lie on both sides of each limit; the answer has to be the
 * first reason in the header's order that holds (rules.h); and nothing may change but the bytes of answers that a call that does not
 * refuse writes, one for each grant. These have to be what a single check of each grant answers, and that what the rules say of it.
 *
 * Of each of 11 keys with each of 13 round counts there are queues of 13 lengths with 11 lengths of answers, on 7 rolls, for 5 rights,
 * asked for a size block and for size block 0: 143 * 10,010. Of the 6 of these pairs that are right there are 5 piles, each about another
 * size block, of 64 grants that are enciphered here; of each pile, for that size block, another one and 0, and for 2 rights, the single
 * checks of all, and a queue of each number of them from 0 to 64: 6 * 5 * (64 + 3 * 2 * (64 + 65)). On both sides, 2 * (1,431,430 +
 * 25,140) are 2,913,140 calls. Prints how many did what they have to; the status is 1 where one did not.
 */
#include "guard.h"
#include "rules.h"

enum { MOST = GORDZILA_QUEUE_MOST_GRANTS };

static const size_t key_lengths[] = {0, 1, 11, 12, 13, 17, 18, 19, 23, 24, 25};
static const uint32_t round_counts[] = {0, 9, 10, 11, 12, 13, 14, 17, 18, 23, 24, 266, 0xffffffffu};
static const size_t roll_lengths[] = {0, 399, 400, 401, 599, 600, 601};
static const uint32_t rights[] = {0, 1, 2, 3, 258};
static const size_t queue_lengths[] = {0, 1, 11, 12, 13, 24, 755, 756, 767, 768, 769, 780, 1536};
static const size_t answer_lengths[] = {0, 1, 2, 3, 62, 63, 64, 65, 66, 128, 256};

/*
 * Contractors and their entries on the roll; all others have count 0 and may overwrite. Those with the counts 1, 3, 5, 7 and 65,533 are in
 * standing. Who may overwrite there, and who may only read, stand side by side.
 */
static const struct {
    unsigned contractor;
    struct entry entry;
} entries[] = {
    {1, {65533, 2}}, {2, {1, 0}},     {3, {1, 3}},  {4, {2, 1}},     {6, {0, 1}},   {7, {1, 2}},
    {8, {2, 1}},     {9, {65535, 2}}, {10, {7, 1}}, {199, {3, 255}}, {200, {5, 2}},
};

/* The size blocks that piles are about. All but the last have one byte alone that is not 0, so that a number that is cut is found out. */
static const uint32_t homes[] = {1, 256, 65536, 16777216, 0xffffffffu};

/*
 * Which size block a grant is for, and which one is asked for: the one that the pile is about, another, or 0. Nobody may ask for that, and
 * only grants from before version 0.7 are for it.
 */
enum place { HOME, OTHER, ZERO, PLACES };

static uint32_t home = 1;

static uint32_t number_of(enum place place) { return place == HOME ? home : place == OTHER ? home ^ 3 : 0; }

/* What a grant says, and the last byte of its mark, which is 0x44. */
struct plain {
    unsigned contractor, count;
    enum place place;
    uint8_t right, mark;
};

/* The last twelve are of contractors who may only read. */
enum { KINDS = 30 };
static const struct plain plains[KINDS] = {
    {7, 1, HOME, 2, 0x44},    {7, 1, HOME, 1, 0x44},    {7, 1, OTHER, 2, 0x44},    {7, 1, ZERO, 2, 0x44},     {7, 1, ZERO, 1, 0x44},
    {7, 3, HOME, 2, 0x44},    {7, 3, HOME, 1, 0x44},    {8, 2, HOME, 2, 0x44},     {8, 1, HOME, 1, 0x44},     {200, 5, HOME, 2, 0x44},
    {200, 5, OTHER, 1, 0x44}, {200, 1, OTHER, 1, 0x44}, {1, 65533, HOME, 1, 0x44}, {9, 65535, HOME, 2, 0x44}, {0, 0, HOME, 2, 0x44},
    {201, 1, HOME, 1, 0x44},  {7, 1, HOME, 3, 0x44},    {7, 1, HOME, 2, 0x45},     {2, 1, HOME, 2, 0x44},     {3, 1, HOME, 2, 0x44},
    {199, 3, OTHER, 2, 0x44}, {2, 1, HOME, 1, 0x44},    {3, 3, HOME, 2, 0x44},     {4, 1, HOME, 2, 0x44},     {10, 7, HOME, 2, 0x44},
    {10, 7, HOME, 1, 0x44},   {10, 7, OTHER, 2, 0x44},  {10, 7, ZERO, 2, 0x44},    {10, 5, HOME, 2, 0x44},    {10, 7, HOME, 3, 0x44},
};

static struct lent key, roll, grants, answers;

/* The pile, twice on end, so that a queue may start at any of its grants. */
static uint8_t pile[2 * MOST][GORDZILA_GRANT_BYTES];

/* What the single checks say of the pile as bytes of a queue: by the size block asked for, and by right from 1 on. */
static uint8_t verdicts[PLACES][2][MOST];

/* All kinds stand in the first 30 grants, and in the next 30, each time in another order. */
static const struct plain *plain_at(size_t i) { return &plains[(i * i * i + i / KINDS) % KINDS]; }

static struct entry entry_of(unsigned contractor) {
    for (size_t i = 0; i < COUNT(entries); i++) {
        if (entries[i].contractor == contractor) {
            return entries[i].entry;
        }
    }
    return (struct entry){0, 2};
}

static void lend_roll(size_t length) {
    uint8_t bytes[GORDZILA_ROLL_BYTES + 1];
    fill_roll(bytes, sizeof bytes, 2);
    for (size_t i = 0; i < COUNT(entries); i++) {
        put_entry(bytes, entries[i].contractor, entries[i].entry);
    }
    lend(&roll, bytes, length);
}

/* Bytes that are no number of a refusal, and no two beside each other alike. */
static void lend_answers(size_t length) {
    uint8_t bytes[LONGEST_LENT];
    for (size_t i = 0; i < length; i++) {
        bytes[i] = (uint8_t)(128 + i % 101);
    }
    lend(&answers, bytes, length);
}

/* The reason with which a check refuses a grant, or 0, by the rules. */
static uint32_t refusal(const struct plain *p, enum place asked, uint32_t right) {
    struct entry e = entry_of(p->contractor);
    int whole = is_contractor(p->contractor) && is_right(p->right) && p->mark == 0x44;
    uint32_t number = then(of_asked(0, right, number_of(asked)), !whole, GORDZILA_NOT_A_GRANT);
    number = then(number, p->place != asked, GORDZILA_OTHER_BLOCK);
    number = then(number, falls_short(p->right, right), GORDZILA_OTHER_RIGHT);
    number = then(number, !in_standing(e), GORDZILA_NOT_IN_STANDING);
    number = then(number, p->count != e.count, GORDZILA_OTHER_COUNT);
    return then(number, is_above(right, e), GORDZILA_ABOVE_HIGHEST);
}

/* The pile of grants under the key that is lent: plain bytes, enciphered. */
static void make_pile(uint32_t rounds) {
    for (size_t i = 0; i < MOST; i++) {
        const struct plain *p = plain_at(i);
        uint32_t block = number_of(p->place);
        const uint8_t plain[12] = {0, (uint8_t)p->contractor, (uint8_t)(p->count / 256), (uint8_t)(p->count % 256),
                                   (uint8_t)(block >> 24), (uint8_t)(block >> 16), (uint8_t)(block >> 8), (uint8_t)block,
                                   p->right, 0x47, 0x52, p->mark};
        lend(&grants, plain, sizeof plain);
        lend_answers(sizeof plain);
        judge("encipher",
              gordzila_encipher(key.at, key.length, rounds, grants.at, grants.length, answers.at, answers.length), 0, &answers, 12);
        memcpy(pile[i], answers.at, sizeof plain);
        memcpy(pile[MOST + i], answers.at, sizeof plain);
    }
}

/* Checks the grants of the pile one by one. */
static void singles(uint32_t rounds, enum place asked, uint32_t right) {
    lend_answers(0);
    for (size_t i = 0; i < MOST; i++) {
        uint32_t expected = refusal(plain_at(i), asked, right);
        lend(&grants, pile[i], GORDZILA_GRANT_BYTES);
        uint32_t answer = gordzila_check(key.at, key.length, rounds, roll.at, roll.length, grants.at, grants.length,
                                         number_of(asked), right);
        judge("check", answer, expected == 0 ? 1000 * right + plain_at(i)->contractor : expected, NULL, 0);
        verdicts[asked][right - 1][i] = (uint8_t)(gordzila_opens(answer) ? 0 : answer);
    }
}

/* One queue: so many bytes of the pile, from one of its grants on, with so many bytes for the answers. */
static void queue(uint32_t rounds, size_t from, size_t length, enum place asked, uint32_t right, size_t room) {
    size_t number = length / 12;
    uint32_t expected = of_rounds(key.length, rounds);
    expected = then(expected, roll.length != GORDZILA_ROLL_BYTES || length % 12 != 0 || length > 768, GORDZILA_INPUT_LENGTH);
    expected = then(expected, room < number, GORDZILA_OUTPUT_TOO_SHORT);
    expected = of_asked(expected, right, number_of(asked));
    lend(&grants, pile[from], length);
    lend_answers(room);
    uint32_t got = gordzila_check_queue(key.at, key.length, rounds, roll.at, roll.length, grants.at, grants.length,
                                        number_of(asked), right, answers.at, answers.length);
    int wrong = changed_beside(got, &answers, number);
    for (size_t i = 0; expected == 0 && i < number; i++) {
        wrong |= answers.at[i] != verdicts[asked][right - 1][(from + i) % MOST];
    }
    count("queue", got, expected, wrong);
}

/* Every number of grants, each time from another one on, with one byte of answers more than they need. */
static void numbers_of_grants(uint32_t rounds) {
    lend_roll(GORDZILA_ROLL_BYTES);
    make_pile(rounds);
    for (enum place asked = HOME; asked < PLACES; asked++) {
        for (uint32_t right = GORDZILA_READING; right <= GORDZILA_OVERWRITING; right++) {
            singles(rounds, asked, right);
            for (size_t n = 0; n <= MOST; n++) {
                queue(rounds, n, GORDZILA_GRANT_BYTES * n, asked, right, n + 1);
            }
        }
    }
}

static void lengths(uint32_t rounds, uint32_t right) {
    for (size_t q = 0; q < COUNT(queue_lengths); q++) {
        for (size_t a = 0; a < COUNT(answer_lengths); a++) {
            queue(rounds, 0, queue_lengths[q], HOME, right, answer_lengths[a]);
            queue(rounds, 0, queue_lengths[q], ZERO, right, answer_lengths[a]);
        }
    }
}

/* Where key and round count are wrong, the queue is of a pile under other ones, or of zeros. */
static void with(uint32_t rounds) {
    for (size_t h = 0; h < COUNT(homes) && of_rounds(key.length, rounds) == 0; h++) {
        home = homes[h];
        numbers_of_grants(rounds);
    }
    for (size_t r = 0; r < COUNT(roll_lengths); r++) {
        lend_roll(roll_lengths[r]);
        for (size_t i = 0; i < COUNT(rights); i++) {
            lengths(rounds, rights[i]);
        }
    }
}

int main(void) {
    make_room(&key);
    make_room(&roll);
    make_room(&grants);
    make_room(&answers);
    for (at_the_end = 0; at_the_end <= 1; at_the_end++) {
        for (size_t k = 0; k < COUNT(key_lengths); k++) {
            lend_any(&key, key_lengths[k]);
            for (size_t r = 0; r < COUNT(round_counts); r++) {
                with(round_counts[r]);
            }
        }
    }
    return told("calls");
}
