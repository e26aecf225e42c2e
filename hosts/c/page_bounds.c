/*
 * Sealed pages, tested as bounds.c tests the other calls: every buffer lies between two pages of memory that may not be touched, once
 * right after the first, once right before the second (guard.h); lengths and numbers lie on both sides of each limit; the answer has
 * to be the first reason in the header's order that holds (rules.h); and the header's readers have to say the same of it. Keys, payload
 * and page may not change. What a call writes has to be, byte for byte, what a model has that stands in this file, made from the
 * header's words over gordzila_run. Where the scratch is cleared, 576 bytes of it are zero. All other bytes of both stay. What a page
 * comes to is known from how it was put together. The model also makes pages of size block 0, as they were sealed before version 0.7.
 *
 * There are 2 * 11 * 11 pairs of keys with 13 round counts, each for the 16 sets of 4 faults of a sealing and the 128 sets of 7 faults
 * of an opening, of a page of size block 300 and of one of size block 0: 3,146 * 272 are 855,712. Of the 6 settings among them that are
 * right there are, for each of 6 size blocks, 10 * 5 * 5 sealings and 7 * 5 * 5 openings of several lengths: 15,300. For each of 3 key
 * lengths there are 493 payloads of every length, sealed and opened under keys that are drawn; 1,024 changes of one byte, 65,536 used
 * counts, 32 bits in the header's zeros, 984 pages with a lone byte in the payload, 8 openings under other keys, and 3 calls with keys
 * that overlap: 68,573. Of the 54 pairs of keys that differ in one byte there are a sealing and an opening: 108. On both sides,
 * 2 * (855,712 + 15,300 + 3 * 68,573 + 108) are 2,153,678 calls. Prints how many did what they have to; the status is 1 where one did
 * not.
 */
#include "guard.h"
#include "rules.h"

static const size_t key_lengths[] = {0, 1, 11, 12, 13, 17, 18, 19, 23, 24, 25};
static const uint32_t round_counts[] = {0, 9, 10, 11, 12, 13, 14, 17, 18, 23, 24, 266, 0xffffffffu};
static const size_t payload_lengths[] = {0, 1, 11, 12, 13, 491, 492, 493, 504, 1004};
static const size_t page_lengths[] = {0, 12, 504, 511, 512, 513, 1024};
static const size_t scratch_lengths[] = {0, 575, 576, 577, 1152};
static const size_t sealed_lengths[] = {0, 511, 512, 513, 1024};
static const size_t opened_lengths[] = {0, 491, 492, 493, 984};

/* The right settings: a key's length with its least and its most rounds. */
struct size {
    size_t key_length;
    uint32_t least, most;
};

static const struct size sizes[] = {{12, 10, 11}, {18, 14, 17}, {24, 18, 23}};

/* What a page comes to where nothing else is wrong. The two that refuse with 11 differ in what is left in the scratch. */
enum outcome { OPENS, REFUSED_BEFORE_CHECK, CHECK_DIFFERS, REFUSED_AFTER_CHECK };

static struct lent first, second, input, scratch, out;
static uint32_t rounds;

/* The model's subkey lists under the keys that are lent: for enciphering under either, for deciphering under the first. */
enum list { UNDER_FIRST, UNDER_SECOND, BACK_UNDER_FIRST };
static uint8_t lists[3][GORDZILA_LONGEST_LIST_BYTES];

/* The model rests on calls that other tests look at. If one refuses, there is nothing to compare with. */
static void unrefused(uint32_t number) {
    if (number != 0) {
        printf("the model was refused with %u\n", (unsigned)number);
        exit(2);
    }
}

static void run(enum list list, uint8_t block[12]) {
    uint8_t given[12];
    unrefused(gordzila_run(lists[list], 12 * ((size_t)rounds + 1), block, 12, given, sizeof given));
    memcpy(block, given, sizeof given);
}

static void add(uint8_t block[12], const uint8_t other[12]) {
    for (size_t i = 0; i < 12; i++) {
        block[i] ^= other[i];
    }
}

/* The chaining of whole blocks, each of which is replaced by what it becomes; what the last becomes is left in previous. */
static void chain(enum list list, uint8_t previous[12], uint8_t *blocks, size_t length) {
    for (size_t i = 0; i < length; i += 12) {
        add(previous, blocks + i);
        run(list, previous);
        memcpy(blocks + i, previous, 12);
    }
}

/* Where the chaining of a payload starts. */
static void start(const uint8_t page[512], uint8_t previous[12]) {
    memcpy(previous, page, 12);
    run(UNDER_FIRST, previous);
}

/* Seals what was put together. The check is taken over the bytes as they are stored. */
static void seal_in_model(uint8_t page[512]) {
    uint8_t previous[12], stored[504];
    start(page, previous);
    chain(UNDER_FIRST, previous, page + 12, 492);
    memcpy(stored, page, sizeof stored);
    memset(previous, 0, sizeof previous);
    chain(UNDER_SECOND, previous, stored, sizeof stored);
    memcpy(page + 504, previous, 8);
}

/* What the payload deciphers to, whatever the check says. */
static void open_in_model(const uint8_t page[512], uint8_t payload[492]) {
    uint8_t previous[12];
    start(page, previous);
    for (size_t i = 0; i < 492; i += 12) {
        memcpy(payload + i, page + 12 + i, 12);
        run(BACK_UNDER_FIRST, payload + i);
        add(payload + i, previous);
        memcpy(previous, page + 12 + i, 12);
    }
}

/* Big end first. */
static void put(uint8_t *bytes, size_t length, uint32_t number) {
    for (size_t i = length; i > 0; i--) {
        bytes[i - 1] = (uint8_t)(number % 256);
        number /= 256;
    }
}

static uint32_t get(const uint8_t *bytes, size_t length) {
    uint32_t number = 0;
    for (size_t i = 0; i < length; i++) {
        number = 256 * number + bytes[i];
    }
    return number;
}

/* A page before it is sealed: the header's numbers, the payload, zeros. */
static void put_together(uint8_t page[512], uint32_t block, uint16_t number, const uint8_t *payload, size_t used) {
    memset(page, 0, 512);
    put(page, 4, block);
    put(page + 4, 2, number);
    put(page + 6, 2, (uint32_t)used);
    memcpy(page + 12, payload, used);
}

/* Keys of one length that start alike where they are alike in this number. */
static void lend_key(struct lent *l, size_t length, unsigned kind) {
    uint8_t bytes[32];
    for (size_t i = 0; i < length; i++) {
        bytes[i] = (uint8_t)(91 * i + kind);
    }
    lend(l, bytes, length);
}

/* Bytes that are never zero, and no two beside each other alike. */
static uint8_t marks[LONGEST_LENT];

static void make_marks(void) {
    for (size_t i = 0; i < sizeof marks; i++) {
        marks[i] = (uint8_t)(128 + i % 101);
    }
}

static void lend_marked(struct lent *l, size_t length) { lend(l, marks, length); }

/* The reasons that hold of the keys and the round count, in the header's order. */
static uint32_t of_settings(void) {
    int unfit = first.length != second.length || memcmp(first.before, second.before, first.length) == 0;
    uint32_t number = then(of_key(first.length), unfit, GORDZILA_KEY_LENGTH);
    return number != 0 ? number : of_rounds(first.length, rounds);
}

/* Takes a round count for the keys that are lent. */
static void take_rounds(uint32_t number) {
    rounds = number;
    if (of_settings() == 0) {
        size_t room = sizeof lists[0];
        unrefused(gordzila_prepare_enciphering(first.before, first.length, rounds, lists[UNDER_FIRST], room));
        unrefused(gordzila_prepare_enciphering(second.before, second.length, rounds, lists[UNDER_SECOND], room));
        unrefused(gordzila_prepare_deciphering(first.before, first.length, rounds, lists[BACK_UNDER_FIRST], room));
    }
}

/* Whether other bytes stand in the buffers than have to: those that were written, if any, and zeros where the scratch is cleared. */
static int misleft(const uint8_t *written, size_t length, int cleared) {
    static const uint8_t zeros[576];
    int wrong = changed(&first, 0) || changed(&second, 0) || changed(&input, 0);
    wrong |= written != NULL && memcmp(out.at, written, length) != 0;
    wrong |= changed(&out, written != NULL ? length : 0);
    wrong |= cleared && memcmp(scratch.at, zeros, sizeof zeros) != 0;
    return wrong || changed(&scratch, cleared ? sizeof zeros : 0);
}

/* Seals the payload that is lent. */
static void seal(uint32_t block, uint16_t number, size_t scratch_length, size_t out_length) {
    uint8_t page[512];
    uint32_t expected = then(of_settings(), scratch_length < 576 || out_length < 512, GORDZILA_OUTPUT_TOO_SHORT);
    expected = then(expected, !is_size_block(block), GORDZILA_BLOCK_ZERO);
    expected = then(expected, input.length > 492, GORDZILA_PAYLOAD_TOO_LONG);
    if (expected == 0) {
        put_together(page, block, number, input.before, input.length);
        seal_in_model(page);
    }
    lend_marked(&scratch, scratch_length);
    lend_marked(&out, out_length);
    uint32_t got = gordzila_seal_page(first.at, first.length, second.at, second.length, rounds, block, number, input.at,
                                      input.length, scratch.at, scratch.length, out.at, out.length);
    count("seal", got, expected, misleft(expected == 0 ? page : NULL, sizeof page, expected == 0));
}

/* Whether the header's readers say something else of an answer than that the page that is lent is refused so, or opens where it is 0. */
static int misread(uint64_t answer, uint32_t number) {
    const uint8_t *page = input.before;
    int opens = number == 0;
    int wrong = gordzila_page_opens(answer) != opens;
    wrong |= gordzila_page_refusal(answer) != number;
    wrong |= gordzila_opened_size_block(answer) != (opens ? get(page, 4) : 0);
    wrong |= gordzila_opened_page_number(answer) != (opens ? get(page + 4, 2) : 0);
    return wrong || gordzila_opened_used(answer) != (opens ? get(page + 6, 2) : 0);
}

/* What the page that is lent answers where it opens. */
static uint64_t answered(void) {
    const uint8_t *page = input.before;
    return 0x8000000000000000u + 0x1000000000000u * get(page + 6, 2) + 0x100000000u * get(page + 4, 2) + get(page, 4);
}

/* Opens the page that is lent, which comes to this, and, where it opens, to these 492 bytes. */
static void open_lent(enum outcome outcome, const uint8_t *payload, size_t scratch_length, size_t out_length) {
    uint32_t number = then(of_settings(), scratch_length < 576 || out_length < 492, GORDZILA_OUTPUT_TOO_SHORT);
    number = then(number, input.length != 512 || outcome == REFUSED_BEFORE_CHECK, GORDZILA_NOT_A_PAGE);
    int cleared = number == 0;
    number = then(number, outcome == CHECK_DIFFERS, GORDZILA_CHECK_DIFFERS);
    number = then(number, outcome == REFUSED_AFTER_CHECK, GORDZILA_NOT_A_PAGE);
    lend_marked(&scratch, scratch_length);
    lend_marked(&out, out_length);
    uint64_t got = gordzila_open_page(first.at, first.length, second.at, second.length, rounds, input.at, input.length, scratch.at,
                                      scratch.length, out.at, out.length);
    int wrong = misleft(number == 0 ? payload : NULL, 492, cleared) || misread(got, number);
    count("open", got, number == 0 ? answered() : number, wrong);
}

/* Opens a page with room as it has to be. */
static void open_page(enum outcome outcome, const uint8_t page[512], const uint8_t *payload) {
    lend(&input, page, 512);
    open_lent(outcome, payload, 576, 492);
}

/* Every set of faults of a sealing but those of the settings: in scratch, output, payload and size block. */
static void seal_with_faults(void) {
    for (unsigned faults = 0; faults < 16; faults++) {
        lend_marked(&input, faults & 4 ? 493 : 492);
        seal(faults & 8 ? 0 : 300, 7, faults & 1 ? 575 : 576, faults & 2 ? 511 : 512);
    }
}

/*
 * Every set of faults of an opening but those of the settings: in scratch, output, the page's length, its count, its zeros, its check,
 * and its unused bytes. But for the fault in the check, the check is right. The size block is none of them, 0 neither.
 */
static void open_with_faults(uint32_t block) {
    for (unsigned faults = 0; faults < 128; faults++) {
        uint8_t page[512], payload[492];
        enum outcome after = faults & 32 ? CHECK_DIFFERS : faults & 64 ? REFUSED_AFTER_CHECK : OPENS;
        put_together(page, block, 7, marks, 300);
        put(page + 6, 2, faults & 8 ? 493 : 300);
        page[11] = faults & 16 ? 1 : 0;
        page[503] = faults & 64 ? 1 : 0;
        memcpy(payload, page + 12, sizeof payload);
        if (of_settings() == 0) {
            seal_in_model(page);
        }
        page[511] ^= faults & 32 ? 1 : 0;
        lend(&input, page, faults & 4 ? 511 : 512);
        open_lent(faults & 24 ? REFUSED_BEFORE_CHECK : after, payload, faults & 1 ? 575 : 576, faults & 2 ? 491 : 492);
    }
}

static void seal_lengths(uint32_t block) {
    for (size_t p = 0; p < COUNT(payload_lengths); p++) {
        lend_marked(&input, payload_lengths[p]);
        for (size_t s = 0; s < COUNT(scratch_lengths); s++) {
            for (size_t o = 0; o < COUNT(sealed_lengths); o++) {
                seal(block, 0xfbfa, scratch_lengths[s], sealed_lengths[o]);
            }
        }
    }
}

/* A whole page, cut or with zeros after it. */
static void open_lengths(uint32_t block) {
    uint8_t page[1024] = {0};
    put_together(page, block, 0xfbfa, marks, 492);
    seal_in_model(page);
    for (size_t p = 0; p < COUNT(page_lengths); p++) {
        lend(&input, page, page_lengths[p]);
        for (size_t s = 0; s < COUNT(scratch_lengths); s++) {
            for (size_t o = 0; o < COUNT(opened_lengths); o++) {
                open_lent(OPENS, marks, scratch_lengths[s], opened_lengths[o]);
            }
        }
    }
}

static void with_settings(void) {
    for (size_t r = 0; r < COUNT(round_counts); r++) {
        take_rounds(round_counts[r]);
        seal_with_faults();
        open_with_faults(300);
        open_with_faults(0);
        for (size_t b = 0; b < COUNT(size_blocks) && of_settings() == 0; b++) {
            seal_lengths(size_blocks[b]);
            open_lengths(size_blocks[b]);
        }
    }
}

/* Every two key lengths, with keys that start alike and with others. */
static void settings(void) {
    for (size_t f = 0; f < COUNT(key_lengths); f++) {
        for (size_t s = 0; s < COUNT(key_lengths); s++) {
            for (unsigned kind = 1; kind <= 2; kind++) {
                lend_key(&first, key_lengths[f], 1);
                lend_key(&second, key_lengths[s], kind);
                with_settings();
            }
        }
    }
}

/* A page is sealed, and what came of it opened. */
static void there_and_back(uint32_t block, uint16_t number, const uint8_t *payload, size_t used) {
    uint8_t page[512], whole[492] = {0};
    memcpy(whole, payload, used);
    lend(&input, payload, used);
    seal(block, number, 576, 512);
    memcpy(page, out.at, sizeof page);
    open_page(OPENS, page, whole);
}

/* Marsaglia's generator with 32 bits, from a fixed start: the same bytes in every run. */
static void draw(uint8_t *bytes, size_t length) {
    static uint32_t state = 2463534242u;
    for (size_t i = 0; i < length; i++) {
        state ^= state << 13;
        state ^= state >> 17;
        state ^= state << 5;
        bytes[i] = (uint8_t)(state >> 24);
    }
}

/* Every length of a payload, under keys that are drawn each time, with each round count in turn. */
static void drawn(const struct size *size) {
    for (uint32_t used = 0; used <= 492; used++) {
        uint8_t keys[2][24], numbers[6], payload[492];
        draw(keys[0], sizeof keys[0]);
        draw(keys[1], sizeof keys[1]);
        draw(numbers, sizeof numbers);
        draw(payload, sizeof payload);
        lend(&first, keys[0], size->key_length);
        lend(&second, keys[1], size->key_length);
        take_rounds(size->least + used % (size->most - size->least + 1));
        there_and_back(get(numbers, 4), (uint16_t)get(numbers + 4, 2), payload, used);
    }
}

/* A page with so many used bytes under the keys that are lent, and its payload. */
static void make_page(uint8_t page[512], uint8_t payload[492], size_t used) {
    put_together(page, 70000, 258, marks, used);
    memcpy(payload, page + 12, 492);
    seal_in_model(page);
}

/* What a page comes to that was changed in one byte, or in its count. */
static enum outcome after_change(const uint8_t page[512], size_t at) {
    return (at >= 8 && at < 12) || get(page + 6, 2) > 492 ? REFUSED_BEFORE_CHECK : CHECK_DIFFERS;
}

/* Each byte of a page is changed, in one bit and in all, and the page never opens. */
static void changed_bytes(void) {
    uint8_t page[512], payload[492];
    make_page(page, payload, 300);
    for (size_t at = 0; at < sizeof page; at++) {
        const uint8_t changes[] = {(uint8_t)(1u << at % 8), 255};
        for (size_t i = 0; i < COUNT(changes); i++) {
            page[at] ^= changes[i];
            open_page(after_change(page, at), page, NULL);
            page[at] ^= changes[i];
        }
    }
}

/* Every count is written into a page: it opens with its own alone. */
static void changed_counts(void) {
    uint8_t page[512], payload[492];
    make_page(page, payload, 300);
    for (uint32_t used = 0; used < 65536; used++) {
        put(page + 6, 2, used);
        open_page(used == 300 ? OPENS : after_change(page, 6), page, payload);
    }
}

/* Each bit of the header's zeros, under a check that is right: refused all the same, and before the scratch is used. */
static void changed_zeros(void) {
    for (size_t bit = 0; bit < 32; bit++) {
        uint8_t page[512];
        put_together(page, 70000, 258, marks, 300);
        page[8 + bit / 8] = (uint8_t)(1u << bit % 8);
        seal_in_model(page);
        open_page(REFUSED_BEFORE_CHECK, page, NULL);
    }
}

/* A payload of zeros but for one byte, with a right check: where that byte is the first unused one, and where it is the last used. */
static void lone_bytes(void) {
    for (size_t at = 0; at < 492; at++) {
        for (size_t used = at; used <= at + 1; used++) {
            uint8_t page[512], payload[492] = {0};
            payload[at] = (uint8_t)(1u << at % 8);
            put_together(page, 70000, 258, payload, used);
            memcpy(page + 12, payload, sizeof payload);
            seal_in_model(page);
            open_page(used == at ? REFUSED_AFTER_CHECK : OPENS, page, payload);
        }
    }
}

/* One opening of a page under keys of these kinds. */
static void open_under(unsigned first_kind, unsigned second_kind, uint32_t number, enum outcome outcome, const uint8_t page[512]) {
    uint8_t payload[492];
    lend_key(&first, first.length, first_kind);
    lend_key(&second, second.length, second_kind);
    take_rounds(number);
    open_in_model(page, payload);
    open_page(outcome, page, payload);
}

/*
 * A page under keys of kinds 1 and 2 is opened under others: exchanged, with another second key, with another round count, and with
 * another first key. The last is told by the unused bytes alone: where there are none, the page opens to other bytes.
 */
static void other_keys(const struct size *size) {
    for (size_t used = 300; used <= 492; used += 192) {
        uint8_t page[512], payload[492];
        lend_key(&first, size->key_length, 1);
        lend_key(&second, size->key_length, 2);
        take_rounds(size->most);
        make_page(page, payload, used);
        open_under(2, 1, size->most, CHECK_DIFFERS, page);
        open_under(1, 3, size->most, CHECK_DIFFERS, page);
        open_under(1, 2, size->least, CHECK_DIFFERS, page);
        open_under(3, 2, size->most, used < 492 ? REFUSED_AFTER_CHECK : OPENS, page);
    }
}

/* Lends bytes of the payload or page as a key too. */
static void lend_within(struct lent *l, size_t from, size_t length) {
    l->at = input.at + from;
    l->length = length;
    memcpy(l->before, l->at, length);
}

/* What is only read may overlap: both keys lie in the payload or page, a byte apart or in one place, where they are equal. */
static void overlapping_keys(const struct size *size) {
    lend_marked(&input, 492);
    lend_within(&first, 100, size->key_length);
    lend_within(&second, 101, size->key_length);
    take_rounds(size->least);
    seal(300, 7, 576, 512);
    lend_within(&second, 100, size->key_length);
    seal(300, 7, 576, 512);
    lend_marked(&input, 512);
    lend_within(&first, 100, size->key_length);
    lend_within(&second, 100, size->key_length);
    open_lent(OPENS, NULL, 576, 492);
}

/* Keys that differ in one bit of one byte are not equal. */
static void close_keys(const struct size *size) {
    static const uint8_t pattern[] = {3, 0, 1, 255};
    for (size_t at = 0; at < size->key_length; at++) {
        uint8_t close[24];
        lend_key(&first, size->key_length, 1);
        memcpy(close, first.before, size->key_length);
        close[at] ^= (uint8_t)(1u << at % 8);
        lend(&second, close, size->key_length);
        take_rounds(size->most);
        there_and_back(300, 7, pattern, sizeof pattern);
    }
}

static void with_size(const struct size *size) {
    drawn(size);
    lend_key(&first, size->key_length, 1);
    lend_key(&second, size->key_length, 2);
    take_rounds(size->most);
    changed_bytes();
    changed_counts();
    changed_zeros();
    lone_bytes();
    other_keys(size);
    overlapping_keys(size);
    close_keys(size);
}

int main(void) {
    make_room(&first);
    make_room(&second);
    make_room(&input);
    make_room(&scratch);
    make_room(&out);
    make_marks();
    for (at_the_end = 0; at_the_end <= 1; at_the_end++) {
        settings();
        for (size_t s = 0; s < COUNT(sizes); s++) {
            with_size(&sizes[s]);
        }
    }
    return told("calls");
}
