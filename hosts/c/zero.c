/*
 * Replays what the independent program says of size block 0 (reference/README.md, "The log of size block 0") through the C calls. Standard
 * input has the lines of `reference zero`, and those of `reference answers` about queues and pages from before version 0.7, which would take
 * the prover too long to compute.
 *
 * Each line is printed again with what the library answers in the place of what the independent program answered, so that what is printed
 * has to be the input, byte for byte. Only the question of a line is kept; what stands after it is thrown away before the call is made. Old
 * grants and pages are the bytes in the log, as they are in a box that kept them. New ones are those that the library gave.
 *
 * Each lent buffer ends where a page of memory that may not be touched begins (guard.h). Where a call changed a byte that it may not, or left
 * the scratch as it may not, the line is not that of the log either.
 *
 * 12 lives of 33 lines, 9 queues and 6 pages are 411 lines. In a life 3 lines stand for no call: the old grant, the old page and the entry,
 * which is read from the roll. So there are 12 * 30 + 15 = 375 calls. The status is 1 where a line is none of the log, or a call did more
 * than it may, or there was no line; wrong answers are found by comparing.
 */
#include "guard.h"
#include "rules.h"

enum { MOST_FIELDS = 16, LONGEST_LINE = 4096 };

/* Of the two grants and of the two pages: the one from before version 0.7, and the one that the library gave. */
enum which { OLD, NEW };

/* What a box has: the keys and the numbers of a life, and what it keeps. */
struct box {
    uint8_t keys[2][24];
    size_t key_length, used;
    uint32_t rounds, contractor;
    uint16_t page_number;
    uint8_t payload[GORDZILA_PAYLOAD_BYTES];
    uint8_t roll[GORDZILA_ROLL_BYTES];
    uint8_t grants[2][GORDZILA_GRANT_BYTES];
    uint8_t pages[2][GORDZILA_PAGE_BYTES];
};

static struct box box;
static struct lent first, second, roll, input, scratch, out;

/* The fields of a line that ask. Those that answer are not here, so that no answer is copied from the log. */
static char *asked[MOST_FIELDS];

static uint32_t number(size_t field) { return (uint32_t)strtoul(asked[field], NULL, 10); }

static enum which which(size_t field) { return strcmp(asked[field], "old") == 0 ? OLD : NEW; }

static void say(uint64_t answer) { printf(" %llu", (unsigned long long)answer); }

static void say_bytes(const uint8_t *bytes, size_t length) {
    putchar(' ');
    for (size_t i = 0; i < length; i++) {
        printf("%02x", bytes[i]);
    }
}

/* The end of a line: something that no line of the log has, where more is wrong than an answer can say. */
static void end(int wrong) {
    agreed += !wrong;
    differed += !!wrong;
    printf("%s\n", wrong ? ", and more is wrong" : "");
}

/* What a call finds where it may write: 255, which is the number of no reason. */
static void lend_unwritten(struct lent *l, size_t length) {
    uint8_t bytes[LONGEST_LENT];
    memset(bytes, 255, sizeof bytes);
    lend(l, bytes, length);
}

static void lend_key_and_roll(void) {
    lend(&first, box.keys[0], box.key_length);
    lend(&roll, box.roll, sizeof box.roll);
}

static void take_keys(size_t field) {
    box.key_length = from_hex(asked[field], box.keys[0], sizeof box.keys[0]);
    from_hex(asked[field + 1], box.keys[1], sizeof box.keys[1]);
}

/* The generator of the independent program, from its start on. */
static uint8_t draw(void) {
    static uint32_t x = 1;
    x = (x * 1103515245u + 12345u) % 0x80000000u;
    return (uint8_t)(x / 65536);
}

/* No line has the payload before it is sealed. It is what is drawn last for a life, after the keys and the 8 bytes for its numbers. */
static void draw_payload(void) {
    for (size_t i = 0; i < 2 * box.key_length + 8; i++) {
        draw();
    }
    for (size_t i = 0; i < box.used; i++) {
        box.payload[i] = draw();
    }
}

/* A life starts with an empty roll, and with no grant and no page. */
static void start(void) {
    memset(&box, 0, sizeof box);
    take_keys(1);
    box.rounds = number(3);
    box.contractor = number(4);
    box.page_number = (uint16_t)number(7);
    box.used = number(8) % (GORDZILA_PAYLOAD_BYTES + 1);
    draw_payload();
    lend_unwritten(&roll, sizeof box.roll);
    uint32_t got = gordzila_empty_roll(roll.at, roll.length);
    memcpy(box.roll, roll.at, sizeof box.roll);
    end(got != 0 || changed_beside(got, &roll, sizeof box.roll));
}

static void keep_grant(void) {
    from_hex(asked[1], box.grants[OLD], sizeof box.grants[OLD]);
    end(0);
}

static void keep_page(void) {
    from_hex(asked[1], box.pages[OLD], sizeof box.pages[OLD]);
    end(0);
}

/* Whether a call on the roll changed another byte of it than the three of the contractor's entry. */
static int changed_others(void) {
    size_t at = box.contractor - 1;
    int found = 0;
    for (size_t i = 0; i < sizeof box.roll; i++) {
        int own = i / 2 == at || i == RIGHTS_AT + at;
        found |= !own && roll.at[i] != roll.before[i];
    }
    return found;
}

/* The roll after a call on it is the one that the box keeps. */
static void keep_roll(uint32_t got) {
    memcpy(box.roll, roll.at, sizeof box.roll);
    say(got);
    end(changed_others() || changed_beside(got, &roll, sizeof box.roll));
}

static void enter(void) {
    lend_key_and_roll();
    keep_roll(gordzila_enter(roll.at, roll.length, box.contractor, number(1)));
}

static void change_right(void) {
    lend_key_and_roll();
    keep_roll(gordzila_change_right(roll.at, roll.length, box.contractor, number(1)));
}

static void withdraw(void) {
    lend_key_and_roll();
    keep_roll(gordzila_withdraw(roll.at, roll.length, box.contractor));
}

/* The entry as it stands in the bytes that the box keeps: the count and the highest right. */
static void read_entry(void) {
    size_t at = box.contractor - 1;
    say(256u * box.roll[2 * at] + box.roll[2 * at + 1]);
    say(box.roll[RIGHTS_AT + at]);
    end(0);
}

static void issue(void) {
    lend_key_and_roll();
    lend_unwritten(&out, GORDZILA_GRANT_BYTES);
    uint32_t got = gordzila_issue(first.at, first.length, box.rounds, roll.at, roll.length, box.contractor, number(1), number(2),
                                  out.at, out.length);
    say(got);
    if (got == 0) {
        memcpy(box.grants[NEW], out.at, out.length);
        say_bytes(out.at, out.length);
    }
    end(changed_beside(got, &out, out.length));
}

static void check(void) {
    lend_key_and_roll();
    lend(&input, box.grants[which(1)], GORDZILA_GRANT_BYTES);
    uint32_t got = gordzila_check(first.at, first.length, box.rounds, roll.at, roll.length, input.at, input.length, number(2), number(3));
    say(gordzila_opens(got) ? 0 : got);
    say(gordzila_answered_contractor(got));
    say(gordzila_answered_right(got));
    end(changed_beside(got, NULL, 0));
}

/* A queue, with one byte lent for each grant. Each byte is told as it is after the call, also where the call refuses. */
static void check_queue(const uint8_t *grants, size_t length, uint32_t block, uint32_t right) {
    lend_key_and_roll();
    lend(&input, grants, length);
    lend_unwritten(&out, length / GORDZILA_GRANT_BYTES);
    uint32_t got = gordzila_check_queue(first.at, first.length, box.rounds, roll.at, roll.length, input.at, input.length, block, right,
                                        out.at, out.length);
    say(got);
    for (size_t i = 0; i < out.length; i++) {
        say(out.at[i]);
    }
    end(changed_beside(got, &out, out.length));
}

static void queue(void) { check_queue((const uint8_t *)box.grants, sizeof box.grants, number(1), number(2)); }

/* The entries of the first contractors, as many as there are numbers in both fields. Everyone else was never entered. */
static void take_entries(char *counts, char *rights) {
    fill_roll(box.roll, sizeof box.roll, GORDZILA_READING);
    for (uint32_t n = 1; is_contractor(n) && *counts != '\0'; n++) {
        struct entry e = {0, 0};
        e.count = (unsigned)strtoul(counts, &counts, 10);
        e.highest = (uint8_t)strtoul(rights, &rights, 10);
        put_entry(box.roll, n, e);
        counts += *counts == ',';
        rights += *rights == ',';
    }
}

/* A queue of the worked answers, which has its key and its roll with it. */
static void answered_queue(void) {
    uint8_t grants[GORDZILA_LONGEST_QUEUE_BYTES];
    box.key_length = from_hex(asked[1], box.keys[0], sizeof box.keys[0]);
    box.rounds = number(2);
    take_entries(asked[3], asked[4]);
    check_queue(grants, from_hex(asked[5], grants, sizeof grants), number(6), number(7));
}

static void lend_for_page(size_t out_length) {
    lend(&first, box.keys[0], box.key_length);
    lend(&second, box.keys[1], box.key_length);
    lend_unwritten(&scratch, GORDZILA_SCRATCH_BYTES);
    lend_unwritten(&out, out_length);
}

/*
 * The end of a line about a page. The scratch is cleared where the page was sealed or opened, and after 13. It stays after every other
 * refusal but 11, which does not say whether it was given before 13 or after it.
 */
static void end_of_page(uint64_t got) {
    static const uint8_t zeros[GORDZILA_SCRATCH_BYTES];
    int cleared = memcmp(scratch.at, zeros, sizeof zeros) == 0;
    int stayed = !changed(&scratch, 0);
    int right = !refused(got) || got == GORDZILA_CHECK_DIFFERS ? cleared : stayed || (got == GORDZILA_NOT_A_PAGE && cleared);
    memcpy(scratch.before, scratch.at, scratch.length);
    end(!right || changed_beside(got, &out, out.length));
}

static void seal(void) {
    lend_for_page(GORDZILA_PAGE_BYTES);
    lend(&input, box.payload, box.used);
    uint32_t got = gordzila_seal_page(first.at, first.length, second.at, second.length, box.rounds, number(1), box.page_number, input.at,
                                      input.length, scratch.at, scratch.length, out.at, out.length);
    say(got);
    if (got == 0) {
        memcpy(box.pages[NEW], out.at, out.length);
        say_bytes(out.at, out.length);
    }
    end_of_page(got);
}

/* What a refusal leaves in the output is not told: there is no payload. The number is told whole, also what a reader would cut off. */
static void open_kept(enum which page) {
    lend_for_page(GORDZILA_PAYLOAD_BYTES);
    lend(&input, box.pages[page], GORDZILA_PAGE_BYTES);
    uint64_t got = gordzila_open_page(first.at, first.length, second.at, second.length, box.rounds, input.at, input.length, scratch.at,
                                      scratch.length, out.at, out.length);
    int opens = gordzila_page_opens(got);
    say(opens ? 0 : got);
    say(gordzila_opened_size_block(got));
    say(gordzila_opened_page_number(got));
    say(gordzila_opened_used(got));
    if (opens) {
        say_bytes(out.at, out.length);
    } else {
        printf(" -");
    }
    end_of_page(got);
}

static void open_page(void) { open_kept(which(1)); }

/* A page of the worked answers, which has its keys with it. */
static void answered_page(void) {
    take_keys(1);
    box.rounds = number(3);
    from_hex(asked[4], box.pages[OLD], sizeof box.pages[OLD]);
    open_kept(OLD);
}

/* The lines: their first word, how many fields ask, and what they are replayed by. Of two with one word, the one that asks more is first. */
static const struct kind {
    const char *word;
    size_t fields;
    void (*replay)(void);
} kinds[] = {
    {"zero", 9, start},
    {"old", 2, keep_grant},
    {"enter", 2, enter},
    {"right", 2, change_right},
    {"withdraw", 1, withdraw},
    {"entry", 1, read_entry},
    {"issue", 3, issue},
    {"check", 4, check},
    {"queue", 3, queue},
    {"seal", 2, seal},
    {"open", 2, open_page},
    {"oldqueue", 8, answered_queue},
    {"oldpage", 5, answered_page},
    {"oldpage", 2, keep_page},
};

/* The fields of a line; how many there are. */
static size_t split(char *text) {
    size_t n = 0;
    for (char *field = strtok(text, " \n"); field != NULL && n < MOST_FIELDS; field = strtok(NULL, " \n")) {
        asked[n++] = field;
    }
    return n;
}

/* What stands in the buffers now is what the call of this line finds there. */
static void settle(void) {
    for (size_t i = 0; i < room_count; i++) {
        if (rooms[i]->length > 0) {
            memcpy(rooms[i]->before, rooms[i]->at, rooms[i]->length);
        }
    }
}

/* Echoes the question, throws away the rest, and leaves it to the call to say what is answered. */
static void replay(const struct kind *k) {
    printf("%s", asked[0]);
    for (size_t i = 1; i < k->fields; i++) {
        printf(" %s", asked[i]);
    }
    for (size_t i = k->fields; i < MOST_FIELDS; i++) {
        asked[i] = NULL;
    }
    settle();
    k->replay();
}

static void line(char *text) {
    size_t n = split(text);
    for (size_t i = 0; i < COUNT(kinds); i++) {
        if (n >= kinds[i].fields && strcmp(asked[0], kinds[i].word) == 0) {
            replay(&kinds[i]);
            return;
        }
    }
    printf("no line of the log");
    end(1);
}

int main(void) {
    static char text[LONGEST_LINE];
    struct lent *all[] = {&first, &second, &roll, &input, &scratch, &out};
    at_the_end = 1;
    for (size_t i = 0; i < COUNT(all); i++) {
        make_room(all[i]);
    }
    while (fgets(text, sizeof text, stdin) != NULL) {
        line(text);
    }
    return differed == 0 && agreed > 0 ? 0 : 1;
}
