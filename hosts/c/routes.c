/*
 * Replays the routes of key holders that the independent program prints (reference/README.md, `routes`) through the C calls on a
 * lent holder: standard input has its lines. Key, holder and output lie between two pages that may not be touched (guard.h). Each
 * line is replayed on two holders, one right after the first page and one right before the second. After every call, also a
 * refused one, the holder's 26 bytes have to be the key's length, the place in the log, and the stage that another call gives for
 * that place straight from the key.
 *
 * Each line stands for one call: `route` for the making of a holder, `holder` for a walk to where the holder is, `straight` for a
 * stage straight from the key. Then the holder goes a full turn forward and one back. 12 routes of 203 lines are 2,436 calls; 4
 * keys of each length, with two turns of 12, 18 or 24 steps, make 432 more; on both sides these are 5,736. Prints how many calls
 * agreed; the status is 1 where one did not.
 */
#include "guard.h"

/* A route on one side: the key, the holder on its way, and what calls write to. */
struct route {
    struct lent key, holder, out;
};

static struct route sides[2];

/* Whether the holder is at a place, by the stage straight from the key. */
static int is_at(struct route *r, uint32_t place) {
    uint8_t bytes[GORDZILA_HOLDER_BYTES] = {(uint8_t)r->key.length, (uint8_t)place};
    lend_any(&r->out, GORDZILA_STAGE_BYTES);
    uint32_t number = gordzila_stage(r->key.at, r->key.length, place, r->out.at, r->out.length);
    memcpy(bytes + 2, r->out.at, GORDZILA_STAGE_BYTES);
    return number == 0 && memcmp(r->holder.at, bytes, sizeof bytes) == 0;
}

/* A call answered, and the holder has to be at this place now; more may be wrong with it. */
static void arrived(struct route *r, const char *call, uint32_t got, uint32_t expected, uint32_t place, int wrong) {
    wrong |= !is_at(r, place);
    count(call, got, expected, wrong);
}

static void make(struct route *r, const char *hex) {
    uint8_t bytes[GORDZILA_STAGE_BYTES];
    lend(&r->key, bytes, from_hex(hex, bytes, sizeof bytes));
    lend_any(&r->holder, GORDZILA_HOLDER_BYTES);
    uint32_t got = gordzila_holder_make(r->key.at, r->key.length, r->holder.at, r->holder.length);
    arrived(r, "make", got, 0, 0, changed_beside(got, &r->holder, GORDZILA_HOLDER_BYTES));
}

static void step(struct route *r, int back, uint32_t number, uint32_t place) {
    uint32_t got = back ? gordzila_holder_back(r->holder.at, r->holder.length)
                        : gordzila_holder_forward(r->holder.at, r->holder.length);
    arrived(r, back ? "back" : "forward", got, number, place, changed_beside(got, &r->holder, GORDZILA_HOLDER_BYTES));
}

/* A walk; the header's readers have to tell of its answer what the log says. */
static void walk(struct route *r, uint32_t to, uint32_t number, uint32_t steps, int back, uint32_t place) {
    uint32_t got = gordzila_holder_walk(r->holder.at, r->holder.length, to);
    int wrong = changed_beside(got, &r->holder, GORDZILA_HOLDER_BYTES);
    wrong |= gordzila_walked(got) != (number == 0);
    wrong |= gordzila_walked_steps(got) != steps;
    wrong |= gordzila_walked_back(got) != back;
    arrived(r, "walk", got, number != 0 ? number : (back ? 2000 : 1000) + steps, place, wrong);
}

static void subkey(struct route *r, uint32_t number, const char *hex, uint32_t place) {
    uint8_t bytes[GORDZILA_SUBKEY_BYTES] = {0};
    from_hex(hex, bytes, sizeof bytes);
    lend_any(&r->out, sizeof bytes);
    uint32_t got = gordzila_holder_subkey(r->holder.at, r->holder.length, r->out.at, r->out.length);
    int wrong = changed_beside(got, &r->out, sizeof bytes) || memcmp(r->out.at, bytes, sizeof bytes) != 0;
    arrived(r, "subkey", got, number, place, wrong);
}

/* The holder has these bytes, and a walk to where it is leaves them there. */
static void holds(struct route *r, uint32_t length, uint32_t place, const char *hex) {
    uint8_t bytes[GORDZILA_HOLDER_BYTES] = {(uint8_t)length, (uint8_t)place};
    from_hex(hex, bytes + 2, GORDZILA_STAGE_BYTES);
    int wrong = memcmp(r->holder.at, bytes, sizeof bytes) != 0;
    uint32_t got = gordzila_holder_walk(r->holder.at, r->holder.length, place);
    arrived(r, "holder", got, 1000, place, wrong || changed_beside(got, NULL, 0));
}

static void straight(struct route *r, uint32_t number, uint32_t length, uint32_t place, const char *hex) {
    uint8_t bytes[GORDZILA_STAGE_BYTES] = {0};
    from_hex(hex, bytes, sizeof bytes);
    lend_any(&r->out, sizeof bytes);
    uint32_t got = gordzila_stage(r->key.at, r->key.length, place, r->out.at, r->out.length);
    int wrong = changed_beside(got, &r->out, sizeof bytes) || memcmp(r->out.at, bytes, sizeof bytes) != 0;
    arrived(r, "straight", got, number, place, wrong || length != r->key.length);
}

/* A full turn brings the same 26 bytes again. */
static void turn(struct route *r, int back) {
    uint8_t start[GORDZILA_HOLDER_BYTES];
    uint32_t length = (uint32_t)r->key.length;
    uint32_t place = r->holder.at[1];
    memcpy(start, r->holder.at, sizeof start);
    for (uint32_t i = 0; i < length; i++) {
        place = (place + (back ? length - 1 : 1)) % length;
        step(r, back, 0, place);
    }
    if (memcmp(start, r->holder.at, sizeof start) != 0) {
        differed++;
        printf("turn: other bytes at its end than at its start\n");
    }
}

static void line(struct route *r, const char *text) {
    char hex[64], way[16];
    unsigned to, number, steps, length, place;
    if (sscanf(text, "route %63s", hex) == 1) {
        make(r, hex);
    } else if (sscanf(text, "forward %u %u", &number, &place) == 2) {
        step(r, 0, number, place);
    } else if (sscanf(text, "back %u %u", &number, &place) == 2) {
        step(r, 1, number, place);
    } else if (sscanf(text, "walk %u %u %u %15s %u", &to, &number, &steps, way, &place) == 5) {
        walk(r, to, number, steps, strcmp(way, "back") == 0, place);
    } else if (sscanf(text, "subkey %u %63s %u", &number, hex, &place) == 3) {
        subkey(r, number, hex, place);
    } else if (sscanf(text, "holder %u %u %63s", &length, &place, hex) == 3) {
        holds(r, length, place, hex);
    } else if (sscanf(text, "straight %u %u %u %63s", &number, &length, &place, hex) == 4) {
        straight(r, number, length, place, hex);
        turn(r, 0);
        turn(r, 1);
    } else {
        differed++;
        printf("no line of a route: %s", text);
    }
}

int main(void) {
    char text[256];
    for (size_t i = 0; i < COUNT(sides); i++) {
        make_room(&sides[i].key);
        make_room(&sides[i].holder);
        make_room(&sides[i].out);
    }
    while (fgets(text, sizeof text, stdin) != NULL) {
        for (at_the_end = 0; at_the_end <= 1; at_the_end++) {
            line(&sides[at_the_end], text);
        }
    }
    return told("calls");
}
