/*
 * What the tests share. A buffer is lent between two pages of memory that may not be touched: so that it ends where the second begins, or
 * so that it begins where the first ends. A read or a write beside it stops the program. What stood in it is compared after the
 * call.
 *
 * To be included before any other header.
 */
#ifndef GUARD_H
#define GUARD_H

#define _DEFAULT_SOURCE
#include <stdio.h>
#include <stdlib.h>
#include <string.h>
#include <sys/mman.h>
#include <unistd.h>

#include "gordzila.h"

#define COUNT(list) (sizeof(list) / sizeof(list)[0])

/* No test lends more bytes at once. */
enum { LONGEST_LENT = 1536 };

/* Bytes that are lent, and what stood there before the call. */
struct lent {
    uint8_t *page;
    uint8_t *at;
    size_t length;
    uint8_t before[LONGEST_LENT];
};

/* All buffers that have room, and on which side of their pages bytes are lent. */
static struct lent *rooms[8];
static size_t room_count;
static size_t page_size;
static int at_the_end;
static unsigned long agreed, differed;

static inline void make_room(struct lent *l) {
    page_size = (size_t)sysconf(_SC_PAGESIZE);
    uint8_t *at = mmap(NULL, 3 * page_size, PROT_NONE, MAP_PRIVATE | MAP_ANONYMOUS, -1, 0);
    if (at == MAP_FAILED || mprotect(at + page_size, page_size, PROT_READ | PROT_WRITE) != 0) {
        perror("no room");
        exit(2);
    }
    l->page = at + page_size;
    rooms[room_count++] = l;
}

static inline void lend(struct lent *l, const uint8_t *bytes, size_t length) {
    l->at = at_the_end ? l->page + page_size - length : l->page;
    l->length = length;
    memcpy(l->at, bytes, length);
    memcpy(l->before, bytes, length);
}

/* Any bytes will do for a key, a block or a list, and for what is written over. */
static inline void lend_any(struct lent *l, size_t length) {
    uint8_t bytes[LONGEST_LENT];
    for (size_t i = 0; i < length; i++) {
        bytes[i] = (uint8_t)(37 * i + length);
    }
    lend(l, bytes, length);
}

static inline int changed(const struct lent *l, size_t from) {
    return l->length > from && memcmp(l->at + from, l->before + from, l->length - from) != 0;
}

static inline int refused(uint64_t answer) { return answer >= 1 && answer < 1000; }

/* Whether a call changed a byte that it may not: where it does not refuse, it may have written so many bytes of its output. */
static inline int changed_beside(uint64_t answer, const struct lent *output, size_t written) {
    int found = 0;
    for (size_t i = 0; i < room_count; i++) {
        found |= changed(rooms[i], rooms[i] == output && !refused(answer) ? written : 0);
    }
    return found;
}

/* A call answered, and more may be wrong with it. What stands in the buffers now is what the next call finds there. */
static inline void count(const char *call, uint64_t got, uint64_t expected, int wrong) {
    for (size_t i = 0; i < room_count; i++) {
        if (rooms[i]->length > 0) {
            memcpy(rooms[i]->before, rooms[i]->at, rooms[i]->length);
        }
    }
    if (got != expected || wrong) {
        differed++;
        printf("%s: got %llu, expected %llu%s\n", call, (unsigned long long)got, (unsigned long long)expected,
               wrong ? ", and more is wrong" : "");
    } else {
        agreed++;
    }
}

/* A call answered whose output may have any bytes. */
static inline void judge(const char *call, uint64_t got, uint64_t expected, const struct lent *output, size_t written) {
    count(call, got, expected, changed_beside(got, output, written));
}

/* Prints how many agreed; the status is 1 where one did not, or there was none. */
static inline int told(const char *what) {
    printf("%lu %s agreed, %lu differed\n", agreed, what, differed);
    return differed == 0 && agreed > 0 ? 0 : 1;
}

static inline size_t from_hex(const char *text, uint8_t *bytes, size_t room) {
    size_t n = 0;
    while (n < room && sscanf(text + 2 * n, "%2hhx", &bytes[n]) == 1) {
        n++;
    }
    return n;
}

#endif
