/*
 * Gordzila: proved access control for a pattern store.
 *
 * The calls of the library for hosts in C. What each does is proved, for all inputs, from its source; docs/CLAIMS.md in the
 * repository says what is promised and what is not.
 *
 * Rules for every call:
 *  - Bytes are lent as a pointer and a length. The pointer is never null, also where the length is 0, as that of an empty payload
 *    is, and points to at least as many bytes as the length says. The library keeps no pointer after the call.
 *  - What a call writes to (out, answers, scratch, the roll that it enters, withdraws or changes a right on, or the holder that it
 *    steps or walks) overlaps nothing else that is lent to it, and so out and scratch do not overlap each other. What it only reads
 *    may overlap.
 *  - A call takes any lengths and numbers. Where they are wrong, it refuses with a number and writes nothing. Where more than
 *    one reason holds, it gives the first in the order that stands with the call. In one case a refusal writes: gordzila_open_page
 *    clears its scratch where it refuses with 13, or with the 11 that it tries after 13.
 *  - Every call but gordzila_check, gordzila_holder_walk and gordzila_open_page returns 0 where it does not refuse. These three never
 *    return 0: a refusal is 1 to 25, and any other answer 1000 or more; that of gordzila_open_page is 2^63 or more, and takes 64 bits.
 *    gordzila_check_queue returns 0 whether or not a grant of its queue opens; that stands in answers.
 *  - Where it does not refuse, it writes the bytes that are said below, from the start of out or answers, and no byte after them;
 *    entering, withdrawing and changing a right write the contractor's entry on the roll and leave all its other bytes, steps and walks
 *    the holder's 26, sealing and opening a page also clear the first 576 bytes of scratch.
 *  - A withdrawal or a change of a right is seen only on the roll on which it was made. Hand gordzila_issue, gordzila_check and
 *    gordzila_check_queue the roll as it is now: on an older copy, or on a roll that starts anew, grants that were revoked may open, and
 *    contractors who were demoted may overwrite.
 *  - The calls have no state of their own and may be made from any thread. While a call writes to bytes, no other call may have
 *    them lent: rooms or threads that share a roll make their calls on it one after the other.
 *  - Their time depends on the key and the data: they are not made to resist an observer of time.
 *
 * Changes in 0.7.0, for hosts that were written for 0.6:
 *  - Size block number 0, which was for practice, can no longer be asked for. Reason 14 is new: gordzila_issue, gordzila_check and
 *    gordzila_check_queue give it where size_block is 0, right after 7 in their order, and gordzila_seal_page right after 4. It is about
 *    the number that the host hands over; no grant is deciphered before it. A switch over the reasons of these calls may meet it. It
 *    refuses a queue as a whole, so that no byte of answers is 14.
 *  - Some makers' forms send 0 where the size block is left blank, and that is 14 now. It is a mistake of the form and says nothing of
 *    the grant: have the number filled in and ask again, and throw no grant away for it.
 *  - Grants that were issued for 0 open nothing any more: asked for 0 they are refused with 14, asked for another size block with 9. Hosts
 *    that keep grants by their size block can throw away those for 0. Nothing is to be done on the roll: the entries of their
 *    contractors stay as they are, and so do their grants for other size blocks.
 *  - Pages that were sealed for 0 still open, and answer size block 0, but no new one is sealed. To keep such a page up to date, open it
 *    and seal what it holds for another size block.
 *  - Grants, pages and rolls have the bytes that they had: nothing stored is converted, and hosts may change over one after the other.
 *    Until it changes over, a host of 0.6 goes on issuing, opening and sealing for 0.
 *  - No call changed its form, and no constant its name or number.
 *
 * Changes in 0.6.0, for hosts that were written for 0.5, in the order in which to make them:
 *  1. Hosts that share a roll change over together. A roll of 0.5 has 400 bytes, the counts. It now has GORDZILA_ROLL_BYTES bytes, and
 *     one of 400 is refused with 3; a host of 0.5 refuses the longer roll with 3 too. So change and build the code of all of them
 *     first, and convert the stored roll when they all take up the new code. Whoever goes back to 0.5 cuts the roll to its first 400
 *     bytes, and then everyone who was demoted overwrites again.
 *  2. The code:
 *     - gordzila_enter takes the contractor's highest right as a fourth argument, and may now refuse with 7. With this header a
 *       compiler refuses a call with three. Objects that were compiled with the header of 0.5, calls without a prototype and bindings
 *       of other languages link all the same, and the right that they enter with is undefined: they have to be changed and built anew.
 *     - The empty roll is no longer all zeros: gordzila_empty_roll is new, and writes it. Zeros throughout are also a roll on which
 *       nobody was ever entered, whose rights of 0 mean reading only. That does no harm, since entering writes the right; but compared
 *       byte by byte, such a roll is not equal to other hosts' empty rolls.
 *     - Reason 25 is new: the right asked for is above the contractor's highest. gordzila_issue and gordzila_check give it, after all
 *       their others, and it may be a byte of the answers of gordzila_check_queue. A switch over reasons, or over these bytes, may meet
 *       it.
 *     - gordzila_change_right is new: it demotes and raises. A withdrawal also sets the highest right to 1. gordzila_highest_right,
 *       which reads it, and GORDZILA_ROLL_COUNTS_BYTES, the length of the counts, are new too. No other call changed its form, and no
 *       constant but GORDZILA_ROLL_BYTES its number.
 *  3. The stored rolls:
 *     - Append 200 bytes to each that is stored, one for each contractor, contractor 1's first: 2 for those who may overwrite, 1 for
 *       all others, everyone who is not in standing among them ("The roll", below, says who is). No call does it all, but
 *       gordzila_change_right helps: append 200 bytes of 1, and call it with 2 for each who may overwrite. Where it answers 20, they
 *       are not in standing, and 1 stays.
 *     - With 2 for everyone in standing, each grant opens for what it opened for. With 1 for everyone, every grant for overwriting
 *       opens for reading only, until its contractor is raised with gordzila_change_right.
 *     - A box that does this when it starts goes by the length of what is stored. GORDZILA_ROLL_COUNTS_BYTES: convert it, and store the
 *       longer roll before it is used. GORDZILA_ROLL_BYTES: use it as it is. Any other: stop, and put no empty roll in its place.
 *     - Look at the length of what is stored, and not of the buffer that it is read into: any GORDZILA_ROLL_BYTES bytes are a roll, so
 *       that 3 does not catch 400 bytes in a buffer of that size. With zeros after them everyone may only read; with what happened to
 *       stand there, a byte of 2 lets someone overwrite.
 *     - The tool converts a roll's file, with one right for all in standing: `gordzila roll convert --roll FILE --right R`. Then
 *       `gordzila right --roll FILE --contractor N --right R` changes single ones.
 *
 * Changes in 0.5.0, for hosts that were written for 0.4 (nothing changed for hosts in 0.5.1 and 0.5.2):
 *  - gordzila_seal_page and gordzila_open_page are new: they seal up to 492 bytes of a size block in a page of 512, and open it.
 *  - Reasons 11, 12 and 13 are new, and only these two calls give them. Reason 1 has their keys too, and 4 their scratch.
 *  - No other call changed, and no constant its name or number.
 *
 * Changes in 0.4.0, for hosts that were written for 0.3:
 *  - gordzila_check_queue is new: it checks 0 to 64 grants for one size block in one call. A box that checks them one by one may go
 *    on so, and gets the same verdicts.
 *  - Reasons 3 and 4 have its lengths too. No other call changed, and no constant its name or number.
 *
 * Changes in 0.3.0, for hosts that were written for 0.2:
 *  - An overwriting grant also opens its size block for reading, whenever it was issued. A host that took 10 as the answer where an
 *    overwriting grant is asked for reading now gets 1001 to 1200 there, or 20 or 23 where these hold. 10 is left for overwriting
 *    asked of a reading grant.
 *  - A box that kept two grants for one size block, one for each right, needs only the overwriting one.
 *  - No call changed its form, and no constant its name or number.
 *
 * The header is for C99 or newer and for C++.
 */
#ifndef GORDZILA_H
#define GORDZILA_H

#include <stddef.h>
#include <stdint.h>

#ifdef __cplusplus
extern "C" {
#endif

/* Reasons for which a call refuses. */
enum {
    /* found in the input */
    GORDZILA_KEY_LENGTH = 1,        /* key not 12, 18 or 24 bytes; two keys for a page that are equal or of unequal lengths */
    GORDZILA_ROUND_COUNT = 2,       /* round count not 10..11, 14..17 or 18..23, by the key's length */
    GORDZILA_INPUT_LENGTH = 3,      /* block or grant not 12 bytes; roll not 600 bytes; queue of grants over 768 bytes, or no multiple of 12 */
    GORDZILA_OUTPUT_TOO_SHORT = 4,  /* out shorter than what is to be written; answers shorter than the number of grants; scratch under 576 bytes */
    GORDZILA_STAGE_OR_LIST = 5,     /* stage number not below the key's length in bytes; subkey list under 132 bytes, over 288, or no multiple of 12 */
    GORDZILA_CONTRACTOR = 6,        /* contractor outside 1 to 200 */
    GORDZILA_RIGHT = 7,             /* right neither 1 nor 2 */
    GORDZILA_NOT_A_GRANT = 8,       /* the deciphered bytes have a wrong mark, contractor or right */
    GORDZILA_OTHER_BLOCK = 9,       /* grant for another size block */
    GORDZILA_OTHER_RIGHT = 10,      /* overwriting asked of a reading grant */
    GORDZILA_NOT_A_PAGE = 11,       /* page not 512 bytes; used count over 492; bytes 8 to 11, or unused payload bytes, not zero */
    GORDZILA_PAYLOAD_TOO_LONG = 12, /* payload over 492 bytes */
    GORDZILA_CHECK_DIFFERS = 13,    /* the page's check differs */
    GORDZILA_BLOCK_ZERO = 14,       /* size block number 0 asked for */
    /* found in the state */
    GORDZILA_NOT_IN_STANDING = 20,  /* contractor not in standing */
    GORDZILA_IN_STANDING = 21,      /* entering someone in standing */
    GORDZILA_COUNT_SPENT = 22,      /* entering at count 65,534 or 65,535 */
    GORDZILA_OTHER_COUNT = 23,      /* the grant's count differs from the roll's */
    GORDZILA_BROKEN_HOLDER = 24,    /* holder not 26 bytes, or not whole: a wrong key length, a stage number not below it, or bytes past it that are not zero */
    GORDZILA_ABOVE_HIGHEST = 25     /* right asked for above the contractor's highest */
};

/*
 * Rights, as they stand in a grant, as they are asked for, and as a contractor's highest right is given. A reading grant opens its size
 * block for reading and not for overwriting; an overwriting grant opens it for both, or for reading alone where its contractor may only
 * read.
 */
enum { GORDZILA_READING = 1, GORDZILA_OVERWRITING = 2 };

/* Lengths in bytes. */
enum { GORDZILA_BLOCK_BYTES = 12, GORDZILA_GRANT_BYTES = 12 };
enum { GORDZILA_ROLL_BYTES = 600, GORDZILA_ROLL_COUNTS_BYTES = 400 };
enum { GORDZILA_STAGE_BYTES = 24, GORDZILA_SUBKEY_BYTES = 12, GORDZILA_LONGEST_LIST_BYTES = 288 };
enum { GORDZILA_HOLDER_BYTES = 26 };
enum { GORDZILA_PAGE_BYTES = 512, GORDZILA_PAYLOAD_BYTES = 492, GORDZILA_SCRATCH_BYTES = 576 };

/* The longest queue, in grants and in bytes. */
enum { GORDZILA_QUEUE_MOST_GRANTS = 64, GORDZILA_LONGEST_QUEUE_BYTES = 768 };

/*
 * The roll: GORDZILA_ROLL_BYTES bytes that the host keeps, with an entry for each of the contractors 1 to 200, which is a count and a
 * highest right. Any such bytes are a roll.
 *
 * Bytes 0 to 399, GORDZILA_ROLL_COUNTS_BYTES in all, are the counts, two bytes each, big end first. A contractor is in standing exactly
 * when their count is odd and below 65,535.
 *
 * Bytes 400 to 599 are the highest rights, one byte each, so that contractor n has byte 399 + n; gordzila_highest_right reads it. 2
 * means that the contractor, while in standing, may be issued grants for overwriting and that these overwrite. Every other figure means
 * reading only: 0, 1, 3 and 255 alike. The calls write 1 and 2, and any other figure stays until a call that does not refuse enters or
 * withdraws that contractor, or changes their right.
 */

/*
 * Checks a grant for one size block and one right. A reading grant opens its size block where reading is asked for, an
 * overwriting grant where reading is, and where overwriting is if that is its contractor's highest right on the roll.
 *
 * Returns the number of the first of these reasons that holds: 1, 2, 3 (grant or roll), 7, 14, 8, 9, 10, 20, 23, 25. Otherwise the
 * grant opens the size block, and the answer is 1,000 times the right asked for plus the contractor: 1001 to 1200 for reading,
 * 2001 to 2200 for overwriting. The right in the answer is the one asked for, and not the grant's: an overwriting grant that is
 * asked for reading answers 1001 to 1200. 25 too is about the right asked for: the overwriting grant of a contractor who may only read
 * opens for reading. And 14 is about the size block asked for: it says that this is 0, and nothing of the grant. A grant that was issued
 * for size block 0, before 0.7.0, opens nothing: asked for 0 it is 14, and asked for another size block 9, where no reason comes before
 * these.
 */
uint32_t gordzila_check(const uint8_t *key, size_t key_length, uint32_t rounds, const uint8_t *roll, size_t roll_length,
                        const uint8_t *grant, size_t grant_length, uint32_t size_block, uint32_t right);

/* Of an answer of gordzila_check: whether the grant opens, and if so the right asked for and the contractor; 0 where it does not. */
static inline int gordzila_opens(uint32_t answer) { return answer >= 1000; }
static inline uint32_t gordzila_answered_right(uint32_t answer) { return answer / 1000; }
static inline uint32_t gordzila_answered_contractor(uint32_t answer) { return gordzila_opens(answer) ? answer % 1000 : 0; }

/*
 * The morning queue: checks 0 to 64 grants for one size block and one right, on one roll.
 *
 * grants: one grant after the other, 12 bytes each, so that the length is a multiple of 12 up to 768. answers: at least one byte for
 * each grant.
 *
 * Returns the number of the first of these reasons that holds: 1, 2, 3 (roll, or grants over 768 bytes or no multiple of 12),
 * 4 (answers shorter than the number of grants), 7, 14. They refuse the whole call, and nothing is written. 65 grants are 3, however
 * long answers is.
 *
 * Otherwise it returns 0, and answers has one byte for each grant, in their order: 0 if the grant opens, else the number with which
 * gordzila_check refuses it, which is 8, 9, 10, 20, 23 or 25. A grant that is refused does not stop those after it. Bytes of answers past
 * the number of grants stay. Take every byte but 0 for a refusal: later versions may have more numbers.
 *
 * Without grants it returns 0 and writes nothing, where the other arguments are right: with right 3 it returns 7 all the same, and
 * with size block 0 it returns 14. As for every call, the pointers are not null even then.
 *
 * Beware of 0. A byte of 0 opens, but gordzila_check never answers 0, and what opens there is 1000 or more: never hand a byte to
 * gordzila_opens. A return of 0 does not say that a grant opens, only that each has its byte. And where the call refuses, answers
 * keeps what stood there: had the host cleared it, each byte would look like a grant that opens. gordzila_queue_opens takes what the
 * call returned and a byte of answers, and asks for both to be 0.
 *
 * The contractor is not answered. Who needs it hands that grant to gordzila_check.
 */
uint32_t gordzila_check_queue(const uint8_t *key, size_t key_length, uint32_t rounds, const uint8_t *roll, size_t roll_length,
                              const uint8_t *grants, size_t grants_length, uint32_t size_block, uint32_t right,
                              uint8_t *answers, size_t answers_length);

/* Of what gordzila_check_queue returned, and of a grant's byte in answers: whether the grant opens. */
static inline int gordzila_queue_opens(uint32_t returned, uint8_t byte) { return returned == 0 && byte == 0; }

/*
 * The calls on the roll. Each returns 0, or the number of the first reason that holds. Those that change a contractor's entry leave all
 * other entries as they are.
 *
 * The empty roll, on which nobody was ever entered: GORDZILA_ROLL_BYTES bytes to out, all counts 0 and all highest rights 1. Order: 4.
 *
 * Beware: for a new store only. Over a roll in use it starts the counts anew: withdrawals and demotions are forgotten, and once
 * contractors are entered again, grants that were revoked may open.
 */
uint32_t gordzila_empty_roll(uint8_t *out, size_t out_length);

/*
 * Enter a contractor who is not in standing: 1 is added to their count, and right, 1 or 2, becomes their highest right. At count 65,534
 * or 65,535 they cannot be entered again. Entering never changes the right of someone in standing: it is refused with 21, whether 1 or
 * 2 is given, and gordzila_change_right changes it. Order: 3, 6, 7, 21, 22.
 */
uint32_t gordzila_enter(uint8_t *roll, size_t roll_length, uint32_t contractor, uint32_t right);

/*
 * Change the highest right of a contractor in standing to right: to 1, which demotes who had 2, or to 2, which raises. The right that
 * they have already is taken too. Order: 3, 6, 7, 20.
 *
 * A demoted contractor stays in standing. Their grants go on opening for reading, those for overwriting too. Where overwriting is asked
 * for, these are refused with 25 until the contractor is raised; a withdrawal ends them. The issue of such a grant to them is refused
 * with 25 too, until they are raised, or are withdrawn (then it is 20) and entered again with 2. In both cases another reason is given
 * where one comes before 25.
 *
 * Beware:
 *  - No count changes, so that a demotion ends no grant. Once the contractor is raised, every grant for overwriting that was issued to
 *    them in this standing overwrites again, also one from before the demotion. To end these grants, withdraw the contractor and enter
 *    them again: then no grant that was issued to them before opens, for reading neither, and whoever goes on plotting needs new ones.
 *  - The change is seen only on the roll on which it was made, as a withdrawal is: a box that checks against an older copy goes on
 *    overwriting.
 */
uint32_t gordzila_change_right(uint8_t *roll, size_t roll_length, uint32_t contractor, uint32_t right);

/* Withdraw a contractor who is in standing: 1 is added to their count, and their highest right becomes 1. Order: 3, 6, 20. */
uint32_t gordzila_withdraw(uint8_t *roll, size_t roll_length, uint32_t contractor);

/*
 * Of a roll: the highest right of a contractor, whether in standing or not. roll has to point to GORDZILA_ROLL_BYTES bytes, since no
 * length is asked for; contractor is 1 to 200. Returns GORDZILA_OVERWRITING where their byte is 2, and GORDZILA_READING where it is any
 * other; 0 outside 1 to 200, where no byte is read. Like the other readers, it is code of this header and no call of the library, and
 * it is not among what is proved.
 */
static inline uint32_t gordzila_highest_right(const uint8_t *roll, uint32_t contractor) {
    if (contractor < 1 || contractor > 200) {
        return 0;
    }
    return roll[GORDZILA_ROLL_COUNTS_BYTES + contractor - 1] == GORDZILA_OVERWRITING ? GORDZILA_OVERWRITING : GORDZILA_READING;
}

/*
 * Issues a grant to a contractor in the standing that the roll has for them, for a size block other than 0 and a right up to their
 * highest: 12 bytes to out. A grant for overwriting also opens its size block for reading, so that nobody needs one of each. Returns 0,
 * or the number of the first reason that holds. Order: 1, 2, 3 (roll), 4, 6, 7, 14, 20, 25.
 */
uint32_t gordzila_issue(const uint8_t *key, size_t key_length, uint32_t rounds, const uint8_t *roll, size_t roll_length,
                        uint32_t contractor, uint32_t size_block, uint32_t right, uint8_t *out, size_t out_length);

/*
 * Sealed pages: up to 492 bytes of a size block, enciphered and with a check, in a page of 512 bytes.
 *
 * A page has, with numbers big end first: the size block's number (4 bytes), the page number (2), the used count (2), which is the
 * payload's length, and 4 zeros; 492 bytes of payload with unused bytes zero, enciphered; and the check (8). The first 12 bytes stay
 * plain: anyone can read them.
 *
 * The payload is enciphered under the first key, in 41 blocks of 12 bytes: each is added (exclusive or) to the enciphered block
 * before it and then enciphered, and the first is added to the 12 plain bytes enciphered under that key. The check is the first 8
 * bytes of the last block of the same chaining under the second key, from zeros, over bytes 0 to 503 as they are stored.
 *
 * first_key, second_key: two different keys of one length, with one round count.
 *
 * scratch: at least 576 bytes, of any content, in which the calls keep their subkey lists while they work. These are as secret as the
 * keys. After a page was sealed or opened, after 13 and after the 11 that is tried after 13, the first 576 bytes are zero, and any
 * beyond keep their content. After every other refusal all bytes keep their content. Nothing is said of what the calls leave on the
 * stack. Calls that are made at the same time need a scratch each.
 *
 * Stack: of the outcomes tried, the most that a call took is 400 bytes (sealing) and 512 (opening), with the return address and without
 * the arguments (painted by `make stack`, x86-64, this version's archive).
 *
 * Beware:
 *  - Neither call works in place: out may share no byte with payload or with page. Besides scratch, sealing needs 512 bytes beside the
 *    payload, and opening 492 beside the page, also on a host with little memory.
 *  - A page is not bound to its place. gordzila_open_page is not told which page is wanted: it answers the size block and the page
 *    number that the page was sealed with, and the host has to compare them with those that it wanted. An older page with the same
 *    numbers opens too. That pages are missing, or stand in another order, is not noticed.
 *  - Nothing in a page is drawn at random: the same payload with the same numbers under the same keys and round count gives the same
 *    page, so that whoever sees two pages sees whether they are equal. Where the 12 plain bytes are the same and the payloads start
 *    alike, the pages start alike, as far as whole blocks of 12 bytes are equal.
 *  - The payload is enciphered under the first key alone, and the check made under the second alone. With the right second key and
 *    another first key, a page whose 492 bytes are all used opens, to bytes that nobody sealed; any other page is then refused with
 *    the 11 that is tried after 13, unless its unused bytes happen to become zeros. Take a pair of keys for pages and for nothing
 *    else, make neither key from the other, and keep the two apart from each other and from the pages.
 *  - What is proved is what the calls answer and write. That nobody without the keys can read a payload, or make a page that opens, is
 *    not.
 *
 * Seals a page of a size block other than 0: 512 bytes to out. The payload has 0 to 492 bytes, of any content. Returns 0, or the number
 * of the first reason that holds. Order: 1 (also where the keys are equal or of unequal lengths), 2, 4 (scratch under 576 or out under
 * 512), 14, 12.
 */
uint32_t gordzila_seal_page(const uint8_t *first_key, size_t first_key_length, const uint8_t *second_key, size_t second_key_length,
                            uint32_t rounds, uint32_t size_block, uint16_t page_number, const uint8_t *payload,
                            size_t payload_length, uint8_t *scratch, size_t scratch_length, uint8_t *out, size_t out_length);

/*
 * Opens a page: all 492 bytes of the payload to out, with zeros past those that are used. Opening what was sealed, under the same keys
 * and round count, gives the payload, the size block and the page number again.
 *
 * Returns the number of the first of these reasons that holds: 1 (also where the keys are equal or of unequal lengths), 2,
 * 4 (scratch under 576 or out under 492), 11 (page not 512 bytes, used count over 492, or bytes 8 to 11 not zero), 13, and then 11
 * again (unused payload bytes not zero). Where it refuses, out keeps what stood there, also after 13. A used count that was changed
 * to another one of 492 or less is left to the check: 13.
 *
 * Otherwise the answer is 2^63 + 2^48 * used + 2^32 * page number + size block. A page that was sealed for size block 0, before 0.7.0, is
 * not refused for that: it opens, and the size block in the answer is 0. The answer takes 64 bits: cut to 32, as gordzila_opens would cut
 * it, it would be the size block alone, and size block 0, 13 or 1007 would look like other answers. The readers below take it whole.
 */
uint64_t gordzila_open_page(const uint8_t *first_key, size_t first_key_length, const uint8_t *second_key, size_t second_key_length,
                            uint32_t rounds, const uint8_t *page, size_t page_length, uint8_t *scratch, size_t scratch_length,
                            uint8_t *out, size_t out_length);

/* Of an answer of gordzila_open_page: whether the page opens, and the number with which it is refused; 0 where it opens. */
static inline int gordzila_page_opens(uint64_t answer) { return answer >> 63 == 1; }
static inline uint32_t gordzila_page_refusal(uint64_t answer) { return gordzila_page_opens(answer) ? 0 : (uint32_t)answer; }

/*
 * And what the page was sealed with: the size block, the page number, and how many bytes of the payload are used; 0 where it is refused. A
 * page that opens may have 0 in each of them too, the size block among them: ask gordzila_page_opens whether it opens.
 */
static inline uint32_t gordzila_opened_size_block(uint64_t answer) { return gordzila_page_opens(answer) ? (uint32_t)answer : 0; }
static inline uint16_t gordzila_opened_page_number(uint64_t answer) { return gordzila_page_opens(answer) ? (uint16_t)(answer >> 32) : 0; }
static inline uint16_t gordzila_opened_used(uint64_t answer) { return gordzila_page_opens(answer) ? (uint16_t)(answer >> 48 & 32767) : 0; }

/*
 * The cipher. Each returns 0, or the number of the first reason that holds.
 *
 * Encipher or decipher one block: 12 bytes to out. Order: 1, 2, 3, 4.
 */
uint32_t gordzila_encipher(const uint8_t *key, size_t key_length, uint32_t rounds, const uint8_t *block, size_t block_length,
                           uint8_t *out, size_t out_length);
uint32_t gordzila_decipher(const uint8_t *key, size_t key_length, uint32_t rounds, const uint8_t *block, size_t block_length,
                           uint8_t *out, size_t out_length);

/*
 * Prepare the subkey list for either direction: 12 * (rounds + 1) bytes to out, which are the subkeys of 12 bytes in the order in
 * which gordzila_run uses them. Over the list for enciphering, gordzila_run gives what gordzila_encipher gives with that key and
 * round count; over the one for deciphering, what gordzila_decipher gives. Order: 1, 2, 4.
 */
uint32_t gordzila_prepare_enciphering(const uint8_t *key, size_t key_length, uint32_t rounds, uint8_t *out,
                                      size_t out_length);
uint32_t gordzila_prepare_deciphering(const uint8_t *key, size_t key_length, uint32_t rounds, uint8_t *out,
                                      size_t out_length);

/* Run the engine over a list of 11 to 24 subkeys, whether a key gives it or not: 12 bytes to out. Order: 5, 3, 4. */
uint32_t gordzila_run(const uint8_t *list, size_t list_length, const uint8_t *block, size_t block_length, uint8_t *out,
                      size_t out_length);

/*
 * A key's stage n, which is below the key's length in bytes: 24 bytes to out, with zeros past that length; and the subkey of that
 * stage: 12 bytes to out. Order: 1, 5, 4.
 */
uint32_t gordzila_stage(const uint8_t *key, size_t key_length, uint32_t n, uint8_t *out, size_t out_length);
uint32_t gordzila_subkey(const uint8_t *key, size_t key_length, uint32_t n, uint8_t *out, size_t out_length);

/*
 * The key holder: one stage of a key, in 26 bytes that the host keeps. They are the key's length, the stage's number, and the 24 bytes
 * of the stage with zeros past the key's length. 26 bytes with another key length, a stage number not below it, or non-zero bytes past
 * it, and a holder not of 26 bytes, are refused with 24. The stage's own bytes may be any. Steps lead from any stage to stage 0, so these
 * bytes are as secret as the key.
 *
 * Make a holder of a key at stage 0: 26 bytes to out. Order: 1, 4.
 */
uint32_t gordzila_holder_make(const uint8_t *key, size_t key_length, uint8_t *out, size_t out_length);

/*
 * Step the holder to the next stage, and from the last to stage 0; or to the stage before, and from stage 0 to the last. As many steps
 * on end as the key has bytes, all forward or all back, bring the same 26 bytes again. Order: 24.
 */
uint32_t gordzila_holder_forward(uint8_t *holder, size_t holder_length);
uint32_t gordzila_holder_back(uint8_t *holder, size_t holder_length);

/*
 * Walk the holder to stage n, the shorter way; forward where both are as long. Returns the number of the first reason that holds: 24, 5.
 * Otherwise the answer is the number of steps, plus 1,000 if they went forward, 2,000 if back; 1000 if the holder was there already.
 */
uint32_t gordzila_holder_walk(uint8_t *holder, size_t holder_length, uint32_t n);

/* Of an answer of gordzila_holder_walk: whether the holder walked, and if so how many steps, and whether back; 0 where it refused. */
static inline int gordzila_walked(uint32_t answer) { return answer >= 1000; }
static inline uint32_t gordzila_walked_steps(uint32_t answer) { return gordzila_walked(answer) ? answer % 1000 : 0; }
static inline int gordzila_walked_back(uint32_t answer) { return answer >= 2000; }

/* The subkey of the stage that the holder is at: 12 bytes to out. Order: 24, 4. */
uint32_t gordzila_holder_subkey(const uint8_t *holder, size_t holder_length, uint8_t *out, size_t out_length);

#ifdef __cplusplus
}
#endif

#endif
