/*
 * The calls of a C baseline of the benchmark. They take the same arguments and
 * give the same answers as those of the proved library: 0, or the number of the
 * reason for which a call refuses; a check that opens gives 1,000 times the
 * right asked for plus the contractor. Of a queue, each grant has a byte: 0 if it
 * opens, or the number for which a check of it refuses. A page that opens gives
 * the numbers of its header below the highest of 64 bits. A walk gives its steps,
 * plus 1,000 if they went forward and 2,000 if back. A call that refuses leaves
 * the output, or the holder, as it was.
 *
 * Each C file is compiled once for every compiler and set of flags, and gives
 * out one struct baseline, under the name that -DBASELINE=... chooses.
 */
#ifndef BASELINE_H
#define BASELINE_H

#include <stddef.h>
#include <stdint.h>

enum {
    ROWS = 3,
    COLUMNS = 4,
    BLOCK = ROWS * COLUMNS,
    MOST_KEY_COLUMNS = 8,
    LEAST_ROUNDS = 10,
    MOST_ROUNDS = 23,
    MOST_LIST = BLOCK * (MOST_ROUNDS + 1),
    CONTRACTORS = 200,
    COUNTS = 2 * CONTRACTORS,
    ROLL = COUNTS + CONTRACTORS,
    MOST_GRANTS = 64,
    PAYLOAD = 41 * BLOCK,
    CHECKED = BLOCK + PAYLOAD,
    CHECK = 8,
    PAGE = CHECKED + CHECK,
    SCRATCH = 2 * MOST_LIST,
    STAGE = ROWS * MOST_KEY_COLUMNS,
    HOLDER = 2 + STAGE
};

enum answer {
    DONE = 0,
    KEY_LENGTH = 1,
    ROUND_COUNT = 2,
    INPUT_LENGTH = 3,
    OUTPUT_TOO_SHORT = 4,
    STAGE_OR_LIST = 5,
    RIGHT = 7,
    NOT_A_GRANT = 8,
    OTHER_BLOCK = 9,
    OTHER_RIGHT = 10,
    NOT_A_PAGE = 11,
    PAYLOAD_TOO_LONG = 12,
    OTHER_CHECK = 13,
    BLOCK_ZERO = 14,
    NOT_IN_STANDING = 20,
    OTHER_COUNT = 23,
    BROKEN_HOLDER = 24,
    ABOVE_HIGHEST = 25,
    WALKED_FORWARD = 1000,
    WALKED_BACK = 2000
};

enum right { READING = 1, OVERWRITING = 2 };

enum direction { ENCIPHERING, DECIPHERING };

/* The ways from a key stage to another. */
enum way { FORWARD, BACK };

/* One block of 12 bytes, with key set-up. */
typedef uint32_t cipher_call(const uint8_t *key, size_t key_len,
                             uint32_t rounds,
                             const uint8_t *block, size_t block_len,
                             uint8_t *out, size_t out_len);

/* The subkey list for one direction: 12(rounds + 1) bytes. */
typedef uint32_t prepare_call(const uint8_t *key, size_t key_len,
                              uint32_t rounds, uint8_t *out, size_t out_len);

/* One block of 12 bytes under a list of 11 to 24 subkeys. */
typedef uint32_t run_call(const uint8_t *list, size_t list_len,
                          const uint8_t *block, size_t block_len,
                          uint8_t *out, size_t out_len);

/* A grant of 12 bytes, with key set-up, against a roll of 600 bytes. */
typedef uint32_t check_call(const uint8_t *key, size_t key_len,
                            uint32_t rounds,
                            const uint8_t *roll, size_t roll_len,
                            const uint8_t *grant, size_t grant_len,
                            uint32_t size_block, uint32_t right);

/*
 * Up to 64 grants of 12 bytes, with key set-up done once, against a roll of 600
 * bytes: a byte for each.
 */
typedef uint32_t queue_call(const uint8_t *key, size_t key_len,
                            uint32_t rounds,
                            const uint8_t *roll, size_t roll_len,
                            const uint8_t *grants, size_t grants_len,
                            uint32_t size_block, uint32_t right,
                            uint8_t *answers, size_t answers_len);

/*
 * A page of 512 bytes, of a payload of up to 492, under two keys. The subkey
 * lists sit in the scratch, whose first 576 bytes are cleared.
 */
typedef uint32_t seal_call(const uint8_t *first_key, size_t first_key_len,
                           const uint8_t *second_key, size_t second_key_len,
                           uint32_t rounds,
                           uint32_t size_block, uint16_t page_number,
                           const uint8_t *payload, size_t payload_len,
                           uint8_t *scratch, size_t scratch_len,
                           uint8_t *out, size_t out_len);

/* The 492 bytes of the payload of such a page. */
typedef uint64_t open_call(const uint8_t *first_key, size_t first_key_len,
                           const uint8_t *second_key, size_t second_key_len,
                           uint32_t rounds,
                           const uint8_t *page, size_t page_len,
                           uint8_t *scratch, size_t scratch_len,
                           uint8_t *out, size_t out_len);

/*
 * A key holder, walked to stage n the shorter way. Its 26 bytes are the key's
 * length, the stage's number, and the stage with zeros past the key's length.
 */
typedef uint32_t walk_call(uint8_t *holder, size_t holder_len, uint32_t n);

/* Stage n straight from the key: 24 bytes, with zeros past the key's length. */
typedef uint32_t stage_call(const uint8_t *key, size_t key_len, uint32_t n,
                            uint8_t *out, size_t out_len);

struct baseline {
    cipher_call *encipher;
    cipher_call *decipher;
    prepare_call *prepare_enciphering;
    prepare_call *prepare_deciphering;
    run_call *run;
    check_call *check;
    queue_call *check_queue;
    seal_call *seal_page;
    open_call *open_page;
    walk_call *holder_walk;
    stage_call *stage;
};

extern const struct baseline BASELINE;

#endif
