/*
 * Curupira in C with tables: the S-box as a table of 256 bytes, and for each row
 * a table of 256 columns that does the S-box and the diffusion in one look-up.
 * This is what a C programmer chooses who has six kilobytes to spare.
 *
 * A column is a word, its row 0 in the lowest byte. The highest byte of a word
 * means nothing.
 */
#include "baseline.h"
#include "closing.h"

typedef uint32_t column;

/* The S-box, as published: F of every value, in order. */
#define SBOX(F) \
    F(0xBA), F(0x54), F(0x2F), F(0x74), F(0x53), F(0xD3), F(0xD2), F(0x4D), \
    F(0x50), F(0xAC), F(0x8D), F(0xBF), F(0x70), F(0x52), F(0x9A), F(0x4C), \
    F(0xEA), F(0xD5), F(0x97), F(0xD1), F(0x33), F(0x51), F(0x5B), F(0xA6), \
    F(0xDE), F(0x48), F(0xA8), F(0x99), F(0xDB), F(0x32), F(0xB7), F(0xFC), \
    F(0xE3), F(0x9E), F(0x91), F(0x9B), F(0xE2), F(0xBB), F(0x41), F(0x6E), \
    F(0xA5), F(0xCB), F(0x6B), F(0x95), F(0xA1), F(0xF3), F(0xB1), F(0x02), \
    F(0xCC), F(0xC4), F(0x1D), F(0x14), F(0xC3), F(0x63), F(0xDA), F(0x5D), \
    F(0x5F), F(0xDC), F(0x7D), F(0xCD), F(0x7F), F(0x5A), F(0x6C), F(0x5C), \
    F(0xF7), F(0x26), F(0xFF), F(0xED), F(0xE8), F(0x9D), F(0x6F), F(0x8E), \
    F(0x19), F(0xA0), F(0xF0), F(0x89), F(0x0F), F(0x07), F(0xAF), F(0xFB), \
    F(0x08), F(0x15), F(0x0D), F(0x04), F(0x01), F(0x64), F(0xDF), F(0x76), \
    F(0x79), F(0xDD), F(0x3D), F(0x16), F(0x3F), F(0x37), F(0x6D), F(0x38), \
    F(0xB9), F(0x73), F(0xE9), F(0x35), F(0x55), F(0x71), F(0x7B), F(0x8C), \
    F(0x72), F(0x88), F(0xF6), F(0x2A), F(0x3E), F(0x5E), F(0x27), F(0x46), \
    F(0x0C), F(0x65), F(0x68), F(0x61), F(0x03), F(0xC1), F(0x57), F(0xD6), \
    F(0xD9), F(0x58), F(0xD8), F(0x66), F(0xD7), F(0x3A), F(0xC8), F(0x3C), \
    F(0xFA), F(0x96), F(0xA7), F(0x98), F(0xEC), F(0xB8), F(0xC7), F(0xAE), \
    F(0x69), F(0x4B), F(0xAB), F(0xA9), F(0x67), F(0x0A), F(0x47), F(0xF2), \
    F(0xB5), F(0x22), F(0xE5), F(0xEE), F(0xBE), F(0x2B), F(0x81), F(0x12), \
    F(0x83), F(0x1B), F(0x0E), F(0x23), F(0xF5), F(0x45), F(0x21), F(0xCE), \
    F(0x49), F(0x2C), F(0xF9), F(0xE6), F(0xB6), F(0x28), F(0x17), F(0x82), \
    F(0x1A), F(0x8B), F(0xFE), F(0x8A), F(0x09), F(0xC9), F(0x87), F(0x4E), \
    F(0xE1), F(0x2E), F(0xE4), F(0xE0), F(0xEB), F(0x90), F(0xA4), F(0x1E), \
    F(0x85), F(0x60), F(0x00), F(0x25), F(0xF4), F(0xF1), F(0x94), F(0x0B), \
    F(0xE7), F(0x75), F(0xEF), F(0x34), F(0x31), F(0xD4), F(0xD0), F(0x86), \
    F(0x7E), F(0xAD), F(0xFD), F(0x29), F(0x30), F(0x3B), F(0x9F), F(0xF8), \
    F(0xC6), F(0x13), F(0x06), F(0x05), F(0xC5), F(0x11), F(0x77), F(0x7C), \
    F(0x7A), F(0x78), F(0x36), F(0x1C), F(0x39), F(0x59), F(0x18), F(0x56), \
    F(0xB3), F(0xB0), F(0x24), F(0x20), F(0xB2), F(0x92), F(0xA3), F(0xC0), \
    F(0x44), F(0x62), F(0x10), F(0xB4), F(0x84), F(0x43), F(0x93), F(0xC2), \
    F(0x4A), F(0xBD), F(0x8F), F(0x2D), F(0xBC), F(0x9C), F(0x6A), F(0x40), \
    F(0xCF), F(0xA2), F(0x80), F(0x4F), F(0x1F), F(0xCA), F(0xAA), F(0x42)

/* F of every byte, in order. */
#define BYTES_4(F, n) F(n), F((n) + 1), F((n) + 2), F((n) + 3)
#define BYTES_16(F, n) \
    BYTES_4(F, n), BYTES_4(F, (n) + 4), BYTES_4(F, (n) + 8), BYTES_4(F, (n) + 12)
#define BYTES_64(F, n) \
    BYTES_16(F, n), BYTES_16(F, (n) + 16), BYTES_16(F, (n) + 32), \
    BYTES_16(F, (n) + 48)
#define BYTES(F) \
    BYTES_64(F, 0), BYTES_64(F, 64), BYTES_64(F, 128), BYTES_64(F, 192)

/* A byte times x, x^2, x^3 and x^4. */
#define X1(b) ((column)(b) << 1 ^ ((column)(b) >> 7) * 0x14D)
#define X2(b) X1(X1(b))
#define X3(b) X1(X2(b))
#define X4(b) X2(X2(b))

/* A column of its three rows. */
#define PACK(x, y, z) ((column)(x) | (column)(y) << 8 | (column)(z) << 16)

/* What the diffusion adds to a column with this sum: 2, 4 and 6 times the sum. */
#define SPREAD(b) PACK(X1(b), X2(b), X1(b) ^ X2(b))

/* What a key stage adds to a column with this sum: c = x^4 + x^3 + x^2 times it. */
#define MIX(b) ((X4(b) ^ X3(b) ^ X2(b)) * 0x010101)

/* The same for the stage before: c + 1 times the sum. */
#define UNMIX(b) ((X4(b) ^ X3(b) ^ X2(b) ^ (column)(b)) * 0x010101)

/* The columns that a value of the S-box in row 0, 1 or 2 is diffused to. */
#define COLUMN_0(s) (SPREAD(s) ^ PACK(s, 0, 0))
#define COLUMN_1(s) (SPREAD(s) ^ PACK(0, s, 0))
#define COLUMN_2(s) (SPREAD(s) ^ PACK(0, 0, s))

#define SAME(s) s

static const uint8_t S[256] = { SBOX(SAME) };
static const column T0[256] = { SBOX(COLUMN_0) };
static const column T1[256] = { SBOX(COLUMN_1) };
static const column T2[256] = { SBOX(COLUMN_2) };
static const column D[256] = { BYTES(SPREAD) };
static const column C[256] = { BYTES(MIX) };
static const column C1[256] = { BYTES(UNMIX) };

static inline uint8_t row(column a, int i)
{
    return (uint8_t)(a >> 8 * i);
}

static inline uint8_t sum(column a)
{
    return (uint8_t)(a ^ a >> 8 ^ a >> 16);
}

static inline column word(const uint8_t *b)
{
    return (column)b[0] | (column)b[1] << 8 | (column)b[2] << 16
           | (column)b[3] << 24;
}

/* A column of three bytes, where no byte after them may be read or written. */

static inline column get_column(const uint8_t *b)
{
    return PACK(b[0], b[1], b[2]);
}

static inline void put_column(uint8_t *b, column a)
{
    b[0] = row(a, 0);
    b[1] = row(a, 1);
    b[2] = row(a, 2);
}

/* The columns of 12 bytes. No byte after them is read. */
static inline void load(column a[COLUMNS], const uint8_t *bytes)
{
    a[0] = word(bytes);
    a[1] = word(bytes + 3);
    a[2] = word(bytes + 6);
    a[3] = word(bytes + 8) >> 8;
}

static inline void put(uint8_t *bytes, uint32_t w)
{
    bytes[0] = (uint8_t)w;
    bytes[1] = (uint8_t)(w >> 8);
    bytes[2] = (uint8_t)(w >> 16);
    bytes[3] = (uint8_t)(w >> 24);
}

static inline void store(uint8_t *bytes, const column a[COLUMNS])
{
    put(bytes, (a[0] & 0xFFFFFF) | a[1] << 24);
    put(bytes + 4, (a[1] >> 8 & 0x00FFFF) | a[2] << 16);
    put(bytes + 8, (a[2] >> 16 & 0x0000FF) | a[3] << 8);
}

/* The column of a round before the key is added, from columns j, j^1 and j^2. */
static inline column inner(column a, column b, column c)
{
    return T0[row(a, 0)] ^ T1[row(b, 1)] ^ T2[row(c, 2)];
}

/* The same for the last round, which does not diffuse. */
static inline column outer(column a, column b, column c)
{
    return PACK(S[row(a, 0)], S[row(b, 1)], S[row(c, 2)]);
}

static void run_list(const uint8_t *list, uint32_t rounds,
                     const uint8_t block[BLOCK], uint8_t out[BLOCK])
{
    column a[COLUMNS], b[COLUMNS], k[COLUMNS];

    load(a, block);
    load(k, list);
    for (int j = 0; j < COLUMNS; j++)
        a[j] ^= k[j];
    for (uint32_t r = 1; r < rounds; r++) {
        load(k, list + BLOCK * r);
        for (int j = 0; j < COLUMNS; j++)
            b[j] = inner(a[j], a[j ^ 1], a[j ^ 2]) ^ k[j];
        for (int j = 0; j < COLUMNS; j++)
            a[j] = b[j];
    }
    load(k, list + BLOCK * rounds);
    for (int j = 0; j < COLUMNS; j++)
        b[j] = outer(a[j], a[j ^ 1], a[j ^ 2]) ^ k[j];
    store(out, b);
}

/* The steps of the key schedule, on a stage of n columns, in place. */

static inline void add_constant(column k[MOST_KEY_COLUMNS], unsigned n,
                                unsigned s)
{
    for (unsigned j = 0; j < n; j++)
        k[j] ^= S[(uint8_t)(n * (s - 1) + j)];
}

static inline void add_closing(column k[MOST_KEY_COLUMNS], unsigned n)
{
    const uint8_t *closing = closing_sum(n);

    for (unsigned j = 0; j < n; j++)
        k[j] ^= get_column(closing + ROWS * j);
}

/* What a step between stage s and the one before it adds. */
static inline void add_step_constant(column k[MOST_KEY_COLUMNS], unsigned n,
                                     unsigned s)
{
    if (s > 0)
        add_constant(k, n, s);
    else
        add_closing(k, n);
}

static inline void linear_step(column k[MOST_KEY_COLUMNS], unsigned n)
{
    column next[MOST_KEY_COLUMNS];

    for (unsigned j = 0; j < n; j++) {
        column a = (k[j] & 0x0000FF) | (k[j + 1 < n ? j + 1 : 0] & 0x00FF00)
                   | (k[j > 0 ? j - 1 : n - 1] & 0xFF0000);

        next[j] = a ^ C[sum(a)];
    }
    for (unsigned j = 0; j < n; j++)
        k[j] = next[j];
}

static inline void inverse_step(column k[MOST_KEY_COLUMNS], unsigned n)
{
    column a[MOST_KEY_COLUMNS];

    for (unsigned j = 0; j < n; j++)
        a[j] = k[j] ^ C1[sum(k[j])];
    for (unsigned j = 0; j < n; j++)
        k[j] = (a[j] & 0x0000FF) | (a[j > 0 ? j - 1 : n - 1] & 0x00FF00)
               | (a[j + 1 < n ? j + 1 : 0] & 0xFF0000);
}

/* Key stage s from stage s - 1. */
static inline void next_stage(column k[MOST_KEY_COLUMNS], unsigned n,
                              unsigned s)
{
    add_constant(k, n, s);
    linear_step(k, n);
}

/* From stage s to the one after or before it, around the turn of 3n; its number. */

static inline unsigned step_forward(column k[MOST_KEY_COLUMNS], unsigned n,
                                    unsigned s)
{
    unsigned after = s + 1 < ROWS * n ? s + 1 : 0;

    add_step_constant(k, n, after);
    linear_step(k, n);
    return after;
}

static inline unsigned step_back(column k[MOST_KEY_COLUMNS], unsigned n,
                                 unsigned s)
{
    inverse_step(k, n);
    add_step_constant(k, n, s);
    return s > 0 ? s - 1 : ROWS * n - 1;
}

static inline void load_stage(column k[MOST_KEY_COLUMNS], unsigned n,
                              const uint8_t *bytes)
{
    for (unsigned j = 0; j < n; j++)
        k[j] = get_column(bytes + ROWS * j);
}

static inline void store_stage(uint8_t *bytes, unsigned n,
                               const column k[MOST_KEY_COLUMNS])
{
    for (unsigned j = 0; j < n; j++)
        put_column(bytes + ROWS * j, k[j]);
}

/* A stage's subkey: its first four columns, with the S-box on row 0. */
static inline void select_subkey(column subkey[COLUMNS], const column *k)
{
    for (int j = 0; j < COLUMNS; j++)
        subkey[j] = (k[j] & 0xFFFF00) | S[row(k[j], 0)];
}

static inline void diffuse(column a[COLUMNS])
{
    for (int j = 0; j < COLUMNS; j++)
        a[j] ^= D[sum(a[j])];
}

/* The list of a key of n columns; n is a constant where this is called. */
static inline void fill(unsigned n, enum direction direction,
                        const uint8_t *key, uint32_t rounds, uint8_t *out)
{
    column k[MOST_KEY_COLUMNS], subkey[COLUMNS];

    load_stage(k, n, key);
    for (uint32_t s = 0; s <= rounds; s++) {
        uint32_t at = direction == ENCIPHERING ? s : rounds - s;

        if (s > 0)
            next_stage(k, n, s);
        select_subkey(subkey, k);
        if (direction == DECIPHERING && s > 0 && s < rounds)
            diffuse(subkey);
        store(out + BLOCK * at, subkey);
    }
}

static void fill_list(enum direction direction, const uint8_t *key,
                      size_t key_len, uint32_t rounds, uint8_t *out)
{
    if (key_len == 12)
        fill(4, direction, key, rounds, out);
    else if (key_len == 18)
        fill(6, direction, key, rounds, out);
    else
        fill(8, direction, key, rounds, out);
}

/*
 * Stage s of a key of n columns, walked so many steps where it stands; n is a
 * constant where this is called.
 */
static inline void walk(unsigned n, enum way way, uint8_t *bytes, unsigned s,
                        unsigned steps)
{
    column k[MOST_KEY_COLUMNS];

    load_stage(k, n, bytes);
    if (way == FORWARD)
        for (; steps > 0; steps--)
            s = step_forward(k, n, s);
    else
        for (; steps > 0; steps--)
            s = step_back(k, n, s);
    store_stage(bytes, n, k);
}

static void walk_stage(enum way way, uint8_t bytes[STAGE], size_t key_len,
                       unsigned s, unsigned steps)
{
    if (key_len == 12)
        walk(4, way, bytes, s, steps);
    else if (key_len == 18)
        walk(6, way, bytes, s, steps);
    else
        walk(8, way, bytes, s, steps);
}

#include "calls.h"
