/*
 * Curupira in plain C. The S-box is computed from the two mini-boxes, as in the
 * proved library, and the diffusion byte by byte, or with WORDS a row of four
 * columns in a word at a time, as the library does it.
 */
#include "baseline.h"
#include "closing.h"

#include <string.h>

/* A state is four columns of three bytes. */
typedef uint8_t state[COLUMNS][ROWS];

/* A key stage is four, six or eight columns of three bytes. */
typedef uint8_t stage[MOST_KEY_COLUMNS][ROWS];

/* The S-box, computed from the two mini-boxes. */

static const uint8_t P[16] = {
    0x3, 0xF, 0xE, 0x0, 0x5, 0x4, 0xB, 0xC,
    0xD, 0xA, 0x9, 0x6, 0x7, 0x8, 0x2, 0x1
};

static const uint8_t Q[16] = {
    0x9, 0xE, 0x5, 0x6, 0xA, 0x2, 0x3, 0xC,
    0xF, 0x0, 0x4, 0xD, 0x7, 0xB, 0x1, 0x8
};

static inline unsigned join_tops(unsigned h, unsigned l)
{
    return (h & 0xC) | (l >> 2);
}

static inline unsigned join_lows(unsigned h, unsigned l)
{
    return (h & 3) << 2 | (l & 3);
}

static inline uint8_t sbox(uint8_t x)
{
    unsigned h1 = P[x >> 4];
    unsigned l1 = Q[x & 0xF];
    unsigned h2 = Q[join_tops(h1, l1)];
    unsigned l2 = P[join_lows(h1, l1)];
    unsigned h3 = P[join_tops(h2, l2)];
    unsigned l3 = Q[join_lows(h2, l2)];

    return (uint8_t)(h3 << 4 | l3);
}

/* Multiplication by x and by c = x^4 + x^3 + x^2, without branches. */

static inline uint8_t xtimes(uint8_t x)
{
    return (uint8_t)((x << 1) ^ ((x >> 7) * 0x4D));
}

static inline uint8_t ctimes(uint8_t x)
{
    uint8_t x4 = xtimes(xtimes(x));
    uint8_t x8 = xtimes(x4);
    uint8_t x16 = xtimes(x8);

    return x16 ^ x8 ^ x4;
}

/* The layers of a round, in place. */

static inline void substitute(state a)
{
    for (int j = 0; j < COLUMNS; j++)
        for (int i = 0; i < ROWS; i++)
            a[j][i] = sbox(a[j][i]);
}

static inline void swap(uint8_t *a, uint8_t *b)
{
    uint8_t t = *a;

    *a = *b;
    *b = t;
}

/* Row i, column j takes the byte of row i, column (i xor j). */
static inline void permute(state a)
{
    swap(&a[0][1], &a[1][1]);
    swap(&a[2][1], &a[3][1]);
    swap(&a[0][2], &a[2][2]);
    swap(&a[1][2], &a[3][2]);
}

/*
 * The diffusion. Each row that comes out is the row itself plus 2, 4 or 6 times the
 * sum of the rows.
 */

#ifdef WORDS

/* A row in a word. Column 0 is the highest byte. */
static inline uint32_t get_row(state a, int i)
{
    return (uint32_t)a[0][i] << 24 | (uint32_t)a[1][i] << 16
           | (uint32_t)a[2][i] << 8 | (uint32_t)a[3][i];
}

static inline void put_row(state a, int i, uint32_t w)
{
    a[0][i] = (uint8_t)(w >> 24);
    a[1][i] = (uint8_t)(w >> 16);
    a[2][i] = (uint8_t)(w >> 8);
    a[3][i] = (uint8_t)w;
}

/*
 * Multiplication of each byte by x. Where a bit would leave its byte, the byte
 * gets 4D instead: 80 less 1 is 7F, and the mask takes 4D of it.
 */
static inline uint32_t xtimes_word(uint32_t w)
{
    uint32_t t = w & 0x80808080;

    return ((w ^ t) << 1) ^ ((t - (t >> 7)) & 0x4D4D4D4D);
}

static inline void diffuse(state a)
{
    uint32_t x = get_row(a, 0), y = get_row(a, 1), z = get_row(a, 2);
    uint32_t s2 = xtimes_word(x ^ y ^ z);
    uint32_t s4 = xtimes_word(s2);

    put_row(a, 0, x ^ s2);
    put_row(a, 1, y ^ s4);
    put_row(a, 2, z ^ s2 ^ s4);
}

#else

static inline void diffuse(state a)
{
    for (int j = 0; j < COLUMNS; j++) {
        uint8_t x = a[j][0], y = a[j][1], z = a[j][2];
        uint8_t s2 = xtimes(x ^ y ^ z);
        uint8_t s4 = xtimes(s2);

        a[j][0] = x ^ s2;
        a[j][1] = y ^ s4;
        a[j][2] = z ^ s2 ^ s4;
    }
}

#endif

static inline void add_key(state a, const uint8_t subkey[BLOCK])
{
    for (int j = 0; j < COLUMNS; j++)
        for (int i = 0; i < ROWS; i++)
            a[j][i] ^= subkey[ROWS * j + i];
}

/* The engine: one block under a list of rounds + 1 subkeys. */
static void run_list(const uint8_t *list, uint32_t rounds,
                     const uint8_t block[BLOCK], uint8_t out[BLOCK])
{
    state a;

    memcpy(a, block, BLOCK);
    add_key(a, list);
    for (uint32_t r = 1; r < rounds; r++) {
        substitute(a);
        permute(a);
        diffuse(a);
        add_key(a, list + BLOCK * r);
    }
    substitute(a);
    permute(a);
    add_key(a, list + BLOCK * rounds);
    memcpy(out, a, BLOCK);
}

/* The steps of the key schedule, on a stage of n columns, in place. */

static inline void add_constant(stage k, unsigned n, unsigned s)
{
    for (unsigned j = 0; j < n; j++)
        k[j][0] ^= sbox((uint8_t)(n * (s - 1) + j));
}

/* Over all columns: past n of them a stage that is walked has zeros, and the sum too. */
static inline void add_closing(stage k, unsigned n)
{
    const uint8_t *sum = closing_sum(n);

    for (int j = 0; j < MOST_KEY_COLUMNS; j++)
        for (int i = 0; i < ROWS; i++)
            k[j][i] ^= sum[ROWS * j + i];
}

/* What a step between stage s and the one before it adds. */
static inline void add_step_constant(stage k, unsigned n, unsigned s)
{
    if (s > 0)
        add_constant(k, n, s);
    else
        add_closing(k, n);
}

static inline void linear_step(stage k, unsigned n)
{
    stage next;

    for (unsigned j = 0; j < n; j++) {
        uint8_t x = k[j][0];
        uint8_t y = k[j + 1 < n ? j + 1 : 0][1];
        uint8_t z = k[j > 0 ? j - 1 : n - 1][2];
        uint8_t m = ctimes(x ^ y ^ z);

        next[j][0] = x ^ m;
        next[j][1] = y ^ m;
        next[j][2] = z ^ m;
    }
    memcpy(k, next, ROWS * n);
}

static inline void inverse_step(stage k, unsigned n)
{
    stage before;

    for (unsigned j = 0; j < n; j++) {
        uint8_t x = k[j][0], y = k[j][1], z = k[j][2];
        uint8_t s = x ^ y ^ z;
        uint8_t m = ctimes(s) ^ s;

        before[j][0] = x ^ m;
        before[j + 1 < n ? j + 1 : 0][1] = y ^ m;
        before[j > 0 ? j - 1 : n - 1][2] = z ^ m;
    }
    memcpy(k, before, ROWS * n);
}

/* Key stage s from stage s - 1. */
static inline void next_stage(stage k, unsigned n, unsigned s)
{
    add_constant(k, n, s);
    linear_step(k, n);
}

/* From stage s to the one after or before it, around the turn of 3n; its number. */

static inline unsigned step_forward(stage k, unsigned n, unsigned s)
{
    unsigned after = s + 1 < ROWS * n ? s + 1 : 0;

    add_step_constant(k, n, after);
    linear_step(k, n);
    return after;
}

static inline unsigned step_back(stage k, unsigned n, unsigned s)
{
    inverse_step(k, n);
    add_step_constant(k, n, s);
    return s > 0 ? s - 1 : ROWS * n - 1;
}

/* Stage s of a key, in 24 bytes, walked so many steps where it stands. */
static void walk_stage(enum way way, uint8_t bytes[STAGE], size_t key_len,
                       unsigned s, unsigned steps)
{
    unsigned n = (unsigned)key_len / ROWS;
    stage k;

    memcpy(k, bytes, STAGE);
    if (way == FORWARD)
        for (; steps > 0; steps--)
            s = step_forward(k, n, s);
    else
        for (; steps > 0; steps--)
            s = step_back(k, n, s);
    memcpy(bytes, k, STAGE);
}

/* A stage's subkey: its first four columns, with the S-box on row 0. */
static inline void select_subkey(state subkey, stage k)
{
    memcpy(subkey, k, BLOCK);
    for (int j = 0; j < COLUMNS; j++)
        subkey[j][0] = sbox(subkey[j][0]);
}

/*
 * The subkeys of a key: from the front, or, for deciphering, from the back and
 * diffused but for the two ends.
 */
static void fill_list(enum direction direction, const uint8_t *key,
                      size_t key_len, uint32_t rounds, uint8_t *out)
{
    unsigned n = (unsigned)key_len / ROWS;
    stage k;

    memcpy(k, key, key_len);
    for (uint32_t s = 0; s <= rounds; s++) {
        uint32_t at = direction == ENCIPHERING ? s : rounds - s;
        state subkey;

        if (s > 0)
            next_stage(k, n, s);
        select_subkey(subkey, k);
        if (direction == DECIPHERING && s > 0 && s < rounds)
            diffuse(subkey);
        memcpy(out + BLOCK * at, subkey, BLOCK);
    }
}

#include "calls.h"
