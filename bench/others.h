/*
 * Ciphers of libtomcrypt for the benchmark: 0 Skipjack, 1 Khazad, 2 Anubis, 3 AES.
 * A page is 512 bytes in CBC mode under one key, from zero, and their OMAC under
 * another, which has as many bytes as a block.
 */
#ifndef OTHERS_H
#define OTHERS_H

#include <stddef.h>
#include <stdint.h>

enum { OTHERS_PAGE = 512, OTHERS_LONGEST_MAC = 16 };

/* libtomcrypt's own type for a prepared key. */
union Symmetric_key;

/* One block under a prepared key. It answers 0, or an error of libtomcrypt. */
typedef int others_call(const uint8_t *block, uint8_t *out,
                        union Symmetric_key *prepared);

/*
 * A page sealed or opened, with two keys of the same length, one after the other,
 * which are prepared in the call. A sealed page has its OMAC after it. It answers
 * 0, or an error of libtomcrypt.
 */
typedef int others_page_call(int registered, const uint8_t *keys,
                             size_t key_len, const uint8_t *page, uint8_t *out);

const char *others_version(void);
size_t others_block_bytes(unsigned which);

/* A prepared key, or NULL if the length is wrong or memory is short. */
union Symmetric_key *others_prepare(unsigned which, const uint8_t *key,
                                    size_t key_len);
void others_release(unsigned which, union Symmetric_key *prepared);

/* Whether the cipher passes its own test, if libtomcrypt was built with it. */
int others_passes(unsigned which);
others_call *others_encipher(unsigned which);
others_call *others_decipher(unsigned which);

/* The number under which libtomcrypt has the cipher for its modes. */
int others_register(unsigned which);
others_page_call others_seal;
others_page_call others_open;

#endif
