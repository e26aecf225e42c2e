/*
 * The ciphers of libtomcrypt that the benchmark sets beside the library, by
 * number. Only what depends on the layout of libtomcrypt's types is done here;
 * the timed calls go to libtomcrypt's own functions. Those on a page go to three
 * of them: the start and the work of CBC, and OMAC.
 */
#include "others.h"

#include <stdlib.h>
#include <string.h>
#include <tomcrypt.h>

static const struct ltc_cipher_descriptor *descriptor(unsigned which)
{
    switch (which) {
    case 0:
        return &skipjack_desc;
    case 1:
        return &khazad_desc;
    case 2:
        return &anubis_desc;
    default:
        return &aes_desc;
    }
}

const char *others_version(void)
{
    return SCRYPT;
}

size_t others_block_bytes(unsigned which)
{
    return (size_t)descriptor(which)->block_length;
}

union Symmetric_key *others_prepare(unsigned which, const uint8_t *key,
                                    size_t key_len)
{
    symmetric_key *prepared = malloc(sizeof *prepared);

    if (prepared == NULL)
        return NULL;
    if (descriptor(which)->setup(key, (int)key_len, 0, prepared) == CRYPT_OK)
        return prepared;
    free(prepared);
    return NULL;
}

void others_release(unsigned which, union Symmetric_key *prepared)
{
    descriptor(which)->done(prepared);
    free(prepared);
}

int others_passes(unsigned which)
{
    int outcome = descriptor(which)->test();

    return outcome == CRYPT_OK || outcome == CRYPT_NOP;
}

others_call *others_encipher(unsigned which)
{
    return descriptor(which)->ecb_encrypt;
}

others_call *others_decipher(unsigned which)
{
    return descriptor(which)->ecb_decrypt;
}

int others_register(unsigned which)
{
    return register_cipher(descriptor(which));
}

/* What a page is added to first, in CBC mode. */
static const uint8_t ZERO[MAXBLOCKSIZE];

/* The OMAC of the bytes of a page. */
static int make_omac(int registered, const uint8_t *key, size_t key_len,
                     const uint8_t *page, uint8_t mac[OTHERS_LONGEST_MAC])
{
    unsigned long length = OTHERS_LONGEST_MAC;

    return omac_memory(registered, key, key_len, page, OTHERS_PAGE, mac,
                       &length);
}

int others_seal(int registered, const uint8_t *keys, size_t key_len,
                const uint8_t *page, uint8_t *out)
{
    symmetric_CBC cbc;
    int error = cbc_start(registered, ZERO, keys, (int)key_len, 0, &cbc);

    if (error == CRYPT_OK)
        error = cbc_encrypt(page, out, OTHERS_PAGE, &cbc);
    if (error == CRYPT_OK)
        error = make_omac(registered, keys + key_len, key_len, out,
                          out + OTHERS_PAGE);
    return error;
}

int others_open(int registered, const uint8_t *keys, size_t key_len,
                const uint8_t *page, uint8_t *out)
{
    size_t mac_len = (size_t)cipher_descriptor[registered].block_length;
    uint8_t mac[OTHERS_LONGEST_MAC];
    symmetric_CBC cbc;
    int error = make_omac(registered, keys + key_len, key_len, page, mac);

    if (error != CRYPT_OK)
        return error;
    if (memcmp(mac, page + OTHERS_PAGE, mac_len) != 0)
        return CRYPT_ERROR;
    error = cbc_start(registered, ZERO, keys, (int)key_len, 0, &cbc);
    if (error == CRYPT_OK)
        error = cbc_decrypt(page, out, OTHERS_PAGE, &cbc);
    return error;
}
