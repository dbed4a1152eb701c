/* The peers' own public calls. Statuses are tested once in bench.c, by comparing what each peer computes. */
#include <string.h>

#include <bearssl.h>
#include <mbedtls/aes.h>
#include <mbedtls/cmac.h>
#include <openssl/core_names.h>
#include <openssl/evp.h>
#include <openssl/params.h>
#include <tomcrypt.h>

#include "peers.h"
#include "plain.h"
#include "securestore.h"

static void counter_block(const uint8_t iv[8], uint8_t counter[16])
{
    memcpy(counter, iv, 8);
    memset(counter + 8, 0, 8);
}

/* ---- Mbed TLS. It asks mbedtls_aesni_has_support whether to use AES instructions; the linker's --wrap sends that question here. */

static int aesni_allowed;

int __real_mbedtls_aesni_has_support(unsigned int what);
int __wrap_mbedtls_aesni_has_support(unsigned int what);

int __wrap_mbedtls_aesni_has_support(unsigned int what)
{
    return aesni_allowed ? __real_mbedtls_aesni_has_support(what) : 0;
}

static void mbed_block(const uint8_t key[16], uint8_t block[16])
{
    mbedtls_aes_context c;
    mbedtls_aes_init(&c);
    mbedtls_aes_setkey_enc(&c, key, 128);
    mbedtls_aes_crypt_ecb(&c, MBEDTLS_AES_ENCRYPT, block, block);
    mbedtls_aes_free(&c);
}

static void mbed_cmac(const uint8_t key[16], const uint8_t *message, size_t len, uint8_t tag[16])
{
    mbedtls_cipher_cmac(mbedtls_cipher_info_from_type(MBEDTLS_CIPHER_AES_128_ECB), key, 128, message, len, tag);
}

static void mbed_ctr(const uint8_t key[16], const uint8_t iv[8], uint8_t *data, size_t len)
{
    mbedtls_aes_context c;
    uint8_t counter[16], stream[16];
    size_t used = 0;
    counter_block(iv, counter);
    mbedtls_aes_init(&c);
    mbedtls_aes_setkey_enc(&c, key, 128);
    mbedtls_aes_crypt_ctr(&c, len, &used, counter, stream, data, data);
    mbedtls_aes_free(&c);
}

static void mbed_block_ni(const uint8_t key[16], uint8_t block[16])
{
    aesni_allowed = 1;
    mbed_block(key, block);
    aesni_allowed = 0;
}

static void mbed_cmac_ni(const uint8_t key[16], const uint8_t *message, size_t len, uint8_t tag[16])
{
    aesni_allowed = 1;
    mbed_cmac(key, message, len, tag);
    aesni_allowed = 0;
}

static void mbed_ctr_ni(const uint8_t key[16], const uint8_t iv[8], uint8_t *data, size_t len)
{
    aesni_allowed = 1;
    mbed_ctr(key, iv, data, len);
    aesni_allowed = 0;
}

/* ---- libtomcrypt, four T-tables; it has no code for AES instructions in this version. */

static int tom_aes;

static void tom_block(const uint8_t key[16], uint8_t block[16])
{
    symmetric_key c;
    rijndael_enc_setup(key, 16, 0, &c);
    rijndael_enc_ecb_encrypt(block, block, &c);
}

static void tom_cmac(const uint8_t key[16], const uint8_t *message, size_t len, uint8_t tag[16])
{
    unsigned long tag_len = 16;
    omac_memory(tom_aes, key, 16, message, (unsigned long)len, tag, &tag_len);
}

static void tom_ctr(const uint8_t key[16], const uint8_t iv[8], uint8_t *data, size_t len)
{
    symmetric_CTR c;
    uint8_t counter[16];
    counter_block(iv, counter);
    ctr_start(tom_aes, counter, key, 16, 0, CTR_COUNTER_BIG_ENDIAN, &c);
    ctr_encrypt(data, data, (unsigned long)len, &c);
    ctr_done(&c);
}

/* ---- BearSSL: "big" has one T-table as the library, "small" the S-box only, "ct64" is constant in time. It has CBC-MAC; CMAC is finished here. */

static void doubled(uint8_t b[16])
{
    uint8_t carry = b[0] >> 7;
    unsigned i;
    for (i = 0; i < 15; i++) {
        b[i] = (uint8_t)(b[i] << 1 | b[i + 1] >> 7);
    }
    b[15] = (uint8_t)(b[15] << 1 ^ carry * 0x87);
}

static void bear_cmac(const br_block_ctrcbc_class *aes, const uint8_t key[16], const uint8_t *message, size_t len, uint8_t tag[16])
{
    br_aes_gen_ctrcbc_keys c;
    size_t whole = len == 0 ? 0 : (len - 1) / 16 * 16, i;
    uint8_t subkey[16] = {0}, last[16] = {0}, zero[16] = {0};
    aes->init(&c.vtable, key, 16);
    aes->mac(&c.vtable, subkey, zero, 16);
    doubled(subkey);
    memcpy(last, message + whole, len - whole);
    if (len - whole < 16) {
        last[len - whole] = 0x80;
        doubled(subkey);
    }
    for (i = 0; i < 16; i++) {
        last[i] ^= subkey[i];
    }
    memset(tag, 0, 16);
    aes->mac(&c.vtable, tag, message, whole);
    aes->mac(&c.vtable, tag, last, 16);
}

static void bear_ctr(const br_block_ctrcbc_class *aes, const uint8_t key[16], const uint8_t iv[8], uint8_t *data, size_t len)
{
    br_aes_gen_ctrcbc_keys c;
    uint8_t counter[16], rest[16] = {0};
    size_t whole = len / 16 * 16;
    counter_block(iv, counter);
    aes->init(&c.vtable, key, 16);
    aes->ctr(&c.vtable, counter, data, whole);
    if (whole < len) {
        memcpy(rest, data + whole, len - whole);
        aes->ctr(&c.vtable, counter, rest, 16);
        memcpy(data + whole, rest, len - whole);
    }
}

static void bear_block(const br_block_ctrcbc_class *aes, const uint8_t key[16], uint8_t block[16])
{
    br_aes_gen_ctrcbc_keys c;
    uint8_t chain[16] = {0};
    aes->init(&c.vtable, key, 16);
    aes->mac(&c.vtable, chain, block, 16);
    memcpy(block, chain, 16);
}

#define BEAR(kind)                                                                                                      \
    static void bear_##kind##_block(const uint8_t key[16], uint8_t block[16])                                           \
    {                                                                                                                   \
        bear_block(&br_aes_##kind##_ctrcbc_vtable, key, block);                                                         \
    }                                                                                                                   \
    static void bear_##kind##_cmac(const uint8_t key[16], const uint8_t *message, size_t len, uint8_t tag[16])          \
    {                                                                                                                   \
        bear_cmac(&br_aes_##kind##_ctrcbc_vtable, key, message, len, tag);                                              \
    }                                                                                                                   \
    static void bear_##kind##_ctr(const uint8_t key[16], const uint8_t iv[8], uint8_t *data, size_t len)                \
    {                                                                                                                   \
        bear_ctr(&br_aes_##kind##_ctrcbc_vtable, key, iv, data, len);                                                   \
    }

BEAR(big)
BEAR(small)
BEAR(ct64)

/* ---- OpenSSL, with AES instructions where the machine has them. Contexts are made once, since making one costs more than the work. */

static EVP_CIPHER_CTX *ecb, *ctr;
static EVP_MAC_CTX *mac;

static void openssl_start(void)
{
    static char cipher[] = "AES-128-CBC";
    static const uint8_t key[16];
    OSSL_PARAM params[2];
    EVP_MAC *algorithm = EVP_MAC_fetch(NULL, "CMAC", NULL);
    params[0] = OSSL_PARAM_construct_utf8_string(OSSL_MAC_PARAM_CIPHER, cipher, 0);
    params[1] = OSSL_PARAM_construct_end();
    mac = EVP_MAC_CTX_new(algorithm);
    EVP_MAC_init(mac, key, 16, params);
    EVP_MAC_free(algorithm);
    ecb = EVP_CIPHER_CTX_new();
    EVP_EncryptInit_ex(ecb, EVP_aes_128_ecb(), NULL, key, NULL);
    EVP_CIPHER_CTX_set_padding(ecb, 0);
    ctr = EVP_CIPHER_CTX_new();
    EVP_EncryptInit_ex(ctr, EVP_aes_128_ctr(), NULL, key, key);
}

static void openssl_block(const uint8_t key[16], uint8_t block[16])
{
    int n;
    EVP_EncryptInit_ex(ecb, NULL, NULL, key, NULL);
    EVP_EncryptUpdate(ecb, block, &n, block, 16);
}

static void openssl_cmac(const uint8_t key[16], const uint8_t *message, size_t len, uint8_t tag[16])
{
    size_t n;
    EVP_MAC_init(mac, key, 16, NULL);
    EVP_MAC_update(mac, message, len);
    EVP_MAC_final(mac, tag, &n, 16);
}

static void openssl_ctr(const uint8_t key[16], const uint8_t iv[8], uint8_t *data, size_t len)
{
    uint8_t counter[16];
    int n;
    counter_block(iv, counter);
    EVP_EncryptInit_ex(ctr, NULL, NULL, key, counter);
    EVP_EncryptUpdate(ctr, data, &n, data, (int)len);
}

const struct peer PEERS[] = {
    [PEER_FIRST] = {"Mbed TLS, AES-NI off", mbed_block, mbed_cmac, mbed_ctr, 0},
    [PEER_OURS] = {"**securestore**", securestore_aes128_encrypt, securestore_cmac, securestore_ctr, securestore_derive},
    [PEER_PLAIN] = {"plain C of the same tables", plain_block, plain_cmac, plain_ctr, plain_derive},
    {"libtomcrypt", tom_block, tom_cmac, tom_ctr, 0},
    {"BearSSL big", bear_big_block, bear_big_cmac, bear_big_ctr, 0},
    {"BearSSL small", bear_small_block, bear_small_cmac, bear_small_ctr, 0},
    {"BearSSL ct64", bear_ct64_block, bear_ct64_cmac, bear_ct64_ctr, 0},
    {"Mbed TLS, AES-NI", mbed_block_ni, mbed_cmac_ni, mbed_ctr_ni, 0},
    {"OpenSSL, AES-NI", openssl_block, openssl_cmac, openssl_ctr, 0},
};
const size_t PEER_COUNT = sizeof PEERS / sizeof PEERS[0];

void peers_start(void)
{
    tom_aes = register_cipher(&aes_enc_desc);
    openssl_start();
    plain_start();
}
