/* AES-128 with one table of 256 words and the S-box, as the proved cipher has it; CMAC, counter mode and derivation block by block. */
#include <string.h>

#include "plain.h"

static uint8_t sbox[256];
static uint32_t mix[256];

static uint8_t times2(uint8_t x)
{
    return (uint8_t)(x << 1 ^ (x >> 7) * 0x1b);
}

static uint8_t rotated(uint8_t x, unsigned n)
{
    return (uint8_t)(x << n | x >> (8 - n));
}

/* p runs through the powers of 3, q through those of its inverse. */
void plain_start(void)
{
    uint8_t p = 1, q = 1;
    unsigned i;
    do {
        p = (uint8_t)(p ^ times2(p));
        q ^= (uint8_t)(q << 1);
        q ^= (uint8_t)(q << 2);
        q ^= (uint8_t)(q << 4);
        q ^= (uint8_t)((q >> 7) * 0x09);
        sbox[p] = (uint8_t)(q ^ rotated(q, 1) ^ rotated(q, 2) ^ rotated(q, 3) ^ rotated(q, 4) ^ 0x63);
    } while (p != 1);
    sbox[0] = 0x63;
    for (i = 0; i < 256; i++) {
        uint32_t s = sbox[i], d = times2(sbox[i]);
        mix[i] = d << 24 | s << 16 | s << 8 | (s ^ d);
    }
}

static uint32_t load(const uint8_t *p)
{
    return (uint32_t)p[0] << 24 | (uint32_t)p[1] << 16 | (uint32_t)p[2] << 8 | p[3];
}

static void store(uint8_t *p, uint32_t x)
{
    p[0] = (uint8_t)(x >> 24);
    p[1] = (uint8_t)(x >> 16);
    p[2] = (uint8_t)(x >> 8);
    p[3] = (uint8_t)x;
}

static uint32_t right(uint32_t x, unsigned n)
{
    return x >> n | x << (32 - n);
}

static uint32_t substituted(uint32_t a, uint32_t b, uint32_t c, uint32_t d)
{
    return (uint32_t)sbox[a >> 24] << 24 | (uint32_t)sbox[b >> 16 & 255] << 16 | (uint32_t)sbox[c >> 8 & 255] << 8 | sbox[d & 255];
}

static uint32_t mixed(uint32_t a, uint32_t b, uint32_t c, uint32_t d)
{
    return mix[a >> 24] ^ right(mix[b >> 16 & 255], 8) ^ right(mix[c >> 8 & 255], 16) ^ right(mix[d & 255], 24);
}

static void expand(const uint8_t key[16], uint32_t k[44])
{
    uint32_t rcon = 1;
    unsigned i;
    for (i = 0; i < 4; i++) {
        k[i] = load(key + 4 * i);
    }
    for (; i < 44; i += 4) {
        uint32_t t = k[i - 1] << 8 | k[i - 1] >> 24;
        k[i] = k[i - 4] ^ substituted(t, t, t, t) ^ rcon << 24;
        k[i + 1] = k[i - 3] ^ k[i];
        k[i + 2] = k[i - 2] ^ k[i + 1];
        k[i + 3] = k[i - 1] ^ k[i + 2];
        rcon = times2((uint8_t)rcon);
    }
}

static void encrypt(const uint32_t k[44], const uint8_t in[16], uint8_t out[16])
{
    uint32_t a = load(in) ^ k[0], b = load(in + 4) ^ k[1], c = load(in + 8) ^ k[2], d = load(in + 12) ^ k[3];
    unsigned r;
    for (r = 1; r < 10; r++) {
        uint32_t e = mixed(a, b, c, d) ^ k[4 * r], f = mixed(b, c, d, a) ^ k[4 * r + 1];
        uint32_t g = mixed(c, d, a, b) ^ k[4 * r + 2], h = mixed(d, a, b, c) ^ k[4 * r + 3];
        a = e;
        b = f;
        c = g;
        d = h;
    }
    store(out, substituted(a, b, c, d) ^ k[40]);
    store(out + 4, substituted(b, c, d, a) ^ k[41]);
    store(out + 8, substituted(c, d, a, b) ^ k[42]);
    store(out + 12, substituted(d, a, b, c) ^ k[43]);
}

void plain_block(const uint8_t key[16], uint8_t block[16])
{
    uint32_t k[44];
    expand(key, k);
    encrypt(k, block, block);
}

static void xor_bytes(uint8_t *to, const uint8_t *from, size_t n)
{
    size_t i;
    for (i = 0; i < n; i++) {
        to[i] ^= from[i];
    }
}

static void doubled(uint8_t b[16])
{
    uint8_t carry = b[0] >> 7;
    unsigned i;
    for (i = 0; i < 15; i++) {
        b[i] = (uint8_t)(b[i] << 1 | b[i + 1] >> 7);
    }
    b[15] = (uint8_t)(b[15] << 1 ^ carry * 0x87);
}

void plain_cmac(const uint8_t key[16], const uint8_t *message, size_t len, uint8_t tag[16])
{
    uint32_t k[44];
    uint8_t subkey[16] = {0}, block[16] = {0};
    expand(key, k);
    encrypt(k, subkey, subkey);
    doubled(subkey);
    while (16 < len) {
        xor_bytes(block, message, 16);
        encrypt(k, block, block);
        message += 16;
        len -= 16;
    }
    xor_bytes(block, message, len);
    if (len < 16) {
        block[len] ^= 0x80;
        doubled(subkey);
    }
    xor_bytes(block, subkey, 16);
    encrypt(k, block, tag);
}

void plain_ctr(const uint8_t key[16], const uint8_t iv[8], uint8_t *data, size_t len)
{
    uint32_t k[44], count = 0;
    uint8_t counter[16] = {0}, stream[16];
    expand(key, k);
    memcpy(counter, iv, 8);
    while (0 < len) {
        size_t n = len < 16 ? len : 16;
        store(counter + 12, count++);
        encrypt(k, counter, stream);
        xor_bytes(data, stream, n);
        data += n;
        len -= n;
    }
}

void plain_derive(const uint8_t key[16], const uint8_t *prefix, size_t prefix_len, const uint8_t *name, size_t name_len, uint8_t out[16])
{
    uint8_t message[38] = {1};
    size_t p = prefix_len < 32 ? prefix_len : 32, n = name_len < 32 - p ? name_len : 32 - p;
    memcpy(message + 1, prefix, p);
    memcpy(message + 1 + p, name, n);
    message[1 + p + n + 4] = 0x80;
    plain_cmac(key, message, 1 + p + n + 5, out);
}
