/* Holds what securestore.h says of mixes against the library: the bytes, the ranges of level and pan at every edge, every refusal in its order and what it
 * leaves, that store_mix is one securestore_set, and that find_mix answers as going over the records by iterator_next, get and decode_mix does.
 * Compiled as C99 and as C++. The last line is 'N passed, M failed'. */
#include <string.h>

#include "expect.h"
#include "securestore.h"
#include "slots.h"

#define SLOTS 5u
#define CARD (SLOTS * SECURESTORE_KV_SLOT_SIZE)
#define CHIP (SLOTS * SECURESTORE_RBP_SLOT_SIZE)
#define BUF (2 * SECURESTORE_MIX_MAX)
#define ENTRIES 20u

#if SECURESTORE_MIX_MAX != SECURESTORE_MIX_HEADER + SECURESTORE_MIX_SENDS_MAX * SECURESTORE_SEND_SIZE || SECURESTORE_SEND_LEVEL_PAN != 2
#error "the sizes of a mix do not fit"
#endif

/* All that is lent to be written, with bytes between that no call may touch, and room for buffers and arrays that are too long. */
struct lent {
    uint8_t guard0[3], kv[CARD + 1], guard1, rbp[CHIP + 1], guard2, mix_buf[BUF], guard3[3], tags[ENTRIES], guard4[4];
    float levels[ENTRIES];
    uint8_t guard5[4];
    float pans[ENTRIES];
    uint8_t guard6[4];
    uint64_t session_id;
    size_t count;
};
static struct lent now, before;

static const uint8_t KEY[17] = {0x2b, 0x7e, 0x15, 0x16, 0x28, 0xae, 0xd2, 0xa6, 0xab, 0xf7, 0x15, 0x88, 0x09, 0xcf, 0x4f, 0x3c, 0x55};
static const uint8_t IV[9] = {'t', 'h', 'e', ' ', 'i', 'v', ' ', '8', '!'};

/* All flags that a set accepts. */
static const uint32_t FLAGS[] = {0, 1, 2, 3, 4, 5, 6, 7, 12, 13, 14, 15};

static uint32_t next_random(void)
{
    static uint32_t state = 1;
    state = state * 1664525u + 1013904223u;
    return state >> 8;
}

/* By bytes, so that nothing is done to a float, and what stands between the fields is compared too. */
static void remember(void)
{
    memcpy(&before, &now, sizeof now);
}

static int unchanged(void)
{
    return memcmp(&now, &before, sizeof now) == 0;
}

/* Whether a refusal of a call that gives these numbers has changed nothing else and made them 0. */
static int only_zeros(int session_too)
{
    before.count = 0;
    before.session_id = session_too ? 0 : before.session_id;
    return unchanged();
}

/* Card and chip all zero, everything else filled with something. */
static void blank(void)
{
    memset(&now, 0xee, sizeof now);
    memset(now.kv, 0, CARD);
    memset(now.rbp, 0, CHIP);
}

static void put_bits(float *at, uint32_t bits)
{
    memcpy(at, &bits, sizeof bits);
}

static uint32_t bits_at(const float *at)
{
    uint32_t bits;
    memcpy(&bits, at, sizeof bits);
    return bits;
}

static void put_number(uint8_t *at, size_t width, uint64_t number)
{
    size_t i;
    for (i = 0; i < width; i++) {
        at[i] = (uint8_t)(number >> (8 * i));
    }
}

/* A send's nine bytes. */
static void put_send(uint8_t *mix, size_t i, unsigned tag, uint32_t level, uint32_t pan)
{
    uint8_t *send = mix + SECURESTORE_MIX_HEADER + i * SECURESTORE_SEND_SIZE;
    send[0] = (uint8_t)tag;
    put_number(send + 1, 4, level);
    put_number(send + 5, 4, pan);
}

/* Session number and sends, all muted. */
static size_t put_mix(uint8_t *mix, uint64_t session_id, size_t sends)
{
    memset(mix, 0, SECURESTORE_MIX_MAX);
    put_number(mix, 8, session_id);
    mix[8] = (uint8_t)sends;
    return SECURESTORE_MIX_HEADER + sends * SECURESTORE_SEND_SIZE;
}

/* The calls, with lengths as they should be. */
static securestore_status encode(uint64_t session_id, size_t sends)
{
    return securestore_encode_mix(session_id, now.tags, sends, now.levels, sends, now.pans, sends, now.mix_buf, SECURESTORE_MIX_MAX, &now.count);
}

static securestore_status decode(const uint8_t *mix, size_t mix_len)
{
    return securestore_decode_mix(mix, mix_len, &now.session_id, now.tags, 16, now.levels, 16, now.pans, 16, &now.count);
}

static securestore_status store(const char *name, uint32_t flags, const uint8_t *mix, size_t mix_len)
{
    return securestore_store_mix(now.kv, CARD, now.rbp, CHIP, KEY, 16, (const uint8_t *)name, strlen(name), flags, IV, 8, mix, mix_len);
}

static securestore_status set(const char *name, uint32_t flags, const uint8_t *data, size_t len)
{
    return securestore_set(now.kv, CARD, now.rbp, CHIP, KEY, 16, (const uint8_t *)name, strlen(name), flags, IV, 8, data, len);
}

static securestore_status get(const char *name, uint8_t *output, size_t *count)
{
    return securestore_get(now.kv, CARD, now.rbp, CHIP, KEY, 16, (const uint8_t *)name, strlen(name), 0, output, SECURESTORE_DATA_MAX, count);
}

static securestore_status remove_named(const char *name)
{
    return securestore_remove(now.kv, CARD, now.rbp, CHIP, (const uint8_t *)name, strlen(name));
}

static securestore_status find(uint64_t session_id)
{
    return securestore_find_mix(now.kv, CARD, now.rbp, CHIP, KEY, 16, session_id, now.mix_buf, SECURESTORE_MIX_MAX, &now.count);
}

/* A find, with what it must answer and leave: the mix, or nothing. */
static void expect_find(uint64_t session_id, securestore_status want, const uint8_t *mix, size_t mix_len, const char *what)
{
    remember();
    expect_status(find(session_id), want, what);
    if (want == SECURESTORE_OK) {
        memcpy(before.mix_buf, mix, mix_len);
        before.count = mix_len;
        expect(unchanged(), "find_mix: the record's bytes at the front, all else as before");
    } else {
        expect(only_zeros(0), "find_mix: a refusal gives count 0 and changes nothing");
    }
}

/* ---- bytes of a mix */

/* Every byte of a mix, written out, with fields that are all unlike. */
static void test_bytes(void)
{
    static const uint8_t want[] = {0xf8, 0xe7, 0xd6, 0xc5, 0xb4, 0xa3, 0x92, 0x81, 4,    2, 0x00, 0x00, 0x60, 0x40, 0x00, 0x00, 0x80, 0xbe, 0,    0, 0, 0, 0,
                                   0,    0,    0,    0,    1,    0xcd, 0xcc, 0xcc, 0x3d, 0, 0,    0,    0,    2,    0x00, 0x00, 0x00, 0x80, 0x01, 0, 0, 0x80};
    const uint64_t session_id = (uint64_t)0x8192a3b4u << 32 | 0xc5d6e7f8u;
    blank();
    now.tags[0] = SECURESTORE_SEND_LEVEL_PAN;
    now.levels[0] = 3.5f;
    now.pans[0] = -0.25f;
    now.tags[1] = SECURESTORE_SEND_MUTED;
    now.tags[2] = SECURESTORE_SEND_LEVEL;
    now.levels[2] = 0.1f;
    now.tags[3] = SECURESTORE_SEND_LEVEL_PAN;
    put_bits(&now.levels[3], 0x80000000u);
    put_bits(&now.pans[3], 0x80000001u);
    remember();
    expect_status(encode(session_id, 4), SECURESTORE_OK, "bytes: encode_mix");
    memcpy(before.mix_buf, want, sizeof want);
    before.count = sizeof want;
    expect(sizeof want == SECURESTORE_MIX_HEADER + 4 * SECURESTORE_SEND_SIZE && unchanged(), "bytes: the 45 bytes, and nothing else is written");
    blank();
    remember();
    expect_status(decode(want, sizeof want), SECURESTORE_OK, "bytes: decode_mix");
    before.session_id = session_id;
    before.count = 4;
    before.tags[0] = before.tags[3] = 2;
    before.tags[1] = 0;
    before.tags[2] = 1;
    before.levels[0] = 3.5f;
    before.levels[2] = 0.1f;
    before.pans[0] = -0.25f;
    put_bits(&before.levels[1], 0);
    put_bits(&before.pans[1], 0);
    put_bits(&before.pans[2], 0);
    put_bits(&before.levels[3], 0x80000000u);
    put_bits(&before.pans[3], 0x80000001u);
    expect(unchanged(), "bytes: four entries of each array, and nothing else is written");
}

/* Each number of sends, and session numbers in which each byte has its turn. */
static void test_counts(void)
{
    size_t sends, i, shift;
    for (sends = 0; sends <= 16; sends++) {
        for (shift = 0; shift < 64; shift += 7) {
            const uint64_t session_id = sends % 2 ? (uint64_t)1 << shift : ~((uint64_t)1 << shift);
            uint8_t want[SECURESTORE_MIX_MAX];
            const size_t len = put_mix(want, session_id, sends);
            blank();
            for (i = 0; i < sends; i++) {
                now.tags[i] = (uint8_t)((i + shift) % 3);
                put_bits(&now.levels[i], 0x3f000000u + (uint32_t)i);
                put_bits(&now.pans[i], 0xbf000000u + (uint32_t)i);
                put_send(want, i, now.tags[i], now.tags[i] ? bits_at(&now.levels[i]) : 0, now.tags[i] == 2 ? bits_at(&now.pans[i]) : 0);
            }
            remember();
            expect_status(encode(session_id, sends), SECURESTORE_OK, "counts: encode_mix");
            memcpy(before.mix_buf, want, len);
            before.count = len;
            expect(unchanged(), "counts: 9 bytes and 9 for each send");
            for (i = 0; i < sends; i++) {
                put_bits(&before.levels[i], before.tags[i] ? bits_at(&before.levels[i]) : 0);
                put_bits(&before.pans[i], before.tags[i] == 2 ? bits_at(&before.pans[i]) : 0);
            }
            memset(now.tags, 0xee, sends);
            memset(now.levels, 0xee, sends * sizeof(float));
            memset(now.pans, 0xee, sends * sizeof(float));
            before.session_id = session_id;
            before.count = sends;
            expect_status(decode(want, len), SECURESTORE_OK, "counts: decode_mix");
            expect(unchanged(), "counts: as many entries as there are sends");
        }
    }
}

/* Lengths of buffer and arrays about their bounds, each with each: 1, then 20 for more than 16 sends or a bad tag. */
static void test_encode_lengths(void)
{
    static const size_t bufs[] = {0, 9, 18, 152, 153, 154, BUF}, lens[] = {0, 1, 15, 16, 17, 20};
    size_t b, t, l, p, bad;
    for (b = 0; b < COUNT_OF(bufs); b++) {
        for (t = 0; t < COUNT_OF(lens); t++) {
            for (l = 0; l < COUNT_OF(lens); l++) {
                for (p = 0; p < COUNT_OF(lens); p++) {
                    for (bad = 0; bad < 2; bad++) {
                        securestore_status want = lens[t] > 16 || (bad && lens[t] > 0) ? SECURESTORE_ERR_INVALID_MIX : SECURESTORE_OK;
                        want = bufs[b] < 153 || l != t || p != t ? SECURESTORE_ERR_LENGTH : want;
                        blank();
                        memset(now.tags, 0, sizeof now.tags);
                        now.tags[0] = bad ? 3 : 0;
                        remember();
                        expect_status(securestore_encode_mix(7, now.tags, lens[t], now.levels, lens[l], now.pans, lens[p], now.mix_buf, bufs[b], &now.count),
                                      want, "encode_mix: lengths");
                        if (want == SECURESTORE_OK) {
                            before.count = put_mix(now.mix_buf + SECURESTORE_MIX_MAX, 7, lens[t]);
                            memcpy(before.mix_buf, now.mix_buf + SECURESTORE_MIX_MAX, before.count);
                            memset(now.mix_buf + SECURESTORE_MIX_MAX, 0xee, SECURESTORE_MIX_MAX);
                            expect(unchanged(), "encode_mix: the rest of a longer buffer is as before");
                        } else {
                            expect(only_zeros(0), "encode_mix: a refusal gives count 0 and changes nothing");
                        }
                    }
                }
            }
        }
    }
}

/* Arrays of fewer than 16 entries are 1, however few sends there are and whatever the bytes are; longer ones are not looked at behind the sends. */
static void test_decode_lengths(void)
{
    static const size_t lens[] = {0, 1, 15, 16, 17, ENTRIES};
    uint8_t mix[SECURESTORE_MIX_MAX];
    const size_t good_len = put_mix(mix, 9, 1), mix_lens[] = {good_len, good_len - 1, 8, 0, SECURESTORE_MIX_MAX};
    size_t t, l, p, m;
    for (t = 0; t < COUNT_OF(lens); t++) {
        for (l = 0; l < COUNT_OF(lens); l++) {
            for (p = 0; p < COUNT_OF(lens); p++) {
                for (m = 0; m < COUNT_OF(mix_lens); m++) {
                    const int short_one = lens[t] < 16 || lens[l] < 16 || lens[p] < 16;
                    const securestore_status want = short_one ? SECURESTORE_ERR_LENGTH : m > 0 ? SECURESTORE_ERR_INVALID_MIX : SECURESTORE_OK;
                    blank();
                    remember();
                    expect_status(securestore_decode_mix(mix, mix_lens[m], &now.session_id, now.tags, lens[t], now.levels, lens[l], now.pans, lens[p],
                                                         &now.count),
                                  want, "decode_mix: lengths");
                    if (want == SECURESTORE_OK) {
                        before.session_id = 9;
                        before.count = 1;
                        before.tags[0] = 0;
                        before.levels[0] = before.pans[0] = 0.0f;
                        expect(unchanged(), "decode_mix: one entry of each array");
                    } else {
                        expect(only_zeros(1), "decode_mix: a refusal gives zeros and changes nothing else");
                    }
                }
            }
        }
    }
}

/* Bytes of this count and length whose sends are all muted; store_mix tests the same, before the name. */
static void expect_count_and_length(unsigned count, size_t len)
{
    const int good = len >= 9 && count <= 16 && len == 9 + 9 * count;
    static uint8_t mix[9 + 9 * 256];
    mix[0] = 5;
    mix[8] = (uint8_t)count;
    blank();
    remember();
    expect_status(decode(mix, len), good ? SECURESTORE_OK : SECURESTORE_ERR_INVALID_MIX, "length: decode_mix");
    expect(good ? now.session_id == 5 && now.count == count : only_zeros(1), "length: session number and sends, or zeros");
    blank();
    remember();
    expect_status(store("mixed", 14, mix, len), good ? SECURESTORE_ERR_INVALID_NAME : SECURESTORE_ERR_INVALID_MIX, "length: store_mix");
    expect(unchanged(), "length: store_mix changes nothing");
}

/* Every count with every length of up to 200, and with those about the length that it asks for. */
static void test_count_and_length(void)
{
    unsigned count;
    size_t len;
    for (count = 0; count < 256; count++) {
        for (len = 0; len <= 200; len++) {
            expect_count_and_length(count, len);
        }
        for (len = 0; len <= 9; len++) {
            expect_count_and_length(count, 5 + 9 * count + len);
        }
    }
}

/* Every tag, in every send: of floats, and of bytes that are zero behind it. */
static void test_tags(void)
{
    uint8_t mix[SECURESTORE_MIX_MAX];
    unsigned tag;
    size_t i;
    for (tag = 0; tag < 256; tag++) {
        for (i = 0; i < 16; i++) {
            const securestore_status want = tag <= 2 ? SECURESTORE_OK : SECURESTORE_ERR_INVALID_MIX;
            const size_t len = put_mix(mix, 1, 16);
            put_send(mix, i, tag, 0, 0);
            blank();
            memset(now.tags, 0, sizeof now.tags);
            now.tags[i] = (uint8_t)tag;
            now.levels[i] = now.pans[i] = 0.0f;
            remember();
            expect_status(encode(1, 16), want, "tags: encode_mix");
            expect(want == SECURESTORE_OK ? now.count == len && memcmp(now.mix_buf, mix, len) == 0 : only_zeros(0), "tags: bytes, or nothing");
            blank();
            remember();
            expect_status(decode(mix, len), want, "tags: decode_mix");
            expect(want == SECURESTORE_OK ? now.tags[i] == tag && now.count == 16 : only_zeros(1), "tags: tag, or nothing");
        }
    }
}

/* ---- ranges */

/* Levels and pans about their ends, by their bits: beside each end the next float to either side. */
static const struct {
    uint32_t bits;
    int level, pan;
    const char *what;
} EDGES[] = {
    {0x00000000u, 1, 1, "0"},
    {0x80000000u, 1, 1, "-0"},
    {0x00000001u, 1, 1, "the least float over 0"},
    {0x80000001u, 0, 1, "the greatest float under 0"},
    {0x007fffffu, 1, 1, "the greatest subnormal"},
    {0x807fffffu, 0, 1, "the least subnormal"},
    {0x00800000u, 1, 1, "the least normal over 0"},
    {0x80800000u, 0, 1, "the greatest normal under 0"},
    {0x3f7fffffu, 1, 1, "the float before 1"},
    {0x3f800000u, 1, 1, "1"},
    {0x3f800001u, 1, 0, "the float after 1"},
    {0xbf7fffffu, 0, 1, "the float after -1"},
    {0xbf800000u, 0, 1, "-1"},
    {0xbf800001u, 0, 0, "the float before -1"},
    {0x407fffffu, 1, 0, "the float before 4"},
    {0x40800000u, 1, 0, "4"},
    {0x40800001u, 0, 0, "the float after 4"},
    {0xc0800000u, 0, 0, "-4"},
    {0x7f7fffffu, 0, 0, "the greatest float"},
    {0xff7fffffu, 0, 0, "the least float"},
    {0x7f800000u, 0, 0, "infinity"},
    {0xff800000u, 0, 0, "-infinity"},
    {0x7fc00000u, 0, 0, "a quiet NaN"},
    {0xffc00000u, 0, 0, "a quiet NaN with a sign"},
    {0x7f800001u, 0, 0, "a signaling NaN"},
    {0xff800001u, 0, 0, "a signaling NaN with a sign"},
    {0x7fbfffffu, 0, 0, "a signaling NaN, all bits"},
    {0x7fffffffu, 0, 0, "a NaN of all bits"},
    {0xffffffffu, 0, 0, "a NaN of all bits with a sign"},
    {0x7fd00dadu, 0, 0, "a NaN that carries something"},
};

/* One send of two, by floats and by bytes: whether it is accepted, and that its bits survive both ways. */
static void expect_send(size_t i, unsigned tag, uint32_t level, uint32_t pan, int good, const char *what)
{
    const securestore_status want = good ? SECURESTORE_OK : SECURESTORE_ERR_INVALID_MIX;
    uint8_t mix[SECURESTORE_MIX_MAX];
    const size_t len = put_mix(mix, 3, i + 1);
    put_send(mix, i, tag, tag > 0 ? level : 0, tag > 1 ? pan : 0);
    memset(now.mix_buf, 0xee, BUF);
    memset(now.tags, 0, sizeof now.tags);
    now.tags[i] = (uint8_t)tag;
    put_bits(&now.levels[i], level);
    put_bits(&now.pans[i], pan);
    remember();
    expect_status(encode(3, i + 1), want, what);
    expect(good ? now.count == len && memcmp(now.mix_buf, mix, len) == 0 : only_zeros(0), "ranges: encode_mix keeps the bits, or writes nothing");
    memset(now.tags, 0xee, sizeof now.tags);
    memset(now.levels, 0xee, sizeof now.levels);
    memset(now.pans, 0xee, sizeof now.pans);
    remember();
    expect_status(decode(mix, len), want, what);
    expect(good ? now.tags[i] == tag && bits_at(&now.levels[i]) == (tag > 0 ? level : 0) && bits_at(&now.pans[i]) == (tag > 1 ? pan : 0) : only_zeros(1),
           "ranges: decode_mix gives the bits, or nothing");
}

/* Each edge as level and as pan, in the first, a middle and the last send; what a send has not may be any float. */
static void test_edges(void)
{
    static const size_t at[] = {0, 7, 15};
    size_t i, j, s;
    blank();
    for (i = 0; i < COUNT_OF(EDGES); i++) {
        for (s = 0; s < COUNT_OF(at); s++) {
            expect_send(at[s], 1, EDGES[i].bits, 0, EDGES[i].level, EDGES[i].what);
            for (j = 0; j < COUNT_OF(EDGES); j++) {
                expect_send(at[s], 0, EDGES[i].bits, EDGES[j].bits, 1, "ranges: muted, and neither level nor pan is looked at");
                expect_send(at[s], 1, EDGES[i].bits, EDGES[j].bits, EDGES[i].level, "ranges: a level, and no pan is looked at");
                expect_send(at[s], 2, EDGES[i].bits, EDGES[j].bits, EDGES[i].level && EDGES[j].pan, "ranges: level and pan");
            }
        }
    }
}

/* All upper halves of a float's bits with some lower ones, judged as C compares floats: a NaN is neither over nor under anything. */
static void test_sweep(void)
{
    static const uint32_t lower[] = {0, 1, 0x8000, 0xffff};
    uint32_t upper;
    size_t l;
    blank();
    for (upper = 0; upper < 65536; upper++) {
        for (l = 0; l < COUNT_OF(lower); l++) {
            const uint32_t bits = upper << 16 | lower[l];
            float x;
            put_bits(&x, bits);
            expect_send(0, 1, bits, 0, x >= 0.0f && x <= 4.0f, "ranges: sweep of levels");
            expect_send(0, 2, 0x3f800000u, bits, x >= -1.0f && x <= 1.0f, "ranges: sweep of pans");
        }
    }
}

/* Bytes of what a send has not: any bit there is refused, that of minus zero too. */
static void test_unused_bytes(void)
{
    uint8_t mix[SECURESTORE_MIX_MAX];
    size_t i, bit;
    for (i = 0; i < 16; i++) {
        unsigned tag;
        for (tag = 0; tag <= 1; tag++) {
            for (bit = 8 + 32 * tag; bit < 72; bit++) {
                const size_t len = put_mix(mix, 2, 16);
                put_send(mix, i, tag, 0, 0);
                mix[SECURESTORE_MIX_HEADER + i * SECURESTORE_SEND_SIZE + bit / 8] ^= (uint8_t)(1u << bit % 8);
                blank();
                remember();
                expect_status(decode(mix, len), SECURESTORE_ERR_INVALID_MIX, "unused bytes: decode_mix");
                expect(only_zeros(1), "unused bytes: a refusal gives zeros and changes nothing else");
                expect_status(store("mix/1", 14, mix, len), SECURESTORE_ERR_INVALID_MIX, "unused bytes: store_mix");
            }
        }
    }
}

/* A mix of some session, number of sends, tags, levels and pans in range. */
static size_t random_mix(uint8_t *mix, uint64_t session_id)
{
    const size_t sends = next_random() % 17, len = put_mix(mix, session_id, sends);
    size_t i;
    for (i = 0; i < sends; i++) {
        const unsigned tag = next_random() % 3;
        const uint32_t level = next_random() % 8 ? next_random() * 64u % 0x40800001u : 0x80000000u;
        const uint32_t pan = next_random() * 64u % 0x3f800001u + (next_random() % 2) * 0x80000000u;
        put_send(mix, i, tag, tag > 0 ? level : 0, tag > 1 ? pan : 0);
    }
    return len;
}

/* A mix has one encoding: bytes that are accepted are those that encode_mix makes of what decode_mix gave. Many have a bit changed. */
static void test_one_encoding(void)
{
    unsigned round, accepted = 0;
    for (round = 0; round < 200000; round++) {
        uint8_t mix[SECURESTORE_MIX_MAX];
        const size_t len = random_mix(mix, next_random());
        const unsigned changed = next_random() % 2;
        if (changed) {
            mix[next_random() % len] ^= (uint8_t)(1u << next_random() % 8);
        }
        if (decode(mix, len) == SECURESTORE_OK) {
            accepted++;
            expect_status(encode(now.session_id, now.count), SECURESTORE_OK, "one encoding: encode_mix");
            expect(now.count == len && memcmp(now.mix_buf, mix, len) == 0, "one encoding: the same bytes");
        } else {
            expect(changed, "one encoding: a mix is refused");
        }
    }
    expect(accepted > 100000 && accepted < 190000, "one encoding: some of both");
}

/* ---- store_mix */

/* Both are run on the same card and chip: a done or refused store_mix is a set of the bytes. */
static void expect_one_set(const char *name, uint32_t flags, const uint8_t *mix, size_t len, const char *what)
{
    static struct lent other;
    securestore_status want;
    memcpy(&other, &now, sizeof now);
    want = securestore_set(other.kv, CARD, other.rbp, CHIP, KEY, 16, (const uint8_t *)name, strlen(name), flags, IV, 8, mix, len);
    expect_status(store(name, flags, mix, len), want, what);
    expect(memcmp(&now, &other, sizeof now) == 0, "store_mix: card and chip as after one set, all else as before");
}

/* Names with "mix/" in front: a set, whatever it answers. "mix/" itself is such a name, and of 65 bytes or with a bad byte it is 3 as in a set. */
static void test_store_is_set(void)
{
    static const char *const names[] = {"mix/", "mix/1", "mix/2", "mix//", "mix/mix/", "mix/Fl\xf6te", "mix/ ", "mix/\t", "mix/\x7f",
                                        "mix/567890123456789012345678901234567890123456789012345678901234",
                                        "mix/5678901234567890123456789012345678901234567890123456789012345"};
    unsigned round;
    blank();
    for (round = 0; round < 4000; round++) {
        const char *name = names[next_random() % COUNT_OF(names)];
        uint8_t mix[SECURESTORE_MIX_MAX];
        const size_t len = random_mix(mix, next_random());
        const uint32_t flags = next_random() % 8 ? FLAGS[next_random() % COUNT_OF(FLAGS)] : next_random() % 20;
        expect_one_set(name, flags, mix, len, "store_mix: as set");
        switch (next_random() % 8) {
        case 0:
            (void)remove_named(names[next_random() % COUNT_OF(names)]);
            break;
        case 1:
            take_out(&ON_CARD, now.kv, CARD, next_random() % SLOTS * SECURESTORE_KV_SLOT_SIZE);
            break;
        case 2:
            blank();
            break;
        }
    }
}

/* Without "mix/" in front: 3, and nothing changes. */
static void test_other_names(void)
{
    static const char *const names[] = {"", "m", "mi", "mix", "mix.", "mix\\1", "Mix/1", "MIX/1", "mIx/1", "miX/1", " mix/1", "/mix/1", "xmix/1", "mixx/1",
                                        "min/1", "max/1", "nix/1", "mix0", "player/1"};
    uint8_t mix[SECURESTORE_MIX_MAX];
    size_t i;
    const size_t len = put_mix(mix, 1, 2);
    for (i = 0; i < COUNT_OF(names); i++) {
        blank();
        remember();
        expect_status(store(names[i], 14, mix, len), SECURESTORE_ERR_INVALID_NAME, "other names: store_mix");
        expect_status(store(names[i], 16, mix, len), SECURESTORE_ERR_INVALID_NAME, "other names: before the flags");
        expect_status(store(names[i], 14, mix, len - 1), SECURESTORE_ERR_INVALID_MIX, "other names: after the bytes");
        expect(unchanged(), "other names: nothing is changed");
    }
}

/* 20, then 3 for "mix/", before 1; then the order of a set. */
static void test_store_order(void)
{
    static const securestore_status order[] = {SECURESTORE_ERR_INVALID_MIX,   SECURESTORE_ERR_INVALID_NAME,   SECURESTORE_ERR_LENGTH,
                                               SECURESTORE_ERR_CORRUPT,       SECURESTORE_ERR_INVALID_NAME,   SECURESTORE_ERR_INVALID_FLAGS,
                                               SECURESTORE_ERR_ALREADY_EXISTS, SECURESTORE_ERR_ROLLBACK,      SECURESTORE_ERR_NO_SPACE};
    static const size_t lengths[][4] = {{CARD - 1, CHIP, 16, 8}, {CARD, CHIP - 1, 16, 8}, {CARD, CHIP, 15, 8}, {CARD, CHIP, 17, 8}, {CARD, CHIP, 16, 7},
                                        {CARD, CHIP, 16, 9},     {CARD + 1, CHIP, 16, 8}, {CARD, CHIP + 1, 16, 8}, {0, CHIP, 16, 8}, {CARD, 0, 16, 8},
                                        {CARD, CHIP, 0, 8},      {CARD, CHIP, 16, 0}};
    static const size_t right[4] = {CARD, CHIP, 16, 8};
    uint8_t mix[SECURESTORE_MIX_MAX];
    const size_t len = put_mix(mix, 1, 2);
    unsigned faults;
    for (faults = 0; faults < 1u << COUNT_OF(order); faults++) {
        const size_t *l = faults & 4 ? lengths[faults % COUNT_OF(lengths)] : right;
        const char *name = faults & 2 ? (faults & 16 ? "max/\t" : "max/1") : faults & 16 ? "mix/\t" : "mix/1";
        const uint32_t flags = faults & 32 ? 8 : faults & 128 ? 6 : 14;
        securestore_status want = SECURESTORE_OK;
        size_t i;
        for (i = COUNT_OF(order); i > 0; i--) {
            want = faults & 1u << (i - 1) ? order[i - 1] : want;
        }
        blank();
        if (faults & 64) {
            expect_status(set("mix/1", 13, mix, 9), SECURESTORE_OK, "order: a write-once record");
        } else if (faults & 128) {
            expect_status(set("mix/1", 12, mix, 9), SECURESTORE_OK, "order: the chip holds the name");
            memset(now.kv, 0, CARD);
        }
        if (faults & 256) {
            static const char *const others[] = {"a", "b", "c", "d", "e"};
            for (i = 0; i < COUNT_OF(others); i++) {
                (void)set(others[i], 12, mix, 9);
                (void)set(others[i], 0, mix, 9);
            }
        }
        if (faults & 8) {
            now.rbp[CHIP - 1] ^= 1;
            now.kv[0] ^= 2;
        }
        remember();
        expect_status(securestore_store_mix(now.kv, l[0], now.rbp, l[1], KEY, l[2], (const uint8_t *)name, strlen(name), flags, IV, l[3], mix,
                                            len - (faults & 1)),
                      want, "order: store_mix");
        expect(want == SECURESTORE_OK || unchanged(), "order: a refusal changes nothing");
    }
}

/* ---- find_mix */

/* 1 for each length, before damage and all else; a longer buffer is as good. */
static void test_find_lengths(void)
{
    static const struct {
        size_t kv, rbp, key, buf;
        int good;
    } rows[] = {{CARD, CHIP, 16, 153, 1}, {CARD, CHIP, 16, 154, 1},     {CARD, CHIP, 16, BUF, 1}, {0, CHIP, 16, 153, 0},
                {1, CHIP, 16, 153, 0},    {CARD - 1, CHIP, 16, 153, 0}, {CARD + 1, CHIP, 16, 153, 0}, {CARD, 0, 16, 153, 0},
                {CARD, CHIP - 1, 16, 153, 0}, {CARD, CHIP + 1, 16, 153, 0}, {CARD, CHIP, 0, 153, 0}, {CARD, CHIP, 15, 153, 0},
                {CARD, CHIP, 17, 153, 0}, {CARD, CHIP, 16, 0, 0},       {CARD, CHIP, 16, 18, 0},  {CARD, CHIP, 16, 152, 0}};
    uint8_t mix[SECURESTORE_MIX_MAX];
    const size_t len = put_mix(mix, 4, 1);
    size_t i, faults;
    for (i = 0; i < COUNT_OF(rows); i++) {
        for (faults = 0; faults < 16; faults++) {
            securestore_status want = faults & 4 ? SECURESTORE_ERR_AMBIGUOUS : SECURESTORE_OK;
            want = faults & 2 ? SECURESTORE_ERR_AUTHENTICATION : want;
            want = faults & 8 ? SECURESTORE_ERR_CORRUPT : want;
            want = faults & 1 ? SECURESTORE_ERR_CORRUPT : want;
            want = rows[i].good ? want : SECURESTORE_ERR_LENGTH;
            blank();
            expect_status(store("mix/a", 4, mix, len), SECURESTORE_OK, "find_mix: a mix");
            expect_status(faults & 4 ? store("mix/b", 4, mix, len) : SECURESTORE_OK, SECURESTORE_OK, "find_mix: a second");
            now.kv[68 + 20] ^= faults & 2 ? 1 : 0;
            now.kv[CARD - 1] = faults & 1 ? 1 : 0;
            now.rbp[0] = faults & 8 ? 2 : 0;
            remember();
            expect_status(securestore_find_mix(now.kv, rows[i].kv, now.rbp, rows[i].rbp, KEY, rows[i].key, 4, now.mix_buf, rows[i].buf, &now.count), want,
                          "find_mix: lengths");
            if (want == SECURESTORE_OK) {
                memcpy(before.mix_buf, mix, len);
                before.count = len;
            }
            expect(want == SECURESTORE_OK ? unchanged() : only_zeros(0), "find_mix: the bytes at the front, or nothing");
        }
    }
}

/* What a slot may hold: a mix of the session, one of another, data that are none, a record that get refuses with 8, 11 or 12, a mix under another name,
 * nothing. */
enum kind { HOLDS, OTHER, NO_MIX, MALFORMED, CHANGED, OLD, NOT_NAMED, FREE, KINDS };
static const securestore_status ANSWER[] = {0, 0, 20, 8, 11, 12, 0, 0};
#define SESSION ((uint64_t)1 << 63 | 4)

/* The names of mixes are in order, so of two the lower index has the lower slot, whatever the others are. */
static void put_slot(size_t index, unsigned kind)
{
    static const char *const mixes[] = {"mix/", "mix/567890123456789012345678901234567890123456789012345678901234", "mix/a", "mix/b", "mix/c"};
    static const char *const others[] = {"mix", "Mix/a", "player/1", "0", "/mix/a"};
    const char *name = kind == NOT_NAMED ? others[index] : mixes[index];
    uint8_t *at, mix[SECURESTORE_MIX_MAX + 1];
    size_t len = put_mix(mix, kind == OTHER ? 4 : SESSION, index);
    if (kind == FREE) {
        return;
    }
    if (kind == NO_MIX) {
        mix[len++] = 0;
    }
    expect_status(set(name, kind == OLD ? 12 : 4, mix, len), SECURESTORE_OK, "find_mix: a record");
    at = now.kv + slot_of(&ON_CARD, now.kv, CARD, name);
    at[68] ^= kind == MALFORMED ? 1 : 0;
    at[68 + 20] ^= kind == CHANGED ? 1 : 0;
}

/* Every kind under every name, set in the order of the names or against it: the bad record in the lowest slot decides, whatever stands before or behind it;
 * else how many hold the session. */
static void test_find_kinds(void)
{
    unsigned all, kinds[SLOTS];
    size_t i;
    for (all = 0; all < KINDS * KINDS * KINDS * KINDS * KINDS; all++) {
        uint8_t mix[SECURESTORE_MIX_MAX];
        securestore_status want = SECURESTORE_OK;
        size_t holders = 0, at = 0;
        unsigned rest = all;
        const int backwards = next_random() % 2;
        blank();
        for (i = 0; i < SLOTS; i++, rest /= KINDS) {
            kinds[i] = rest % KINDS;
            want = want == SECURESTORE_OK ? ANSWER[kinds[i]] : want;
            if (kinds[i] == HOLDS) {
                holders++;
                at = i;
            }
        }
        for (i = 0; i < SLOTS; i++) {
            const size_t index = backwards ? SLOTS - 1 - i : i;
            put_slot(index, kinds[index]);
        }
        memset(now.rbp, 0, CHIP);
        want = want != SECURESTORE_OK ? want : holders > 1 ? SECURESTORE_ERR_AMBIGUOUS : holders == 0 ? SECURESTORE_ERR_NOT_FOUND : SECURESTORE_OK;
        expect_find(SESSION, want, mix, put_mix(mix, SESSION, at), "find_mix: kinds");
    }
}

/* What find_mix must answer, by the other calls: the names with the prefix one after the other, a get of each, and decode_mix. */
static securestore_status by_hand(uint64_t session_id, uint8_t *mix, size_t *mix_len)
{
    uint8_t name[SECURESTORE_NAME_MAX], data[SECURESTORE_DATA_MAX], tags[16];
    float levels[16], pans[16];
    size_t slot = 0, name_len, len, sends, holders = 0;
    uint64_t session;
    securestore_status status;
    while ((status = securestore_iterator_next(now.kv, CARD, now.rbp, CHIP, (const uint8_t *)"mix/", 4, slot, name, sizeof name, &name_len, &slot)) ==
           SECURESTORE_OK) {
        status = securestore_get(now.kv, CARD, now.rbp, CHIP, KEY, 16, name, name_len, 0, data, sizeof data, &len);
        if (status == SECURESTORE_OK) {
            status = securestore_decode_mix(data, len, &session, tags, 16, levels, 16, pans, 16, &sends);
        }
        if (status != SECURESTORE_OK) {
            return status;
        }
        if (session == session_id && ++holders == 1) {
            memcpy(mix, data, len);
            *mix_len = len;
        }
    }
    return status != SECURESTORE_ERR_NOT_FOUND ? status : holders > 1 ? SECURESTORE_ERR_AMBIGUOUS : holders == 1 ? SECURESTORE_OK : SECURESTORE_ERR_NOT_FOUND;
}

/* Cards that grow by mixes and other records with any flags, lose some, are put back to an older state, and have bits changed. */
static void test_find_by_hand(void)
{
    static const char *const names[] = {"mix/", "mix/a", "mix/b", "mix/c", "mix/d", "mix/e", "mix", "Mix/a", "player/1"};
    static uint8_t old_kv[CARD];
    unsigned round, found = 0, refused[22] = {0};
    blank();
    memset(old_kv, 0, CARD);
    for (round = 0; round < 60000; round++) {
        uint8_t mix[SECURESTORE_MIX_MAX + 1], want_mix[SECURESTORE_MIX_MAX];
        const char *name = names[next_random() % COUNT_OF(names)];
        const uint32_t flags = next_random() % 3 ? 14 : FLAGS[next_random() % COUNT_OF(FLAGS)], what = next_random() % 64;
        const uint64_t session_id = next_random() % 6;
        size_t len = random_mix(mix, next_random() % 6), want_len = 0;
        securestore_status want;
        if (what < 34) {
            (void)store(name, flags, mix, len);
        } else if (what < 54) {
            (void)remove_named(name);
        } else if (what < 56) {
            mix[next_random() % len] ^= (uint8_t)(1u << next_random() % 8);
            (void)set(name, flags, mix, len - next_random() % 2);
        } else if (what == 56) {
            memcpy(old_kv, now.kv, CARD);
        } else if (what == 57) {
            memcpy(now.kv, old_kv, CARD);
        } else if (what == 58) {
            now.kv[68 + next_random() % SLOTS * SECURESTORE_KV_SLOT_SIZE + next_random() % 60] ^= (uint8_t)(1u << next_random() % 8);
        } else if (what == 59 && next_random() % 4 == 0) {
            now.kv[next_random() % CARD] ^= (uint8_t)(1u << next_random() % 8);
        } else if (what > 61) {
            memset(now.kv, 0, CARD);
            memset(now.rbp, 0, CHIP);
        }
        want = by_hand(session_id, want_mix, &want_len);
        found += want == SECURESTORE_OK;
        refused[want]++;
        expect_find(session_id, want, want_mix, want_len, "find_mix: as by hand");
    }
    expect(found > 1000 && refused[2] > 100 && refused[6] > 1000 && refused[8] > 100 && refused[11] > 100 && refused[12] > 100 && refused[20] > 100 &&
               refused[21] > 100,
           "find_mix: every answer was met");
}

/* A find of what was stored, with any flags, beside records that are no mixes: the same bytes, and by decode_mix the same floats. */
static void test_stored_is_found(void)
{
    size_t f;
    unsigned round;
    for (round = 0; round < 200; round++) {
        for (f = 0; f < COUNT_OF(FLAGS); f++) {
            uint8_t mix[SECURESTORE_MIX_MAX], other[SECURESTORE_MIX_MAX];
            const uint64_t session_id = (uint64_t)next_random() << 40 | next_random();
            const size_t len = random_mix(mix, session_id);
            blank();
            expect_status(set("mixer", 0, mix, len), SECURESTORE_OK, "stored: the same data under another name");
            expect_status(store("mix/z", FLAGS[f], mix, len), SECURESTORE_OK, "stored: store_mix");
            expect_status(store("mix/y", 0, other, random_mix(other, session_id + 1)), SECURESTORE_OK, "stored: another session");
            expect_find(session_id, SECURESTORE_OK, mix, len, "stored: found");
            expect_find(session_id + 2, SECURESTORE_ERR_NOT_FOUND, mix, 0, "stored: a session that is not there");
            expect_find(session_id ^ (uint64_t)1 << 63, SECURESTORE_ERR_NOT_FOUND, mix, 0, "stored: all of the number is compared");
        }
    }
}

/* ---- what the header says besides */

/* A name that the chip alone holds is not tried; a get of it answers 12. */
static void test_chip_alone(void)
{
    uint8_t mix[SECURESTORE_MIX_MAX], data[SECURESTORE_DATA_MAX];
    size_t count;
    const size_t len = put_mix(mix, 4, 3);
    blank();
    expect_status(store("mix/a", 14, mix, len), SECURESTORE_OK, "chip alone: a mix");
    memset(now.kv, 0, CARD);
    expect_find(4, SECURESTORE_ERR_NOT_FOUND, mix, 0, "chip alone: find_mix");
    expect_status(get("mix/a", data, &count), SECURESTORE_ERR_ROLLBACK, "chip alone: get");
    expect_status(store("mix/b", 14, mix, len), SECURESTORE_OK, "chip alone: another record of the session");
    expect_find(4, SECURESTORE_OK, mix, len, "chip alone: hinders no find");
}

/* Power lost between the two writes, the chip's first, while a mix is stored anew: every find is refused, until it is stored again or removed. */
static void test_power(void)
{
    uint8_t old_mix[SECURESTORE_MIX_MAX], mix[SECURESTORE_MIX_MAX], other[SECURESTORE_MIX_MAX], old_kv[CARD];
    const size_t old_len = put_mix(old_mix, 4, 3), len = put_mix(mix, 4, 2), other_len = put_mix(other, 5, 1);
    size_t way;
    for (way = 0; way < 2; way++) {
        blank();
        expect_status(store("mix/a", 14, old_mix, old_len), SECURESTORE_OK, "power: a mix");
        expect_status(store("mix/b", 14, other, other_len), SECURESTORE_OK, "power: another");
        memcpy(old_kv, now.kv, CARD);
        expect_status(store("mix/a", 14, mix, len), SECURESTORE_OK, "power: the mix anew");
        memcpy(now.kv, old_kv, CARD);
        expect_find(4, SECURESTORE_ERR_ROLLBACK, mix, 0, "power: the old mix on the card");
        expect_find(5, SECURESTORE_ERR_ROLLBACK, mix, 0, "power: the other session too");
        expect_status(way == 0 ? store("mix/a", 14, mix, len) : remove_named("mix/a"), SECURESTORE_OK, "power: stored again, or removed");
        expect_find(4, way == 0 ? SECURESTORE_OK : SECURESTORE_ERR_NOT_FOUND, mix, len, "power: then it is found, or gone");
        expect_find(5, SECURESTORE_OK, other, other_len, "power: and the other is found");
    }
}

/* Two hold one session: stored without a word, found no more; one is removed, or stored with another number. */
static void test_doubled(void)
{
    uint8_t mix[SECURESTORE_MIX_MAX], other[SECURESTORE_MIX_MAX];
    const size_t len = put_mix(mix, 4, 3), other_len = put_mix(other, 5, 2);
    size_t way;
    for (way = 0; way < 2; way++) {
        blank();
        expect_status(store("mix/a", 14, mix, len), SECURESTORE_OK, "doubled: a mix");
        expect_status(store("mix/b", 6, mix, len), SECURESTORE_OK, "doubled: store_mix does not ask");
        expect_find(4, SECURESTORE_ERR_AMBIGUOUS, mix, 0, "doubled: find_mix");
        expect_find(6, SECURESTORE_ERR_NOT_FOUND, mix, 0, "doubled: hinders no other session");
        expect_status(way == 0 ? remove_named("mix/b") : store("mix/b", 6, other, other_len), SECURESTORE_OK, "doubled: a way out");
        expect_find(4, SECURESTORE_OK, mix, len, "doubled: found again");
    }
    expect_find(5, SECURESTORE_OK, other, other_len, "doubled: and the other");
    put_send(mix, 0, 1, 0x3f800000u, 0);
    expect_status(store("mix/a", 14, mix, len), SECURESTORE_OK, "doubled: the same name again");
    expect_find(4, SECURESTORE_OK, mix, len, "doubled: is the new mix");
}

/* One bad record refuses every find. It is found by hand; a remove, or storing it again with its flags, ends it, unless both are refused. */
static void test_ways_out(void)
{
    static const struct {
        uint32_t flags;
        enum kind kind;
        securestore_status find, remove, store;
    } rows[] = {{4, NO_MIX, 20, 0, 0},     {4, CHANGED, 11, 0, 0},   {12, OLD, 12, 0, 0},   {0, NO_MIX, 20, 0, 0}, {4, MALFORMED, 8, 8, 8},
                {5, NO_MIX, 20, 7, 7},     {5, CHANGED, 11, 7, 7},   {13, OLD, 12, 7, 7},   {1, NO_MIX, 20, 7, 7}};
    uint8_t mix[SECURESTORE_MIX_MAX], good[SECURESTORE_MIX_MAX];
    const size_t len = put_mix(mix, 4, 1), good_len = put_mix(good, 9, 0);
    size_t i, way;
    for (i = 0; i < COUNT_OF(rows); i++) {
        for (way = 0; way < 4; way++) {
            uint8_t *at = now.kv, kept[SECURESTORE_MIX_MAX]; /* mix/bad comes before mix/good */
            size_t kept_len = 0;
            blank();
            expect_status(store("mix/good", 6, good, good_len), SECURESTORE_OK, "ways out: a good mix");
            expect_status(set("mix/bad", rows[i].flags, mix, rows[i].kind == NO_MIX ? len - 1 : len), SECURESTORE_OK, "ways out: a record");
            at[68] ^= rows[i].kind == MALFORMED ? 1 : 0;
            at[68 + 20] ^= rows[i].kind == CHANGED ? 1 : 0;
            now.rbp[66] ^= rows[i].kind == OLD ? 1 : 0;
            expect_find(9, rows[i].find, good, 0, "ways out: every find is refused");
            expect_find(4, rows[i].find, good, 0, "ways out: every find is refused");
            expect_find(1, rows[i].find, good, 0, "ways out: every find is refused");
            expect_status(by_hand(9, kept, &kept_len), rows[i].find, "ways out: by hand");
            remember();
            switch (way) {
            case 0:
                expect_status(remove_named("mix/bad"), rows[i].remove, "ways out: remove");
                break;
            case 1:
                expect_status(store("mix/bad", rows[i].flags, mix, len), rows[i].store, "ways out: store_mix with its flags");
                break;
            case 2:
                take_out(&ON_CARD, now.kv, CARD, 0);
                break;
            default:
                expect_status(securestore_reset(now.kv, CARD, now.rbp, CHIP), SECURESTORE_OK, "ways out: reset");
                break;
            }
            if (way < 2 && (way == 0 ? rows[i].remove : rows[i].store) != SECURESTORE_OK) {
                expect(unchanged(), "ways out: a refusal changes nothing");
            } else if (way == 3) {
                expect_find(9, SECURESTORE_ERR_NOT_FOUND, good, 0, "ways out: all is gone");
            } else {
                expect_find(9, SECURESTORE_OK, good, good_len, "ways out: the good one is found");
                expect_find(4, way == 1 ? SECURESTORE_OK : SECURESTORE_ERR_NOT_FOUND, mix, len, "ways out: and the other, if it was stored");
            }
        }
    }
}

/* A mix without protection that someone puts on the card: refused where the chip holds the name, given where it does not; get_info tells its flags. */
static void test_planted(void)
{
    static const uint8_t no_key[16] = {0};
    uint8_t mix[SECURESTORE_MIX_MAX], lie[SECURESTORE_MIX_MAX], no_chip[CHIP] = {0};
    const size_t len = put_mix(mix, 4, 1), lie_len = put_mix(lie, 5, 2);
    uint32_t data_size, flags;
    size_t way;
    for (way = 0; way < 3; way++) {
        const char *name = way == 0 ? "mix/a" : "mix/b";
        blank();
        expect_status(store("mix/a", 14, mix, len), SECURESTORE_OK, "planted: a mix");
        if (way == 0) {
            memset(now.kv, 0, CARD);
        }
        put_number(lie, 8, way == 2 ? 4 : 5);
        expect_status(securestore_store_mix(now.kv, CARD, no_chip, CHIP, no_key, 16, (const uint8_t *)name, 5, 0, IV, 8, lie, lie_len), SECURESTORE_OK,
                      "planted: made without key and chip");
        if (way == 0) {
            expect_find(5, SECURESTORE_ERR_ROLLBACK, lie, 0, "planted: the chip holds the name");
            expect_find(4, SECURESTORE_ERR_ROLLBACK, lie, 0, "planted: the chip holds the name");
        } else if (way == 1) {
            expect_find(5, SECURESTORE_OK, lie, lie_len, "planted: the chip does not hold the name");
            expect_find(4, SECURESTORE_OK, mix, len, "planted: the true one is found");
        } else {
            expect_find(4, SECURESTORE_ERR_AMBIGUOUS, lie, 0, "planted: beside the true one");
        }
        if (way > 0) {
            expect(securestore_get_info(now.kv, CARD, now.rbp, CHIP, KEY, 16, (const uint8_t *)name, 5, &data_size, &flags) == SECURESTORE_OK && flags == 0,
                   "planted: its flags tell");
        }
    }
}

/* Whether bytes stand somewhere on the card. */
static int on_card(const uint8_t *bytes, size_t len)
{
    size_t i;
    for (i = 0; i + len <= CARD; i++) {
        if (memcmp(now.kv + i, bytes, len) == 0) {
            return 1;
        }
    }
    return 0;
}

/* The session number can be read on the card just where confidentiality is not asked for. */
static void test_session_on_card(void)
{
    uint8_t mix[SECURESTORE_MIX_MAX];
    const size_t len = put_mix(mix, (uint64_t)0x91827364u << 32 | 0x55463728u, 1);
    size_t f;
    for (f = 0; f < COUNT_OF(FLAGS); f++) {
        blank();
        expect_status(store("mix/a", FLAGS[f], mix, len), SECURESTORE_OK, "on the card: a mix");
        expect(on_card(mix, 8) == !(FLAGS[f] & SECURESTORE_REQUIRE_CONFIDENTIALITY), "on the card: the session number");
    }
}

int main(void)
{
    static void (*const tests[])(void) = {test_bytes, test_counts, test_encode_lengths, test_decode_lengths, test_count_and_length, test_tags, test_edges,
                                          test_sweep, test_unused_bytes, test_one_encoding, test_store_is_set, test_other_names, test_store_order,
                                          test_find_lengths, test_find_kinds, test_find_by_hand, test_stored_is_found, test_chip_alone, test_power,
                                          test_doubled, test_ways_out, test_planted, test_session_on_card};
    return run_tests(tests, COUNT_OF(tests));
}
