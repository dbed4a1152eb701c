/* Holds what securestore.h says of a record in chunks against the library: the handle's bytes, every refusal in its order and what it leaves, handles with
 * any contents, and that however the data are divided the finalize is one securestore_set, byte for byte. Compiled as C99 and as C++.
 * The last line is 'N passed, M failed'. */
#include <stdio.h>
#include <stdlib.h>
#include <string.h>

#include "expect.h"
#include "securestore.h"

#define SLOTS 3u
#define CARD (SLOTS * SECURESTORE_KV_SLOT_SIZE)
#define CHIP (SLOTS * SECURESTORE_RBP_SLOT_SIZE)

/* All that is lent to be written, with bytes between that no call may touch, and room for a card, a chip and a staging buffer that are too long. Each
 * stands at an odd offset, since none needs an alignment. */
struct lent {
    uint8_t guard0, kv[CARD + 1], guard1, rbp[CHIP + 1], guard2, handle[SECURESTORE_SET_HANDLE_SIZE], guard3[2], staging[2 * SECURESTORE_STAGING_SIZE],
        guard4[8];
};
static struct lent now, before;

static const uint8_t KEY[17] = {0x2b, 0x7e, 0x15, 0x16, 0x28, 0xae, 0xd2, 0xa6, 0xab, 0xf7, 0x15, 0x88, 0x09, 0xcf, 0x4f, 0x3c, 0x55};
static const uint8_t IV[16] = {'t', 'h', 'e', ' ', 'i', 'v', ' ', '8', 'a', 'n', 'd', ' ', 'm', 'o', 'r', 'e'};
static const uint8_t PLAYER[8] = {'p', 'l', 'a', 'y', 'e', 'r', '/', '1'};
static const uint8_t ZEROS[SECURESTORE_SET_HANDLE_SIZE] = {0};

/* What arrives, more than a record holds; and a name that is far too long. */
static uint8_t data[2 * SECURESTORE_STAGING_SIZE], long_name[65600];

/* All flags that a set accepts. */
static const uint32_t FLAGS[] = {0, 1, 2, 3, 4, 5, 6, 7, 12, 13, 14, 15};

/* Numbers for a field of the handle: about its bounds, and where a narrower number would lose bits. */
static const uint32_t FIELD[] = {0, 1, 2, 63, 64, 65, 255, 256, 320, 479, 480, 481, 65535, 65536, 65600, 0x7fffffffu, 0x80000000u, 0xffffffbfu, 0xffffffffu};

static uint32_t field(size_t at)
{
    const uint8_t *p = now.handle + at;
    return p[0] | (uint32_t)p[1] << 8 | (uint32_t)p[2] << 16 | (uint32_t)p[3] << 24;
}

static void put_field(size_t at, uint32_t number)
{
    size_t i;
    for (i = 0; i < 4; i++) {
        now.handle[at + i] = (uint8_t)(number >> (8 * i));
    }
}

/* Card and chip all zero, everything else filled with something. */
static void blank(void)
{
    memset(&now, 0xee, sizeof now);
    memset(now.kv, 0, CARD);
    memset(now.rbp, 0, CHIP);
}

static int unchanged(void)
{
    return memcmp(&now, &before, sizeof now) == 0;
}

/* The calls, with lengths as they should be. */
static securestore_status start(const uint8_t *name, size_t name_len, uint32_t flags, size_t size)
{
    return securestore_set_start(name, name_len, flags, IV, SECURESTORE_IV_SIZE, size, now.handle);
}

static securestore_status add(const uint8_t *chunk, size_t chunk_len)
{
    return securestore_set_add_data(now.handle, now.staging, SECURESTORE_STAGING_SIZE, chunk, chunk_len);
}

static securestore_status finalize(void)
{
    return securestore_set_finalize(now.kv, CARD, now.rbp, CHIP, KEY, 16, now.handle, now.staging, SECURESTORE_STAGING_SIZE);
}

static securestore_status set(const char *name, uint32_t flags, const uint8_t *bytes, size_t len)
{
    return securestore_set(now.kv, CARD, now.rbp, CHIP, KEY, 16, (const uint8_t *)name, strlen(name), flags, IV, SECURESTORE_IV_SIZE, bytes, len);
}

static securestore_status remove_named(const char *name)
{
    return securestore_remove(now.kv, CARD, now.rbp, CHIP, (const uint8_t *)name, strlen(name));
}

/* A record that has arrived whole: all but the finalize. */
static void arrive(const char *name, uint32_t flags, const uint8_t *bytes, size_t len)
{
    expect_status(start((const uint8_t *)name, strlen(name), flags, len), SECURESTORE_OK, "start");
    expect_status(add(bytes, len), SECURESTORE_OK, "add_data");
}

/* Every byte of the handle after a start, written out. The flags are not judged. */
static void test_handle_bytes(void)
{
    static const uint8_t want[SECURESTORE_SET_HANDLE_SIZE] = {
        'p', 'l', 'a', 'y', 'e', 'r', '/', '1', 0, 0, 0, 0, 0, 0, 0, 0, 0, 0, 0, 0, 0, 0, 0, 0, 0, 0, 0, 0, 0, 0, 0, 0,
        0, 0, 0, 0, 0, 0, 0, 0, 0, 0, 0, 0, 0, 0, 0, 0, 0, 0, 0, 0, 0, 0, 0, 0, 0, 0, 0, 0, 0, 0, 0, 0,
        8, 0, 0, 0, 0xd4, 0xc3, 0xb2, 0xa1, 't', 'h', 'e', ' ', 'i', 'v', ' ', '8', 0xa6, 0x01, 0, 0, 0, 0, 0, 0};
    blank();
    before = now;
    expect_status(start(PLAYER, sizeof PLAYER, 0xa1b2c3d4u, 0x1a6), SECURESTORE_OK, "handle: start");
    expect(memcmp(now.handle, want, sizeof want) == 0, "handle: the 88 bytes");
    memcpy(before.handle, want, sizeof want);
    expect(unchanged(), "handle: nothing else is written");
    expect_status(add(data, 0x103), SECURESTORE_OK, "handle: add_data");
    before.handle[84] = 3;
    before.handle[85] = 1;
    memcpy(before.staging, data, 0x103);
    expect(unchanged(), "handle: of a chunk the count alone");
    expect_status(add(data, 0xa3), SECURESTORE_OK, "handle: the rest");
    before.handle[84] = 0xa6;
    memcpy(before.staging + 0x103, data, 0xa3);
    expect(unchanged(), "handle: the count is the declared size");
}

/* Names of every length that fits, the empty one too, with bytes that no name may hold; flags and sizes of all kinds. */
static void test_handle_fields(void)
{
    static const uint32_t flags[] = {0, 1, 8, 11, 14, 16, 0x80000000u, 0xffffffffu};
    size_t len, f, size;
    uint8_t name[64];
    for (len = 0; len < sizeof name; len++) {
        name[len] = (uint8_t)(0xf5 + 5 * len);
    }
    for (len = 0; len <= 64; len++) {
        for (f = 0; f < COUNT_OF(flags); f++) {
            for (size = 0; size <= 480; size += 1 + 37 * f) {
                blank();
                before = now;
                expect_status(start(name, len, flags[f], size), SECURESTORE_OK, "fields: start");
                expect(memcmp(now.handle + SECURESTORE_SET_HANDLE_NAME_AT, name, len) == 0, "fields: name");
                expect(memcmp(now.handle + SECURESTORE_SET_HANDLE_NAME_AT + len, ZEROS, 64 - len) == 0, "fields: zeros behind the name");
                expect(field(SECURESTORE_SET_HANDLE_NAME_LEN_AT) == len, "fields: name length");
                expect(field(SECURESTORE_SET_HANDLE_FLAGS_AT) == flags[f], "fields: flags");
                expect(memcmp(now.handle + SECURESTORE_SET_HANDLE_IV_AT, IV, SECURESTORE_IV_SIZE) == 0, "fields: IV");
                expect(field(SECURESTORE_SET_HANDLE_FINAL_DATA_SIZE_AT) == size, "fields: declared size");
                expect(field(SECURESTORE_SET_HANDLE_COUNT_AT) == 0, "fields: count");
                memcpy(before.handle, now.handle, sizeof now.handle);
                expect(unchanged(), "fields: nothing else is written");
            }
        }
    }
}

/* 1, then 3, then 5, whatever else is wrong; and the handle is all zero. */
static void test_start_refusals(void)
{
    static const size_t ivs[] = {8, 0, 1, 7, 9, 16}, names[] = {64, 0, 1, 65, 128, 256, 257, 65536, 65537, 65600};
    static const size_t sizes[] = {480, 0, 481, 512, 65536, 0x7fffffff, (size_t)-1, (size_t)-1 / 2 + 1, (size_t)-1 - 480, ((size_t)1 << (sizeof(size_t) * 4)),
                                   ((size_t)1 << (sizeof(size_t) * 4)) + 5};
    size_t i, n, s;
    for (i = 0; i < COUNT_OF(ivs); i++) {
        for (n = 0; n < COUNT_OF(names); n++) {
            for (s = 0; s < COUNT_OF(sizes); s++) {
                securestore_status want = sizes[s] > 480 ? SECURESTORE_ERR_DATA_SIZE : SECURESTORE_OK;
                want = names[n] > 64 ? SECURESTORE_ERR_INVALID_NAME : want;
                want = ivs[i] != 8 ? SECURESTORE_ERR_LENGTH : want;
                blank();
                before = now;
                expect_status(securestore_set_start(long_name, names[n], 14, IV, ivs[i], sizes[s], now.handle), want, "start: refusals");
                if (want != SECURESTORE_OK) {
                    memset(before.handle, 0, sizeof before.handle);
                    expect(unchanged(), "start: a refusal leaves an all-zero handle and nothing else");
                }
            }
        }
    }
}

/* A length that a 32-bit number would take for 0 or 1. The bytes are not looked at; where there is no such memory, nothing is tried. */
static void test_far_too_long(void)
{
    const size_t base = (size_t)-1 / 0xffffffffu > 1 ? (size_t)0xffffffffu + 1 : 0;
    uint8_t *huge = base == 0 ? NULL : (uint8_t *)malloc(base + 1);
    size_t more;
    if (base != 0 && huge == NULL) {
        fprintf(stderr, "incremental: no 4 GiB to lend, so lengths past 2^32 were not tried\n");
    }
    for (more = 0; huge != NULL && more < 2; more++) {
        blank();
        expect_status(start(huge, base + more, 0, 4), SECURESTORE_ERR_INVALID_NAME, "far too long: a name");
        expect_status(start(PLAYER, sizeof PLAYER, 0, 4), SECURESTORE_OK, "far too long: start");
        before = now;
        expect_status(add(huge, base + more), SECURESTORE_ERR_TRANSFER_SIZE, "far too long: a chunk");
        expect(unchanged(), "far too long: a refusal changes nothing");
    }
    free(huge);
}

/* Every count and every length of a chunk, past the declared size too: the chunk stands straight behind what is held, the rest is as before. */
static void test_add(void)
{
    static const uint32_t sizes[] = {0, 1, 2, 16, 479, 480};
    size_t s;
    uint32_t count, len;
    for (s = 0; s < COUNT_OF(sizes); s++) {
        blank();
        expect_status(start(PLAYER, sizeof PLAYER, 14, sizes[s]), SECURESTORE_OK, "add_data: start");
        for (count = 0; count <= sizes[s]; count++) {
            for (len = 0; len <= sizes[s] - count + 2; len++) {
                const securestore_status want = len <= sizes[s] - count ? SECURESTORE_OK : SECURESTORE_ERR_TRANSFER_SIZE;
                put_field(SECURESTORE_SET_HANDLE_COUNT_AT, count);
                memset(now.staging, 0xee, sizeof now.staging);
                before = now;
                expect_status(add(data, len), want, "add_data: a chunk");
                if (want == SECURESTORE_OK) {
                    expect(field(SECURESTORE_SET_HANDLE_COUNT_AT) == count + len, "add_data: the count grows by the chunk's length");
                    expect(memcmp(now.staging + count, data, len) == 0, "add_data: the chunk stands behind what is held");
                    memcpy(before.handle + SECURESTORE_SET_HANDLE_COUNT_AT, now.handle + SECURESTORE_SET_HANDLE_COUNT_AT, 4);
                    memcpy(before.staging + count, data, len);
                }
                expect(unchanged(), "add_data: the rest is as before");
            }
        }
    }
}

/* Whether a handle's sizes can be, by the header's words. */
static int fits(uint32_t name_len, uint32_t size, uint32_t count)
{
    return name_len <= 64 && size <= 480 && count <= size;
}

/* A staging buffer of another length is 1, before any 19. */
static void test_add_lengths(void)
{
    static const size_t lengths[] = {0, 1, 64, 479, 481, 2 * SECURESTORE_STAGING_SIZE};
    size_t i, n;
    for (i = 0; i < COUNT_OF(lengths); i++) {
        for (n = 0; n < COUNT_OF(FIELD); n++) {
            blank();
            expect_status(start(PLAYER, sizeof PLAYER, 14, 16), SECURESTORE_OK, "add_data: start");
            put_field(SECURESTORE_SET_HANDLE_NAME_LEN_AT, FIELD[n]);
            before = now;
            expect_status(securestore_set_add_data(now.handle, now.staging, lengths[i], data, 4), SECURESTORE_ERR_LENGTH, "add_data: staging buffer's length");
            expect_status(securestore_set_add_data(now.handle, now.staging, lengths[i], data, 17), SECURESTORE_ERR_LENGTH, "add_data: 1 before 19");
            expect(unchanged(), "add_data: a refusal changes nothing");
        }
    }
}

/* What a finalize must be: one set of the bytes that are held, of the handle's name with its flags and IV. Both are run on the same card and chip. */
static void expect_one_set(const char *what)
{
    struct lent other = now;
    const securestore_status want =
        securestore_set(other.kv, CARD, other.rbp, CHIP, KEY, 16, now.handle, field(SECURESTORE_SET_HANDLE_NAME_LEN_AT), field(SECURESTORE_SET_HANDLE_FLAGS_AT),
                        now.handle + SECURESTORE_SET_HANDLE_IV_AT, SECURESTORE_IV_SIZE, now.staging, field(SECURESTORE_SET_HANDLE_COUNT_AT));
    expect_status(finalize(), want, what);
    expect(memcmp(&now, &other, sizeof now) == 0, "finalize: card and chip as after one set, all else as before");
}

/* A handle may hold anything. Each size beside its bound and far from it, in all combinations. */
static void test_any_handle(void)
{
    size_t n, s, c, l;
    for (n = 0; n < COUNT_OF(FIELD); n++) {
        for (s = 0; s < COUNT_OF(FIELD); s++) {
            for (c = 0; c < COUNT_OF(FIELD); c++) {
                const int good = fits(FIELD[n], FIELD[s], FIELD[c]);
                static const uint32_t chunks[] = {0, 1, 479, 480, 481, 960};
                blank();
                expect_status(start(long_name, 64, 14, 0), SECURESTORE_OK, "any handle: start");
                put_field(SECURESTORE_SET_HANDLE_NAME_LEN_AT, FIELD[n]);
                put_field(SECURESTORE_SET_HANDLE_FINAL_DATA_SIZE_AT, FIELD[s]);
                put_field(SECURESTORE_SET_HANDLE_COUNT_AT, FIELD[c]);
                before = now;
                for (l = 0; l < COUNT_OF(chunks); l++) {
                    const int done = good && chunks[l] <= FIELD[s] - FIELD[c];
                    now = before;
                    expect_status(add(data, chunks[l]), done ? SECURESTORE_OK : SECURESTORE_ERR_TRANSFER_SIZE, "any handle: add_data");
                    expect(done || unchanged(), "any handle: a refused add_data changes nothing");
                }
                now = before;
                if (good && FIELD[c] == FIELD[s]) {
                    expect_one_set("any handle: finalize");
                } else {
                    expect_status(finalize(), SECURESTORE_ERR_TRANSFER_SIZE, "any handle: finalize");
                    expect(unchanged(), "any handle: a refused finalize changes nothing");
                }
            }
        }
    }
}

/* Handles of 88 equal bytes, and the one that a refused start leaves. */
static void test_whole_handles(void)
{
    unsigned byte;
    for (byte = 1; byte < 256; byte++) {
        blank();
        memset(now.handle, (int)byte, sizeof now.handle);
        before = now;
        expect_status(add(data, 0), SECURESTORE_ERR_TRANSFER_SIZE, "one byte: add_data of nothing");
        expect_status(finalize(), SECURESTORE_ERR_TRANSFER_SIZE, "one byte: finalize");
        expect(unchanged(), "one byte: refusals change nothing");
    }
    blank();
    expect_status(start(PLAYER, sizeof PLAYER, 14, 481), SECURESTORE_ERR_DATA_SIZE, "zero handle: a refused start");
    expect(memcmp(now.handle, ZEROS, sizeof ZEROS) == 0, "zero handle: is all zero");
    before = now;
    expect_status(add(data, 1), SECURESTORE_ERR_TRANSFER_SIZE, "zero handle: add_data");
    expect_status(add(data, 0), SECURESTORE_OK, "zero handle: add_data of nothing");
    expect_status(finalize(), SECURESTORE_ERR_INVALID_NAME, "zero handle: finalize");
    expect(unchanged(), "zero handle: nothing is changed");
    now.kv[0] = 0xff;
    expect_status(finalize(), SECURESTORE_ERR_CORRUPT, "zero handle: finalize on a damaged card");
}

/* 1 for each of the four lengths, before 19 and whatever else is wrong. */
static void test_finalize_lengths(void)
{
    static const struct {
        size_t kv, rbp, key, staging;
    } rows[] = {{0, CHIP, 16, 480},    {1, CHIP, 16, 480},    {CARD - 1, CHIP, 16, 480}, {CARD + 1, CHIP, 16, 480},
                {CARD, 0, 16, 480},    {CARD, 1, 16, 480},    {CARD, CHIP - 1, 16, 480}, {CARD, CHIP + 1, 16, 480},
                {CARD, CHIP, 0, 480},  {CARD, CHIP, 15, 480}, {CARD, CHIP, 17, 480},     {CARD, CHIP, 16, 0},
                {CARD, CHIP, 16, 479}, {CARD, CHIP, 16, 481}, {CARD, CHIP, 16, 960},     {CARD - 1, CHIP - 1, 15, 479}};
    size_t i, faults;
    for (i = 0; i < COUNT_OF(rows); i++) {
        for (faults = 0; faults < 8; faults++) {
            blank();
            arrive("player/1", faults & 4 ? 16 : 14, data, 38);
            if (faults & 1) {
                put_field(SECURESTORE_SET_HANDLE_COUNT_AT, 37);
            }
            if (faults & 2) {
                now.kv[0] = now.rbp[0] = 2;
            }
            before = now;
            expect_status(securestore_set_finalize(now.kv, rows[i].kv, now.rbp, rows[i].rbp, KEY, rows[i].key, now.handle, now.staging, rows[i].staging),
                          SECURESTORE_ERR_LENGTH, "finalize: lengths");
            expect(unchanged(), "finalize: a refusal changes nothing");
        }
    }
}

/* The chip knows player/1, and the card has nothing. */
static void leave_over(void)
{
    expect_status(set("player/1", 12, data, 9), SECURESTORE_OK, "left over: set");
    memset(now.kv, 0, CARD);
}

/* 19 stands straight after 1: before damage, name, flags and all that card and chip say. Then the order is that of a set. */
static void test_finalize_order(void)
{
    static const securestore_status order[] = {SECURESTORE_ERR_TRANSFER_SIZE, SECURESTORE_ERR_CORRUPT,        SECURESTORE_ERR_INVALID_NAME,
                                               SECURESTORE_ERR_INVALID_FLAGS, SECURESTORE_ERR_ALREADY_EXISTS, SECURESTORE_ERR_ROLLBACK,
                                               SECURESTORE_ERR_NO_SPACE};
    unsigned faults;
    for (faults = 0; faults < 1u << COUNT_OF(order); faults++) {
        securestore_status want = SECURESTORE_OK;
        size_t i;
        for (i = COUNT_OF(order); i > 0; i--) {
            want = faults & 1u << (i - 1) ? order[i - 1] : want;
        }
        blank();
        if (faults & 16) {
            expect_status(set("player/1", 13, data, 9), SECURESTORE_OK, "order: a write-once record");
        } else if (faults & 32) {
            leave_over();
        }
        if (faults & 64) {
            expect_status(set("b", 12, data, 9), SECURESTORE_OK, "order: the card fills");
            expect_status(set("c", 12, data, 9), SECURESTORE_OK, "order: the card fills");
            (void)set("d", 0, data, 9);
        }
        arrive(faults & 4 ? "player\t1" : "player/1", faults & 8 ? 8 : faults & 32 ? 6 : 14, data, 38);
        if (faults & 1) {
            put_field(SECURESTORE_SET_HANDLE_COUNT_AT, 37);
        }
        if (faults & 2) {
            now.rbp[CHIP - SECURESTORE_RBP_SLOT_SIZE] = 2;
        }
        before = now;
        expect_status(finalize(), want, "order: finalize");
        expect(want == SECURESTORE_OK || unchanged(), "order: a refusal changes nothing");
    }
}

/* The data arrive in chunks of a length, the last one shorter; with an empty chunk before each and at the end if asked for. */
static void arrive_in(size_t len, size_t chunk_len, int empty_too)
{
    size_t at = 0;
    while (at < len) {
        const size_t n = chunk_len < len - at ? chunk_len : len - at;
        if (empty_too) {
            expect_status(add(data, 0), SECURESTORE_OK, "divided: an empty chunk");
        }
        expect_status(add(data + at, n), SECURESTORE_OK, "divided: a chunk");
        at += n;
    }
    if (empty_too) {
        expect_status(add(data, 0), SECURESTORE_OK, "divided: an empty chunk at the end");
    }
}

/* However the data are divided, card and chip are those of one set, byte for byte. */
static void test_divided(void)
{
    static const size_t sizes[] = {0, 1, 2, 15, 16, 17, 38, 255, 256, 257, 479, 480}, chunks[] = {1, 2, 3, 7, 16, 64, 251, 479, 480};
    struct lent want;
    size_t f, s, c;
    for (f = 0; f < COUNT_OF(FLAGS); f++) {
        for (s = 0; s < COUNT_OF(sizes); s++) {
            blank();
            expect_status(set("other", 14, data, 100), SECURESTORE_OK, "divided: another record");
            before = now;
            expect_status(set("player/1", FLAGS[f], data, sizes[s]), SECURESTORE_OK, "divided: one set");
            want = now;
            for (c = 0; c < 2 * COUNT_OF(chunks); c++) {
                now = before;
                expect_status(start(PLAYER, sizeof PLAYER, FLAGS[f], sizes[s]), SECURESTORE_OK, "divided: start");
                arrive_in(sizes[s], chunks[c / 2], c % 2);
                expect(memcmp(now.kv, before.kv, sizeof now.kv) == 0 && memcmp(now.rbp, before.rbp, sizeof now.rbp) == 0, "divided: nothing stored so far");
                memcpy(want.handle, now.handle, sizeof want.handle);
                memcpy(want.staging, data, sizes[s]);
                expect_status(finalize(), SECURESTORE_OK, "divided: finalize");
                expect(memcmp(&now, &want, sizeof now) == 0, "divided: as one set, all else as before");
            }
        }
    }
}

/* One byte short of the declared size is 19 at each length, and a finalize that came too early does no harm. */
static void test_short(void)
{
    size_t count;
    blank();
    expect_status(start(PLAYER, sizeof PLAYER, 14, 480), SECURESTORE_OK, "short: start");
    for (count = 0; count < 480; count++) {
        before = now;
        expect_status(finalize(), SECURESTORE_ERR_TRANSFER_SIZE, "short: finalize");
        expect(unchanged(), "short: a refusal changes nothing");
        expect_status(add(data + count, 1), SECURESTORE_OK, "short: one byte more");
    }
    expect_one_set("short: the last byte has come");
}

/* Finalizing judges card and chip as they then are, with the answers of a set. */
static void test_card_as_it_then_is(void)
{
    size_t old, f;
    for (old = 0; old < COUNT_OF(FLAGS); old++) {
        for (f = 0; f < COUNT_OF(FLAGS); f++) {
            blank();
            arrive("player/1", FLAGS[f], data, 38);
            expect_status(set("player/1", FLAGS[old], data + 1, 50), SECURESTORE_OK, "then: a record came meanwhile");
            expect_one_set("then: finalize over another record");
            memset(now.kv, 0, CARD);
            expect_one_set("then: finalize on a new card beside the chip");
            now.kv[68]++;
            expect_one_set("then: finalize over a record that is not well formed");
            now.kv[4] = 0x7f;
            expect_one_set("then: finalize on a damaged card");
        }
    }
    blank();
    arrive("player/1", 14, data, 38);
    expect_status(set("b", 0, data, 1), SECURESTORE_OK, "then: b");
    expect_status(set("c", 0, data, 1), SECURESTORE_OK, "then: c");
    expect_status(set("d", 0, data, 1), SECURESTORE_OK, "then: d");
    expect_status(finalize(), SECURESTORE_ERR_NO_SPACE, "then: the card is full");
    expect_status(remove_named("c"), SECURESTORE_OK, "then: c is removed");
    expect_status(finalize(), SECURESTORE_OK, "then: the same handle, with room");
    expect(now.kv[4] == 'b' && now.kv[SECURESTORE_KV_SLOT_SIZE + 4] == 'd' && memcmp(now.kv + 2 * SECURESTORE_KV_SLOT_SIZE + 4, PLAYER, sizeof PLAYER) == 0,
           "then: it takes its place in the order");
}

/* Over a slot of the chip that is left over: the card lacks the name, or someone put a record on it that has these flags. */
static void test_left_over(void)
{
    enum { NONE = 16 };
    static const struct {
        uint32_t stored, given;
        securestore_status want;
    } rows[] = {{NONE, 0, 12}, {NONE, 1, 7}, {NONE, 2, 12}, {NONE, 3, 7}, {NONE, 4, 12}, {NONE, 5, 7}, {NONE, 6, 12}, {NONE, 7, 7}, {NONE, 12, 0},
                {NONE, 13, 7}, {NONE, 14, 0}, {NONE, 15, 7}, {0, 0, 12}, {2, 2, 12}, {4, 4, 12}, {6, 6, 12}, {0, 14, 9}, {6, 14, 9}, {0, 1, 7}, {1, 14, 7}};
    size_t i;
    for (i = 0; i < COUNT_OF(rows); i++) {
        uint8_t chip[CHIP];
        blank();
        leave_over();
        if (rows[i].stored != NONE) {
            memcpy(chip, now.rbp, CHIP);
            memset(now.rbp, 0, CHIP);
            expect_status(set("player/1", rows[i].stored, data + 1, 50), SECURESTORE_OK, "left over: a record is planted");
            memcpy(now.rbp, chip, CHIP);
        }
        arrive("player/1", rows[i].given, data, 38);
        before = now;
        expect_status(finalize(), rows[i].want, "left over: finalize");
        expect(rows[i].want == SECURESTORE_OK || unchanged(), "left over: a refusal changes nothing");
        memset(now.kv, 0, CARD);
        expect_status(set("player/1", 12, data, 0), SECURESTORE_OK, "left over: the chip's slot is cleared");
        expect_status(remove_named("player/1"), SECURESTORE_OK, "left over: by a set and a remove");
        expect_status(finalize(), SECURESTORE_OK, "left over: then the same handle is stored");
    }
}

/* A finalized handle is not used up: again it is a set of the same bytes. */
static void test_again(void)
{
    size_t f;
    for (f = 0; f < COUNT_OF(FLAGS); f++) {
        blank();
        arrive("player/1", FLAGS[f], data, 38);
        expect_status(finalize(), SECURESTORE_OK, "again: first");
        before = now;
        expect_status(finalize(), FLAGS[f] & SECURESTORE_WRITE_ONCE ? SECURESTORE_ERR_ALREADY_EXISTS : SECURESTORE_OK, "again: second");
        expect(unchanged(), "again: the same bytes");
        expect_status(add(data, 1), SECURESTORE_ERR_TRANSFER_SIZE, "again: no more fits");
        expect_status(add(data, 0), SECURESTORE_OK, "again: an empty chunk does");
        expect(unchanged(), "again: still the same bytes");
    }
}

/* Handle and staging buffer are the caller's between calls: what stands there at the finalize is stored, and bytes behind the count are not. */
static void test_changed_between(void)
{
    uint8_t output[SECURESTORE_DATA_MAX];
    size_t count;
    blank();
    arrive("player/1", 14, data, 38);
    memset(now.staging + 10, 'x', 5);
    memset(now.staging + 38, 'y', sizeof now.staging - 38);
    expect_one_set("changed: staging buffer");
    expect_status(securestore_get(now.kv, CARD, now.rbp, CHIP, KEY, 16, PLAYER, sizeof PLAYER, 0, output, sizeof output, &count), SECURESTORE_OK,
                  "changed: get");
    expect(count == 38 && memcmp(output, data, 10) == 0 && memcmp(output + 10, "xxxxx", 5) == 0 && memcmp(output + 15, data + 15, 23) == 0,
           "changed: what stood in the staging buffer is stored");
    now.handle[0] = 'P';
    put_field(SECURESTORE_SET_HANDLE_FLAGS_AT, 4);
    put_field(SECURESTORE_SET_HANDLE_FINAL_DATA_SIZE_AT, 7);
    put_field(SECURESTORE_SET_HANDLE_COUNT_AT, 7);
    now.handle[SECURESTORE_SET_HANDLE_NAME_LEN_AT - 1] = 1; /* behind the name: not read */
    expect_one_set("changed: handle");
    expect_status(securestore_get(now.kv, CARD, now.rbp, CHIP, KEY, 16, (const uint8_t *)"Player/1", 8, 0, output, sizeof output, &count), SECURESTORE_OK,
                  "changed: get by the new name");
    expect(count == 7 && memcmp(output, data, 7) == 0, "changed: as many bytes as the handle says");
    now.handle[0] = 0x1f;
    before = now;
    expect_status(finalize(), SECURESTORE_ERR_INVALID_NAME, "changed: to a bad name");
    put_field(SECURESTORE_SET_HANDLE_NAME_LEN_AT, 0);
    expect_status(finalize(), SECURESTORE_ERR_INVALID_NAME, "changed: to no name");
    expect(memcmp(now.kv, before.kv, sizeof now.kv) == 0 && memcmp(now.rbp, before.rbp, sizeof now.rbp) == 0, "changed: refusals store nothing");
}

/* Two records on their way at once, each with a handle and a staging buffer of its own. */
static void test_two_at_once(void)
{
    struct lent want;
    uint8_t handle[SECURESTORE_SET_HANDLE_SIZE], staging[SECURESTORE_STAGING_SIZE];
    size_t i;
    blank();
    expect_status(set("player/1", 14, data, 60), SECURESTORE_OK, "two: one set");
    expect_status(set("b", 14, data + 60, 60), SECURESTORE_OK, "two: another");
    want = now;
    blank();
    expect_status(start(PLAYER, sizeof PLAYER, 14, 60), SECURESTORE_OK, "two: start");
    expect_status(securestore_set_start((const uint8_t *)"b", 1, 14, IV, SECURESTORE_IV_SIZE, 60, handle), SECURESTORE_OK, "two: the other's start");
    for (i = 0; i < 60; i += 20) {
        expect_status(add(data + i, 20), SECURESTORE_OK, "two: a chunk");
        expect_status(securestore_set_add_data(handle, staging, sizeof staging, data + 60 + i, 20), SECURESTORE_OK, "two: the other's chunk");
    }
    expect_status(finalize(), SECURESTORE_OK, "two: finalize");
    expect_status(securestore_set_finalize(now.kv, CARD, now.rbp, CHIP, KEY, 16, handle, staging, sizeof staging), SECURESTORE_OK, "two: the other's");
    expect(memcmp(now.kv, want.kv, sizeof now.kv) == 0 && memcmp(now.rbp, want.rbp, sizeof now.rbp) == 0, "two: as two sets");
}

static void make_inputs(void)
{
    size_t i;
    for (i = 0; i < sizeof data; i++) {
        data[i] = (uint8_t)(7 * i + i / 256);
    }
    memset(long_name, 'n', sizeof long_name);
}

/* What arrives is only read. Runs last. */
static void test_inputs(void)
{
    static uint8_t data_then[sizeof data], name_then[sizeof long_name];
    memcpy(data_then, data, sizeof data);
    memcpy(name_then, long_name, sizeof long_name);
    make_inputs();
    expect(memcmp(data_then, data, sizeof data) == 0 && memcmp(name_then, long_name, sizeof long_name) == 0, "chunks and names are as they were");
}

int main(void)
{
    static void (*const tests[])(void) = {test_handle_bytes, test_handle_fields, test_start_refusals, test_far_too_long, test_add, test_add_lengths,
                                          test_any_handle, test_whole_handles, test_finalize_lengths, test_finalize_order, test_divided, test_short,
                                          test_card_as_it_then_is, test_left_over, test_again, test_changed_between, test_two_at_once, test_inputs};
    make_inputs();
    return run_tests(tests, COUNT_OF(tests));
}
