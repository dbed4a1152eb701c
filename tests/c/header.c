/* Calls every function of securestore.h once or more, so that header and library are seen to agree. Compiled as C99 and as C++.
 * Known answers: FIPS 197, C.1; SP 800-38B, D.1; 01's whole slot; the others were computed with OpenSSL from the definitions.
 * The last line is 'N passed, M failed'. */
#include <stdio.h>
#include <string.h>

#include "securestore.h"

static unsigned passed, failed;

static void expect(int holds, const char *what)
{
    if (holds) {
        passed++;
    } else {
        failed++;
        printf("failed: %s\n", what);
    }
}

static const uint8_t KEY[16] = {0x2b, 0x7e, 0x15, 0x16, 0x28, 0xae, 0xd2, 0xa6, 0xab, 0xf7, 0x15, 0x88, 0x09, 0xcf, 0x4f, 0x3c};
static const uint8_t IV[8] = {'t', 'h', 'e', ' ', 'i', 'v', ' ', '8'};
static const uint8_t NAME[1] = {'a'};
static const uint8_t PLAYER[8] = {'p', 'l', 'a', 'y', 'e', 'r', '/', '1'};
static const uint8_t LINE[31] = {'t', 'h', 'e', ' ', 'k', 'e', 'y', ' ', 's', 't', 'r', 'e', 'a', 'm', ' ', 'i',
                                 's', ' ', 'o', 'f', ' ', 't', 'w', 'e', 'n', 't', 'y', '-', 's', 'i', 'x'};

static uint8_t kv[2 * SECURESTORE_KV_SLOT_SIZE], rbp[SECURESTORE_RBP_SLOT_SIZE];

/* Each number with the name that its text begins with. */
static void test_status_text(void)
{
    static const struct {
        securestore_status status;
        uint32_t number;
        const char *name;
    } rows[] = {{SECURESTORE_OK, 0, "OK"},
                {SECURESTORE_ERR_LENGTH, 1, "ERR_LENGTH: "},
                {SECURESTORE_ERR_CORRUPT, 2, "ERR_CORRUPT: "},
                {SECURESTORE_ERR_INVALID_NAME, 3, "ERR_INVALID_NAME: "},
                {SECURESTORE_ERR_INVALID_FLAGS, 4, "ERR_INVALID_FLAGS: "},
                {SECURESTORE_ERR_DATA_SIZE, 5, "ERR_DATA_SIZE: "},
                {SECURESTORE_ERR_NOT_FOUND, 6, "ERR_NOT_FOUND: "},
                {SECURESTORE_ERR_ALREADY_EXISTS, 7, "ERR_ALREADY_EXISTS: "},
                {SECURESTORE_ERR_INVALID_RECORD, 8, "ERR_INVALID_RECORD: "},
                {SECURESTORE_ERR_FLAGS_MISMATCH, 9, "ERR_FLAGS_MISMATCH: "},
                {SECURESTORE_ERR_NO_SPACE, 10, "ERR_NO_SPACE: "},
                {SECURESTORE_ERR_AUTHENTICATION, 11, "ERR_AUTHENTICATION: "},
                {SECURESTORE_ERR_ROLLBACK, 12, "ERR_ROLLBACK: "},
                {SECURESTORE_ERR_INVALID_KEY_FILE, 13, "ERR_INVALID_KEY_FILE: "},
                {SECURESTORE_ERR_OFFSET, 14, "ERR_OFFSET: "},
                {SECURESTORE_ERR_TRANSFER_SIZE, 19, "ERR_TRANSFER_SIZE: "},
                {SECURESTORE_ERR_INVALID_MIX, 20, "ERR_INVALID_MIX: "},
                {SECURESTORE_ERR_AMBIGUOUS, 21, "ERR_AMBIGUOUS: "}};
    static const securestore_status unknown[] = {15, 16, 17, 18, 22, 23, 255, 256, 0x80000000u, 0xffffffffu};
    size_t i;
    expect(sizeof(securestore_status) == 4 && (securestore_status)-1 == 0xffffffffu, "status: a uint32_t");
    for (i = 0; i < sizeof rows / sizeof rows[0]; i++) {
        const char *text = securestore_status_text(rows[i].status);
        size_t len = strlen(rows[i].name);
        expect(rows[i].status == rows[i].number && (i == 0 || rows[i].number > rows[i - 1].number), "status: the constant's number");
        expect(strncmp(text, rows[i].name, len) == 0 && (i == 0) == (text[len] == '\0'), rows[i].name);
    }
    for (i = 0; i < sizeof unknown / sizeof unknown[0]; i++) {
        expect(strcmp(securestore_status_text(unknown[i]), "unknown status") == 0, "status_text: unknown number");
    }
}

#if SECURESTORE_VERSION_MAJOR < 0 || SECURESTORE_VERSION_MINOR < 0 || SECURESTORE_VERSION_PATCH < 0
#error "the version's numbers are for the preprocessor too"
#endif

static void test_version(void)
{
    char text[64];
    sprintf(text, "%d.%d.%d", SECURESTORE_VERSION_MAJOR, SECURESTORE_VERSION_MINOR, SECURESTORE_VERSION_PATCH);
    expect(strcmp(text, SECURESTORE_VERSION_STRING) == 0, "version: string and numbers agree");
    expect(strcmp(SECURESTORE_VERSION_STRING, "0.7.0") == 0, "version: 0.7.0");
}

static void test_aes(void)
{
    static const uint8_t want[16] = {0x69, 0xc4, 0xe0, 0xd8, 0x6a, 0x7b, 0x04, 0x30, 0xd8, 0xcd, 0xb7, 0x80, 0x70, 0xb4, 0xc5, 0x5a};
    uint8_t key[16], block[16];
    unsigned i;
    for (i = 0; i < 16; i++) {
        key[i] = (uint8_t)i;
        block[i] = (uint8_t)(i * 0x11);
    }
    securestore_aes128_encrypt(key, block);
    expect(memcmp(block, want, 16) == 0, "aes128_encrypt: FIPS 197, C.1");
}

static void test_cmac(void)
{
    static const uint8_t message[16] = {0x6b, 0xc1, 0xbe, 0xe2, 0x2e, 0x40, 0x9f, 0x96, 0xe9, 0x3d, 0x7e, 0x11, 0x73, 0x93, 0x17, 0x2a};
    static const uint8_t empty[16] = {0xbb, 0x1d, 0x69, 0x29, 0xe9, 0x59, 0x37, 0x28, 0x7f, 0xa3, 0x7d, 0x12, 0x9b, 0x75, 0x67, 0x46};
    static const uint8_t whole[16] = {0x07, 0x0a, 0x16, 0xb4, 0x6b, 0x4d, 0x41, 0x44, 0xf7, 0x9b, 0xdd, 0x9d, 0xd0, 0x4a, 0x28, 0x7c};
    uint8_t tag[16];
    securestore_cmac(KEY, message, 0, tag);
    expect(memcmp(tag, empty, 16) == 0, "cmac: SP 800-38B, example 1");
    securestore_cmac(KEY, message, 16, tag);
    expect(memcmp(tag, whole, 16) == 0, "cmac: SP 800-38B, example 2");
}

/* One bit, anywhere and either way round; then random pairs, each bit of the number looked for by itself. */
static void test_tag_difference(void)
{
    uint8_t a[16], b[16];
    uint32_t state = 1, got;
    unsigned i, bit, pair, some, wrong = 0;
    memcpy(a, KEY, 16);
    memcpy(b, KEY, 16);
    expect(securestore_tag_difference(a, b) == 0 && securestore_tag_difference(a, a) == 0, "tag_difference: equal");
    for (i = 0; i < 16; i++) {
        for (bit = 0; bit < 8; bit++) {
            b[i] ^= (uint8_t)(1u << bit);
            wrong += securestore_tag_difference(a, b) != 1u << bit || securestore_tag_difference(b, a) != 1u << bit;
            b[i] = a[i];
        }
    }
    expect(wrong == 0, "tag_difference: one bit");
    for (wrong = 0, pair = 0; pair < 100000; pair++) {
        for (i = 0; i < 16; i++) {
            state = state * 1664525u + 1013904223u;
            a[i] = (uint8_t)(state >> 24);
            /* few bits differ, so that the number is not always 255 */
            b[i] = (uint8_t)(a[i] ^ ((state >> 16) & (state >> 12) & (state >> 8) & (state >> 4)));
        }
        got = securestore_tag_difference(a, b);
        for (bit = 0; bit < 32; bit++) {
            for (some = 0, i = 0; i < 16; i++) {
                some |= (unsigned)(a[i] >> bit & 1) != (unsigned)(b[i] >> bit & 1);
            }
            wrong += (got >> bit & 1) != some;
        }
    }
    expect(wrong == 0, "tag_difference: random pairs");
}

static void test_ctr(void)
{
    static const uint8_t want[31] = {0xf4, 0xc5, 0xf1, 0x65, 0x92, 0x89, 0xaf, 0x36, 0xd2, 0x22, 0x87, 0xc9, 0xcf, 0x08, 0xc4, 0xdd,
                                     0x74, 0x3b, 0x89, 0xba, 0x74, 0x6c, 0xa4, 0x61, 0x76, 0x38, 0xc0, 0xe7, 0x14, 0xb2, 0x49};
    uint8_t buf[32];
    memcpy(buf, LINE, 31);
    buf[31] = 0xee;
    securestore_ctr(KEY, IV, buf, 31);
    expect(memcmp(buf, want, 31) == 0, "ctr: 31 bytes");
    expect(buf[31] == 0xee, "ctr: the byte behind the data is kept");
    securestore_ctr(KEY, IV, buf, 31);
    expect(memcmp(buf, LINE, 31) == 0, "ctr: twice gives the data back");
}

static void test_derive(void)
{
    static const uint8_t want[16] = {0x29, 0xab, 0xde, 0x78, 0x3e, 0xb5, 0xef, 0x19, 0x8b, 0x34, 0x43, 0xbb, 0xef, 0x0f, 0xdf, 0xac};
    static const uint8_t auth[4] = {'A', 'U', 'T', 'H'};
    uint8_t out[16];
    securestore_derive(KEY, auth, sizeof auth, NAME, sizeof NAME, out);
    expect(memcmp(out, want, 16) == 0, "derive: AUTH and a");
}

static uint32_t set(const uint8_t *name, size_t name_len, uint32_t flags, const uint8_t *data, size_t data_len)
{
    return securestore_set(kv, sizeof kv, rbp, sizeof rbp, KEY, sizeof KEY, name, name_len, flags, IV, sizeof IV, data, data_len);
}

/* A card of one slot, all zero; name "a", flags 0, no data: every byte is known. */
static void test_whole_slot(void)
{
    static const uint8_t zeros[SECURESTORE_KV_SLOT_SIZE] = {0};
    uint8_t want[SECURESTORE_KV_SLOT_SIZE] = {1, 1, 0x24, 0, 'a'};
    want[68] = 0x14;
    want[70] = 1;
    memset(kv, 0, sizeof kv);
    memset(rbp, 0, sizeof rbp);
    expect(securestore_set(kv, SECURESTORE_KV_SLOT_SIZE, rbp, sizeof rbp, KEY, sizeof KEY, NAME, sizeof NAME, 0, IV, sizeof IV, LINE, 0) == SECURESTORE_OK,
           "set: whole slot");
    expect(memcmp(kv, want, sizeof want) == 0, "set: whole slot's bytes");
    expect(memcmp(kv + sizeof want, zeros, sizeof zeros) == 0, "set: nothing behind the card");
    expect(memcmp(rbp, zeros, sizeof rbp) == 0, "set: chip as it was");
}

/* Encrypted, authenticated and replay protected: the record ends in its CMAC, and so does the chip's slot. */
static const uint8_t SEALED_TAG[16] = {0x77, 0x4a, 0x89, 0x7a, 0x77, 0x96, 0x53, 0x5c, 0x4f, 0x84, 0x04, 0xf1, 0x56, 0x87, 0x4a, 0x22};
static const uint8_t *const SEALED_KEY = (const uint8_t *)"the device's key";
static const uint8_t *const SEALED = (const uint8_t *)"seven players, one night, one old card";

static void test_sealed_slot(void)
{
    uint8_t slot[SECURESTORE_KV_SLOT_SIZE] = {0}, entry[SECURESTORE_RBP_SLOT_SIZE] = {0};
    expect(securestore_set(slot, sizeof slot, entry, sizeof entry, SEALED_KEY, 16, PLAYER, sizeof PLAYER, 14, IV, sizeof IV, SEALED, 38) == SECURESTORE_OK,
           "set: sealed slot");
    expect(memcmp(slot + 68 + 20 + 38, SEALED_TAG, 16) == 0, "set: the record's CMAC");
    expect(memcmp(entry + 66, SEALED_TAG, 16) == 0, "set: the chip's copy");
}

/* The same record in two chunks; tests/c/incremental.c tries these calls through and through. */
static void test_incremental(void)
{
    uint8_t slot[SECURESTORE_KV_SLOT_SIZE] = {0}, entry[SECURESTORE_RBP_SLOT_SIZE] = {0}, handle[SECURESTORE_SET_HANDLE_SIZE];
    uint8_t staging[SECURESTORE_STAGING_SIZE] = {0};
    expect(securestore_set_start(PLAYER, sizeof PLAYER, 14, IV, sizeof IV, 38, handle) == SECURESTORE_OK, "set_start: status");
    expect(securestore_set_add_data(handle, staging, sizeof staging, SEALED, 15) == SECURESTORE_OK, "set_add_data: first chunk");
    expect(securestore_set_finalize(slot, sizeof slot, entry, sizeof entry, SEALED_KEY, 16, handle, staging, sizeof staging) == SECURESTORE_ERR_TRANSFER_SIZE,
           "set_finalize: too early");
    expect(securestore_set_add_data(handle, staging, sizeof staging, SEALED + 15, 24) == SECURESTORE_ERR_TRANSFER_SIZE, "set_add_data: a byte too many");
    expect(securestore_set_add_data(handle, staging, sizeof staging, SEALED + 15, 23) == SECURESTORE_OK, "set_add_data: second chunk");
    expect(securestore_set_finalize(slot, sizeof slot, entry, sizeof entry, SEALED_KEY, 16, handle, staging, sizeof staging) == SECURESTORE_OK,
           "set_finalize: status");
    expect(memcmp(slot + 68 + 20 + 38, SEALED_TAG, 16) == 0, "set_finalize: the record's CMAC");
    expect(memcmp(entry + 66, SEALED_TAG, 16) == 0, "set_finalize: the chip's copy");
}

static void test_get(void)
{
    uint8_t output[40];
    size_t count = 99;
    memset(output, 0xee, sizeof output);
    expect(securestore_get(kv, sizeof kv, rbp, sizeof rbp, KEY, sizeof KEY, PLAYER, sizeof PLAYER, 4, output, sizeof output, &count) == SECURESTORE_OK,
           "get: status");
    expect(count == 27 && memcmp(output, LINE + 4, 27) == 0, "get: from offset 4");
    expect(output[27] == 0xee && output[39] == 0xee, "get: the rest of the output is kept");
    expect(securestore_get(kv, sizeof kv, rbp, sizeof rbp, KEY, sizeof KEY, PLAYER, sizeof PLAYER, 32, output, sizeof output, &count) == SECURESTORE_ERR_OFFSET,
           "get: offset beyond the data");
    expect(count == 0 && memcmp(output, LINE + 4, 27) == 0, "get: a refusal gives count 0 and keeps the output");
    count = 99;
    expect(securestore_get(kv, sizeof kv, rbp, sizeof rbp, KEY, 15, PLAYER, sizeof PLAYER, 0, output, sizeof output, &count) == SECURESTORE_ERR_LENGTH && count == 0,
           "get: key of 15");
}

static void test_get_info(void)
{
    uint32_t data_size = 99, flags = 99;
    expect(securestore_get_info(kv, sizeof kv, rbp, sizeof rbp, KEY, sizeof KEY, PLAYER, sizeof PLAYER, &data_size, &flags) == SECURESTORE_OK,
           "get_info: status");
    expect(data_size == 31 && flags == 14, "get_info: size and flags");
    expect(securestore_get_info(kv, sizeof kv, rbp, sizeof rbp, KEY, sizeof KEY, PLAYER, 7, &data_size, &flags) == SECURESTORE_ERR_NOT_FOUND,
           "get_info: another name");
    expect(data_size == 0 && flags == 0, "get_info: a refusal gives zeros");
}

static void test_iterator_next(void)
{
    uint8_t name_buf[64];
    size_t name_len = 99, next_slot = 99;
    memset(name_buf, 0xee, sizeof name_buf);
    expect(securestore_iterator_next(kv, sizeof kv, rbp, sizeof rbp, PLAYER, 7, 0, name_buf, sizeof name_buf, &name_len, &next_slot) == SECURESTORE_OK,
           "iterator_next: status");
    expect(name_len == 8 && next_slot == 2 && memcmp(name_buf, PLAYER, 8) == 0 && name_buf[8] == 0xee, "iterator_next: second slot");
    expect(securestore_iterator_next(kv, sizeof kv, rbp, sizeof rbp, PLAYER, 7, next_slot, name_buf, sizeof name_buf, &name_len, &next_slot) == SECURESTORE_ERR_NOT_FOUND,
           "iterator_next: no more");
    expect(name_len == 0 && next_slot == 0, "iterator_next: a refusal gives zeros");
}

/* What the header says of a name's bytes: each alone as a name of every call, as a prefix and in a slot of card and chip. */
static void test_name_bytes(void)
{
    unsigned byte, given = 0, on_card = 0, in_chip = 0;
    for (byte = 0; byte < 256; byte++) {
        const int out = byte < 0x20 || byte == 0x7f;
        const securestore_status absent = out ? SECURESTORE_ERR_INVALID_NAME : SECURESTORE_ERR_NOT_FOUND;
        const uint8_t name[1] = {(uint8_t)byte};
        uint8_t one[SECURESTORE_KV_SLOT_SIZE] = {0}, entry[SECURESTORE_RBP_SLOT_SIZE] = {0}, buf[64];
        uint32_t data_size, flags;
        size_t count, name_len, next_slot;
        given += securestore_iterator_next(one, sizeof one, entry, sizeof entry, name, 1, 0, buf, sizeof buf, &name_len, &next_slot) != absent;
        given += securestore_get(one, sizeof one, entry, sizeof entry, KEY, sizeof KEY, name, 1, 0, buf, sizeof buf, &count) != absent;
        given += securestore_get_info(one, sizeof one, entry, sizeof entry, KEY, sizeof KEY, name, 1, &data_size, &flags) != absent;
        given += securestore_remove(one, sizeof one, entry, sizeof entry, name, 1) != absent;
        given += securestore_set(one, sizeof one, entry, sizeof entry, KEY, sizeof KEY, name, 1, 0, IV, sizeof IV, LINE, 4)
                 != (out ? SECURESTORE_ERR_INVALID_NAME : SECURESTORE_OK);
        memset(one, 0, sizeof one);
        on_card += securestore_set(one, sizeof one, entry, sizeof entry, KEY, sizeof KEY, NAME, 1, 0, IV, sizeof IV, LINE, 4) != SECURESTORE_OK;
        one[4] = name[0];
        on_card += securestore_get(one, sizeof one, entry, sizeof entry, KEY, sizeof KEY, NAME, 1, 0, buf, sizeof buf, &count)
                   != (out ? SECURESTORE_ERR_CORRUPT : byte == 'a' ? SECURESTORE_OK : SECURESTORE_ERR_NOT_FOUND);
        one[4] = 'a';
        entry[0] = entry[1] = 1;
        entry[2] = name[0];
        in_chip += securestore_get(one, sizeof one, entry, sizeof entry, KEY, sizeof KEY, NAME, 1, 0, buf, sizeof buf, &count)
                   != (out ? SECURESTORE_ERR_CORRUPT : byte == 'a' ? SECURESTORE_ERR_ROLLBACK : SECURESTORE_OK);
    }
    expect(given == 0, "names: each byte given");
    expect(on_card == 0, "names: each byte on the card");
    expect(in_chip == 0, "names: each byte in the chip");
}

/* Names as players type them, all of them unlike. */
static void test_typed_names(void)
{
    static const char *const typed[] = {"Cello 3", "Cello", "Cello ", " Cello", "cello", "Fl\xc3\xb6te", "Fl\xf6te", "Flo\xcc\x88te", "Fl\xc3"};
    enum { TYPED = sizeof typed / sizeof typed[0] };
    static const char *const ordered[TYPED] = {" Cello", "Cello", "Cello ", "Cello 3", "Flo\xcc\x88te", "Fl\xc3", "Fl\xc3\xb6te", "Fl\xf6te", "cello"};
    uint8_t card[TYPED * SECURESTORE_KV_SLOT_SIZE] = {0}, chip[SECURESTORE_RBP_SLOT_SIZE] = {0}, buf[64], longest[65];
    size_t count, name_len, next_slot;
    unsigned byte, wrong = 0;
    for (byte = 0; byte < TYPED; byte++) {
        const uint8_t data[1] = {(uint8_t)byte};
        wrong += securestore_set(card, sizeof card, chip, sizeof chip, KEY, sizeof KEY, (const uint8_t *)typed[byte], strlen(typed[byte]), 0, IV, sizeof IV,
                                 data, 1)
                 != SECURESTORE_OK;
    }
    expect(wrong == 0, "names: as they are typed");
    wrong = 0;
    for (byte = 0; byte < TYPED; byte++) {
        wrong += securestore_get(card, sizeof card, chip, sizeof chip, KEY, sizeof KEY, (const uint8_t *)typed[byte], strlen(typed[byte]), 0, buf, 1, &count)
                     != SECURESTORE_OK
                 || count != 1 || buf[0] != byte;
    }
    expect(wrong == 0, "names: each has its own record");
    wrong = 0;
    next_slot = 0;
    for (byte = 0; byte < TYPED; byte++) {
        wrong += securestore_iterator_next(card, sizeof card, chip, sizeof chip, NAME, 0, next_slot, buf, sizeof buf, &name_len, &next_slot)
                     != SECURESTORE_OK
                 || name_len != strlen(ordered[byte]) || memcmp(buf, ordered[byte], name_len) != 0;
    }
    expect(wrong == 0, "names: a walk gives them in order");
    memset(buf, 0, sizeof buf);
    expect(securestore_iterator_next(card, sizeof card, chip, sizeof chip, (const uint8_t *)"Cello ", 6, 1, buf, sizeof buf, &name_len, &next_slot)
                   == SECURESTORE_OK
               && name_len == 6 && next_slot == 3 && memcmp(buf, "Cello ", 6) == 0,
           "names: a prefix that ends in a space");
    memset(kv, 0, sizeof kv);
    memset(rbp, 0, sizeof rbp);
    memset(longest, 0xff, sizeof longest);
    expect(set(longest, 65, 0, LINE, 4) == SECURESTORE_ERR_INVALID_NAME && set(longest, 64, 0, LINE, 4) == SECURESTORE_OK, "names: 64 bytes of 0xff");
}

static void test_remove_and_reset(void)
{
    static const uint8_t zeros[2 * SECURESTORE_KV_SLOT_SIZE] = {0};
    expect(securestore_remove(kv, sizeof kv, rbp, sizeof rbp, PLAYER, sizeof PLAYER) == SECURESTORE_OK, "remove: status");
    expect(memcmp(kv + SECURESTORE_KV_SLOT_SIZE, zeros, SECURESTORE_KV_SLOT_SIZE) == 0 && memcmp(rbp, zeros, sizeof rbp) == 0, "remove: slot and chip cleared");
    expect(securestore_remove(kv, sizeof kv, rbp, sizeof rbp, PLAYER, sizeof PLAYER) == SECURESTORE_ERR_NOT_FOUND, "remove: twice");
    expect(kv[0] == 1, "remove: the other slot is kept");
    expect(securestore_reset(kv, sizeof kv, rbp, sizeof rbp - 1) == SECURESTORE_ERR_LENGTH && kv[0] == 1, "reset: chip of 81");
    expect(securestore_reset(kv, sizeof kv, rbp, sizeof rbp) == SECURESTORE_OK && memcmp(kv, zeros, sizeof kv) == 0, "reset: card cleared");
}

/* "PSA\0KEY\0", version 0, five attributes, a length, the material. */
static const uint8_t KEY_FILE[40] = {'P', 'S', 'A', 0, 'K', 'E', 'Y', 0, 0, 0, 0, 0, 1, 0, 0, 0, 0, 0x24, 0, 0,
                                     3, 0, 0, 0, 4, 0, 0x10, 6, 5, 0, 0, 0, 4, 0, 0, 0, 0xca, 0xfe, 0xba, 0xbe};

static void test_format_key_file(void)
{
    uint8_t key_buf[SECURESTORE_KEY_FILE_MAX];
    size_t count = 99;
    memset(key_buf, 0xee, sizeof key_buf);
    expect(securestore_format_key_file(1, 0x2400, 3, 0x06100004, 5, KEY_FILE + 36, 4, key_buf, sizeof key_buf, &count) == SECURESTORE_OK,
           "format_key_file: status");
    expect(count == 40 && memcmp(key_buf, KEY_FILE, 40) == 0 && key_buf[40] == 0xee, "format_key_file: bytes");
    expect(securestore_format_key_file(1, 0x2400, 3, 0x06100004, 5, KEY_FILE + 36, 4, key_buf, 479, &count) == SECURESTORE_ERR_LENGTH && count == 0,
           "format_key_file: key buffer of 479");
    count = 99;
    expect(securestore_format_key_file(0, 0, 0, 0, 0, kv, 445, key_buf, sizeof key_buf, &count) == SECURESTORE_ERR_INVALID_KEY_FILE && count == 0,
           "format_key_file: material of 445");
}

static void test_parse_key_file(void)
{
    uint32_t a[6];
    size_t i;
    expect(securestore_parse_key_file(KEY_FILE, sizeof KEY_FILE, a, a + 1, a + 2, a + 3, a + 4, a + 5) == SECURESTORE_OK, "parse_key_file: status");
    expect(a[0] == 1 && a[1] == 0x2400 && a[2] == 3 && a[3] == 0x06100004 && a[4] == 5, "parse_key_file: attributes");
    expect(a[5] == sizeof KEY_FILE - SECURESTORE_KEY_FILE_HEADER, "parse_key_file: material");
    expect(securestore_parse_key_file(KEY_FILE, sizeof KEY_FILE - 1, a, a + 1, a + 2, a + 3, a + 4, a + 5) == SECURESTORE_ERR_INVALID_KEY_FILE,
           "parse_key_file: a byte less");
    for (i = 0; i < 6; i++) {
        expect(a[i] == 0, "parse_key_file: a refusal gives zeros");
    }
}

static uint32_t save_key(uint32_t key_id)
{
    return securestore_save_key(kv, sizeof kv, rbp, sizeof rbp, KEY, sizeof KEY, key_id, 1, 0x2400, 3, 0x06100004, 5, KEY_FILE + 36, 4, 14, IV, sizeof IV);
}

static uint32_t load_key(uint32_t key_id, uint8_t *key_buf, size_t key_buf_len, size_t *count)
{
    return securestore_load_key(kv, sizeof kv, rbp, sizeof rbp, KEY, sizeof KEY, key_id, key_buf, key_buf_len, count);
}

static void test_keys(void)
{
    uint8_t key_buf[SECURESTORE_KEY_FILE_MAX], output[40];
    size_t count = 99;
    memset(key_buf, 0xee, sizeof key_buf);
    expect(save_key(42) == SECURESTORE_OK, "save_key: status");
    expect(memcmp(kv + 4, "000000000000002a", 16) == 0, "save_key: key 42's name");
    expect(save_key(0) == SECURESTORE_ERR_INVALID_NAME, "save_key: no key 0");
    expect(load_key(42, key_buf, sizeof key_buf, &count) == SECURESTORE_OK, "load_key: status");
    expect(count == 40 && memcmp(key_buf, KEY_FILE, 40) == 0 && key_buf[40] == 0xee, "load_key: bytes");
    expect(load_key(43, key_buf, sizeof key_buf, &count) == SECURESTORE_ERR_NOT_FOUND && count == 0, "load_key: another key");
    count = 99;
    expect(load_key(42, key_buf, 479, &count) == SECURESTORE_ERR_LENGTH && count == 0, "load_key: key buffer of 479");
    expect(securestore_get(kv, sizeof kv, rbp, sizeof rbp, KEY, sizeof KEY, (const uint8_t *)"000000000000002a", 16, 0, output, sizeof output, &count) ==
                   SECURESTORE_OK &&
               count == 40 && memcmp(output, KEY_FILE, 40) == 0,
           "get: key 42's file by its name");
}

/* Session 0x0807060504030201, three sends: muted; level 4; level 0.75 and pan minus zero. */
static const uint8_t MIX[36] = {1, 2, 3, 4, 5, 6, 7, 8, 3, 0, 0, 0, 0, 0, 0, 0, 0, 0, 1, 0, 0, 0x80, 0x40, 0, 0, 0, 0, 2, 0, 0, 0x40, 0x3f, 0, 0, 0, 0x80};
#define SESSION ((uint64_t)0x08070605 << 32 | 0x04030201)

static void test_encode_mix(void)
{
    static const uint8_t tags[3] = {SECURESTORE_SEND_MUTED, SECURESTORE_SEND_LEVEL, SECURESTORE_SEND_LEVEL_PAN};
    static const float levels[3] = {0.5f, 4.0f, 0.75f}, pans[3] = {0.5f, 2.0f, -0.0f};
    uint8_t mix_buf[SECURESTORE_MIX_MAX];
    size_t count = 99;
    memset(mix_buf, 0xee, sizeof mix_buf);
    expect(securestore_encode_mix(SESSION, tags, 3, levels, 3, pans, 3, mix_buf, sizeof mix_buf, &count) == SECURESTORE_OK, "encode_mix: status");
    expect(count == sizeof MIX && memcmp(mix_buf, MIX, sizeof MIX) == 0 && mix_buf[sizeof MIX] == 0xee, "encode_mix: bytes");
    expect(securestore_encode_mix(SESSION, tags, 3, levels, 3, pans, 3, mix_buf, sizeof mix_buf - 1, &count) == SECURESTORE_ERR_LENGTH && count == 0,
           "encode_mix: mix buffer of 152");
    count = 99;
    expect(securestore_encode_mix(SESSION, tags + 2, 1, levels, 1, pans + 1, 1, mix_buf, sizeof mix_buf, &count) == SECURESTORE_ERR_INVALID_MIX && count == 0,
           "encode_mix: pan 2");
}

static void test_decode_mix(void)
{
    uint8_t tags[16];
    float levels[16], pans[16];
    uint64_t session_id = 99;
    size_t sends = 99;
    expect(securestore_decode_mix(MIX, sizeof MIX, &session_id, tags, 16, levels, 16, pans, 16, &sends) == SECURESTORE_OK, "decode_mix: status");
    expect(session_id == SESSION && sends == 3 && tags[0] == 0 && tags[1] == 1 && tags[2] == 2, "decode_mix: session, sends and tags");
    expect(levels[0] == 0 && levels[1] == 4 && levels[2] == 0.75f && pans[0] == 0 && pans[1] == 0 && 0 == pans[2], "decode_mix: levels and pans");
    expect(securestore_decode_mix(MIX, sizeof MIX - 1, &session_id, tags, 16, levels, 16, pans, 16, &sends) == SECURESTORE_ERR_INVALID_MIX,
           "decode_mix: a byte less");
    expect(session_id == 0 && sends == 0, "decode_mix: a refusal gives zeros");
}

/* The mix is a record like any other; tests/c/mix.c tries these calls through and through. */
static void test_mix(void)
{
    static const uint8_t name[5] = {'m', 'i', 'x', '/', '1'};
    uint8_t card[SECURESTORE_KV_SLOT_SIZE] = {0}, chip[SECURESTORE_RBP_SLOT_SIZE] = {0}, mix_buf[SECURESTORE_MIX_MAX];
    size_t count = 99;
    memset(mix_buf, 0xee, sizeof mix_buf);
    expect(securestore_store_mix(card, sizeof card, chip, sizeof chip, KEY, sizeof KEY, name, sizeof name, 14, IV, sizeof IV, MIX, sizeof MIX) ==
               SECURESTORE_OK,
           "store_mix: status");
    expect(securestore_find_mix(card, sizeof card, chip, sizeof chip, KEY, sizeof KEY, SESSION, mix_buf, sizeof mix_buf, &count) == SECURESTORE_OK,
           "find_mix: status");
    expect(count == sizeof MIX && memcmp(mix_buf, MIX, sizeof MIX) == 0 && mix_buf[sizeof MIX] == 0xee, "find_mix: bytes");
    expect(securestore_find_mix(card, sizeof card, chip, sizeof chip, KEY, sizeof KEY, SESSION + 1, mix_buf, sizeof mix_buf, &count) ==
                   SECURESTORE_ERR_NOT_FOUND &&
               count == 0,
           "find_mix: another session");
    expect(securestore_get(card, sizeof card, chip, sizeof chip, KEY, sizeof KEY, name, sizeof name, 0, mix_buf, sizeof mix_buf, &count) == SECURESTORE_OK &&
               count == sizeof MIX && memcmp(mix_buf, MIX, sizeof MIX) == 0,
           "get: the mix by its name");
}

int main(void)
{
    test_status_text();
    test_version();
    test_aes();
    test_cmac();
    test_tag_difference();
    test_ctr();
    test_derive();
    test_sealed_slot();
    test_incremental();
    test_whole_slot();
    expect(set(PLAYER, sizeof PLAYER, 14, LINE, sizeof LINE) == SECURESTORE_OK, "set: encrypted and protected");
    expect(set(PLAYER, sizeof PLAYER, 12, LINE, sizeof LINE) == SECURESTORE_ERR_FLAGS_MISMATCH, "set: other flags");
    test_get();
    test_get_info();
    test_iterator_next();
    test_remove_and_reset();
    test_format_key_file();
    test_parse_key_file();
    test_keys();
    test_encode_mix();
    test_decode_mix();
    test_mix();
    test_name_bytes();
    test_typed_names();
    printf("%u passed, %u failed\n", passed, failed);
    return failed != 0;
}
