/* Calls whose instructions tests/counts counts: each line says which function was called, of which group the call is, how the two CMACs differ, what was
 * answered and what is expected. All calls of a group are alike but for the CMACs. The buffers stand where they stand, and no call is nested deeper than
 * another, so that copying costs the same in each. */
#include <stdio.h>
#include <string.h>

#include "securestore.h"

static const uint8_t KEY[16] = {0x2b, 0x7e, 0x15, 0x16, 0x28, 0xae, 0xd2, 0xa6, 0xab, 0xf7, 0x15, 0x88, 0x09, 0xcf, 0x4f, 0x3c};
static const uint8_t IV[8] = {'t', 'h', 'e', ' ', 'i', 'v', ' ', '8'};
static const uint8_t MIX[5] = {'m', 'i', 'x', '/', '1'};
#define KEY_ID 0x20000001u
#define FLAGS (SECURESTORE_REQUIRE_CONFIDENTIALITY | SECURESTORE_REQUIRE_INTEGRITY | SECURESTORE_REQUIRE_REPLAY_PROTECTION)
#define SLOTS 2u

/* How the second CMAC differs from the first. */
static const struct difference {
    const char *name;
    unsigned first, last; /* the bytes that differ */
    uint8_t bits;
} DIFFERENCES[] = {{"equal", 0, 15, 0x00},
                   {"first byte", 0, 0, 0x01},
                   {"first byte, highest bit", 0, 0, 0x80},
                   {"a byte between", 8, 8, 0x10},
                   {"last byte", 15, 15, 0x01},
                   {"last byte, highest bit", 15, 15, 0x80},
                   {"last byte, all bits", 15, 15, 0xff},
                   {"all bytes", 0, 15, 0xff}};
#define DIFFERENCE_COUNT (sizeof DIFFERENCES / sizeof DIFFERENCES[0])

static uint8_t kv[SLOTS * SECURESTORE_KV_SLOT_SIZE], rbp[SLOTS * SECURESTORE_RBP_SLOT_SIZE], output[SECURESTORE_KEY_FILE_MAX];

/* What the counts must tell apart: a comparison that stops at the first byte that differs. */
uint32_t stops_early(const uint8_t a[16], const uint8_t b[16]);
__attribute__((noinline)) uint32_t stops_early(const uint8_t a[16], const uint8_t b[16])
{
    unsigned i;
    for (i = 0; i < 16; i++) {
        if (a[i] != b[i]) {
            return (uint32_t)(a[i] ^ b[i]);
        }
    }
    return 0;
}

typedef uint32_t measured(void);

static uint8_t one[16], other[16];

static uint32_t call_stops_early(void)
{
    return stops_early(one, other);
}

static uint32_t call_difference(void)
{
    return securestore_tag_difference(one, other);
}

static uint32_t call_get(void)
{
    size_t count;
    return securestore_get(kv, sizeof kv, rbp, sizeof rbp, KEY, sizeof KEY, MIX, sizeof MIX, 0, output, sizeof output, &count);
}

static uint32_t call_get_info(void)
{
    uint32_t size, flags;
    return securestore_get_info(kv, sizeof kv, rbp, sizeof rbp, KEY, sizeof KEY, MIX, sizeof MIX, &size, &flags);
}

static uint32_t call_load_key(void)
{
    size_t count;
    return securestore_load_key(kv, sizeof kv, rbp, sizeof rbp, KEY, sizeof KEY, KEY_ID, output, sizeof output, &count);
}

/* What is changed: the second of two CMACs, the card's, or the chip's. A card's slot has the record's length at 2 and the record from 68 on, with the
 * CMAC at its end; a chip's has the CMAC from 66 on. The key's name is all digits, so its slots are the first, and those of mix/1 the second. */
enum place { SECOND, CARD, CHIP };

static uint8_t *tag_of(enum place place, unsigned slot)
{
    uint8_t *on_card = kv + slot * SECURESTORE_KV_SLOT_SIZE;
    switch (place) {
    case SECOND:
        return other;
    case CARD:
        return on_card + 68 + on_card[2] + 256u * on_card[3] - 16;
    default:
        return rbp + slot * SECURESTORE_RBP_SLOT_SIZE + 66;
    }
}

static const struct group {
    const char *function, *name;
    measured *call;
    enum place place;
    unsigned slot;
    uint32_t refused; /* the answer where the CMACs differ; 0 for the differing bits themselves */
} GROUPS[] = {{"stops_early", "control", call_stops_early, SECOND, 0, 0},
              {"securestore_tag_difference", "tags", call_difference, SECOND, 0, 0},
              {"securestore_get", "computed", call_get, CARD, 1, SECURESTORE_ERR_AUTHENTICATION},
              {"securestore_get", "chip", call_get, CHIP, 1, SECURESTORE_ERR_ROLLBACK},
              {"securestore_get_info", "computed", call_get_info, CARD, 1, SECURESTORE_ERR_AUTHENTICATION},
              {"securestore_get_info", "chip", call_get_info, CHIP, 1, SECURESTORE_ERR_ROLLBACK},
              {"securestore_load_key", "computed", call_load_key, CARD, 0, SECURESTORE_ERR_AUTHENTICATION},
              {"securestore_load_key", "chip", call_load_key, CHIP, 0, SECURESTORE_ERR_ROLLBACK}};

static void flip(uint8_t *tag, const struct difference *d)
{
    unsigned i;
    for (i = d->first; i <= d->last; i++) {
        tag[i] ^= d->bits;
    }
}

static void measure(const struct group *group, const struct difference *d)
{
    uint8_t *tag = tag_of(group->place, group->slot);
    uint32_t answer, expected = d->bits == 0 ? 0 : group->refused == 0 ? d->bits : group->refused;
    flip(tag, d);
    answer = group->call();
    flip(tag, d);
    printf("%s\t%s\t%s\t%u\t%u\n", group->function, group->name, d->name, (unsigned)answer, (unsigned)expected);
}

int main(void)
{
    static uint8_t data[SECURESTORE_DATA_MAX];
    size_t g, d;
    memcpy(one, KEY, 16);
    memcpy(other, KEY, 16);
    memset(data, 'x', sizeof data);
    if (securestore_set(kv, sizeof kv, rbp, sizeof rbp, KEY, sizeof KEY, MIX, sizeof MIX, FLAGS, IV, sizeof IV, data, sizeof data) != SECURESTORE_OK
        || securestore_save_key(kv, sizeof kv, rbp, sizeof rbp, KEY, sizeof KEY, KEY_ID, 1, 2, 3, 4, 5, data, SECURESTORE_KEY_MATERIAL_MAX, FLAGS, IV,
                                sizeof IV)
               != SECURESTORE_OK) {
        return 1;
    }
    for (g = 0; g < sizeof GROUPS / sizeof GROUPS[0]; g++) {
        for (d = 0; d < DIFFERENCE_COUNT; d++) {
            measure(&GROUPS[g], &DIFFERENCES[d]);
        }
    }
    return 0;
}
