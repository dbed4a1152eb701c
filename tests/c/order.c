/* Holds what securestore.h says of the order of slots against the library: how names are compared, that what a card and a chip hold fixes every byte, where a
 * set puts a slot and what a remove leaves, that any other order is damage, walks with sets and removes between their steps, and cards of older versions.
 * Compiled as C99 and as C++. The last line is 'N passed, M failed'. */
#include <stdlib.h>
#include <string.h>

#include "expect.h"
#include "securestore.h"
#include "slots.h"

#define KV SECURESTORE_KV_SLOT_SIZE
#define RBP SECURESTORE_RBP_SLOT_SIZE
#define CARD_SLOTS 6u
#define CHIP_SLOTS 4u

/* Card and chip, of unlike numbers of slots. */
struct media {
    uint8_t kv[CARD_SLOTS * KV], rbp[CHIP_SLOTS * RBP];
};
static struct media now, before;
static const struct media BLANK = {{0}, {0}};

static const uint8_t KEY[16] = {0x2b, 0x7e, 0x15, 0x16, 0x28, 0xae, 0xd2, 0xa6, 0xab, 0xf7, 0x15, 0x88, 0x09, 0xcf, 0x4f, 0x3c};
static const uint8_t IV[8] = {'t', 'h', 'e', ' ', 'i', 'v', ' ', '8'};

/* Names in their order, by hand: unsigned bytes, a prefix first. */
static const char *const NAMES[] = {" ",
                                    "  ",
                                    "!",
                                    "/",
                                    "0",
                                    "A",
                                    "a",
                                    "a ",
                                    "aa",
                                    "aaaaaaaaaaaaaaaaaaaaaaaaaaaaaaaaaaaaaaaaaaaaaaaaaaaaaaaaaaaaaaaa",
                                    "ab",
                                    "a~",
                                    "a\x80",
                                    "a\xff",
                                    "b",
                                    "mix/",
                                    "mix/a",
                                    "mixer",
                                    "player",
                                    "player/1",
                                    "player/10",
                                    "player/2",
                                    "~",
                                    "~~",
                                    "~\xff",
                                    "\x80",
                                    "\x80\x20",
                                    "\x80\x80",
                                    "\xc3\xb6",
                                    "\xff",
                                    "\xff\x20",
                                    "\xff\xff"};
#define NAME_COUNT COUNT_OF(NAMES)

static uint32_t next_random(void)
{
    static uint32_t state = 1;
    state = state * 1664525u + 1013904223u;
    return state >> 8;
}

static const uint8_t *bytes(const char *text)
{
    return (const uint8_t *)text;
}

/* A call's data: of one byte, so that two versions of a record differ. */
static securestore_status set_version(const char *name, uint32_t flags, uint8_t version)
{
    return securestore_set(now.kv, sizeof now.kv, now.rbp, sizeof now.rbp, KEY, 16, bytes(name), strlen(name), flags, IV, 8, &version, 1);
}

static securestore_status set(const char *name, uint32_t flags)
{
    return set_version(name, flags, 0);
}

static securestore_status get(const char *name)
{
    uint8_t output[SECURESTORE_DATA_MAX];
    size_t count;
    return securestore_get(now.kv, sizeof now.kv, now.rbp, sizeof now.rbp, KEY, 16, bytes(name), strlen(name), 0, output, sizeof output, &count);
}

static securestore_status remove_named(const char *name)
{
    return securestore_remove(now.kv, sizeof now.kv, now.rbp, sizeof now.rbp, bytes(name), strlen(name));
}

/* The name at the front of the buffer, ended by a zero. */
static securestore_status next(const char *prefix, size_t start, char name[65], size_t *next_slot)
{
    size_t len;
    securestore_status status = securestore_iterator_next(now.kv, sizeof now.kv, now.rbp, sizeof now.rbp, bytes(prefix), strlen(prefix), start,
                                                          (uint8_t *)name, 64, &len, next_slot);
    name[len] = '\0';
    return status;
}

static int same(const struct media *a, const struct media *b)
{
    return memcmp(a->kv, b->kv, sizeof a->kv) == 0 && memcmp(a->rbp, b->rbp, sizeof a->rbp) == 0;
}

/* Appends the slots that a record has alone, on a card and chip of one slot, to images that are put together by hand. */
struct images {
    struct media made;
    size_t on_card, in_chip;
};

static void append(struct images *images, const char *name, uint32_t flags, uint8_t version, int card_too, int chip_too)
{
    uint8_t slot[KV] = {0}, entry[RBP] = {0};
    expect_status(securestore_set(slot, sizeof slot, entry, sizeof entry, KEY, 16, bytes(name), strlen(name), flags, IV, 8, &version, 1), SECURESTORE_OK,
                  "a record alone");
    if (card_too) {
        memcpy(images->made.kv + KV * images->on_card++, slot, KV);
    }
    if (chip_too && (flags & SECURESTORE_REQUIRE_REPLAY_PROTECTION)) {
        memcpy(images->made.rbp + RBP * images->in_chip++, entry, RBP);
    }
}

/* Card and chip that hold these names, set with these flags, in the order given. */
static struct media image_of(const char *const *names, size_t count, uint32_t flags)
{
    struct images images;
    size_t i;
    images.made = BLANK;
    images.on_card = images.in_chip = 0;
    for (i = 0; i < count; i++) {
        append(&images, names[i], flags, 0, 1, 1);
    }
    return images.made;
}

static void expect_image(const char *const *names, size_t count, uint32_t flags, const char *what)
{
    const struct media want = image_of(names, count, flags);
    expect(same(&now, &want), what);
}

/* Each two names, set in either order, stand in that of the list; the other way round they are damage, and so is one of them twice. */
static void test_pairs(void)
{
    size_t i, j;
    for (i = 0; i < NAME_COUNT; i++) {
        for (j = i + 1; j < NAME_COUNT; j++) {
            const char *pair[2], *turned[2], *twice[2];
            struct media good, bad;
            pair[0] = turned[1] = twice[0] = twice[1] = NAMES[i];
            pair[1] = turned[0] = NAMES[j];
            now = BLANK;
            expect_status(set(pair[0], 12), SECURESTORE_OK, "pairs: set");
            expect_status(set(pair[1], 12), SECURESTORE_OK, "pairs: set behind");
            expect_image(pair, 2, 12, "pairs: in order");
            now = BLANK;
            expect_status(set(pair[1], 12), SECURESTORE_OK, "pairs: set");
            expect_status(set(pair[0], 12), SECURESTORE_OK, "pairs: set in front");
            expect_image(pair, 2, 12, "pairs: in order again");
            good = now;
            bad = image_of(turned, 2, 12);
            memcpy(now.kv, bad.kv, sizeof now.kv);
            expect_status(get(pair[0]), SECURESTORE_ERR_CORRUPT, "pairs: turned on the card");
            now = good;
            memcpy(now.rbp, bad.rbp, sizeof now.rbp);
            expect_status(get(pair[0]), SECURESTORE_ERR_CORRUPT, "pairs: turned in the chip");
            bad = image_of(twice, 2, 12);
            memcpy(now.rbp, bad.rbp, sizeof now.rbp);
            expect_status(get(pair[0]), SECURESTORE_ERR_CORRUPT, "pairs: twice in the chip");
            now = good;
            memcpy(now.kv, bad.kv, sizeof now.kv);
            expect_status(get(pair[0]), SECURESTORE_ERR_CORRUPT, "pairs: twice on the card");
            now = good;
            expect_status(remove_named(pair[0]), SECURESTORE_OK, "pairs: remove in front");
            expect_image(pair + 1, 1, 12, "pairs: the second alone");
        }
    }
}

/* Four names in all 24 orders, with a fifth that comes and goes: one image. */
static void test_equal_images(void)
{
    static const char *const names[] = {"a", "a ", "player/1", "\x80"};
    static const uint32_t flags[] = {0, 4, 6, 12, 14, 15};
    size_t f;
    unsigned order;
    for (f = 0; f < COUNT_OF(flags); f++) {
        for (order = 0; order < 256; order++) {
            unsigned turn[4], i, seen = 0;
            for (i = 0; i < 4; i++) {
                turn[i] = order >> (2 * i) & 3;
                seen |= 1u << turn[i];
            }
            if (seen == 15) {
                now = BLANK;
                for (i = 0; i < 4; i++) {
                    expect_status(set("b", 0), SECURESTORE_OK, "equal: a fifth name");
                    expect_status(set(names[turn[i]], flags[f]), SECURESTORE_OK, "equal: set");
                    expect_status(remove_named("b"), SECURESTORE_OK, "equal: the fifth goes");
                }
                expect_image(names, 4, flags[f], "equal: the image");
            }
        }
    }
}

/* Front, middle and end, with a free slot behind and without: a new name is put in, a known one is written where it stands, a removed one is taken out. */
static void test_insert_and_remove(void)
{
    static const char *const names[] = {"b", "d", "f"};
    static const char *const with[][4] = {{"a", "b", "d", "f"}, {"b", "c", "d", "f"}, {"b", "d", "e", "f"}, {"b", "d", "f", "g"}};
    static const char *const added[] = {"a", "c", "e", "g"};
    size_t i, j;
    for (i = 0; i < COUNT_OF(added); i++) {
        now = image_of(names, 3, 12);
        expect_status(set(added[i], 12), SECURESTORE_OK, "insert: set");
        expect_image(with[i], 4, 12, "insert: in its place, those behind one on");
        before = now;
        for (j = 0; j < 4; j++) {
            struct images images;
            size_t n;
            now = before;
            expect_status(set_version(with[i][j], 12, 1), SECURESTORE_OK, "known: set");
            images.made = BLANK;
            images.on_card = images.in_chip = 0;
            for (n = 0; n < 4; n++) {
                append(&images, with[i][n], 12, n == j, 1, 1);
            }
            expect(same(&now, &images.made), "known: its slot alone is written");
        }
        now = before;
        expect_status(remove_named(added[i]), SECURESTORE_OK, "remove");
        expect_image(names, 3, 12, "remove: closed up, the last all zero");
        expect_status(remove_named(added[i]), SECURESTORE_ERR_NOT_FOUND, "remove: twice");
        expect_image(names, 3, 12, "remove: a refusal changes nothing");
    }
}

/* Card and chip move each by its own names: those with replay protection are others here than the first of the card. */
static void test_apart(void)
{
    static const char *const on_card[] = {"a", "b", "c", "d"};
    static const uint32_t flags[] = {0, 12, 4, 12};
    struct images images;
    size_t i;
    now = BLANK;
    for (i = 4; i > 0; i--) {
        expect_status(set(on_card[i - 1], flags[i - 1]), SECURESTORE_OK, "apart: set");
    }
    images.made = BLANK;
    images.on_card = images.in_chip = 0;
    for (i = 0; i < 4; i++) {
        append(&images, on_card[i], flags[i], 0, 1, 1);
    }
    expect(same(&now, &images.made) && images.in_chip == 2, "apart: four slots on the card, two in the chip");
    expect_status(remove_named("a"), SECURESTORE_OK, "apart: remove without replay protection");
    expect(memcmp(now.rbp, images.made.rbp, sizeof now.rbp) == 0 && memcmp(now.kv, images.made.kv + KV, 3 * KV) == 0, "apart: the chip stays");
    expect_status(remove_named("b"), SECURESTORE_OK, "apart: remove with it");
    expect(memcmp(now.rbp, images.made.rbp + RBP, RBP) == 0 && memcmp(now.rbp + RBP, BLANK.rbp, RBP) == 0, "apart: the chip closes up");
    expect(memcmp(now.kv, images.made.kv + 2 * KV, 2 * KV) == 0 && memcmp(now.kv + 2 * KV, BLANK.kv, 2 * KV) == 0, "apart: the card closes up");
    /* the card lost its record of c, the chip knows e: a set of e finds its slot there */
    now = images.made;
    expect_status(set("e", 12), SECURESTORE_OK, "apart: e");
    take_out(&ON_CARD, now.kv, sizeof now.kv, slot_of(&ON_CARD, now.kv, sizeof now.kv, "e"));
    expect_status(set("e", 12), SECURESTORE_OK, "apart: new on the card, known in the chip");
    append(&images, "e", 12, 0, 1, 1);
    expect(same(&now, &images.made), "apart: the chip's slot is written where it stands");
}

/* 10 is decided before anything moves: a new name at the front, in the middle or at the end of what is full. */
static void test_no_space(void)
{
    static const char *const full_card[] = {"b", "d", "f", "h", "j", "l"}, *const full_chip[] = {"b", "d", "f", "h"};
    static const char *const others[] = {"a", "c", "e", "g", "i", "k", "m"};
    size_t i, f;
    static const uint32_t flags[] = {0, 1, 6, 12, 13, 14};
    for (i = 0; i < COUNT_OF(others); i++) {
        for (f = 0; f < COUNT_OF(flags); f++) {
            const int asks = (flags[f] & SECURESTORE_REQUIRE_REPLAY_PROTECTION) != 0;
            now = before = image_of(full_card, CARD_SLOTS, 4);
            expect_status(set(others[i], flags[f]), SECURESTORE_ERR_NO_SPACE, "no space: on the card");
            expect(same(&now, &before), "no space: card and chip as they were");
            now = before = image_of(full_chip, CHIP_SLOTS, 12);
            expect_status(set(others[i], flags[f]), asks ? SECURESTORE_ERR_NO_SPACE : SECURESTORE_OK, "no space: in the chip");
            expect(!asks || same(&now, &before), "no space: with room on the card alone, both as they were");
        }
    }
    for (i = 0; i < CARD_SLOTS; i++) {
        now = before = image_of(full_card, CARD_SLOTS, 4);
        expect_status(set(full_card[i], 4), SECURESTORE_OK, "no space: a known name is set");
        expect(same(&now, &before), "no space: the same record again");
        expect_status(remove_named(full_card[i]), SECURESTORE_OK, "no space: a name goes");
        expect_status(set("a", 4), SECURESTORE_OK, "no space: another comes");
        expect(now.kv[4] == 'a' && get(full_card[CARD_SLOTS - 1 - (i == CARD_SLOTS - 1)]) == SECURESTORE_OK, "no space: at the front");
    }
    /* The card holds the name, the chip lost it and is full. */
    now = image_of(full_chip, 3, 12);
    expect_status(set("x", 12), SECURESTORE_OK, "no space: x");
    take_out(&IN_CHIP, now.rbp, sizeof now.rbp, slot_of(&IN_CHIP, now.rbp, sizeof now.rbp, "x"));
    expect_status(set("a", 12), SECURESTORE_OK, "no space: the chip is full");
    before = now;
    expect_status(set("x", 12), SECURESTORE_ERR_NO_SPACE, "no space: a known name that the chip lost");
    expect(same(&now, &before), "no space: card and chip as they were");
}

/* Every call but reset answers 2, for any name, and changes nothing; a reset makes both all zero. */
static void check_damage(const char *what)
{
    static const uint8_t mix[9] = {1};
    uint8_t handle[SECURESTORE_SET_HANDLE_SIZE], staging[SECURESTORE_STAGING_SIZE] = {0}, buf[SECURESTORE_KEY_FILE_MAX];
    char name[65];
    uint32_t size, flags;
    size_t count, i;
    before = now;
    for (i = 0; i < NAME_COUNT; i++) {
        expect_status(set(NAMES[i], i % 2 ? 0 : 12), SECURESTORE_ERR_CORRUPT, what);
        expect_status(get(NAMES[i]), SECURESTORE_ERR_CORRUPT, what);
        expect_status(remove_named(NAMES[i]), SECURESTORE_ERR_CORRUPT, what);
        expect_status(next(NAMES[i], 0, name, &count), SECURESTORE_ERR_CORRUPT, what);
    }
    expect_status(next("", 0, name, &count), SECURESTORE_ERR_CORRUPT, what);
    expect_status(next("", CARD_SLOTS, name, &count), SECURESTORE_ERR_CORRUPT, what);
    expect_status(securestore_get_info(now.kv, sizeof now.kv, now.rbp, sizeof now.rbp, KEY, 16, bytes("b"), 1, &size, &flags), SECURESTORE_ERR_CORRUPT, what);
    expect_status(securestore_save_key(now.kv, sizeof now.kv, now.rbp, sizeof now.rbp, KEY, 16, 42, 1, 2, 3, 4, 5, KEY, 16, 4, IV, 8),
                  SECURESTORE_ERR_CORRUPT, what);
    expect_status(securestore_load_key(now.kv, sizeof now.kv, now.rbp, sizeof now.rbp, KEY, 16, 42, buf, sizeof buf, &count), SECURESTORE_ERR_CORRUPT, what);
    expect_status(securestore_store_mix(now.kv, sizeof now.kv, now.rbp, sizeof now.rbp, KEY, 16, bytes("mix/a"), 5, 4, IV, 8, mix, sizeof mix),
                  SECURESTORE_ERR_CORRUPT, what);
    expect_status(securestore_find_mix(now.kv, sizeof now.kv, now.rbp, sizeof now.rbp, KEY, 16, 1, buf, sizeof buf, &count), SECURESTORE_ERR_CORRUPT, what);
    expect_status(securestore_set_start(bytes("b"), 1, 4, IV, 8, 1, handle), SECURESTORE_OK, what);
    expect_status(securestore_set_add_data(handle, staging, sizeof staging, KEY, 1), SECURESTORE_OK, what);
    expect_status(securestore_set_finalize(now.kv, sizeof now.kv, now.rbp, sizeof now.rbp, KEY, 16, handle, staging, sizeof staging), SECURESTORE_ERR_CORRUPT,
                  what);
    expect(same(&now, &before), "damage: refusals change nothing");
    expect_status(securestore_reset(now.kv, sizeof now.kv, now.rbp, sizeof now.rbp), SECURESTORE_OK, "damage: reset");
    expect(same(&now, &BLANK), "damage: reset makes both all zero");
}

static void swap_slots(const struct layout *of, uint8_t *area, size_t i, size_t j)
{
    uint8_t slot[KV];
    memcpy(slot, area + i * of->size, of->size);
    memcpy(area + i * of->size, area + j * of->size, of->size);
    memcpy(area + j * of->size, slot, of->size);
}

/* Of three names on the card and in the chip: any two slots exchanged, used or free; a hole; a name twice, with the same bytes or others. */
static void check_disorder(const struct layout *of, int chip, const struct media *good, size_t slots)
{
    uint8_t *area = chip ? now.rbp : now.kv;
    size_t i, j;
    for (i = 0; i < 3; i++) {
        for (j = i + 1; j < slots; j++) {
            now = *good;
            swap_slots(of, area, i, j);
            check_damage(chip ? "disorder: slots of the chip exchanged" : "disorder: slots of the card exchanged");
            now = *good;
            memcpy(area + j * of->size, area + i * of->size, of->size);
            check_damage(chip ? "disorder: a slot of the chip twice" : "disorder: a slot of the card twice");
            now = *good;
            memcpy(area + j * of->size, area + i * of->size, of->size);
            area[j * of->size + (chip ? 66 : 68 + 20)] ^= 1;
            check_damage(chip ? "disorder: a name of the chip twice" : "disorder: a name of the card twice");
        }
        if (i < 2) {
            now = *good;
            memset(area + i * of->size, 0, of->size);
            check_damage(chip ? "disorder: a hole in the chip" : "disorder: a hole on the card");
        }
    }
    now = *good;
    memset(area + 2 * of->size, 0, of->size);
    expect_status(get("b"), SECURESTORE_OK, "disorder: without the last one all is in order");
    take_out(of, area, slots * of->size, 0);
    expect_status(get("d"), SECURESTORE_OK, "disorder: a slot that is taken out leaves no hole");
}

static void test_disorder(void)
{
    static const char *const names[] = {"b", "d", "f"};
    const struct media good = image_of(names, 3, 12);
    now = good;
    expect_status(get("d"), SECURESTORE_OK, "disorder: in order");
    check_disorder(&ON_CARD, 0, &good, CARD_SLOTS);
    check_disorder(&IN_CHIP, 1, &good, CHIP_SLOTS);
}

/* From every slot on, with every prefix: the first name of the list that has it and stands there. */
static void test_walk(void)
{
    static const char *const names[] = {"mix", "mix/", "mix/a", "mixer", "\x80", "\x80\xff"};
    static const char *const prefixes[] = {"", "m", "mix", "mix/", "mix/a", "mixe", "\x80", "\x80\xff", "a", "\xff", "mixers"};
    size_t p, start, i, next_slot;
    char name[65];
    now = BLANK;
    for (i = CARD_SLOTS; i > 0; i--) {
        expect_status(set(names[(i + 2) % CARD_SLOTS], 4), SECURESTORE_OK, "walk: set");
    }
    for (p = 0; p < COUNT_OF(prefixes); p++) {
        for (start = 0; start <= CARD_SLOTS + 1; start++) {
            for (i = start; i < CARD_SLOTS && strncmp(names[i], prefixes[p], strlen(prefixes[p])) != 0; i++) {
            }
            expect_status(next(prefixes[p], start, name, &next_slot), i < CARD_SLOTS ? SECURESTORE_OK : SECURESTORE_ERR_NOT_FOUND, "walk: from a slot on");
            expect(i < CARD_SLOTS ? strcmp(name, names[i]) == 0 && next_slot == i + 1 : next_slot == 0, "walk: in the order of names");
        }
    }
}

/* The rest of a walk must be these names. */
static void expect_rest(size_t start, const char *const *names, size_t count, const char *what)
{
    char name[65];
    size_t i;
    for (i = 0; i < count; i++) {
        expect_status(next("", start, name, &start), SECURESTORE_OK, what);
        expect(strcmp(name, names[i]) == 0, what);
    }
    expect_status(next("", start, name, &start), SECURESTORE_ERR_NOT_FOUND, what);
}

/* After each step of a walk over b, d, f and h, a name comes or goes: what going on with *next_slot gives, and what helps. */
static void test_walk_between(void)
{
    static const char *const names[] = {"b", "d", "f", "h"}, *const others[] = {"a", "c", "e", "g", "i"};
    size_t step, i;
    for (step = 1; step <= 4; step++) {
        const char *rest[5];
        for (i = 0; i < 4; i++) {
            size_t count = 0, n;
            /* a name that is known */
            now = image_of(names, 4, 4);
            expect_status(set_version(names[i], 4, 1), SECURESTORE_OK, "between: set of a known name");
            expect_rest(step, names + step, 4 - step, "between: a known name moves nothing");
            /* one that goes */
            now = image_of(names, 4, 4);
            expect_status(remove_named(names[i]), SECURESTORE_OK, "between: remove");
            for (n = step; n < 4; n++) {
                if (n != i) {
                    rest[count++] = names[n];
                }
            }
            if (i < step) {
                expect_rest(step - 1, rest, count, "between: a remove in front, gone on one slot earlier");
                if (count > 0) {
                    expect_rest(step, rest + 1, count - 1, "between: a remove in front, a name left out");
                }
            } else {
                expect_rest(step, rest, count, "between: a remove behind");
            }
        }
        for (i = 0; i < COUNT_OF(others); i++) {
            size_t count = 0, n;
            now = image_of(names, 4, 4);
            expect_status(set(others[i], 4), SECURESTORE_OK, "between: set of a new name");
            for (n = step; n < 4; n++) {
                if (n == i) {
                    rest[count++] = others[i];
                }
                rest[count++] = names[n];
            }
            if (i == 4) {
                rest[count++] = others[i];
            }
            if (i < step) {
                const char *given[6];
                given[0] = names[step - 1];
                memcpy(given + 1, rest, count * sizeof rest[0]);
                expect_rest(step + 1, rest, count, "between: a new name in front, gone on one slot later");
                expect_rest(step, given, count + 1, "between: a new name in front, a name given again");
            } else {
                expect_rest(step, rest, count, "between: a new name behind");
            }
        }
    }
}

/* All names gone by one walk: each is removed when it is given. */
static void test_walk_and_remove(void)
{
    static const char *const names[] = {"b", "mix/", "mix/a", "mix/b", "mixer", "z"}, *const left[] = {"b", "mixer", "z"};
    char name[65];
    size_t slot = 0;
    securestore_status status;
    now = image_of(names, 6, 4);
    while ((status = next("mix/", slot, name, &slot)) == SECURESTORE_OK) {
        expect_status(remove_named(name), SECURESTORE_OK, "walk and remove: a name");
        slot--;
    }
    expect_status(status, SECURESTORE_ERR_NOT_FOUND, "walk and remove: the end");
    expect_image(left, 3, 4, "walk and remove: all with the prefix are gone");
}

/* Sorts slots as the header says: used ones first, in the order of their names. Names are zero filled and hold no zero, so all 64 bytes can be compared. */
static int compare_slots(const uint8_t *a, const uint8_t *b, size_t name_at)
{
    return (a[0] == 0) != (b[0] == 0) ? (a[0] == 0) - (b[0] == 0) : memcmp(a + name_at, b + name_at, SECURESTORE_NAME_MAX);
}

static int compare_on_card(const void *a, const void *b)
{
    return compare_slots((const uint8_t *)a, (const uint8_t *)b, 4);
}

static int compare_in_chip(const void *a, const void *b)
{
    return compare_slots((const uint8_t *)a, (const uint8_t *)b, 2);
}

/* A card and a chip of an older version: the same slots, each in any place. Sorted, they are the image of this version, write-once records and all. */
static void test_older_version(void)
{
    static const char *const names[] = {"a", "b", "c", "\xf6"};
    static const uint32_t flags[] = {13, 4, 14, 12};
    struct images images;
    unsigned round, in_order = 0;
    size_t i;
    images.made = BLANK;
    images.on_card = images.in_chip = 0;
    for (i = 0; i < 4; i++) {
        append(&images, names[i], flags[i], 0, 1, 1);
    }
    for (round = 0; round < 2000; round++) {
        now = images.made;
        for (i = CARD_SLOTS - 1; i > 0; i--) {
            swap_slots(&ON_CARD, now.kv, i, next_random() % (i + 1));
        }
        for (i = CHIP_SLOTS - 1; i > 0; i--) {
            swap_slots(&IN_CHIP, now.rbp, i, next_random() % (i + 1));
        }
        in_order += same(&now, &images.made) ? 1 : 0;
        expect_status(get("b"), same(&now, &images.made) ? SECURESTORE_OK : SECURESTORE_ERR_CORRUPT, "older version: as it is");
        qsort(now.kv, CARD_SLOTS, KV, compare_on_card);
        qsort(now.rbp, CHIP_SLOTS, RBP, compare_in_chip);
        expect(same(&now, &images.made), "older version: sorted");
        for (i = 0; i < 4; i++) {
            expect_status(get(names[i]), SECURESTORE_OK, "older version: every record is read");
        }
        expect_status(remove_named("a"), SECURESTORE_ERR_ALREADY_EXISTS, "older version: write once is write once");
    }
    expect(in_order < 100, "older version: most are out of order");
}

/* Random sets and removes, with records and chip slots lost now and then, beside images put together by hand after each. */
static void test_random(void)
{
    static const uint32_t flags[] = {0, 2, 4, 6, 12, 14};
    int on_card[NAME_COUNT] = {0}, in_chip[NAME_COUNT] = {0};
    uint8_t version[NAME_COUNT] = {0}, chip_version[NAME_COUNT] = {0};
    unsigned round, answers[13] = {0};
    size_t cards = 0, chips = 0;
    now = BLANK;
    for (round = 0; round < 20000; round++) {
        const size_t n = next_random() % NAME_COUNT;
        const uint32_t of = flags[n % COUNT_OF(flags)];
        const int asks = (of & SECURESTORE_REQUIRE_REPLAY_PROTECTION) != 0;
        struct images images;
        securestore_status want;
        size_t i;
        switch (next_random() % 16) {
        case 0: /* a record is lost from the card */
            if (on_card[n]) {
                take_out(&ON_CARD, now.kv, sizeof now.kv, slot_of(&ON_CARD, now.kv, sizeof now.kv, NAMES[n]));
                on_card[n] = 0;
                cards--;
            }
            break;
        case 1: /* or a slot from the chip */
            if (in_chip[n]) {
                take_out(&IN_CHIP, now.rbp, sizeof now.rbp, slot_of(&IN_CHIP, now.rbp, sizeof now.rbp, NAMES[n]));
                in_chip[n] = 0;
                chips--;
            }
            break;
        case 2:
        case 3:
        case 4:
        case 5:
        case 6:
        case 7:
        case 8:
            want = on_card[n] ? SECURESTORE_OK : SECURESTORE_ERR_NOT_FOUND;
            expect_status(remove_named(NAMES[n]), want, "random: remove");
            answers[want]++;
            if (on_card[n]) {
                on_card[n] = 0;
                cards--;
                if (asks && in_chip[n]) {
                    in_chip[n] = 0;
                    chips--;
                }
            }
            break;
        default:
            want = (!on_card[n] && cards == CARD_SLOTS) || (asks && !in_chip[n] && chips == CHIP_SLOTS) ? SECURESTORE_ERR_NO_SPACE : SECURESTORE_OK;
            expect_status(set_version(NAMES[n], of, (uint8_t)round), want, "random: set");
            answers[want]++;
            if (want == SECURESTORE_OK) {
                cards += !on_card[n];
                on_card[n] = 1;
                version[n] = (uint8_t)round;
                if (asks) {
                    chips += !in_chip[n];
                    in_chip[n] = 1;
                    chip_version[n] = (uint8_t)round;
                }
            }
            break;
        }
        images.made = BLANK;
        images.on_card = images.in_chip = 0;
        for (i = 0; i < NAME_COUNT; i++) {
            if (on_card[i]) {
                append(&images, NAMES[i], flags[i % COUNT_OF(flags)], version[i], 1, 0);
            }
            if (in_chip[i]) {
                append(&images, NAMES[i], flags[i % COUNT_OF(flags)], chip_version[i], 0, 1);
            }
        }
        expect(same(&now, &images.made), "random: the image");
    }
    expect(answers[0] > 4000 && answers[6] > 1000 && answers[10] > 1000, "random: every answer was met");
}

/* The largest card and chip, full, names set from the last to the first and removed from the first to the last: every set and remove moves all others. */
static void test_largest(void)
{
    static uint8_t kv[64 * KV], rbp[64 * RBP], want_kv[64 * KV], want_rbp[64 * RBP];
    size_t i;
    for (i = 64; i > 0; i--) {
        const uint8_t name[1] = {(uint8_t)(0x7f + i)}, data[1] = {(uint8_t)i};
        uint8_t slot[KV] = {0}, entry[RBP] = {0};
        expect_status(securestore_set(slot, sizeof slot, entry, sizeof entry, KEY, 16, name, 1, 14, IV, 8, data, 1), SECURESTORE_OK, "largest: alone");
        memcpy(want_kv + (i - 1) * KV, slot, KV);
        memcpy(want_rbp + (i - 1) * RBP, entry, RBP);
        expect_status(securestore_set(kv, sizeof kv, rbp, sizeof rbp, KEY, 16, name, 1, 14, IV, 8, data, 1), SECURESTORE_OK, "largest: set");
        expect(memcmp(kv, want_kv + (i - 1) * KV, (65 - i) * KV) == 0 && memcmp(rbp, want_rbp + (i - 1) * RBP, (65 - i) * RBP) == 0, "largest: at the front");
    }
    expect_status(securestore_set(kv, sizeof kv, rbp, sizeof rbp, KEY, 16, bytes("a"), 1, 0, IV, 8, KEY, 1), SECURESTORE_ERR_NO_SPACE, "largest: full");
    expect(memcmp(kv, want_kv, sizeof kv) == 0 && memcmp(rbp, want_rbp, sizeof rbp) == 0, "largest: full, and in order");
    for (i = 1; i <= 64; i++) {
        const uint8_t name[1] = {(uint8_t)(0x7f + i)};
        expect_status(securestore_remove(kv, sizeof kv, rbp, sizeof rbp, name, 1), SECURESTORE_OK, "largest: remove");
        memset(want_kv + (i - 1) * KV, 0, KV);
        memset(want_rbp + (i - 1) * RBP, 0, RBP);
        expect(memcmp(kv, want_kv + i * KV, (64 - i) * KV) == 0 && memcmp(rbp, want_rbp + i * RBP, (64 - i) * RBP) == 0, "largest: closed up");
        expect(memcmp(kv + (64 - i) * KV, want_kv, i * KV) == 0 && memcmp(rbp + (64 - i) * RBP, want_rbp, i * RBP) == 0, "largest: zeros behind");
    }
}

int main(void)
{
    static void (*const tests[])(void) = {test_pairs, test_equal_images, test_insert_and_remove, test_apart, test_no_space, test_disorder, test_walk,
                                          test_walk_between, test_walk_and_remove, test_older_version, test_random, test_largest};
    return run_tests(tests, COUNT_OF(tests));
}
