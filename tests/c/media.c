/* Holds what securestore.h says about media against the library: records that ask for less protection than the chip has, power lost between the two
 * writes or in one of them, chip slots left over, write once under another card, erased flash. A statement there that is false fails here. Compiled as C99
 * and as C++. The last line is 'N passed, M failed'. */
#include <stdint.h>
#include <string.h>

/* The flags of the record in question and those of the call tried on it, for the message. */
static uint32_t stored_flags, tried_flags;
#define EXPECT_DETAIL() printf("  stored with flags %u, tried with %u\n", (unsigned)stored_flags, (unsigned)tried_flags)
#include "expect.h"
#include "slots.h"

#define SLOTS 3u
#define PROTECTED (SECURESTORE_REQUIRE_INTEGRITY | SECURESTORE_REQUIRE_REPLAY_PROTECTION)

/* Card and chip; the same media before a call, and with nothing on them. */
struct media {
    uint8_t kv[SLOTS * SECURESTORE_KV_SLOT_SIZE], rbp[SLOTS * SECURESTORE_RBP_SLOT_SIZE];
};
static struct media now, before;
static const struct media BLANK = {{0}, {0}};

static const uint8_t KEY[16] = {0x2b, 0x7e, 0x15, 0x16, 0x28, 0xae, 0xd2, 0xa6, 0xab, 0xf7, 0x15, 0x88, 0x09, 0xcf, 0x4f, 0x3c};

/* All flags that a set accepts. */
static const uint32_t FLAGS[] = {0, 1, 2, 3, 4, 5, 6, 7, 12, 13, 14, 15};
#define FLAGS_COUNT (sizeof FLAGS / sizeof FLAGS[0])

/* What a set with each of them answers where the chip holds the name and the card lacks it: with a free slot on the card, and with none. */
static const securestore_status LEFT_OVER[FLAGS_COUNT] = {12, 7, 12, 7, 12, 7, 12, 7, 0, 7, 0, 7};
static const securestore_status LEFT_OVER_FULL[FLAGS_COUNT] = {12, 7, 12, 7, 12, 7, 12, 7, 10, 7, 10, 7};

/* The same where the card has a record without replay protection, with the flags 'stored'; and what a remove answers. */
static const struct planted {
    uint32_t stored;
    securestore_status remove, set[FLAGS_COUNT];
} PLANTED[] = {{0, 0, {12, 7, 9, 7, 9, 7, 9, 7, 9, 7, 9, 7}}, {1, 7, {7, 7, 7, 7, 7, 7, 7, 7, 7, 7, 7, 7}},
               {2, 0, {9, 7, 12, 7, 9, 7, 9, 7, 9, 7, 9, 7}}, {3, 7, {7, 7, 7, 7, 7, 7, 7, 7, 7, 7, 7, 7}},
               {4, 0, {9, 7, 9, 7, 12, 7, 9, 7, 9, 7, 9, 7}}, {5, 7, {7, 7, 7, 7, 7, 7, 7, 7, 7, 7, 7, 7}},
               {6, 0, {9, 7, 9, 7, 9, 7, 12, 7, 9, 7, 9, 7}}, {7, 7, {7, 7, 7, 7, 7, 7, 7, 7, 7, 7, 7, 7}}};
#define PLANTED_COUNT (sizeof PLANTED / sizeof PLANTED[0])

/* And where the name is free. */
static const securestore_status FREE[FLAGS_COUNT] = {0, 0, 0, 0, 0, 0, 0, 0, 0, 0, 0, 0};

static securestore_status set_named(const char *name, uint32_t flags)
{
    static uint8_t iv[SECURESTORE_IV_SIZE], data[3];
    iv[7]++;
    data[0]++; /* so that no two records in a row have one CMAC */
    tried_flags = flags;
    return securestore_set(now.kv, sizeof now.kv, now.rbp, sizeof now.rbp, KEY, sizeof KEY, (const uint8_t *)name, strlen(name), flags, iv, sizeof iv, data,
                           sizeof data);
}

static securestore_status get_from(const char *name, size_t offset)
{
    uint8_t output[SECURESTORE_DATA_MAX], as_lent[sizeof output];
    size_t count = 99;
    securestore_status status;
    memset(output, 0xee, sizeof output);
    memcpy(as_lent, output, sizeof output);
    status = securestore_get(now.kv, sizeof now.kv, now.rbp, sizeof now.rbp, KEY, sizeof KEY, (const uint8_t *)name, strlen(name), offset, output,
                             sizeof output, &count);
    expect(status == SECURESTORE_OK || (count == 0 && memcmp(output, as_lent, sizeof output) == 0), "get: a refusal hands nothing out");
    return status;
}

static securestore_status get_named(const char *name)
{
    return get_from(name, 0);
}

static securestore_status remove_named(const char *name)
{
    return securestore_remove(now.kv, sizeof now.kv, now.rbp, sizeof now.rbp, (const uint8_t *)name, strlen(name));
}

static securestore_status set(uint32_t flags)
{
    return set_named("a", flags);
}

static securestore_status get(void)
{
    return get_named("a");
}

static securestore_status get_info(uint32_t *flags)
{
    uint32_t data_size = 99;
    securestore_status status =
        securestore_get_info(now.kv, sizeof now.kv, now.rbp, sizeof now.rbp, KEY, sizeof KEY, (const uint8_t *)"a", 1, &data_size, flags);
    expect(status == SECURESTORE_OK || (data_size == 0 && *flags == 0), "get_info: a refusal gives zeros");
    return status;
}

static securestore_status remove_it(void)
{
    return remove_named("a");
}

/* A key, with an identifier for its name. */
static securestore_status save_key(uint32_t flags)
{
    tried_flags = flags;
    return securestore_save_key(now.kv, sizeof now.kv, now.rbp, sizeof now.rbp, KEY, sizeof KEY, 42, 1, 2, 3, 4, 5, KEY, sizeof KEY, flags, KEY, 8);
}

static securestore_status load_key(void)
{
    uint8_t key_buf[SECURESTORE_KEY_FILE_MAX];
    size_t count;
    return securestore_load_key(now.kv, sizeof now.kv, now.rbp, sizeof now.rbp, KEY, sizeof KEY, 42, key_buf, sizeof key_buf, &count);
}

static securestore_status reset(void)
{
    return securestore_reset(now.kv, sizeof now.kv, now.rbp, sizeof now.rbp);
}

/* Whether the iterator gives the name. */
static securestore_status find(const char *name)
{
    uint8_t name_buf[SECURESTORE_NAME_MAX];
    size_t name_len, next_slot;
    return securestore_iterator_next(now.kv, sizeof now.kv, now.rbp, sizeof now.rbp, (const uint8_t *)name, strlen(name), 0, name_buf, sizeof name_buf,
                                     &name_len, &next_slot);
}

/* Whether the chip's buffer has the name, by the layout that the header gives. */
static int chip_has(const char *name)
{
    return slot_of(&IN_CHIP, now.rbp, sizeof now.rbp, name) < sizeof now.rbp;
}

/* The card's slot of the name in question, or one that is on no card, so that a wrong library is told and harms nothing here. */
static uint8_t *card_slot(void)
{
    static uint8_t nowhere[SECURESTORE_KV_SLOT_SIZE];
    const size_t at = slot_of(&ON_CARD, now.kv, sizeof now.kv, "a");
    return at < sizeof now.kv ? now.kv + at : nowhere;
}

static int card_is(const struct media *want)
{
    return memcmp(now.kv, want->kv, sizeof now.kv) == 0;
}

static int chip_is(const struct media *want)
{
    return memcmp(now.rbp, want->rbp, sizeof now.rbp) == 0;
}

/* Media on which another name has a protected record. */
static void begin(void)
{
    now = BLANK;
    expect_status(set_named("other", 14), SECURESTORE_OK, "begin: another record");
    before = now;
}

/* A call that stores something with these flags: set or save_key. */
typedef securestore_status store_call(uint32_t flags);

/* Tries it with all flags on the media as they are, which a refusal leaves and which are put back. */
static void try_all_flags(store_call *store, const securestore_status want[FLAGS_COUNT], const char *what)
{
    const struct media then = now;
    size_t i;
    for (i = 0; i < FLAGS_COUNT; i++) {
        expect_status(store(FLAGS[i]), want[i], what);
        expect(want[i] == SECURESTORE_OK || (card_is(&then) && chip_is(&then)), "a refusal changes nothing");
        now = then;
    }
}

/* A record that someone puts on the card of 'before', with any flags; it is authentic where it asks for integrity. The chip is not asked. */
static void plant(store_call *store, uint32_t flags)
{
    uint8_t chip[sizeof now.rbp];
    memcpy(chip, now.rbp, sizeof chip);
    memcpy(now.kv, before.kv, sizeof now.kv);
    memset(now.rbp, 0, sizeof now.rbp);
    stored_flags = flags;
    expect_status(store(flags), SECURESTORE_OK, "plant: set beside an empty chip");
    memcpy(now.rbp, chip, sizeof chip);
}

/* Power is lost between the two writes of a call that changed the media from 'before': only the card, or only the chip, has been written. */
enum written { CARD, CHIP };

static void lose_power(enum written written)
{
    if (written == CARD) {
        memcpy(now.rbp, before.rbp, sizeof now.rbp);
    } else {
        memcpy(now.kv, before.kv, sizeof now.kv);
    }
}

/* A first set of the name that was cut. */
static void cut_set(uint32_t flags, enum written written)
{
    begin();
    stored_flags = flags;
    expect_status(set(flags), SECURESTORE_OK, "set: first");
    lose_power(written);
}

/* A set of a name that the card and chip have, with the same flags, that was cut. */
static void cut_second_set(uint32_t flags, enum written written)
{
    begin();
    stored_flags = flags;
    expect_status(set(flags), SECURESTORE_OK, "set: first of two");
    before = now;
    expect_status(set(flags), SECURESTORE_OK, "set: second of two");
    lose_power(written);
}

static void cut_remove(uint32_t flags, enum written written)
{
    begin();
    stored_flags = flags;
    expect_status(set(flags), SECURESTORE_OK, "set: to be removed");
    before = now;
    expect_status(remove_it(), SECURESTORE_OK, "remove");
    lose_power(written);
}

static void cut_reset(uint32_t flags, enum written written)
{
    begin();
    stored_flags = flags;
    expect_status(set(flags), SECURESTORE_OK, "set: to be reset");
    before = now;
    expect_status(reset(), SECURESTORE_OK, "reset");
    lose_power(written);
}

/* What holds wherever card and chip disagree: 12 for get and get_info, and a reset frees the name. The media stay as they were. */
static void check_rollback(void)
{
    const struct media then = now;
    uint32_t flags = 99;
    expect_status(get(), SECURESTORE_ERR_ROLLBACK, "rollback: get");
    expect_status(get_info(&flags), SECURESTORE_ERR_ROLLBACK, "rollback: get_info");
    expect_status(reset(), SECURESTORE_OK, "rollback: reset");
    expect(card_is(&BLANK) && chip_is(&BLANK), "rollback: reset clears both");
    try_all_flags(set, FREE, "rollback: after a reset the name is free");
    now = then;
}

/* First state, not write once: a set with the record's flags works, and so does a remove, which clears what the chip has. */
static void check_card_has_it(uint32_t flags)
{
    const struct media cut = now;
    check_rollback();
    expect_status(set(flags), SECURESTORE_OK, "card has the record: set with its flags");
    expect_status(get(), SECURESTORE_OK, "card has the record: get after the set");
    now = cut;
    expect_status(remove_it(), SECURESTORE_OK, "card has the record: remove");
    expect(!chip_has("a"), "card has the record: remove clears the chip's slot");
    expect_status(get(), SECURESTORE_ERR_NOT_FOUND, "card has the record: get after the remove");
    expect_status(get_named("other"), SECURESTORE_OK, "card has the record: the other record");
}

/* First state, write once: no set and no remove works until a reset. */
static void check_card_has_it_write_once(void)
{
    const struct media cut = now;
    size_t i;
    check_rollback();
    for (i = 0; i < FLAGS_COUNT; i++) {
        expect_status(set(FLAGS[i]), SECURESTORE_ERR_ALREADY_EXISTS, "card has the write-once record: set");
    }
    expect_status(remove_it(), SECURESTORE_ERR_ALREADY_EXISTS, "card has the write-once record: remove");
    expect(card_is(&cut) && chip_is(&cut), "card has the write-once record: refusals change nothing");
}

/* Clears a chip slot left over by a set with these flags and a remove; the card's bytes are as they were. */
static void check_clear(uint32_t flags)
{
    const struct media then = now;
    expect_status(set(flags), SECURESTORE_OK, "clear: set");
    expect_status(get(), SECURESTORE_OK, "clear: get");
    expect_status(remove_it(), SECURESTORE_OK, "clear: remove");
    expect(!chip_has("a") && card_is(&then), "clear: the chip's slot is free and the card as it was");
    expect_status(get(), SECURESTORE_ERR_NOT_FOUND, "clear: get after the remove");
    try_all_flags(set, FREE, "clear: the name is free");
    now = then;
}

/* Second state, whatever flags the lost record had: the chip has the name, the card has not. */
static void check_chip_has_it(void)
{
    check_rollback();
    expect(chip_has("a"), "chip has the name: it is in the chip's buffer");
    expect_status(find("a"), SECURESTORE_ERR_NOT_FOUND, "chip has the name: the iterator does not give it");
    expect_status(remove_it(), SECURESTORE_ERR_NOT_FOUND, "chip has the name: remove");
    try_all_flags(set, LEFT_OVER, "chip has the name: set");
    check_clear(12);
    check_clear(14);
}

/* Without replay protection the chip is not changed: one write, so either all of the call is stored or nothing. */
static void test_power_one_write(void)
{
    size_t i;
    for (i = 0; i < FLAGS_COUNT; i++) {
        if ((FLAGS[i] & SECURESTORE_REQUIRE_REPLAY_PROTECTION) == 0) {
            cut_set(FLAGS[i], CARD);
            expect(chip_is(&before), "one write: set leaves the chip");
            expect_status(get(), SECURESTORE_OK, "one write: card written");
            cut_set(FLAGS[i], CHIP);
            expect(card_is(&before) && chip_is(&before), "one write: without the card nothing is stored");
            if ((FLAGS[i] & SECURESTORE_WRITE_ONCE) == 0) {
                cut_remove(FLAGS[i], CARD);
                expect(chip_is(&before), "one write: remove leaves the chip");
                expect_status(get(), SECURESTORE_ERR_NOT_FOUND, "one write: removed");
            }
        }
    }
}

static void test_power(void)
{
    static const uint32_t flags[] = {12, 14};
    size_t i;
    for (i = 0; i < 2; i++) {
        cut_set(flags[i], CARD);
        check_card_has_it(flags[i]);
        cut_set(flags[i], CHIP);
        check_chip_has_it();
        cut_second_set(flags[i], CARD);
        check_card_has_it(flags[i]);
        cut_second_set(flags[i], CHIP);
        check_card_has_it(flags[i]);
        cut_remove(flags[i], CARD);
        check_chip_has_it();
        cut_remove(flags[i], CHIP);
        check_card_has_it(flags[i]);
    }
}

static void test_power_write_once(void)
{
    static const uint32_t flags[] = {13, 15};
    uint8_t kept[sizeof now.rbp];
    size_t i;
    for (i = 0; i < 2; i++) {
        cut_set(flags[i], CARD);
        check_card_has_it_write_once();
        cut_set(flags[i], CHIP);
        check_chip_has_it();
        cut_reset(flags[i], CARD);
        check_chip_has_it();
        cut_reset(flags[i], CHIP);
        check_card_has_it_write_once();
        /* The chip's buffer was kept and is written after all. */
        begin();
        expect_status(set(flags[i]), SECURESTORE_OK, "set: write once");
        memcpy(kept, now.rbp, sizeof kept);
        lose_power(CARD);
        expect_status(get(), SECURESTORE_ERR_ROLLBACK, "power: before the chip is written after all");
        memcpy(now.rbp, kept, sizeof kept);
        expect_status(get(), SECURESTORE_OK, "power: the chip is written after all");
    }
}

/* What a write of 'made' over 'old' leaves that ends after some slots, from the front or from the back. */
static void cut_write(uint8_t *area, const uint8_t *old, const uint8_t *made, size_t size, size_t written, int from_back)
{
    size_t i;
    for (i = 0; i < SLOTS; i++) {
        const size_t when = from_back ? SLOTS - 1 - i : i;
        memcpy(area + i * size, (when < written ? made : old) + i * size, size);
    }
}

/* How many of the other names a get answers with this number. */
static size_t others_answer(securestore_status status)
{
    return (size_t)(get_named("other") == status) + (get_named("third") == status);
}

/* What a write leaves that was cut short between two slots, of a set or remove at the front of two other names: one of them stands twice, 2; or all is in
 * order and one of them is gone, 12. On the card, then in the chip. */
static void check_cut_write(const struct media *old, const struct media *made, int is_set)
{
    int from_back;
    size_t written;
    for (from_back = 0; from_back < 2; from_back++) {
        for (written = 1; written < SLOTS; written++) {
            const int in_order = is_set != from_back;
            now = *made;
            cut_write(now.kv, old->kv, made->kv, SECURESTORE_KV_SLOT_SIZE, written, from_back);
            expect(!card_is(old) && !card_is(made), "cut write: neither the old card nor the new");
            expect(in_order ? others_answer(0) == 1 && others_answer(12) == 1 : others_answer(2) == 2, "cut write: card");
            now = *made;
            cut_write(now.rbp, old->rbp, made->rbp, SECURESTORE_RBP_SLOT_SIZE, written, from_back);
            expect(in_order ? others_answer(0) == 1 && others_answer(12) == 1 : others_answer(2) == 2, "cut write: chip");
        }
    }
}

static void test_power_in_a_write(void)
{
    struct media with;
    begin();
    expect_status(set_named("third", 12), SECURESTORE_OK, "cut write: another name");
    before = now;
    expect_status(set(12), SECURESTORE_OK, "cut write: set");
    with = now;
    check_cut_write(&before, &with, 1);
    now = with;
    expect_status(remove_it(), SECURESTORE_OK, "cut write: remove");
    expect(card_is(&before) && chip_is(&before), "cut write: the remove gives what was before the set");
    check_cut_write(&with, &before, 0);
}

/* What the get of a name gives: its status, and the three bytes of a record. */
static securestore_status read_three(const char *name, uint8_t three[3])
{
    size_t count = 0;
    memset(three, 0xee, 3);
    return securestore_get(now.kv, sizeof now.kv, now.rbp, sizeof now.rbp, KEY, sizeof KEY, (const uint8_t *)name, strlen(name), 0, three, 3, &count);
}

/* A write of the card that stops at any byte, of a set that is written from front to back: what gets of the names that were only to move answer, and how
 * often with other data than theirs. */
static size_t wrong_after_cut(const struct media *old, const struct media *made, uint8_t right[2][3])
{
    static const char *const names[] = {"other", "third"};
    size_t written, i, wrong = 0;
    for (written = 0; written <= sizeof now.kv; written++) {
        now = *made;
        memcpy(now.kv + written, old->kv + written, sizeof now.kv - written);
        for (i = 0; i < 2; i++) {
            uint8_t three[3];
            const securestore_status status = read_three(names[i], three);
            expect(status == 0 || status == 2 || status == 6 || status == 8 || status == 11 || status == 12, "cut at a byte: 0, 2, 6, 8, 11 or 12");
            wrong += status == SECURESTORE_OK && memcmp(three, right[i], 3) != 0;
        }
    }
    return wrong;
}

static void test_power_at_any_byte(void)
{
    static const uint32_t flags[] = {0, 4, 12};
    struct media with;
    uint8_t right[2][3];
    size_t i;
    for (i = 0; i < 3; i++) {
        now = BLANK;
        expect_status(set_named("other", flags[i]), SECURESTORE_OK, "cut at a byte: other");
        expect_status(set_named("third", flags[i]), SECURESTORE_OK, "cut at a byte: third");
        expect_status(read_three("other", right[0]), SECURESTORE_OK, "cut at a byte: other is read");
        expect_status(read_three("third", right[1]), SECURESTORE_OK, "cut at a byte: third is read");
        before = now;
        expect_status(set(flags[i]), SECURESTORE_OK, "cut at a byte: set");
        with = now;
        /* "without replay protection it may answer 0 with another record's data or with zeros", and with it never */
        expect((wrong_after_cut(&before, &with, right) != 0) == (flags[i] != 12), "cut at a byte: wrong data only without replay protection");
    }
}

static securestore_status set_b(uint32_t flags)
{
    return set_named("b", flags);
}

/* The room that clearing a chip's slot needs. */
static void test_clear_room(void)
{
    now = BLANK;
    stored_flags = 13;
    expect_status(set(13), SECURESTORE_OK, "room: set");
    expect_status(set_named("b", PROTECTED), SECURESTORE_OK, "room: set b");
    expect_status(set_named("c", PROTECTED), SECURESTORE_OK, "room: set c");
    memset(now.kv, 0, sizeof now.kv);
    expect_status(set_named("d", PROTECTED), SECURESTORE_ERR_NO_SPACE, "room: the chip is full of slots without a record");
    check_clear(12);
    expect_status(set(12), SECURESTORE_OK, "room: set in a full chip");
    expect_status(remove_it(), SECURESTORE_OK, "room: remove");
    expect_status(set_named("d", PROTECTED), SECURESTORE_OK, "room: the chip has a free slot");
    expect_status(set_named("e", 0), SECURESTORE_OK, "room: set e");
    expect_status(set_named("f", 0), SECURESTORE_OK, "room: the card is full");
    try_all_flags(set_b, LEFT_OVER_FULL, "room: clearing needs a free slot on the card");
    expect_status(remove_named("f"), SECURESTORE_OK, "room: remove f");
    expect_status(set_named("b", PROTECTED), SECURESTORE_OK, "room: set b");
    expect_status(remove_named("b"), SECURESTORE_OK, "room: remove b");
    expect(!chip_has("b") && chip_has("c") && chip_has("d"), "room: one slot is cleared");
}

/* Where 12 stands in a get of a planted record: after 8 and 11, before 14. */
static void check_planted_order(uint32_t stored)
{
    uint8_t *record = card_slot() + 68;
    record[2]++;
    expect_status(get(), SECURESTORE_ERR_INVALID_RECORD, "planted: another revision");
    expect_status(set(stored), SECURESTORE_ERR_INVALID_RECORD, "planted: set over another revision");
    expect_status(remove_it(), SECURESTORE_ERR_INVALID_RECORD, "planted: remove of another revision");
    record[2]--;
    record[20]++;
    expect_status(get(), stored & SECURESTORE_REQUIRE_INTEGRITY ? SECURESTORE_ERR_AUTHENTICATION : SECURESTORE_ERR_ROLLBACK, "planted: changed data");
    record[20]--;
    expect_status(get_from("a", SECURESTORE_DATA_MAX + 1), SECURESTORE_ERR_ROLLBACK, "planted: an offset beyond the data");
}

/* The chip holds the name, and the card a record that does not ask for it. The ways out: the right card; the card's slot taken out, by a remove or, if that
 * is refused, by hand, and then the chip's. */
static void check_planted(const struct planted *row, const struct media *right)
{
    const struct media then = now;
    check_rollback();
    check_planted_order(row->stored);
    expect_status(find("a"), SECURESTORE_OK, "planted: the iterator gives the name");
    expect_status(get_named("other"), SECURESTORE_OK, "planted: the other record");
    try_all_flags(set, row->set, "planted: set");
    expect_status(remove_it(), row->remove, "planted: remove");
    if (row->remove != SECURESTORE_OK) {
        expect(card_is(&then) && chip_is(&then), "planted: a refused remove changes nothing");
        memset(card_slot(), 0, SECURESTORE_KV_SLOT_SIZE);
        expect_status(get(), SECURESTORE_ERR_CORRUPT, "planted: a slot that is only made all zero leaves a hole");
        take_out(&ON_CARD, now.kv, sizeof now.kv, 0);
    }
    expect(card_is(&before) && chip_is(&then), "planted: the card's slot alone is taken out");
    check_chip_has_it();
    memcpy(now.kv, right->kv, sizeof now.kv);
    expect_status(get(), SECURESTORE_OK, "planted: with the right card");
}

/* Whatever replay protected record the chip knows; on a card that is full, so that the slot which is cleared is the one that the way out needs. */
static void test_planted(void)
{
    static const uint32_t known[] = {12, 13, 14, 15};
    size_t i, j;
    for (i = 0; i < sizeof known / sizeof known[0]; i++) {
        for (j = 0; j < PLANTED_COUNT; j++) {
            struct media right;
            begin();
            expect_status(set_named("third", 0), SECURESTORE_OK, "planted: one slot is left");
            before = now;
            expect_status(set(known[i]), SECURESTORE_OK, "planted: the chip knows the name");
            right = now;
            plant(set, PLANTED[j].stored);
            check_planted(&PLANTED[j], &right);
        }
    }
}

/* A key is judged in the same way. */
static void test_planted_key(void)
{
    size_t j;
    for (j = 0; j < PLANTED_COUNT; j++) {
        begin();
        expect_status(save_key(14), SECURESTORE_OK, "planted key: the chip knows its name");
        plant(save_key, PLANTED[j].stored);
        expect_status(load_key(), SECURESTORE_ERR_ROLLBACK, "planted key: load_key");
        try_all_flags(save_key, PLANTED[j].set, "planted key: save_key");
        memcpy(now.kv, before.kv, sizeof now.kv);
        expect_status(load_key(), SECURESTORE_ERR_ROLLBACK, "planted key: load_key without the record");
        try_all_flags(save_key, LEFT_OVER, "planted key: save_key without the record");
    }
}

/* A name that the chip does not hold: a planted record is judged by its own flags. Without integrity changed data are not told either. */
static void check_not_in_chip(const char *what)
{
    size_t i;
    for (i = 0; i < FLAGS_COUNT; i++) {
        const int asks = (FLAGS[i] & SECURESTORE_REQUIRE_REPLAY_PROTECTION) != 0, sealed = (FLAGS[i] & SECURESTORE_REQUIRE_INTEGRITY) != 0;
        uint32_t flags = 99;
        plant(set, FLAGS[i]);
        expect_status(get(), asks ? SECURESTORE_ERR_ROLLBACK : SECURESTORE_OK, what);
        expect_status(get_info(&flags), asks ? SECURESTORE_ERR_ROLLBACK : SECURESTORE_OK, what);
        expect(flags == (asks ? 0 : FLAGS[i]), "not in the chip: get_info gives the record's flags");
        card_slot()[68 + 20]++;
        expect_status(get(), sealed ? SECURESTORE_ERR_AUTHENTICATION : SECURESTORE_OK, "not in the chip: changed data");
    }
}

static void test_not_in_chip(void)
{
    begin();
    check_not_in_chip("not in the chip: never");
    begin();
    expect_status(set(14), SECURESTORE_OK, "not in the chip: set");
    expect_status(remove_it(), SECURESTORE_OK, "not in the chip: remove");
    check_not_in_chip("not in the chip: removed");
    begin();
    expect_status(set(14), SECURESTORE_OK, "not in the chip: set");
    memset(now.rbp, 0, sizeof now.rbp);
    check_not_in_chip("not in the chip: another chip");
}

/* Write once while the card has the record, then under a blank card. */
static void test_write_once(void)
{
    size_t i, j;
    for (i = 0; i < FLAGS_COUNT; i++) {
        if (FLAGS[i] & SECURESTORE_WRITE_ONCE) {
            struct media with;
            int in_chip = (FLAGS[i] & SECURESTORE_REQUIRE_REPLAY_PROTECTION) != 0;
            now = BLANK;
            stored_flags = FLAGS[i];
            expect_status(set(FLAGS[i]), SECURESTORE_OK, "write once: set");
            with = now;
            expect_status(remove_it(), SECURESTORE_ERR_ALREADY_EXISTS, "write once: remove");
            for (j = 0; j < FLAGS_COUNT; j++) {
                securestore_status want = in_chip ? LEFT_OVER[j] : FREE[j];
                uint32_t flags = 99;
                now = with;
                expect_status(set(FLAGS[j]), SECURESTORE_ERR_ALREADY_EXISTS, "write once: set again");
                memset(now.kv, 0, sizeof now.kv);
                expect_status(get(), in_chip ? SECURESTORE_ERR_ROLLBACK : SECURESTORE_ERR_NOT_FOUND, "write once: get on a blank card");
                expect_status(set(FLAGS[j]), want, "write once: set on a blank card");
                if (want == SECURESTORE_OK) {
                    expect_status(get_info(&flags), SECURESTORE_OK, "write once: get_info of the new record");
                    expect(flags == FLAGS[j], "write once: get_info gives the new flags");
                }
            }
            now = with;
            expect_status(reset(), SECURESTORE_OK, "write once: reset");
            expect_status(set(FLAGS[i]), SECURESTORE_OK, "write once: the name is free after a reset");
        }
    }
}

static void check_damaged(void)
{
    const struct media damaged = now;
    uint32_t flags;
    size_t i;
    for (i = 0; i < FLAGS_COUNT; i++) {
        expect_status(set(FLAGS[i]), SECURESTORE_ERR_CORRUPT, "0xff: set");
    }
    expect_status(get(), SECURESTORE_ERR_CORRUPT, "0xff: get");
    expect_status(get_info(&flags), SECURESTORE_ERR_CORRUPT, "0xff: get_info");
    expect_status(remove_it(), SECURESTORE_ERR_CORRUPT, "0xff: remove");
    expect_status(find("a"), SECURESTORE_ERR_CORRUPT, "0xff: iterator_next");
    expect_status(save_key(14), SECURESTORE_ERR_CORRUPT, "0xff: save_key");
    expect_status(load_key(), SECURESTORE_ERR_CORRUPT, "0xff: load_key");
    expect(card_is(&damaged) && chip_is(&damaged), "0xff: refusals change nothing");
    expect_status(reset(), SECURESTORE_OK, "0xff: reset");
    expect(card_is(&BLANK) && chip_is(&BLANK), "0xff: reset makes both all zero");
    expect_status(set(14), SECURESTORE_OK, "0xff: set after a reset");
}

static void test_erased_flash(void)
{
    size_t i;
    stored_flags = 0;
    for (i = 0; i < 3; i++) {
        now = BLANK;
        if (i != 0) {
            memset(now.kv, 0xff, sizeof now.kv);
        }
        if (i != 1) {
            memset(now.rbp, 0xff, sizeof now.rbp);
        }
        check_damaged();
    }
    for (i = 0; i < SLOTS; i++) {
        begin();
        memset(now.kv + i * SECURESTORE_KV_SLOT_SIZE, 0xff, SECURESTORE_KV_SLOT_SIZE);
        check_damaged();
        begin();
        memset(now.rbp + i * SECURESTORE_RBP_SLOT_SIZE, 0xff, SECURESTORE_RBP_SLOT_SIZE);
        check_damaged();
    }
    /* A new card beside a chip in use: only the card is made all zero. */
    begin();
    memset(now.kv, 0xff, sizeof now.kv);
    expect_status(set(14), SECURESTORE_ERR_CORRUPT, "0xff: new card");
    memset(now.kv, 0, sizeof now.kv);
    expect(chip_is(&before), "0xff: the chip's contents are kept");
    expect_status(set(14), SECURESTORE_OK, "0xff: set on a new card");
    expect_status(get_named("other"), SECURESTORE_ERR_ROLLBACK, "0xff: the chip still knows the other name");
}

int main(void)
{
    static void (*const tests[])(void) = {test_planted,    test_planted_key,      test_not_in_chip,      test_power_one_write,
                                          test_power,      test_power_write_once, test_power_in_a_write, test_power_at_any_byte,
                                          test_clear_room, test_write_once,       test_erased_flash};
    return run_tests(tests, COUNT_OF(tests));
}
