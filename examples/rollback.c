/* The night of the old card: someone takes the card out, keeps a copy, and puts the copy back later.
 * Every record on the copy is authentic, and still the store refuses it, since the chip knows a newer one.
 * Then someone puts records without protection on a card: the store refuses the one whose name the chip holds. The other it serves, and its flags tell.
 * The program checks every answer, and its exit status is 0 only if all are as the header says. */
#include <stdio.h>
#include <stdlib.h>
#include <string.h>

#include "securestore.h"

#define SLOTS 8u
#define FLAGS (SECURESTORE_REQUIRE_CONFIDENTIALITY | SECURESTORE_REQUIRE_INTEGRITY | SECURESTORE_REQUIRE_REPLAY_PROTECTION)

/* What a box would read from its media. */
static uint8_t card[SLOTS * SECURESTORE_KV_SLOT_SIZE];
static uint8_t chip[SLOTS * SECURESTORE_RBP_SLOT_SIZE];

/* A box has its own device key; a key in a source file is for an example only. */
static const uint8_t DEVICE_KEY[SECURESTORE_DEVICE_KEY_SIZE] = {'t', 'h', 'e', ' ', 'd', 'e', 'v', 'i', 'c', 'e', '\'', 's', ' ', 'k', 'e', 'y'};

static void check(int holds, const char *what)
{
    if (!holds) {
        fprintf(stderr, "rollback: not as expected: %s\n", what);
        exit(1);
    }
}

/* Each set has an IV of its own: a 64-bit big-endian counter, which a box keeps where it cannot be put back. */
static void next_iv(uint8_t iv[SECURESTORE_IV_SIZE])
{
    size_t i = SECURESTORE_IV_SIZE;
    do {
        i--;
        iv[i]++;
    } while (iv[i] == 0 && i > 0);
}

static securestore_status set(const char *name, const char *text)
{
    static uint8_t iv[SECURESTORE_IV_SIZE];
    next_iv(iv);
    return securestore_set(card, sizeof card, chip, sizeof chip, DEVICE_KEY, sizeof DEVICE_KEY, (const uint8_t *)name, strlen(name), FLAGS, iv, sizeof iv,
                           (const uint8_t *)text, strlen(text));
}

/* Reads a record and tells what came of it. Where the chip holds the name, OK means that the record has the CMAC of the last set. */
static securestore_status get(const uint8_t *some_card, const char *name, char *text, size_t size)
{
    size_t count = 1;
    securestore_status status = securestore_get(some_card, sizeof card, chip, sizeof chip, DEVICE_KEY, sizeof DEVICE_KEY, (const uint8_t *)name,
                                                strlen(name), 0, (uint8_t *)text, size - 1, &count);
    check(status == SECURESTORE_OK || count == 0, "a refusal gives count 0");
    text[count] = '\0';
    if (status == SECURESTORE_OK) {
        printf("  %s: \"%s\"\n", name, text);
    } else {
        printf("  %s: refused with %u, %s\n", name, (unsigned)status, securestore_status_text(status));
    }
    return status;
}

/* Whether a record is served and has the flags that this box sets. For a name that the chip may not hold: its record is judged by the flags on the card. */
static int is_protected(const uint8_t *some_card, const char *name)
{
    uint32_t data_size, flags;
    return securestore_get_info(some_card, sizeof card, chip, sizeof chip, DEVICE_KEY, sizeof DEVICE_KEY, (const uint8_t *)name, strlen(name), &data_size,
                                &flags) == SECURESTORE_OK &&
           flags == FLAGS;
}

/* Expects that the data are read and are this text. */
static void expect_text(const uint8_t *some_card, const char *name, const char *want)
{
    char text[SECURESTORE_DATA_MAX + 1];
    check(get(some_card, name, text, sizeof text) == SECURESTORE_OK && strcmp(text, want) == 0, want);
}

/* Expects that the store refuses with this status. */
static void expect_refusal(const uint8_t *some_card, const char *name, securestore_status want)
{
    char text[SECURESTORE_DATA_MAX + 1];
    check(get(some_card, name, text, sizeof text) == want, securestore_status_text(want));
}

/* A name's bytes come from the card and may be any but control bytes and 0x7f: what is not ASCII is shown as \xNN, not sent to the terminal. */
static void print_name(const uint8_t *name, size_t name_len)
{
    size_t i;
    for (i = 0; i < name_len; i++) {
        if (name[i] < 0x7f) {
            putchar(name[i]);
        } else {
            printf("\\x%02x", name[i]);
        }
    }
}

static void list_names(void)
{
    uint8_t name[SECURESTORE_NAME_MAX];
    size_t name_len, slot = 0, found = 0;
    securestore_status status;
    while ((status = securestore_iterator_next(card, sizeof card, chip, sizeof chip, (const uint8_t *)"player/", 7, slot, name, sizeof name, &name_len,
                                               &slot)) == SECURESTORE_OK) {
        printf("  slot %u: ", (unsigned)slot - 1);
        print_name(name, name_len);
        printf("\n");
        found++;
    }
    check(status == SECURESTORE_ERR_NOT_FOUND && found == 2, "the card has two players");
}

/* Two records, a copy of the card, and a newer record of player/1. */
static void play(uint8_t *copy)
{
    printf("Sound check: card and chip are cleared, and two players have their mixes stored.\n");
    check(securestore_reset(card, sizeof card, chip, sizeof chip) == SECURESTORE_OK, "reset");
    check(set("player/1", "sends: cello 3.0, piano 1.0") == SECURESTORE_OK, "set player/1");
    check(set("player/2", "sends: cello 3.0, piano 1.0") == SECURESTORE_OK, "set player/2");
    list_names();
    printf("Someone copies the card.\n");
    memcpy(copy, card, sizeof card);
    printf("Rehearsal: player/1 asks for another mix.\n");
    check(set("player/1", "sends: cello 3.5, piano 0.5") == SECURESTORE_OK, "set player/1 again");
    expect_text(card, "player/1", "sends: cello 3.5, piano 0.5");
}

static void put_back(uint8_t *copy)
{
    uint32_t data_size = 1, flags = 1;
    printf("The copy is put back. Its records are authentic, but the chip knows a newer one of player/1:\n");
    expect_refusal(copy, "player/1", SECURESTORE_ERR_ROLLBACK);
    check(securestore_get_info(copy, sizeof card, chip, sizeof chip, DEVICE_KEY, sizeof DEVICE_KEY, (const uint8_t *)"player/1", 8, &data_size, &flags) ==
              SECURESTORE_ERR_ROLLBACK,
          "so is the question for its size and flags");
    check(data_size == 0 && flags == 0, "a refusal gives zeros");
    printf("player/2 was not set since, so its record is the one that the chip knows:\n");
    expect_text(copy, "player/2", "sends: cello 3.0, piano 1.0");
    printf("An empty card is no way out either:\n");
    memset(copy, 0, sizeof card);
    expect_refusal(copy, "player/1", SECURESTORE_ERR_ROLLBACK);
}

/* A record with flags 0 has no CMAC: it is made without the device key and without the chip. */
static void forge(uint8_t *forged, const char *name, const char *lie)
{
    static const uint8_t no_key[SECURESTORE_DEVICE_KEY_SIZE], no_iv[SECURESTORE_IV_SIZE];
    static uint8_t own_chip[sizeof chip];
    check(securestore_set(forged, sizeof card, own_chip, sizeof own_chip, no_key, sizeof no_key, (const uint8_t *)name, strlen(name), 0, no_iv, sizeof no_iv,
                          (const uint8_t *)lie, strlen(lie)) == SECURESTORE_OK,
          "a record without protection is made");
}

static void put_forged(uint8_t *forged)
{
    memset(forged, 0, sizeof card);
    forge(forged, "player/1", "sends: all muted");
    forge(forged, "player/3", "sends: all muted");
    printf("Someone puts in a card with records that ask for no protection. The chip holds player/1, so that one is refused:\n");
    expect_refusal(forged, "player/1", SECURESTORE_ERR_ROLLBACK);
    printf("Its remove clears the card alone, and the chip still holds the name:\n");
    check(securestore_remove(forged, sizeof card, chip, sizeof chip, (const uint8_t *)"player/1", 8) == SECURESTORE_OK, "the forged record is removed");
    expect_refusal(forged, "player/1", SECURESTORE_ERR_ROLLBACK);
    printf("The chip does not hold player/3, which this box never set, so a get serves it:\n");
    expect_text(forged, "player/3", "sends: all muted");
    check(!is_protected(forged, "player/3"), "its flags are not the ones that this box sets");
    printf("A reader that may meet such names looks at the flags, and sees that nothing protects it.\n");
}

int main(void)
{
    static uint8_t copy[sizeof card];
    play(copy);
    put_back(copy);
    put_forged(copy);
    printf("With the true card all is as it was, and player/1 can leave:\n");
    expect_text(card, "player/1", "sends: cello 3.5, piano 0.5");
    check(is_protected(card, "player/1"), "its flags are the ones that this box sets");
    check(securestore_remove(card, sizeof card, chip, sizeof chip, (const uint8_t *)"player/1", 8) == SECURESTORE_OK, "player/1 leaves");
    expect_refusal(card, "player/1", SECURESTORE_ERR_NOT_FOUND);
    printf("Every answer was as expected.\n");
    return 0;
}
