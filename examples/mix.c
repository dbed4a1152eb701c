/* A player is cut off and comes back: the box keeps the player's mix as a record, and the phone, which knows only its session number, gets it back.
 * The floats come back bit for bit, minus zero too. A session that two records hold is refused, and so is one that none holds.
 * The program checks every answer, and its exit status is 0 only if all are as the header says. */
#include <stdio.h>
#include <stdlib.h>
#include <string.h>

#include "securestore.h"

#define SLOTS 8u
#define FLAGS (SECURESTORE_REQUIRE_CONFIDENTIALITY | SECURESTORE_REQUIRE_INTEGRITY | SECURESTORE_REQUIRE_REPLAY_PROTECTION)
#define SENDS_MAX SECURESTORE_MIX_SENDS_MAX

/* What a box would read from its media. */
static uint8_t card[SLOTS * SECURESTORE_KV_SLOT_SIZE], chip[SLOTS * SECURESTORE_RBP_SLOT_SIZE];

/* A box has its own device key; a key in a source file is for an example only. */
static const uint8_t DEVICE_KEY[SECURESTORE_DEVICE_KEY_SIZE] = {'t', 'h', 'e', ' ', 'd', 'e', 'v', 'i', 'c', 'e', '\'', 's', ' ', 'k', 'e', 'y'};

/* A mix as the box works with it. */
struct mix {
    uint64_t session_id;
    size_t sends;
    uint8_t tags[SENDS_MAX];
    float levels[SENDS_MAX], pans[SENDS_MAX];
};

static void check(int holds, const char *what)
{
    if (!holds) {
        fprintf(stderr, "mix: not as expected: %s\n", what);
        exit(1);
    }
}

/* Each record has an IV of its own: a 64-bit big-endian counter, which a box keeps where it cannot be put back. */
static void next_iv(uint8_t iv[SECURESTORE_IV_SIZE])
{
    size_t i = SECURESTORE_IV_SIZE;
    do {
        i--;
        iv[i]++;
    } while (iv[i] == 0 && i > 0);
}

/* Where this is done, a box writes chip and card back, the chip first. */
static securestore_status keep(const char *name, const struct mix *m)
{
    static uint8_t iv[SECURESTORE_IV_SIZE];
    uint8_t bytes[SECURESTORE_MIX_MAX];
    size_t count;
    securestore_status status =
        securestore_encode_mix(m->session_id, m->tags, m->sends, m->levels, m->sends, m->pans, m->sends, bytes, sizeof bytes, &count);
    if (status == SECURESTORE_OK) {
        next_iv(iv);
        status = securestore_store_mix(card, sizeof card, chip, sizeof chip, DEVICE_KEY, sizeof DEVICE_KEY, (const uint8_t *)name, strlen(name), FLAGS, iv,
                                       sizeof iv, bytes, count);
    }
    printf("  %s: %s\n", name, status == SECURESTORE_OK ? "kept" : securestore_status_text(status));
    return status;
}

/* Whoever gives the number is given the mix: that it is the right player, a box asks before this. */
static securestore_status reconnect(uint64_t session_id, struct mix *m)
{
    uint8_t bytes[SECURESTORE_MIX_MAX];
    size_t count;
    securestore_status status =
        securestore_find_mix(card, sizeof card, chip, sizeof chip, DEVICE_KEY, sizeof DEVICE_KEY, session_id, bytes, sizeof bytes, &count);
    if (status == SECURESTORE_OK) {
        status = securestore_decode_mix(bytes, count, &m->session_id, m->tags, SENDS_MAX, m->levels, SENDS_MAX, m->pans, SENDS_MAX, &m->sends);
        check(status == SECURESTORE_OK, "what find_mix gives is a mix");
    } else {
        check(count == 0, "a refusal gives count 0");
        printf("  refused with %u, %s\n", (unsigned)status, securestore_status_text(status));
    }
    return status;
}

static void show(const struct mix *m)
{
    size_t i;
    for (i = 0; i < m->sends; i++) {
        printf("  send %u: ", (unsigned)i);
        switch (m->tags[i]) {
        case SECURESTORE_SEND_MUTED:
            printf("muted\n");
            break;
        case SECURESTORE_SEND_LEVEL:
            printf("level %g\n", (double)m->levels[i]);
            break;
        default:
            printf("level %g, pan %g\n", (double)m->levels[i], (double)m->pans[i]);
            break;
        }
    }
}

static uint32_t bits(float x)
{
    uint32_t n;
    memcpy(&n, &x, sizeof n);
    return n;
}

/* Bit for bit, since -0 == 0. */
static int same(const struct mix *a, const struct mix *b)
{
    return a->session_id == b->session_id && a->sends == b->sends && memcmp(a->tags, b->tags, a->sends) == 0 &&
           memcmp(a->levels, b->levels, a->sends * sizeof(float)) == 0 && memcmp(a->pans, b->pans, a->sends * sizeof(float)) == 0;
}

int main(void)
{
    static const struct mix cello = {1001, 3, {SECURESTORE_SEND_LEVEL_PAN, SECURESTORE_SEND_LEVEL, SECURESTORE_SEND_MUTED}, {3.5f, 0.1f}, {-0.0f}};
    static const struct mix piano = {1002, 1, {SECURESTORE_SEND_LEVEL}, {4.0f}, {0.0f}};
    struct mix working = cello, other;

    check(securestore_reset(card, sizeof card, chip, sizeof chip) == SECURESTORE_OK, "reset");
    printf("Two players have their mixes kept:\n");
    check(keep("mix/cello", &working) == SECURESTORE_OK, "the cello's mix is kept");
    check(keep("mix/piano", &piano) == SECURESTORE_OK, "the piano's mix is kept");

    printf("The cello's connection is lost, and its mix is gone from the box's memory. The phone comes back with session 1001:\n");
    memset(&working, 0xff, sizeof working);
    check(reconnect(1001, &working) == SECURESTORE_OK, "session 1001 is found");
    show(&working);
    check(same(&working, &cello), "the mix is as it was, bit for bit");
    check(bits(working.pans[0]) == 0x80000000u, "minus zero has kept its sign");

    printf("A session that nobody has:\n");
    check(reconnect(1003, &working) == SECURESTORE_ERR_NOT_FOUND, "session 1003 is not found");

    printf("A level of 4.5 is out of range, and a mix is kept under no other name than mix/..:\n");
    other = piano;
    other.levels[0] = 4.5f;
    check(keep("mix/piano", &other) == SECURESTORE_ERR_INVALID_MIX, "a level over 4");
    check(keep("piano", &piano) == SECURESTORE_ERR_INVALID_NAME, "another name");

    printf("By mistake the flute is given the piano's session, so nothing tells which of the two is meant:\n");
    check(keep("mix/flute", &piano) == SECURESTORE_OK, "a second mix of session 1002");
    check(reconnect(1002, &other) == SECURESTORE_ERR_AMBIGUOUS, "session 1002 is doubled");
    printf("With a number of its own for the flute, each is found:\n");
    other = piano;
    other.session_id = 1004;
    check(keep("mix/flute", &other) == SECURESTORE_OK, "the flute's own session");
    check(reconnect(1002, &working) == SECURESTORE_OK && same(&working, &piano), "the piano's mix");
    check(reconnect(1004, &working) == SECURESTORE_OK && same(&working, &other), "the flute's mix");
    show(&working);

    printf("Every answer was as expected.\n");
    return 0;
}
