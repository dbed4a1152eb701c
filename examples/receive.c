/* A record that arrives over the air: a phone sends a player's mix in small frames, of which one is lost and one is too long.
 * The box sees to the order of the frames, and the store to their size; what is stored at the end is what one set would have stored.
 * The program checks every answer, and its exit status is 0 only if all are as the header says. */
#include <stdio.h>
#include <stdlib.h>
#include <string.h>

#include "securestore.h"

#define SLOTS 8u
#define FLAGS (SECURESTORE_REQUIRE_CONFIDENTIALITY | SECURESTORE_REQUIRE_INTEGRITY | SECURESTORE_REQUIRE_REPLAY_PROTECTION)
#define NAME "player/1"
#define MIX "sends: cello 3.0, piano 1.0, flute 0.5, harp 2.0"

/* What a box would read from its media, and the same for a second box, which gets the record in one piece. */
static uint8_t card[SLOTS * SECURESTORE_KV_SLOT_SIZE], chip[SLOTS * SECURESTORE_RBP_SLOT_SIZE];
static uint8_t other_card[sizeof card], other_chip[sizeof chip];

/* A box has its own device key; a key in a source file is for an example only. */
static const uint8_t DEVICE_KEY[SECURESTORE_DEVICE_KEY_SIZE] = {'t', 'h', 'e', ' ', 'd', 'e', 'v', 'i', 'c', 'e', '\'', 's', ' ', 'k', 'e', 'y'};

/* Each record has an IV of its own: a 64-bit big-endian counter, which a box keeps where it cannot be put back. */
static uint8_t iv[SECURESTORE_IV_SIZE];

static void next_iv(void)
{
    size_t i = sizeof iv;
    do {
        i--;
        iv[i]++;
    } while (iv[i] == 0 && i > 0);
}

/* The record that is on its way, and the number of the frame that comes next. */
static struct {
    uint8_t handle[SECURESTORE_SET_HANDLE_SIZE], staging[SECURESTORE_STAGING_SIZE];
    unsigned next;
} record;

static void check(int holds, const char *what)
{
    if (!holds) {
        fprintf(stderr, "receive: not as expected: %s\n", what);
        exit(1);
    }
}

/* A frame: its number (2 bytes, little-endian), how many bytes it carries (1), then these.
 * Frame 0 opens a record, whatever was on its way, and carries the size of its data (2 bytes, little-endian) and its name. The others carry data; an
 * empty one closes the record. */
enum { HEAD = 3, FIRST_HEAD = 2 };

static unsigned two_bytes(const uint8_t *at)
{
    return at[0] + 256u * at[1];
}

/* What the box does with a frame. */
enum outcome { TAKEN, STORED, REFUSED, DROPPED };

/* Name and size are the phone's, flags and IV the box's own: whoever chooses the flags could ask for no protection. */
static securestore_status first_frame(const uint8_t *bytes, size_t len)
{
    record.next = 0;
    next_iv();
    return securestore_set_start(bytes + FIRST_HEAD, len - FIRST_HEAD, FLAGS, iv, sizeof iv, two_bytes(bytes), record.handle);
}

static securestore_status next_frame(const uint8_t *bytes, size_t len)
{
    return securestore_set_add_data(record.handle, record.staging, sizeof record.staging, bytes, len);
}

/* Where this is done, a box writes chip and card back, the chip first. */
static securestore_status last_frame(void)
{
    return securestore_set_finalize(card, sizeof card, chip, sizeof chip, DEVICE_KEY, sizeof DEVICE_KEY, record.handle, record.staging,
                                    sizeof record.staging);
}

/* A frame is anybody's bytes, so it is judged before it is used. The store does not number chunks: order and loss are seen here. */
static enum outcome receive(const uint8_t *frame, size_t frame_len, securestore_status *status)
{
    const uint8_t *bytes;
    size_t len;
    unsigned number;
    *status = SECURESTORE_OK;
    if (frame_len < HEAD || frame_len - HEAD != frame[2]) {
        return DROPPED;
    }
    number = two_bytes(frame);
    bytes = frame + HEAD;
    len = frame_len - HEAD;
    if (number == 0 ? len < FIRST_HEAD : number != record.next) {
        return DROPPED;
    }
    *status = number == 0 ? first_frame(bytes, len) : len > 0 ? next_frame(bytes, len) : last_frame();
    if (*status != SECURESTORE_OK) {
        return REFUSED;
    }
    record.next = number + 1;
    return number > 0 && len == 0 ? STORED : TAKEN;
}

/* What the phone sends, with what the box is to do. */
#define FRAME(bytes) bytes, sizeof bytes - 1
static const struct {
    const char *story, *frame;
    size_t frame_len;
    enum outcome outcome;
    securestore_status status;
} SCRIPT[] = {
    {"Frame 0: " NAME ", 481 bytes to come, which is more than a record holds.", FRAME("\0\0\x0a\xe1\x01" NAME), REFUSED, SECURESTORE_ERR_DATA_SIZE},
    {"Frame 0 anew: 48 bytes to come.", FRAME("\0\0\x0a\x30\0" NAME), TAKEN, SECURESTORE_OK},
    {"Frame 1, 16 bytes.", FRAME("\1\0\x10" "sends: cello 3.0"), TAKEN, SECURESTORE_OK},
    {"Frame 2 is lost in the air, so frame 3 comes out of turn.", FRAME("\3\0\x10" "te 0.5, harp 2.0"), DROPPED, SECURESTORE_OK},
    {"Frame 2 is sent again, 16 bytes.", FRAME("\2\0\x10" ", piano 1.0, flu"), TAKEN, SECURESTORE_OK},
    {"The phone missed the answer: frame 2 once more.", FRAME("\2\0\x10" ", piano 1.0, flu"), DROPPED, SECURESTORE_OK},
    {"A frame that was cut short: it says 16 bytes and carries 6.", FRAME("\3\0\x10" "te 0.5"), DROPPED, SECURESTORE_OK},
    {"Frame 3, 22 bytes: past the 48 that were declared.", FRAME("\3\0\x16" "te 0.5, harp 2.0, +6.0"), REFUSED, SECURESTORE_ERR_TRANSFER_SIZE},
    {"An empty frame 3: the phone says that this is all.", FRAME("\3\0\0"), REFUSED, SECURESTORE_ERR_TRANSFER_SIZE},
    {"Frame 3 as it should be, 16 bytes.", FRAME("\3\0\x10" "te 0.5, harp 2.0"), TAKEN, SECURESTORE_OK},
    {"An empty frame 4: this is all.", FRAME("\4\0\0"), STORED, SECURESTORE_OK},
};

static void tell(enum outcome outcome, securestore_status status)
{
    switch (outcome) {
    case TAKEN:
        printf("  taken: %u of %u bytes are held\n", two_bytes(record.handle + SECURESTORE_SET_HANDLE_COUNT_AT),
               two_bytes(record.handle + SECURESTORE_SET_HANDLE_FINAL_DATA_SIZE_AT));
        break;
    case STORED:
        printf("  stored\n");
        break;
    case REFUSED:
        printf("  refused by the store with %u, %s\n", (unsigned)status, securestore_status_text(status));
        break;
    case DROPPED:
        printf("  dropped by the box, which waits for frame %u\n", record.next);
        break;
    }
}

/* All frames, in the order in which they come. Of a record on its way nothing is on the media, and a chunk that is not taken leaves it
 * as it was; a frame 0 begins anew, and refused it leaves an empty handle. */
static void play(void)
{
    static const uint8_t blank[sizeof card];
    size_t i;
    for (i = 0; i < sizeof SCRIPT / sizeof SCRIPT[0]; i++) {
        uint8_t handle[sizeof record.handle], staging[sizeof record.staging];
        securestore_status status;
        enum outcome outcome;
        memcpy(handle, record.handle, sizeof handle);
        memcpy(staging, record.staging, sizeof staging);
        printf("%s\n", SCRIPT[i].story);
        outcome = receive((const uint8_t *)SCRIPT[i].frame, SCRIPT[i].frame_len, &status);
        tell(outcome, status);
        check(outcome == SCRIPT[i].outcome && status == SCRIPT[i].status, SCRIPT[i].story);
        check(outcome == TAKEN || (memcmp(handle, record.handle, sizeof handle) == 0 && memcmp(staging, record.staging, sizeof staging) == 0),
              "what is held is as it was");
        check(outcome == STORED || (memcmp(card, blank, sizeof card) == 0 && memcmp(chip, blank, sizeof chip) == 0), "nothing is stored before the end");
    }
}

/* The staging buffer has the mix in plaintext, and the library wipes nothing. By a volatile pointer, so that no compiler leaves it out. */
static void wipe(void *memory, size_t len)
{
    volatile uint8_t *bytes = (volatile uint8_t *)memory;
    while (len > 0) {
        bytes[--len] = 0;
    }
}

/* The chip holds the name, so a get hands out no other record than the one whose CMAC the chip has. */
static void read_back(void)
{
    char text[SECURESTORE_DATA_MAX + 1];
    uint32_t data_size, flags;
    size_t count;
    check(securestore_get_info(card, sizeof card, chip, sizeof chip, DEVICE_KEY, sizeof DEVICE_KEY, (const uint8_t *)NAME, strlen(NAME), &data_size, &flags) ==
                  SECURESTORE_OK &&
              flags == FLAGS && data_size == strlen(MIX),
          "size and flags of the record");
    check(securestore_get(card, sizeof card, chip, sizeof chip, DEVICE_KEY, sizeof DEVICE_KEY, (const uint8_t *)NAME, strlen(NAME), 0, (uint8_t *)text,
                          sizeof text - 1, &count) == SECURESTORE_OK,
          "get");
    text[count] = '\0';
    printf("Read back, %s: \"%s\"\n", NAME, text);
    check(strcmp(text, MIX) == 0, "the record has the mix");
}

/* A second box is given the same record in one piece. It has the same key and the same IV here, so that the bytes can be compared. */
static void compare(void)
{
    check(securestore_set(other_card, sizeof other_card, other_chip, sizeof other_chip, DEVICE_KEY, sizeof DEVICE_KEY, (const uint8_t *)NAME, strlen(NAME),
                          FLAGS, iv, sizeof iv, (const uint8_t *)MIX, strlen(MIX)) == SECURESTORE_OK,
          "set at once");
    check(memcmp(card, other_card, sizeof card) == 0 && memcmp(chip, other_chip, sizeof chip) == 0, "card and chip are those of one set");
    printf("Set at once on a second card, the record gives the same card and the same chip, byte for byte.\n");
}

int main(void)
{
    printf("A phone sends a mix of %u bytes in frames.\n", (unsigned)strlen(MIX));
    check(securestore_reset(card, sizeof card, chip, sizeof chip) == SECURESTORE_OK, "reset");
    play();
    wipe(&record, sizeof record);
    check(last_frame() == SECURESTORE_ERR_INVALID_NAME, "a handle that was wiped stores nothing");
    printf("The mix is wiped from the box's memory.\n");
    read_back();
    compare();
    printf("Every answer was as expected.\n");
    return 0;
}
