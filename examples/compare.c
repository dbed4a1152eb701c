/* Two boxes hold the same records, set in another order: their cards are equal byte for byte, and so are their chips. After a change one pass over both cards
 * tells which names differ. Then a card and a chip of an older version, whose slots stand in the order of its sets, are brought into order.
 * The program checks every answer, and its exit status is 0 only if all are as the header says. */
#include <stdio.h>
#include <stdlib.h>
#include <string.h>

#include "securestore.h"

#define SLOTS 4u
#define FLAGS (SECURESTORE_REQUIRE_INTEGRITY | SECURESTORE_REQUIRE_REPLAY_PROTECTION)

/* What a box would read from its media. */
struct box {
    uint8_t card[SLOTS * SECURESTORE_KV_SLOT_SIZE], chip[SLOTS * SECURESTORE_RBP_SLOT_SIZE];
};

/* Both boxes have one device key here; with another one each CMAC would be another. A key in a source file is for an example only. */
static const uint8_t DEVICE_KEY[SECURESTORE_DEVICE_KEY_SIZE] = {'t', 'h', 'e', ' ', 'd', 'e', 'v', 'i', 'c', 'e', '\'', 's', ' ', 'k', 'e', 'y'};

static void check(int holds, const char *what)
{
    if (!holds) {
        fprintf(stderr, "compare: not as expected: %s\n", what);
        exit(1);
    }
}

/* Without confidentiality no IV is stored. With it the IVs would have to agree, too. */
static void set(struct box *b, const char *name, const char *text)
{
    static const uint8_t iv[SECURESTORE_IV_SIZE];
    check(securestore_set(b->card, sizeof b->card, b->chip, sizeof b->chip, DEVICE_KEY, sizeof DEVICE_KEY, (const uint8_t *)name, strlen(name), FLAGS, iv,
                          sizeof iv, (const uint8_t *)text, strlen(text)) == SECURESTORE_OK,
          name);
}

static void remove_named(struct box *b, const char *name)
{
    check(securestore_remove(b->card, sizeof b->card, b->chip, sizeof b->chip, (const uint8_t *)name, strlen(name)) == SECURESTORE_OK, name);
}

static int equal(const struct box *a, const struct box *b)
{
    return memcmp(a->card, b->card, sizeof a->card) == 0 && memcmp(a->chip, b->chip, sizeof a->chip) == 0;
}

/* A walk over a card: the name that it stands at, of length 0 at the end, and the slot behind it. */
struct walk {
    const struct box *box;
    uint8_t name[SECURESTORE_NAME_MAX];
    size_t name_len, next_slot;
};

static void step(struct walk *w)
{
    securestore_status status = securestore_iterator_next(w->box->card, sizeof w->box->card, w->box->chip, sizeof w->box->chip, (const uint8_t *)"", 0,
                                                          w->next_slot, w->name, sizeof w->name, &w->name_len, &w->next_slot);
    check(status == SECURESTORE_OK || status == SECURESTORE_ERR_NOT_FOUND, "a step of a walk");
}

static struct walk begin(const struct box *box)
{
    struct walk w;
    w.box = box;
    w.next_slot = 0;
    step(&w);
    return w;
}

static const uint8_t *slot(const struct walk *w)
{
    return w->box->card + (w->next_slot - 1) * SECURESTORE_KV_SLOT_SIZE;
}

/* The order of the store: unsigned bytes, a prefix first; a walk that is at its end comes last. */
static int compare(const struct walk *a, const struct walk *b)
{
    size_t shorter = a->name_len < b->name_len ? a->name_len : b->name_len;
    int by_bytes = memcmp(a->name, b->name, shorter);
    if (a->name_len == 0 || b->name_len == 0) {
        return (a->name_len == 0) - (b->name_len == 0);
    }
    return by_bytes != 0 ? by_bytes : (a->name_len > b->name_len) - (a->name_len < b->name_len);
}

/* Both cards are in order, so a name that one of them lacks is seen at once, and one pass is enough. */
static unsigned differences(const struct box *a, const struct box *b)
{
    struct walk left = begin(a), right = begin(b);
    unsigned found = 0;
    while (left.name_len > 0 || right.name_len > 0) {
        int order = compare(&left, &right);
        const struct walk *shown = order <= 0 ? &left : &right;
        const char *what = order < 0 ? "on the first card alone" : order > 0 ? "on the second card alone" : "differs";
        if (order != 0 || memcmp(slot(&left), slot(&right), SECURESTORE_KV_SLOT_SIZE) != 0) {
            printf("  %.*s: %s\n", (int)shown->name_len, (const char *)shown->name, what);
            found++;
        }
        if (order <= 0) {
            step(&left);
        }
        if (order >= 0) {
            step(&right);
        }
    }
    return found;
}

/* Used slots first, in the order of their names: behind a name its field is zero, and no name holds a zero, so all 64 bytes can be compared. */
static int compare_slots(const uint8_t *a, const uint8_t *b, size_t name_at)
{
    return (a[0] == 0) != (b[0] == 0) ? (a[0] == 0) - (b[0] == 0) : memcmp(a + name_at, b + name_at, SECURESTORE_NAME_MAX);
}

static int compare_on_card(const void *a, const void *b)
{
    return compare_slots((const uint8_t *)a, (const uint8_t *)b, 4);
}

static int compare_in_chip(const void *a, const void *b)
{
    return compare_slots((const uint8_t *)a, (const uint8_t *)b, 2);
}

/* Makes of an older version's card and chip what this version reads. A box writes both back afterwards, to another place than where they are. */
static void bring_into_order(struct box *b)
{
    qsort(b->card, SLOTS, SECURESTORE_KV_SLOT_SIZE, compare_on_card);
    qsort(b->chip, SLOTS, SECURESTORE_RBP_SLOT_SIZE, compare_in_chip);
}

/* As an older version left them: Harp before Cello, and a hole between them where something was removed. */
static void make_old(struct box *old, const struct box *from)
{
    memset(old, 0, sizeof *old);
    memcpy(old->card, from->card + SECURESTORE_KV_SLOT_SIZE, SECURESTORE_KV_SLOT_SIZE);
    memcpy(old->card + 2 * SECURESTORE_KV_SLOT_SIZE, from->card, SECURESTORE_KV_SLOT_SIZE);
    memcpy(old->chip, from->chip + SECURESTORE_RBP_SLOT_SIZE, SECURESTORE_RBP_SLOT_SIZE);
    memcpy(old->chip + 2 * SECURESTORE_RBP_SLOT_SIZE, from->chip, SECURESTORE_RBP_SLOT_SIZE);
}

int main(void)
{
    static struct box first, second, old;
    uint8_t text[SECURESTORE_DATA_MAX];
    size_t count;
    printf("Two boxes are given the same two records, the second one in another order, and something else for a while.\n");
    set(&first, "Cello", "sends: cello 3.0");
    set(&first, "Harp", "sends: harp 1.0");
    set(&second, "Harp", "sends: harp 1.0");
    set(&second, "Flute", "sends: all muted");
    set(&second, "Cello", "sends: cello 3.0");
    remove_named(&second, "Flute");
    check(equal(&first, &second), "the images are equal");
    printf("Their cards and chips are equal, byte for byte.\n");

    make_old(&old, &first);
    set(&second, "Cello", "sends: cello 3.5");
    set(&second, "Piano", "sends: piano 1.0");
    printf("The second box changes one record and adds one:\n");
    check(!equal(&first, &second) && differences(&first, &second) == 2, "two names differ");

    printf("A card of an older version has the first box's records, in the order in which they were set, and a hole:\n");
    check(securestore_get(old.card, sizeof old.card, old.chip, sizeof old.chip, DEVICE_KEY, sizeof DEVICE_KEY, (const uint8_t *)"Harp", 4, 0, text,
                          sizeof text, &count) == SECURESTORE_ERR_CORRUPT,
          "any other order is damage");
    printf("  refused with %u, %s\n", (unsigned)SECURESTORE_ERR_CORRUPT, securestore_status_text(SECURESTORE_ERR_CORRUPT));
    bring_into_order(&old);
    check(equal(&old, &first), "sorted it is the first box's");
    printf("With its slots sorted it is the first box's card, byte for byte.\n");
    printf("Every answer was as expected.\n");
    return 0;
}
