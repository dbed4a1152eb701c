/* Slots of a card or chip, found and moved by hand as securestore.h says. */
#ifndef SLOTS_H
#define SLOTS_H

#include <stdint.h>
#include <string.h>

/* What an area's slots are: their size, and where the name begins. */
struct layout {
    size_t size, name_at;
};
static const struct layout ON_CARD = {SECURESTORE_KV_SLOT_SIZE, 4}, IN_CHIP = {SECURESTORE_RBP_SLOT_SIZE, 2};

/* Where the slot of a name begins, len if there is none. */
static inline size_t slot_of(const struct layout *of, const uint8_t *area, size_t len, const char *name)
{
    size_t at = 0;
    while (at < len && !(area[at] == 1 && area[at + 1] == strlen(name) && memcmp(area + at + of->name_at, name, strlen(name)) == 0)) {
        at += of->size;
    }
    return at;
}

/* Takes the slot out that begins there: all behind it move one back, and the last is made all zero. Where slot_of found none, there is nothing to take. */
static inline void take_out(const struct layout *of, uint8_t *area, size_t len, size_t at)
{
    if (at >= len) {
        return;
    }
    memmove(area + at, area + at + of->size, len - at - of->size);
    memset(area + len - of->size, 0, of->size);
}

#endif
