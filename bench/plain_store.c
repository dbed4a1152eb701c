/* Get, set and remove with the store's tests in the store's order. Used slots stand at the front in the order of their names, so names are compared with
 * their neighbours alone, looked up by halving, and shifted by memmove. */
#include <string.h>

#include "plain.h"

struct format {
    size_t slot, name, payload, payload_len;
};

static const struct format KV = {584, 4, 68, 516}, RBP = {82, 2, 66, 16};

static uint32_t number(const uint8_t *p, unsigned bytes)
{
    uint32_t n = 0;
    while (0 < bytes) {
        n = n << 8 | p[--bytes];
    }
    return n;
}

static int all_zero(const uint8_t *p, size_t n)
{
    uint8_t seen = 0;
    size_t i;
    for (i = 0; i < n; i++) {
        seen |= p[i];
    }
    return seen == 0;
}

static int good_name(const uint8_t *name, size_t len)
{
    size_t i;
    if (len < 1 || 64 < len) {
        return 0;
    }
    for (i = 0; i < len; i++) {
        if (name[i] < 0x20 || name[i] == 0x7f) {
            return 0;
        }
    }
    return 1;
}

static int sized(const struct format *f, size_t len)
{
    return len % f->slot == 0 && 1 <= len / f->slot && len / f->slot <= 64;
}

static size_t payload_len(const struct format *f, const uint8_t *s)
{
    return f == &KV ? number(s + 2, 2) : f->payload_len;
}

static int slot_valid(const struct format *f, const uint8_t *s)
{
    size_t n;
    if (s[0] == 0) {
        return all_zero(s, f->slot);
    }
    n = payload_len(f, s);
    return s[0] == 1 && s[1] <= 64 && good_name(s + f->name, s[1]) && n <= f->payload_len && all_zero(s + f->name + s[1], 64u - s[1]) &&
           all_zero(s + f->payload + n, f->payload_len - n);
}

/* Less than, equal to or greater than 0, as strcmp: unsigned bytes, a prefix first. */
static int order(const uint8_t *a, size_t a_len, const uint8_t *b, size_t b_len)
{
    int by_bytes = memcmp(a, b, a_len < b_len ? a_len : b_len);
    return by_bytes != 0 ? by_bytes : (int)a_len - (int)b_len;
}

static int slots_ordered(const struct format *f, const uint8_t *a, const uint8_t *b)
{
    return order(a + f->name, a[1], b + f->name, b[1]) < 0;
}

/* What one pass over an area finds: where its used slots end; or that it is damaged. */
#define DAMAGED ((size_t)-1)

static size_t used_end(const struct format *f, const uint8_t *area, size_t len)
{
    size_t at, end = 0;
    for (at = 0; at < len; at += f->slot) {
        const uint8_t *s = area + at;
        if (!slot_valid(f, s)) {
            return DAMAGED;
        }
        if (s[0] == 1) {
            if (end != at || (0 < at && !slots_ordered(f, s - f->slot, s))) {
                return DAMAGED;
            }
            end = at + f->slot;
        }
    }
    return end;
}

/* Where a name stands, or would stand, among the used slots. */
struct place {
    size_t at;
    int held;
};

static struct place find(const struct format *f, const uint8_t *area, size_t end, const uint8_t *name, size_t name_len)
{
    struct place p = {0, 0};
    size_t low = 0, high = end / f->slot;
    while (low < high) {
        size_t middle = (low + high) / 2;
        const uint8_t *s = area + middle * f->slot;
        int by = order(s + f->name, s[1], name, name_len);
        if (by == 0) {
            low = middle;
            p.held = 1;
            break;
        }
        if (by < 0) {
            low = middle + 1;
        } else {
            high = middle;
        }
    }
    p.at = low * f->slot;
    return p;
}

static int good_flags(uint32_t flags)
{
    return flags < 16 && (!(flags & 8) || (flags & 4));
}

static int record_valid(const uint8_t *r, size_t len)
{
    return 36 <= len && number(r, 2) == 20 && number(r + 2, 2) == 1 && good_flags(number(r + 8, 4)) && number(r + 4, 4) <= 480 &&
           len == number(r + 4, 4) + 36 && ((r[8] & 2) || all_zero(r + 12, 8)) && ((r[8] & 4) || all_zero(r + len - 16, 16));
}

/* The CMAC covers the name, then what stands before it in the record. */
static void record_tag(const uint8_t *device_key, const uint8_t *name, size_t name_len, const uint8_t *r, size_t covered, uint8_t tag[16])
{
    uint8_t key[16], message[64 + 500];
    plain_derive(device_key, (const uint8_t *)"AUTH", 4, name, name_len, key);
    memcpy(message, name, name_len);
    memcpy(message + name_len, r, covered);
    plain_cmac(key, message, name_len + covered, tag);
}

static int same_tag(const uint8_t *a, const uint8_t *b)
{
    uint8_t diff = 0;
    unsigned i;
    for (i = 0; i < 16; i++) {
        diff |= (uint8_t)(a[i] ^ b[i]);
    }
    return diff == 0;
}

static uint32_t judge(const uint8_t *r, size_t len, const uint8_t *chip_tag, const uint8_t *device_key, const uint8_t *name, size_t name_len)
{
    uint8_t tag[16];
    if (!record_valid(r, len)) {
        return 8;
    }
    if (r[8] & 4) {
        record_tag(device_key, name, name_len, r, len - 16, tag);
        if (!same_tag(tag, r + len - 16)) {
            return 11;
        }
    }
    if (r[8] & 8) {
        return chip_tag != NULL && same_tag(chip_tag, r + len - 16) ? 0 : 12;
    }
    return chip_tag == NULL ? 0 : 12;
}

/* What the calls have in common: the tests of lengths, media and name, then where the name is on card and chip. */
struct found {
    size_t kv_end, rbp_end;
    struct place kv, rbp;
};

static uint32_t guard(const uint8_t *kv, size_t kv_len, const uint8_t *rbp, size_t rbp_len, int lengths, const uint8_t *name, size_t name_len,
                      struct found *found)
{
    if (!sized(&KV, kv_len) || !sized(&RBP, rbp_len) || !lengths) {
        return 1;
    }
    found->kv_end = used_end(&KV, kv, kv_len);
    if (found->kv_end == DAMAGED) {
        return 2;
    }
    found->rbp_end = used_end(&RBP, rbp, rbp_len);
    if (found->rbp_end == DAMAGED) {
        return 2;
    }
    if (!good_name(name, name_len)) {
        return 3;
    }
    found->kv = find(&KV, kv, found->kv_end, name, name_len);
    found->rbp = find(&RBP, rbp, found->rbp_end, name, name_len);
    return 0;
}

static void hand_out(const uint8_t *r, const uint8_t *device_key, const uint8_t *name, size_t name_len, size_t offset, uint8_t *output, size_t count)
{
    uint8_t key[16], data[480];
    size_t size = number(r + 4, 4);
    memcpy(data, r + 20, size);
    if (r[8] & 2) {
        plain_derive(device_key, (const uint8_t *)"ENC", 3, name, name_len, key);
        plain_ctr(key, r + 12, data, size);
    }
    memcpy(output, data + offset, count);
}

uint32_t plain_get(const uint8_t *kv, size_t kv_len, const uint8_t *rbp, size_t rbp_len, const uint8_t *device_key, size_t device_key_len,
                   const uint8_t *name, size_t name_len, size_t offset, uint8_t *output, size_t output_len, size_t *count)
{
    struct found found;
    uint32_t status = guard(kv, kv_len, rbp, rbp_len, device_key_len == 16, name, name_len, &found);
    const uint8_t *s, *r;
    size_t left;
    *count = 0;
    if (status != 0) {
        return status;
    }
    if (!found.kv.held) {
        return found.rbp.held ? 12 : 6;
    }
    s = kv + found.kv.at;
    r = s + KV.payload;
    status = judge(r, payload_len(&KV, s), found.rbp.held ? rbp + found.rbp.at + RBP.payload : NULL, device_key, name, name_len);
    if (status != 0) {
        return status;
    }
    if (number(r + 4, 4) < offset) {
        return 14;
    }
    left = number(r + 4, 4) - offset;
    *count = output_len < left ? output_len : left;
    hand_out(r, device_key, name, name_len, offset, output, *count);
    return 0;
}

/* Of a set of a name that the card holds. */
static uint32_t set_held(const uint8_t *s, uint32_t flags)
{
    const uint8_t *r = s + KV.payload;
    if (!record_valid(r, payload_len(&KV, s))) {
        return 8;
    }
    if ((r[8] & 1) || (flags & 1)) {
        return 7;
    }
    return number(r + 8, 4) == flags ? 0 : 9;
}

static void put_slot(const struct format *f, uint8_t *s, const uint8_t *name, size_t name_len, const uint8_t *payload, size_t len)
{
    memset(s, 0, f->slot);
    s[0] = 1;
    s[1] = (uint8_t)name_len;
    if (f == &KV) {
        s[2] = (uint8_t)len;
        s[3] = (uint8_t)(len >> 8);
    }
    memcpy(s + f->name, name, name_len);
    memcpy(s + f->payload, payload, len);
}

/* Writes the name's slot; a new name's is put in its place, and the used slots behind that move one on. */
static void put_at(const struct format *f, uint8_t *area, size_t end, struct place p, const uint8_t *name, size_t name_len, const uint8_t *payload,
                   size_t len)
{
    if (!p.held) {
        memmove(area + p.at + f->slot, area + p.at, end - p.at);
    }
    put_slot(f, area + p.at, name, name_len, payload, len);
}

/* Takes a slot out: the used ones behind it close up, and the last of them becomes free. */
static void take_out(const struct format *f, uint8_t *area, size_t end, size_t at)
{
    memmove(area + at, area + at + f->slot, end - at - f->slot);
    memset(area + end - f->slot, 0, f->slot);
}

static void seal(uint8_t r[516], const uint8_t *device_key, const uint8_t *name, size_t name_len, uint32_t flags, const uint8_t *iv, const uint8_t *data,
                 size_t data_len)
{
    uint8_t key[16];
    r[0] = 20;
    r[2] = 1;
    r[4] = (uint8_t)data_len;
    r[5] = (uint8_t)(data_len >> 8);
    r[8] = (uint8_t)flags;
    memcpy(r + 20, data, data_len);
    if (flags & 2) {
        memcpy(r + 12, iv, 8);
        plain_derive(device_key, (const uint8_t *)"ENC", 3, name, name_len, key);
        plain_ctr(key, iv, r + 20, data_len);
    }
    if (flags & 4) {
        record_tag(device_key, name, name_len, r, 20 + data_len, r + 20 + data_len);
    }
}

uint32_t plain_set(uint8_t *kv, size_t kv_len, uint8_t *rbp, size_t rbp_len, const uint8_t *device_key, size_t device_key_len, const uint8_t *name,
                   size_t name_len, uint32_t flags, const uint8_t *iv, size_t iv_len, const uint8_t *data, size_t data_len)
{
    uint8_t r[516] = {0};
    struct found found;
    uint32_t status = guard(kv, kv_len, rbp, rbp_len, device_key_len == 16 && iv_len == 8, name, name_len, &found);
    if (status != 0) {
        return status;
    }
    if (!good_flags(flags)) {
        return 4;
    }
    if (480 < data_len) {
        return 5;
    }
    status = found.kv.held ? set_held(kv + found.kv.at, flags) : (flags & 1) && found.rbp.held ? 7 : 0;
    if (status != 0) {
        return status;
    }
    if (!(flags & 8) && found.rbp.held) {
        return 12;
    }
    if ((!found.kv.held && found.kv_end == kv_len) || ((flags & 8) && !found.rbp.held && found.rbp_end == rbp_len)) {
        return 10;
    }
    seal(r, device_key, name, name_len, flags, iv, data, data_len);
    put_at(&KV, kv, found.kv_end, found.kv, name, name_len, r, 36 + data_len);
    if (flags & 8) {
        put_at(&RBP, rbp, found.rbp_end, found.rbp, name, name_len, r + 20 + data_len, 16);
    }
    return 0;
}

uint32_t plain_remove(uint8_t *kv, size_t kv_len, uint8_t *rbp, size_t rbp_len, const uint8_t *name, size_t name_len)
{
    struct found found;
    uint32_t status = guard(kv, kv_len, rbp, rbp_len, 1, name, name_len, &found);
    const uint8_t *r;
    uint32_t flags;
    if (status != 0) {
        return status;
    }
    if (!found.kv.held) {
        return 6;
    }
    r = kv + found.kv.at + KV.payload;
    if (!record_valid(r, payload_len(&KV, kv + found.kv.at))) {
        return 8;
    }
    flags = number(r + 8, 4);
    if (flags & 1) {
        return 7;
    }
    take_out(&KV, kv, found.kv_end, found.kv.at);
    if ((flags & 8) && found.rbp.held) {
        take_out(&RBP, rbp, found.rbp_end, found.rbp.at);
    }
    return 0;
}
