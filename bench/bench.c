/* Prints what the library costs beside its peers, as ratios. Every peer is measured in turn, a short slice each, for many rounds, and its fastest
 * slice counts: so a machine that is busy elsewhere slows all alike, and the best slices are undisturbed. */
#define _POSIX_C_SOURCE 199309L
#include <stdio.h>
#include <stdlib.h>
#include <string.h>
#include <time.h>

#include "peers.h"
#include "plain.h"
#include "securestore.h"

#ifdef WITH_REFERENCE
uint32_t reference_set(uint8_t *kv, size_t kv_len, uint8_t *rbp, size_t rbp_len, const uint8_t *device_key, size_t device_key_len, const uint8_t *name,
                       size_t name_len, uint32_t flags, const uint8_t *iv, size_t iv_len, const uint8_t *data, size_t data_len);
uint32_t reference_get(const uint8_t *kv, size_t kv_len, const uint8_t *rbp, size_t rbp_len, const uint8_t *device_key, size_t device_key_len,
                       const uint8_t *name, size_t name_len, size_t offset, uint8_t *output, size_t output_len, size_t *count);
uint32_t reference_remove(uint8_t *kv, size_t kv_len, uint8_t *rbp, size_t rbp_len, const uint8_t *name, size_t name_len);
#endif

#define SLICE 100e-6
#define MEASURES 64u

static const uint8_t KEY[16] = {0x2b, 0x7e, 0x15, 0x16, 0x28, 0xae, 0xd2, 0xa6, 0xab, 0xf7, 0x15, 0x88, 0x09, 0xcf, 0x4f, 0x3c};
static const uint8_t IV[8] = {1, 2, 3, 4, 5, 6, 7, 8};
static uint8_t data[480];

/* One thing that is measured: its work, the argument, how often a slice repeats it, and the best time of one. */
struct measure {
    void (*work)(const void *of);
    const void *of;
    unsigned repeats;
    double best;
};

static double now(void)
{
    struct timespec t;
    clock_gettime(CLOCK_MONOTONIC, &t);
    return (double)t.tv_sec + (double)t.tv_nsec * 1e-9;
}

static double slice(const struct measure *m)
{
    unsigned i;
    double start = now();
    for (i = 0; i < m->repeats; i++) {
        m->work(m->of);
    }
    return (now() - start) / m->repeats;
}

static void run(struct measure *all, size_t n, unsigned rounds)
{
    size_t i;
    for (i = 0; i < n; i++) {
        all[i].repeats = 1;
        all[i].best = slice(&all[i]);
        all[i].repeats = (unsigned)(SLICE / all[i].best) + 1;
    }
    while (0 < rounds--) {
        for (i = 0; i < n; i++) {
            double t = slice(&all[i]);
            all[i].best = t < all[i].best ? t : all[i].best;
        }
    }
}

static void must(int holds, const char *what, const char *who)
{
    if (!holds) {
        fprintf(stderr, "bench: %s of %s differs from the library's\n", what, who);
        exit(1);
    }
}

/* ---- ciphers */

static void derive_by(const struct peer *p, uint8_t out[16])
{
    /* 01, "AUTH", a name of 16 bytes, 00, 00 00 00 80 */
    static const uint8_t message[26] = "\001AUTHplayer/000000001\0\0\0\0\x80";
    if (p->derive) {
        p->derive(KEY, message + 1, 4, message + 5, 16, out);
    } else {
        p->cmac(KEY, message, sizeof message, out);
    }
}

static void work_block(const void *of)
{
    ((const struct peer *)of)->block(KEY, data);
}

static void work_cmac(const void *of)
{
    uint8_t tag[16];
    ((const struct peer *)of)->cmac(KEY, data, sizeof data, tag);
}

static void work_ctr(const void *of)
{
    ((const struct peer *)of)->ctr(KEY, IV, data, sizeof data);
}

static void work_derive(const void *of)
{
    uint8_t out[16];
    derive_by((const struct peer *)of, out);
}

/* Before anything is measured every peer must compute what the library computes. */
static void compare_peers(void)
{
    size_t i, len;
    for (i = 0; i < PEER_COUNT; i++) {
        const struct peer *p = &PEERS[i];
        uint8_t a[480] = {0}, b[480] = {0};
        p->block(KEY, a);
        securestore_aes128_encrypt(KEY, b);
        must(memcmp(a, b, 16) == 0, "AES", p->name);
        for (len = 0; len <= 480; len += 15) {
            p->cmac(KEY, data, len, a);
            securestore_cmac(KEY, data, len, b);
            must(memcmp(a, b, 16) == 0, "CMAC", p->name);
            p->ctr(KEY, IV, a, len);
            securestore_ctr(KEY, IV, b, len);
            must(memcmp(a, b, 480) == 0, "counter mode", p->name);
        }
        derive_by(p, a);
        securestore_derive(KEY, (const uint8_t *)"AUTH", 4, (const uint8_t *)"player/000000001", 16, b);
        must(memcmp(a, b, 16) == 0, "derivation", p->name);
    }
}

static void ciphers(void)
{
    static void (*const works[4])(const void *) = {work_block, work_cmac, work_ctr, work_derive};
    struct measure all[MEASURES];
    size_t i, j;
    compare_peers();
    for (i = 0; i < PEER_COUNT; i++) {
        for (j = 0; j < 4; j++) {
            all[4 * i + j].work = works[j];
            all[4 * i + j].of = &PEERS[i];
        }
    }
    run(all, 4 * PEER_COUNT, 1000);
    printf("| | AES block | CMAC 480 bytes | CTR 480 bytes | derivation |\n|---|---|---|---|---|\n");
    for (i = 0; i < PEER_COUNT; i++) {
        printf("| %s |", PEERS[i].name);
        for (j = 0; j < 4; j++) {
            printf(" %.2f |", all[4 * i + j].best / all[j].best);
        }
        printf("\n");
    }
    printf("| 1.00 is | %.0f ns | %.0f ns | %.0f ns | %.0f ns |\n\n", all[0].best * 1e9, all[1].best * 1e9, all[2].best * 1e9, all[3].best * 1e9);
}

/* ---- the store */

struct store {
    const char *name;
    uint32_t (*set)(uint8_t *, size_t, uint8_t *, size_t, const uint8_t *, size_t, const uint8_t *, size_t, uint32_t, const uint8_t *, size_t,
                    const uint8_t *, size_t);
    uint32_t (*get)(const uint8_t *, size_t, const uint8_t *, size_t, const uint8_t *, size_t, const uint8_t *, size_t, size_t, uint8_t *, size_t,
                    size_t *);
    uint32_t (*remove)(uint8_t *, size_t, uint8_t *, size_t, const uint8_t *, size_t);
};

static const struct store STORES[] = {
    {"plain C", plain_set, plain_get, plain_remove},
    {"**securestore**", securestore_set, securestore_get, securestore_remove},
#ifdef WITH_REFERENCE
    {"Rust of tests/", reference_set, reference_get, reference_remove},
#endif
};
#define STORE_COUNT (sizeof STORES / sizeof STORES[0])
enum { PLAIN, OURS };

static const size_t SIZES[] = {1, 2, 4, 8, 16, 32, 64};
#define SIZE_COUNT (sizeof SIZES / sizeof SIZES[0])

/* A full card and chip, and the implementation that works on them. */
struct box {
    const struct store *store;
    size_t slots;
    uint32_t flags;
    uint8_t *kv, *rbp;
};

/* A number behind the text, digit by digit, since sprintf takes as long as the tests on one slot. */
static void numbered(const char *text, size_t i, uint8_t name[16])
{
    uint8_t *digit = name + 16;
    memcpy(name, text, 16);
    for (; 0 < i; i /= 10) {
        *--digit = (uint8_t)('0' + i % 10);
    }
}

static void name_of(size_t i, uint8_t name[16])
{
    numbered("player/000000000", i, name);
}

static uint32_t set_in(const struct box *b, size_t i)
{
    uint8_t name[16];
    name_of(i, name);
    return b->store->set(b->kv, b->slots * 584, b->rbp, b->slots * 82, KEY, 16, name, 16, b->flags, IV, 8, data, sizeof data);
}

static uint32_t get_in(const struct box *b, size_t i, uint8_t *output, size_t *count)
{
    uint8_t name[16];
    name_of(i, name);
    return b->store->get(b->kv, b->slots * 584, b->rbp, b->slots * 82, KEY, 16, name, 16, 0, output, sizeof data, count);
}

static uint32_t remove_in(const struct box *b, size_t i)
{
    uint8_t name[16];
    name_of(i, name);
    return b->store->remove(b->kv, b->slots * 584, b->rbp, b->slots * 82, name, 16);
}

/* The last name, so that a look-up that goes from slot to slot has looked at each. */
static void work_set(const void *of)
{
    const struct box *b = (const struct box *)of;
    set_in(b, b->slots - 1);
}

static void work_get(const void *of)
{
    const struct box *b = (const struct box *)of;
    uint8_t output[480];
    size_t count;
    get_in(b, b->slots - 1, output, &count);
}

static struct box empty(const struct store *store, size_t slots)
{
    struct box b;
    b.store = store;
    b.slots = slots;
    b.flags = 14;
    b.kv = (uint8_t *)calloc(slots, 584);
    b.rbp = (uint8_t *)calloc(slots, 82);
    must(b.kv != NULL && b.rbp != NULL, "memory", store->name);
    return b;
}

static struct box fill_with(const struct store *store, size_t slots, uint32_t flags)
{
    struct box b = empty(store, slots);
    size_t i, count;
    uint8_t output[480];
    b.flags = flags;
    for (i = 0; i < slots; i++) {
        must(set_in(&b, i) == 0, "set", store->name);
        must(get_in(&b, i, output, &count) == 0 && count == 480 && memcmp(output, data, 480) == 0, "get", store->name);
    }
    return b;
}

static struct box fill(const struct store *store, size_t slots)
{
    return fill_with(store, slots, 14);
}

/* Two boxes hold the same bytes. */
static void must_agree(const struct box *a, const struct box *b)
{
    must(memcmp(a->kv, b->kv, a->slots * 584) == 0, "card", a->store->name);
    must(memcmp(a->rbp, b->rbp, a->slots * 82) == 0, "chip", a->store->name);
}

static void print_growth(const char *call, const struct measure *all)
{
    size_t i, j;
    printf("| %s of 480 bytes, slots |", call);
    for (j = 0; j < SIZE_COUNT; j++) {
        printf(" %u |", (unsigned)SIZES[j]);
    }
    printf("\n|---|---|---|---|---|---|---|---|\n");
    for (i = 0; i < STORE_COUNT; i++) {
        printf("| %s |", STORES[i].name);
        for (j = 0; j < SIZE_COUNT; j++) {
            printf(" %.2f |", all[i * SIZE_COUNT + j].best / all[j].best);
        }
        printf("\n");
    }
    printf("| securestore, microseconds |");
    for (j = 0; j < SIZE_COUNT; j++) {
        printf(" %.1f |", all[SIZE_COUNT + j].best * 1e6);
    }
    printf("\n\n");
}

/* What the tests, and a longer look-up, cost: the call on 64 names less the same call on one, with the same ciphers. */
static void print_beyond(const struct measure *get, const struct measure *set)
{
    const struct measure *calls[2];
    double us[2][2];
    size_t i, j;
    calls[0] = get;
    calls[1] = set;
    printf("| what 64 names cost beyond one name, microseconds | get | set |\n|---|---|---|\n");
    for (i = PLAIN; i <= OURS; i++) {
        printf("| %s |", STORES[i].name);
        for (j = 0; j < 2; j++) {
            us[i][j] = (calls[j][i * SIZE_COUNT + SIZE_COUNT - 1].best - calls[j][i * SIZE_COUNT].best) * 1e6;
            printf(" %.2f |", us[i][j]);
        }
        printf("\n");
    }
    printf("| securestore of plain C (target: at most 1.1) | %.2f | %.2f |\n\n", us[OURS][0] / us[PLAIN][0], us[OURS][1] / us[PLAIN][1]);
}

static void growth(void)
{
    static struct box boxes[STORE_COUNT * SIZE_COUNT];
    struct measure all[2 * STORE_COUNT * SIZE_COUNT];
    size_t i, j, n = STORE_COUNT * SIZE_COUNT;
    for (i = 0; i < STORE_COUNT; i++) {
        for (j = 0; j < SIZE_COUNT; j++) {
            size_t at = i * SIZE_COUNT + j;
            boxes[at] = fill(&STORES[i], SIZES[j]);
            must_agree(&boxes[at], &boxes[j]);
            all[at].work = work_get;
            all[n + at].work = work_set;
            all[at].of = all[n + at].of = &boxes[at];
        }
    }
    run(all, 2 * n, 1000);
    print_growth("get", all);
    print_growth("set", all + n);
    print_beyond(all, all + n);
}

/* ---- a new name, and a name that goes, at the front of 64 slots */

/* Insert and remove alternate on one box, each with a clock of its own: the insert finds the 63 names behind it and fills card and chip, the remove of that
 * name leaves the 63 again. So nothing has to be put back, and what reading the clock costs, some 30 ns, is in every time alike. */
struct front {
    struct box box;
    double insert, remove; /* the best times of one */
};

static void slice_front(struct front *f)
{
    double insert = 0, remove = 0, start, between, end;
    unsigned pairs = 0;
    do {
        start = now();
        set_in(&f->box, 0);
        between = now();
        remove_in(&f->box, 0);
        end = now();
        insert += between - start;
        remove += end - between;
        pairs++;
    } while (insert + remove < 2 * SLICE);
    f->insert = insert / pairs < f->insert ? insert / pairs : f->insert;
    f->remove = remove / pairs < f->remove ? remove / pairs : f->remove;
}

static void print_front(const char *what, size_t i, double plain, double time)
{
    printf("| %s | %s | %.1f | %.2f |\n", what, STORES[i].name, time * 1e6, time / plain);
}

static void front(void)
{
    struct front all[STORE_COUNT];
    struct box full = fill(&STORES[PLAIN], 64), backwards;
    size_t i, j, rounds;
    for (i = 0; i < STORE_COUNT; i++) {
        /* each name set at the front of those that are there: the image is that of the names set in order */
        backwards = empty(&STORES[i], 64);
        for (j = 64; 0 < j; j--) {
            must(set_in(&backwards, j - 1) == 0, "insert", STORES[i].name);
        }
        must_agree(&backwards, &full);
        all[i].box = backwards;
        all[i].insert = all[i].remove = 1;
        must(remove_in(&all[i].box, 0) == 0, "remove", STORES[i].name);
        must_agree(&all[i].box, &all[PLAIN].box);
    }
    for (rounds = 0; rounds < 1000; rounds++) {
        for (i = 0; i < STORE_COUNT; i++) {
            slice_front(&all[i]);
        }
    }
    for (i = 0; i < STORE_COUNT; i++) {
        must_agree(&all[i].box, &all[PLAIN].box);
    }
    printf("| at the front of 64 slots, flags 14, 480 bytes | | microseconds | of plain C |\n|---|---|---|---|\n");
    for (i = 0; i < STORE_COUNT; i++) {
        print_front("insert before 63 names", i, all[PLAIN].insert, all[i].insert);
    }
    for (i = 0; i < STORE_COUNT; i++) {
        print_front("remove of the first of 64 names", i, all[PLAIN].remove, all[i].remove);
    }
    printf("\n");
}

/* ---- where the time of a get on 64 names goes */

/* The tests on card and chip and the look-up alone: a get of a name that is not there, behind all that are. */
static void work_absent(const void *of)
{
    const struct box *b = (const struct box *)of;
    uint8_t output[480];
    size_t count;
    get_in(b, 64, output, &count);
}

static void parts(void)
{
    static struct box full[2], none[2];
    struct measure all[6];
    uint8_t output[480];
    size_t i, count;
    for (i = PLAIN; i <= OURS; i++) {
        full[i] = fill(&STORES[i], 64);
        none[i] = empty(&STORES[i], 64);
        must(get_in(&full[i], 64, output, &count) == 6 && get_in(&none[i], 64, output, &count) == 6, "get of an absent name", STORES[i].name);
        all[i].work = work_get;
        all[2 + i].work = all[4 + i].work = work_absent;
        all[i].of = all[2 + i].of = &full[i];
        all[4 + i].of = &none[i];
    }
    run(all, 6, 2000);
    printf("| part of a get of 480 bytes on 64 names, microseconds | plain C | securestore |\n|---|---|---|\n");
    printf("| all of it | %.2f | %.2f |\n", all[PLAIN].best * 1e6, all[OURS].best * 1e6);
    printf("| testing card and chip, and looking the name up | %.2f | %.2f |\n", all[2 + PLAIN].best * 1e6, all[2 + OURS].best * 1e6);
    printf("| judging and decrypting the record | %.2f | %.2f |\n", (all[PLAIN].best - all[2 + PLAIN].best) * 1e6, (all[OURS].best - all[2 + OURS].best) * 1e6);
    printf("| beside it: testing 64 free slots of each | %.2f | %.2f |\n\n", all[4 + PLAIN].best * 1e6, all[4 + OURS].best * 1e6);
}

/* ---- where the time of a get on one slot goes, and what a record costs that no cipher touches */

/* What the CMAC of a record is over: a name of 16 bytes, 20 of metadata, 480 of data. */
static void work_cmac_516(const void *of)
{
    static const uint8_t message[516];
    uint8_t tag[16];
    ((const struct peer *)of)->cmac(KEY, message, sizeof message, tag);
}

/* A box with one record under all flags, one with a record under none, and the ciphers that a call has. */
struct one_slot {
    struct box sealed, bare;
    const struct peer *ciphers;
};

static struct one_slot one_slot_of(const struct store *store, const struct peer *ciphers)
{
    struct one_slot s;
    uint8_t output[480];
    size_t count;
    s.sealed = fill(store, 1);
    s.bare = fill_with(store, 1, 0);
    s.ciphers = ciphers;
    must(get_in(&s.sealed, 64, output, &count) == 6, "get of an absent name", store->name);
    return s;
}

static void one_slot(void)
{
    static const struct {
        const char *name;
        void (*work)(const void *of);
    } rows[] = {
        {"get of 480 bytes", work_get},
        {"get of a name that is not there: tests and look-up", work_absent},
        {"a derivation, called by itself", work_derive},
        {"CMAC of 516 bytes, called by itself", work_cmac_516},
        {"counter mode on 480 bytes, called by itself", work_ctr},
        {"beside it: get of 480 bytes, flags 0", work_get},
        {"set of 480 bytes, flags 0", work_set},
    };
    enum { ROWS = sizeof rows / sizeof rows[0] };
    static struct one_slot both[2];
    struct measure all[2 * ROWS];
    size_t i, j;
    both[PLAIN] = one_slot_of(&STORES[PLAIN], &PEERS[PEER_PLAIN]);
    both[OURS] = one_slot_of(&STORES[OURS], &PEERS[PEER_OURS]);
    must_agree(&both[PLAIN].sealed, &both[OURS].sealed);
    must_agree(&both[PLAIN].bare, &both[OURS].bare);
    for (i = PLAIN; i <= OURS; i++) {
        const struct one_slot *s = &both[i];
        const void *const of[ROWS] = {&s->sealed, &s->sealed, s->ciphers, s->ciphers, s->ciphers, &s->bare, &s->bare};
        for (j = 0; j < ROWS; j++) {
            all[2 * j + i].work = rows[j].work;
            all[2 * j + i].of = of[j];
        }
    }
    run(all, 2 * ROWS, 2000);
    printf("| on one slot, nanoseconds | plain C | securestore |\n|---|---|---|\n");
    for (j = 0; j < ROWS; j++) {
        printf("| %s | %.0f | %.0f |\n", rows[j].name, all[2 * j + PLAIN].best * 1e9, all[2 * j + OURS].best * 1e9);
    }
    printf("\n");
}

/* ---- mixes: no peer has them, so they stand beside a get of one of them */

static const size_t MIXES[] = {1, 16, 64};
#define MIX_COUNT (sizeof MIXES / sizeof MIXES[0])

static void mix_name(size_t i, uint8_t name[16])
{
    numbered("mix/000000000000", i, name);
}

/* A mix of 16 sends, with level and pan; its session number is i. */
static uint32_t store_mix_in(const struct box *b, size_t i)
{
    uint8_t name[16], tags[16], mix[SECURESTORE_MIX_MAX];
    float levels[16], pans[16];
    size_t j, count;
    for (j = 0; j < 16; j++) {
        tags[j] = SECURESTORE_SEND_LEVEL_PAN;
        levels[j] = 0.25f * (float)j;
        pans[j] = -0.0625f * (float)j;
    }
    mix_name(i, name);
    must(securestore_encode_mix(i, tags, 16, levels, 16, pans, 16, mix, sizeof mix, &count) == 0 && count == sizeof mix, "encode_mix", b->store->name);
    return securestore_store_mix(b->kv, b->slots * 584, b->rbp, b->slots * 82, KEY, 16, name, 16, 14, IV, 8, mix, count);
}

static uint32_t find_mix_in(const struct box *b, size_t i, uint8_t *mix, size_t *count)
{
    return securestore_find_mix(b->kv, b->slots * 584, b->rbp, b->slots * 82, KEY, 16, i, mix, SECURESTORE_MIX_MAX, count);
}

static void work_store_mix(const void *of)
{
    const struct box *b = (const struct box *)of;
    store_mix_in(b, b->slots - 1);
}

static void work_get_mix(const void *of)
{
    const struct box *b = (const struct box *)of;
    uint8_t name[16], mix[SECURESTORE_MIX_MAX];
    size_t count;
    mix_name(b->slots - 1, name);
    securestore_get(b->kv, b->slots * 584, b->rbp, b->slots * 82, KEY, 16, name, 16, 0, mix, sizeof mix, &count);
}

static void work_find_mix(const void *of)
{
    const struct box *b = (const struct box *)of;
    uint8_t mix[SECURESTORE_MIX_MAX];
    size_t count;
    find_mix_in(b, b->slots - 1, mix, &count);
}

static void mixes(void)
{
    static const char *const names[3] = {"encode_mix and store_mix", "get of one of them", "find_mix"};
    static void (*const works[3])(const void *) = {work_store_mix, work_get_mix, work_find_mix};
    static struct box boxes[MIX_COUNT];
    struct measure all[3 * MIX_COUNT];
    size_t i, j;
    for (j = 0; j < MIX_COUNT; j++) {
        uint8_t mix[SECURESTORE_MIX_MAX];
        size_t count;
        boxes[j] = empty(&STORES[OURS], MIXES[j]);
        for (i = 0; i < MIXES[j]; i++) {
            must(store_mix_in(&boxes[j], i) == 0, "store_mix", STORES[OURS].name);
        }
        must(find_mix_in(&boxes[j], MIXES[j] - 1, mix, &count) == 0 && count == sizeof mix, "find_mix", STORES[OURS].name);
        for (i = 0; i < 3; i++) {
            all[i * MIX_COUNT + j].work = works[i];
            all[i * MIX_COUNT + j].of = &boxes[j];
        }
    }
    run(all, 3 * MIX_COUNT, 200);
    printf("| mixes of 16 sends on a full card, microseconds |");
    for (j = 0; j < MIX_COUNT; j++) {
        printf(" %u |", (unsigned)MIXES[j]);
    }
    printf("\n|---|---|---|---|\n");
    for (i = 0; i < 3; i++) {
        printf("| %s |", names[i]);
        for (j = 0; j < MIX_COUNT; j++) {
            printf(" %.1f |", all[i * MIX_COUNT + j].best * 1e6);
        }
        printf("\n");
    }
    printf("\n");
}

int main(void)
{
    peers_start();
    ciphers();
    growth();
    front();
    parts();
    one_slot();
    mixes();
    return 0;
}
