/* Makes the calls that bench/shape looks at. There is one argument:
 *
 *   counts   makes each call whose instructions are counted, inside the function shape_counted; a line for each says who is called and for what
 *   stack    says how many bytes of stack each call of the header touches, a line for each
 *
 * The functions that run inside shape_counted and are not what is counted have names that begin with shape_. */
#define _XOPEN_SOURCE 700
#include <stdio.h>
#include <stdlib.h>
#include <string.h>
#include <ucontext.h>

#include "plain.h"
#include "securestore.h"

#define SLOTS 64u
#define KV_LEN(slots) ((slots) * SECURESTORE_KV_SLOT_SIZE)
#define RBP_LEN(slots) ((slots) * SECURESTORE_RBP_SLOT_SIZE)
#define FLAGS (SECURESTORE_REQUIRE_CONFIDENTIALITY | SECURESTORE_REQUIRE_INTEGRITY | SECURESTORE_REQUIRE_REPLAY_PROTECTION)

static const uint8_t KEY[16] = {0x2b, 0x7e, 0x15, 0x16, 0x28, 0xae, 0xd2, 0xa6, 0xab, 0xf7, 0x15, 0x88, 0x09, 0xcf, 0x4f, 0x3c};
static const uint8_t IV[8] = {1, 2, 3, 4, 5, 6, 7, 8};

static uint8_t kv[KV_LEN(SLOTS)], rbp[RBP_LEN(SLOTS)], name[16], data[480], message[516], output[480], block[16];
static size_t slots, count;
static uint32_t answer;

static void must(int holds, const char *what)
{
    if (!holds) {
        fprintf(stderr, "bench: %s does not answer as expected\n", what);
        exit(1);
    }
}

static void take_name(size_t i)
{
    char text[17];
    sprintf(text, "player/%09u", (unsigned)i);
    memcpy(name, text, 16);
}

/* A card and a chip of n slots, with the names from a number on to n - 1, the last of which is then meant. */
static void fill(size_t n, size_t from)
{
    size_t i;
    slots = n;
    memset(kv, 0, sizeof kv);
    memset(rbp, 0, sizeof rbp);
    for (i = from; i < n; i++) {
        take_name(i);
        must(securestore_set(kv, KV_LEN(n), rbp, RBP_LEN(n), KEY, 16, name, 16, FLAGS, IV, 8, data, sizeof data) == 0, "set");
    }
}

/* ---- counts: the library and plain C, by the same calls */

struct library {
    const char *name;
    void (*block)(const uint8_t *, uint8_t *);
    void (*cmac)(const uint8_t *, const uint8_t *, size_t, uint8_t *);
    void (*ctr)(const uint8_t *, const uint8_t *, uint8_t *, size_t);
    void (*derive)(const uint8_t *, const uint8_t *, size_t, const uint8_t *, size_t, uint8_t *);
    uint32_t (*set)(uint8_t *, size_t, uint8_t *, size_t, const uint8_t *, size_t, const uint8_t *, size_t, uint32_t, const uint8_t *, size_t,
                    const uint8_t *, size_t);
    uint32_t (*get)(const uint8_t *, size_t, const uint8_t *, size_t, const uint8_t *, size_t, const uint8_t *, size_t, size_t, uint8_t *, size_t,
                    size_t *);
    uint32_t (*remove)(uint8_t *, size_t, uint8_t *, size_t, const uint8_t *, size_t);
};

static const struct library LIBRARIES[2] = {
    {"securestore", securestore_aes128_encrypt, securestore_cmac, securestore_ctr, securestore_derive, securestore_set, securestore_get, securestore_remove},
    {"plain", plain_block, plain_cmac, plain_ctr, plain_derive, plain_set, plain_get, plain_remove},
};

static const struct library *by;

static void shape_block(void)
{
    by->block(KEY, block);
}

static void shape_cmac(void)
{
    by->cmac(KEY, message, 480, block);
}

/* What the CMAC of a record covers: a name of 16 bytes, 20 bytes of header and 480 of data. */
static void shape_cmac_record(void)
{
    by->cmac(KEY, message, 516, block);
}

static void shape_ctr(void)
{
    by->ctr(KEY, IV, output, 480);
}

static void shape_derive_auth(void)
{
    by->derive(KEY, (const uint8_t *)"AUTH", 4, name, 16, block);
}

static void shape_derive_enc(void)
{
    by->derive(KEY, (const uint8_t *)"ENC", 3, name, 16, block);
}

static void shape_set(void)
{
    answer = by->set(kv, KV_LEN(slots), rbp, RBP_LEN(slots), KEY, 16, name, 16, FLAGS, IV, 8, data, 480);
}

static void shape_get(void)
{
    answer = by->get(kv, KV_LEN(slots), rbp, RBP_LEN(slots), KEY, 16, name, 16, 0, output, 480, &count);
}

static void shape_remove(void)
{
    answer = by->remove(kv, KV_LEN(slots), rbp, RBP_LEN(slots), name, 16);
}

/* callgrind counts what is done in here. */
__attribute__((noinline)) void shape_counted(void (*call)(void));
void shape_counted(void (*call)(void))
{
    call();
    __asm__ volatile("" ::: "memory");
}

static void counted(const char *what, void (*call)(void))
{
    answer = 0;
    shape_counted(call);
    must(answer == 0, what);
    printf("%s\t%s\n", by->name, what);
}

/* A get and a set of the last name, so that a look-up that goes from slot to slot has looked at each. The remove takes the first, so all others move. */
static void counted_store(size_t n)
{
    static const char *const WHAT[2][3] = {{"get 1", "set 1", "remove 1"}, {"get 64", "set 64", "remove 64"}};
    fill(n, 0);
    counted(WHAT[n != 1][0], shape_get);
    must(count == 480 && memcmp(output, data, 480) == 0, "get");
    counted(WHAT[n != 1][1], shape_set);
    take_name(0);
    counted(WHAT[n != 1][2], shape_remove);
}

static void counts(void)
{
    size_t i;
    for (i = 0; i < 2; i++) {
        by = &LIBRARIES[i];
        take_name(63);
        counted("block", shape_block);
        counted("cmac", shape_cmac);
        counted("ctr", shape_ctr);
        counted("derive", shape_derive_auth);
        counted("derive ENC", shape_derive_enc);
        counted("cmac 516", shape_cmac_record);
        counted_store(1);
        counted_store(SLOTS);
    }
}

/* ---- stack: a call runs on a stack of its own, all of whose bytes are painted; the lowest that is another afterwards was touched */

static uint8_t stack[65536] __attribute__((aligned(16)));
static uint8_t *top; /* the stack pointer just before the call: its arguments, its return address and its frames go down from there */
static ucontext_t here, there;

static uint8_t handle[SECURESTORE_SET_HANDLE_SIZE], staging[SECURESTORE_STAGING_SIZE], file[SECURESTORE_KEY_FILE_MAX], mix[SECURESTORE_MIX_MAX];
static uint8_t name_buf[SECURESTORE_NAME_MAX], tags[16];
static float levels[16], pans[16];
static uint32_t field[6];
static size_t next_slot, name_len, sends;
static uint64_t session;

#define MEDIA kv, KV_LEN(SLOTS), rbp, RBP_LEN(SLOTS)
#define MATERIAL data, SECURESTORE_KEY_MATERIAL_MAX

/* The function of a call, which is made just after the stack pointer was read. */
#define CALL(of, call) \
    static void call_##of(void) \
    { \
        __asm__ volatile("mov %%rsp, %0" : "=m"(top) : : "memory"); \
        call; \
        __asm__ volatile("" : : : "memory"); \
    }

CALL(aes128_encrypt, securestore_aes128_encrypt(KEY, block))
CALL(cmac, securestore_cmac(KEY, message, 516, block))
CALL(ctr, securestore_ctr(KEY, IV, output, 480))
CALL(derive, securestore_derive(KEY, (const uint8_t *)"AUTH", 4, name, 16, block))
CALL(tag_difference, answer = securestore_tag_difference(message, message))
CALL(set, answer = securestore_set(MEDIA, KEY, 16, name, 16, FLAGS, IV, 8, data, 480))
CALL(get, answer = securestore_get(MEDIA, KEY, 16, name, 16, 0, output, 480, &count))
CALL(get_info, answer = securestore_get_info(MEDIA, KEY, 16, name, 16, &field[0], &field[1]))
CALL(remove, answer = securestore_remove(MEDIA, name, 16))
CALL(reset, answer = securestore_reset(MEDIA))
CALL(iterator_next, answer = securestore_iterator_next(MEDIA, name, 16, 0, name_buf, sizeof name_buf, &name_len, &next_slot))
CALL(set_start, answer = securestore_set_start(name, 16, FLAGS, IV, 8, 480, handle))
CALL(set_add_data, answer = securestore_set_add_data(handle, staging, sizeof staging, data, 480))
CALL(set_finalize, answer = securestore_set_finalize(MEDIA, KEY, 16, handle, staging, sizeof staging))
CALL(save_key, answer = securestore_save_key(MEDIA, KEY, 16, 1, 2, 3, 4, 5, 6, MATERIAL, FLAGS, IV, 8))
CALL(load_key, answer = securestore_load_key(MEDIA, KEY, 16, 1, file, sizeof file, &count))
CALL(format_key_file, answer = securestore_format_key_file(2, 3, 4, 5, 6, MATERIAL, file, sizeof file, &count))
CALL(parse_key_file, answer = securestore_parse_key_file(file, sizeof file, &field[0], &field[1], &field[2], &field[3], &field[4], &field[5]))
CALL(encode_mix, answer = securestore_encode_mix(63, tags, 16, levels, 16, pans, 16, mix, sizeof mix, &count))
CALL(decode_mix, answer = securestore_decode_mix(mix, sizeof mix, &session, tags, 16, levels, 16, pans, 16, &sends))
CALL(store_mix, answer = securestore_store_mix(MEDIA, KEY, 16, name, 16, FLAGS, IV, 8, mix, sizeof mix))
CALL(find_mix, answer = securestore_find_mix(MEDIA, KEY, 16, 63, mix, sizeof mix, &count))

/* What stands there before a call, so that it takes the longest way: 64 names, and the last or the first of them is meant, or 63, and a new one in front of
 * them is meant. */

static void full(void)
{
    fill(SLOTS, 0);
}

static void full_first(void)
{
    fill(SLOTS, 0);
    take_name(0);
}

static void front(void)
{
    fill(SLOTS, 1);
    take_name(0);
}

static void started(void)
{
    front();
    call_set_start();
    must(answer == 0, "set_start");
}

static void added(void)
{
    started();
    call_set_add_data();
    must(answer == 0, "set_add_data");
}

static void saved(void)
{
    front();
    call_save_key();
    must(answer == 0, "save_key");
}

static void formatted(void)
{
    call_format_key_file();
    must(answer == 0, "format_key_file");
}

/* Name and bytes of a mix of 16 sends, with level and pan; its session number is i. */
static void take_mix(size_t i)
{
    char text[17];
    size_t j;
    sprintf(text, "mix/%012u", (unsigned)i);
    memcpy(name, text, 16);
    for (j = 0; j < 16; j++) {
        tags[j] = SECURESTORE_SEND_LEVEL_PAN;
        levels[j] = 0.25f * (float)j;
        pans[j] = -0.0625f * (float)j;
    }
    must(securestore_encode_mix(i, tags, 16, levels, 16, pans, 16, mix, sizeof mix, &count) == 0 && count == sizeof mix, "encode_mix");
}

static void fill_mixes(size_t from)
{
    size_t i;
    memset(kv, 0, sizeof kv);
    memset(rbp, 0, sizeof rbp);
    for (i = from; i < SLOTS; i++) {
        take_mix(i);
        call_store_mix();
        must(answer == 0, "store_mix");
    }
}

static void mixes(void)
{
    fill_mixes(0);
}

static void mixes_front(void)
{
    fill_mixes(1);
    take_mix(0);
}

static const struct {
    const char *name;
    void (*ready)(void), (*call)(void);
} CALLS[] = {
    {"aes128_encrypt", full, call_aes128_encrypt},
    {"cmac", full, call_cmac},
    {"ctr", full, call_ctr},
    {"derive", full, call_derive},
    {"tag_difference", full, call_tag_difference},
    {"set", front, call_set},
    {"get", full, call_get},
    {"get_info", full, call_get_info},
    {"remove", full_first, call_remove},
    {"reset", full, call_reset},
    {"iterator_next", full, call_iterator_next},
    {"set_start", front, call_set_start},
    {"set_add_data", started, call_set_add_data},
    {"set_finalize", added, call_set_finalize},
    {"save_key", front, call_save_key},
    {"load_key", saved, call_load_key},
    {"format_key_file", full, call_format_key_file},
    {"parse_key_file", formatted, call_parse_key_file},
    {"encode_mix", mixes, call_encode_mix},
    {"decode_mix", mixes, call_decode_mix},
    {"store_mix", mixes_front, call_store_mix},
    {"find_mix", mixes, call_find_mix},
};

/* How many bytes below the top a call touches, on a stack that is painted with one byte. */
static size_t touched(void (*call)(void), int paint)
{
    size_t i = 0;
    memset(stack, paint, sizeof stack);
    must(getcontext(&there) == 0, "getcontext");
    there.uc_stack.ss_sp = stack;
    there.uc_stack.ss_size = sizeof stack;
    there.uc_link = &here;
    makecontext(&there, call, 0);
    must(swapcontext(&here, &there) == 0, "swapcontext");
    while (stack + i < top && stack[i] == paint) {
        i++;
    }
    must(0 < i, "a stack of 64 KiB");
    return (size_t)(top - (stack + i));
}

/* Each call twice, with two paints, since it may write the paint's own byte. */
static void stacks(void)
{
    size_t i, a, b;
    for (i = 0; i < sizeof CALLS / sizeof CALLS[0]; i++) {
        CALLS[i].ready();
        answer = 0;
        a = touched(CALLS[i].call, 0xa5);
        must(answer == 0, CALLS[i].name);
        CALLS[i].ready();
        answer = 0;
        b = touched(CALLS[i].call, 0x5a);
        must(answer == 0, CALLS[i].name);
        printf("%s\t%u\n", CALLS[i].name, (unsigned)(a < b ? b : a));
    }
}

int main(int argc, char **argv)
{
    size_t i;
    for (i = 0; i < sizeof data; i++) {
        data[i] = (uint8_t)(7 * i + 1);
    }
    for (i = 0; i < sizeof message; i++) {
        message[i] = (uint8_t)(5 * i + 2);
    }
    plain_start();
    if (argc == 2 && strcmp(argv[1], "counts") == 0) {
        counts();
    } else if (argc == 2 && strcmp(argv[1], "stack") == 0) {
        stacks();
    } else {
        fprintf(stderr, "bench: there are counts and stack\n");
        return 1;
    }
    return 0;
}
