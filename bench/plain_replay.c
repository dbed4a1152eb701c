/* A player of scripts in plain C over the same library, for the ratio: docs/FORMAT.md, section 17. It keeps a line of any length in memory. */
#define _POSIX_C_SOURCE 200809L
#include <stdio.h>
#include <stdlib.h>
#include <string.h>

#include "securestore.h"

static int hex_value(unsigned char c)
{
    if (c >= '0' && c <= '9')
        return c - '0';
    c |= 0x20;
    return c >= 'a' && c <= 'f' ? c - 'a' + 10 : -1;
}

/* The number of bytes, or -1. */
static long hex(const char *text, size_t len, uint8_t *out)
{
    for (size_t i = 0; i < len; i++)
        if (hex_value((unsigned char)text[i]) < 0)
            return -1;
    if (len % 2 != 0)
        return -1;
    for (size_t i = 0; i < len / 2; i++)
        out[i] = (uint8_t)(16 * hex_value((unsigned char)text[2 * i]) + hex_value((unsigned char)text[2 * i + 1]));
    return (long)(len / 2);
}

static int decimal(const char *text, size_t len, uint64_t most, uint64_t *value)
{
    *value = 0;
    for (size_t i = 0; i < len; i++) {
        if (text[i] < '0' || text[i] > '9')
            return 0;
        *value = *value * 10 + (uint64_t)(text[i] - '0');
        if (*value > most)
            return 0;
    }
    return len > 0;
}

struct field {
    const char *text;
    size_t len;
};

static size_t cut(const char *line, size_t len, struct field *fields, size_t most)
{
    size_t n = 0;

    for (;;) {
        const char *tab = memchr(line, '\t', len);
        size_t here = tab ? (size_t)(tab - line) : len;
        if (n < most) {
            fields[n].text = line;
            fields[n].len = here;
        }
        n++;
        if (!tab)
            return n;
        line += here + 1;
        len -= here + 1;
    }
}

static int is(const struct field *f, const char *word)
{
    return f->len == strlen(word) && memcmp(f->text, word, f->len) == 0;
}

static void print(uint32_t status, const uint8_t *bytes, size_t len)
{
    static const char digits[] = "0123456789abcdef";
    char text[1024];
    size_t n = (size_t)sprintf(text, "%u\t", (unsigned)status);

    for (size_t i = 0; i < len; i++) {
        text[n++] = digits[bytes[i] >> 4];
        text[n++] = digits[bytes[i] & 15];
    }
    text[n++] = '\n';
    fwrite(text, 1, n, stdout);
}

static void play(uint8_t *kv, size_t kv_len, uint8_t *rbp, size_t rbp_len, const uint8_t *key, const char *line, size_t len)
{
    struct field f[5];
    size_t n = cut(line, len, f, 5);
    uint8_t iv[550], data[550];
    uint64_t flags;
    long iv_len, data_len;

    if (len <= 1100 && n == 5 && is(&f[0], "set") && decimal(f[2].text, f[2].len, 4294967295u, &flags) && (iv_len = hex(f[3].text, f[3].len, iv)) >= 0 &&
        (data_len = hex(f[4].text, f[4].len, data)) >= 0) {
        print(securestore_set(kv, kv_len, rbp, rbp_len, key, 16, (const uint8_t *)f[1].text, f[1].len, (uint32_t)flags, iv, (size_t)iv_len, data,
                              (size_t)data_len),
              NULL, 0);
    } else if (len <= 1100 && n == 2 && is(&f[0], "get")) {
        size_t count;
        uint32_t status = securestore_get(kv, kv_len, rbp, rbp_len, key, 16, (const uint8_t *)f[1].text, f[1].len, 0, data, 480, &count);
        print(status, data, count);
    } else if (len <= 1100 && n == 2 && is(&f[0], "remove")) {
        print(securestore_remove(kv, kv_len, rbp, rbp_len, (const uint8_t *)f[1].text, f[1].len), NULL, 0);
    } else {
        print(15, NULL, 0);
    }
}

int main(void)
{
    static uint8_t kv[64 * 584], rbp[64 * 82];
    uint8_t key[16];
    char *line = NULL;
    size_t room = 0;
    struct field f[2];
    uint64_t slots;
    ssize_t len;

    for (int first = 1; (len = getline(&line, &room, stdin)) >= 0 || first; first = 0) {
        if (len > 0 && line[len - 1] == '\n')
            len--;
        if (!first) {
            play(kv, slots * 584, rbp, slots * 82, key, line, (size_t)len);
        } else if (len < 0 || len > 1100 || cut(line, (size_t)len, f, 2) != 2 || f[0].len != 32 || hex(f[0].text, 32, key) != 16 ||
                   !decimal(f[1].text, f[1].len, 64, &slots) || slots == 0) {
            print(15, NULL, 0);
            break;
        }
    }
    free(line);
    return fflush(stdout) == 0 ? 0 : 1;
}
