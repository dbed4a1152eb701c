/*
 * show SCRIPT ANSWERS: a script and the answers that replay gave to it, side by side, for a person. ./run uses it.
 *
 * It answers nothing itself, and nothing is proved of it: another program reads what replay prints. Whatever bytes the script has, only printable ones
 * are shown as they are, and every line has a bounded width.
 */
#include "securestore.h"
#include <stdio.h>
#include <stdlib.h>
#include <string.h>

#define LONGEST 1100 /* a longer line is unreadable */
#define CALL 6
#define NAME 16
#define FLAGS 5
#define DATA 32
#define RETURNED 64
#define WHOLE (CALL + 2 + NAME + 2 + FLAGS + 2 + DATA)

struct part {
    const unsigned char *at;
    size_t len;
};

/* Of a line its first bytes, and how many it has. */
struct line {
    unsigned char bytes[LONGEST];
    unsigned long long len;
};

static size_t held(const struct line *l)
{
    return l->len < LONGEST ? (size_t)l->len : LONGEST;
}

/* Up to a newline or the end; 0 where nothing is left. */
static int read_line(FILE *from, struct line *l)
{
    int c = getc(from);

    l->len = 0;
    if (c == EOF)
        return 0;
    for (; c != EOF && c != '\n'; c = getc(from)) {
        if (l->len < LONGEST)
            l->bytes[l->len] = (unsigned char)c;
        l->len++;
    }
    return 1;
}

/* The next piece of a text as it is shown, and its columns: a printable byte of ASCII, or a Latin, Greek or Cyrillic letter in UTF-8, else a byte escaped. */
static size_t piece(struct part t, char shown[5], size_t *columns)
{
    unsigned letter;

    *columns = 1;
    if (t.at[0] >= 0x20 && t.at[0] <= 0x7e) {
        sprintf(shown, "%c", t.at[0]);
        return 1;
    }
    if (t.len > 1 && (t.at[0] & 0xe0) == 0xc0 && (t.at[1] & 0xc0) == 0x80) {
        letter = (t.at[0] & 0x1fu) << 6 | (t.at[1] & 0x3fu);
        if ((letter >= 0xc0 && letter <= 0x24f) || (letter >= 0x391 && letter <= 0x45f)) {
            sprintf(shown, "%c%c", t.at[0], t.at[1]);
            return 2;
        }
    }
    *columns = 4;
    sprintf(shown, "\\x%02x", t.at[0]);
    return 1;
}

static struct part after(struct part t, size_t n)
{
    t.at += n;
    t.len -= n;
    return t;
}

static size_t columns_of(struct part t)
{
    char shown[5];
    size_t all = 0, columns;

    while (t.len > 0) {
        t = after(t, piece(t, shown, &columns));
        all += columns;
    }
    return all;
}

/* A text in so many columns at most, and how many it took. One that is longer ends in two dots. */
static size_t put(struct part t, size_t width)
{
    char shown[5];
    size_t taken = 0, columns, room = columns_of(t) <= width ? width : width - 2, n;

    while (t.len > 0) {
        n = piece(t, shown, &columns);
        if (taken + columns > room)
            return taken + (size_t)printf("..");
        fputs(shown, stdout);
        taken += columns;
        t = after(t, n);
    }
    return taken;
}

static void column(struct part t, size_t width)
{
    printf("%*s  ", (int)(width - put(t, width)), "");
}

static struct part words(const char *s)
{
    struct part t;

    t.at = (const unsigned char *)s;
    t.len = strlen(s);
    return t;
}

static int digit(unsigned char c)
{
    if (c >= '0' && c <= '9')
        return c - '0';
    if (c >= 'a' && c <= 'f')
        return c - 'a' + 10;
    return c >= 'A' && c <= 'F' ? c - 'A' + 10 : -1;
}

/* Bytes in hex as a text in quotes where all are printable, else as hex. `room` has 3 bytes more than the hex. */
static struct part data_of(struct part hex, char *room)
{
    size_t i, n = 0;
    int c;

    room[n++] = '"';
    for (i = 0; i + 1 < hex.len; i += 2) {
        c = digit(hex.at[i]) < 0 || digit(hex.at[i + 1]) < 0 ? -1 : digit(hex.at[i]) * 16 + digit(hex.at[i + 1]);
        if (c < 0x20 || c > 0x7e)
            break;
        room[n++] = (char)c;
    }
    room[n++] = '"';
    room[n] = 0;
    if (i == hex.len)
        return words(room);
    memcpy(room, "0x", 2);
    memcpy(room + 2, hex.at, hex.len);
    room[2 + hex.len] = 0;
    return words(room);
}

/* Cuts off and gives the bytes before the first tab. */
static struct part field(struct part *rest)
{
    struct part t = *rest;
    const unsigned char *tab = t.len > 0 ? memchr(t.at, '\t', t.len) : NULL;

    if (tab == NULL) {
        *rest = after(t, t.len);
        return t;
    }
    t.len = (size_t)(tab - t.at);
    *rest = after(*rest, t.len + 1);
    return t;
}

static struct part all_of(const struct line *l)
{
    struct part t;

    t.at = l->bytes;
    t.len = held(l);
    return t;
}

/* The places of a good first line; 0 of a bad one. */
static unsigned places(const struct line *l)
{
    struct part rest = all_of(l), key = field(&rest);
    unsigned n = 0;
    size_t i;

    if (l->len > LONGEST || key.len != 32 || rest.len == 0)
        return 0;
    for (i = 0; i < key.len; i++)
        if (digit(key.at[i]) < 0)
            return 0;
    for (i = 0; i < rest.len; i++) {
        if (rest.at[i] < '0' || rest.at[i] > '9' || n > 64)
            return 0;
        n = n * 10 + (unsigned)(rest.at[i] - '0');
    }
    return n <= 64 ? n : 0;
}

/* What can be meant here; other numbers have the words of the header. */
static const char *meaning(unsigned number)
{
    const char *text, *colon;

    switch (number) {
    case SECURESTORE_OK:
        return "done";
    case SECURESTORE_ERR_LENGTH:
        return "the IV is not of 8 bytes";
    case SECURESTORE_ERR_INVALID_NAME:
        return "bad name";
    case SECURESTORE_ERR_NOT_FOUND:
        return "not found";
    case 15:
        return "the line is unreadable";
    }
    text = securestore_status_text(number);
    colon = strstr(text, ": ");
    return colon == NULL ? text : colon + 2;
}

/* A line that is not read as a call, from its first column to the last. */
static void put_whole(const struct line *l)
{
    char size[40];
    size_t taken;

    if (l->len <= LONGEST) {
        column(all_of(l), WHOLE);
        return;
    }
    sprintf(size, " (%llu bytes)", l->len);
    taken = put(all_of(l), WHOLE - strlen(size));
    printf("%s%*s  ", size, (int)(WHOLE - taken - strlen(size)), "");
}

static void put_call(const struct line *l)
{
    char room[LONGEST + 4];
    struct part rest = all_of(l);

    column(field(&rest), CALL);
    column(field(&rest), NAME);
    column(field(&rest), FLAGS);
    field(&rest);
    if (rest.len > 0)
        column(data_of(rest, room), DATA);
    else
        printf("%*s", DATA + 2, "");
}

static int fail(const char *what)
{
    fflush(stdout);
    fprintf(stderr, "show: %s\n", what);
    return 1;
}

/* The next answer: its number, and the bytes behind the tab. 0 where there is none, or it is not a number and a tab. */
static int read_answer(FILE *answers, struct line *answer, unsigned *number, struct part *rest)
{
    struct part first;

    if (!read_line(answers, answer) || answer->len >= LONGEST)
        return 0;
    *rest = all_of(answer);
    first = field(rest);
    if (first.len == 0 || first.len == answer->len || digit(first.at[0]) < 0)
        return 0;
    answer->bytes[first.len] = 0;
    *number = (unsigned)strtoul((const char *)answer->bytes, NULL, 10);
    return 1;
}

/* The lines after the first. */
static int put_lines(FILE *script, FILE *answers)
{
    static struct line line, answer;
    char room[LONGEST + 4];
    unsigned long at = 1, done = 0, unreadable = 0;
    unsigned number;
    struct part rest;

    while (read_line(script, &line)) {
        if (!read_answer(answers, &answer, &number, &rest))
            return fail("a line has no answer");
        done += number == 0;
        unreadable += number == 15;
        printf("%5lu  ", ++at);
        if (number == 15)
            put_whole(&line);
        else
            put_call(&line);
        printf("%2u %s", number, meaning(number));
        if (rest.len > 0) {
            fputs(", ", stdout);
            put(data_of(rest, room), RETURNED);
        }
        putchar('\n');
    }
    if (read_line(answers, &answer))
        return fail("there are more answers than the script has lines");
    printf("%lu %s played: %lu done, %lu refused, %lu unreadable\n", at - 1, at == 2 ? "line" : "lines", done, at - 1 - done - unreadable, unreadable);
    return 0;
}

/* A script that is not played has one answer, 15. */
static int is_refused(FILE *answers)
{
    static struct line answer;
    unsigned number;
    struct part rest;

    return read_answer(answers, &answer, &number, &rest) && number == 15 && rest.len == 0 && !read_line(answers, &answer);
}

static int put_script(FILE *script, FILE *answers)
{
    static struct line first;
    int some = read_line(script, &first);
    unsigned n = some ? places(&first) : 0;

    if (n == 0 && !is_refused(answers))
        return fail("the script is bad, and was not answered with 15 alone");
    if (!some) {
        puts("The script is empty: answered with 15, and nothing was played");
        return 0;
    }
    if (n == 0) {
        printf("%5d  ", 1);
        put_whole(&first);
        puts("15 the line is unreadable");
        puts("The first line is bad: it is to be a device key in 32 hex digits, a tab, and a number of places from 1 to 64. Nothing was played");
        return 0;
    }
    puts("Flags: 1 write once, 2 confidentiality, 4 integrity, 8 replay protection, or a sum of these.");
    printf(" line  %-*s  %-*s  %-*s  %-*s  answer\n", CALL, "call", NAME, "name", FLAGS, "flags", DATA, "data");
    printf("%5d  card and chip of %u %s each, both empty\n", 1, n, n == 1 ? "place" : "places");
    return put_lines(script, answers);
}

int main(int argc, char **argv)
{
    FILE *script, *answers;
    int status;

    if (argc != 3)
        return fail("usage: show SCRIPT ANSWERS");
    script = fopen(argv[1], "rb");
    answers = fopen(argv[2], "rb");
    if (script == NULL || answers == NULL)
        return fail("can't read script or answers");
    status = put_script(script, answers);
    if (ferror(script) || ferror(answers))
        return fail("can't read script or answers");
    if (fflush(stdout) != 0 || ferror(stdout))
        return fail("can't write");
    return status;
}
