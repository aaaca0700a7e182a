// cases: what the program `cases` prints for the lines of standard input, worked out by the C version of limit.c. The kinds of line and what is
// printed of each are described in crates/cases/src/main.rt. `again` rests on this: what a valid book is written as are its own bytes.
#include <stdio.h>
#include <stdlib.h>
#include <string.h>

#include "left.h"
#include "limit.h"

#define ROOM 164585
#define OLD 238
#define BOOK 8192
#define RUN 20480
#define MASKS 32
#define FIELDS 7

// As many bytes of a book does the sheet judge: one more than the longest has.
#define SHEET_BOOK 6987

enum operation { ANALYSE, PLAN, CLOSE, SHEET, OPERATIONS };

static const char *const names[OPERATIONS] = {"analyse", "plan", "close", "sheet"};

// bytes taken from a field
typedef struct {
    uint8_t bytes[RUN];
    size_t length;
} input;

// what a call was lent, and its reply
typedef struct {
    uint8_t out[ROOM];
    shodh_reply reply;
} answer;

// ---- fields

static unsigned digit(char c)
{
    if (c >= '0' && c <= '9')
        return (unsigned)(c - '0');
    return c >= 'a' && c <= 'f' ? (unsigned)(c - 'a') + 10 : 0;
}

// the bytes of a field of hexadecimal digits, at most so many
static input bytes_of(const char *field, size_t most)
{
    input b;

    for (b.length = 0; b.length < most && field[0] != 0 && field[1] != 0; field += 2)
        b.bytes[b.length++] = (uint8_t)(digit(field[0]) * 16 + digit(field[1]));
    return b;
}

// the set of a field: its first 16 digits
static uint64_t set_of(const char *field)
{
    uint64_t set = 0;

    for (int i = 0; i < 16 && field[i] != 0; i++)
        set = set * 16 + digit(field[i]);
    return set;
}

// the decimal number of a field, or the most
static size_t number_of(const char *field, size_t most)
{
    size_t n = 0;

    for (; *field != 0; field++) {
        n = n * 10 + digit(*field);
        n = n < most ? n : most;
    }
    return n;
}

// ---- the sheet

static size_t put(uint8_t *text, size_t at, const char *words)
{
    size_t n = strlen(words);

    memcpy(text + at, words, n);
    return at + n;
}

static size_t put_number(uint8_t *text, size_t at, const char *part, uint64_t n)
{
    char digits[24];

    sprintf(digits, "%s%llu", part, (unsigned long long)n);
    return put(text, at, digits);
}

static size_t put_field(uint8_t *text, size_t at, uint64_t n)
{
    return put_number(text, at, " ", n);
}

static size_t put_refusal(uint8_t *text, size_t at, shodh_reply r)
{
    at = put(text, at, "X");
    at = put_field(text, at, r.number);
    at = put_field(text, at, r.value);
    return put(text, at, "\n");
}

// a line for each record of an image: the letter, the `lead` bytes after the mark, those that are listed, or `none`, and the `trail` bytes behind them
static size_t put_records(uint8_t *text, size_t at, const char *letter, size_t lead, const char *none, size_t trail, const uint8_t *image, size_t length)
{
    for (size_t i = 0; i < length; i += 3 + lead + image[i + 2 + lead] + trail) {
        size_t n = image[i + 2 + lead];
        at = put(text, at, letter);
        for (size_t k = 0; k < lead; k++)
            at = put_field(text, at, image[i + 2 + k]);
        for (size_t k = 0; k < n; k++)
            at = put_field(text, at, image[i + 3 + lead + k]);
        at = put(text, at, n == 0 ? none : "");
        for (size_t k = 0; k < trail; k++)
            at = put_number(text, at, " /", image[i + 3 + lead + n + k]);
        at = put(text, at, "\n");
    }
    return at;
}

// the sheet's text, and its length
static size_t put_sheet(uint8_t *text, const uint8_t *book, size_t length)
{
    static uint8_t table[SHODH_TABLE_SIZE], plan[SHODH_PLAN_SIZE];
    size_t n = length < SHEET_BOOK ? length : SHEET_BOOK, query;
    shodh_reply t = limit_analyse(book, n, table, sizeof table);
    shodh_reply p = limit_plan(book, n, plan, sizeof plan);
    size_t at;

    if (t.number != 0)
        return put_refusal(text, 0, t);
    at = put_records(text, 0, "C", 1, " none", 1, table, t.value);
    at = put(text, at, "R");
    at = put_field(text, at, t.rounds);
    at = put(text, at, "\n");
    if (p.number != 0)
        return put_refusal(text, at, p);
    query = 3 + (size_t)plan[2];
    at = put_records(text, at, "Q", 0, "", 0, plan, query);
    return put_records(text, at, "O", 2, "", 0, plan + query, p.value - query);
}

static shodh_reply write_out(const uint8_t *bytes, size_t length, uint8_t *out, size_t room)
{
    shodh_reply r = {0, length, 0};

    if (room < length)
        r.number = 9;
    else
        memcpy(out, bytes, length);
    return r;
}

static shodh_reply sheet(const uint8_t *book, size_t length, uint8_t *out, size_t room)
{
    static uint8_t text[ROOM];

    return write_out(text, put_sheet(text, book, length), out, room);
}

// ---- calls

static shodh_reply call(enum operation op, const input *b, uint64_t set, uint8_t *out, size_t room)
{
    switch (op) {
    case ANALYSE:
        return limit_analyse(b->bytes, b->length, out, room);
    case PLAN:
        return limit_plan(b->bytes, b->length, out, room);
    case CLOSE:
        return limit_close(b->bytes, b->length, set, out, room);
    default:
        return sheet(b->bytes, b->length, out, room);
    }
}

// an operation in a room of this size
static const answer *try_in(size_t room, enum operation op, const input *b, uint64_t set)
{
    static answer a;

    memset(a.out, OLD, ROOM);
    a.reply = call(op, b, set, a.out, room);
    return &a;
}

static size_t written(shodh_reply r)
{
    return r.number == 0 ? (size_t)r.value : 0;
}

// ---- what is printed

// the first `count` of a reply's number, value and rounds
static void show_reply(shodh_reply r, int count)
{
    if (count > 0)
        printf(" %lu", (unsigned long)r.number);
    if (count > 1)
        printf(" %llu", (unsigned long long)r.value);
    if (count > 2)
        printf(" %llu", (unsigned long long)r.rounds);
}

static void show_bytes(const uint8_t *bytes, size_t n)
{
    printf(n == 0 ? " -" : " ");
    for (size_t i = 0; i < n; i++)
        printf("%02x", bytes[i]);
}

// `spoiled` where a byte changed that the reply does not say is written
static void show_spoiled(const answer *a)
{
    for (size_t i = written(a->reply); i < ROOM; i++)
        if (a->out[i] != OLD) {
            printf(" spoiled");
            return;
        }
}

static void show_answer(const answer *a, int count)
{
    show_reply(a->reply, count);
    show_bytes(a->out, written(a->reply));
    show_spoiled(a);
}

// ---- kinds of line: field 0 is the kind, and a field past the last is empty

static void book(char **field)
{
    input b = bytes_of(field[2], BOOK);
    uint64_t set = set_of(field[3]);

    show_reply(limit_check(b.bytes, b.length), 2);
    show_answer(try_in(ROOM, ANALYSE, &b, set), 3);
    show_answer(try_in(ROOM, PLAN, &b, set), 2);
    show_answer(try_in(ROOM, CLOSE, &b, set), 2);
    show_answer(try_in(ROOM, SHEET, &b, set), 0);
}

static void show_short(enum operation op, const input *b, uint64_t set)
{
    size_t n = written(try_in(ROOM, op, b, set)->reply);
    const answer *a;

    if (n == 0) {
        printf(" - -");
        return;
    }
    a = try_in(n - 1, op, b, set);
    show_reply(a->reply, 2);
    show_spoiled(a);
}

static void shorter(char **field)
{
    input b = bytes_of(field[2], BOOK);

    for (int op = 0; op < OPERATIONS; op++)
        show_short((enum operation)op, &b, set_of(field[3]));
}

static void room(char **field)
{
    input b = bytes_of(field[3], BOOK);

    for (int op = 0; op < OPERATIONS; op++)
        if (strcmp(field[2], names[op]) == 0) {
            show_answer(try_in(number_of(field[5], ROOM), (enum operation)op, &b, set_of(field[4])), 3);
            return;
        }
    printf(" ?");
}

static void pair(char **field)
{
    static answer a;
    uint8_t arity = (uint8_t)number_of(field[3], 255);
    input xs = bytes_of(field[4], MASKS), ys = bytes_of(field[5], MASKS);
    size_t n = number_of(field[6], ROOM);

    memset(a.out, OLD, ROOM);
    if (strcmp(field[2], "choice") == 0) {
        a.reply = limit_choice(arity, xs.bytes, xs.length, ys.bytes, ys.length, a.out, n);
    } else if (strcmp(field[2], "joint") == 0) {
        a.reply = limit_joint(arity, xs.bytes, xs.length, ys.bytes, ys.length, a.out, n);
    } else {
        printf(" ?");
        return;
    }
    show_answer(&a, 2);
}

static void fits(char **field)
{
    unsigned pattern = (unsigned)number_of(field[2], 255);
    input masks = bytes_of(field[3], MASKS);
    int any = 0;

    for (size_t i = 0; i < masks.length; i++)
        if ((masks.bytes[i] & ~pattern) == 0)
            any = 1;
    printf(" %d", any);
}

static void page(char **field)
{
    static answer a;
    static input b, r;
    shodh_tally t;

    b = bytes_of(field[2], BOOK);
    r = bytes_of(field[3], RUN);
    t.accepted = number_of(field[5], 1000000000);
    t.turned_away = number_of(field[6], 1000000000);
    memset(a.out, OLD, ROOM);
    a.reply = limit_page(b.bytes, b.length, r.bytes, r.length, a.out, number_of(field[4], ROOM), &t);
    show_answer(&a, 2);
    printf(" %llu %llu", (unsigned long long)t.accepted, (unsigned long long)t.turned_away);
}

static void again(char **field)
{
    static answer a;
    input b = bytes_of(field[2], BOOK);

    memset(a.out, OLD, ROOM);
    a.reply = limit_check(b.bytes, b.length);
    if (a.reply.number == 0)
        a.reply = write_out(b.bytes, b.length, a.out, number_of(field[3], ROOM));
    show_answer(&a, 2);
}

// ---- closing in parts

// what an operation wrote, as an input; at a refusal its length is above every other
static input result_of(enum operation op, const input *b, uint64_t set)
{
    const answer *a = try_in(BOOK, op, b, set);
    input c;

    memcpy(c.bytes, a->out, BOOK);
    c.length = a->reply.number == 0 ? (size_t)a->reply.value : BOOK + 1;
    return c;
}

static int same(const input *b, const input *c)
{
    return b->length <= BOOK && b->length == c->length && memcmp(b->bytes, c->bytes, b->length) == 0;
}

static int closes_to(const input *b, uint64_t set, const input *to)
{
    input c = result_of(CLOSE, b, set);

    return same(&c, to);
}

static int closes_in_parts(const input *b, uint64_t first, uint64_t then, const input *to)
{
    input c = result_of(CLOSE, b, first);

    return c.length <= BOOK && closes_to(&c, then, to);
}

static int accepted(const input *b)
{
    return try_in(1, PLAN, b, 0)->reply.number != 7;
}

static void show_same(const char *word, int is)
{
    printf(" %s %s", word, is ? "same" : "differs");
}

static void parts(char **field)
{
    const uint64_t evens = 0x5555555555555555u;
    input b = bytes_of(field[2], BOOK), closed, table, closed_table;
    uint64_t set = set_of(field[3]);
    const answer *a = try_in(ROOM, CLOSE, &b, set);

    show_reply(a->reply, 2);
    show_spoiled(a);
    if (a->reply.number != 0)
        return;
    closed = result_of(CLOSE, &b, set);
    table = result_of(ANALYSE, &b, 0);
    closed_table = result_of(ANALYSE, &closed, 0);
    show_same("again", closes_to(&closed, set, &closed));
    show_same("parts", closes_in_parts(&b, set & evens, set & ~evens, &closed));
    show_same("turned", closes_in_parts(&b, set & ~evens, set & evens, &closed));
    show_same("table", same(&table, &closed_table));
    show_same("none", closes_to(&b, 0, &b));
    show_same("accepted", accepted(&b) == accepted(&closed));
}

// ---- the plan of a closed book

static void closed_plan(char **field)
{
    static answer full, closed, other;
    static uint8_t left[SHODH_PLAN_SIZE];
    uint8_t numbers[64];
    input b = bytes_of(field[2], BOOK), c;
    uint64_t set = set_of(field[3]);

    closed = *try_in(ROOM, CLOSE, &b, set);
    if (closed.reply.number != 0) {
        show_reply(closed.reply, 2);
        show_spoiled(&closed);
        return;
    }
    c = result_of(CLOSE, &b, set);
    full = *try_in(ROOM, PLAN, &b, 0);
    other = *try_in(ROOM, PLAN, &c, 0);
    show_answer(&full, 1);
    show_answer(&closed, 0);
    show_answer(&other, 1);
    left_numbers(b.bytes, set, numbers);
    if (full.reply.number != other.reply.number || left_plan(numbers, full.out, written(full.reply), left) != written(other.reply) ||
        memcmp(left, other.out, written(other.reply)) != 0)
        printf(" differs");
}

// ---- lines

static const struct {
    const char *kind;
    void (*results)(char **field);
} kinds[] = {{"book", book}, {"short", shorter}, {"room", room}, {"pair", pair}, {"fits", fits}, {"page", page}, {"again", again}, {"parts", parts}, {"same", closed_plan}};

static void results(char **field)
{
    for (size_t k = 0; k < sizeof kinds / sizeof kinds[0]; k++)
        if (strcmp(field[0], kinds[k].kind) == 0) {
            kinds[k].results(field);
            return;
        }
    printf(" ?");
}

static void answer_line(char *line)
{
    static char none[1];
    char *field[FIELDS], *end = strstr(line, " = ");

    if (line[0] == '#' || strncmp(line, "requests", 8) == 0)
        return;
    if (end != NULL)
        *end = 0;
    printf("%s =", line);
    for (int k = 0; k < FIELDS; k++) {
        char *space = strchr(line, ' ');
        field[k] = line;
        if (space != NULL)
            *space = 0;
        line = space != NULL ? space + 1 : none;
    }
    results(field);
    printf("\n");
}

int main(void)
{
    static char text[(1 << 21) + 1];
    char *line = text, *end;
    size_t n = fread(text, 1, sizeof text - 1, stdin);

    while (line < text + n) {
        end = strchr(line, '\n');
        if (end != NULL)
            *end = 0;
        else
            end = text + n;
        answer_line(line);
        line = end + 1;
    }
    return 0;
}
