// agree N SEED: the library beside the C version on N inputs, random and damaged. Each input goes through every operation of both. The replies must be
// the same in number, value and rounds, the outputs byte for byte, the tallies in both fields; the bytes before and after every buffer and tally, those of
// the room behind an output, the whole room and the tally at a refusal, and the inputs must stay as they were. Each valid book is besides closed over
// several sets, and the library's plan of the closed book must have nothing but what is left of its plan of the book, and all of that where the set is
// self-contained. Prints how often each reply came, and how many of these plans there were, or the first input that shows a difference.
#include <shodhvirup.h>
#include <stdio.h>
#include <stdlib.h>
#include <string.h>

#include "left.h"
#include "limit.h"

#define GUARD 64
#define LONGEST 8192

// ---- random numbers: xorshift

static uint64_t state;

static uint64_t next(void)
{
    state ^= state << 13;
    state ^= state >> 7;
    state ^= state << 17;
    return state;
}

// below n
static unsigned pick(unsigned n)
{
    return (unsigned)(next() >> 11) % n;
}

// ---- inputs

typedef struct {
    uint8_t bytes[LONGEST];
    size_t length;
} input;

static void add(input *s, unsigned byte)
{
    if (s->length < LONGEST)
        s->bytes[s->length++] = (uint8_t)byte;
}

static void add_mark(input *s, const char *mark)
{
    add(s, (unsigned char)mark[0]);
    add(s, (unsigned char)mark[1]);
}

static unsigned argument(unsigned variables, int in_head)
{
    unsigned k = pick(12);
    if (k == 0)
        return 255;
    if (k == 1 && !in_head)
        return 254;
    return pick(variables);
}

// The variables that it has, bit v for variable v.
static unsigned add_call(input *s, const char *mark, unsigned pred, unsigned arity, unsigned variables)
{
    unsigned stand = 0;
    add_mark(s, mark);
    add(s, pred);
    for (unsigned i = 0; i < arity; i++) {
        unsigned v = argument(variables, mark[0] == 'C');
        add(s, v);
        if (v < 16)
            stand |= 1u << v;
    }
    return stand;
}

// A negated call. Most take their variables from those given, so that they can be placed, and a literal where there is none of them; wildcards are few, since
// each is a fault.
static void add_negated(input *s, unsigned pred, unsigned arity, unsigned variables, unsigned given)
{
    add_mark(s, "NG");
    add(s, pred);
    for (unsigned i = 0; i < arity; i++) {
        unsigned v = pick(variables);
        if (pick(200) == 0)
            v = 254;
        else if (!(given >> v & 1) && pick(16) != 0)
            v = 255;
        add(s, v);
    }
}

// The variables that its subgoals bind; `negated` of 16 are negated.
static unsigned add_body(input *s, unsigned most, const unsigned *arity, unsigned preds, unsigned variables, unsigned negated)
{
    unsigned stand = 0, all = (1u << variables) - 1;
    for (unsigned n = pick(most + 1); n > 0; n--) {
        unsigned p = pick(preds);
        if (pick(16) < negated)
            add_negated(s, p, arity[p], variables, pick(2) == 0 ? stand : pick(all + 1));
        else
            stand |= add_call(s, "SG", p, arity[p], variables);
    }
    return stand;
}

// The arguments of a head from `at` on: variables that stand in no subgoal become literals, so that the clause leaves no cell empty.
static void fill_head(input *s, size_t at, unsigned arity, unsigned stand)
{
    for (size_t i = at; i < at + arity && i < s->length; i++)
        if (s->bytes[i] < 16 && !(stand >> s->bytes[i] & 1))
            s->bytes[i] = 255;
}

// A book. Most are small and keep the limits; `over` lets the counts go one above them, and `clash` lets `MO` records fall. In half of them most clauses
// leave no cell empty, so that more can be ordered, in half of them predicates that have `MO` may have clauses, too, half of them have negated subgoals, and
// in a quarter of them a clause calls only predicates before its own, so that some of them can be closed without the others.
static void make_book(input *s, int over, int clash)
{
    static const unsigned sizes[] = {1, 2, 3, 4, 6, 10, 20, 64};
    unsigned arity[65], has[65];
    unsigned preds = over && pick(3) == 0 ? 64 + pick(2) : 1 + pick(sizes[pick(8)]);
    unsigned most = 1 + pick(6), variables = 1 + pick(pick(4) == 0 ? 16 : 5);
    unsigned filled = pick(2), both = pick(2), layered = pick(4) == 0, negated = pick(2) == 0 ? 0 : 1 + pick(8), modes = pick(4), clauses = over && pick(3) == 0 ? 64 + pick(2) : pick(1 + 2 * preds > 64 ? 65 : 1 + 2 * preds);
    s->length = 0;
    for (unsigned p = 0; p < preds; p++) {
        arity[p] = pick(most + 1);
        add_mark(s, "PR");
        add(s, arity[p]);
    }
    for (unsigned p = 0; p < preds; p++) {
        has[p] = pick(4) < modes;
        if (!has[p])
            continue;
        unsigned n = pick(10) == 0 ? pick(21) : pick(4);
        add_mark(s, "MO");
        add(s, clash && pick(4) == 0 ? pick(p + 1) : p);
        add(s, n);
        while (n-- > 0)
            add(s, pick(1u << arity[p]));
    }
    for (unsigned k = 0; k < clauses; k++) {
        unsigned p = pick(preds);
        if (has[p] && !both)
            continue;
        size_t head = s->length + 3;
        add_call(s, "CL", p, arity[p], variables);
        unsigned stand = add_body(s, over && pick(20) == 0 ? 9 : pick(2) == 0 ? 3 : 8, arity, layered && p > 0 ? p : preds, variables, negated);
        if (filled && pick(16) != 0)
            fill_head(s, head, arity[p], stand);
    }
    add_mark(s, "QU");
    add_body(s, over ? 9 : pick(2) == 0 ? 2 : 8, arity, preds, variables, negated);
}

static const char *const marks[] = {"PR", "MO", "CL", "SG", "NG", "QU", "CN"};

// A change of a few bytes: replaced, dropped, doubled, cut off, added behind, or a mark put in.
static void damage(input *s)
{
    for (unsigned turns = 1 + pick(3); turns > 0; turns--) {
        size_t at = s->length == 0 ? 0 : pick((unsigned)s->length);
        switch (pick(6)) {
        case 0:
            if (s->length > 0)
                s->bytes[at] = (uint8_t)(pick(2) == 0 ? pick(256) : pick(24));
            break;
        case 1:
            if (s->length > 0) {
                memmove(s->bytes + at, s->bytes + at + 1, s->length - at - 1);
                s->length--;
            }
            break;
        case 2:
            if (s->length > 0 && s->length < LONGEST) {
                memmove(s->bytes + at + 1, s->bytes + at, s->length - at);
                s->length++;
            }
            break;
        case 3:
            s->length = at;
            break;
        case 4:
            add_mark(s, marks[pick(7)]);
            for (unsigned n = pick(4); n > 0; n--)
                add(s, pick(20));
            break;
        default:
            if (at + 2 <= s->length)
                memcpy(s->bytes + at, marks[pick(7)], 2);
        }
    }
}

// Marks and bytes in any turn.
static void make_noise(input *s)
{
    s->length = 0;
    for (unsigned n = pick(40); n > 0; n--) {
        if (pick(2) == 0)
            add_mark(s, marks[pick(7)]);
        else
            add(s, pick(2) == 0 ? pick(256) : pick(8));
    }
}

static void make(input *s)
{
    unsigned kind = pick(16);
    if (kind == 0) {
        make_noise(s);
        return;
    }
    make_book(s, kind == 1, kind == 2);
    if (kind >= 8)
        damage(s);
}

// The run of a page for a book: a few queries, or about as many as there may be.
static void make_run(input *s, const input *book)
{
    unsigned arity[64], preds = 0, variables = 1 + pick(5), negated = pick(2) == 0 ? 0 : 1 + pick(8);
    unsigned n = pick(64) == 0 ? 254 + pick(4) : pick(6), most = n > 6 ? 2 : pick(10) == 0 ? 9 : 4;

    while (preds < 64 && 3 * preds + 3 <= book->length && memcmp(book->bytes + 3 * preds, "PR", 2) == 0) {
        arity[preds] = book->bytes[3 * preds + 2] % 7;
        preds++;
    }
    for (s->length = 0; n > 0; n--) {
        add_mark(s, "QU");
        if (preds > 0)
            add_body(s, most, arity, preds, variables, negated);
    }
    if (pick(3) == 0)
        damage(s);
}

// ---- one call of both

enum { CHECK, ANALYSE, PLAN, CLOSE, PAGE, CHOICE, JOINT, OPERATIONS };
static const char *const names[] = {"check", "analyse", "plan", "close", "page", "choice", "joint"};

typedef struct {
    input first, second;
    uint64_t set;
    unsigned arity;
} question;

static shodh_reply ask(int ours, int op, const question *q, const uint8_t *x, const uint8_t *y, uint8_t *out, size_t room, shodh_tally *tally)
{
    size_t n = q->first.length, m = q->second.length;
    uint8_t arity = (uint8_t)q->arity;
    switch (op) {
    case CHECK:
        return ours ? shodh_check(x, n) : limit_check(x, n);
    case ANALYSE:
        return ours ? shodh_analyse(x, n, out, room) : limit_analyse(x, n, out, room);
    case PLAN:
        return ours ? shodh_plan(x, n, out, room) : limit_plan(x, n, out, room);
    case CLOSE:
        return ours ? shodh_close(x, n, q->set, out, room) : limit_close(x, n, q->set, out, room);
    case PAGE:
        return ours ? shodh_page(x, n, y, m, out, room, tally) : limit_page(x, n, y, m, out, room, tally);
    case CHOICE:
        return ours ? shodh_choice(arity, x, n, y, m, out, room) : limit_choice(arity, x, n, y, m, out, room);
    default:
        return ours ? shodh_joint(arity, x, n, y, m, out, room) : limit_joint(arity, x, n, y, m, out, room);
    }
}

static uint8_t expected[SHODH_PLAN_SIZE], room_space[GUARD + SHODH_PLAN_SIZE + 256 + GUARD], first_space[GUARD + LONGEST + GUARD],
    second_space[GUARD + LONGEST + GUARD];

// what stands in a buffer before a call
static uint8_t old(size_t i)
{
    return (uint8_t)(i * 37 + 11);
}

// the input, between guards; a null pointer where there is none
static uint8_t *lend(uint8_t *space, const input *s)
{
    for (size_t i = 0; i < GUARD; i++)
        space[i] = space[GUARD + s->length + i] = old(i);
    memcpy(space + GUARD, s->bytes, s->length);
    return s->length == 0 ? NULL : space + GUARD;
}

static int kept(const uint8_t *space, const input *s)
{
    for (size_t i = 0; i < GUARD; i++)
        if (space[i] != old(i) || space[GUARD + s->length + i] != old(i))
            return 0;
    return memcmp(space + GUARD, s->bytes, s->length) == 0;
}

static void fail(int op, const question *q, size_t room, const char *what)
{
    printf("%s: %s; room %zu, arity %u, set %016llx, first ", names[op], what, room, q->arity, (unsigned long long)q->set);
    for (size_t i = 0; i < q->first.length; i++)
        printf("%02x", q->first.bytes[i]);
    printf(", second ");
    for (size_t i = 0; i < q->second.length; i++)
        printf("%02x", q->second.bytes[i]);
    printf("\n");
    exit(1);
}

// Both on one question, in a room of that size, which is at most what there is; the number of the reply.
static unsigned compare(int op, const question *q, size_t room)
{
    uint8_t *x = lend(first_space, &q->first), *y = lend(second_space, &q->second), *out = room == 0 ? NULL : room_space + GUARD;
    shodh_tally tally = {next(), next()}, tallies[3] = {{1, 2}, tally, {3, 4}};
    shodh_reply theirs = ask(0, op, q, q->first.bytes, q->second.bytes, expected, room < sizeof expected ? room : sizeof expected, &tally), r;
    size_t written = op == CHECK || theirs.number != 0 ? 0 : (size_t)theirs.value;

    for (size_t i = 0; i < GUARD + room + GUARD; i++)
        room_space[i] = old(i);
    r = ask(1, op, q, x, y, out, room, &tallies[1]);
    if (r.number != theirs.number || r.value != theirs.value || r.rounds != theirs.rounds)
        fail(op, q, room, "the replies differ");
    if (memcmp(room_space + GUARD, expected, written) != 0)
        fail(op, q, room, "the outputs differ");
    if (tallies[1].accepted != tally.accepted || tallies[1].turned_away != tally.turned_away)
        fail(op, q, room, "the tallies differ");
    if (tallies[0].accepted != 1 || tallies[0].turned_away != 2 || tallies[2].accepted != 3 || tallies[2].turned_away != 4)
        fail(op, q, room, "what stands beside the tally changed");
    for (size_t i = 0; i < GUARD + room + GUARD; i++)
        if ((i < GUARD || i >= GUARD + written) && room_space[i] != old(i))
            fail(op, q, room, "a byte changed that must stay");
    if (!kept(first_space, &q->first) || !kept(second_space, &q->second))
        fail(op, q, room, "an input changed");
    return r.number;
}

static unsigned long long replies[OPERATIONS][10];

// One operation: in a room that is large enough, then, where something was written, in one of about that size or less.
static void try(int op, const question *q)
{
    shodh_tally tally;
    shodh_reply r = ask(0, op, q, q->first.bytes, q->second.bytes, expected, sizeof expected, &tally);
    size_t needed = r.number == 0 ? (size_t)r.value : 0;

    replies[op][compare(op, q, needed + pick(256))]++;
    if (needed == 0)
        return;
    replies[op][compare(op, q, pick(2) == 0 ? needed - 1 + pick(3) : pick((unsigned)needed + 1))]++;
}

// ---- the plan of a closed book

// Closings tried, those with a plan, and those whose plan has both lost records and kept some besides the query's: over any set, and over one that is
// self-contained.
static unsigned long long closings[2], closed_plans[2], parted_plans[2];

// A valid book with its plan, closed over a set. Where that is self-contained, the plan of the closed book is what is left, else it has some of that.
static void close_over(const question *q, const uint8_t *full, shodh_reply f, int contained)
{
    static uint8_t closed[SHODH_BOOK_SIZE], left[SHODH_PLAN_SIZE], plan[SHODH_PLAN_SIZE];
    const uint8_t *book = q->first.bytes;
    shodh_reply c = shodh_close(book, q->first.length, q->set, closed, sizeof closed), p = shodh_plan(closed, (size_t)c.value, plan, sizeof plan);
    uint8_t numbers[64];
    size_t kept;

    closings[contained]++;
    if (c.number != SHODH_DONE || p.number != f.number)
        fail(CLOSE, q, sizeof closed, "the book is not closed, or 7 comes for one of its plans alone");
    if (f.number != SHODH_DONE)
        return;
    left_numbers(book, q->set, numbers);
    kept = left_plan(numbers, full, (size_t)f.value, left);
    if (!left_has(left, kept, plan, (size_t)p.value))
        fail(CLOSE, q, sizeof closed, "the closed book's plan has what is not left");
    if (contained && p.value != kept)
        fail(CLOSE, q, sizeof closed, "the closed book's plan has not all that is left");
    closed_plans[contained]++;
    parted_plans[contained] += p.value < f.value && p.value > 3 + (size_t)full[2];
}

// A valid book: the chosen predicates that there are, and each predicate by itself; then the least self-contained set that has them.
static void try_closed(question *q)
{
    static uint8_t full[SHODH_PLAN_SIZE];
    shodh_reply f = shodh_plan(q->first.bytes, q->first.length, full, sizeof full);
    unsigned preds = 0, p;

    if (f.number != SHODH_DONE && f.number != SHODH_UNORDERABLE)
        return;
    while (q->first.bytes[3 * preds] == 'P')
        preds++;
    q->set &= preds == 64 ? ~(uint64_t)0 : ((uint64_t)1 << preds) - 1;
    for (p = 0; p <= preds; p++) {
        close_over(q, full, f, 0);
        q->set = left_contained(q->first.bytes, q->set);
        close_over(q, full, f, 1);
        q->set = (uint64_t)1 << (p & 63);
    }
}

static void make_masks(input *s, unsigned arity)
{
    unsigned limit = arity > 6 ? 64 : 1u << arity;
    s->length = 0;
    for (unsigned n = pick(pick(10) == 0 ? 23 : 7); n > 0; n--)
        add(s, pick(40) == 0 ? pick(256) : pick(limit));
}

int main(int argc, char **argv)
{
    static question book, lists;
    unsigned long inputs = argc > 1 ? strtoul(argv[1], NULL, 10) : 1000000;

    state = argc > 2 ? strtoull(argv[2], NULL, 10) : 20261115;
    for (unsigned long k = 0; k < inputs; k++) {
        make(&book.first);
        book.set = pick(4) == 0 ? next() : next() & ((1u << pick(12)) - 1);
        make_run(&book.second, &book.first);
        for (int op = CHECK; op <= PAGE; op++)
            try(op, &book);
        try_closed(&book);
        lists.arity = pick(8);
        make_masks(&lists.first, lists.arity);
        make_masks(&lists.second, lists.arity);
        try(CHOICE, &lists);
        try(JOINT, &lists);
    }
    printf("%lu inputs agree. Replies:\n%-8s", inputs, "");
    for (int n = 0; n < 10; n++)
        printf(" %10d", n);
    printf("\n");
    for (int op = 0; op < OPERATIONS; op++) {
        printf("%-8s", names[op]);
        for (int n = 0; n < 10; n++)
            printf(" %10llu", replies[op][n]);
        printf("\n");
    }
    for (int k = 0; k < 2; k++)
        printf("%llu closings over %s set, %llu with a plan, of which %llu lost records of clauses and kept some\n", closings[k], k ? "a self-contained" : "any",
               closed_plans[k], parted_plans[k]);
    return 0;
}
