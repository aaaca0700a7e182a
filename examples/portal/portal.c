/* portal BOOK: what a portal's server does with a rule book before it takes it over. The book is loaded from a file, analysed and planned; how long the
 * analysis went on and could have, and the orders are printed, or in words why there are none.
 *
 * portal BOOK RUN: what it does for a page. The queries of the run are put to the book, all in one call; for each its order is printed, or that it is turned
 * away, and at the end how many were.
 *
 * Exit status: 0 the book is taken, or the page answered, 1 it is refused, 2 a file cannot be read. */
#include <stdio.h>

#include <shodhvirup.h>

/* The longest run: QU and eight subgoals of six arguments, for every query. */
#define RUN_SIZE (SHODH_MOST_QUERIES * (2 + 8 * 9))

/* Bytes that a file has: one more than the longest book or run, so that a file that fills the room is too long to be one. */
typedef struct {
    const char *name;
    uint8_t *bytes;
    size_t most, length;
} input;

static uint8_t book_bytes[SHODH_BOOK_SIZE + 1], run_bytes[RUN_SIZE + 1];
static input book = {"book", book_bytes, SHODH_BOOK_SIZE, 0}, run = {"run", run_bytes, RUN_SIZE, 0};
static uint8_t table[SHODH_TABLE_SIZE];
static uint8_t plan[SHODH_PLAN_SIZE];
static uint8_t answers[SHODH_PAGE_SIZE];

/* Whether a whole file, or as much of it as tells, could be read. */
static int load(const char *path, input *from)
{
    FILE *file = fopen(path, "rb");
    int failed;

    if (file == NULL)
        return 0;
    from->length = fread(from->bytes, 1, from->most + 1, file);
    failed = ferror(file);
    fclose(file);
    return !failed;
}

/* What was wanted at the byte at fault, or at the end of a book; in a run there is QU, SG and NG alone. */
static const char *wanted(uint32_t number, int at_end, int in_run)
{
    switch (number) {
    case SHODH_PAST_END:
        return "the rest of the record";
    case SHODH_NO_MARK:
        return in_run ? "QU, SG or NG" : "PR, MO, CL, SG, NG or QU";
    case SHODH_OUT_OF_TURN:
        return in_run ? "QU, and then its SG and NG" : at_end ? "QU, the query" : "a record in its turn: all PR, all MO, the clauses, then one QU";
    case SHODH_OUT_OF_RANGE:
        return in_run ? "a predicate below the number of PR, or an argument 0 to 15, 255, in SG 254"
                      : "an arity 0 to 6, a predicate below the number of PR, n 0 to 20, a mask below 2^arity, or an argument 0 to 15, 255, in SG 254";
    case SHODH_TOO_MANY:
        return in_run ? "another record: there are 256 QU or 8 SG and NG before it" : "another record: there are 64 PR, 64 CL or 8 SG and NG before it";
    case SHODH_CLASH:
        return "a predicate above that of the MO before";
    }
    return "";
}

/* A refusal in words: the byte at fault, its offset and what was wanted there; or that the bytes end, or that the file goes on where no book or run does. */
static void print_refusal(shodh_reply reply, const input *of)
{
    size_t at = (size_t)reply.value;
    int in_run = of == &run;

    if (reply.number == SHODH_UNORDERABLE)
        printf("no orders give every call what the MO of its predicate asks for, a negated one all its variables, and leave no cell empty\n");
    else if (at < of->length)
        printf("byte %zu is %u (hex %02x); wanted: %s\n", at, of->bytes[at], of->bytes[at], wanted(reply.number, 0, in_run));
    else if (of->length > of->most)
        printf("longer than any %s, which has at most %zu bytes\n", of->name, of->most);
    else
        printf("the %s ends at byte %zu; wanted: %s\n", of->name, at, wanted(reply.number, 1, in_run));
}

/* The most rounds that the analysis of a book that was checked can take: the sum of 2^arity over the predicates with clauses. */
static unsigned most_rounds(const uint8_t *p, const uint8_t *end)
{
    unsigned arity[64], preds = 0, sum = 0;
    uint64_t summed = 0;

    while (p < end && *p != 'Q') {
        unsigned field = p[2];

        if (*p == 'P') {
            arity[preds++] = field;
            p += 3;
        } else if (*p == 'M') {
            p += 4 + p[3];
        } else {
            if (*p == 'C' && (summed >> field & 1) == 0) {
                sum += 1u << arity[field];
                summed |= (uint64_t)1 << field;
            }
            p += 3 + arity[field];
        }
    }
    return sum;
}

/* n places, and where they end. */
static const uint8_t *print_places(const uint8_t *places, unsigned n)
{
    unsigned i;

    for (i = 0; i < n; i++)
        printf(" %u", places[i]);
    printf("\n");
    return places + n;
}

/* A plan: `QO`, n, n places; then `CO`, clause, pattern, n, n places, as often as it goes on. */
static void print_plan(const uint8_t *p, const uint8_t *end)
{
    printf("query: subgoals");
    p = print_places(p + 3, p[2]);
    while (p < end) {
        printf("clause %u, pattern %u: subgoals", p[2], p[3]);
        p = print_places(p + 5, p[4]);
    }
}

/* A page's answers: for each query 0 and its `QO` record, or 7. */
static void print_answers(const uint8_t *p, const uint8_t *end)
{
    unsigned k;

    for (k = 0; p < end; k++) {
        printf("query %u: ", k);
        if (*p == SHODH_DONE) {
            printf("subgoals");
            p = print_places(p + 4, p[3]);
        } else {
            printf("turned away\n");
            p++;
        }
    }
}

/* The page of a run, of a book that was checked; the exit status. */
static int answer_page(void)
{
    shodh_tally tally;
    shodh_reply reply = shodh_page(book.bytes, book.length, run.bytes, run.length, answers, sizeof answers, &tally);

    if (reply.number != SHODH_DONE) {
        print_refusal(reply, &run);
        return 1;
    }
    print_answers(answers, answers + reply.value);
    printf("%u accepted, %u turned away\n", (unsigned)tally.accepted, (unsigned)tally.turned_away);
    return 0;
}

/* The analysis and the plan of a book that was checked; the exit status. */
static int take_book(void)
{
    shodh_reply reply = shodh_analyse(book.bytes, book.length, table, sizeof table);

    printf("rounds: at most %u, %u taken\n", most_rounds(book.bytes, book.bytes + book.length), (unsigned)reply.rounds);
    reply = shodh_plan(book.bytes, book.length, plan, sizeof plan);
    if (reply.number != SHODH_DONE) {
        print_refusal(reply, &book);
        return 1;
    }
    print_plan(plan, plan + reply.value);
    return 0;
}

int main(int argc, char **argv)
{
    shodh_reply reply;

    if (argc < 2 || argc > 3 || !load(argv[1], &book) || (argc == 3 && !load(argv[2], &run))) {
        fprintf(stderr, "usage: portal BOOK [RUN], files that can be read\n");
        return 2;
    }
    reply = shodh_check(book.bytes, book.length);
    if (reply.number != SHODH_DONE) {
        print_refusal(reply, &book);
        return 1;
    }
    return argc == 3 ? answer_page() : take_book();
}
