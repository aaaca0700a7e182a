// calls WORKLOADS NAME OPERATION N: one operation, N times, on each book of that name. The instructions are counted from outside (see run). With `stack`
// for N it is called once, and the bytes of stack that it took, the most of all books, are printed. A line of WORKLOADS is a name and a book in
// hexadecimal digits. A page asks the book's own query, 256 times. With -DLIMIT it is the C version that is called, else the library.
#include <shodhvirup.h>
#include <stdio.h>
#include <stdlib.h>
#include <string.h>
#include <ucontext.h>

#include "limit.h"

#ifdef LIMIT
#define CALL(operation) limit_##operation
#else
#define CALL(operation) shodh_##operation
#endif

static char line[1 << 16];
static uint8_t book[1 << 15], out[SHODH_PLAN_SIZE];

// the run of a page
static uint8_t run[1 << 15];
static size_t run_length;

static int digit(char c)
{
    return c <= '9' ? c - '0' : c - 'a' + 10;
}

static const char *const operations[] = {"check", "analyse", "plan", "close-none", "close-all", "close-beyond", "page"};

// the query of a book, which its records end in, as often as a page may ask
static void make_run(size_t n)
{
    const uint8_t *p = book, *end = book + n;
    unsigned arity[64], preds = 0;

    while (p < end && *p != 'Q') {
        if (*p == 'P') {
            arity[preds++] = p[2];
            p += 3;
        } else if (*p == 'M') {
            p += 4 + p[3];
        } else {
            p += 3 + arity[p[2]];
        }
    }
    run_length = 0;
    for (int k = 0; k < SHODH_MOST_QUERIES; k++) {
        memcpy(run + run_length, p, (size_t)(end - p));
        run_length += (size_t)(end - p);
    }
}

// the closing's set: none, every predicate of the book, whose `PR` records come first, or every number
static uint64_t chosen(int operation, size_t n)
{
    unsigned preds = 0;

    if (operation == 3)
        return 0;
    while (operation == 4 && 3 * preds + 3 <= n && memcmp(book + 3 * preds, "PR", 2) == 0)
        preds++;
    return preds == 0 || preds == 64 ? ~(uint64_t)0 : ((uint64_t)1 << preds) - 1;
}

static shodh_reply call(int operation, size_t n, uint64_t set)
{
    static shodh_tally tally;

    switch (operation) {
    case 0:
        return CALL(check)(book, n);
    case 1:
        return CALL(analyse)(book, n, out, sizeof out);
    case 2:
        return CALL(plan)(book, n, out, sizeof out);
    case 6:
        return CALL(page)(book, n, run, run_length, out, sizeof out, &tally);
    default:
        return CALL(close)(book, n, set, out, sizeof out);
    }
}

// one call, for a stack of its own
static struct {
    int operation;
    size_t n;
    uint64_t set;
} asked;

static void ask(void)
{
    call(asked.operation, asked.n, asked.set);
}

// the bytes of stack that a call takes: those that are no longer as they were painted
static size_t stack_of(int operation, size_t n, uint64_t set)
{
    static uint8_t stack[1 << 20];
    ucontext_t here, there;
    size_t left = 0;

    asked.operation = operation, asked.n = n, asked.set = set;
    memset(stack, 0xA5, sizeof stack);
    getcontext(&there);
    there.uc_stack.ss_sp = stack;
    there.uc_stack.ss_size = sizeof stack;
    there.uc_link = &here;
    makecontext(&there, ask, 0);
    swapcontext(&here, &there);
    while (left < sizeof stack && stack[left] == 0xA5)
        left++;
    return sizeof stack - left;
}

int main(int argc, char **argv)
{
    FILE *file = argc == 5 ? fopen(argv[1], "r") : NULL;
    uint64_t sum = 0;
    int operation = 0;

    while (argc == 5 && operation < 7 && strcmp(operations[operation], argv[3]) != 0)
        operation++;
    if (file == NULL || operation == 7) {
        fprintf(stderr, "usage: calls WORKLOADS NAME check|analyse|plan|close-none|close-all|close-beyond|page N|stack\n");
        return 2;
    }
    while (fgets(line, sizeof line, file)) {
        char *name = strtok(line, " \n"), *digits = strtok(NULL, " \n");
        size_t n = 0;
        if (name == NULL || digits == NULL || strcmp(name, argv[2]) != 0)
            continue;
        for (; digits[2 * n] != 0; n++)
            book[n] = (uint8_t)(digit(digits[2 * n]) * 16 + digit(digits[2 * n + 1]));
        make_run(n);
        uint64_t set = chosen(operation, n);
        if (strcmp(argv[4], "stack") == 0) {
            size_t taken = stack_of(operation, n, set);
            sum = sum < taken ? taken : sum;
        }
        for (long i = atol(argv[4]); i > 0; i--) {
            shodh_reply r = call(operation, n, set);
            sum += r.number * 7 + r.value + r.rounds;
        }
    }
    printf("%llu\n", (unsigned long long)sum);
    return 0;
}
