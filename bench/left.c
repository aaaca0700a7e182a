#include "left.h"

#include <string.h>

// the clauses of a book: how many, the predicate of each, and the predicates that it calls, as a set; and the set of the predicates that have clauses
typedef struct {
    unsigned count;
    uint8_t owner[64];
    uint64_t calls[64];
    uint64_t defined;
} clauses;

// from the first record to QU: a PR has its arity behind the mark, every other record a predicate
static clauses clauses_of(const uint8_t *p)
{
    clauses c = {0};
    uint8_t arity[64];
    unsigned preds = 0;

    while (*p != 'Q') {
        uint8_t field = p[2];

        if (*p == 'P') {
            arity[preds++] = field;
            p += 3;
        } else if (*p == 'M') {
            p += 4 + p[3];
        } else {
            if (*p == 'C') {
                c.owner[c.count++] = field;
                c.defined |= (uint64_t)1 << field;
            } else {
                c.calls[c.count - 1] |= (uint64_t)1 << field;
            }
            p += 3 + arity[field];
        }
    }
    return c;
}

uint64_t left_contained(const uint8_t *book, uint64_t set)
{
    clauses c = clauses_of(book);
    uint64_t before;
    unsigned k;

    do {
        before = set;
        for (k = 0; k < c.count; k++)
            if (set >> c.owner[k] & 1)
                set |= c.calls[k] & c.defined;
    } while (set != before);
    return set;
}

void left_numbers(const uint8_t *book, uint64_t set, uint8_t *numbers)
{
    clauses c = clauses_of(book);
    uint8_t next = 0;
    unsigned k;

    memset(numbers, LEFT_DROPPED, 64);
    for (k = 0; k < c.count; k++)
        if ((set >> c.owner[k] & 1) == 0)
            numbers[k] = next++;
}

// the length of a record: `QO`, n, n places, or `CO`, clause, pattern, n, n places
static size_t size_of(const uint8_t *record)
{
    return record[0] == 'Q' ? 3 + (size_t)record[2] : 5 + (size_t)record[4];
}

size_t left_plan(const uint8_t *numbers, const uint8_t *plan, size_t length, uint8_t *out)
{
    size_t at, written = 0;

    for (at = 0; at < length; at += size_of(plan + at)) {
        const uint8_t *record = plan + at;
        int query = record[0] == 'Q';

        if (!query && numbers[record[2]] == LEFT_DROPPED)
            continue;
        memcpy(out + written, record, size_of(record));
        if (!query)
            out[written + 2] = numbers[record[2]];
        written += size_of(record);
    }
    return written;
}

int left_has(const uint8_t *left, size_t left_length, const uint8_t *plan, size_t length)
{
    size_t at = 0, of;

    for (of = 0; of < left_length && at < length; of += size_of(left + of))
        if (size_of(left + of) == size_of(plan + at) && memcmp(left + of, plan + at, size_of(plan + at)) == 0)
            at += size_of(plan + at);
    return at == length;
}
