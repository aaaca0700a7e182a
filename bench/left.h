// What is left of a plan when some predicates of its book are closed (document 02, W10), worked out of the plan and not of the closed book. The book is a valid
// one, and the plan its own.
#ifndef LEFT_H
#define LEFT_H

#include <stddef.h>
#include <stdint.h>

// the least self-contained set that has these predicates: the clauses of its predicates call only predicates of the set and predicates without clauses
uint64_t left_contained(const uint8_t *book, uint64_t set);

// the number of each clause in the book closed over a set, or LEFT_DROPPED, into room for 64
#define LEFT_DROPPED 255
void left_numbers(const uint8_t *book, uint64_t set, uint8_t *numbers);

// what is left of a plan whose clauses have these numbers: the record of the query, and those of the clauses that are not dropped; the number of bytes written,
// at most the plan's length
size_t left_plan(const uint8_t *numbers, const uint8_t *plan, size_t length, uint8_t *out);

// each record of a plan is one of what is left, in the same turn
int left_has(const uint8_t *left, size_t left_length, const uint8_t *plan, size_t length);

#endif
