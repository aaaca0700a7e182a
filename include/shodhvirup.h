/* shodhvirup.h: rule books checked, analysed, planned and closed, and the queries of a page ordered.
 *
 * A rule book is a string of bytes: Datalog clauses over predicates, some of which reach outside and can only be asked when certain of their
 * arguments are known. A book declares by MO what its predicates must be given: those outside and, where a rule writer wants it, those with clauses, too.
 * A call can be negated, as in "not reported dark". These functions read a book, work out what each predicate must be given, and put the calls of every
 * clause in an order in which every call has what the MO of its predicate asks for, a negated one all its variables, and no cell is left empty. The
 * format of a book and the rules are in docs/01-scope.md, with the changes of docs/changes; what is proved of these functions, in docs/PROMISES.md. The
 * archive is libshodhvirup.a, for x86-64.
 *
 * WHAT HOLDS OF EVERY FUNCTION
 *
 * Input. A book, a run of queries, or a list of masks, is given as a pointer and a length. Any bytes may be given, of any length; each input gets one of the replies
 * below, and the work ends. The input is only read, and nobody may change it during the call.
 *
 * Output. Room for the output is lent as a pointer and a length. On success the output is written from the start of the room, and the bytes after it
 * stay as they were. On any refusal no byte of the room changes. A room of the size named below is always enough; with less, reply 9 tells the bytes
 * needed. Nobody else may read or write the room during the call.
 *
 * Pointers. Each has to be good for as many bytes as are given with it. A null pointer goes with the length 0 only: it is an empty input, or no room.
 * No alignment is asked of bytes. The room must not overlap an input. Two inputs may overlap, and be the same.
 *
 * Reply. A struct of three numbers, given back by value. `rounds` is 0 but for a successful analysis.
 *
 *   number                value                         given exactly when
 *   0  SHODH_DONE         bytes written                 done (the check writes nothing, so its value is 0)
 *   1  SHODH_PAST_END     the book's length             the book ends within a record
 *   2  SHODH_NO_MARK      offset of the byte at fault   two bytes where a record begins are none of the six marks: the first of them
 *   3  SHODH_OUT_OF_TURN  offset of the byte at fault   a mark is out of turn: its first byte; or the book ends without QU: its length
 *   4  SHODH_OUT_OF_RANGE offset of the byte at fault   a byte is out of its range: arity, predicate, n, mask, argument
 *   5  SHODH_TOO_MANY     offset of the byte at fault   a 65th PR, a 65th CL, a 9th of SG and NG in a body or query: the first byte of its mark
 *   6  SHODH_CLASH        offset of the byte at fault   MO not rising: its predicate
 *   7  SHODH_UNORDERABLE  0                             plan only: no orders give every call what its MO asks for, a negated one all its
 *                                                       variables, and leave no cell empty
 *   8  SHODH_NO_PREDICATE lowest such number            close only: the set names a predicate that the book lacks
 *   9  SHODH_NO_ROOM      bytes needed                  the room is too short
 *
 * At 2, 4, 5 and 6 the value is less than the book's length, so that book[value] is a byte of it; at 3 it may be the length, at 1 it always is.
 *
 * Records are judged from the left, and the first fault is given. A valid book is then tried for 8, then 7, then 9. shodh_page judges its run once the book
 * is valid, and shodh_choice and shodh_joint give 0, 4, 5 and 9 alone, as described there.
 *
 * State. None: no memory is allocated, nothing is kept between calls, and calls from several threads do not disturb each other.
 *
 * Stack. As measured (bench/run), not proved: the check takes 0.6 KB, the analysis and the closing 10 KB, the plan 11 KB, the page 13 KB.
 *
 * Version. SHODH_VERSION is three numbers. Replies, images and sizes may change only with the first; with the second, functions are added; with the
 * third, only speed, stack and words change.
 */
#ifndef SHODHVIRUP_H
#define SHODHVIRUP_H

#include <stddef.h>
#include <stdint.h>

#ifdef __cplusplus
extern "C" {
#endif

#define SHODH_VERSION "6.1.1"

/* Rooms that are always enough, in bytes. */
#define SHODH_TABLE_SIZE 1600
#define SHODH_PLAN_SIZE 53259
#define SHODH_BOOK_SIZE 6986
#define SHODH_PAGE_SIZE 3072
#define SHODH_MASKS_SIZE 20

/* No analysis has more rounds, and no page more queries. */
#define SHODH_MOST_ROUNDS 4096
#define SHODH_MOST_QUERIES 256

/* The numbers of the replies. */
enum {
    SHODH_DONE = 0,
    SHODH_PAST_END = 1,
    SHODH_NO_MARK = 2,
    SHODH_OUT_OF_TURN = 3,
    SHODH_OUT_OF_RANGE = 4,
    SHODH_TOO_MANY = 5,
    SHODH_CLASH = 6,
    SHODH_UNORDERABLE = 7,
    SHODH_NO_PREDICATE = 8,
    SHODH_NO_ROOM = 9
};

typedef struct {
    uint32_t number;
    uint64_t value;
    uint64_t rounds;
} shodh_reply;

/* How many queries of a page are accepted, and how many turned away. */
typedef struct {
    uint64_t accepted;
    uint64_t turned_away;
} shodh_tally;

/* Whether the bytes are a book. Writes nothing.
 * Replies: 0 with the value 0; 1 to 6. */
shodh_reply shodh_check(const uint8_t *book, size_t length);

/* What each predicate must be given: for each in turn `CN`, predicate, n, n masks, count. A mask has bit i-1 set where position i must be known; a call
 * needs all of some one mask. n = 0 is a predicate that no call can ask; the one mask 0 asks for nothing. The count says how many of the 2^arity patterns
 * of known arguments will do: 0 where no call can ask, all of them where nothing is asked for. A position must be known because the predicate's own MO asks
 * for it, for the sake of the calls that follow from the call, or because a clause would give it back empty: its variable is in none of the clause's
 * subgoals, or in negated ones alone. A book whose query cannot be ordered has its table like any other.
 *
 * How long it can go on. The rounds are at most the sum, over the predicates with clauses, of 2^arity, which can be worked out from the book before the
 * call (examples/portal does), and so at most SHODH_MOST_ROUNDS: this is proved. There are books that take as many rounds as the sum says, one of 3,712
 * among them. What a round costs is not proved, but follows from the code: it looks at each clause once at most, under all patterns together, and at a
 * subgoal as often, at most, as its clause has subgoals; and behind the rounds reported comes one more, in which nothing changes. So an analysis looks at
 * (rounds + 1) times as many clauses as the book has, at most. shodh_plan and shodh_close go through the same rounds first.
 * Room: SHODH_TABLE_SIZE. Replies: 0, with the rounds of the analysis; 1 to 6; 9. */
shodh_reply shodh_analyse(const uint8_t *book, size_t length, uint8_t *out, size_t room);

/* The orders to run the calls in: `QO`, n, n places, the query's subgoals counted from 0; then for each clause under each pattern that the query
 * leads to `CO`, clause, pattern, n, n places. In these orders every call has what the MO of its predicate asks for, a negated one all its variables, and
 * every argument of a clause's head is known when the clause has run; each is the first of the good ones.
 * Room: SHODH_PLAN_SIZE. Replies: 0; 1 to 6; 7, exactly when there are no such orders; 9. */
shodh_reply shodh_plan(const uint8_t *book, size_t length, uint8_t *out, size_t room);

/* The book with the chosen predicates closed: they lose their clauses and get an `MO` with what they need, in place of the one that they had; all else is
 * as it was. Bit p of the set chooses predicate p. The result is a book with the same needs, accepted and refused as the first one is; closing in parts
 * gives the same bytes as closing at once, and the empty set gives back the book.
 *
 * The plan of the result. No order is another than it was: each of its `CO` records is one of the book's plan, with the number of its clause less by as many
 * as are gone before it, and its `QO` record is the same. Where every call, negated or not, in the clauses of the chosen predicates is of a chosen predicate
 * or of one without clauses, no record is missing but those of the clauses that are gone. A set is made so by adding each predicate with clauses that such a
 * clause calls, until none is new. With another set, a predicate that only dropped clauses called is not reached any more, and its records are missing, too.
 * Room: SHODH_BOOK_SIZE. Replies: 0; 1 to 6; 8; 9. */
shodh_reply shodh_close(const uint8_t *book, size_t length, uint64_t set, uint8_t *out, size_t room);

/* All the queries of a page in one go, of one book: a run of up to SHODH_MOST_QUERIES `QU` records, each with its subgoals. For each query in turn is
 * written a byte 0 and its `QO` record, or a byte 7: as shodh_plan gives with that query in place of the book's own, which plays no part here. So an answer
 * depends on the book and its query alone, and the answers to a run that is joined of two are those of the two, one after the other. An empty run writes
 * nothing. The book is read and analysed once; each query then costs one order.
 *
 * In the run QU is always in turn, SG and NG once a QU has come, and the run may end behind any record. It is judged from the left by the book's rules, as
 * the table above says, with 5 for a 257th QU, too, and with the run in the book's stead: the value is an offset in the run, and at 1 the run's length. Whether
 * a refusal 1 to 5 is of the book or of the run, shodh_check tells: where it replies 0 to the book, it is of the run.
 *
 * The tally is the caller's. A call that replies 0 leaves in it how many queries were accepted, with a byte 0, and how many turned away, with a byte 7; a
 * refused one leaves it as it was. The pointer must be good for a shodh_tally, aligned as C has it, and not null; nobody else may read or write the tally during
 * the call, and it must not overlap the inputs or the room.
 * Room: SHODH_PAGE_SIZE. Replies: 0; 1 to 6, of the book; then 1 to 5, of the run; 9. */
shodh_reply shodh_page(const uint8_t *book, size_t length, const uint8_t *run, size_t run_length, uint8_t *out, size_t room, shodh_tally *tally);

/* Two constraints of one arity combined: the choice is fitted by a pattern that fits either, the joint by one that fits each. Given are the arity, 0
 * to 6, and two lists of up to 20 masks in any order; written are the masks of the result, equal ones once, none containing another, ascending.
 * Room: SHODH_MASKS_SIZE. Replies: 0; with the value 0, 4 for an arity over 6 or a mask out of range, and 5 for a list over 20, tried as arity, first
 * list's length, its masks, then the second's; 9. */
shodh_reply shodh_choice(uint8_t arity, const uint8_t *first, size_t first_length, const uint8_t *second, size_t second_length, uint8_t *out, size_t room);
shodh_reply shodh_joint(uint8_t arity, const uint8_t *first, size_t first_length, const uint8_t *second, size_t second_length, uint8_t *out, size_t room);

#ifdef __cplusplus
}
#endif

#endif
