// The C version's functions: what include/shodhvirup.h says of those of the library.
#ifndef LIMIT_H
#define LIMIT_H

#include <shodhvirup.h>

shodh_reply limit_check(const uint8_t *book, size_t length);
shodh_reply limit_analyse(const uint8_t *book, size_t length, uint8_t *out, size_t room);
shodh_reply limit_plan(const uint8_t *book, size_t length, uint8_t *out, size_t room);
shodh_reply limit_close(const uint8_t *book, size_t length, uint64_t set, uint8_t *out, size_t room);
shodh_reply limit_page(const uint8_t *book, size_t length, const uint8_t *run, size_t run_length, uint8_t *out, size_t room, shodh_tally *tally);
shodh_reply limit_choice(uint8_t arity, const uint8_t *first, size_t first_length, const uint8_t *second, size_t second_length, uint8_t *out, size_t room);
shodh_reply limit_joint(uint8_t arity, const uint8_t *first, size_t first_length, const uint8_t *second, size_t second_length, uint8_t *out, size_t room);

#endif
