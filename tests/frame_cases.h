/*
 * Cases of the frame calls: the library and the plain coder on the same memory.
 *
 * Everything that a call is lent lies in one struct, between guard bytes and full of noise. The plain coder
 * works on a copy of it, and after each call both must be equal to the last byte: a field, a frame, a byte past
 * the frame, an input, a number that a refusal should have left.
 */
#ifndef SONERWAL_TESTS_FRAME_CASES_H
#define SONERWAL_TESTS_FRAME_CASES_H

#include "cover.h"
#include "plain.h"

#include <stddef.h>
#include <stdint.h>

enum {
	LONGEST = 1056, /* data and frame lengths go from 0 to here: past every bound of 01 */
	EXTRA = 40,     /* an output is longer than its frame by up to this much */
	GUARD = 32,     /* on each side of a buffer, less up to 7 bytes that it starts later */
	ROOM = LONGEST + 48 + EXTRA + 8
};

/* ---- What a call is lent */

/* A number with room on both sides, so that a store that is too wide shows. */
struct number {
	uint64_t before;
	union {
		uint8_t u8;
		uint16_t u16;
		uint32_t u32;
		uint64_t u64;
	} at;
	uint64_t after;
};

struct lent {
	uint8_t frame[GUARD + ROOM + GUARD];
	uint8_t body[GUARD + ROOM + GUARD];
	struct number number[OPEN_FIELDS];
};

/* What the library is lent, and the plain coder's copy. */
extern struct lent lent_ours, lent_plain;

/* Where the two buffers start. */
uint8_t *frame_of(struct lent *lent);
uint8_t *body_of(struct lent *lent);

/* Noise over both buffers and their guards, and over all numbers. */
void lend(size_t frame_len, size_t body_len);

/* Before a call: the plain coder gets what the library gets. */
void copy_for_plain(void);

/* The numbers that an accepted read hands back. */
void store_for_plain(const struct field *fields, const uint64_t *values, size_t count);

/* ---- Tests of many cases */

struct test {
	const char *name;
	void (*run)(struct test *);
	unsigned long cases, failed;
};

/* After a call: counts the case and what it met, and says where the two differ. */
void judge(struct test *test, struct call *call, uint8_t answer, plain_faults faults, const uint64_t *seen);

/* Runs the tests and checks that each had cases and none that failed. */
void run_tests(struct test *tests, size_t count);

#endif
