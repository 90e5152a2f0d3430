/*
 * Coverage of the frame tests: which values of each field and which causes of each refusal the cases met. What
 * none met is a failure, so that a test can't shrink unseen.
 */
#ifndef SONERWAL_TESTS_COVER_H
#define SONERWAL_TESTS_COVER_H

#include "plain.h"

#include <stddef.h>
#include <stdint.h>

/*
 * A field takes low to high and travels as a number of `width` bytes, none where it is not an argument. Of a range
 * of up to CLASSES values each one must be met, of a longer one the ends and something between.
 */
struct field {
	const char *name;
	size_t width;
	uint64_t low, high;
};

enum { CLASSES = 4, SEEN = 10, CAUSES = 32 };

/* One of the frame calls, and what its cases met. */
struct call {
	const char *name;
	const struct field *fields;
	size_t field_count; /* rows of `fields` that this call has */
	const char *cause[CAUSES];
	unsigned long answers[3];
	unsigned long alone[CAUSES];          /* the cause was the only one */
	unsigned long both;                   /* causes of refusal 1 and of refusal 2 */
	unsigned long classes[SEEN][CLASSES]; /* field values in accepted calls */
};

/* Counts a case with these faults; `seen` holds the values of all fields if there are none. */
void cover_meet(struct call *call, plain_faults faults, const uint64_t *seen);

/* Prints the call's counts and checks that none is zero. */
void cover_show(const struct call *call);

#endif
