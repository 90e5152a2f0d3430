/*
 * The line of a saved transfer by a second writer and a second reader, from request a) of document 02 alone. The reader knows no form: it
 * reads ten numbers and a word as loosely as the C library does, and takes what is the line again once it is written and what calls on
 * the queue lead to.
 */
#ifndef SONERWAL_TESTS_SAVES_MODEL_H
#define SONERWAL_TESTS_SAVES_MODEL_H

#include "steps_model.h"

/* More than a transfer's line has, whatever its members hold. */
enum { MOST_LINE = 128 };

struct line {
	uint8_t bytes[MOST_LINE];
	size_t length;
};

/* The line of a transfer, one that no calls leave among them. */
struct line line_of(const struct sonerwal_transfer *s);

/* Whether the line is that of a transfer which calls leave, or of that before START; s is only then said. */
bool line_taken(const uint8_t *line, size_t length, struct sonerwal_transfer *s);

#endif
