/* Every transfer that some START and calls after it leave of one request, found by making all calls on the model; and what lies around. */
#ifndef SONERWAL_TESTS_STEPS_LEFT_H
#define SONERWAL_TESTS_STEPS_LEFT_H

#include "steps_model.h"

enum { MOST_LEFT = 2000 };

struct left {
	struct model of[MOST_LEFT];
	size_t count;
};

/* Gives whether there was room for all, and each shows all that its queue holds. */
bool leave_all(struct left *left, const struct request *q);

/* The place of a transfer among them, or their count. */
size_t left_place(const struct left *left, const struct sonerwal_transfer *s);

/* Each transfer of a request whose numbers, phase, flag and zero member are within those that calls leave, or one beside; below 0 is the
 * largest. */
void each_around(const struct request *q, void (*try)(const struct sonerwal_transfer *s));

/* Small requests at both ends of the range, with frames that fill their size and that don't. */
void each_small(void (*try)(const struct request *q));

#endif
