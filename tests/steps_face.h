/* The transfer's calls of sonerwal.h and the model's, side by side. */
#ifndef SONERWAL_TESTS_STEPS_FACE_H
#define SONERWAL_TESTS_STEPS_FACE_H

#include "steps_model.h"

enum { MOST_OUT = 24 + MOST_BODY + 8, ANSWERS = 32 };

extern const char *const step_names[CALLS];

/* A transfer as C keeps it, and the model of the same. */
struct sides {
	struct sonerwal_transfer s;
	struct model t;
};

/* One call of sonerwal.h. */
struct sonerwal_transfer_step face_call(struct sonerwal_transfer s, enum call call, const struct request *q,
                                        const struct sending *g, uint8_t *out);

/* The first member that two transfers don't share; NULL if they share all, to the last byte. */
const char *member_off(const struct sonerwal_transfer *a, const struct sonerwal_transfer *b);

/*
 * The call by both sides, each going on with what came of it: whether they have the same answer, state, frame and body, and the length
 * of the next frame was said right. The first few that haven't are described.
 */
bool sides_agree(struct sides *both, enum call call, const struct request *q, const struct sending *g);

/* A lent transfer that no calls leave: whether the call says 3, gives back every byte and leaves frame and body. */
bool face_refuses(const struct sonerwal_transfer *s, enum call call, const struct request *q, const struct sending *g);

/* How often sides_agree() met each answer of each call, and frames by their changing data pointer and below full size. */
extern unsigned long steps_met[CALLS][ANSWERS];
extern unsigned long steps_pointers[2], steps_short;

#endif
