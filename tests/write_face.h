/* The write's calls of sonerwal.h and the model's, side by side. */
#ifndef SONERWAL_TESTS_WRITE_FACE_H
#define SONERWAL_TESTS_WRITE_FACE_H

#include "write_model.h"

enum { ANSWERS = 32 };

extern const char *const write_names[CALLS];

/* A write as C keeps it and the model of the same, each with its store, and what both said last. */
struct uploads {
	struct sonerwal_write s;
	struct upload u;
	uint8_t said;
	uint8_t ours[MOST_STORE], models[MOST_STORE];
};

/* Before START, with the same noise in both stores. */
void uploads_begin(struct uploads *both);

/* One call of sonerwal.h; lent is ASK's frame and TAKE's store. */
struct sonerwal_write_step write_face(struct sonerwal_write s, enum call call, const struct given *g, uint8_t *lent);

/* The first member that two writes don't share; NULL if they share all, to the last byte. */
const char *write_member_off(const struct sonerwal_write *a, const struct sonerwal_write *b);

/*
 * The call by both sides, each going on with what came of it: whether they have the same answer, state, frame and store, and what was
 * given is as it was. The first few that haven't are described.
 */
bool uploads_agree(struct uploads *both, enum call call, const struct given *g);

/* A lent write that no calls leave: whether the call says 3, or what comes before 3, gives back every byte and leaves frame and store. */
bool write_refused(const struct sonerwal_write *s, enum call call, const struct given *g);

/* How often uploads_agree() met each answer of each call, and each cause of a refusal. */
extern unsigned long writes_met[CALLS][ANSWERS], writes_refused[WHYS];

#endif
