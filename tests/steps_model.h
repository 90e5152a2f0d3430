/*
 * A read transfer with a queue, written from document 01 alone: it holds where each unanswered frame ends, and an answer takes the
 * oldest out. It knows no count of frames but its queue's.
 */
#ifndef SONERWAL_TESTS_STEPS_MODEL_H
#define SONERWAL_TESTS_STEPS_MODEL_H

#include "plain.h"
#include "sonerwal.h"

#include <stdbool.h>

enum { BOUND = 64, MOST_BODY = 1032 };

enum call { START, FRAME, ACK, NAK, TIMEOUT, LOST, NEXUS, CANCEL, NEXT_FRAME, CALLS };

struct request {
	uint32_t b, n, m, r;
};

/* All zeros before START. */
struct model {
	struct request asked;
	bool running;
	bool nak_seen;    /* in this attempt */
	uint8_t finished; /* the answer that finished it, 0 before */
	uint64_t read, balance, used;
	uint64_t sent;        /* frames of this attempt */
	uint64_t ends[BOUND]; /* of the unanswered frames, the oldest first */
	size_t waiting;
};

/* What a next-frame call is given: the numbers of the header, of which the model sets its own, and the data. */
struct sending {
	uint64_t fields[DATA_FIELDS];
	uint8_t body[MOST_BODY];
	size_t body_len, out_len;
};

/* A call and its answer, an enum sonerwal_answer: q is START's alone, g and out are a next-frame call's. */
uint8_t queue_call(struct model *t, enum call call, const struct request *q, const struct sending *g, uint8_t *out);

/* The data bytes of the frame that FRAME sends now, 0 if it is refused. */
uint32_t queue_length(const struct model *t);

/* The model as C keeps a transfer. */
struct sonerwal_transfer queue_shown(const struct model *t);

#endif
