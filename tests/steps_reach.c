#include "steps_reach.h"

#include <string.h>

static uint8_t call(struct model *t, enum call name)
{
	return queue_call(t, name, NULL, NULL, NULL);
}

/* Frames up to an offset, each ACKed before the next, so that the balance point is there. */
static void deliver(struct model *t, uint32_t to)
{
	while (t->read < to && call(t, FRAME) == SONERWAL_SENT) {
		call(t, ACK);
	}
}

static void resend(struct model *t, uint32_t times)
{
	for (uint32_t i = 0; i < times && call(t, FRAME) == SONERWAL_SENT; i++) {
		call(t, LOST);
	}
}

/* Frames up to an offset with the balance point left where it is: where 64 are unanswered the oldest is ACKed, never the last. */
static void send(struct model *t, uint32_t to)
{
	while (t->read < to) {
		if (t->waiting == BOUND) {
			call(t, ACK);
		}
		if (call(t, FRAME) != SONERWAL_SENT) {
			return;
		}
	}
}

static void ack_down(struct model *t, uint32_t unanswered)
{
	while (t->waiting > 1 && t->waiting > unanswered) {
		call(t, ACK);
	}
}

/* The calls that a phase comes of, once the frames are out. */
static void finish(struct model *t, const struct sonerwal_transfer *s)
{
	switch (s->phase) {
	case SONERWAL_PHASE_RUN:
		ack_down(t, s->unanswered);
		break;
	case SONERWAL_PHASE_DRAIN:
		ack_down(t, s->unanswered + 1);
		call(t, NAK);
		break;
	case SONERWAL_PHASE_FAILED:
		call(t, LOST);
		break;
	case SONERWAL_PHASE_ENDED:
		call(t, CANCEL);
		break;
	default:
		break;
	}
}

bool reached(const struct sonerwal_transfer *s, struct model *t)
{
	struct request q = {s->offset, s->count, s->size, s->resends};
	memset(t, 0, sizeof *t);
	if (queue_call(t, START, &q, NULL, NULL) == SONERWAL_OK && s->used <= s->resends) {
		/* The resends come first or last: nothing is sent in an attempt that has just begun. */
		if (s->sent) {
			resend(t, s->used);
			deliver(t, s->balance);
		} else {
			deliver(t, s->balance);
			resend(t, s->used);
		}
		send(t, s->read);
		finish(t, s);
	}
	struct sonerwal_transfer shown = queue_shown(t);
	return memcmp(&shown, s, sizeof shown) == 0;
}
