#include "steps_face.h"

#include "check.h"

#include <inttypes.h>
#include <stdio.h>
#include <string.h>

enum { REPORTS = 5 };

const char *const step_names[CALLS] = {
	[START] = "START",     [FRAME] = "FRAME", [ACK] = "ACK",     [NAK] = "NAK",       [TIMEOUT] = "TIMEOUT",
	[LOST] = "LOST",       [NEXUS] = "NEXUS", [CANCEL] = "CANCEL", [NEXT_FRAME] = "next-frame",
};

unsigned long steps_met[CALLS][ANSWERS];
unsigned long steps_pointers[2], steps_short;

struct sonerwal_transfer_step face_call(struct sonerwal_transfer s, enum call call, const struct request *q,
                                        const struct sending *g, uint8_t *out)
{
	switch (call) {
	case START: return sonerwal_transfer_start(s, q->b, q->n, q->m, q->r);
	case FRAME: return sonerwal_transfer_frame(s);
	case ACK: return sonerwal_transfer_ack(s);
	case NAK: return sonerwal_transfer_nak(s);
	case TIMEOUT: return sonerwal_transfer_timeout(s);
	case LOST: return sonerwal_transfer_lost(s);
	case NEXUS: return sonerwal_transfer_nexus(s);
	case CANCEL: return sonerwal_transfer_cancel(s);
	default:
		return sonerwal_transfer_next(s, (uint32_t)g->fields[DATA_HASHED_DESTINATION],
		                              (uint32_t)g->fields[DATA_HASHED_SOURCE], (uint16_t)g->fields[DATA_TAG],
		                              g->body, g->body_len, out, g->out_len);
	}
}

#define COMPARE(member)                  \
	if (a->member != b->member) {    \
		return #member;          \
	}

const char *member_off(const struct sonerwal_transfer *a, const struct sonerwal_transfer *b)
{
	COMPARE(offset)
	COMPARE(count)
	COMPARE(size)
	COMPARE(resends)
	COMPARE(read)
	COMPARE(balance)
	COMPARE(unanswered)
	COMPARE(used)
	COMPARE(zero2)
	COMPARE(sent)
	COMPARE(phase)
	return memcmp(a, b, sizeof *a) == 0 ? NULL : "a byte of no member";
}

static void describe(const char *who, const struct sonerwal_transfer *s)
{
	printf("  %s: %" PRIu32 " %" PRIu32 " %" PRIu32 " %" PRIu32 ", read %" PRIu32 ", balance %" PRIu32 ", unanswered %" PRIu32
	       ", used %" PRIu32 ", sent %d, phase %d\n",
	       who, s->offset, s->count, s->size, s->resends, s->read, s->balance, s->unanswered, s->used, s->sent, s->phase);
}

/* What a next-frame call is lent, in a copy for each side; noise before each. */
static struct {
	uint8_t out[MOST_OUT];
	struct sending g;
} ours, expected;

static void lend(const struct sending *g)
{
	noise_fill(expected.out, sizeof expected.out);
	memcpy(ours.out, expected.out, sizeof ours.out);
	memcpy(&ours.g, g, sizeof *g);
	memcpy(&expected.g, g, sizeof *g);
}

static bool same_lent(void)
{
	return memcmp(ours.out, expected.out, sizeof ours.out) == 0 && memcmp(&ours.g, &expected.g, sizeof ours.g) == 0;
}

static void count(const struct sides *before, enum call call, uint8_t answer)
{
	steps_met[call][answer % ANSWERS]++;
	if (call == NEXT_FRAME && answer == SONERWAL_SENT) {
		steps_pointers[expected.out[10] % 2]++;
		steps_short += expected.g.body_len < before->t.asked.m;
	}
}

static bool report(const struct sides *before, enum call call, const char *what)
{
	static int reports;
	if (reports++ < REPORTS) {
		printf("%s: %s is off\n", step_names[call], what);
		describe("before", &before->s);
	}
	return false;
}

/* A struct that a step comes back to begins as noise, so that a byte that no call wrote shows. */
static struct sonerwal_transfer_step step_into_noise(const struct sonerwal_transfer *s, enum call call, const struct request *q)
{
	struct sonerwal_transfer_step step;
	memset(&step, 0xA5, sizeof step);
	step = face_call(*s, call, q, &ours.g, ours.out);
	return step;
}

bool sides_agree(struct sides *both, enum call call, const struct request *q, const struct sending *g)
{
	struct sides before = *both;
	if (call == NEXT_FRAME) {
		lend(g);
	}
	if (sonerwal_transfer_length(both->s) != queue_length(&both->t)) {
		return report(&before, call, "the next frame's length");
	}
	struct sonerwal_transfer_step step = step_into_noise(&both->s, call, q);
	uint8_t answer = queue_call(&both->t, call, q, &expected.g, expected.out);
	struct sonerwal_transfer shown = queue_shown(&both->t);
	both->s = step.state;
	if (step.answer != answer) {
		return report(&before, call, "the answer");
	}
	const char *off = member_off(&step.state, &shown);
	if (off) {
		return report(&before, call, off);
	}
	if (call == NEXT_FRAME && !same_lent()) {
		return report(&before, call, "a lent byte");
	}
	count(&before, call, answer);
	return true;
}

bool face_refuses(const struct sonerwal_transfer *s, enum call call, const struct request *q, const struct sending *g)
{
	struct sides before = {.s = *s};
	if (call == NEXT_FRAME) {
		lend(g);
	}
	struct sonerwal_transfer_step step = step_into_noise(s, call, q);
	if (step.answer != SONERWAL_REFUSED_RULES) {
		return report(&before, call, "the answer");
	}
	const char *off = member_off(&step.state, s);
	if (off) {
		return report(&before, call, off);
	}
	if (call == NEXT_FRAME && !same_lent()) {
		return report(&before, call, "a lent byte");
	}
	if (sonerwal_transfer_length(*s) != 0) {
		return report(&before, call, "the next frame's length");
	}
	steps_met[call][SONERWAL_REFUSED_RULES]++;
	return true;
}
