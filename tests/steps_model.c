#include "steps_model.h"

#include <string.h>

static bool in_range(const struct request *q)
{
	return q->n >= 1 && (uint64_t)q->b + q->n <= 4294967295 && q->m % 4 == 0 && q->m >= 4 && q->m <= 1024 &&
	       q->r <= 255;
}

/* 01 READ.1 01 READ.5 01 REFUSAL.3 01 REFUSAL.13 */
static uint8_t start(struct model *t, const struct request *q)
{
	if (!in_range(q)) {
		return SONERWAL_REFUSED_RULES;
	}
	if (t->running) {
		return SONERWAL_REFUSED_UNFIT;
	}
	memset(t, 0, sizeof *t);
	t->asked = *q;
	t->running = true;
	t->read = t->balance = q->b;
	return SONERWAL_OK;
}

/* 01 READ.14 */
static uint8_t resend(struct model *t)
{
	t->read = t->balance;
	t->sent = 0;
	t->nak_seen = false;
	t->used++;
	return SONERWAL_RETRY;
}

static uint8_t finish(struct model *t, uint8_t word)
{
	t->running = false;
	t->nak_seen = false;
	t->finished = word;
	t->waiting = 0;
	return word;
}

static uint64_t end_of(const struct model *t)
{
	return (uint64_t)t->asked.b + t->asked.n;
}

/* 01 READ.2 */
static uint64_t next_length(const struct model *t)
{
	uint64_t left = end_of(t) - t->read;
	return left < t->asked.m ? left : t->asked.m;
}

/* 01 READ.6 */
static uint8_t push(struct model *t)
{
	t->read += next_length(t);
	t->ends[t->waiting++] = t->read;
	t->sent++;
	return SONERWAL_SENT;
}

/* What is said of a frame that goes next.
 * 01 REFUSAL.7 01 REFUSAL.8 01 REFUSAL.10 01 REFUSAL.13 */
static uint8_t would_say(const struct model *t)
{
	if (!t->running) {
		return SONERWAL_REFUSED_UNFIT;
	}
	if (t->nak_seen) {
		return SONERWAL_REFUSED_DUE;
	}
	if (t->read == end_of(t)) {
		return SONERWAL_REFUSED_SENT;
	}
	if (t->waiting == BOUND) {
		return SONERWAL_REFUSED_FULL;
	}
	return SONERWAL_SENT;
}

static uint8_t frame(struct model *t)
{
	uint8_t said = would_say(t);
	return said == SONERWAL_SENT ? push(t) : said;
}

/* 01 REFUSAL.13 */
static bool unfit(const struct model *t)
{
	return !t->running || t->waiting == 0;
}

/* 01 READ.3 01 READ.8 */
static uint64_t pop(struct model *t)
{
	uint64_t end = t->ends[0];
	t->waiting--;
	memmove(t->ends, t->ends + 1, t->waiting * sizeof *t->ends);
	return end;
}

static uint8_t drain(struct model *t)
{
	return t->waiting > 0 ? SONERWAL_DRAIN : resend(t);
}

/* 01 READ.9 01 READ.10 */
static uint8_t ack(struct model *t)
{
	if (unfit(t)) {
		return SONERWAL_REFUSED_UNFIT;
	}
	uint64_t end = pop(t);
	if (t->nak_seen) {
		return drain(t);
	}
	if (t->waiting > 0) {
		return SONERWAL_OK;
	}
	t->balance = end;
	return end == end_of(t) ? finish(t, SONERWAL_DONE) : SONERWAL_OK;
}

/* 01 READ.11 */
static uint8_t nak(struct model *t)
{
	if (unfit(t)) {
		return SONERWAL_REFUSED_UNFIT;
	}
	pop(t);
	if (t->used == t->asked.r) {
		return finish(t, SONERWAL_FAIL);
	}
	t->nak_seen = true;
	return drain(t);
}

/* 01 READ.12 */
static uint8_t drop(struct model *t)
{
	if (unfit(t)) {
		return SONERWAL_REFUSED_UNFIT;
	}
	t->waiting = 0;
	return t->used == t->asked.r ? finish(t, SONERWAL_FAIL) : resend(t);
}

/* 01 READ.13 */
static uint8_t end(struct model *t)
{
	return t->running ? finish(t, SONERWAL_END) : SONERWAL_REFUSED_UNFIT;
}

/* 01 DATA.1 01 READ.7 01 REFUSAL.11 */
static uint8_t next_frame(struct model *t, const struct sending *g, uint8_t *out)
{
	uint8_t said = would_say(t);
	if (said != SONERWAL_SENT) {
		return said;
	}
	if (g->fields[DATA_HASHED_DESTINATION] > 0xFFFFFF || g->fields[DATA_HASHED_SOURCE] > 0xFFFFFF) {
		return SONERWAL_REFUSED_UNLISTED;
	}
	if (g->body_len != next_length(t)) {
		return SONERWAL_REFUSED_LENGTH;
	}
	uint64_t fields[DATA_FIELDS];
	memcpy(fields, g->fields, sizeof fields);
	fields[DATA_CHANGING] = t->used > 0 && t->sent == 0;
	fields[DATA_OFFSET] = t->read;
	fields[DATA_LENGTH] = g->body_len;
	if (plain_data_write(fields, g->body, out, g->out_len) != 0) {
		return SONERWAL_REFUSED_LENGTH;
	}
	return push(t);
}

uint8_t queue_call(struct model *t, enum call call, const struct request *q, const struct sending *g, uint8_t *out)
{
	switch (call) {
	case START: return start(t, q);
	case FRAME: return frame(t);
	case ACK: return ack(t);
	case NAK: return nak(t);
	case TIMEOUT:
	case LOST: return drop(t);
	case NEXUS:
	case CANCEL: return end(t);
	default: return next_frame(t, g, out);
	}
}

uint32_t queue_length(const struct model *t)
{
	return would_say(t) == SONERWAL_SENT ? (uint32_t)next_length(t) : 0;
}

static uint8_t phase_of(const struct model *t)
{
	switch (t->finished) {
	case SONERWAL_DONE: return SONERWAL_PHASE_DONE;
	case SONERWAL_FAIL: return SONERWAL_PHASE_FAILED;
	case SONERWAL_END: return SONERWAL_PHASE_ENDED;
	default: break;
	}
	if (!t->running) {
		return SONERWAL_PHASE_NEW;
	}
	return t->nak_seen ? SONERWAL_PHASE_DRAIN : SONERWAL_PHASE_RUN;
}

struct sonerwal_transfer queue_shown(const struct model *t)
{
	return (struct sonerwal_transfer){
		.offset = t->asked.b, .count = t->asked.n, .size = t->asked.m, .resends = t->asked.r,
		.read = (uint32_t)t->read, .balance = (uint32_t)t->balance, .unanswered = (uint32_t)t->waiting,
		.used = (uint32_t)t->used, .zero2 = 0, .sent = t->sent > 0, .phase = phase_of(t),
	};
}
