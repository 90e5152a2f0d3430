#include "plain_steps.h"

#include "plain_data.h"

/* Document 01, 'Read transfer'. */

/* ---- The test of a lent state */

static bool in_range(uint32_t b, uint32_t n, uint32_t m, uint32_t r)
{
	return n >= 1 && (uint64_t)b + n <= UINT32_MAX && m % 4 == 0 && m >= 4 && m <= 1024 && r <= 255;
}

static bool zeros(const struct sonerwal_transfer *s)
{
	return s->phase == SONERWAL_PHASE_NEW && s->offset == 0 && s->count == 0 && s->size == 0 && s->resends == 0 &&
	       s->read == 0 && s->balance == 0 && s->unanswered == 0 && s->used == 0 && s->sent == 0;
}

/* Whether x is where a frame begins, or the end. */
static bool on_grid(const struct sonerwal_transfer *s, uint64_t end, uint32_t x)
{
	return x == end || (x - s->offset) % s->size == 0;
}

static bool placed(const struct sonerwal_transfer *s, uint64_t end)
{
	return in_range(s->offset, s->count, s->size, s->resends) && s->offset <= s->balance && s->balance <= s->read &&
	       s->read <= end && s->used <= s->resends && on_grid(s, end, s->balance) && on_grid(s, end, s->read);
}

static bool attempted(const struct sonerwal_transfer *s, uint64_t out)
{
	if (out > 0) {
		return s->sent;
	}
	return s->sent ? s->offset < s->balance : s->balance == s->offset || s->used > 0;
}

static bool phase_rule(const struct sonerwal_transfer *s, uint64_t end, uint64_t out)
{
	switch (s->phase) {
	case SONERWAL_PHASE_RUN:
		return s->balance < end && attempted(s, out) &&
		       (s->unanswered == 0 ? out == 0 : s->unanswered <= SONERWAL_UNANSWERED_MAX && s->unanswered <= out);
	case SONERWAL_PHASE_DRAIN:
		return s->balance < end && s->sent && s->used < s->resends && s->unanswered > 0 &&
		       s->unanswered < SONERWAL_UNANSWERED_MAX && s->unanswered < out;
	case SONERWAL_PHASE_DONE:
		return s->balance == end && s->read == end && s->unanswered == 0 && s->sent;
	case SONERWAL_PHASE_FAILED:
		return s->balance < end && s->sent && s->used == s->resends && s->unanswered == 0 && out > 0;
	case SONERWAL_PHASE_ENDED:
		return s->balance < end && attempted(s, out) && s->unanswered == 0;
	default:
		return false;
	}
}

/* Whether the state is that before START, or some START and calls after it leave it. */
static bool taken(const struct sonerwal_transfer *s)
{
	uint64_t end = (uint64_t)s->offset + s->count;
	if (s->zero2 != 0 || s->sent > 1) {
		return false;
	}
	if (!placed(s, end)) {
		return zeros(s);
	}
	/* The frames from the balance point to the read offset; the sum may be past every uint32_t. */
	uint64_t out = ((uint64_t)(s->read - s->balance) + s->size - 1) / s->size;
	return phase_rule(s, end, out);
}

/* ---- Steps in place, each with its answer */

static bool unfinished(const struct sonerwal_transfer *s)
{
	return s->phase == SONERWAL_PHASE_RUN || s->phase == SONERWAL_PHASE_DRAIN;
}

static bool all_sent(const struct sonerwal_transfer *s)
{
	return s->read == (uint64_t)s->offset + s->count;
}

static uint32_t frame_length(const struct sonerwal_transfer *s)
{
	uint64_t left = (uint64_t)s->offset + s->count - s->read;
	return left < s->size ? (uint32_t)left : s->size;
}

static uint8_t frame_refusal(const struct sonerwal_transfer *s)
{
	if (!taken(s)) {
		return SONERWAL_REFUSED_RULES;
	}
	if (!unfinished(s)) {
		return SONERWAL_REFUSED_UNFIT;
	}
	if (s->phase == SONERWAL_PHASE_DRAIN) {
		return SONERWAL_REFUSED_DUE;
	}
	if (all_sent(s)) {
		return SONERWAL_REFUSED_SENT;
	}
	return s->unanswered >= SONERWAL_UNANSWERED_MAX ? SONERWAL_REFUSED_FULL : SONERWAL_OK;
}

static uint8_t answer_refusal(const struct sonerwal_transfer *s)
{
	if (!taken(s)) {
		return SONERWAL_REFUSED_RULES;
	}
	return unfinished(s) && s->unanswered > 0 ? SONERWAL_OK : SONERWAL_REFUSED_UNFIT;
}

static void send_frame(struct sonerwal_transfer *s)
{
	s->read += frame_length(s);
	s->unanswered++;
	s->sent = 1;
}

static uint8_t resend(struct sonerwal_transfer *s)
{
	s->read = s->balance;
	s->sent = 0;
	s->used++;
	s->phase = SONERWAL_PHASE_RUN;
	return SONERWAL_RETRY;
}

static uint8_t finish(struct sonerwal_transfer *s, uint8_t phase, uint8_t answer)
{
	s->unanswered = 0;
	s->phase = phase;
	return answer;
}

static uint8_t drained(struct sonerwal_transfer *s)
{
	return s->unanswered > 0 ? SONERWAL_DRAIN : resend(s);
}

static uint8_t ack(struct sonerwal_transfer *s)
{
	uint8_t refusal = answer_refusal(s);
	if (refusal != SONERWAL_OK) {
		return refusal;
	}
	s->unanswered--;
	if (s->phase == SONERWAL_PHASE_DRAIN) {
		return drained(s);
	}
	if (s->unanswered > 0) {
		return SONERWAL_OK;
	}
	s->balance = s->read;
	return all_sent(s) ? finish(s, SONERWAL_PHASE_DONE, SONERWAL_DONE) : SONERWAL_OK;
}

static uint8_t nak(struct sonerwal_transfer *s)
{
	uint8_t refusal = answer_refusal(s);
	if (refusal != SONERWAL_OK) {
		return refusal;
	}
	if (s->used == s->resends) {
		return finish(s, SONERWAL_PHASE_FAILED, SONERWAL_FAIL);
	}
	s->unanswered--;
	s->phase = SONERWAL_PHASE_DRAIN;
	return drained(s);
}

static uint8_t drop(struct sonerwal_transfer *s)
{
	uint8_t refusal = answer_refusal(s);
	if (refusal != SONERWAL_OK) {
		return refusal;
	}
	s->unanswered = 0;
	return s->used == s->resends ? finish(s, SONERWAL_PHASE_FAILED, SONERWAL_FAIL) : resend(s);
}

static uint8_t end(struct sonerwal_transfer *s)
{
	if (!taken(s)) {
		return SONERWAL_REFUSED_RULES;
	}
	return unfinished(s) ? finish(s, SONERWAL_PHASE_ENDED, SONERWAL_END) : SONERWAL_REFUSED_UNFIT;
}

/* ---- What the bench calls */

#define BY_VALUE(call, step)                                                         \
	struct sonerwal_transfer_step plain_transfer_##call(struct sonerwal_transfer s) \
	{                                                                            \
		uint8_t answer = step(&s);                                           \
		return (struct sonerwal_transfer_step){s, answer};                   \
	}

BY_VALUE(ack, ack)
BY_VALUE(nak, nak)
BY_VALUE(timeout, drop)
BY_VALUE(lost, drop)
BY_VALUE(nexus, end)
BY_VALUE(cancel, end)

struct sonerwal_transfer_step plain_transfer_start(struct sonerwal_transfer s, uint32_t offset, uint32_t count,
                                                   uint32_t size, uint32_t resends)
{
	if (!in_range(offset, count, size, resends) || !taken(&s)) {
		return (struct sonerwal_transfer_step){s, SONERWAL_REFUSED_RULES};
	}
	if (unfinished(&s)) {
		return (struct sonerwal_transfer_step){s, SONERWAL_REFUSED_UNFIT};
	}
	s = (struct sonerwal_transfer){.offset = offset, .count = count, .size = size, .resends = resends,
	                               .read = offset, .balance = offset, .phase = SONERWAL_PHASE_RUN};
	return (struct sonerwal_transfer_step){s, SONERWAL_OK};
}

struct sonerwal_transfer_step plain_transfer_frame(struct sonerwal_transfer s)
{
	uint8_t refusal = frame_refusal(&s);
	if (refusal != SONERWAL_OK) {
		return (struct sonerwal_transfer_step){s, refusal};
	}
	send_frame(&s);
	return (struct sonerwal_transfer_step){s, SONERWAL_SENT};
}

struct sonerwal_transfer_step plain_transfer_next(struct sonerwal_transfer s, uint32_t hashed_destination,
                                                  uint32_t hashed_source, uint16_t tag, const uint8_t *body,
                                                  size_t body_len, uint8_t *frame, size_t frame_len)
{
	uint8_t refusal = frame_refusal(&s);
	if (refusal != SONERWAL_OK) {
		return (struct sonerwal_transfer_step){s, refusal};
	}
	if (hashed_destination > SONERWAL_HASHED_ADDRESS_MAX || hashed_source > SONERWAL_HASHED_ADDRESS_MAX) {
		return (struct sonerwal_transfer_step){s, SONERWAL_REFUSED_UNLISTED};
	}
	if (body_len != frame_length(&s) || frame_len < data_frame_size(body_len)) {
		return (struct sonerwal_transfer_step){s, SONERWAL_REFUSED_LENGTH};
	}
	store_data(hashed_destination, hashed_source, s.used > 0 && !s.sent, tag, s.read, body, body_len, frame);
	send_frame(&s);
	return (struct sonerwal_transfer_step){s, SONERWAL_SENT};
}

uint32_t plain_transfer_length(struct sonerwal_transfer s)
{
	return frame_refusal(&s) == SONERWAL_OK ? frame_length(&s) : 0;
}

bool plain_transfer_taken(const struct sonerwal_transfer *s)
{
	return taken(s);
}

struct sonerwal_transfer_step plain_transfer_crossing(struct sonerwal_transfer s)
{
	return (struct sonerwal_transfer_step){s, SONERWAL_OK};
}
