#include "plain_writes.h"

#include "plain_data.h"

#include <stdbool.h>

/* Document 02, request c). */

/* ---- The test of a lent write */

static bool in_range(uint32_t b, uint32_t n, uint32_t x, uint32_t r)
{
	return n >= 1 && (uint64_t)b + n <= UINT32_MAX && x % 4 == 0 && x >= 4 && r < SONERWAL_TRANSFER_TAGS;
}

static bool zeros(const struct sonerwal_write *s)
{
	return s->phase == SONERWAL_WRITE_NEW && s->offset == 0 && s->count == 0 && s->burst == 0 && s->resends == 0 &&
	       s->next == 0 && s->tag == 0 && s->tags == 0 && s->used == 0;
}

static bool has_tag(uint64_t tags, uint16_t tag)
{
	return tag < SONERWAL_TRANSFER_TAGS && tags >> tag & 1;
}

/* Tags of XFER_RDYs of one range, `failed` of which failed: of its first range all failures are known. */
static bool tags_rule(const struct sonerwal_write *s, uint32_t failed)
{
	return has_tag(s->tags, s->tag) && (s->next == s->offset ? failed == s->used : failed <= s->used);
}

static bool phase_rule(const struct sonerwal_write *s, bool at_range)
{
	uint32_t held = (uint32_t)__builtin_popcountll(s->tags);
	switch (s->phase) {
	case SONERWAL_WRITE_ASK:
		if (s->tags == 0) {
			return at_range && (s->next != s->offset || (s->tag == 0 && s->used == 0));
		}
		return at_range && tags_rule(s, held);
	case SONERWAL_WRITE_WAIT:
		return at_range && tags_rule(s, held - 1);
	case SONERWAL_WRITE_TAKE:
		return at_range ? tags_rule(s, held - 1) : s->tags == UINT64_C(1) << s->tag;
	case SONERWAL_WRITE_FAILED:
		return at_range && s->tags == 0 && s->used == s->resends;
	case SONERWAL_WRITE_ENDED:
		return s->tags == 0;
	default:
		return false;
	}
}

/* Whether the state is that before START, or some START and calls after it leave it. */
static bool taken(const struct sonerwal_write *s)
{
	if (s->zero4 != 0 || s->zero1 != 0) {
		return false;
	}
	if (s->phase == SONERWAL_WRITE_NEW) {
		return zeros(s);
	}
	if (!in_range(s->offset, s->count, s->burst, s->resends) || s->next < s->offset || s->used > s->resends ||
	    s->tag >= SONERWAL_TRANSFER_TAGS) {
		return false;
	}
	uint32_t done = s->next - s->offset;
	if (s->phase == SONERWAL_WRITE_DONE) {
		return done == s->count && s->tags == 0;
	}
	return done < s->count && done % 4 == 0 && phase_rule(s, done % s->burst == 0);
}

/* ---- A write's steps in place, each with its answer */

static bool unfinished(const struct sonerwal_write *s)
{
	return s->phase >= SONERWAL_WRITE_ASK && s->phase <= SONERWAL_WRITE_TAKE;
}

/* Where the present range ends. */
static uint64_t until(const struct sonerwal_write *s)
{
	uint64_t end = (uint64_t)s->offset + s->count;
	uint64_t full = (uint64_t)s->next - (s->next - s->offset) % s->burst + s->burst;
	return full < end ? full : end;
}

static uint8_t finish(struct sonerwal_write *s, uint8_t phase, uint8_t answer)
{
	s->tags = 0;
	s->phase = phase;
	return answer;
}

static uint8_t xfer(struct sonerwal_write *s, uint64_t others)
{
	if (!taken(s)) {
		return SONERWAL_REFUSED_RULES;
	}
	if (s->phase != SONERWAL_WRITE_ASK) {
		return SONERWAL_REFUSED_UNFIT;
	}
	bool first = s->next == s->offset && s->tags == 0;
	uint64_t kept = others | s->tags | (first ? 0 : UINT64_C(1) << s->tag);
	if (kept == UINT64_MAX) {
		return SONERWAL_REFUSED_FULL;
	}
	s->tag = (uint16_t)__builtin_ctzll(~kept);
	s->tags |= UINT64_C(1) << s->tag;
	s->phase = SONERWAL_WRITE_WAIT;
	return SONERWAL_SENT;
}

static uint8_t answer_refusal(const struct sonerwal_write *s)
{
	if (!taken(s)) {
		return SONERWAL_REFUSED_RULES;
	}
	return s->phase == SONERWAL_WRITE_WAIT ? SONERWAL_OK : SONERWAL_REFUSED_UNFIT;
}

static uint8_t ack(struct sonerwal_write *s)
{
	uint8_t refusal = answer_refusal(s);
	if (refusal == SONERWAL_OK) {
		s->phase = SONERWAL_WRITE_TAKE;
	}
	return refusal;
}

static uint8_t miss(struct sonerwal_write *s)
{
	uint8_t refusal = answer_refusal(s);
	if (refusal != SONERWAL_OK) {
		return refusal;
	}
	if (s->used == s->resends) {
		return finish(s, SONERWAL_WRITE_FAILED, SONERWAL_FAIL);
	}
	s->used++;
	s->phase = SONERWAL_WRITE_ASK;
	return SONERWAL_RETRY;
}

static uint8_t end(struct sonerwal_write *s)
{
	if (!taken(s)) {
		return SONERWAL_REFUSED_RULES;
	}
	return unfinished(s) ? finish(s, SONERWAL_WRITE_ENDED, SONERWAL_END) : SONERWAL_REFUSED_UNFIT;
}

/* What the state refuses of data under a tag, wherever it lies. */
static uint8_t tag_refusal(const struct sonerwal_write *s, uint16_t transfer)
{
	if (!taken(s)) {
		return SONERWAL_REFUSED_RULES;
	}
	if (!unfinished(s) || (s->phase == SONERWAL_WRITE_WAIT && transfer == s->tag)) {
		return SONERWAL_REFUSED_UNFIT;
	}
	return SONERWAL_OK;
}

static bool awaited(const struct sonerwal_write *s, uint16_t transfer)
{
	return s->phase == SONERWAL_WRITE_TAKE && transfer == s->tag;
}

static bool fits(const struct sonerwal_write *s, uint16_t transfer, uint32_t offset, uint32_t length)
{
	uint64_t to = (uint64_t)offset + length, range = until(s);
	return has_tag(s->tags, transfer) && offset >= s->next && to <= range && (length % 4 == 0 || to == range) &&
	       (!awaited(s, transfer) || offset == s->next);
}

static uint8_t move(struct sonerwal_write *s, uint32_t to)
{
	bool full = to == until(s);
	s->next = to;
	if (to - s->offset == s->count) {
		return finish(s, SONERWAL_WRITE_DONE, SONERWAL_DONE);
	}
	if (full) {
		return finish(s, SONERWAL_WRITE_ASK, SONERWAL_MORE);
	}
	s->tags = UINT64_C(1) << s->tag;
	return SONERWAL_OK;
}

static bool hashed(uint32_t destination, uint32_t source)
{
	return destination <= SONERWAL_HASHED_ADDRESS_MAX && source <= SONERWAL_HASHED_ADDRESS_MAX;
}

/* ---- A write's calls, by value */

#define WRITE_BY_VALUE(call, step)                                          \
	struct sonerwal_write_step plain_write_##call(struct sonerwal_write s) \
	{                                                                   \
		uint8_t answer = step(&s);                                  \
		return (struct sonerwal_write_step){s, answer};             \
	}

WRITE_BY_VALUE(ack, ack)
WRITE_BY_VALUE(nak, miss)
WRITE_BY_VALUE(timeout, miss)
WRITE_BY_VALUE(lost, miss)
WRITE_BY_VALUE(nexus, end)
WRITE_BY_VALUE(cancel, end)

struct sonerwal_write_step plain_write_start(struct sonerwal_write s, uint32_t offset, uint32_t count, uint32_t burst,
                                             uint32_t resends)
{
	if (!in_range(offset, count, burst, resends) || !taken(&s)) {
		return (struct sonerwal_write_step){s, SONERWAL_REFUSED_RULES};
	}
	if (unfinished(&s)) {
		return (struct sonerwal_write_step){s, SONERWAL_REFUSED_UNFIT};
	}
	s = (struct sonerwal_write){.offset = offset, .count = count, .burst = burst, .resends = resends, .next = offset,
	                            .phase = SONERWAL_WRITE_ASK};
	return (struct sonerwal_write_step){s, SONERWAL_OK};
}

struct sonerwal_write_step plain_write_xfer(struct sonerwal_write s, uint64_t others)
{
	uint8_t answer = xfer(&s, others);
	return (struct sonerwal_write_step){s, answer};
}

struct sonerwal_write_step plain_write_got(struct sonerwal_write s, uint16_t transfer, uint32_t offset, uint32_t length)
{
	if (length < SONERWAL_DATA_BODY_MIN || length > SONERWAL_DATA_BODY_MAX) {
		return (struct sonerwal_write_step){s, SONERWAL_REFUSED_UNLISTED};
	}
	uint8_t answer = tag_refusal(&s, transfer);
	if (answer == SONERWAL_OK && !fits(&s, transfer, offset, length)) {
		answer = SONERWAL_REFUSED_UNLISTED;
	}
	if (answer == SONERWAL_OK) {
		answer = awaited(&s, transfer) ? move(&s, offset + length) : SONERWAL_LATE;
	}
	return (struct sonerwal_write_step){s, answer};
}

struct sonerwal_write_step plain_write_ask(struct sonerwal_write s, uint64_t others, uint32_t hashed_destination,
                                           uint32_t hashed_source, uint16_t tag, uint8_t *frame, size_t frame_len)
{
	if (frame_len < 36) {
		return (struct sonerwal_write_step){s, SONERWAL_REFUSED_LENGTH};
	}
	if (!hashed(hashed_destination, hashed_source)) {
		return (struct sonerwal_write_step){s, SONERWAL_REFUSED_UNLISTED};
	}
	bool retransmit = s.tags != 0;
	uint8_t answer = xfer(&s, others);
	if (answer == SONERWAL_SENT) {
		uint32_t length = (uint32_t)(until(&s) - s.next);
		store_xfer_rdy(hashed_destination, hashed_source, (uint32_t)retransmit << 1, tag, s.tag, s.next, length, frame);
	}
	return (struct sonerwal_write_step){s, answer};
}

struct sonerwal_write_step plain_write_take(struct sonerwal_write s, uint32_t hashed_destination, uint32_t hashed_source,
                                            uint16_t tag, const uint8_t *frame, size_t frame_len, uint8_t *store,
                                            size_t store_len)
{
	uint32_t to, from, offset;
	uint16_t command, transfer, length;
	uint8_t changing, answer = load_data_out(frame, frame_len, &to, &from, &changing, &command, &transfer, &offset, &length);
	if (answer != SONERWAL_OK) {
		return (struct sonerwal_write_step){s, answer};
	}
	if (!hashed(hashed_destination, hashed_source)) {
		return (struct sonerwal_write_step){s, SONERWAL_REFUSED_UNLISTED};
	}
	answer = tag_refusal(&s, transfer);
	if (answer != SONERWAL_OK) {
		return (struct sonerwal_write_step){s, answer};
	}
	/* The host's frame is addressed to the target. */
	if (to != hashed_source || from != hashed_destination || command != tag || !fits(&s, transfer, offset, length)) {
		return (struct sonerwal_write_step){s, SONERWAL_REFUSED_UNLISTED};
	}
	if (store_len < s.count) {
		return (struct sonerwal_write_step){s, SONERWAL_REFUSED_LENGTH};
	}
	if (!awaited(&s, transfer)) {
		return (struct sonerwal_write_step){s, SONERWAL_LATE};
	}
	memcpy(store + (offset - s.offset), frame + 24, length);
	answer = move(&s, offset + length);
	return (struct sonerwal_write_step){s, answer};
}

struct sonerwal_write_step plain_write_crossing(struct sonerwal_write s)
{
	return (struct sonerwal_write_step){s, SONERWAL_OK};
}

/* ---- A reply */

static bool reply_taken(const struct sonerwal_reply *s)
{
	if (s->zero2 != 0 || s->zero1 != 0 || s->phase > SONERWAL_REPLY_ENDED || s->resends > 255 || s->used > s->resends) {
		return false;
	}
	switch (s->phase) {
	case SONERWAL_REPLY_NEW: return s->resends == 0;
	case SONERWAL_REPLY_FAILED: return s->used == s->resends;
	default: return true;
	}
}

static bool reply_unfinished(const struct sonerwal_reply *s)
{
	return s->phase == SONERWAL_REPLY_ASK || s->phase == SONERWAL_REPLY_WAIT;
}

/* A refusal, or SONERWAL_OK where the call fits. */
static uint8_t reply_refusal(const struct sonerwal_reply *s, bool fits)
{
	if (!reply_taken(s)) {
		return SONERWAL_REFUSED_RULES;
	}
	return fits ? SONERWAL_OK : SONERWAL_REFUSED_UNFIT;
}

static uint8_t reply_ack(struct sonerwal_reply *s)
{
	uint8_t refusal = reply_refusal(s, s->phase == SONERWAL_REPLY_WAIT);
	if (refusal != SONERWAL_OK) {
		return refusal;
	}
	s->phase = SONERWAL_REPLY_DONE;
	return SONERWAL_DONE;
}

static uint8_t reply_miss(struct sonerwal_reply *s)
{
	uint8_t refusal = reply_refusal(s, s->phase == SONERWAL_REPLY_WAIT);
	if (refusal != SONERWAL_OK) {
		return refusal;
	}
	if (s->used == s->resends) {
		s->phase = SONERWAL_REPLY_FAILED;
		return SONERWAL_FAIL;
	}
	s->used++;
	s->phase = SONERWAL_REPLY_ASK;
	return SONERWAL_RETRY;
}

static uint8_t reply_end(struct sonerwal_reply *s)
{
	uint8_t refusal = reply_refusal(s, reply_unfinished(s));
	if (refusal != SONERWAL_OK) {
		return refusal;
	}
	s->phase = SONERWAL_REPLY_ENDED;
	return SONERWAL_END;
}

#define REPLY_BY_VALUE(call, step)                                          \
	struct sonerwal_reply_step plain_reply_##call(struct sonerwal_reply s) \
	{                                                                   \
		uint8_t answer = step(&s);                                  \
		return (struct sonerwal_reply_step){s, answer};             \
	}

REPLY_BY_VALUE(ack, reply_ack)
REPLY_BY_VALUE(nak, reply_miss)
REPLY_BY_VALUE(timeout, reply_miss)
REPLY_BY_VALUE(lost, reply_miss)
REPLY_BY_VALUE(nexus, reply_end)
REPLY_BY_VALUE(cancel, reply_end)

struct sonerwal_reply_step plain_reply_start(struct sonerwal_reply s, uint32_t resends)
{
	if (resends > 255) {
		return (struct sonerwal_reply_step){s, SONERWAL_REFUSED_RULES};
	}
	uint8_t answer = reply_refusal(&s, !reply_unfinished(&s));
	if (answer == SONERWAL_OK) {
		s = (struct sonerwal_reply){.resends = resends, .phase = SONERWAL_REPLY_ASK};
	}
	return (struct sonerwal_reply_step){s, answer};
}

struct sonerwal_reply_step plain_reply_respond(struct sonerwal_reply s, uint32_t hashed_destination, uint32_t hashed_source,
                                               uint16_t tag, uint8_t present, uint8_t status, const uint8_t *body,
                                               size_t body_len, uint8_t *frame, size_t frame_len)
{
	if (body_len > 1000 || !kind_takes(present, body_len) || frame_len < 48 + (body_len + 3) / 4 * 4) {
		return (struct sonerwal_reply_step){s, SONERWAL_REFUSED_LENGTH};
	}
	if (!hashed(hashed_destination, hashed_source) || present > 2 || (present == 1 && status != 0)) {
		return (struct sonerwal_reply_step){s, SONERWAL_REFUSED_UNLISTED};
	}
	uint8_t answer = reply_refusal(&s, s.phase == SONERWAL_REPLY_ASK);
	if (answer == SONERWAL_OK) {
		store_response(hashed_destination, hashed_source, s.used > 0, tag, present, status, body, body_len, frame);
		s.phase = SONERWAL_REPLY_WAIT;
		answer = SONERWAL_SENT;
	}
	return (struct sonerwal_reply_step){s, answer};
}
