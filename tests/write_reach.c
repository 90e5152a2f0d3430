#include "write_reach.h"

#include <string.h>

static uint8_t call(struct upload *u, enum call name)
{
	return upload_call(u, name, NULL, NULL);
}

/* An XFER_RDY under the lowest free tag that isn't among these. */
static uint8_t ask_beside(struct upload *u, uint64_t others)
{
	struct given g = {.others = others};
	return upload_call(u, XFER, &g, NULL);
}

/* Under this tag, if it is free: all others are taken. */
static uint8_t ask_under(struct upload *u, uint16_t tag)
{
	return ask_beside(u, ~(UINT64_C(1) << tag % TAGS));
}

/* So many fail, none of them under this tag. */
static void fail_beside(struct upload *u, uint32_t times, uint16_t tag)
{
	for (uint32_t i = 0; i < times && ask_beside(u, UINT64_C(1) << tag % TAGS) == SONERWAL_SENT; i++) {
		call(u, NAK);
	}
}

/* One fails under each of these tags, but not under this one. */
static void fail_under(struct upload *u, uint64_t tags, uint16_t but)
{
	for (uint16_t tag = 0; tag < TAGS; tag++) {
		if ((tags >> tag & 1) && tag != but && ask_under(u, tag) == SONERWAL_SENT) {
			call(u, NAK);
		}
	}
}

/* Data of the range that was asked for, up to an offset. */
static void deliver(struct upload *u, uint64_t to)
{
	if (call(u, ACK) != SONERWAL_OK) {
		return;
	}
	const struct xfer *x = upload_latest(u);
	uint64_t end = (uint64_t)x->offset + x->length;
	uint8_t said = SONERWAL_OK;
	while (said == SONERWAL_OK && upload_next(u) < to) {
		uint64_t left = (to < end ? to : end) - upload_next(u);
		struct given g = {.transfer = x->tag, .offset = (uint32_t)upload_next(u), .length = left < 1024 ? (uint32_t)left : 1024};
		said = upload_call(u, GOT, &g, NULL);
	}
}

/* Whole ranges up to an offset, the last under this tag and no two behind each other under one; all these retries in the first. */
static void fill_ranges(struct upload *u, uint64_t to, uint16_t last, uint32_t retries)
{
	uint64_t count = (to - u->asked.b) / u->asked.x;
	uint16_t other = last == 0;
	for (uint64_t i = 0; i < count; i++) {
		uint16_t tag = (count - i) % 2 ? last : other;
		if (i == 0) {
			fail_beside(u, retries, tag);
		}
		ask_under(u, tag);
		deliver(u, to);
	}
}

static uint32_t count_of(uint64_t tags)
{
	uint32_t count = 0;
	for (; tags != 0; tags /= 2) {
		count += tags % 2;
	}
	return count;
}

/* Where the range begins that the last XFER_RDY asked for: behind a full one the next has not been asked for. */
static uint64_t asked_from(const struct sonerwal_write *s)
{
	bool full = s->tags == 0 && (s->phase == SONERWAL_WRITE_ASK || s->phase == SONERWAL_WRITE_DONE);
	uint32_t within = s->next - s->offset - (full && s->next > s->offset);
	return (uint64_t)s->offset + within / s->burst * s->burst;
}

/* The calls of the last range, of which all failures are named by its tags, or by these retries. */
static void last_range(struct upload *u, const struct sonerwal_write *s, uint32_t retries)
{
	fail_beside(u, retries, s->tag);
	fail_under(u, s->tags, s->tag);
	ask_under(u, s->tag);
	switch (s->phase) {
	case SONERWAL_WRITE_ASK:
		if (s->tags == 0) {
			deliver(u, s->next);
		} else {
			call(u, NAK);
		}
		break;
	case SONERWAL_WRITE_FAILED: call(u, NAK); break;
	case SONERWAL_WRITE_WAIT: break;
	default: deliver(u, s->next); break;
	}
}

/* Failures that the tags name: each XFER_RDY but the last, and the last where it failed too. */
static uint32_t named(const struct sonerwal_write *s)
{
	uint32_t count = count_of(s->tags);
	return count > 0 && s->phase != SONERWAL_WRITE_ASK ? count - 1 : count;
}

/* Whether no XFER_RDY was sent: START alone, or its end at once. */
static bool none_sent(const struct sonerwal_write *s)
{
	return (s->phase == SONERWAL_WRITE_ASK || s->phase == SONERWAL_WRITE_ENDED) && s->next == s->offset && s->tags == 0 &&
	       s->tag == 0 && s->used == 0;
}

/* Retries that no tag names come as early as they can. */
static void lead(struct upload *u, const struct sonerwal_write *s)
{
	uint64_t from = asked_from(s);
	uint32_t early = s->used - named(s);
	if (none_sent(s) || s->used < named(s)) {
		return;
	}
	if (from == s->offset) {
		last_range(u, s, early);
	} else {
		/* the range before is under a tag that the last doesn't begin with */
		fill_ranges(u, from, count_of(s->tags) > 1 ? s->tag : s->tag == 0, early);
		last_range(u, s, 0);
	}
}

bool can_reach(const struct sonerwal_write *s)
{
	uint32_t taken = s->next - s->offset;
	return taken <= MOST_BYTES && (s->burst == 0 || taken / s->burst + TAGS + 1 < MOST_XFERS);
}

bool upload_reached(const struct sonerwal_write *s, struct upload *u)
{
	struct given g = {.request = {s->offset, s->count, s->burst, s->resends}};
	memset(u, 0, sizeof *u);
	if (upload_call(u, START, &g, NULL) == SONERWAL_OK && s->next - s->offset <= s->count && s->used <= s->resends && s->tag < TAGS) {
		lead(u, s);
		if (s->phase == SONERWAL_WRITE_ENDED) {
			call(u, CANCEL);
		}
	}
	struct sonerwal_write shown = upload_shown(u);
	return memcmp(&shown, s, sizeof shown) == 0;
}
