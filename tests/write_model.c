#include "write_model.h"

#include <assert.h>
#include <string.h>

const struct upload_cause upload_causes[WHYS] = {
	[FRAME_LENGTH] = {"the frame's length", 1},
	[OUTPUT_SHORT] = {"an output below 36", 1},
	[FRAME_OFF] = {"a frame off its layout", 2},
	[ADDRESS_ABOVE] = {"an address above 24 bits", 2},
	[LENGTH_OFF] = {"a length not 1 to 1,024", 2},
	[REQUEST_OFF] = {"a number out of range", 3},
	[UNFINISHED] = {"a write not finished", 6},
	[NOT_ASKING] = {"no XFER_RDY due", 6},
	[NONE_DUE] = {"no answer due", 6},
	[NOT_RUNNING] = {"no write, or finished", 6},
	[BEFORE_ITS_ACK] = {"data before its ACK", 6},
	[OTHER_HEAD] = {"another head", 2},
	[OTHER_TRANSFER] = {"a tag not in use", 2},
	[BEFORE_NEXT] = {"data taken before", 2},
	[PAST_RANGE] = {"data past the range", 2},
	[NOT_FOURS] = {"no multiple of four", 2},
	[BEHIND_NEXT] = {"data behind the next byte", 2},
	[STORE_SHORT] = {"a store below N", 1},
	[NO_FREE_TAG] = {"no free transfer tag", 10},
};

enum why upload_why;

static uint8_t refuse(enum why why)
{
	upload_why = why;
	return upload_causes[why].number;
}

/* ---- What is looked up */

const struct xfer *upload_latest(const struct upload *u)
{
	return u->count > 0 ? &u->sent[u->count - 1] : NULL;
}

static bool latest_is(const struct upload *u, enum fate fate)
{
	return u->count > 0 && upload_latest(u)->fate == fate;
}

static uint64_t end_of(const struct upload *u)
{
	return (uint64_t)u->asked.b + u->asked.n;
}

static bool is_taken(const struct upload *u, uint32_t offset)
{
	assert(offset - u->asked.b < MOST_BYTES);
	return u->taken[offset - u->asked.b] > 0;
}

uint64_t upload_next(const struct upload *u)
{
	size_t mapped = u->asked.n < MOST_BYTES ? u->asked.n : MOST_BYTES;
	const uint8_t *at = memchr(u->taken, 0, mapped);
	return u->asked.b + (at ? (uint64_t)(at - u->taken) : mapped);
}

/* From its XFER_RDY on, until data under a later one is taken, until its own range is full, or until the write is finished. */
bool upload_has(const struct upload *u, uint16_t tag)
{
	const struct xfer *last = upload_latest(u);
	if (!u->running || last == NULL || last->fate == FULL) {
		return false;
	}
	if (last->tag == tag) {
		return true;
	}
	for (const struct xfer *x = last; x > u->sent && x[-1].offset == last->offset; x--) {
		if (x[-1].tag == tag) {
			return !is_taken(u, last->offset);
		}
	}
	return false;
}

static size_t failures(const struct upload *u)
{
	size_t failed = 0;
	for (size_t i = 0; i < u->count; i++) {
		failed += u->sent[i].fate == FAILED;
	}
	return failed;
}

/* ---- START, XFER and the answers */

static uint8_t finish(struct upload *u, uint8_t word)
{
	u->running = false;
	u->finished = word;
	return word;
}

static bool in_range(const struct request *q)
{
	return q->n >= 1 && (uint64_t)q->b + q->n <= 4294967295 && q->x % 4 == 0 && q->x >= 4 && q->r <= 63;
}

static uint8_t start(struct upload *u, const struct request *q)
{
	if (!in_range(q)) {
		return refuse(REQUEST_OFF);
	}
	if (u->running) {
		return refuse(UNFINISHED);
	}
	memset(u, 0, sizeof *u);
	u->asked = *q;
	u->running = true;
	return SONERWAL_OK;
}

/* 02 c.2: the lowest that differs from the previous and from every tag in use; TAGS if none does */
static uint16_t free_tag(const struct upload *u, uint64_t others)
{
	const struct xfer *last = upload_latest(u);
	uint16_t tag = 0;
	while (tag < TAGS && ((others >> tag & 1) || upload_has(u, tag) || (last && last->tag == tag))) {
		tag++;
	}
	return tag;
}

/* A range's first asks for what comes next, a retry for what the failed one asked for. */
static struct xfer next_xfer(const struct upload *u, uint16_t tag)
{
	struct xfer x = {.tag = tag, .fate = DUE};
	if (latest_is(u, FAILED)) {
		x.offset = upload_latest(u)->offset;
		x.length = upload_latest(u)->length;
	} else {
		uint64_t from = upload_next(u), left = end_of(u) - from;
		x.offset = (uint32_t)from;
		x.length = left < u->asked.x ? (uint32_t)left : u->asked.x;
	}
	return x;
}

static uint8_t xfer(struct upload *u, uint64_t others)
{
	if (!u->running || latest_is(u, DUE) || latest_is(u, GOOD)) {
		return refuse(NOT_ASKING);
	}
	uint16_t tag = free_tag(u, others);
	if (tag == TAGS) {
		return refuse(NO_FREE_TAG);
	}
	assert(u->count < MOST_XFERS);
	struct xfer x = next_xfer(u, tag);
	u->sent[u->count++] = x;
	return SONERWAL_SENT;
}

static uint8_t ack(struct upload *u)
{
	if (!u->running || !latest_is(u, DUE)) {
		return refuse(NONE_DUE);
	}
	u->sent[u->count - 1].fate = GOOD;
	return SONERWAL_OK;
}

static uint8_t miss(struct upload *u)
{
	if (!u->running || !latest_is(u, DUE)) {
		return refuse(NONE_DUE);
	}
	u->sent[u->count - 1].fate = FAILED;
	return failures(u) > u->asked.r ? finish(u, SONERWAL_FAIL) : SONERWAL_RETRY;
}

static uint8_t end(struct upload *u)
{
	return u->running ? finish(u, SONERWAL_END) : refuse(NOT_RUNNING);
}

/* ---- DATA */

/* Whether nothing is to be said of where the data lies yet. */
static uint8_t too_early(const struct upload *u, uint16_t transfer)
{
	if (!u->running) {
		return refuse(NOT_RUNNING);
	}
	return latest_is(u, DUE) && upload_latest(u)->tag == transfer ? refuse(BEFORE_ITS_ACK) : SONERWAL_OK;
}

static bool awaited(const struct upload *u, uint16_t transfer)
{
	return latest_is(u, GOOD) && upload_latest(u)->tag == transfer;
}

static uint64_t range_end(const struct upload *u)
{
	return (uint64_t)upload_latest(u)->offset + upload_latest(u)->length;
}

/* 02 c.6 */
static uint8_t misplaced(const struct upload *u, uint16_t transfer, uint64_t offset, uint32_t length)
{
	if (!upload_has(u, transfer)) {
		return refuse(OTHER_TRANSFER);
	}
	if (offset < upload_next(u)) {
		return refuse(BEFORE_NEXT);
	}
	if (offset + length > range_end(u)) {
		return refuse(PAST_RANGE);
	}
	if (length % 4 != 0 && offset + length != range_end(u)) {
		return refuse(NOT_FOURS);
	}
	return awaited(u, transfer) && offset != upload_next(u) ? refuse(BEHIND_NEXT) : SONERWAL_OK;
}

/* 02 c.4: each byte once */
static uint8_t come(struct upload *u, uint32_t offset, uint32_t length)
{
	bool full = offset + length == range_end(u);
	assert(offset - u->asked.b + length <= MOST_BYTES);
	for (uint32_t i = 0; i < length; i++) {
		assert(!is_taken(u, offset + i));
		u->taken[offset - u->asked.b + i]++;
	}
	if (full) {
		u->sent[u->count - 1].fate = FULL;
	}
	if (upload_next(u) == end_of(u)) {
		return finish(u, SONERWAL_DONE);
	}
	return full ? SONERWAL_MORE : SONERWAL_OK;
}

static uint8_t got(struct upload *u, const struct given *g)
{
	if (g->length < 1 || g->length > 1024) {
		return refuse(LENGTH_OFF);
	}
	uint8_t refusal = too_early(u, g->transfer);
	if (refusal == SONERWAL_OK) {
		refusal = misplaced(u, g->transfer, g->offset, g->length);
	}
	if (refusal != SONERWAL_OK) {
		return refusal;
	}
	return awaited(u, g->transfer) ? come(u, g->offset, g->length) : SONERWAL_LATE;
}

/* ---- With bytes */

static bool addressed(const struct address *head)
{
	return head->destination <= 0xFFFFFF && head->source <= 0xFFFFFF;
}

/* 02 c.2 */
static void put_xfer_rdy(const struct address *head, bool retry, const struct xfer *x, uint8_t *out)
{
	uint64_t fields[XFER_FIELDS] = {
		[XFER_HASHED_DESTINATION] = head->destination, [XFER_HASHED_SOURCE] = head->source, [XFER_RETRANSMIT] = retry,
		[XFER_TAG] = head->tag, [XFER_TRANSFER] = x->tag, [XFER_OFFSET] = x->offset, [XFER_LENGTH] = x->length,
	};
	plain_xfer_write(fields, NULL, out, XFER_RDY_BYTES);
}

static uint8_t ask(struct upload *u, const struct given *g, uint8_t *out)
{
	if (g->lent_len < XFER_RDY_BYTES) {
		return refuse(OUTPUT_SHORT);
	}
	if (!addressed(&g->head)) {
		return refuse(ADDRESS_ABOVE);
	}
	bool retry = latest_is(u, FAILED);
	uint8_t said = xfer(u, g->others);
	if (said == SONERWAL_SENT) {
		put_xfer_rdy(&g->head, retry, upload_latest(u), out);
	}
	return said;
}

/* The host's frame goes to whom the target's comes from. */
static bool is_answer(const uint64_t *data, const struct address *head)
{
	return data[OUT_HASHED_DESTINATION] == head->source && data[OUT_HASHED_SOURCE] == head->destination && data[OUT_TAG] == head->tag;
}

static uint8_t frame_refusal(const struct given *g, uint64_t *data)
{
	switch (plain_answer(plain_out_read(g->frame, g->frame_len, data))) {
	case 1: return refuse(FRAME_LENGTH);
	case 2: return refuse(FRAME_OFF);
	default: return addressed(&g->head) ? SONERWAL_OK : refuse(ADDRESS_ABOVE);
	}
}

static uint8_t take_refusal(const struct upload *u, const struct given *g, uint64_t *data)
{
	uint8_t refusal = frame_refusal(g, data);
	if (refusal == SONERWAL_OK) {
		refusal = too_early(u, (uint16_t)data[OUT_TRANSFER]);
	}
	if (refusal == SONERWAL_OK && !is_answer(data, &g->head)) {
		refusal = refuse(OTHER_HEAD);
	}
	if (refusal == SONERWAL_OK) {
		refusal = misplaced(u, (uint16_t)data[OUT_TRANSFER], data[OUT_OFFSET], (uint32_t)data[OUT_LENGTH]);
	}
	return refusal == SONERWAL_OK && g->lent_len < u->asked.n ? refuse(STORE_SHORT) : refusal;
}

static uint8_t take(struct upload *u, const struct given *g, uint8_t *store)
{
	uint64_t data[OUT_FIELDS];
	uint8_t refusal = take_refusal(u, g, data);
	if (refusal != SONERWAL_OK) {
		return refusal;
	}
	if (!awaited(u, (uint16_t)data[OUT_TRANSFER])) {
		return SONERWAL_LATE;
	}
	for (uint64_t i = 0; i < data[OUT_LENGTH]; i++) {
		store[data[OUT_OFFSET] - u->asked.b + i] = g->frame[24 + i];
	}
	return come(u, (uint32_t)data[OUT_OFFSET], (uint32_t)data[OUT_LENGTH]);
}

uint8_t upload_call(struct upload *u, enum call call, const struct given *g, uint8_t *lent)
{
	switch (call) {
	case START: return start(u, &g->request);
	case XFER: return xfer(u, g->others);
	case ACK: return ack(u);
	case NAK:
	case TIMEOUT:
	case LOST: return miss(u);
	case GOT: return got(u, g);
	case NEXUS:
	case CANCEL: return end(u);
	case ASK: return ask(u, g, lent);
	default: return take(u, g, lent);
	}
}

/* ---- As C keeps it */

static uint8_t phase_of(const struct upload *u)
{
	switch (u->finished) {
	case SONERWAL_DONE: return SONERWAL_WRITE_DONE;
	case SONERWAL_FAIL: return SONERWAL_WRITE_FAILED;
	case SONERWAL_END: return SONERWAL_WRITE_ENDED;
	default: break;
	}
	if (!u->running) {
		return SONERWAL_WRITE_NEW;
	}
	if (latest_is(u, DUE)) {
		return SONERWAL_WRITE_WAIT;
	}
	return latest_is(u, GOOD) ? SONERWAL_WRITE_TAKE : SONERWAL_WRITE_ASK;
}

struct sonerwal_write upload_shown(const struct upload *u)
{
	struct sonerwal_write s = {
		.offset = u->asked.b, .count = u->asked.n, .burst = u->asked.x, .resends = u->asked.r, .phase = phase_of(u),
	};
	size_t failed = failures(u);
	for (uint16_t tag = 0; tag < TAGS; tag++) {
		s.tags |= (uint64_t)upload_has(u, tag) << tag;
	}
	s.next = s.phase == SONERWAL_WRITE_NEW ? 0 : (uint32_t)upload_next(u);
	s.used = failed < s.resends ? (uint32_t)failed : s.resends;
	s.tag = u->count > 0 ? upload_latest(u)->tag : 0;
	return s;
}
