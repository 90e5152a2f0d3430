#include "write_draw.h"

#include "check.h"

#include <string.h>

enum { HOST = 0x123456, TARGET = 0xABCDEF, COMMAND = 0x55AA };

struct request draw_write_request(void)
{
	struct request q;
	q.n = (uint32_t)(1 + noise_below(noise_below(4) ? 3000 : noise_below(2) ? 8 : 40));
	q.x = (uint32_t)(4 * (1 + noise_below(noise_below(2) ? 8 : 400)));
	if (noise_below(8) == 0) {
		q.x = (uint32_t)(noise_below(2) ? 4294967292 : 4 * (1 + noise_below(1073741823)));
	}
	if (noise_below(16) == 0) {
		q.n = (uint32_t)(1 + noise_below(4294967295));
	}
	q.b = (uint32_t)noise_below(noise_below(2) ? 4096 : 4294967295);
	if (noise_below(2) || (uint64_t)q.b + q.n > 4294967295) {
		q.b = 4294967295 - q.n;
	}
	q.r = (uint32_t)noise_below(noise_below(2) ? 4 : 64);
	return q;
}

static struct request draw_any_request(void)
{
	struct request q = draw_write_request();
	switch (noise_below(20)) {
	case 0: q.x += 1 + (uint32_t)noise_below(3); break;
	case 1: q.x = 0; break;
	case 2: q.n = noise_below(2) ? 0 : UINT32_MAX; break;
	case 3: q.b = UINT32_MAX - q.n + 1; break;
	case 4: q.r = 64; break;
	default: break;
	}
	return q;
}

/* Of a hundred calls, how many are of each kind. */
static const uint8_t mixes[WRITE_MIXES][CALLS] = {
	{10, 9, 9, 9, 9, 9, 9, 9, 9, 9, 9},
	{1, 1, 22, 2, 2, 2, 2, 1, 1, 23, 43},
	{1, 15, 8, 15, 10, 10, 6, 0, 0, 20, 15},
	{1, 22, 20, 2, 2, 2, 47, 1, 1, 1, 1},
};

enum call draw_write_call(int mix)
{
	uint64_t at = noise_below(100);
	int call = 0;
	while (at >= mixes[mix][call]) {
		at -= mixes[mix][call++];
	}
	return (enum call)call;
}

static uint64_t draw_others(void)
{
	uint64_t set = noise();
	switch (noise_below(8)) {
	case 0: return set;
	case 1: return set & noise() & noise();
	case 2: return ~(set & noise() & noise() & noise() & noise());
	case 3: return ~(UINT64_C(1) << noise_below(TAGS));
	case 4: return noise_below(4) ? 1 : UINT64_MAX;
	default: return 0;
	}
}

static uint32_t draw_hashed(uint32_t right)
{
	switch (noise_below(24)) {
	case 0: return (uint32_t)noise();
	case 1: return right ^ 1u << noise_below(24);
	default: return right;
	}
}

/* The latest tag, another that was sent, or any. */
static uint16_t draw_transfer_tag(const struct upload *u)
{
	if (u->count == 0 || noise_below(12) == 0) {
		return (uint16_t)noise_below(noise_below(2) ? TAGS : 65536);
	}
	size_t back = noise_below(4) ? 0 : noise_below(u->count);
	return u->sent[u->count - 1 - back].tag;
}

static uint32_t draw_offset(const struct upload *u)
{
	uint32_t next = (uint32_t)upload_next(u);
	switch (noise_below(12)) {
	case 0: return next + 4;
	case 1: return next - 4;
	case 2: return next + (uint32_t)noise_below(64);
	case 3: return (uint32_t)noise();
	default: return next;
	}
}

/* Up to the end of the range or of the longest frame, a multiple of four or what is left. */
static uint32_t draw_length(const struct upload *u)
{
	const struct xfer *x = upload_latest(u);
	uint64_t left = x ? (uint64_t)x->offset + x->length - upload_next(u) : 4;
	uint32_t most = left < 1024 ? (uint32_t)left : 1024;
	switch (noise_below(12)) {
	case 0: return (uint32_t)noise_below(1100);
	case 1: return most + 1;
	case 2: return most > 4 ? most - 1 : most;
	case 3: return noise_below(4) ? 4 : (uint32_t)noise();
	case 4:
	case 5:
	case 6: return most >= 4 ? 4 * (1 + (uint32_t)noise_below(most / 4)) : most;
	default: return most;
	}
}

void put_data_out(struct given *g, uint16_t transfer, uint32_t offset, const uint8_t *body, uint32_t length)
{
	uint64_t fields[OUT_FIELDS] = {
		[OUT_HASHED_DESTINATION] = g->head.source & 0xFFFFFF, [OUT_HASHED_SOURCE] = g->head.destination & 0xFFFFFF,
		[OUT_CHANGING] = noise_below(2), [OUT_TAG] = g->head.tag, [OUT_TRANSFER] = transfer, [OUT_OFFSET] = offset, [OUT_LENGTH] = length,
	};
	g->frame_len = 24 + length + plain_data_fill(length);
	plain_out_write(fields, body, g->frame, g->frame_len);
}

static void spoil(struct given *g)
{
	switch (noise_below(6)) {
	case 0: g->frame_len = noise_below(MOST_FRAME); break;
	case 1: g->frame_len += 4; break;
	case 2: g->frame[noise_below(g->frame_len)] ^= (uint8_t)(1u << noise_below(8)); break;
	case 3: g->frame[g->frame_len - 1 - noise_below(3)] = 1; break;
	default: g->frame[noise_below(24)] ^= (uint8_t)(1u << noise_below(8)); break;
	}
}

static size_t draw_store(const struct upload *u)
{
	uint32_t n = u->asked.n;
	if (n > MOST_BYTES) {
		return MOST_STORE;
	}
	switch (noise_below(16)) {
	case 0: return n > 0 ? n - 1 : 0;
	case 1: return noise_below(MOST_STORE);
	case 2: return n + noise_below(64);
	default: return n;
	}
}

void draw_given(struct given *g, const struct upload *u, enum call call)
{
	g->request = draw_any_request();
	g->others = draw_others();
	g->head = (struct address){draw_hashed(HOST), draw_hashed(TARGET), (uint16_t)(noise_below(24) ? COMMAND : noise())};
	g->transfer = draw_transfer_tag(u);
	g->offset = draw_offset(u);
	g->length = draw_length(u);
	if (call == ASK) {
		g->lent_len = XFER_RDY_BYTES + (noise_below(8) ? noise_below(8) : 0) - (noise_below(16) == 0);
	}
	if (call == TAKE) {
		static uint8_t body[1024];
		struct address asked = g->head;
		uint32_t length = g->length >= 1 && g->length <= 1024 ? g->length : 1024;
		noise_fill(body, sizeof body);
		put_data_out(g, g->transfer, g->offset, body, length);
		g->head = (struct address){draw_hashed(asked.destination), draw_hashed(asked.source), asked.tag ^ (noise_below(24) == 0)};
		g->lent_len = draw_store(u);
		if (noise_below(12) == 0) {
			spoil(g);
		}
	}
}

bool can_follow(const struct upload *u)
{
	return u->count < MOST_XFERS && (u->asked.n <= MOST_BYTES || upload_next(u) - u->asked.b <= MOST_BYTES - 1024);
}

void draw_upload(struct upload *u)
{
	static struct given g;
	static uint8_t lent[MOST_STORE];
	int mix = (int)noise_below(WRITE_MIXES);
	memset(u, 0, sizeof *u);
	if (noise_below(16) == 0) {
		return;
	}
	g.request = draw_write_request();
	upload_call(u, START, &g, NULL);
	for (uint64_t i = noise_below(noise_below(2) ? 12 : 100); i > 0 && can_follow(u); i--) {
		enum call call = draw_write_call(mix);
		if (call != START) {
			draw_given(&g, u, call);
			upload_call(u, call, &g, lent);
		}
	}
}
