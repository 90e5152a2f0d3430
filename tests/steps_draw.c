#include "steps_draw.h"

#include "check.h"

#include <string.h>

struct request draw_request(void)
{
	struct request q;
	q.m = (uint32_t)(4 * (1 + noise_below(256)));
	q.n = (uint32_t)(1 + noise_below(q.m * (noise_below(2) ? 3 : 100)));
	q.b = (uint32_t)(noise_below(2) ? noise_below(4096) : 4294967295 - q.n - noise_below(4));
	q.r = (uint32_t)noise_below(noise_below(2) ? 4 : 256);
	return q;
}

struct request draw_any_request(void)
{
	struct request q = draw_request();
	switch (noise_below(20)) {
	case 0: q.m += 1 + (uint32_t)noise_below(3); break;
	case 1: q.m = noise_below(2) ? 0 : 1028; break;
	case 2: q.n = noise_below(2) ? 0 : UINT32_MAX; break;
	case 3: q.b = UINT32_MAX - q.n + 1; break;
	case 4: q.r = 256; break;
	default: break;
	}
	return q;
}

static size_t draw_length(uint32_t length)
{
	switch (noise_below(8)) {
	case 0: return noise_below(MOST_BODY);
	case 1: return length + 1;
	case 2: return length > 0 ? length - 1 : 0;
	default: return length;
	}
}

void draw_sending(struct sending *g, uint32_t length)
{
	g->fields[DATA_HASHED_DESTINATION] = noise_below(UINT64_C(1) << (noise_below(8) ? 24 : 32));
	g->fields[DATA_HASHED_SOURCE] = noise_below(UINT64_C(1) << (noise_below(8) ? 24 : 32));
	g->fields[DATA_CHANGING] = g->fields[DATA_OFFSET] = g->fields[DATA_LENGTH] = 0;
	g->fields[DATA_TAG] = noise_below(65536);
	g->body_len = draw_length(length);
	noise_fill(g->body, sizeof g->body);
	g->out_len = 24 + g->body_len + noise_below(8);
}

/* Of a hundred calls, how many are of each kind: all alike, frames with some answers, and hardly anything but frames. */
static const uint8_t mixes[MIXES][CALLS] = {
	{12, 11, 11, 11, 11, 11, 11, 11, 11},
	{1, 23, 39, 4, 3, 3, 1, 1, 25},
	{1, 48, 2, 1, 0, 0, 0, 0, 48},
};

enum call draw_call(int mix)
{
	uint64_t at = noise_below(100);
	int call = 0;
	while (at >= mixes[mix][call]) {
		at -= mixes[mix][call++];
	}
	return (enum call)call;
}

void draw_transfer(struct model *t)
{
	struct request q = draw_request();
	int mix = (int)noise_below(MIXES);
	memset(t, 0, sizeof *t);
	if (noise_below(16) == 0) {
		return;
	}
	queue_call(t, START, &q, NULL, NULL);
	for (uint64_t i = noise_below(noise_below(2) ? 12 : 150); i > 0; i--) {
		enum call call = draw_call(mix);
		queue_call(t, call == NEXT_FRAME || call == START ? FRAME : call, NULL, NULL, NULL);
	}
}
