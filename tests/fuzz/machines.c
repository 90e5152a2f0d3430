/*
 * A transfer or a link of any bytes, and calls on it with any arguments, as long as the input has bytes. The plain C of bench/ makes the
 * same call on the same state: answer, state, actions and every lent byte must be the same, and a refusal leaves all as it was. Both go
 * on with what came back, so that a few bytes lead far.
 */
#include "../../bench/plain_links.h"
#include "../../bench/plain_steps.h"
#include "../plain.h"
#include "input.h"

#include <string.h>

static int left(const struct input *in)
{
	return in->at < in->end;
}

static int is_refusal(uint8_t answer)
{
	return answer >= SONERWAL_REFUSED_LENGTH && answer <= SONERWAL_REFUSED_FULL;
}

/* ---- A transfer */

/* What a next-frame call is lent, in a copy for each side. */
static struct lent {
	uint8_t body[ROOM], frame[ROOM + 64];
} ours, plain;

typedef struct sonerwal_transfer_step call_of(struct sonerwal_transfer s);

static call_of *const calls[][2] = {
	{sonerwal_transfer_frame, plain_transfer_frame},     {sonerwal_transfer_ack, plain_transfer_ack},
	{sonerwal_transfer_nak, plain_transfer_nak},         {sonerwal_transfer_timeout, plain_transfer_timeout},
	{sonerwal_transfer_lost, plain_transfer_lost},       {sonerwal_transfer_nexus, plain_transfer_nexus},
	{sonerwal_transfer_cancel, plain_transfer_cancel},
};

enum { CALLS = sizeof calls / sizeof *calls };

static struct sonerwal_transfer judge_transfer(struct sonerwal_transfer s, struct sonerwal_transfer_step got,
                                               struct sonerwal_transfer_step want)
{
	require(got.answer == want.answer, "transfer: another answer");
	require(memcmp(&got.state, &want.state, sizeof got.state) == 0, "transfer: another state");
	require(!is_refusal(got.answer) || memcmp(&got.state, &s, sizeof s) == 0, "transfer: a refusal changed the state");
	return got.state;
}

static struct sonerwal_transfer try_start(struct sonerwal_transfer s, struct input *in)
{
	uint32_t b = (uint32_t)number(in, 4), n = (uint32_t)number(in, 4), m = (uint32_t)number(in, 2), r = (uint32_t)number(in, 2);
	return judge_transfer(s, sonerwal_transfer_start(s, b, n, m, r), plain_transfer_start(s, b, n, m, r));
}

/* The body and the room are the right ones unless the input says so: else hardly a frame would go. */
static struct sonerwal_transfer try_next(struct sonerwal_transfer s, struct input *in)
{
	uint32_t to = (uint32_t)number(in, 4), from = (uint32_t)number(in, 4);
	uint16_t tag = (uint16_t)number(in, 2);
	uint8_t off = (uint8_t)number(in, 1);
	size_t body_len = off % 4 == 1 ? number(in, 2) % ROOM : sonerwal_transfer_length(s);
	size_t frame_len = off % 4 == 2 ? number(in, 2) % ROOM : sonerwal_data_size(body_len);
	memset(&ours, NOISE, sizeof ours);
	memset(ours.body, off, body_len);
	memcpy(&plain, &ours, sizeof ours);
	struct sonerwal_transfer_step got = sonerwal_transfer_next(s, to, from, tag, ours.body, body_len, ours.frame, frame_len);
	struct sonerwal_transfer_step want = plain_transfer_next(s, to, from, tag, plain.body, body_len, plain.frame, frame_len);
	require(memcmp(&ours, &plain, sizeof ours) == 0, "next-frame: another byte");
	if (got.answer != SONERWAL_SENT) {
		memset(&plain.frame, NOISE, sizeof plain.frame);
		require(memcmp(ours.frame, plain.frame, sizeof ours.frame) == 0, "next-frame: a refusal left a byte");
	}
	return judge_transfer(s, got, want);
}

void try_transfer(struct input *in)
{
	struct sonerwal_transfer s = {0};
	if (number(in, 1) % 2) {
		fill(in, &s, sizeof s);
	}
	do {
		uint64_t call = number(in, 1) % (CALLS + 2);
		require(sonerwal_transfer_length(s) == plain_transfer_length(s), "transfer: another length");
		try_saved(&s, SONERWAL_SAVED_FORM, SONERWAL_SAVED_ROOM);
		if (call == CALLS) {
			s = try_start(s, in);
		} else if (call == CALLS + 1) {
			s = try_next(s, in);
		} else {
			s = judge_transfer(s, calls[call][0](s), calls[call][1](s));
		}
	} while (left(in));
}

/* ---- A link */

static struct sonerwal_link judge_link(struct sonerwal_link s, struct sonerwal_link_step got, struct sonerwal_link_step want)
{
	static const struct sonerwal_action none[4];
	require(got.answer == want.answer, "link: another answer");
	require(memcmp(&got.state, &want.state, sizeof got.state) == 0, "link: another state");
	require(memcmp(got.action, want.action, sizeof got.action) == 0, "link: another action");
	if (got.answer != SONERWAL_OK) {
		require(is_refusal(got.answer), "link: no such answer");
		require(memcmp(&got.state, &s, sizeof s) == 0 && memcmp(got.action, none, sizeof none) == 0, "link: a refusal did something");
	}
	return got.state;
}

static struct sonerwal_link try_event(struct sonerwal_link s, uint8_t kind, struct input *in)
{
	struct sonerwal_event e = {kind, (uint8_t)number(in, 1)};
	struct sonerwal_open frame;
	memset(&frame, NOISE, sizeof frame);
	if (kind == SONERWAL_KIND_OPEN || kind == SONERWAL_KIND_SEND_OPEN || kind == SONERWAL_KIND_BACKOFF_REVERSE_PATH) {
		fill(in, &frame, sizeof frame);
	}
	return judge_link(s, sonerwal_link_event(s, e, frame), plain_link_event(s, e, frame));
}

/* The plain reader of tests/, and what the plain link makes of the frame. */
static struct sonerwal_link_step plain_receive(struct sonerwal_link s, const uint8_t *frame, size_t frame_len)
{
	uint64_t f[OPEN_FIELDS];
	uint8_t refusal = plain_answer(plain_open_read(frame, frame_len, f));
	if (refusal != SONERWAL_OK) {
		return (struct sonerwal_link_step){.state = s, .answer = refusal};
	}
	struct sonerwal_open open = {
		.initiator = (uint8_t)f[OPEN_INITIATOR], .protocol = (uint8_t)f[OPEN_PROTOCOL], .features = (uint8_t)f[OPEN_FEATURES],
		.rate = (uint8_t)f[OPEN_RATE], .tag = (uint16_t)f[OPEN_TAG], .destination = f[OPEN_DESTINATION],
		.source = f[OPEN_SOURCE], .pbc = (uint8_t)f[OPEN_PBC], .awt = (uint16_t)f[OPEN_AWT],
	};
	return plain_link_event(s, (struct sonerwal_event){SONERWAL_KIND_OPEN, 0}, open);
}

static struct sonerwal_link try_receive(struct sonerwal_link s, struct input *in)
{
	uint8_t frame[64], before[64];
	size_t frame_len = number(in, 1) % 4 ? SONERWAL_OPEN_SIZE : number(in, 1) % sizeof frame;
	fill(in, frame, frame_len);
	memcpy(before, frame, frame_len);
	struct sonerwal_link_step got = sonerwal_link_receive(s, frame, frame_len);
	require(memcmp(before, frame, frame_len) == 0, "link: the frame changed");
	return judge_link(s, got, plain_receive(s, frame, frame_len));
}

void try_link(struct input *in)
{
	enum { RECEIVE = 255 };
	struct sonerwal_link s = {0};
	if (number(in, 1) % 2) {
		fill(in, &s, sizeof s);
	}
	do {
		uint8_t kind = (uint8_t)number(in, 1);
		require(sonerwal_link_status(s) == plain_link_status(s), "link: another status");
		s = kind == RECEIVE ? try_receive(s, in) : try_event(s, kind, in);
	} while (left(in));
}
