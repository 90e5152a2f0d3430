/*
 * A write or a reply of any bytes, and calls on it with any arguments, as long as the input has bytes. The plain C of bench/ makes the same
 * call on the same state: answer, state and every lent byte must be the same, and a refusal leaves all as it was. Both go on with what
 * came back, so that a few bytes lead far.
 */
#include "../../bench/plain_writes.h"
#include "input.h"

#include <string.h>

enum { STORE = 512, HOST = 0x123456, TARGET = 0xABCDEF, COMMAND = 0x55AA };

static int left(const struct input *in)
{
	return in->at < in->end;
}

static int is_refusal(uint8_t answer)
{
	return answer >= SONERWAL_REFUSED_LENGTH && answer <= SONERWAL_REFUSED_FULL;
}

/* What a call is lent, in a copy for each side, and as it was before. */
static struct lent {
	uint8_t frame[ROOM], store[STORE], body[ROOM];
} ours, plain, before;

static void lend(void)
{
	memcpy(&plain, &ours, sizeof ours);
	memcpy(&before, &ours, sizeof ours);
}

static void judge_lent(uint8_t answer, const char *what)
{
	require(memcmp(&ours, &plain, sizeof ours) == 0, what);
	require(!is_refusal(answer) || memcmp(&ours, &before, sizeof ours) == 0, what);
}

/* The right one, unless the input says otherwise: else hardly a call would be taken. */
static uint32_t mostly(struct input *in, uint32_t right, unsigned bytes)
{
	return number(in, 1) % 8 == 7 ? (uint32_t)number(in, bytes) : right;
}

/* ---- A write */

typedef struct sonerwal_write_step call_of(struct sonerwal_write s);

static call_of *const calls[][2] = {
	{sonerwal_write_ack, plain_write_ack},         {sonerwal_write_nak, plain_write_nak},
	{sonerwal_write_timeout, plain_write_timeout}, {sonerwal_write_lost, plain_write_lost},
	{sonerwal_write_nexus, plain_write_nexus},     {sonerwal_write_cancel, plain_write_cancel},
};

enum { CALLS = sizeof calls / sizeof *calls, START = CALLS, XFER, GOT, ASK, TAKE, ALL };

static struct sonerwal_write judge(struct sonerwal_write s, struct sonerwal_write_step got, struct sonerwal_write_step want)
{
	require(got.answer == want.answer, "write: another answer");
	require(memcmp(&got.state, &want.state, sizeof got.state) == 0, "write: another state");
	require(!is_refusal(got.answer) || memcmp(&got.state, &s, sizeof s) == 0, "write: a refusal changed the state");
	return got.state;
}

static struct sonerwal_write try_start(struct sonerwal_write s, struct input *in)
{
	uint32_t b = (uint32_t)number(in, 4), n = (uint32_t)number(in, 4), x = (uint32_t)number(in, 4), r = (uint32_t)number(in, 1);
	return judge(s, sonerwal_write_start(s, b, n, x, r), plain_write_start(s, b, n, x, r));
}

static struct sonerwal_write try_got(struct sonerwal_write s, struct input *in)
{
	uint16_t transfer = (uint16_t)mostly(in, s.tag, 2);
	uint32_t offset = mostly(in, s.next, 4), length = (uint32_t)number(in, 2);
	return judge(s, sonerwal_write_got(s, transfer, offset, length), plain_write_got(s, transfer, offset, length));
}

static struct sonerwal_write try_ask(struct sonerwal_write s, struct input *in)
{
	uint64_t others = number(in, 8);
	uint32_t to = mostly(in, HOST, 4), from = mostly(in, TARGET, 4), len = mostly(in, 36, 1);
	memset(&ours, NOISE, sizeof ours);
	lend();
	struct sonerwal_write_step got = sonerwal_write_ask(s, others, to, from, COMMAND, ours.frame, len);
	struct sonerwal_write_step want = plain_write_ask(s, others, to, from, COMMAND, plain.frame, len);
	judge_lent(got.answer, "ask: another byte");
	return judge(s, got, want);
}

static void put(uint8_t *at, size_t width, uint32_t n)
{
	for (size_t i = width; i-- > 0; n /= 256) {
		at[i] = (uint8_t)n;
	}
}

/* A frame of the host, with one of its bytes off where the input says so; gives its length. */
static size_t make_frame(uint16_t transfer, uint32_t offset, uint32_t length, uint16_t off)
{
	uint32_t fill = (4 - length % 4) % 4;
	size_t frame_len = 24 + length + fill;
	memset(ours.frame, 0, sizeof ours.frame);
	memset(ours.frame + 24, 0xC3, length);
	put(ours.frame, 1, 1);
	put(ours.frame + 1, 3, TARGET);
	put(ours.frame + 5, 3, HOST);
	put(ours.frame + 11, 1, fill);
	put(ours.frame + 16, 2, COMMAND);
	put(ours.frame + 18, 2, transfer);
	put(ours.frame + 20, 4, offset);
	if (off % 4 == 3) {
		ours.frame[off / 32 % (frame_len + 8)] ^= (uint8_t)(1u << off / 4 % 8);
	}
	return off % 8 == 4 ? frame_len + off / 8 % 8 : frame_len;
}

static struct sonerwal_write try_take(struct sonerwal_write s, struct input *in)
{
	uint16_t transfer = (uint16_t)mostly(in, s.tag, 2), off = (uint16_t)number(in, 2);
	uint32_t offset = mostly(in, s.next, 4), length = (uint32_t)number(in, 2) % 1040;
	uint32_t to = mostly(in, HOST, 4), from = mostly(in, TARGET, 4);
	size_t store_len = mostly(in, s.count < STORE ? s.count : STORE, 2) % (STORE + 1);
	memset(&ours, NOISE, sizeof ours);
	size_t frame_len = make_frame(transfer, offset, length, off);
	lend();
	struct sonerwal_write_step got = sonerwal_write_take(s, to, from, COMMAND, ours.frame, frame_len, ours.store, store_len);
	struct sonerwal_write_step want = plain_write_take(s, to, from, COMMAND, plain.frame, frame_len, plain.store, store_len);
	judge_lent(got.answer, "take: another byte");
	return judge(s, got, want);
}

void try_writes(struct input *in)
{
	struct sonerwal_write s = {0};
	if (number(in, 1) % 2) {
		fill(in, &s, sizeof s);
	}
	do {
		uint64_t call = number(in, 1) % ALL;
		switch (call) {
		case START: s = try_start(s, in); break;
		case XFER: {
			uint64_t others = number(in, 8);
			s = judge(s, sonerwal_write_xfer(s, others), plain_write_xfer(s, others));
			break;
		}
		case GOT: s = try_got(s, in); break;
		case ASK: s = try_ask(s, in); break;
		case TAKE: s = try_take(s, in); break;
		default: s = judge(s, calls[call][0](s), calls[call][1](s)); break;
		}
	} while (left(in));
}

/* ---- A reply */

typedef struct sonerwal_reply_step reply_of(struct sonerwal_reply s);

static reply_of *const replies[][2] = {
	{sonerwal_reply_ack, plain_reply_ack},         {sonerwal_reply_nak, plain_reply_nak},
	{sonerwal_reply_timeout, plain_reply_timeout}, {sonerwal_reply_lost, plain_reply_lost},
	{sonerwal_reply_nexus, plain_reply_nexus},     {sonerwal_reply_cancel, plain_reply_cancel},
};

enum { REPLIES = sizeof replies / sizeof *replies };

static struct sonerwal_reply judge_reply(struct sonerwal_reply s, struct sonerwal_reply_step got, struct sonerwal_reply_step want)
{
	require(got.answer == want.answer, "reply: another answer");
	require(memcmp(&got.state, &want.state, sizeof got.state) == 0, "reply: another state");
	require(!is_refusal(got.answer) || memcmp(&got.state, &s, sizeof s) == 0, "reply: a refusal changed the state");
	return got.state;
}

static struct sonerwal_reply try_respond(struct sonerwal_reply s, struct input *in)
{
	static const size_t right[] = {0, 4, 18};
	uint32_t to = mostly(in, HOST, 4), from = mostly(in, TARGET, 4);
	uint8_t present = (uint8_t)(number(in, 1) % 4), status = (uint8_t)mostly(in, 0, 1);
	size_t body_len = mostly(in, (uint32_t)right[present % 3], 2) % 1010;
	size_t frame_len = mostly(in, (uint32_t)(48 + (body_len + 3) / 4 * 4), 2) % ROOM;
	memset(&ours, NOISE, sizeof ours);
	lend();
	struct sonerwal_reply_step got =
		sonerwal_reply_respond(s, to, from, COMMAND, present, status, ours.body, body_len, ours.frame, frame_len);
	struct sonerwal_reply_step want =
		plain_reply_respond(s, to, from, COMMAND, present, status, plain.body, body_len, plain.frame, frame_len);
	judge_lent(got.answer, "respond: another byte");
	return judge_reply(s, got, want);
}

void try_replies(struct input *in)
{
	struct sonerwal_reply s = {0};
	if (number(in, 1) % 2) {
		fill(in, &s, sizeof s);
	}
	do {
		uint64_t call = number(in, 1) % (REPLIES + 2);
		if (call == REPLIES) {
			uint32_t resends = (uint32_t)number(in, 2);
			s = judge_reply(s, sonerwal_reply_start(s, resends), plain_reply_start(s, resends));
		} else if (call == REPLIES + 1) {
			s = try_respond(s, in);
		} else {
			s = judge_reply(s, replies[call][0](s), replies[call][1](s));
		}
	} while (left(in));
}
