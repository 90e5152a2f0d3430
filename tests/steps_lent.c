/*
 * Transfers that C lends, with any byte in any member: 3 and every byte back, or one that some START and calls after it leave, which
 * then goes on as the model does. Exactly that: every transfer that a small request can come to is gone through, and all that lie
 * around it; of larger ones those that are one member off, and noise.
 *
 * Usage: steps_lent [SEED]
 */
#include "check.h"
#include "steps_draw.h"
#include "steps_face.h"
#include "steps_left.h"
#include "steps_reach.h"

#include <stdio.h>

enum { WALKS = 200000, NOISES = 500000, LONGEST = 200 };

static struct sending sent;
static const struct request other = {8, 16, 4, 2};
static unsigned long tried[2]; /* lent transfers, by whether calls leave them */
static unsigned long failures;

static void judge(const struct sonerwal_transfer *s, bool is_left, struct model *t, enum call call)
{
	tried[is_left]++;
	if (is_left) {
		struct sides both = {*s, *t};
		draw_sending(&sent, queue_length(t));
		failures += !sides_agree(&both, call, &other, &sent);
	} else {
		failures += !face_refuses(s, call, &other, &sent);
	}
}

/* ---- All that lie around the transfers that calls leave of one request */

static struct left left;

static unsigned long all_left;

static void lend_around(const struct sonerwal_transfer *s)
{
	static unsigned turn;
	struct model t;
	size_t at = left_place(&left, s);
	bool is_left = at < left.count;
	enum call call = (enum call)(turn++ % CALLS);
	if (is_left) {
		for (int each = 0; each < CALLS; each++) {
			judge(s, true, &left.of[at], (enum call)each);
		}
	} else {
		judge(s, false, NULL, call);
	}
	failures += reached(s, &t) != is_left;
}

static void lend_box(const struct request *q)
{
	check(leave_all(&left, q), "more transfers than there is room for, or two queues that one transfer shows");
	all_left += left.count;
	each_around(q, lend_around);
}

/* 01 READ.16 */
static void boxes(void)
{
	each_small(lend_box);
	printf("%lu transfers that calls leave, among %lu lent\n", all_left, tried[0] + tried[1]);
	check(failures == 0, "%lu of these", failures);
}

/* ---- One member off */

static uint32_t other_number(uint32_t number)
{
	switch (noise_below(5)) {
	case 0: return number + 1;
	case 1: return number - 1;
	case 2: return number + 4;
	case 3: return (uint32_t)noise_below(300);
	default: return (uint32_t)noise();
	}
}

static void put_off(struct sonerwal_transfer *s)
{
	uint32_t *const numbers[] = {&s->offset, &s->count, &s->size, &s->resends, &s->read, &s->balance, &s->unanswered, &s->used};
	size_t member = noise_below(11);
	switch (member) {
	case 8: s->zero2 = (uint16_t)(1 + noise_below(65535)); break;
	case 9: s->sent = (uint8_t)(noise_below(2) ? s->sent ^ 1u : noise_below(256)); break;
	case 10: s->phase = (uint8_t)(noise_below(2) ? noise_below(6) : noise_below(256)); break;
	default: *numbers[member] = other_number(*numbers[member]);
	}
}

/* The calls that lead to a transfer are tried one by one, so it may not be too long. */
static bool too_long(const struct sonerwal_transfer *s)
{
	return s->size > 0 && s->count / s->size > LONGEST;
}

static void lend_any(const struct sonerwal_transfer *s)
{
	struct model t;
	if (!too_long(s)) {
		bool is_left = reached(s, &t);
		judge(s, is_left, &t, draw_call(0));
	}
}

static void walks(void)
{
	struct model t;
	failures = 0;
	for (long i = 0; i < WALKS; i++) {
		draw_transfer(&t);
		struct sonerwal_transfer s = queue_shown(&t);
		failures += !reached(&s, &t);
		judge(&s, true, &t, draw_call(0));
		put_off(&s);
		lend_any(&s);
	}
	check(failures == 0, "one member off: %lu of %d", failures, WALKS);
}

/* The longest request of the longest frames, near its end: four million calls lead there. */
static void far(void)
{
	struct sonerwal_transfer s = {0, UINT32_MAX, 1024, 255, UINT32_MAX, UINT32_MAX - 1023 - 2048, 3, 255, 0, 1, SONERWAL_PHASE_RUN};
	struct model t;
	failures = 0;
	check(reached(&s, &t), "the far end of the longest request is not reached");
	for (int call = 0; call < CALLS; call++) {
		judge(&s, true, &t, (enum call)call);
		s.balance++;
		judge(&s, false, NULL, (enum call)call);
		s.balance--;
	}
	check(failures == 0, "at the far end of the longest request: %lu of %d", failures, 2 * CALLS);
}

/* ---- Noise */

static void noises(void)
{
	struct sonerwal_transfer s;
	failures = 0;
	for (long i = 0; i < NOISES; i++) {
		noise_fill(&s, sizeof s);
		if (noise_below(2)) {
			struct request q = draw_request();
			s = (struct sonerwal_transfer){q.b, q.n, q.m, q.r, q.b + (uint32_t)noise_below(q.n + 1u), q.b,
			                               (uint32_t)noise_below(70), (uint32_t)noise_below(4), 0,
			                               (uint8_t)noise_below(2), (uint8_t)noise_below(6)};
		}
		lend_any(&s);
	}
	check(failures == 0, "noise: %lu of %d", failures, NOISES);
}

int main(int argc, char **argv)
{
	noise_begin(argc, argv, UINT64_C(0x50C1A107));
	draw_sending(&sent, 4);
	boxes();
	walks();
	far();
	noises();
	for (int call = 0; call < CALLS; call++) {
		printf("%-10s refused with 3 %9lu\n", step_names[call], steps_met[call][SONERWAL_REFUSED_RULES]);
		check(steps_met[call][SONERWAL_REFUSED_RULES] > 0, "%s was not refused with 3", step_names[call]);
	}
	printf("lent: %lu that calls leave, %lu that none leave\n", tried[1], tried[0]);
	return check_end("steps_lent");
}
