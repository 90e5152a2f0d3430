/*
 * Writes that C lends, with any byte in any member: 3 and every byte back, or one that some START and calls after it leave, which then
 * goes on as the model does. Exactly that: every write that a small request can come to with three transfer tags is gone through, and all
 * that lie around it; of larger ones those that are one member off, and noise.
 *
 * Usage: writes_lent [SEED]
 */
#include "check.h"
#include "write_draw.h"
#include "write_face.h"
#include "write_reach.h"

#include <stdio.h>
#include <stdlib.h>
#include <string.h>

enum { MOST_LEFT = 1500, SMALL_TAGS = 3, WALKS = 60000, NOISES = 200000 };

static unsigned long tried[2]; /* lent writes, by whether calls leave them */
static unsigned long failures;

static void judge(const struct sonerwal_write *s, const struct upload *u, enum call call)
{
	static struct uploads both;
	static struct given g;
	static const struct upload none;
	tried[u != NULL]++;
	draw_given(&g, u ? u : &none, call);
	if (u) {
		both.s = *s;
		both.u = *u;
		failures += !uploads_agree(&both, call, &g);
	} else {
		failures += !write_refused(s, call, &g);
	}
}

/* ---- Every write that calls leave of one request, with few tags */

static struct left {
	struct sonerwal_write s;
	struct upload *u;
} left[MOST_LEFT];
static struct upload models[MOST_LEFT];
static size_t left_count;

static int compare(const void *a, const void *b)
{
	return memcmp(&((const struct left *)a)->s, &((const struct left *)b)->s, sizeof(struct sonerwal_write));
}

static void leave(const struct upload *u)
{
	struct sonerwal_write shown = upload_shown(u);
	for (size_t i = 0; i < left_count; i++) {
		if (memcmp(&left[i].s, &shown, sizeof shown) == 0) {
			return;
		}
	}
	if (left_count < MOST_LEFT) {
		models[left_count] = *u;
		left[left_count] = (struct left){shown, &models[left_count]};
		left_count++;
	}
}

static void leave_by(const struct upload *from, enum call call, const struct given *g)
{
	static struct upload u;
	u = *from;
	upload_call(&u, call, g, NULL);
	leave(&u);
}

/* Data of four bytes, or of all that the range has left, comes next; a longer frame is several of four. */
static void leave_data(const struct upload *u)
{
	static struct given g;
	const struct xfer *x = upload_latest(u);
	if (x == NULL) {
		return;
	}
	uint64_t left_over = x->offset + (uint64_t)x->length - upload_next(u);
	g.transfer = x->tag;
	g.offset = (uint32_t)upload_next(u);
	g.length = left_over < 4 ? (uint32_t)left_over : 4;
	leave_by(u, GOT, &g);
}

/* START only begins another: what it leaves is a request's first write. */
static void leave_all(const struct request *q)
{
	static const struct upload none;
	static struct given g;
	left_count = 0;
	g.request = *q;
	leave_by(&none, START, &g);
	for (size_t i = 0; i < left_count; i++) {
		for (unsigned tag = 0; tag < SMALL_TAGS; tag++) {
			g.others = ~(UINT64_C(1) << tag);
			leave_by(&models[i], XFER, &g);
		}
		leave_by(&models[i], ACK, &g);
		leave_by(&models[i], LOST, &g);
		leave_by(&models[i], CANCEL, &g);
		leave_data(&models[i]);
	}
	check(left_count < MOST_LEFT, "more writes than there is room for");
	qsort(left, left_count, sizeof *left, compare);
}

/* ---- All that lie around them */

static void lend_around(const struct sonerwal_write *s)
{
	static struct upload u;
	static unsigned turn;
	struct left key = {*s, NULL};
	const struct left *found = bsearch(&key, left, left_count, sizeof *left, compare);
	if (found) {
		for (int each = 0; each < CALLS; each++) {
			judge(s, found->u, (enum call)each);
		}
	} else {
		judge(s, NULL, (enum call)(turn++ % CALLS));
	}
	failures += upload_reached(s, &u) != (found != NULL);
}

static void lend_tags(struct sonerwal_write *s)
{
	static const uint16_t each[] = {0, 1, 2, TAGS};
	for (s->phase = 0; s->phase <= SONERWAL_WRITE_ENDED + 1; s->phase++) {
		for (s->tags = 0; s->tags < 1u << SMALL_TAGS; s->tags++) {
			for (size_t i = 0; i < sizeof each / sizeof *each; i++) {
				s->tag = each[i];
				lend_around(s);
			}
		}
	}
}

static void lend_zeros(void)
{
	for (size_t i = 0; i < left_count; i++) {
		struct sonerwal_write s = left[i].s;
		s.zero4 = 1;
		judge(&s, NULL, (enum call)(i % CALLS));
		s.zero4 = 0;
		s.zero1 = 1;
		judge(&s, NULL, (enum call)(i % CALLS));
	}
}

/* The numbers that a request's writes have, and the ones beside these; below 0 they are the largest. */
static void lend_box(const struct request *q)
{
	uint32_t end = q->b + q->n;
	struct sonerwal_write s = {.offset = q->b, .count = q->n, .burst = q->x, .resends = q->r};
	leave_all(q);
	for (s.next = q->b - 1; s.next != end + 2; s.next++) {
		for (s.used = 0; s.used <= q->r + 1; s.used++) {
			lend_tags(&s);
		}
	}
	lend_zeros();
}

/* Those of small requests, at both ends of the offsets, with ranges that are full, that aren't, and that are longer than the request. */
static void boxes(void)
{
	static const uint32_t counts[] = {1, 4, 5, 12, 21};
	unsigned long all = 0;
	for (size_t i = 0; i < sizeof counts / sizeof *counts; i++) {
		for (uint32_t x = 4; x <= 12; x += 4) {
			for (uint32_t r = 0; r < SMALL_TAGS; r++) {
				struct request q = {(r + x / 4) % 2 ? UINT32_MAX - counts[i] : 0, counts[i], x, r};
				lend_box(&q);
				all += left_count;
			}
		}
	}
	printf("%lu writes that calls leave, among %lu lent\n", all, tried[0] + tried[1]);
	check(failures == 0, "%lu of these", failures);
}

/* ---- One member off */

static uint32_t other_number(uint32_t number)
{
	switch (noise_below(5)) {
	case 0: return number + 1;
	case 1: return number - 1;
	case 2: return number + 4;
	case 3: return (uint32_t)noise_below(70);
	default: return (uint32_t)noise();
	}
}

static void put_off(struct sonerwal_write *s)
{
	uint32_t *const numbers[] = {&s->offset, &s->count, &s->burst, &s->resends, &s->next, &s->used, &s->zero4};
	size_t member = noise_below(12);
	switch (member) {
	case 7: s->zero1 = (uint8_t)(1 + noise_below(255)); break;
	case 8: s->phase = (uint8_t)(noise_below(2) ? noise_below(7) : noise_below(256)); break;
	case 9: s->tag = (uint16_t)(noise_below(2) ? noise_below(TAGS) : noise_below(65536)); break;
	case 10: s->tags ^= UINT64_C(1) << noise_below(TAGS); break;
	case 11: s->tags = noise(); break;
	default: *numbers[member] = other_number(*numbers[member]);
	}
}

static void lend_any(const struct sonerwal_write *s)
{
	static struct upload u;
	if (can_reach(s)) {
		bool is_left = upload_reached(s, &u);
		if (!is_left || can_follow(&u)) {
			judge(s, is_left ? &u : NULL, draw_write_call(0));
		}
	}
}

static void walks(void)
{
	static struct upload u, again;
	failures = 0;
	for (long i = 0; i < WALKS; i++) {
		draw_upload(&u);
		struct sonerwal_write s = upload_shown(&u);
		failures += can_reach(&s) && !upload_reached(&s, &again);
		if (can_follow(&u)) {
			judge(&s, &u, draw_write_call(0));
		}
		put_off(&s);
		lend_any(&s);
	}
	check(failures == 0, "one member off: %lu of %d", failures, WALKS);
}

/* ---- Noise */

static void noises(void)
{
	struct sonerwal_write s;
	failures = 0;
	for (long i = 0; i < NOISES; i++) {
		noise_fill(&s, sizeof s);
		if (noise_below(4)) {
			struct request q = draw_write_request();
			s = (struct sonerwal_write){.offset = q.b, .count = q.n, .burst = q.x, .resends = q.r,
			                            .next = q.b + 4 * (uint32_t)noise_below(noise_below(2) ? 2 : q.n / 4 + 2),
			                            .used = (uint32_t)noise_below(4), .tag = (uint16_t)noise_below(4),
			                            .phase = (uint8_t)noise_below(7)};
			s.tags = noise_below(2) ? UINT64_C(1) << s.tag : noise_below(16);
		}
		lend_any(&s);
	}
	check(failures == 0, "noise: %lu of %d", failures, NOISES);
}

int main(int argc, char **argv)
{
	noise_begin(argc, argv, UINT64_C(0x50C1A10D));
	boxes();
	walks();
	noises();
	for (int call = 0; call < CALLS; call++) {
		printf("%-10s refused with 3 %9lu\n", write_names[call], writes_met[call][SONERWAL_REFUSED_RULES]);
		check(writes_met[call][SONERWAL_REFUSED_RULES] > 0, "%s was not refused with 3", write_names[call]);
	}
	printf("lent: %lu that calls leave, %lu that none leave\n", tried[1], tried[0]);
	return check_end("writes_lent");
}
