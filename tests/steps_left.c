#include "steps_left.h"

#include <string.h>

size_t left_place(const struct left *left, const struct sonerwal_transfer *s)
{
	size_t i = 0;
	while (i < left->count) {
		struct sonerwal_transfer shown = queue_shown(&left->of[i]);
		if (memcmp(&shown, s, sizeof shown) == 0) {
			break;
		}
		i++;
	}
	return i;
}

static bool leave(struct left *left, const struct model *t)
{
	struct sonerwal_transfer shown = queue_shown(t);
	size_t at = left_place(left, &shown);
	if (at == MOST_LEFT) {
		return false;
	}
	if (at == left->count) {
		left->of[left->count++] = *t;
	}
	return memcmp(left->of[at].ends, t->ends, t->waiting * sizeof *t->ends) == 0;
}

/* START only begins another: what it leaves is a request's first transfer. */
bool leave_all(struct left *left, const struct request *q)
{
	struct model first = {.running = false};
	queue_call(&first, START, q, NULL, NULL);
	left->count = 0;
	bool good = leave(left, &first);
	for (size_t i = 0; i < left->count; i++) {
		for (int call = FRAME; call <= CANCEL; call++) {
			struct model t = left->of[i];
			queue_call(&t, (enum call)call, NULL, NULL, NULL);
			good = leave(left, &t) && good;
		}
	}
	return good;
}

static void each_flag(struct sonerwal_transfer *s, void (*try)(const struct sonerwal_transfer *s))
{
	for (s->phase = 0; s->phase <= SONERWAL_PHASE_ENDED + 1; s->phase++) {
		for (s->sent = 0; s->sent <= 2; s->sent++) {
			for (s->zero2 = 0; s->zero2 <= 1; s->zero2++) {
				try(s);
			}
		}
	}
}

void each_around(const struct request *q, void (*try)(const struct sonerwal_transfer *s))
{
	uint32_t end = q->b + q->n, frames = (q->n + q->m - 1) / q->m;
	struct sonerwal_transfer s = {.offset = q->b, .count = q->n, .size = q->m, .resends = q->r};
	for (s.read = q->b - 1; s.read != end + 2; s.read++) {
		for (s.balance = q->b - 1; s.balance != end + 2; s.balance++) {
			for (s.unanswered = 0; s.unanswered <= frames + 1; s.unanswered++) {
				for (s.used = 0; s.used <= q->r + 1; s.used++) {
					each_flag(&s, try);
				}
			}
		}
	}
}

void each_small(void (*try)(const struct request *q))
{
	static const uint32_t counts[] = {1, 4, 5, 9, 12};
	for (size_t i = 0; i < sizeof counts / sizeof *counts; i++) {
		for (uint32_t r = 0; r <= 2; r++) {
			struct request low = {0, counts[i], 4, r}, high = {UINT32_MAX - counts[i], counts[i], 8, r};
			try(&low);
			try(&high);
		}
	}
}
