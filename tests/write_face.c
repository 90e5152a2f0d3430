#include "write_face.h"

#include "check.h"

#include <inttypes.h>
#include <stdio.h>
#include <string.h>

enum { REPORTS = 5 };

const char *const write_names[CALLS] = {
	[START] = "START",     [XFER] = "XFER", [ACK] = "ACK",     [NAK] = "NAK",       [TIMEOUT] = "TIMEOUT", [LOST] = "LOST",
	[GOT] = "DATA",        [NEXUS] = "NEXUS", [CANCEL] = "CANCEL", [ASK] = "ask",   [TAKE] = "take",
};

unsigned long writes_met[CALLS][ANSWERS], writes_refused[WHYS];

void uploads_begin(struct uploads *both)
{
	memset(both, 0, sizeof *both);
	noise_fill(both->ours, sizeof both->ours);
	memcpy(both->models, both->ours, sizeof both->models);
}

struct sonerwal_write_step write_face(struct sonerwal_write s, enum call call, const struct given *g, uint8_t *lent)
{
	switch (call) {
	case START: return sonerwal_write_start(s, g->request.b, g->request.n, g->request.x, g->request.r);
	case XFER: return sonerwal_write_xfer(s, g->others);
	case ACK: return sonerwal_write_ack(s);
	case NAK: return sonerwal_write_nak(s);
	case TIMEOUT: return sonerwal_write_timeout(s);
	case LOST: return sonerwal_write_lost(s);
	case GOT: return sonerwal_write_got(s, g->transfer, g->offset, g->length);
	case NEXUS: return sonerwal_write_nexus(s);
	case CANCEL: return sonerwal_write_cancel(s);
	case ASK:
		return sonerwal_write_ask(s, g->others, g->head.destination, g->head.source, g->head.tag, lent, g->lent_len);
	default:
		return sonerwal_write_take(s, g->head.destination, g->head.source, g->head.tag, g->frame, g->frame_len, lent, g->lent_len);
	}
}

#define COMPARE(member)                  \
	if (a->member != b->member) {    \
		return #member;          \
	}

const char *write_member_off(const struct sonerwal_write *a, const struct sonerwal_write *b)
{
	COMPARE(tags)
	COMPARE(offset)
	COMPARE(count)
	COMPARE(burst)
	COMPARE(resends)
	COMPARE(next)
	COMPARE(used)
	COMPARE(zero4)
	COMPARE(tag)
	COMPARE(phase)
	COMPARE(zero1)
	return memcmp(a, b, sizeof *a) == 0 ? NULL : "a byte of no member";
}

static void describe(const struct sonerwal_write *s)
{
	printf("  before: %" PRIu32 " %" PRIu32 " %" PRIu32 " %" PRIu32 ", next %" PRIu32 ", tag %d, tags %" PRIX64 ", used %" PRIu32
	       ", phase %d, zeros %" PRIu32 " %d\n",
	       s->offset, s->count, s->burst, s->resends, s->next, s->tag, s->tags, s->used, s->phase, s->zero4, s->zero1);
}

static bool report(const struct sonerwal_write *before, enum call call, const char *what)
{
	static int reports;
	if (reports++ < REPORTS) {
		printf("%s: %s is off\n", write_names[call], what);
		describe(before);
	}
	return false;
}

/* A struct that a step comes back to begins as noise, so that a byte that no call wrote shows. */
static struct sonerwal_write_step step_into_noise(const struct sonerwal_write *s, enum call call, const struct given *g, uint8_t *lent)
{
	struct sonerwal_write_step step;
	memset(&step, 0xA5, sizeof step);
	step = write_face(*s, call, g, lent);
	return step;
}

/* What ASK writes into, noise before each call; and what the library was given, which it only reads. */
static uint8_t our_out[MOST_FRAME], model_out[MOST_FRAME];
static struct given lent;

static void prepare(const struct given *g)
{
	noise_fill(our_out, sizeof our_out);
	memcpy(model_out, our_out, sizeof model_out);
	memcpy(&lent, g, sizeof lent);
}

static bool has_bytes(enum call call)
{
	return call == ASK || call == TAKE;
}

static void count(enum call call, uint8_t answer)
{
	writes_met[call][answer % ANSWERS]++;
	if (answer >= SONERWAL_REFUSED_LENGTH && answer <= SONERWAL_REFUSED_FULL) {
		writes_refused[upload_why]++;
	}
}

bool uploads_agree(struct uploads *both, enum call call, const struct given *g)
{
	struct sonerwal_write before = both->s;
	if (has_bytes(call)) {
		prepare(g);
	}
	struct sonerwal_write_step step = step_into_noise(&before, call, has_bytes(call) ? &lent : g, call == TAKE ? both->ours : our_out);
	uint8_t answer = upload_call(&both->u, call, g, call == TAKE ? both->models : model_out);
	struct sonerwal_write shown = upload_shown(&both->u);
	both->s = step.state;
	both->said = answer;
	if (step.answer != answer) {
		return report(&before, call, "the answer");
	}
	const char *off = write_member_off(&step.state, &shown);
	if (off) {
		return report(&before, call, off);
	}
	if (has_bytes(call) && (memcmp(our_out, model_out, sizeof our_out) != 0 || memcmp(&lent, g, sizeof lent) != 0)) {
		return report(&before, call, "a byte of a frame");
	}
	if (memcmp(both->ours, both->models, sizeof both->ours) != 0) {
		return report(&before, call, "a byte of the store");
	}
	count(call, answer);
	return true;
}

/* What a call says of its arguments, before it looks at the state: what it says of a write before START, if that is 1 or 2. */
static uint8_t said_before_3(enum call call, const struct given *g)
{
	static struct upload none;
	uint8_t said = call == START ? SONERWAL_REFUSED_RULES : upload_call(&none, call, g, NULL);
	return said == SONERWAL_REFUSED_LENGTH || said == SONERWAL_REFUSED_UNLISTED ? said : SONERWAL_REFUSED_RULES;
}

bool write_refused(const struct sonerwal_write *s, enum call call, const struct given *g)
{
	static uint8_t store[MOST_STORE], store_before[MOST_STORE];
	prepare(g);
	struct sonerwal_write_step step = step_into_noise(s, call, &lent, call == TAKE ? store : our_out);
	if (step.answer != said_before_3(call, g)) {
		return report(s, call, "the answer");
	}
	const char *off = write_member_off(&step.state, s);
	if (off) {
		return report(s, call, off);
	}
	if (memcmp(our_out, model_out, sizeof our_out) != 0 || memcmp(&lent, g, sizeof lent) != 0 ||
	    memcmp(store, store_before, sizeof store) != 0) {
		return report(s, call, "a lent byte");
	}
	writes_met[call][step.answer % ANSWERS]++;
	return true;
}
