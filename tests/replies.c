/*
 * The calls of a reply, through sonerwal.h, against a model that keeps what became of each RESPONSE: every reply that calls can leave and
 * all that lie around it, by every call; frames byte for byte.
 *
 * Usage: replies [SEED]
 */
#include "check.h"
#include "plain_write.h"
#include "sonerwal.h"

#include <stdio.h>
#include <string.h>

enum { MOST_RESENDS = 255, MOST_BODY = 1008, MOST_OUT = 48 + MOST_BODY + 8, ANSWERS = 32, HISTORIES = 20000, RESPONSES = 200000 };

enum call { START, ACK, NAK, TIMEOUT, LOST, NEXUS, CANCEL, RESPOND, CALLS };

static const char *const names[CALLS] = {
	[START] = "START", [ACK] = "ACK",     [NAK] = "NAK",       [TIMEOUT] = "TIMEOUT",
	[LOST] = "LOST",   [NEXUS] = "NEXUS", [CANCEL] = "CANCEL", [RESPOND] = "respond",
};

/* ---- The model: what was sent since START */

enum fate { DUE, FAILED };

struct model {
	uint32_t resends;
	bool running;
	uint8_t finished; /* the answer that finished it, 0 before */
	unsigned sent;
	enum fate fate[MOST_RESENDS + 1];
};

/* What respond is given: the fields of a RESPONSE, of which the model sets the retransmit bit, and the data. */
struct response {
	uint64_t fields[RESPONSE_FIELDS];
	size_t out_len;
	uint8_t body[MOST_BODY];
};

static bool is_due(const struct model *m)
{
	return m->running && m->sent > 0 && m->fate[m->sent - 1] == DUE;
}

static uint8_t finish(struct model *m, uint8_t word)
{
	m->running = false;
	m->finished = word;
	return word;
}

static uint8_t start(struct model *m, uint32_t resends)
{
	if (resends > MOST_RESENDS) {
		return SONERWAL_REFUSED_RULES;
	}
	if (m->running) {
		return SONERWAL_REFUSED_UNFIT;
	}
	*m = (struct model){.resends = resends, .running = true};
	return SONERWAL_OK;
}

static uint8_t miss(struct model *m)
{
	if (!is_due(m)) {
		return SONERWAL_REFUSED_UNFIT;
	}
	m->fate[m->sent - 1] = FAILED;
	return m->sent > m->resends ? finish(m, SONERWAL_FAIL) : SONERWAL_RETRY;
}

/* 02 c.3: refusal 1 or 2, or 0 and the frame */
static uint8_t put_response(const struct response *r, bool retransmit, uint8_t *out)
{
	uint64_t fields[RESPONSE_FIELDS];
	memcpy(fields, r->fields, sizeof fields);
	fields[RESPONSE_RETRANSMIT] = retransmit;
	return plain_answer(plain_response_write(fields, r->body, out, r->out_len));
}

/* What respond says of what it is given, before it looks at the state. */
static uint8_t response_refusal(const struct response *r)
{
	static uint8_t out[MOST_OUT];
	return put_response(r, false, out);
}

/* The retransmit bit is one exactly if the one before failed. */
static uint8_t respond(struct model *m, const struct response *r, uint8_t *out)
{
	uint8_t refusal = response_refusal(r);
	if (refusal != SONERWAL_OK) {
		return refusal;
	}
	if (!m->running || is_due(m)) {
		return SONERWAL_REFUSED_UNFIT;
	}
	put_response(r, m->sent > 0, out);
	m->fate[m->sent++] = DUE;
	return SONERWAL_SENT;
}

static uint8_t model_call(struct model *m, enum call call, uint32_t resends, const struct response *r, uint8_t *out)
{
	switch (call) {
	case START: return start(m, resends);
	case ACK: return is_due(m) ? finish(m, SONERWAL_DONE) : SONERWAL_REFUSED_UNFIT;
	case NAK:
	case TIMEOUT:
	case LOST: return miss(m);
	case NEXUS:
	case CANCEL: return m->running ? finish(m, SONERWAL_END) : SONERWAL_REFUSED_UNFIT;
	default: return respond(m, r, out);
	}
}

static uint8_t phase_of(const struct model *m)
{
	switch (m->finished) {
	case SONERWAL_DONE: return SONERWAL_REPLY_DONE;
	case SONERWAL_FAIL: return SONERWAL_REPLY_FAILED;
	case SONERWAL_END: return SONERWAL_REPLY_ENDED;
	default: return !m->running ? SONERWAL_REPLY_NEW : is_due(m) ? SONERWAL_REPLY_WAIT : SONERWAL_REPLY_ASK;
	}
}

static struct sonerwal_reply shown(const struct model *m)
{
	uint32_t failed = 0;
	for (unsigned i = 0; i < m->sent; i++) {
		failed += m->fate[i] == FAILED;
	}
	return (struct sonerwal_reply){m->resends, failed < m->resends ? failed : m->resends, 0, 0, phase_of(m)};
}

/* ---- Both sides */

static unsigned long met[CALLS][ANSWERS];

static struct sonerwal_reply_step face(struct sonerwal_reply s, enum call call, uint32_t resends, const struct response *r, uint8_t *out)
{
	switch (call) {
	case START: return sonerwal_reply_start(s, resends);
	case ACK: return sonerwal_reply_ack(s);
	case NAK: return sonerwal_reply_nak(s);
	case TIMEOUT: return sonerwal_reply_timeout(s);
	case LOST: return sonerwal_reply_lost(s);
	case NEXUS: return sonerwal_reply_nexus(s);
	case CANCEL: return sonerwal_reply_cancel(s);
	default:
		return sonerwal_reply_respond(s, (uint32_t)r->fields[RESPONSE_HASHED_DESTINATION], (uint32_t)r->fields[RESPONSE_HASHED_SOURCE],
		                              (uint16_t)r->fields[RESPONSE_TAG], (uint8_t)r->fields[RESPONSE_PRESENT],
		                              (uint8_t)r->fields[RESPONSE_STATUS], r->body, r->fields[RESPONSE_LENGTH], out, r->out_len);
	}
}

/* Whether a step has this answer, this state and these bytes; m is NULL for a reply that no calls leave, which is 3 or what comes before. */
static bool agrees(struct sonerwal_reply *s, struct model *m, enum call call, uint32_t resends, const struct response *r)
{
	static uint8_t ours[MOST_OUT], models[MOST_OUT];
	struct sonerwal_reply before = *s, after;
	struct response lent;
	uint8_t answer;
	if (call == RESPOND) {
		noise_fill(ours, sizeof ours);
		memcpy(models, ours, sizeof ours);
		memcpy(&lent, r, sizeof lent);
	}
	struct sonerwal_reply_step step;
	memset(&step, 0xA5, sizeof step);
	step = face(*s, call, resends, r, ours);
	if (m) {
		answer = model_call(m, call, resends, r, models);
		after = shown(m);
	} else {
		uint8_t refusal = call == RESPOND ? response_refusal(r) : SONERWAL_OK;
		answer = refusal != SONERWAL_OK ? refusal : SONERWAL_REFUSED_RULES;
		after = before;
	}
	*s = step.state;
	met[call][answer % ANSWERS]++;
	return step.answer == answer && memcmp(&step.state, &after, sizeof after) == 0 &&
	       (call != RESPOND || (memcmp(ours, models, sizeof ours) == 0 && memcmp(&lent, r, sizeof lent) == 0));
}

static size_t draw_length(uint64_t present)
{
	static const size_t right[] = {0, 4, 18, 1000};
	if (noise_below(6) == 0) {
		return noise_below(2) ? noise_below(MOST_BODY) : 1000 + noise_below(3);
	}
	return present == 2 ? 1 + noise_below(1000) : right[present % 4];
}

static void draw(struct response *r)
{
	uint64_t present = noise_below(8) ? noise_below(3) : noise_below(256);
	r->fields[RESPONSE_HASHED_DESTINATION] = noise_below(UINT64_C(1) << (noise_below(8) ? 24 : 32));
	r->fields[RESPONSE_HASHED_SOURCE] = noise_below(UINT64_C(1) << (noise_below(8) ? 24 : 32));
	r->fields[RESPONSE_TAG] = noise_below(65536);
	r->fields[RESPONSE_PRESENT] = present;
	r->fields[RESPONSE_STATUS] = noise_below(2) ? 0 : noise_below(256);
	r->fields[RESPONSE_LENGTH] = draw_length(present);
	r->out_len = 48 + r->fields[RESPONSE_LENGTH] + noise_below(8);
	noise_fill(r->body, sizeof r->body);
}

/* ---- Cases */

/* Every reply, up to numbers just past their range, by every call: exactly those that calls leave are taken. */
static struct model left[MOST_RESENDS + 2][SONERWAL_REPLY_ENDED + 2]; /* by retries used and phase, for one count of resends */
static bool is_left[MOST_RESENDS + 2][SONERWAL_REPLY_ENDED + 2];

static void leave(const struct model *m)
{
	struct sonerwal_reply s = shown(m);
	left[s.used][s.phase] = *m;
	is_left[s.used][s.phase] = true;
}

static void leave_by(const struct model *m, enum call call)
{
	struct model next = *m;
	model_call(&next, call, 0, NULL, NULL);
	leave(&next);
}

static void leave_all(uint32_t resends)
{
	static const struct response none = {.out_len = 48};
	uint8_t out[48];
	struct model m = {0};
	memset(is_left, 0, sizeof is_left);
	if (resends == 0) {
		leave(&m);
	}
	if (start(&m, resends) != SONERWAL_OK) {
		return;
	}
	while (m.running) {
		leave(&m);
		leave_by(&m, CANCEL);
		respond(&m, &none, out);
		leave(&m);
		leave_by(&m, ACK);
		miss(&m);
	}
	leave(&m);
}

static void every_reply(void)
{
	static struct response r;
	unsigned long off = 0, taken = 0, refused = 0;
	for (uint32_t resends = 0; resends <= MOST_RESENDS + 1; resends++) {
		leave_all(resends);
		draw(&r);
		for (uint32_t used = 0; used <= MOST_RESENDS + 1; used++) {
			for (uint8_t phase = 0; phase <= SONERWAL_REPLY_ENDED + 1; phase++) {
				for (int call = 0; call < CALLS; call++) {
					struct sonerwal_reply s = {resends, used, 0, 0, phase};
					struct model m = left[used][phase];
					bool known = is_left[used][phase];
					taken += known;
					refused += !known;
					off += !agrees(&s, known ? &m : NULL, (enum call)call, (uint32_t)noise_below(300), &r);
				}
			}
		}
	}
	printf("%lu calls on replies that calls leave, %lu on others\n", taken, refused);
	check(off == 0, "every reply: %lu calls", off);
}

/* The zero members, numbers far out of range, and noise. */
static void noises(void)
{
	static struct response r;
	unsigned long off = 0;
	for (long i = 0; i < RESPONSES; i++) {
		struct sonerwal_reply s = {(uint32_t)noise_below(300), 0, 0, 0, (uint8_t)noise_below(6)};
		switch (noise_below(4)) {
		case 0: s.zero1 = (uint8_t)(1 + noise_below(255)); break;
		case 1: s.zero2 = (uint16_t)(1 + noise_below(65535)); break;
		case 2: s.phase = (uint8_t)(6 + noise_below(250)); break;
		default: s.resends = (uint32_t)(256 + noise_below(UINT32_MAX - 256)); break;
		}
		draw(&r);
		off += !agrees(&s, NULL, (enum call)noise_below(CALLS), (uint32_t)noise_below(300), &r);
	}
	check(off == 0, "off the rules: %lu of %d", off, RESPONSES);
}

static void histories(void)
{
	static struct response r;
	unsigned long off = 0;
	for (int i = 0; i < HISTORIES; i++) {
		struct sonerwal_reply s = {0};
		struct model m = {0};
		uint32_t resends = (uint32_t)noise_below(noise_below(2) ? 3 : 256);
		bool good = agrees(&s, &m, START, resends, &r);
		for (uint64_t calls = noise_below(40); good && calls > 0; calls--) {
			draw(&r);
			good = agrees(&s, &m, noise_below(2) ? RESPOND : (enum call)noise_below(CALLS), (uint32_t)noise_below(300), &r);
		}
		off += !good;
	}
	check(off == 0, "histories: %lu of %d", off, HISTORIES);
}

/* 02 c.3: a resend's bytes are the first's but for byte 10 */
static void resends(void)
{
	static const uint8_t sense[18] = {0x70, 0, 5};
	uint8_t first[68], again[68];
	struct sonerwal_reply s = {0};
	sonerwal_reply_keep(&s, sonerwal_reply_start(s, 1));
	sonerwal_reply_keep(&s, sonerwal_reply_respond(s, 0x123456, 0xABCDEF, 7, 2, 2, sense, sizeof sense, first, sizeof first));
	check(sonerwal_reply_keep(&s, sonerwal_reply_timeout(s)) == SONERWAL_RETRY, "a lost RESPONSE isn't sent again");
	sonerwal_reply_keep(&s, sonerwal_reply_respond(s, 0x123456, 0xABCDEF, 7, 2, 2, sense, sizeof sense, again, sizeof again));
	check(first[10] == 0 && again[10] == 2, "the retransmit bits are %d and %d", first[10], again[10]);
	again[10] = 0;
	check(memcmp(first, again, sizeof first) == 0, "a resend has other bytes");
	check(sonerwal_reply_keep(&s, sonerwal_reply_ack(s)) == SONERWAL_DONE, "a RESPONSE with its ACK isn't delivered");
}

/* A call with every cause, from which one after the other is taken away. */
static void responds_in_order(void)
{
	static const uint8_t body[4] = {1, 2, 3, 4};
	uint8_t out[52];
	struct sonerwal_reply s = {0}, malformed = {0, 0, 0, 1, SONERWAL_REPLY_ASK};
	check(sonerwal_reply_respond(malformed, 0x1000000, 0, 1, 1, 1, body, 3, out, 52).answer == SONERWAL_REFUSED_LENGTH, "the data's length");
	check(sonerwal_reply_respond(malformed, 0x1000000, 0, 1, 1, 1, body, 4, out, 51).answer == SONERWAL_REFUSED_LENGTH, "the output's");
	check(sonerwal_reply_respond(malformed, 0x1000000, 0, 1, 1, 0, body, 4, out, 52).answer == SONERWAL_REFUSED_UNLISTED, "the address");
	check(sonerwal_reply_respond(malformed, 0, 0, 1, 1, 1, body, 4, out, 52).answer == SONERWAL_REFUSED_UNLISTED, "the status");
	check(sonerwal_reply_respond(malformed, 0, 0, 1, 3, 0, body, 4, out, 52).answer == SONERWAL_REFUSED_UNLISTED, "the kind");
	check(sonerwal_reply_respond(malformed, 0, 0, 1, 1, 0, body, 4, out, 52).answer == SONERWAL_REFUSED_RULES, "the rules");
	check(sonerwal_reply_respond(s, 0, 0, 1, 1, 0, body, 4, out, 52).answer == SONERWAL_REFUSED_UNFIT, "before START");
}

#define BIT(answer) (1u << (answer))
#define MISS_SAYS (BIT(SONERWAL_REFUSED_RULES) | BIT(SONERWAL_REFUSED_UNFIT) | BIT(SONERWAL_RETRY) | BIT(SONERWAL_FAIL))
#define END_SAYS (BIT(SONERWAL_REFUSED_RULES) | BIT(SONERWAL_REFUSED_UNFIT) | BIT(SONERWAL_END))

static const unsigned says[CALLS] = {
	[START] = BIT(SONERWAL_REFUSED_RULES) | BIT(SONERWAL_REFUSED_UNFIT) | BIT(SONERWAL_OK),
	[ACK] = BIT(SONERWAL_REFUSED_RULES) | BIT(SONERWAL_REFUSED_UNFIT) | BIT(SONERWAL_DONE),
	[NAK] = MISS_SAYS,
	[TIMEOUT] = MISS_SAYS,
	[LOST] = MISS_SAYS,
	[NEXUS] = END_SAYS,
	[CANCEL] = END_SAYS,
	[RESPOND] = BIT(SONERWAL_REFUSED_LENGTH) | BIT(SONERWAL_REFUSED_UNLISTED) | BIT(SONERWAL_REFUSED_RULES) | BIT(SONERWAL_REFUSED_UNFIT) |
	            BIT(SONERWAL_SENT),
};

static void show(void)
{
	for (int call = 0; call < CALLS; call++) {
		for (uint8_t answer = 0; answer < ANSWERS; answer++) {
			if (says[call] & BIT(answer)) {
				printf("%-10s %-28s %9lu\n", names[call], sonerwal_answer_name(answer), met[call][answer]);
			}
			check((met[call][answer] > 0) == (says[call] >> answer & 1), "%s said %s %lu times", names[call],
			      sonerwal_answer_name(answer), met[call][answer]);
		}
	}
}

int main(int argc, char **argv)
{
	noise_begin(argc, argv, UINT64_C(0x50C1A10F));
	every_reply();
	noises();
	histories();
	show();
	resends();
	responds_in_order();
	return check_end("replies");
}
