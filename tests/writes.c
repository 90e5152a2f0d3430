/*
 * START and every call of a write, through sonerwal.h, against a model with a list of XFER_RDYs and a map of bytes (write_model.h): after
 * each call the answer, every member of the state, every byte of the frame and every byte of the store.
 *
 * Usage: writes [SEED]
 */
#include "check.h"
#include "write_draw.h"
#include "write_face.h"

#include <stdio.h>
#include <string.h>

enum { MOST_RETRIES = 63, MOST_STEPS = 120, CASES = 60000 };

/* ---- What was held against the library; a line that no case showed is a failure. */

#define BIT(answer) (1u << (answer))
#define XFER_SAYS (BIT(SONERWAL_REFUSED_UNFIT) | BIT(SONERWAL_REFUSED_FULL) | BIT(SONERWAL_SENT))
#define MISS_SAYS (BIT(SONERWAL_REFUSED_UNFIT) | BIT(SONERWAL_RETRY) | BIT(SONERWAL_FAIL))
#define END_SAYS (BIT(SONERWAL_REFUSED_UNFIT) | BIT(SONERWAL_END))
#define GOT_SAYS                                                                                                          \
	(BIT(SONERWAL_REFUSED_UNLISTED) | BIT(SONERWAL_REFUSED_UNFIT) | BIT(SONERWAL_OK) | BIT(SONERWAL_LATE) |           \
	 BIT(SONERWAL_MORE) | BIT(SONERWAL_DONE))

/* What each call can say of a write that keeps its rules. */
static const unsigned says[CALLS] = {
	[START] = BIT(SONERWAL_REFUSED_RULES) | BIT(SONERWAL_REFUSED_UNFIT) | BIT(SONERWAL_OK),
	[XFER] = XFER_SAYS,
	[ACK] = BIT(SONERWAL_REFUSED_UNFIT) | BIT(SONERWAL_OK),
	[NAK] = MISS_SAYS,
	[TIMEOUT] = MISS_SAYS,
	[LOST] = MISS_SAYS,
	[GOT] = GOT_SAYS,
	[NEXUS] = END_SAYS,
	[CANCEL] = END_SAYS,
	[ASK] = XFER_SAYS | BIT(SONERWAL_REFUSED_LENGTH) | BIT(SONERWAL_REFUSED_UNLISTED),
	[TAKE] = GOT_SAYS | BIT(SONERWAL_REFUSED_LENGTH),
};

static void show_line(const char *what, const char *said, unsigned long times)
{
	printf("%-10s %-28s %9lu\n", what, said, times);
	check(times > 0, "no case showed: %s %s", what, said);
}

static void show(void)
{
	for (int call = 0; call < CALLS; call++) {
		for (uint8_t answer = 0; answer < ANSWERS; answer++) {
			if (says[call] & BIT(answer)) {
				show_line(write_names[call], sonerwal_answer_name(answer), writes_met[call][answer]);
			} else {
				check(writes_met[call][answer] == 0, "%s said %s", write_names[call], sonerwal_answer_name(answer));
			}
		}
	}
	for (int why = 0; why < WHYS; why++) {
		show_line("refused:", upload_causes[why].words, writes_refused[why]);
	}
}

/* ---- Histories */

static struct uploads both;

static bool calls_agree(uint32_t count)
{
	static struct given g;
	int mix = (int)noise_below(WRITE_MIXES);
	uploads_begin(&both);
	g.request = draw_write_request();
	bool good = uploads_agree(&both, START, &g);
	for (uint32_t i = 0; good && i < count && can_follow(&both.u); i++) {
		/* the last is any call, so that each is met in every place */
		enum call call = draw_write_call(i + 1 == count ? 0 : mix);
		draw_given(&g, &both.u, call);
		good = uploads_agree(&both, call, &g);
	}
	return good;
}

static void any_cases(void)
{
	unsigned long off = 0;
	for (int i = 0; i < CASES; i++) {
		off += !calls_agree((uint32_t)noise_below(noise_below(2) ? MOST_STEPS : 12));
	}
	check(off == 0, "calls of any kind: %lu of %d cases", off, CASES);
}

/* ---- Single writes, through the calls that keep a state in place */

static struct sonerwal_write begun(uint32_t b, uint32_t n, uint32_t x, uint32_t r)
{
	struct sonerwal_write s = {0};
	uint8_t answer = sonerwal_write_keep(&s, sonerwal_write_start(s, b, n, x, r));
	check(answer == SONERWAL_OK, "START %u %u %u %u is refused", (unsigned)b, (unsigned)n, (unsigned)x, (unsigned)r);
	return s;
}

/* The next XFER_RDY, with its ACK. */
static void ask(struct sonerwal_write *s, uint64_t others)
{
	sonerwal_write_keep(s, sonerwal_write_xfer(*s, others));
	sonerwal_write_keep(s, sonerwal_write_ack(*s));
}

/* One row of the request's example: the call's word, next, tag, tags and retries used. */
static void row(struct sonerwal_write *s, struct sonerwal_write_step step, uint8_t word, uint32_t next, uint16_t tag, uint64_t tags,
                uint32_t used)
{
	static unsigned line;
	uint8_t answer = sonerwal_write_keep(s, step);
	line++;
	check(answer == word, "line %u says %s", line, sonerwal_answer_name(answer));
	check(s->next == next && s->tag == tag && s->tags == tags && s->used == used, "line %u: next %u, tag %u, tags %u, used %u", line,
	      (unsigned)s->next, s->tag, (unsigned)s->tags, (unsigned)s->used);
}

/* 02 c.2: a retry has another tag; data under the first is late; the next range has another again */
static void listing(void)
{
	struct sonerwal_write s = {0};
	row(&s, sonerwal_write_start(s, 0, 12, 8, 1), SONERWAL_OK, 0, 0, 0, 0);
	row(&s, sonerwal_write_xfer(s, 0), SONERWAL_SENT, 0, 0, 1, 0);
	row(&s, sonerwal_write_nak(s), SONERWAL_RETRY, 0, 0, 1, 1);
	row(&s, sonerwal_write_xfer(s, 0), SONERWAL_SENT, 0, 1, 3, 1);
	row(&s, sonerwal_write_got(s, 0, 0, 8), SONERWAL_LATE, 0, 1, 3, 1);
	row(&s, sonerwal_write_ack(s), SONERWAL_OK, 0, 1, 3, 1);
	row(&s, sonerwal_write_got(s, 1, 0, 8), SONERWAL_MORE, 8, 1, 0, 1);
	row(&s, sonerwal_write_xfer(s, 0), SONERWAL_SENT, 8, 0, 1, 1);
	row(&s, sonerwal_write_ack(s), SONERWAL_OK, 8, 0, 1, 1);
	row(&s, sonerwal_write_got(s, 0, 8, 4), SONERWAL_DONE, 12, 0, 0, 1);
}

/* 02 c.2: all 64 tags for one range, each once, and not one retry more */
static void every_tag(void)
{
	struct sonerwal_write s = begun(0, 4, 4, MOST_RETRIES);
	for (uint32_t i = 0; i <= MOST_RETRIES; i++) {
		uint8_t sent = sonerwal_write_keep(&s, sonerwal_write_xfer(s, 0));
		check(sent == SONERWAL_SENT && s.tag == i, "XFER_RDY %u has tag %u", (unsigned)i, s.tag);
		uint8_t missed = sonerwal_write_keep(&s, i % 2 ? sonerwal_write_timeout(s) : sonerwal_write_lost(s));
		check(missed == (i < MOST_RETRIES ? SONERWAL_RETRY : SONERWAL_FAIL), "failure %u says %s", (unsigned)i, sonerwal_answer_name(missed));
	}
	check(s.tags == 0 && s.used == MOST_RETRIES && s.phase == SONERWAL_WRITE_FAILED, "a failed write holds tags");

	s = begun(0, 8, 4, MOST_RETRIES);
	for (uint32_t i = 0; i < MOST_RETRIES; i++) {
		sonerwal_write_keep(&s, sonerwal_write_xfer(s, 0));
		sonerwal_write_keep(&s, sonerwal_write_nak(s));
	}
	ask(&s, 0);
	check(s.tags == UINT64_MAX && s.tag == 63, "64 XFER_RDYs have tags %llX", (unsigned long long)s.tags);
	check(sonerwal_write_got(s, 17, 0, 4).answer == SONERWAL_LATE, "data under an earlier tag isn't late");
	check(sonerwal_write_keep(&s, sonerwal_write_got(s, 63, 0, 4)) == SONERWAL_MORE && s.tags == 0, "a full range holds tags");
	check(sonerwal_write_got(s, 63, 0, 4).answer == SONERWAL_REFUSED_UNLISTED, "data of a full range isn't refused");
}

/* 02 c.6: no free transfer tag is 10 */
static void full_house(void)
{
	struct sonerwal_write writes[SONERWAL_TRANSFER_TAGS + 1] = {{0}};
	size_t count = sizeof writes / sizeof *writes;
	for (size_t i = 0; i < count; i++) {
		writes[i] = begun(0, 8, 4, 0);
	}
	for (size_t i = 0; i + 1 < count; i++) {
		uint8_t sent = sonerwal_write_keep(&writes[i], sonerwal_write_xfer(writes[i], sonerwal_write_others(writes, count)));
		check(sent == SONERWAL_SENT && writes[i].tag == i, "write %u has tag %u", (unsigned)i, writes[i].tag);
	}
	struct sonerwal_write *last = &writes[count - 1], before = *last;
	check(sonerwal_write_keep(last, sonerwal_write_xfer(*last, sonerwal_write_others(writes, count))) == SONERWAL_REFUSED_FULL &&
	              write_member_off(last, &before) == NULL, "a 65th write has a tag");
	sonerwal_write_keep(&writes[9], sonerwal_write_ack(writes[9]));
	sonerwal_write_keep(&writes[9], sonerwal_write_got(writes[9], 9, 0, 4));
	check(sonerwal_write_xfer(writes[9], sonerwal_write_others(writes, count)).answer == SONERWAL_REFUSED_FULL,
	      "the tag of the range before is taken for the next");
	check(sonerwal_write_keep(last, sonerwal_write_xfer(*last, sonerwal_write_others(writes, count))) == SONERWAL_SENT && last->tag == 9,
	      "a tag that came free isn't taken");
}

/* 02 c.4: the least and the largest requests */
static void edges(void)
{
	struct sonerwal_write s = begun(7, 1, 4, 0);
	ask(&s, 0);
	check(sonerwal_write_keep(&s, sonerwal_write_got(s, 0, 7, 1)) == SONERWAL_DONE && s.next == 8, "a write of one byte isn't done");

	s = begun(UINT32_MAX - 5, 5, UINT32_MAX - 3, 0);
	ask(&s, 0);
	check(sonerwal_write_got(s, 0, UINT32_MAX - 5, 6).answer == SONERWAL_REFUSED_UNLISTED, "data past the last offset is taken");
	check(sonerwal_write_got(s, 0, UINT32_MAX - 1, 4).answer == SONERWAL_REFUSED_UNLISTED, "data past every offset is taken");
	check(sonerwal_write_keep(&s, sonerwal_write_got(s, 0, UINT32_MAX - 5, 5)) == SONERWAL_DONE && s.next == UINT32_MAX,
	      "a write up to the last offset isn't done");

	/* the longest request, lent near its end */
	s = (struct sonerwal_write){.tags = 4, .count = UINT32_MAX, .burst = UINT32_MAX - 3, .resends = 1, .next = UINT32_MAX - 7, .used = 1,
	                            .tag = 2, .phase = SONERWAL_WRITE_TAKE};
	check(sonerwal_write_keep(&s, sonerwal_write_got(s, 2, UINT32_MAX - 7, 4)) == SONERWAL_MORE, "the first range of the longest isn't full");
	ask(&s, 0);
	check(sonerwal_write_keep(&s, sonerwal_write_got(s, 0, UINT32_MAX - 3, 3)) == SONERWAL_DONE, "the longest request isn't done");
}

/* ---- The order of causes: a call with all of them, from which one after the other is taken away */

static void says_next(const char *call, struct sonerwal_write_step step, uint8_t answer)
{
	check(step.answer == answer, "%s says %s before %s", call, sonerwal_answer_name(step.answer), sonerwal_answer_name(answer));
}

static void asks_in_order(void)
{
	uint8_t out[XFER_RDY_BYTES];
	struct sonerwal_write s = begun(0, 8, 4, 0);
	s.zero1 = 1;
	says_next("ask", sonerwal_write_ask(s, UINT64_MAX, 0x1000000, 0, 1, out, 35), SONERWAL_REFUSED_LENGTH);
	says_next("ask", sonerwal_write_ask(s, UINT64_MAX, 0x1000000, 0, 1, out, 36), SONERWAL_REFUSED_UNLISTED);
	says_next("ask", sonerwal_write_ask(s, UINT64_MAX, 0, 0x1000000, 1, out, 36), SONERWAL_REFUSED_UNLISTED);
	says_next("ask", sonerwal_write_ask(s, UINT64_MAX, 0, 0, 1, out, 36), SONERWAL_REFUSED_RULES);
	s = (struct sonerwal_write){0};
	says_next("ask", sonerwal_write_ask(s, UINT64_MAX, 0, 0, 1, out, 36), SONERWAL_REFUSED_UNFIT);
	s = begun(0, 8, 4, 0);
	says_next("ask", sonerwal_write_ask(s, UINT64_MAX, 0, 0, 1, out, 36), SONERWAL_REFUSED_FULL);
	says_next("ask", sonerwal_write_ask(s, UINT64_MAX - 1, 0, 0, 1, out, 36), SONERWAL_SENT);
}

/* 02 c.6: an offset out of order or past the range is 2 */
static void takes_in_order(void)
{
	static const uint8_t body[8] = {1, 2, 3, 4, 5, 6, 7, 8};
	static struct given g = {.head = {0xA, 0xB, 9}};
	uint8_t store[8] = {0};
	struct sonerwal_write s = begun(0, 8, 8, 0);
	sonerwal_write_keep(&s, sonerwal_write_xfer(s, 0));
	struct sonerwal_write wait = s, malformed = s;
	malformed.zero4 = 1;
	sonerwal_write_keep(&s, sonerwal_write_ack(s));
	put_data_out(&g, 0, 4, body, sizeof body);
	g.frame[9] = 1;
	says_next("take", sonerwal_write_take(malformed, 0x1000000, 0xC, 8, g.frame, g.frame_len - 1, store, 7), SONERWAL_REFUSED_LENGTH);
	says_next("take", sonerwal_write_take(malformed, 0xA, 0xC, 8, g.frame, g.frame_len, store, 7), SONERWAL_REFUSED_UNLISTED);
	g.frame[9] = 0;
	says_next("take", sonerwal_write_take(malformed, 0x1000000, 0xC, 8, g.frame, g.frame_len, store, 7), SONERWAL_REFUSED_UNLISTED);
	says_next("take", sonerwal_write_take(malformed, 0xA, 0xC, 8, g.frame, g.frame_len, store, 7), SONERWAL_REFUSED_RULES);
	says_next("take", sonerwal_write_take(wait, 0xA, 0xC, 8, g.frame, g.frame_len, store, 7), SONERWAL_REFUSED_UNFIT);
	says_next("take", sonerwal_write_take(s, 0xA, 0xC, 9, g.frame, g.frame_len, store, 7), SONERWAL_REFUSED_UNLISTED);
	says_next("take", sonerwal_write_take(s, 0xA, 0xB, 9, g.frame, g.frame_len, store, 7), SONERWAL_REFUSED_UNLISTED);
	put_data_out(&g, 0, 0, body, sizeof body);
	says_next("take", sonerwal_write_take(s, 0xA, 0xB, 9, g.frame, g.frame_len, store, 7), SONERWAL_REFUSED_LENGTH);
	says_next("take", sonerwal_write_take(s, 0xA, 0xB, 9, g.frame, g.frame_len, store, 8), SONERWAL_DONE);
	check(memcmp(store, body, sizeof body) == 0, "the store isn't the data");
}

/* ---- What a step leaves of the stack: nothing */

static void stains(void)
{
	static struct given g;
	static struct upload u;
	static uint8_t lent[2][MOST_STORE];
	unsigned long kept = 0;
	for (int i = 0; i < 10000; i++) {
		enum call call = (enum call)(i % CALLS);
		struct sonerwal_write_step step[2];
		draw_upload(&u);
		draw_given(&g, &u, call);
		struct sonerwal_write s = upload_shown(&u);
		for (int side = 0; side < 2; side++) {
			uint8_t pattern = side ? 0xA5 : 0x5A;
			memset(&step[side], pattern, sizeof step[side]);
			stain_stack(pattern);
			step[side] = write_face(s, call, &g, lent[side]);
		}
		kept += write_member_off(&step[0].state, &step[1].state) != NULL || step[0].answer != step[1].answer;
		kept += memcmp(lent[0], lent[1], sizeof lent[0]) != 0;
	}
	check(kept == 0, "%lu steps hold what the stack held", kept);
}

int main(int argc, char **argv)
{
	noise_begin(argc, argv, UINT64_C(0x50C1A10C));
	any_cases();
	show();
	listing();
	every_tag();
	full_house();
	edges();
	asks_in_order();
	takes_in_order();
	stains();
	return check_end("writes");
}
