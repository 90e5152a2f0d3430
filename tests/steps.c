/*
 * START and every call of a transfer, through sonerwal.h, against a model with a queue (steps_model.h): after each call the answer,
 * every member of the state and every lent byte.
 *
 * Usage: steps [SEED]
 */
#include "check.h"
#include "steps_draw.h"
#include "steps_face.h"

#include <stdio.h>
#include <string.h>

enum { MOST_RESENDS = 255, MOST_STEPS = 150, CASES = 100000 };

/* ---- What was held against the library; a line that no case showed is a failure. */

#define BIT(answer) (1u << (answer))
#define FRAME_SAYS                                                                                               \
	(BIT(SONERWAL_REFUSED_UNFIT) | BIT(SONERWAL_REFUSED_DUE) | BIT(SONERWAL_REFUSED_SENT) | BIT(SONERWAL_REFUSED_FULL) | \
	 BIT(SONERWAL_SENT))
#define DROP_SAYS (BIT(SONERWAL_REFUSED_UNFIT) | BIT(SONERWAL_RETRY) | BIT(SONERWAL_FAIL))
#define END_SAYS (BIT(SONERWAL_REFUSED_UNFIT) | BIT(SONERWAL_END))

/* What each call can say of a transfer that keeps its rules. */
static const unsigned says[CALLS] = {
	[START] = BIT(SONERWAL_REFUSED_RULES) | BIT(SONERWAL_REFUSED_UNFIT) | BIT(SONERWAL_OK),
	[FRAME] = FRAME_SAYS,
	[ACK] = BIT(SONERWAL_REFUSED_UNFIT) | BIT(SONERWAL_OK) | BIT(SONERWAL_DRAIN) | BIT(SONERWAL_RETRY) | BIT(SONERWAL_DONE),
	[NAK] = DROP_SAYS | BIT(SONERWAL_DRAIN),
	[TIMEOUT] = DROP_SAYS,
	[LOST] = DROP_SAYS,
	[NEXUS] = END_SAYS,
	[CANCEL] = END_SAYS,
	[NEXT_FRAME] = FRAME_SAYS | BIT(SONERWAL_REFUSED_UNLISTED) | BIT(SONERWAL_REFUSED_LENGTH),
};

static void show_line(const char *call, const char *said, unsigned long times)
{
	printf("%-10s %-28s %9lu\n", call, said, times);
	check(times > 0, "no case showed: %s %s", call, said);
}

static void show(void)
{
	for (int call = 0; call < CALLS; call++) {
		for (uint8_t answer = 0; answer < ANSWERS; answer++) {
			if (says[call] & BIT(answer)) {
				show_line(step_names[call], sonerwal_answer_name(answer), steps_met[call][answer]);
			} else {
				check(steps_met[call][answer] == 0, "%s said %s", step_names[call], sonerwal_answer_name(answer));
			}
		}
	}
	show_line("next-frame", "written, pointer 0", steps_pointers[0]);
	show_line("next-frame", "written, pointer 1", steps_pointers[1]);
	show_line("next-frame", "written, below full size", steps_short);
}

/* ---- Cases */

static const struct sides before_start;

static bool started(struct sides *both, const struct request *q)
{
	*both = before_start;
	return sides_agree(both, START, q, NULL);
}

static bool repeated(struct sides *both, enum call call, uint32_t times)
{
	for (uint32_t i = 0; i < times; i++) {
		if (!sides_agree(both, call, NULL, NULL)) {
			return false;
		}
	}
	return true;
}

static bool acks_agree(const struct request *q, uint32_t frames, uint32_t acks)
{
	struct sides both;
	return started(&both, q) && repeated(&both, FRAME, frames) && repeated(&both, ACK, acks);
}

static bool turns_agree(const struct request *q, uint32_t rounds)
{
	struct sides both;
	bool good = started(&both, q);
	for (uint32_t i = 0; good && i < rounds; i++) {
		good = sides_agree(&both, FRAME, NULL, NULL) && sides_agree(&both, ACK, NULL, NULL);
	}
	return good;
}

static bool next_agrees(struct sides *both)
{
	static struct sending g;
	draw_sending(&g, queue_length(&both->t));
	return sides_agree(both, NEXT_FRAME, NULL, &g);
}

static bool nexts_agree(const struct request *q, uint32_t frames)
{
	struct sides both;
	bool good = started(&both, q);
	for (uint32_t i = 0; good && i < frames; i++) {
		good = next_agrees(&both);
	}
	return good;
}

static bool calls_agree(const struct request *q, uint32_t count)
{
	struct sides both;
	int mix = (int)noise_below(MIXES);
	bool good = started(&both, q);
	for (uint32_t i = 0; good && i < count; i++) {
		/* the last is any call, so that each is met in every place */
		enum call call = draw_call(i + 1 == count ? 0 : mix);
		struct request other = draw_any_request();
		good = call == NEXT_FRAME ? next_agrees(&both) : sides_agree(&both, call, &other, NULL);
	}
	return good;
}

static void any_cases(void)
{
	unsigned long frames = 0, acks = 0, turns = 0, nexts = 0, calls = 0;
	for (int i = 0; i < CASES; i++) {
		struct request q = draw_any_request();
		uint32_t steps = (uint32_t)noise_below(MOST_STEPS), more = (uint32_t)noise_below(MOST_STEPS);
		frames += !acks_agree(&q, steps, 0);
		acks += !acks_agree(&q, steps, more);
		turns += !turns_agree(&q, steps);
		nexts += !nexts_agree(&q, steps % 8);
		calls += !calls_agree(&q, noise_below(2) ? steps : steps % 12);
	}
	check(frames == 0, "FRAMEs: %lu of %d cases", frames, CASES);
	check(acks == 0, "FRAMEs, then ACKs: %lu of %d cases", acks, CASES);
	check(turns == 0, "FRAME and ACK by turns: %lu of %d cases", turns, CASES);
	check(nexts == 0, "next-frame: %lu of %d cases", nexts, CASES);
	check(calls == 0, "calls of any kind: %lu of %d cases", calls, CASES);
}

/* ---- Single transfers, through the calls that keep a state in place */

static struct sonerwal_transfer begun(uint32_t n, uint32_t r)
{
	struct sonerwal_transfer s = {0};
	check(sonerwal_transfer_keep(&s, sonerwal_transfer_start(s, 0, n, 4, r)) == SONERWAL_OK, "START 0 %u 4 %u is refused", (unsigned)n,
	      (unsigned)r);
	return s;
}

/* 01 EXAMPLE.6 */
static void sixteen(void)
{
	struct sonerwal_transfer s = begun(100, 0);
	for (int i = 0; i < 16; i++) {
		sonerwal_transfer_keep(&s, sonerwal_transfer_frame(s));
	}
	check(s.balance == 0 && s.unanswered == 16, "sixteen unanswered frames move the balance point");
	for (int i = 0; i < 15; i++) {
		sonerwal_transfer_keep(&s, sonerwal_transfer_ack(s));
	}
	check(s.balance == 0 && s.unanswered == 1, "fifteen of sixteen ACKs move the balance point");
	check(sonerwal_transfer_keep(&s, sonerwal_transfer_ack(s)) == SONERWAL_OK && s.balance == 64 && s.unanswered == 0,
	      "sixteen ACKs of sixteen don't move the balance point");
}

/* 01 READ.1 01 READ.11: each of R resends is had, and none more */
static void resends(void)
{
	unsigned long had = 0, ended = 0;
	for (uint32_t r = 0; r <= MOST_RESENDS; r++) {
		struct sonerwal_transfer s = begun(4, r);
		uint32_t retries = 0;
		uint8_t answer = SONERWAL_RETRY;
		while (answer == SONERWAL_RETRY) {
			sonerwal_transfer_keep(&s, sonerwal_transfer_frame(s));
			answer = sonerwal_transfer_keep(&s, sonerwal_transfer_nak(s));
			retries += answer == SONERWAL_RETRY;
		}
		had += retries == r;
		ended += answer == SONERWAL_FAIL && s.phase == SONERWAL_PHASE_FAILED && s.used == r;
	}
	check(had == MOST_RESENDS + 1, "a resend that is allowed is not had, or one that isn't is");
	check(ended == MOST_RESENDS + 1, "a transfer goes on past its resends, or fails before");
}

/* ---- What a step leaves of the stack: nothing */

static void stains(void)
{
	static const struct request other = {8, 16, 4, 2};
	static struct sending g;
	unsigned long kept = 0;
	struct model t;
	draw_sending(&g, 4);
	for (int i = 0; i < 10000; i++) {
		struct sonerwal_transfer_step step[2];
		uint8_t out[MOST_OUT];
		draw_transfer(&t);
		struct sonerwal_transfer s = queue_shown(&t);
		for (int side = 0; side < 2; side++) {
			uint8_t pattern = side ? 0xA5 : 0x5A;
			memset(&step[side], pattern, sizeof step[side]);
			stain_stack(pattern);
			step[side] = face_call(s, (enum call)(i % CALLS), &other, &g, out);
		}
		kept += member_off(&step[0].state, &step[1].state) != NULL || step[0].answer != step[1].answer;
	}
	check(kept == 0, "%lu steps hold what the stack held", kept);
}

int main(int argc, char **argv)
{
	noise_begin(argc, argv, UINT64_C(0x50C1A102));
	any_cases();
	show();
	sixteen();
	resends();
	stains();
	return check_end("steps");
}
