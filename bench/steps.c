/*
 * The transfer's calls of sonerwal.h against plain C of the same signatures, in nanoseconds for one call.
 *
 * Usage: steps [--strict]        --strict: exit 1 if a ratio is above its goal
 *
 * Both sides run in one process, by turns, over the same transfers, through pointers to functions of other files, so that neither is
 * inlined; the state is handed from one call to the next. Both must have given the same answers, states and bytes, or a row says
 * nothing. What it costs to hand a state over and back is measured apart.
 */
#include "compare.h"
#include "plain_steps.h"

#include <string.h>

enum {
	TRANSFERS = 8, /* different requests, gone through in turn */
	FULL = 64,     /* frames that may be unanswered */
	MANY = 512,    /* calls of a row in which most are refused */
	OUT_SIZE = SONERWAL_DATA_SIZE_MAX
};

typedef struct sonerwal_transfer_step call_of(struct sonerwal_transfer s);

struct stepper {
	__typeof__(sonerwal_transfer_start) *start;
	call_of *frame, *ack, *nak, *timeout, *lost, *nexus, *cancel;
	__typeof__(sonerwal_transfer_next) *next;
	__typeof__(sonerwal_transfer_length) *length;
};

#define STEPPER(side)                                                                                                          \
	{                                                                                                                      \
		side##_transfer_start, side##_transfer_frame, side##_transfer_ack, side##_transfer_nak, side##_transfer_timeout, \
		side##_transfer_lost, side##_transfer_nexus, side##_transfer_cancel, side##_transfer_next, side##_transfer_length \
	}

static const struct stepper steppers[SIDES] = {[PLAIN] = STEPPER(plain), [OURS] = STEPPER(sonerwal)};

struct request {
	uint32_t b, n, m, r;
};

static struct request requests[TRANSFERS];
static uint8_t body[SONERWAL_DATA_BODY_MAX];
static uint8_t outs[SIDES][TRANSFERS][OUT_SIZE];

/* Requests with bytes left after as many frames of the size as may be unanswered, and more resends than a row takes. */
static void prepare(size_t size)
{
	memset(outs, 0, sizeof outs);
	for (size_t i = 0; i < sizeof body; i++) {
		body[i] = (uint8_t)(i * 7 + 1);
	}
	for (uint32_t i = 0; i < TRANSFERS; i++) {
		requests[i] = (struct request){4096 * i + i, (FULL + 1) * (uint32_t)size + 2, (uint32_t)size, FULL + i};
	}
}

static int same(void)
{
	return memcmp(outs[PLAIN], outs[OURS], sizeof outs[PLAIN]) == 0;
}

/* ---- One transfer of a row: a number that each of its answers and its last state went into */

struct run {
	struct sonerwal_transfer s;
	uint64_t sum;
};

static inline void keep(struct run *run, struct sonerwal_transfer_step step)
{
	run->s = step.state;
	run->sum = run->sum * 3 + step.answer;
}

static inline void start(struct run *run, const struct stepper *by, size_t i)
{
	const struct request *q = &requests[i];
	keep(run, by->start(run->s, q->b, q->n, q->m, q->r));
}

static inline void repeat(struct run *run, call_of *call, int times)
{
	for (int i = 0; i < times; i++) {
		keep(run, call(run->s));
	}
}

/* A frame and what answers it, by turns. */
static inline void alternate(struct run *run, call_of *frame, call_of *answer)
{
	for (int i = 0; i < FULL; i++) {
		keep(run, frame(run->s));
		keep(run, answer(run->s));
	}
}

static inline void frames(struct run *run, const struct stepper *by, size_t i, enum side side)
{
	(void)side;
	start(run, by, i);
	repeat(run, by->frame, FULL);
}

static inline void frames_refused(struct run *run, const struct stepper *by, size_t i, enum side side)
{
	(void)side;
	start(run, by, i);
	repeat(run, by->frame, MANY);
}

static inline void acks_refused(struct run *run, const struct stepper *by, size_t i, enum side side)
{
	(void)side;
	start(run, by, i);
	repeat(run, by->frame, 1);
	repeat(run, by->ack, MANY);
}

static inline void acks(struct run *run, const struct stepper *by, size_t i, enum side side)
{
	frames(run, by, i, side);
	repeat(run, by->ack, FULL);
}

#define TURNS(row, answer)                                                                              \
	static inline void row(struct run *run, const struct stepper *by, size_t i, enum side side)     \
	{                                                                                               \
		(void)side;                                                                             \
		start(run, by, i);                                                                      \
		alternate(run, by->frame, by->answer);                                                  \
	}

TURNS(turns, ack)
TURNS(naks, nak)
TURNS(timeouts, timeout)
TURNS(losses, lost)

/* STARTs, each behind one of the two calls that end a transfer at once. */
static inline void ends(struct run *run, const struct stepper *by, size_t i, enum side side)
{
	(void)side;
	for (int turn = 0; turn < FULL; turn++) {
		start(run, by, i);
		keep(run, turn % 2 ? by->nexus(run->s) : by->cancel(run->s));
	}
}

/* A state that no calls leave: the test of it, and the refusal. */
static inline void unruly(struct run *run, const struct stepper *by, size_t i, enum side side)
{
	frames(run, by, i, side);
	run->s.used = 1;
	run->s.unanswered++;
	repeat(run, by->frame, MANY);
}

static inline void lengths(struct run *run, const struct stepper *by, size_t i, enum side side)
{
	(void)side;
	start(run, by, i);
	for (int turn = 0; turn < MANY; turn++) {
		run->sum = run->sum * 3 + by->length(run->s);
	}
}

static inline void nexts(struct run *run, const struct stepper *by, size_t i, enum side side)
{
	start(run, by, i);
	for (int turn = 0; turn < FULL; turn++) {
		keep(run, by->next(run->s, 0x123456, 0xABCDEF, 0x55AA, body, requests[i].m, outs[side][i], OUT_SIZE));
	}
}

/* ---- Rows */

/* A loop of its own for each row, so that the row is inlined and only the measured functions are called. */
#define LOOP_OVER(row)                                                                    \
	static uint64_t many_##row(enum side side)                                        \
	{                                                                                 \
		uint64_t answers = 0;                                                     \
		for (size_t i = 0; i < TRANSFERS; i++) {                                  \
			struct run run = {.sum = 0};                                      \
			row(&run, &steppers[side], i, side);                              \
			answers = answers * 31 + run.sum + run.s.read + run.s.balance;    \
		}                                                                         \
		return answers;                                                           \
	}

LOOP_OVER(frames)
LOOP_OVER(frames_refused)
LOOP_OVER(acks)
LOOP_OVER(acks_refused)
LOOP_OVER(turns)
LOOP_OVER(naks)
LOOP_OVER(timeouts)
LOOP_OVER(losses)
LOOP_OVER(ends)
LOOP_OVER(unruly)
LOOP_OVER(lengths)
LOOP_OVER(nexts)

static struct row rows[] = {
	{"FRAME", many_frames, TRANSFERS * FULL, 512, {0}},
	{"FRAME, refused", many_frames_refused, TRANSFERS * MANY, 512, {0}},
	{"FRAME, off the rules", many_unruly, TRANSFERS * MANY, 512, {0}},
	{"ACK, refused", many_acks_refused, TRANSFERS * MANY, 512, {0}},
	{"FRAMEs, then ACKs", many_acks, TRANSFERS * 2 * FULL, 512, {0}},
	{"FRAME, ACK by turns", many_turns, TRANSFERS * 2 * FULL, 512, {0}},
	{"FRAME, NAK by turns", many_naks, TRANSFERS * 2 * FULL, 512, {0}},
	{"FRAME, TIMEOUT by turns", many_timeouts, TRANSFERS * 2 * FULL, 512, {0}},
	{"FRAME, LOST by turns", many_losses, TRANSFERS * 2 * FULL, 512, {0}},
	{"START, end by turns", many_ends, TRANSFERS * 2 * FULL, 512, {0}},
	{"length", many_lengths, TRANSFERS * MANY, 512, {0}},
};

static struct row next_rows[] = {
	{"next-frame, 4", many_nexts, TRANSFERS * FULL, 4, {0}},
	{"next-frame, 512", many_nexts, TRANSFERS * FULL, 512, {0}},
	{"next-frame, 1024", many_nexts, TRANSFERS * FULL, 1024, {0}},
};

static uint64_t crossings(void)
{
	call_of *volatile cross = plain_transfer_crossing;
	call_of *call = cross;
	struct run run = {.sum = 0};
	repeat(&run, call, MANY);
	return run.sum;
}

int main(int argc, char **argv)
{
	struct bench steps = {"transfer's call", rows, sizeof rows / sizeof *rows, 1.50, prepare, same};
	struct bench next = {"next-frame, bytes", next_rows, sizeof next_rows / sizeof *next_rows, 1.40, prepare, same};
	int status = compare(&steps, argc, argv) | compare(&next, argc, argv);
	show_crossing("transfer's", crossings, MANY);
	return status;
}
