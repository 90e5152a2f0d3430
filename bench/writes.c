/*
 * The write's and the reply's calls of sonerwal.h against plain C of the same signatures, in nanoseconds for one call.
 *
 * Usage: writes [--strict]        --strict: exit 1 if a ratio is above its goal
 *
 * Both sides run in one process, by turns, over the same writes, through pointers to functions of other files, so that neither is inlined;
 * the state is handed from one call to the next. Both must have given the same answers, states and bytes, or a row says nothing. What it
 * costs to hand a state over and back is measured apart.
 */
#include "compare.h"
#include "plain_writes.h"

#include <string.h>

enum {
	WRITES = 8,   /* different requests, gone through in turn */
	RANGES = 32,  /* of a request, each of one frame's bytes */
	RETRIES = 63,
	MANY = 512,   /* calls of a row in which all are alike */
	STORE = RANGES * SONERWAL_DATA_BODY_MAX,
	XFER_RDY = 36,
	RESPONSE = 48
};

enum { HOST = 0x123456, TARGET = 0xABCDEF, COMMAND = 0x55AA };

typedef struct sonerwal_write_step call_of(struct sonerwal_write s);

struct stepper {
	__typeof__(sonerwal_write_start) *start;
	__typeof__(sonerwal_write_xfer) *xfer;
	call_of *ack, *nak, *cancel;
	__typeof__(sonerwal_write_got) *got;
	__typeof__(sonerwal_write_ask) *ask;
	__typeof__(sonerwal_write_take) *take;
	__typeof__(sonerwal_reply_start) *reply;
	__typeof__(sonerwal_reply_respond) *respond;
	__typeof__(sonerwal_reply_ack) *delivered;
};

#define STEPPER(side)                                                                                             \
	{                                                                                                         \
		side##_write_start, side##_write_xfer, side##_write_ack, side##_write_nak, side##_write_cancel,   \
		side##_write_got, side##_write_ask, side##_write_take, side##_reply_start, side##_reply_respond, \
		side##_reply_ack                                                                                  \
	}

static const struct stepper steppers[SIDES] = {[PLAIN] = STEPPER(plain), [OURS] = STEPPER(sonerwal)};

struct request {
	uint32_t b, n, x, r;
};

static struct request requests[WRITES];
static uint8_t frames[WRITES][RANGES][SONERWAL_DATA_SIZE_MAX]; /* the host's */
static size_t frame_len;
static uint8_t stores[SIDES][STORE], outs[SIDES][XFER_RDY], responses[SIDES][RESPONSE];

static void put(uint8_t *at, size_t width, uint32_t number)
{
	for (size_t i = width; i-- > 0; number /= 256) {
		at[i] = (uint8_t)number;
	}
}

/* Under transfer tag 0, the first. */
static void put_frame(uint8_t *frame, const struct request *q, uint32_t place, size_t size)
{
	memset(frame, 0, SONERWAL_DATA_SIZE_MAX);
	put(frame, 1, 1);
	put(frame + 1, 3, TARGET);
	put(frame + 5, 3, HOST);
	put(frame + 16, 2, COMMAND);
	put(frame + 20, 4, q->b + place * q->x);
	for (size_t i = 0; i < size; i++) {
		frame[SONERWAL_DATA_HEADER_SIZE + i] = (uint8_t)(i * 7 + place);
	}
}

static void prepare(size_t size)
{
	memset(stores, 0, sizeof stores);
	memset(outs, 0, sizeof outs);
	memset(responses, 0, sizeof responses);
	frame_len = SONERWAL_DATA_HEADER_SIZE + size;
	for (uint32_t i = 0; i < WRITES; i++) {
		requests[i] = (struct request){4096 * i + i, RANGES * (uint32_t)size, (uint32_t)size, RETRIES};
		for (uint32_t range = 0; range < RANGES; range++) {
			put_frame(frames[i][range], &requests[i], range, size);
		}
	}
}

static int same(void)
{
	return memcmp(stores[PLAIN], stores[OURS], STORE) == 0 && memcmp(outs[PLAIN], outs[OURS], XFER_RDY) == 0 &&
	       memcmp(responses[PLAIN], responses[OURS], RESPONSE) == 0;
}

/* ---- One write of a row: a number that each of its answers and its last state went into */

struct run {
	struct sonerwal_write s;
	uint64_t sum;
};

static inline void keep(struct run *run, struct sonerwal_write_step step)
{
	run->s = step.state;
	run->sum = run->sum * 3 + step.answer;
}

static inline void start(struct run *run, const struct stepper *by, size_t i)
{
	const struct request *q = &requests[i];
	keep(run, by->start(run->s, q->b, q->n, q->x, q->r));
}

/* XFER, ACK and DATA by turns, to the end. */
static inline void steps(struct run *run, const struct stepper *by, size_t i, enum side side)
{
	(void)side;
	start(run, by, i);
	for (uint32_t range = 0; range < RANGES; range++) {
		keep(run, by->xfer(run->s, 0));
		keep(run, by->ack(run->s));
		keep(run, by->got(run->s, run->s.tag, run->s.next, run->s.burst));
	}
}

/* Each retry holds one tag more. */
static inline void retries(struct run *run, const struct stepper *by, size_t i, enum side side)
{
	(void)side;
	start(run, by, i);
	for (int turn = 0; turn < RETRIES; turn++) {
		keep(run, by->xfer(run->s, 0));
		keep(run, by->nak(run->s));
	}
}

static inline void many_got(struct run *run, const struct stepper *by, uint16_t transfer)
{
	for (int turn = 0; turn < MANY; turn++) {
		keep(run, by->got(run->s, transfer, run->s.next, 4));
	}
}

static inline void lates(struct run *run, const struct stepper *by, size_t i, enum side side)
{
	(void)side;
	start(run, by, i);
	keep(run, by->xfer(run->s, 0));
	keep(run, by->nak(run->s));
	keep(run, by->xfer(run->s, 0));
	many_got(run, by, 0);
}

static inline void refused(struct run *run, const struct stepper *by, size_t i, enum side side)
{
	(void)side;
	start(run, by, i);
	keep(run, by->xfer(run->s, 0));
	keep(run, by->ack(run->s));
	many_got(run, by, 5);
}

/* A state that no calls leave: the test of it, and the refusal. */
static inline void unruly(struct run *run, const struct stepper *by, size_t i, enum side side)
{
	(void)side;
	start(run, by, i);
	keep(run, by->xfer(run->s, 0));
	run->s.used = 1;
	many_got(run, by, 5);
}

static inline void ends(struct run *run, const struct stepper *by, size_t i, enum side side)
{
	(void)side;
	for (int turn = 0; turn < RANGES; turn++) {
		start(run, by, i);
		keep(run, by->cancel(run->s));
	}
}

/* XFER_RDYs as bytes, each NAKed. */
static inline void asks(struct run *run, const struct stepper *by, size_t i, enum side side)
{
	start(run, by, i);
	for (int turn = 0; turn < RETRIES; turn++) {
		keep(run, by->ask(run->s, 0, HOST, TARGET, COMMAND, outs[side], XFER_RDY));
		keep(run, by->nak(run->s));
	}
}

/* A START and RESPONSEs as bytes, each with its ACK. */
static inline void responds(struct run *run, const struct stepper *by, size_t i, enum side side)
{
	static const uint8_t none[1];
	struct sonerwal_reply s = {0};
	for (int turn = 0; turn < RANGES; turn++) {
		struct sonerwal_reply_step step = by->reply(s, 3);
		step = by->respond(step.state, HOST, TARGET, (uint16_t)i, 0, 2, none, 0, responses[side], RESPONSE);
		run->sum = run->sum * 3 + step.answer;
		s = by->delivered(step.state).state;
	}
}

/* A write with one range, so that take is all but alone. */
static inline void takes(struct run *run, const struct stepper *by, size_t i, enum side side)
{
	const struct request *q = &requests[i];
	keep(run, by->start(run->s, q->b, q->n, q->n, q->r));
	keep(run, by->xfer(run->s, 0));
	keep(run, by->ack(run->s));
	for (uint32_t range = 0; range < RANGES; range++) {
		keep(run, by->take(run->s, HOST, TARGET, COMMAND, frames[i][range], frame_len, stores[side], STORE));
	}
}

/* ---- Rows */

/* A loop of its own for each row, so that the row is inlined and only the measured functions are called. */
#define LOOP_OVER(row)                                                                    \
	static uint64_t many_##row(enum side side)                                        \
	{                                                                                 \
		uint64_t answers = 0;                                                     \
		for (size_t i = 0; i < WRITES; i++) {                                     \
			struct run run = {.sum = 0};                                      \
			row(&run, &steppers[side], i, side);                              \
			answers = answers * 31 + run.sum + run.s.next + run.s.tags;       \
		}                                                                         \
		return answers;                                                           \
	}

LOOP_OVER(steps)
LOOP_OVER(retries)
LOOP_OVER(lates)
LOOP_OVER(refused)
LOOP_OVER(unruly)
LOOP_OVER(ends)
LOOP_OVER(asks)
LOOP_OVER(responds)
LOOP_OVER(takes)

static struct row rows[] = {
	{"XFER, ACK, DATA by turns", many_steps, WRITES * 3 * RANGES, 512, {0}},
	{"XFER, NAK by turns", many_retries, WRITES * 2 * RETRIES, 512, {0}},
	{"DATA, late", many_lates, WRITES * MANY, 512, {0}},
	{"DATA, refused", many_refused, WRITES * MANY, 512, {0}},
	{"DATA, off the rules", many_unruly, WRITES * MANY, 512, {0}},
	{"START, CANCEL by turns", many_ends, WRITES * 2 * RANGES, 512, {0}},
	{"ask, NAK by turns", many_asks, WRITES * 2 * RETRIES, 512, {0}},
	{"a reply's three calls", many_responds, WRITES * 3 * RANGES, 512, {0}},
};

static struct row take_rows[] = {
	{"take, 4", many_takes, WRITES * RANGES, 4, {0}},
	{"take, 512", many_takes, WRITES * RANGES, 512, {0}},
	{"take, 1024", many_takes, WRITES * RANGES, 1024, {0}},
};

static uint64_t crossings(void)
{
	call_of *volatile cross = plain_write_crossing;
	call_of *call = cross;
	struct run run = {.sum = 0};
	for (int i = 0; i < MANY; i++) {
		keep(&run, call(run.s));
	}
	return run.sum;
}

int main(int argc, char **argv)
{
	struct bench calls = {"write's call", rows, sizeof rows / sizeof *rows, 1.50, prepare, same};
	struct bench takes_bench = {"take, bytes", take_rows, sizeof take_rows / sizeof *take_rows, 1.50, prepare, same};
	int status = compare(&calls, argc, argv) | compare(&takes_bench, argc, argv);
	show_crossing("write's", crossings, MANY);
	return status;
}
