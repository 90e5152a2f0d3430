/*
 * The frame calls of libsonerwal.a against plain C, in nanoseconds for one call.
 *
 * Usage: frames [--strict]        --strict: exit 1 if a ratio is above the goal
 *
 * Both sides run in one process, by turns, over the same inputs, through pointers to functions of other translation
 * units. Both must have given the same results, or a row says nothing.
 */
#include "compare.h"
#include "plain.h"
#include "sonerwal.h"

#include <stdio.h>
#include <stdlib.h>
#include <string.h>

enum {
	INPUTS = 8,   /* different calls, gone through in a circle; few enough for the nearest cache */
	CALLS = 4000 /* calls between two looks at the clock */
};

struct coder {
	__typeof__(sonerwal_open_read) *open_read;
	__typeof__(sonerwal_open_write) *open_write;
	__typeof__(sonerwal_data_read) *data_read;
	__typeof__(sonerwal_data_write) *data_write;
	__typeof__(sonerwal_xfer_rdy_read) *xfer_read;
	__typeof__(sonerwal_xfer_rdy_write) *xfer_write;
	__typeof__(sonerwal_data_out_read) *out_read;
	__typeof__(sonerwal_data_out_write) *out_write;
	__typeof__(sonerwal_response_read) *response_read;
	__typeof__(sonerwal_response_write) *response_write;
};

static const struct coder coders[SIDES] = {
	[PLAIN] = {plain_open_read, plain_open_write, plain_data_read, plain_data_write, plain_xfer_rdy_read, plain_xfer_rdy_write,
	           plain_data_out_read, plain_data_out_write, plain_response_read, plain_response_write},
	[OURS] = {sonerwal_open_read, sonerwal_open_write, sonerwal_data_read, sonerwal_data_write, sonerwal_xfer_rdy_read,
	          sonerwal_xfer_rdy_write, sonerwal_data_out_read, sonerwal_data_out_write, sonerwal_response_read,
	          sonerwal_response_write},
};

struct input {
	struct sonerwal_open open;
	struct sonerwal_data data;
	struct sonerwal_xfer_rdy xfer;
	struct sonerwal_data_out out;
	struct sonerwal_response response;
	uint8_t open_frame[SONERWAL_OPEN_SIZE];
	uint8_t data_frame[SONERWAL_DATA_SIZE_MAX];
	uint8_t xfer_frame[SONERWAL_XFER_RDY_SIZE];
	uint8_t out_frame[SONERWAL_DATA_SIZE_MAX];
	uint8_t response_frame[SONERWAL_RESPONSE_SIZE_MAX];
	uint8_t body[SONERWAL_DATA_BODY_MAX];
};

struct result {
	struct sonerwal_open open;
	struct sonerwal_data data;
	struct sonerwal_xfer_rdy xfer;
	struct sonerwal_data_out out;
	struct sonerwal_response response;
	uint8_t frame[SONERWAL_DATA_SIZE_MAX];
};

static struct input inputs[INPUTS];
static struct result results[SIDES][INPUTS];

/* ---- Inputs */

static uint64_t noise(void)
{
	static uint64_t state = UINT64_C(0x50C1A101);
	state = state * UINT64_C(6364136223846793005) + UINT64_C(1442695040888963407);
	return state >> 16;
}

static void prepare_open(struct input *in)
{
	in->open = (struct sonerwal_open){
		.initiator = (uint8_t)(noise() % 2),
		.protocol = (uint8_t)(noise() % 3),
		.features = (uint8_t)(noise() % 16),
		.rate = (uint8_t)(8 + noise() % 3),
		.tag = (uint16_t)noise(),
		.destination = noise() << 16,
		.source = noise() << 16,
		.pbc = (uint8_t)noise(),
		.awt = (uint16_t)noise(),
	};
	sonerwal_open_put(&in->open, in->open_frame, sizeof in->open_frame);
}

static void prepare_data(struct input *in, size_t body_len)
{
	in->data = (struct sonerwal_data){
		.hashed_destination = (uint32_t)noise() & SONERWAL_HASHED_ADDRESS_MAX,
		.hashed_source = (uint32_t)noise() & SONERWAL_HASHED_ADDRESS_MAX,
		.changing = (uint8_t)(noise() % 2),
		.tag = (uint16_t)noise(),
		.offset = (uint32_t)noise(),
		.length = (uint16_t)body_len,
	};
	for (size_t i = 0; i < body_len; i++) {
		in->body[i] = (uint8_t)noise();
	}
	sonerwal_data_put(&in->data, in->body, in->data_frame, sizeof in->data_frame);
}

static void prepare_xfer(struct input *in)
{
	in->xfer = (struct sonerwal_xfer_rdy){
		.hashed_destination = in->data.hashed_destination,
		.hashed_source = in->data.hashed_source,
		.retransmit = (uint8_t)(noise() % 2),
		.retry = (uint8_t)(noise() % 2),
		.tag = (uint16_t)noise(),
		.transfer = (uint16_t)noise(),
		.offset = (uint32_t)noise(),
		.length = (uint32_t)noise() | 1,
	};
	sonerwal_xfer_rdy_put(&in->xfer, in->xfer_frame, sizeof in->xfer_frame);
}

/* Both over the body of DATA; a RESPONSE has sense data, or none where the body is too long for it. */
static void prepare_out(struct input *in)
{
	const struct sonerwal_data *d = &in->data;
	in->out = (struct sonerwal_data_out){
		.hashed_destination = d->hashed_destination,
		.hashed_source = d->hashed_source,
		.changing = d->changing,
		.tag = d->tag,
		.transfer = (uint16_t)noise(),
		.offset = d->offset,
		.length = d->length,
	};
	sonerwal_data_out_put(&in->out, in->body, in->out_frame, sizeof in->out_frame);
}

static void prepare_response(struct input *in)
{
	const struct sonerwal_data *d = &in->data;
	int sense = d->length <= SONERWAL_RESPONSE_BODY_MAX;
	in->response = (struct sonerwal_response){
		.hashed_destination = d->hashed_destination,
		.hashed_source = d->hashed_source,
		.retransmit = (uint8_t)(noise() % 2),
		.tag = d->tag,
		.present = sense ? SONERWAL_PRESENT_SENSE : SONERWAL_PRESENT_NONE,
		.status = (uint8_t)noise(),
		.length = sense ? d->length : 0,
	};
	sonerwal_response_put(&in->response, in->body, in->response_frame, sizeof in->response_frame);
}

static void prepare(size_t body_len)
{
	memset(results, 0, sizeof results);
	for (size_t i = 0; i < INPUTS; i++) {
		prepare_open(&inputs[i]);
		prepare_data(&inputs[i], body_len);
		prepare_xfer(&inputs[i]);
		prepare_out(&inputs[i]);
		prepare_response(&inputs[i]);
	}
}

/* ---- One call of a side, from input to result */

static uint8_t open_read(const struct coder *coder, const struct input *in, struct result *out)
{
	struct sonerwal_open *o = &out->open;
	return coder->open_read(in->open_frame, sizeof in->open_frame, &o->initiator, &o->protocol, &o->features,
	                        &o->rate, &o->tag, &o->destination, &o->source, &o->pbc, &o->awt);
}

static uint8_t open_write(const struct coder *coder, const struct input *in, struct result *out)
{
	const struct sonerwal_open *o = &in->open;
	return coder->open_write(o->initiator, o->protocol, o->features, o->rate, o->tag, o->destination, o->source,
	                         o->pbc, o->awt, out->frame, SONERWAL_OPEN_SIZE);
}

static uint8_t data_read(const struct coder *coder, const struct input *in, struct result *out)
{
	struct sonerwal_data *d = &out->data;
	return coder->data_read(in->data_frame, sonerwal_data_size(in->data.length), &d->hashed_destination,
	                        &d->hashed_source, &d->changing, &d->tag, &d->offset, &d->length);
}

static uint8_t data_write(const struct coder *coder, const struct input *in, struct result *out)
{
	const struct sonerwal_data *d = &in->data;
	return coder->data_write(d->hashed_destination, d->hashed_source, d->changing, d->tag, d->offset, in->body,
	                         d->length, out->frame, sonerwal_data_size(d->length));
}

static uint8_t xfer_read(const struct coder *coder, const struct input *in, struct result *out)
{
	struct sonerwal_xfer_rdy *x = &out->xfer;
	return coder->xfer_read(in->xfer_frame, sizeof in->xfer_frame, &x->hashed_destination, &x->hashed_source, &x->retransmit,
	                        &x->retry, &x->tag, &x->transfer, &x->offset, &x->length);
}

static uint8_t xfer_write(const struct coder *coder, const struct input *in, struct result *out)
{
	const struct sonerwal_xfer_rdy *x = &in->xfer;
	return coder->xfer_write(x->hashed_destination, x->hashed_source, x->retransmit, x->retry, x->tag, x->transfer, x->offset,
	                         x->length, out->frame, SONERWAL_XFER_RDY_SIZE);
}

static uint8_t out_read(const struct coder *coder, const struct input *in, struct result *out)
{
	struct sonerwal_data_out *d = &out->out;
	return coder->out_read(in->out_frame, sonerwal_data_size(in->out.length), &d->hashed_destination, &d->hashed_source,
	                       &d->changing, &d->tag, &d->transfer, &d->offset, &d->length);
}

static uint8_t out_write(const struct coder *coder, const struct input *in, struct result *out)
{
	const struct sonerwal_data_out *d = &in->out;
	return coder->out_write(d->hashed_destination, d->hashed_source, d->changing, d->tag, d->transfer, d->offset, in->body,
	                        d->length, out->frame, sonerwal_data_size(d->length));
}

static uint8_t response_read(const struct coder *coder, const struct input *in, struct result *out)
{
	struct sonerwal_response *r = &out->response;
	return coder->response_read(in->response_frame, sonerwal_response_size(in->response.length), &r->hashed_destination,
	                            &r->hashed_source, &r->retransmit, &r->tag, &r->present, &r->status, &r->length);
}

static uint8_t response_write(const struct coder *coder, const struct input *in, struct result *out)
{
	const struct sonerwal_response *r = &in->response;
	return coder->response_write(r->hashed_destination, r->hashed_source, r->retransmit, r->tag, r->present, r->status, in->body,
	                             r->length, out->frame, sonerwal_response_size(r->length));
}

/* ---- Rows */

/* A loop of its own for each call, so that the step is inlined and only the measured function is called. */
#define LOOP_OVER(step)                                                               \
	static uint64_t many_##step(enum side side)                                   \
	{                                                                             \
		uint64_t answers = 0;                                                 \
		for (size_t i = 0; i < CALLS; i++) {                                  \
			size_t at = i % INPUTS;                                       \
			answers += step(&coders[side], &inputs[at], &results[side][at]); \
		}                                                                     \
		if (answers != 0) {                                                   \
			fprintf(stderr, "bench: " #step ": a valid call was refused\n"); \
			exit(2);                                                      \
		}                                                                     \
		return answers;                                                       \
	}

LOOP_OVER(open_read)
LOOP_OVER(open_write)
LOOP_OVER(data_read)
LOOP_OVER(data_write)
LOOP_OVER(xfer_read)
LOOP_OVER(xfer_write)
LOOP_OVER(out_read)
LOOP_OVER(out_write)
LOOP_OVER(response_read)
LOOP_OVER(response_write)

static int same(void)
{
	return memcmp(results[PLAIN], results[OURS], sizeof results[PLAIN]) == 0;
}

static struct row rows[] = {
	{"OPEN read", many_open_read, CALLS, 4, {0}},          {"OPEN write", many_open_write, CALLS, 4, {0}},
	{"DATA read, 4", many_data_read, CALLS, 4, {0}},       {"DATA read, 512", many_data_read, CALLS, 512, {0}},
	{"DATA read, 1024", many_data_read, CALLS, 1024, {0}}, {"DATA write, 4", many_data_write, CALLS, 4, {0}},
	{"DATA write, 512", many_data_write, CALLS, 512, {0}}, {"DATA write, 1024", many_data_write, CALLS, 1024, {0}},
	{"XFER_RDY read", many_xfer_read, CALLS, 4, {0}},      {"XFER_RDY write", many_xfer_write, CALLS, 4, {0}},
	{"data out read, 1024", many_out_read, CALLS, 1024, {0}}, {"data out write, 512", many_out_write, CALLS, 512, {0}},
	{"RESPONSE read, none", many_response_read, CALLS, 1024, {0}}, {"RESPONSE read, 18", many_response_read, CALLS, 18, {0}},
	{"RESPONSE write, none", many_response_write, CALLS, 1024, {0}}, {"RESPONSE write, 18", many_response_write, CALLS, 18, {0}},
};

int main(int argc, char **argv)
{
	struct bench bench = {"call", rows, sizeof rows / sizeof *rows, 1.10, prepare, same};
	return compare(&bench, argc, argv);
}
