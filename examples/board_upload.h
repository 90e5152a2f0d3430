/*
 * The upload of examples/board.c: the host writes a calibration file, which the board asks for range by range and takes into a store. The
 * wire loses XFER_RDYs and ACKs, so that the host is asked twice for some ranges and answers twice. A reply ends the command.
 */
#ifndef SONERWAL_EXAMPLES_BOARD_UPLOAD_H
#define SONERWAL_EXAMPLES_BOARD_UPLOAD_H

#include <string.h>

#include "board_tell.h"
#include "board_wire.h"
#include "sonerwal.h"

enum { FILE_BYTES = 700, RANGE = 256, PIECE = 128, FILE_TAG = 3, RETRIES = 4, MOST_ASKED = 8 };
enum { GOOD = 0 }; /* SAM's status */

/* On the board. */
static struct sonerwal_write writing;
static struct sonerwal_reply reply;
static uint8_t store[FILE_BYTES];

/* At the host: the file, and the XFER_RDYs that it hasn't answered. */
static uint8_t file[FILE_BYTES];
static struct sonerwal_xfer_rdy asked[MOST_ASKED];
static unsigned asked_count;
static bool told_done;

static bool frame_lost, answer_lost; /* of the frame that went last */

static void begin_upload(void)
{
	for (unsigned i = 0; i < FILE_BYTES; i++) {
		file[i] = (uint8_t)(i * i / 3 + 5);
	}
	must(sonerwal_write_keep(&writing, sonerwal_write_start(writing, 0, FILE_BYTES, RANGE, RETRIES)) == SONERWAL_OK, "no START");
}

/* Whether an XFER_RDY or the RESPONSE is due. */
static bool upload_has_frame(void)
{
	return writing.phase == SONERWAL_WRITE_ASK || reply.phase == SONERWAL_REPLY_ASK;
}

/* ---- What the board sends */

static const char *fate(void)
{
	return frame_lost ? ", lost" : answer_lost ? ", its ACK lost" : "";
}

/* The port has no other write, so that no tag is in use but its own. */
static void send_xfer_rdy(void)
{
	uint8_t frame[SONERWAL_XFER_RDY_SIZE];
	struct sonerwal_xfer_rdy xfer;
	uint64_t others = sonerwal_write_others(&writing, 1);
	uint8_t answer = sonerwal_write_keep(&writing, sonerwal_write_ask(writing, others, HOST_HASH, BOARD_HASH, FILE_TAG, frame, sizeof frame));

	must(answer == SONERWAL_SENT, "no XFER_RDY");
	must(sonerwal_xfer_rdy_get(&xfer, frame, sizeof frame) == SONERWAL_OK && asked_count < MOST_ASKED, "the host reads no XFER_RDY");
	if (!frame_lost) {
		asked[asked_count++] = xfer;
	}
	line("file", "XFER_RDY");
	printf("bytes %" PRIu32 " to %" PRIu32 " under tag %d%s%s\n", xfer.offset, xfer.offset + xfer.length - 1, xfer.transfer,
	       xfer.retransmit ? ", retransmit" : "", fate());
}

static void send_response(void)
{
	static const uint8_t none[1];
	uint8_t frame[SONERWAL_RESPONSE_SIZE_MIN];
	struct sonerwal_response response;
	uint8_t answer = sonerwal_reply_keep(&reply, sonerwal_reply_respond(reply, HOST_HASH, BOARD_HASH, FILE_TAG, SONERWAL_PRESENT_NONE, GOOD,
	                                                                    none, 0, frame, sizeof frame));

	must(answer == SONERWAL_SENT, "no RESPONSE");
	must(sonerwal_response_get(&response, frame, sizeof frame) == SONERWAL_OK, "the host reads no RESPONSE");
	told_done = told_done || !frame_lost;
	line("file", "RESPONSE");
	printf("status %d%s%s\n", response.status, response.retransmit ? ", retransmit" : "", fate());
}

static void send_upload_frame(void)
{
	frame_lost = one_in(4);
	answer_lost = one_in(3);
	if (writing.phase == SONERWAL_WRITE_ASK) {
		send_xfer_rdy();
	} else {
		send_response();
	}
}

/* ---- What it hears */

static uint8_t upload_answered(bool in_time)
{
	if (writing.phase == SONERWAL_WRITE_WAIT) {
		return sonerwal_write_keep(&writing, in_time ? sonerwal_write_ack(writing) : sonerwal_write_timeout(writing));
	}
	return sonerwal_reply_keep(&reply, in_time ? sonerwal_reply_ack(reply) : sonerwal_reply_timeout(reply));
}

/* The ACK of the frame that went, or the ACK/NAK timeout. */
static void hear_upload_answer(void)
{
	bool in_time = !frame_lost && !answer_lost;
	uint8_t answer;

	now += in_time ? 1 : 1000;
	answer = upload_answered(in_time);
	line("file", in_time ? "ACK" : "TIMEOUT");
	printf("%s\n", sonerwal_answer_name(answer));
	must(answer != SONERWAL_FAIL, "out of retries");
}

/* With the last byte in the store the command is at its end, and the reply begins. */
static void take(const struct sonerwal_data_out *data, const uint8_t *frame, size_t frame_len)
{
	uint8_t answer = sonerwal_write_keep(&writing, sonerwal_write_take(writing, HOST_HASH, BOARD_HASH, FILE_TAG, frame, frame_len, store, sizeof store));

	line("file", "DATA");
	printf("bytes %" PRIu32 " to %" PRIu32 " under tag %d: %s\n", data->offset, data->offset + data->length - 1, data->transfer,
	       sonerwal_answer_name(answer));
	now++;
	if (answer == SONERWAL_DONE) {
		must(sonerwal_reply_keep(&reply, sonerwal_reply_start(reply, RETRIES)) == SONERWAL_OK, "no reply");
	}
}

/* ---- What the host sends */

static void answer_xfer_rdy(const struct sonerwal_xfer_rdy *xfer)
{
	uint8_t frame[SONERWAL_DATA_SIZE_MAX];

	for (uint32_t at = 0; at < xfer->length; at += PIECE) {
		uint32_t left = xfer->length - at;
		struct sonerwal_data_out data = {
			.hashed_destination = BOARD_HASH, .hashed_source = HOST_HASH, .tag = FILE_TAG, .transfer = xfer->transfer,
			.offset = xfer->offset + at, .length = (uint16_t)(left < PIECE ? left : PIECE),
		};
		must(sonerwal_data_out_put(&data, file + data.offset, frame, sizeof frame) == SONERWAL_OK, "no DATA frame");
		take(&data, frame, sonerwal_data_size(data.length));
	}
}

/* Every XFER_RDY that came is answered, the earlier ones first, though their range was asked for again. */
static void hear_data(void)
{
	for (unsigned i = 0; i < asked_count; i++) {
		answer_xfer_rdy(&asked[i]);
	}
	asked_count = 0;
}

/* Whether the store is the file, and the host knows. */
static bool report_upload(void)
{
	bool same = memcmp(store, file, sizeof file) == 0 && told_done;
	printf("\non the board\n%-6s %d bytes%s\n", "file", FILE_BYTES, same ? ", as the host has them, and it was told" : " that are not the host's");
	return same;
}

#endif
