#include "plain_write.h"

/* ---- The header (struct ssp_frame_hdr) */

/* What a kind of frame asks of its header beyond the zeros that all have. */
struct layout {
	uint8_t type;
	uint8_t bits;   /* of byte 10 that may be one */
	uint8_t fill;   /* the most in byte 11 */
	bool ones;      /* bytes 18 and 19 are FF */
	bool no_offset; /* bytes 20 to 23 are zero */
};

static const struct layout xfer_layout = {5, 6, 0, false, true};
static const struct layout out_layout = {1, 1, 3, false, false};
static const struct layout response_layout = {7, 2, 3, true, true};

static bool byte_fits(const struct layout *layout, size_t k, uint8_t value)
{
	switch (k) {
	case 0:
		return value == layout->type;
	case 10:
		return (value | layout->bits) == layout->bits;
	case 11:
		return value <= layout->fill;
	case 18:
	case 19:
		return !layout->ones || value == 0xFF;
	case 20:
	case 21:
	case 22:
	case 23:
		return !layout->no_offset || value == 0;
	case 4:
	case 8:
	case 9:
	case 12:
	case 13:
	case 14:
	case 15:
		return value == 0;
	default: /* hashed addresses and tag */
		return true;
	}
}

static plain_faults header_faults(const struct layout *layout, const uint8_t *frame)
{
	plain_faults faults = 0;
	for (size_t k = 0; k < 24; k++) {
		faults |= plain_fault_if(!byte_fits(layout, k, frame[k]), FRAME_BAD_BYTE_0 + (unsigned)k);
	}
	return faults;
}

static plain_faults fill_faults(const uint8_t *frame, size_t frame_len)
{
	plain_faults faults = 0;
	for (size_t i = frame_len - frame[11]; i < frame_len; i++) {
		faults |= plain_fault_if(frame[i] != 0, FRAME_BAD_FILL);
	}
	return faults;
}

static plain_faults length_faults(size_t frame_len, size_t least, size_t most)
{
	return plain_fault_if(frame_len < least, FRAME_SHORT) | plain_fault_if(frame_len > most, FRAME_LONG) |
	       plain_fault_if(frame_len % 4 != 0, FRAME_NOT_FOURS);
}

static bool all_zero(const uint8_t *at, size_t count)
{
	bool zero = true;
	for (size_t i = 0; i < count; i++) {
		zero = zero && at[i] == 0;
	}
	return zero;
}

static void put_header(const struct layout *layout, uint64_t destination, uint64_t source, uint64_t bits, size_t fill,
                       uint64_t tag, uint64_t transfer, uint64_t offset, uint8_t *frame)
{
	plain_put(frame, 1, layout->type);
	plain_put(frame + 1, 3, destination);
	plain_zeros(frame + 4, 1);
	plain_put(frame + 5, 3, source);
	plain_zeros(frame + 8, 2);
	plain_put(frame + 10, 1, bits);
	plain_put(frame + 11, 1, fill);
	plain_zeros(frame + 12, 4);
	plain_put(frame + 16, 2, tag);
	plain_put(frame + 18, 2, transfer);
	plain_put(frame + 20, 4, offset);
}

static plain_faults address_faults(uint64_t destination, uint64_t source)
{
	return plain_fault_if(destination > 0xFFFFFF, WRITE_BAD_DESTINATION) |
	       plain_fault_if(source > 0xFFFFFF, WRITE_BAD_SOURCE);
}

static void put_payload(const uint8_t *body, size_t body_len, uint8_t *at)
{
	for (size_t i = 0; i < body_len; i++) {
		at[i] = body[i];
	}
	plain_zeros(at + body_len, plain_data_fill(body_len));
}

/* ---- XFER_RDY (struct xfer_rdy_iu) */

void plain_xfer_front(const uint64_t *fields, size_t fill, uint8_t *front)
{
	put_header(&xfer_layout, fields[XFER_HASHED_DESTINATION], fields[XFER_HASHED_SOURCE],
	           fields[XFER_RETRANSMIT] * 2 + fields[XFER_RETRY] * 4, fill, fields[XFER_TAG], fields[XFER_TRANSFER], 0,
	           front);
	plain_put(front + 24, 4, fields[XFER_OFFSET]);
	plain_put(front + 28, 4, fields[XFER_LENGTH]);
	plain_zeros(front + 32, 4);
}

/* A frame too short has no header to be wrong. */
plain_faults plain_xfer_read(const uint8_t *frame, size_t frame_len, uint64_t *fields)
{
	plain_faults faults = plain_fault_if(frame_len < 36, FRAME_SHORT) | plain_fault_if(frame_len > 36, FRAME_LONG);
	if (frame_len >= 36) {
		faults |= header_faults(&xfer_layout, frame) | plain_fault_if(all_zero(frame + 28, 4), XFER_NO_LENGTH) |
		          plain_fault_if(!all_zero(frame + 32, 4), XFER_BAD_LAST);
	}
	if (faults) {
		return faults;
	}
	fields[XFER_HASHED_DESTINATION] = plain_number(frame + 1, 3);
	fields[XFER_HASHED_SOURCE] = plain_number(frame + 5, 3);
	fields[XFER_RETRANSMIT] = frame[10] / 2 % 2;
	fields[XFER_RETRY] = frame[10] / 4 % 2;
	fields[XFER_TAG] = plain_number(frame + 16, 2);
	fields[XFER_TRANSFER] = plain_number(frame + 18, 2);
	fields[XFER_OFFSET] = plain_number(frame + 24, 4);
	fields[XFER_LENGTH] = plain_number(frame + 28, 4);
	return 0;
}

plain_faults plain_xfer_write(const uint64_t *fields, const uint8_t *body, uint8_t *frame, size_t frame_len)
{
	plain_faults faults = plain_fault_if(frame_len < 36, WRITE_SHORT) |
	                      address_faults(fields[XFER_HASHED_DESTINATION], fields[XFER_HASHED_SOURCE]) |
	                      plain_fault_if(fields[XFER_RETRANSMIT] > 1, WRITE_BAD_RETRANSMIT) |
	                      plain_fault_if(fields[XFER_RETRY] > 1, WRITE_BAD_RETRY) |
	                      plain_fault_if(fields[XFER_LENGTH] == 0, WRITE_NO_LENGTH);
	(void)body;
	if (!faults) {
		plain_xfer_front(fields, 0, frame);
	}
	return faults;
}

/* ---- A write's DATA */

void plain_out_front(const uint64_t *fields, size_t fill, uint8_t *front)
{
	put_header(&out_layout, fields[OUT_HASHED_DESTINATION], fields[OUT_HASHED_SOURCE], fields[OUT_CHANGING], fill,
	           fields[OUT_TAG], fields[OUT_TRANSFER], fields[OUT_OFFSET], front);
}

plain_faults plain_out_read(const uint8_t *frame, size_t frame_len, uint64_t *fields)
{
	plain_faults faults = length_faults(frame_len, 28, 1048);
	if (frame_len >= 28) {
		faults |= header_faults(&out_layout, frame);
		faults |= frame[11] <= 3 ? fill_faults(frame, frame_len) : 0;
	}
	if (faults) {
		return faults;
	}
	fields[OUT_HASHED_DESTINATION] = plain_number(frame + 1, 3);
	fields[OUT_HASHED_SOURCE] = plain_number(frame + 5, 3);
	fields[OUT_CHANGING] = frame[10];
	fields[OUT_TAG] = plain_number(frame + 16, 2);
	fields[OUT_TRANSFER] = plain_number(frame + 18, 2);
	fields[OUT_OFFSET] = plain_number(frame + 20, 4);
	fields[OUT_LENGTH] = frame_len - 24 - frame[11];
	return 0;
}

plain_faults plain_out_write(const uint64_t *fields, const uint8_t *body, uint8_t *frame, size_t frame_len)
{
	size_t body_len = (size_t)fields[OUT_LENGTH], fill = plain_data_fill(body_len);
	plain_faults faults = plain_fault_if(body_len > 1024, WRITE_BODY_LONG) |
	                      plain_fault_if(body_len < 1, WRITE_BODY_OFF) |
	                      plain_fault_if(frame_len < 24 + body_len + fill, WRITE_SHORT) |
	                      address_faults(fields[OUT_HASHED_DESTINATION], fields[OUT_HASHED_SOURCE]) |
	                      plain_fault_if(fields[OUT_CHANGING] > 1, WRITE_BAD_CHANGING);
	if (!faults) {
		plain_out_front(fields, fill, frame);
		put_payload(body, body_len, frame + 24);
	}
	return faults;
}

/* ---- RESPONSE (struct ssp_response_iu) */

void plain_response_front(const uint64_t *fields, size_t fill, uint8_t *front)
{
	put_header(&response_layout, fields[RESPONSE_HASHED_DESTINATION], fields[RESPONSE_HASHED_SOURCE],
	           fields[RESPONSE_RETRANSMIT] * 2, fill, fields[RESPONSE_TAG], 0xFFFF, 0, front);
	plain_zeros(front + 24, 10);
	plain_put(front + 34, 1, fields[RESPONSE_PRESENT]);
	plain_put(front + 35, 1, fields[RESPONSE_STATUS]);
	plain_zeros(front + 36, 4);
	plain_put(front + 40, 4, fields[RESPONSE_PRESENT] == 2 ? fields[RESPONSE_LENGTH] : 0);
	plain_put(front + 44, 4, fields[RESPONSE_PRESENT] == 1 ? fields[RESPONSE_LENGTH] : 0);
}

/* Whether data of this kind may be so long. */
static bool kind_takes(uint64_t present, size_t body_len)
{
	switch (present) {
	case 0:
		return body_len == 0;
	case 1:
		return body_len == 4;
	case 2:
		return body_len >= 1;
	default: /* no kind at all: that is another fault */
		return true;
	}
}

static bool lengths_agree(uint8_t present, uint64_t sense, uint64_t response, size_t body_len)
{
	return kind_takes(present, body_len) && sense == (present == 2 ? body_len : 0) &&
	       response == (present == 1 ? body_len : 0);
}

/* What a frame long enough for its fields has wrong behind its header. */
static plain_faults row_faults(const uint8_t *frame)
{
	return plain_fault_if(!all_zero(frame + 24, 10) || !all_zero(frame + 36, 4), RESPONSE_BAD_ZERO) |
	       plain_fault_if(frame[34] > 2 || (frame[34] == 1 && frame[35] != 0), RESPONSE_BAD_KIND);
}

/* And what is wrong with its lengths, which a fill count decides. */
static plain_faults count_faults(const uint8_t *frame, size_t frame_len)
{
	size_t end = (size_t)48 + frame[11];
	if (frame_len < end) {
		return PLAIN_FAULT(RESPONSE_NO_ROOM);
	}
	return plain_fault_if(!lengths_agree(frame[34], plain_number(frame + 40, 4), plain_number(frame + 44, 4), frame_len - end),
	                      RESPONSE_BAD_LENGTHS);
}

plain_faults plain_response_read(const uint8_t *frame, size_t frame_len, uint64_t *fields)
{
	plain_faults faults = length_faults(frame_len, 48, 1048);
	if (frame_len >= 48) {
		faults |= header_faults(&response_layout, frame) | row_faults(frame);
		faults |= frame[11] <= 3 ? count_faults(frame, frame_len) | fill_faults(frame, frame_len) : 0;
	}
	if (faults) {
		return faults;
	}
	fields[RESPONSE_HASHED_DESTINATION] = plain_number(frame + 1, 3);
	fields[RESPONSE_HASHED_SOURCE] = plain_number(frame + 5, 3);
	fields[RESPONSE_RETRANSMIT] = frame[10] / 2;
	fields[RESPONSE_TAG] = plain_number(frame + 16, 2);
	fields[RESPONSE_PRESENT] = frame[34];
	fields[RESPONSE_STATUS] = frame[35];
	fields[RESPONSE_LENGTH] = frame_len - 48 - frame[11];
	return 0;
}

plain_faults plain_response_write(const uint64_t *fields, const uint8_t *body, uint8_t *frame, size_t frame_len)
{
	size_t body_len = (size_t)fields[RESPONSE_LENGTH], fill = plain_data_fill(body_len);
	uint64_t present = fields[RESPONSE_PRESENT];
	plain_faults faults = plain_fault_if(body_len > 1000, WRITE_BODY_LONG) |
	                      plain_fault_if(!kind_takes(present, body_len), WRITE_BODY_OFF) |
	                      plain_fault_if(frame_len < 48 + body_len + fill, WRITE_SHORT) |
	                      address_faults(fields[RESPONSE_HASHED_DESTINATION], fields[RESPONSE_HASHED_SOURCE]) |
	                      plain_fault_if(fields[RESPONSE_RETRANSMIT] > 1, WRITE_BAD_RETRANSMIT) |
	                      plain_fault_if(present > 2, WRITE_BAD_PRESENT) |
	                      plain_fault_if(present == 1 && fields[RESPONSE_STATUS] != 0, WRITE_BAD_STATUS);
	if (!faults) {
		plain_response_front(fields, fill, frame);
		put_payload(body, body_len, frame + 48);
	}
	return faults;
}
