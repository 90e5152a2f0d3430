#include "plain.h"

#include <stdbool.h>

/* 01, OPEN address frame: "big-endian". */
uint64_t plain_number(const uint8_t *at, size_t width)
{
	uint64_t number = 0;
	for (size_t i = 0; i < width; i++) {
		number = number * 256 + at[i];
	}
	return number;
}

void plain_put(uint8_t *at, size_t width, uint64_t number)
{
	for (size_t i = width; i-- > 0; number /= 256) {
		at[i] = (uint8_t)(number % 256);
	}
}

void plain_zeros(uint8_t *at, size_t count)
{
	plain_put(at, count, 0);
}

plain_faults plain_fault_if(bool holds, unsigned bit)
{
	return holds ? PLAIN_FAULT(bit) : 0;
}

uint8_t plain_answer(plain_faults faults)
{
	if (faults & PLAIN_LENGTH_FAULTS) {
		return 1;
	}
	return faults ? 2 : 0;
}

/* ---- OPEN (01, OPEN address frame) */

static plain_faults open_length_faults(size_t frame_len)
{
	return plain_fault_if(frame_len < 28, OPEN_SHORTER) | plain_fault_if(frame_len > 28, OPEN_LONGER);
}

static plain_faults open_field_faults(const uint64_t fields[OPEN_FIELDS])
{
	return plain_fault_if(fields[OPEN_INITIATOR] > 1, OPEN_BAD_INITIATOR) |
	       plain_fault_if(fields[OPEN_PROTOCOL] > 2, OPEN_BAD_PROTOCOL) |
	       plain_fault_if(fields[OPEN_FEATURES] > 15, OPEN_BAD_FEATURES) |
	       plain_fault_if(fields[OPEN_RATE] < 8 || fields[OPEN_RATE] > 10, OPEN_BAD_RATE);
}

static void split_first_bytes(const uint8_t *frame, uint64_t fields[OPEN_FIELDS])
{
	fields[OPEN_INITIATOR] = frame[0] / 128;
	fields[OPEN_PROTOCOL] = frame[0] / 16 % 8;
	fields[OPEN_FEATURES] = frame[1] / 16;
	fields[OPEN_RATE] = frame[1] % 16;
}

/* A frame too short to have both of its first bytes has no field to be wrong. */
static plain_faults open_frame_faults(const uint8_t *frame, size_t frame_len)
{
	uint64_t fields[OPEN_FIELDS];
	plain_faults faults = open_length_faults(frame_len);
	if (frame_len < 2) {
		return faults;
	}
	split_first_bytes(frame, fields);
	return faults | plain_fault_if(frame[0] % 16 != 1, OPEN_BAD_TYPE) | open_field_faults(fields);
}

plain_faults plain_open_read(const uint8_t *frame, size_t frame_len, uint64_t fields[OPEN_FIELDS])
{
	plain_faults faults = open_frame_faults(frame, frame_len);
	if (faults) {
		return faults;
	}
	split_first_bytes(frame, fields);
	fields[OPEN_TAG] = plain_number(frame + 2, 2);
	fields[OPEN_DESTINATION] = plain_number(frame + 4, 8);
	fields[OPEN_SOURCE] = plain_number(frame + 12, 8);
	fields[OPEN_PBC] = plain_number(frame + 21, 1);
	fields[OPEN_AWT] = plain_number(frame + 22, 2);
	return 0;
}

plain_faults plain_open_write(const uint64_t fields[OPEN_FIELDS], uint8_t *frame, size_t frame_len)
{
	plain_faults faults = open_length_faults(frame_len) | open_field_faults(fields);
	if (faults) {
		return faults;
	}
	plain_put(frame, 1, fields[OPEN_INITIATOR] * 128 + fields[OPEN_PROTOCOL] * 16 + 1);
	plain_put(frame + 1, 1, fields[OPEN_FEATURES] * 16 + fields[OPEN_RATE]);
	plain_put(frame + 2, 2, fields[OPEN_TAG]);
	plain_put(frame + 4, 8, fields[OPEN_DESTINATION]);
	plain_put(frame + 12, 8, fields[OPEN_SOURCE]);
	plain_zeros(frame + 20, 1);
	plain_put(frame + 21, 1, fields[OPEN_PBC]);
	plain_put(frame + 22, 2, fields[OPEN_AWT]);
	plain_zeros(frame + 24, 4);
	return 0;
}

/* ---- DATA (01, Read transfer, DATA frame) */

size_t plain_data_fill(size_t body_len)
{
	size_t fill = 0;
	while ((body_len + fill) % 4 != 0) {
		fill++;
	}
	return fill;
}

/* Whether header byte k may have this value. */
static bool header_byte_fits(size_t k, uint8_t value)
{
	switch (k) {
	case 0: /* type */
		return value == 1;
	case 10: /* changing data pointer */
		return value <= 1;
	case 11: /* fill count */
		return value <= 3;
	case 18: /* transfer tag */
	case 19:
		return value == 0xFF;
	case 4: /* the rest zero */
	case 8:
	case 9:
	case 12:
	case 13:
	case 14:
	case 15:
		return value == 0;
	default: /* hashed addresses, tag, offset */
		return true;
	}
}

static plain_faults data_length_faults(size_t frame_len)
{
	return plain_fault_if(frame_len < 28, DATA_BELOW_28) | plain_fault_if(frame_len > 1048, DATA_ABOVE_1048) |
	       plain_fault_if(frame_len % 4 != 0, DATA_NOT_FOURS);
}

static plain_faults data_header_faults(const uint8_t *frame)
{
	plain_faults faults = 0;
	for (size_t k = 0; k < 24; k++) {
		faults |= plain_fault_if(!header_byte_fits(k, frame[k]), DATA_BAD_BYTE_0 + (unsigned)k);
	}
	return faults;
}

static plain_faults data_fill_faults(const uint8_t *frame, size_t frame_len)
{
	plain_faults faults = 0;
	for (size_t i = frame_len - frame[11]; i < frame_len; i++) {
		faults |= plain_fault_if(frame[i] != 0, DATA_BAD_FILL);
	}
	return faults;
}

/* A frame too short has no header to be wrong, and without a fill count there is no fill. */
static plain_faults data_frame_faults(const uint8_t *frame, size_t frame_len)
{
	plain_faults faults = data_length_faults(frame_len);
	if (frame_len < 28) {
		return faults | (frame_len < 24 ? 0 : data_header_faults(frame));
	}
	faults |= data_header_faults(frame);
	return header_byte_fits(11, frame[11]) ? faults | data_fill_faults(frame, frame_len) : faults;
}

plain_faults plain_data_read(const uint8_t *frame, size_t frame_len, uint64_t fields[DATA_FIELDS])
{
	plain_faults faults = data_frame_faults(frame, frame_len);
	if (faults) {
		return faults;
	}
	fields[DATA_HASHED_DESTINATION] = plain_number(frame + 1, 3);
	fields[DATA_HASHED_SOURCE] = plain_number(frame + 5, 3);
	fields[DATA_CHANGING] = frame[10];
	fields[DATA_TAG] = plain_number(frame + 16, 2);
	fields[DATA_OFFSET] = plain_number(frame + 20, 4);
	fields[DATA_LENGTH] = frame_len - 24 - frame[11];
	return 0;
}

static plain_faults data_write_faults(const uint64_t fields[DATA_FIELDS], size_t frame_len)
{
	size_t body_len = (size_t)fields[DATA_LENGTH];
	return plain_fault_if(body_len < 1, DATA_BODY_EMPTY) | plain_fault_if(body_len > 1024, DATA_BODY_ABOVE_1024) |
	       plain_fault_if(frame_len < 24 + body_len + plain_data_fill(body_len), DATA_OUTPUT_SHORT) |
	       plain_fault_if(fields[DATA_HASHED_DESTINATION] > 0xFFFFFF, DATA_BAD_DESTINATION) |
	       plain_fault_if(fields[DATA_HASHED_SOURCE] > 0xFFFFFF, DATA_BAD_SOURCE) |
	       plain_fault_if(fields[DATA_CHANGING] > 1, DATA_BAD_CHANGING);
}

plain_faults plain_data_write(const uint64_t fields[DATA_FIELDS], const uint8_t *body, uint8_t *frame,
                              size_t frame_len)
{
	size_t body_len = (size_t)fields[DATA_LENGTH];
	size_t fill = plain_data_fill(body_len);
	plain_faults faults = data_write_faults(fields, frame_len);
	if (faults) {
		return faults;
	}
	plain_put(frame, 1, 1);
	plain_put(frame + 1, 3, fields[DATA_HASHED_DESTINATION]);
	plain_zeros(frame + 4, 1);
	plain_put(frame + 5, 3, fields[DATA_HASHED_SOURCE]);
	plain_zeros(frame + 8, 2);
	plain_put(frame + 10, 1, fields[DATA_CHANGING]);
	plain_put(frame + 11, 1, fill);
	plain_zeros(frame + 12, 4);
	plain_put(frame + 16, 2, fields[DATA_TAG]);
	plain_put(frame + 18, 2, 0xFFFF);
	plain_put(frame + 20, 4, fields[DATA_OFFSET]);
	for (size_t i = 0; i < body_len; i++) {
		frame[24 + i] = body[i];
	}
	plain_zeros(frame + 24 + body_len, fill);
	return 0;
}
