/*
 * A plain coder of a write's frames, written from request c) of document 02 and the structs of Linux's include/scsi/sas.h
 * alone, as plain.h is from document 01: XFER_RDY, a write's DATA ("data out") and RESPONSE.
 */
#ifndef SONERWAL_TESTS_PLAIN_WRITE_H
#define SONERWAL_TESTS_PLAIN_WRITE_H

#include "plain.h"

enum plain_xfer_field {
	XFER_HASHED_DESTINATION,
	XFER_HASHED_SOURCE,
	XFER_RETRANSMIT,
	XFER_RETRY,
	XFER_TAG,
	XFER_TRANSFER,
	XFER_OFFSET,
	XFER_LENGTH,
	XFER_FIELDS
};

enum plain_out_field {
	OUT_HASHED_DESTINATION,
	OUT_HASHED_SOURCE,
	OUT_CHANGING,
	OUT_TAG,
	OUT_TRANSFER,
	OUT_OFFSET,
	OUT_LENGTH, /* of the body */
	OUT_FIELDS
};

enum plain_response_field {
	RESPONSE_HASHED_DESTINATION,
	RESPONSE_HASHED_SOURCE,
	RESPONSE_RETRANSMIT,
	RESPONSE_TAG,
	RESPONSE_PRESENT,
	RESPONSE_STATUS,
	RESPONSE_LENGTH, /* of the body */
	RESPONSE_FIELDS
};

/* Faults of a frame that is read: its length, then header byte k off the layout at FRAME_BAD_BYTE_0 + k. */
enum plain_frame_fault {
	FRAME_SHORT = 0,
	FRAME_LONG = 1,
	FRAME_NOT_FOURS = 2,
	FRAME_BAD_BYTE_0 = 3,
	FRAME_BAD_FILL = FRAME_BAD_BYTE_0 + 24, /* a fill byte isn't zero */
	XFER_NO_LENGTH,
	XFER_BAD_LAST, /* bytes 32 to 35 */
	RESPONSE_NO_ROOM = FRAME_BAD_FILL + 1, /* for as much fill as byte 11 says */
	RESPONSE_BAD_ZERO, /* bytes 24 to 33 and 36 to 39 */
	RESPONSE_BAD_KIND, /* data present above 2, or response data with a status */
	RESPONSE_BAD_LENGTHS
};

/* Faults of a writer's call. */
enum plain_write_fault {
	WRITE_BODY_LONG = 0,
	WRITE_BODY_OFF = 1, /* not as long as data of its kind is */
	WRITE_SHORT = 2,
	WRITE_BAD_DESTINATION = 3,
	WRITE_BAD_SOURCE,
	WRITE_BAD_CHANGING,
	WRITE_BAD_RETRANSMIT,
	WRITE_BAD_RETRY,
	WRITE_NO_LENGTH,
	WRITE_BAD_PRESENT,
	WRITE_BAD_STATUS
};

/* The bytes before the data of a frame with these fields and this fill, whether a frame may have them or not. */
void plain_xfer_front(const uint64_t *fields, size_t fill, uint8_t *front);     /* 36 */
void plain_out_front(const uint64_t *fields, size_t fill, uint8_t *front);      /* 24 */
void plain_response_front(const uint64_t *fields, size_t fill, uint8_t *front); /* 48 */

/* Each of these names the faults of a call and, where there are none, does what the call is for. XFER_RDY has no body. */
plain_faults plain_xfer_read(const uint8_t *frame, size_t frame_len, uint64_t *fields);
plain_faults plain_xfer_write(const uint64_t *fields, const uint8_t *body, uint8_t *frame, size_t frame_len);
plain_faults plain_out_read(const uint8_t *frame, size_t frame_len, uint64_t *fields);
plain_faults plain_out_write(const uint64_t *fields, const uint8_t *body, uint8_t *frame, size_t frame_len);
plain_faults plain_response_read(const uint8_t *frame, size_t frame_len, uint64_t *fields);
plain_faults plain_response_write(const uint64_t *fields, const uint8_t *body, uint8_t *frame, size_t frame_len);

#endif
