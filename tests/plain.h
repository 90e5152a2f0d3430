/*
 * A plain coder of both frames, written from document 01 alone: what the tests hold the library against.
 *
 * It shares nothing with include/sonerwal.h, works byte by byte, and favours being obvious over being fast.
 * Fields travel as arrays of numbers, so that a test can go through them in a loop.
 */
#ifndef SONERWAL_TESTS_PLAIN_H
#define SONERWAL_TESTS_PLAIN_H

#include <stdbool.h>
#include <stddef.h>
#include <stdint.h>

enum plain_open_field {
	OPEN_INITIATOR,
	OPEN_PROTOCOL,
	OPEN_FEATURES,
	OPEN_RATE,
	OPEN_TAG,
	OPEN_DESTINATION,
	OPEN_SOURCE,
	OPEN_PBC,
	OPEN_AWT,
	OPEN_FIELDS
};

enum plain_data_field {
	DATA_HASHED_DESTINATION,
	DATA_HASHED_SOURCE,
	DATA_CHANGING,
	DATA_TAG,
	DATA_OFFSET,
	DATA_LENGTH,
	DATA_FIELDS
};

/*
 * Everything that is wrong with a call, one bit for each cause. The low three bits are causes of refusal 1, the
 * others of refusal 2.
 */
typedef uint32_t plain_faults;

#define PLAIN_FAULT(bit) ((plain_faults)1 << (bit))
#define PLAIN_LENGTH_FAULTS ((plain_faults)7)

enum plain_open_fault {
	OPEN_SHORTER = 0,
	OPEN_LONGER = 1,
	OPEN_BAD_TYPE = 3,
	OPEN_BAD_INITIATOR,
	OPEN_BAD_PROTOCOL,
	OPEN_BAD_FEATURES,
	OPEN_BAD_RATE,
	OPEN_FAULTS
};

enum plain_data_read_fault {
	DATA_BELOW_28 = 0,
	DATA_ABOVE_1048 = 1,
	DATA_NOT_FOURS = 2,
	DATA_BAD_BYTE_0 = 3, /* header byte k off the layout: DATA_BAD_BYTE_0 + k */
	DATA_BAD_FILL = DATA_BAD_BYTE_0 + 24,
	DATA_READ_FAULTS
};

enum plain_data_write_fault {
	DATA_BODY_EMPTY = 0,
	DATA_BODY_ABOVE_1024 = 1,
	DATA_OUTPUT_SHORT = 2,
	DATA_BAD_DESTINATION = 3,
	DATA_BAD_SOURCE,
	DATA_BAD_CHANGING,
	DATA_WRITE_FAULTS
};

plain_faults plain_fault_if(bool holds, unsigned bit);

/* The answer that document 01 gives to a call with these faults. */
uint8_t plain_answer(plain_faults faults);

/* A number in this many bytes, the highest first, and zeros. */
uint64_t plain_number(const uint8_t *at, size_t width);
void plain_put(uint8_t *at, size_t width, uint64_t number);
void plain_zeros(uint8_t *at, size_t count);

/* Each of these names the faults of a call and, where there are none, does what the call is for. */
plain_faults plain_open_read(const uint8_t *frame, size_t frame_len, uint64_t fields[OPEN_FIELDS]);
plain_faults plain_open_write(const uint64_t fields[OPEN_FIELDS], uint8_t *frame, size_t frame_len);
plain_faults plain_data_read(const uint8_t *frame, size_t frame_len, uint64_t fields[DATA_FIELDS]);
/* fields[DATA_LENGTH] is the length of body. */
plain_faults plain_data_write(const uint64_t fields[DATA_FIELDS], const uint8_t *body, uint8_t *frame,
                              size_t frame_len);

/* The zero bytes behind this many data bytes. */
size_t plain_data_fill(size_t body_len);

#endif
