/*
 * Loads and stores of big-endian words at any address, on a little-endian machine, and those of SSP frames, for the
 * translation units that read or write one.
 */
#ifndef SONERWAL_BENCH_PLAIN_DATA_H
#define SONERWAL_BENCH_PLAIN_DATA_H

#include <stddef.h>
#include <stdint.h>
#include <string.h>

static inline uint16_t load16(const uint8_t *at)
{
	uint16_t word;
	memcpy(&word, at, sizeof word);
	return __builtin_bswap16(word);
}

static inline uint32_t load32(const uint8_t *at)
{
	uint32_t word;
	memcpy(&word, at, sizeof word);
	return __builtin_bswap32(word);
}

static inline uint64_t load64(const uint8_t *at)
{
	uint64_t word;
	memcpy(&word, at, sizeof word);
	return __builtin_bswap64(word);
}

static inline void store16(uint8_t *at, uint16_t word)
{
	word = __builtin_bswap16(word);
	memcpy(at, &word, sizeof word);
}

static inline void store32(uint8_t *at, uint32_t word)
{
	word = __builtin_bswap32(word);
	memcpy(at, &word, sizeof word);
}

static inline void store64(uint8_t *at, uint64_t word)
{
	word = __builtin_bswap64(word);
	memcpy(at, &word, sizeof word);
}

static inline size_t data_frame_size(size_t body_len)
{
	return 24 + (body_len + 3) / 4 * 4;
}

/* The frame to the front of what has room for it, every field in range. */
static inline void store_data(uint32_t hashed_destination, uint32_t hashed_source, uint8_t changing, uint16_t tag,
                              uint32_t offset, const uint8_t *body, size_t body_len, uint8_t *frame)
{
	uint32_t fill = (uint32_t)-body_len & 3;
	store32(frame, UINT32_C(1) << 24 | hashed_destination);
	store32(frame + 4, hashed_source);
	store32(frame + 8, (uint32_t)changing << 8 | fill);
	store32(frame + 12, 0);
	store32(frame + 16, (uint32_t)tag << 16 | 0xFFFF);
	store32(frame + 20, offset);
	memcpy(frame + 24, body, body_len);
	memset(frame + 24 + body_len, 0, fill);
}

/* The first six words of a frame, every field in range. */
static inline void store_header(uint32_t type, uint32_t hashed_destination, uint32_t hashed_source, uint32_t bits, uint32_t fill,
                                uint16_t tag, uint16_t transfer, uint32_t offset, uint8_t *frame)
{
	store32(frame, type << 24 | hashed_destination);
	store32(frame + 4, hashed_source);
	store32(frame + 8, bits << 8 | fill);
	store32(frame + 12, 0);
	store32(frame + 16, (uint32_t)tag << 16 | transfer);
	store32(frame + 20, offset);
}

static inline void store_xfer_rdy(uint32_t hashed_destination, uint32_t hashed_source, uint32_t bits, uint16_t tag, uint16_t transfer,
                                  uint32_t offset, uint32_t length, uint8_t *frame)
{
	store_header(5, hashed_destination, hashed_source, bits, 0, tag, transfer, 0, frame);
	store32(frame + 24, offset);
	store32(frame + 28, length);
	store32(frame + 32, 0);
}

/* Whether data of this kind may be so long, if it fits a frame. */
static inline int kind_takes(uint32_t present, size_t body_len)
{
	return present == 0 ? body_len == 0 : present == 1 ? body_len == 4 : present != 2 || body_len >= 1;
}

static inline void store_response(uint32_t hashed_destination, uint32_t hashed_source, uint8_t retransmit, uint16_t tag,
                                  uint8_t present, uint8_t status, const uint8_t *body, size_t body_len, uint8_t *frame)
{
	uint32_t fill = (uint32_t)-body_len & 3;
	store_header(7, hashed_destination, hashed_source, (uint32_t)retransmit << 1, fill, tag, 0xFFFF, 0, frame);
	store64(frame + 24, 0);
	store32(frame + 32, (uint32_t)present << 8 | status);
	store32(frame + 36, 0);
	store32(frame + 40, present == 2 ? (uint32_t)body_len : 0);
	store32(frame + 44, present == 1 ? (uint32_t)body_len : 0);
	memcpy(frame + 48, body, body_len);
	memset(frame + 48 + body_len, 0, fill);
}

/* Whether the last bytes of a frame, as many as the fill, are zero. */
static inline int ends_in_zeros(const uint8_t *frame, size_t frame_len, uint32_t fill)
{
	return (load32(frame + frame_len - 4) & ((UINT32_C(1) << 8 * fill) - 1)) == 0;
}

/* Refusal 1 or 2, or 0 and the fields of a write's DATA frame. */
static inline uint8_t load_data_out(const uint8_t *frame, size_t frame_len, uint32_t *hashed_destination,
                                    uint32_t *hashed_source, uint8_t *changing, uint16_t *tag, uint16_t *transfer,
                                    uint32_t *offset, uint16_t *length)
{
	if (frame_len < 28 || frame_len > 1048 || frame_len % 4 != 0) {
		return 1;
	}
	uint32_t to = load32(frame), from = load32(frame + 4), bits = load32(frame + 8), tags = load32(frame + 16);
	uint32_t fill = bits & 3;
	if (to >> 24 != 1 || from >> 24 != 0 || (bits & 0xFFFFFEFC) != 0 || load32(frame + 12) != 0 ||
	    !ends_in_zeros(frame, frame_len, fill)) {
		return 2;
	}
	*hashed_destination = to & 0xFFFFFF;
	*hashed_source = from;
	*changing = (uint8_t)(bits >> 8);
	*tag = (uint16_t)(tags >> 16);
	*transfer = (uint16_t)tags;
	*offset = load32(frame + 20);
	*length = (uint16_t)(frame_len - 24 - fill);
	return 0;
}

#endif
