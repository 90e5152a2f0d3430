#include "plain.h"
#include "plain_data.h"

uint8_t plain_open_read(const uint8_t *frame, size_t frame_len, uint8_t *initiator, uint8_t *protocol,
                        uint8_t *features, uint8_t *rate, uint16_t *tag, uint64_t *destination, uint64_t *source,
                        uint8_t *pbc, uint16_t *awt)
{
	if (frame_len != 28) {
		return 1;
	}
	uint8_t first = frame[0], second = frame[1];
	uint8_t kind = first >> 4 & 7, speed = second & 15;
	if ((first & 15) != 1 || kind > 2 || speed < 8 || speed > 10) {
		return 2;
	}
	*initiator = first >> 7;
	*protocol = kind;
	*features = second >> 4;
	*rate = speed;
	*tag = load16(frame + 2);
	*destination = load64(frame + 4);
	*source = load64(frame + 12);
	*pbc = frame[21];
	*awt = load16(frame + 22);
	return 0;
}

uint8_t plain_open_write(uint8_t initiator, uint8_t protocol, uint8_t features, uint8_t rate, uint16_t tag,
                         uint64_t destination, uint64_t source, uint8_t pbc, uint16_t awt, uint8_t *frame,
                         size_t frame_len)
{
	if (frame_len != 28) {
		return 1;
	}
	if (initiator > 1 || protocol > 2 || features > 15 || rate < 8 || rate > 10) {
		return 2;
	}
	frame[0] = (uint8_t)(initiator << 7 | protocol << 4 | 1);
	frame[1] = (uint8_t)(features << 4 | rate);
	store16(frame + 2, tag);
	store64(frame + 4, destination);
	store64(frame + 12, source);
	store32(frame + 20, (uint32_t)pbc << 16 | awt);
	store32(frame + 24, 0);
	return 0;
}

uint8_t plain_data_read(const uint8_t *frame, size_t frame_len, uint32_t *hashed_destination,
                        uint32_t *hashed_source, uint8_t *changing, uint16_t *tag, uint32_t *offset,
                        uint16_t *length)
{
	if (frame_len < 28 || frame_len > 1048 || frame_len % 4 != 0) {
		return 1;
	}
	uint32_t to = load32(frame), from = load32(frame + 4), bits = load32(frame + 8), tags = load32(frame + 16);
	uint32_t fill = bits & 3;
	uint32_t fill_bytes = load32(frame + frame_len - 4) & ((UINT32_C(1) << 8 * fill) - 1);
	if (to >> 24 != 1 || from >> 24 != 0 || (bits & 0xFFFFFEFC) != 0 || load32(frame + 12) != 0 ||
	    (tags & 0xFFFF) != 0xFFFF || fill_bytes != 0) {
		return 2;
	}
	*hashed_destination = to & 0xFFFFFF;
	*hashed_source = from;
	*changing = (uint8_t)(bits >> 8);
	*tag = (uint16_t)(tags >> 16);
	*offset = load32(frame + 20);
	*length = (uint16_t)(frame_len - 24 - fill);
	return 0;
}

uint8_t plain_data_write(uint32_t hashed_destination, uint32_t hashed_source, uint8_t changing, uint16_t tag,
                         uint32_t offset, const uint8_t *body, size_t body_len, uint8_t *frame, size_t frame_len)
{
	if (body_len < 1 || body_len > 1024 || frame_len < data_frame_size(body_len)) {
		return 1;
	}
	if (hashed_destination > 0xFFFFFF || hashed_source > 0xFFFFFF || changing > 1) {
		return 2;
	}
	store_data(hashed_destination, hashed_source, changing, tag, offset, body, body_len, frame);
	return 0;
}

uint8_t plain_xfer_rdy_read(const uint8_t *frame, size_t frame_len, uint32_t *hashed_destination,
                            uint32_t *hashed_source, uint8_t *retransmit, uint8_t *retry, uint16_t *tag,
                            uint16_t *transfer, uint32_t *offset, uint32_t *length)
{
	if (frame_len != 36) {
		return 1;
	}
	uint32_t to = load32(frame), from = load32(frame + 4), bits = load32(frame + 8), tags = load32(frame + 16);
	uint32_t count = load32(frame + 28);
	if (to >> 24 != 5 || from >> 24 != 0 || (bits & 0xFFFFF9FF) != 0 || load32(frame + 12) != 0 || load32(frame + 20) != 0 ||
	    count == 0 || load32(frame + 32) != 0) {
		return 2;
	}
	*hashed_destination = to & 0xFFFFFF;
	*hashed_source = from;
	*retransmit = bits >> 9 & 1;
	*retry = (uint8_t)(bits >> 10);
	*tag = (uint16_t)(tags >> 16);
	*transfer = (uint16_t)tags;
	*offset = load32(frame + 24);
	*length = count;
	return 0;
}

uint8_t plain_xfer_rdy_write(uint32_t hashed_destination, uint32_t hashed_source, uint8_t retransmit, uint8_t retry,
                             uint16_t tag, uint16_t transfer, uint32_t offset, uint32_t length, uint8_t *frame,
                             size_t frame_len)
{
	if (frame_len < 36) {
		return 1;
	}
	if (hashed_destination > 0xFFFFFF || hashed_source > 0xFFFFFF || retransmit > 1 || retry > 1 || length == 0) {
		return 2;
	}
	store_xfer_rdy(hashed_destination, hashed_source, (uint32_t)retransmit << 1 | (uint32_t)retry << 2, tag, transfer, offset, length, frame);
	return 0;
}

uint8_t plain_data_out_read(const uint8_t *frame, size_t frame_len, uint32_t *hashed_destination,
                            uint32_t *hashed_source, uint8_t *changing, uint16_t *tag, uint16_t *transfer,
                            uint32_t *offset, uint16_t *length)
{
	return load_data_out(frame, frame_len, hashed_destination, hashed_source, changing, tag, transfer, offset, length);
}

uint8_t plain_data_out_write(uint32_t hashed_destination, uint32_t hashed_source, uint8_t changing, uint16_t tag,
                             uint16_t transfer, uint32_t offset, const uint8_t *body, size_t body_len, uint8_t *frame,
                             size_t frame_len)
{
	if (body_len < 1 || body_len > 1024 || frame_len < data_frame_size(body_len)) {
		return 1;
	}
	if (hashed_destination > 0xFFFFFF || hashed_source > 0xFFFFFF || changing > 1) {
		return 2;
	}
	uint32_t fill = (uint32_t)-body_len & 3;
	store_header(1, hashed_destination, hashed_source, changing, fill, tag, transfer, offset, frame);
	memcpy(frame + 24, body, body_len);
	memset(frame + 24 + body_len, 0, fill);
	return 0;
}

uint8_t plain_response_read(const uint8_t *frame, size_t frame_len, uint32_t *hashed_destination,
                            uint32_t *hashed_source, uint8_t *retransmit, uint16_t *tag, uint8_t *present,
                            uint8_t *status, uint16_t *length)
{
	if (frame_len < 48 || frame_len > 1048 || frame_len % 4 != 0) {
		return 1;
	}
	uint32_t to = load32(frame), from = load32(frame + 4), bits = load32(frame + 8), tags = load32(frame + 16);
	uint32_t fill = bits & 3, kind = frame[34];
	size_t body_len = frame_len - 48 - fill;
	if (to >> 24 != 7 || from >> 24 != 0 || (bits & 0xFFFFFDFC) != 0 || load32(frame + 12) != 0 || (tags & 0xFFFF) != 0xFFFF ||
	    load32(frame + 20) != 0 || load64(frame + 24) != 0 || load16(frame + 32) != 0 || load32(frame + 36) != 0 ||
	    !ends_in_zeros(frame, frame_len, fill)) {
		return 2;
	}
	if (frame_len < 48 + fill || kind > 2 || (kind == 1 && frame[35] != 0) || !kind_takes(kind, body_len) ||
	    load32(frame + 40) != (kind == 2 ? body_len : 0) || load32(frame + 44) != (kind == 1 ? body_len : 0)) {
		return 2;
	}
	*hashed_destination = to & 0xFFFFFF;
	*hashed_source = from;
	*retransmit = (uint8_t)(bits >> 9);
	*tag = (uint16_t)(tags >> 16);
	*present = (uint8_t)kind;
	*status = frame[35];
	*length = (uint16_t)body_len;
	return 0;
}

uint8_t plain_response_write(uint32_t hashed_destination, uint32_t hashed_source, uint8_t retransmit, uint16_t tag,
                             uint8_t present, uint8_t status, const uint8_t *body, size_t body_len, uint8_t *frame,
                             size_t frame_len)
{
	if (body_len > 1000 || !kind_takes(present, body_len) || frame_len < 48 + (body_len + 3) / 4 * 4) {
		return 1;
	}
	if (hashed_destination > 0xFFFFFF || hashed_source > 0xFFFFFF || retransmit > 1 || present > 2 || (present == 1 && status != 0)) {
		return 2;
	}
	store_response(hashed_destination, hashed_source, retransmit, tag, present, status, body, body_len, frame);
	return 0;
}
