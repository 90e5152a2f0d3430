/*
 * The frame calls as a C engineer would write them for speed: the calls of sonerwal.h under other names, with the
 * same tests, the same answers and the same bytes. The benchmark measures the library against them.
 */
#ifndef SONERWAL_BENCH_PLAIN_H
#define SONERWAL_BENCH_PLAIN_H

#include <stddef.h>
#include <stdint.h>

uint8_t plain_open_read(const uint8_t *frame, size_t frame_len, uint8_t *initiator, uint8_t *protocol,
                        uint8_t *features, uint8_t *rate, uint16_t *tag, uint64_t *destination, uint64_t *source,
                        uint8_t *pbc, uint16_t *awt);
uint8_t plain_open_write(uint8_t initiator, uint8_t protocol, uint8_t features, uint8_t rate, uint16_t tag,
                         uint64_t destination, uint64_t source, uint8_t pbc, uint16_t awt, uint8_t *frame,
                         size_t frame_len);
uint8_t plain_data_read(const uint8_t *frame, size_t frame_len, uint32_t *hashed_destination,
                        uint32_t *hashed_source, uint8_t *changing, uint16_t *tag, uint32_t *offset,
                        uint16_t *length);
uint8_t plain_data_write(uint32_t hashed_destination, uint32_t hashed_source, uint8_t changing, uint16_t tag,
                         uint32_t offset, const uint8_t *body, size_t body_len, uint8_t *frame, size_t frame_len);
uint8_t plain_xfer_rdy_read(const uint8_t *frame, size_t frame_len, uint32_t *hashed_destination,
                            uint32_t *hashed_source, uint8_t *retransmit, uint8_t *retry, uint16_t *tag,
                            uint16_t *transfer, uint32_t *offset, uint32_t *length);
uint8_t plain_xfer_rdy_write(uint32_t hashed_destination, uint32_t hashed_source, uint8_t retransmit, uint8_t retry,
                             uint16_t tag, uint16_t transfer, uint32_t offset, uint32_t length, uint8_t *frame,
                             size_t frame_len);
uint8_t plain_data_out_read(const uint8_t *frame, size_t frame_len, uint32_t *hashed_destination,
                            uint32_t *hashed_source, uint8_t *changing, uint16_t *tag, uint16_t *transfer,
                            uint32_t *offset, uint16_t *length);
uint8_t plain_data_out_write(uint32_t hashed_destination, uint32_t hashed_source, uint8_t changing, uint16_t tag,
                             uint16_t transfer, uint32_t offset, const uint8_t *body, size_t body_len, uint8_t *frame,
                             size_t frame_len);
uint8_t plain_response_read(const uint8_t *frame, size_t frame_len, uint32_t *hashed_destination,
                            uint32_t *hashed_source, uint8_t *retransmit, uint16_t *tag, uint8_t *present,
                            uint8_t *status, uint16_t *length);
uint8_t plain_response_write(uint32_t hashed_destination, uint32_t hashed_source, uint8_t retransmit, uint16_t tag,
                             uint8_t present, uint8_t status, const uint8_t *body, size_t body_len, uint8_t *frame,
                             size_t frame_len);

#endif
