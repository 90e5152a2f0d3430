/*
 * The write's and the reply's calls of sonerwal.h as a C engineer would write them: the same signatures, states by value, and the same
 * tests, among them that of the whole state before each step, the same answers and the same bytes.
 */
#ifndef SONERWAL_BENCH_PLAIN_WRITES_H
#define SONERWAL_BENCH_PLAIN_WRITES_H

#include "sonerwal.h"

struct sonerwal_write_step plain_write_start(struct sonerwal_write s, uint32_t offset, uint32_t count, uint32_t burst,
                                             uint32_t resends);
struct sonerwal_write_step plain_write_xfer(struct sonerwal_write s, uint64_t others);
struct sonerwal_write_step plain_write_ack(struct sonerwal_write s);
struct sonerwal_write_step plain_write_nak(struct sonerwal_write s);
struct sonerwal_write_step plain_write_timeout(struct sonerwal_write s);
struct sonerwal_write_step plain_write_lost(struct sonerwal_write s);
struct sonerwal_write_step plain_write_got(struct sonerwal_write s, uint16_t transfer, uint32_t offset, uint32_t length);
struct sonerwal_write_step plain_write_nexus(struct sonerwal_write s);
struct sonerwal_write_step plain_write_cancel(struct sonerwal_write s);
struct sonerwal_write_step plain_write_ask(struct sonerwal_write s, uint64_t others, uint32_t hashed_destination,
                                           uint32_t hashed_source, uint16_t tag, uint8_t *frame, size_t frame_len);
struct sonerwal_write_step plain_write_take(struct sonerwal_write s, uint32_t hashed_destination, uint32_t hashed_source,
                                            uint16_t tag, const uint8_t *frame, size_t frame_len, uint8_t *store,
                                            size_t store_len);

struct sonerwal_reply_step plain_reply_start(struct sonerwal_reply s, uint32_t resends);
struct sonerwal_reply_step plain_reply_ack(struct sonerwal_reply s);
struct sonerwal_reply_step plain_reply_nak(struct sonerwal_reply s);
struct sonerwal_reply_step plain_reply_timeout(struct sonerwal_reply s);
struct sonerwal_reply_step plain_reply_lost(struct sonerwal_reply s);
struct sonerwal_reply_step plain_reply_nexus(struct sonerwal_reply s);
struct sonerwal_reply_step plain_reply_cancel(struct sonerwal_reply s);
struct sonerwal_reply_step plain_reply_respond(struct sonerwal_reply s, uint32_t hashed_destination, uint32_t hashed_source,
                                               uint16_t tag, uint8_t present, uint8_t status, const uint8_t *body,
                                               size_t body_len, uint8_t *frame, size_t frame_len);

/* Not of sonerwal.h: takes a write and gives it back, which is part of every call's time. */
struct sonerwal_write_step plain_write_crossing(struct sonerwal_write s);

#endif
