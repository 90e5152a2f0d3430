/*
 * The transfer's calls of sonerwal.h as a C engineer would write them: the same signatures, states by value, and the same tests, among
 * them that of the whole state before each step, the same answers and the same bytes.
 */
#ifndef SONERWAL_BENCH_PLAIN_STEPS_H
#define SONERWAL_BENCH_PLAIN_STEPS_H

#include "sonerwal.h"

#include <stdbool.h>

struct sonerwal_transfer_step plain_transfer_start(struct sonerwal_transfer s, uint32_t offset, uint32_t count,
                                                   uint32_t size, uint32_t resends);
struct sonerwal_transfer_step plain_transfer_frame(struct sonerwal_transfer s);
struct sonerwal_transfer_step plain_transfer_ack(struct sonerwal_transfer s);
struct sonerwal_transfer_step plain_transfer_nak(struct sonerwal_transfer s);
struct sonerwal_transfer_step plain_transfer_timeout(struct sonerwal_transfer s);
struct sonerwal_transfer_step plain_transfer_lost(struct sonerwal_transfer s);
struct sonerwal_transfer_step plain_transfer_nexus(struct sonerwal_transfer s);
struct sonerwal_transfer_step plain_transfer_cancel(struct sonerwal_transfer s);
struct sonerwal_transfer_step plain_transfer_next(struct sonerwal_transfer s, uint32_t hashed_destination,
                                                  uint32_t hashed_source, uint16_t tag, const uint8_t *body,
                                                  size_t body_len, uint8_t *frame, size_t frame_len);
uint32_t plain_transfer_length(struct sonerwal_transfer s);

/* Whether the state is that before START, or some START and calls after it leave it. */
bool plain_transfer_taken(const struct sonerwal_transfer *s);

/* What crossing costs: the state goes in and comes back, and nothing is looked at. */
struct sonerwal_transfer_step plain_transfer_crossing(struct sonerwal_transfer s);

#endif
