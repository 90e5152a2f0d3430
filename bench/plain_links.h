/*
 * The link's calls of sonerwal.h as a C engineer would write them: a table that one function walks, with the same signatures, states by
 * value, the same tests and answers.
 */
#ifndef SONERWAL_BENCH_PLAIN_LINKS_H
#define SONERWAL_BENCH_PLAIN_LINKS_H

#include "sonerwal.h"

struct sonerwal_link_step plain_link_event(struct sonerwal_link s, struct sonerwal_event e, struct sonerwal_open frame);
struct sonerwal_link_step plain_link_receive(struct sonerwal_link s, const uint8_t *frame, size_t frame_len);
uint8_t plain_link_status(struct sonerwal_link s);

/* What crossing costs: link, event and frame go in and the link comes back, and nothing is looked at. */
struct sonerwal_link_step plain_link_crossing(struct sonerwal_link s, struct sonerwal_event e, struct sonerwal_open frame);

#endif
