/*
 * The two calls of a saved transfer as a C engineer would write them: the same signatures, the same tests in the same order, the
 * same answers and the same bytes.
 */
#ifndef SONERWAL_BENCH_PLAIN_SAVED_H
#define SONERWAL_BENCH_PLAIN_SAVED_H

#include "sonerwal.h"

struct sonerwal_saved plain_transfer_save(struct sonerwal_transfer s, uint8_t form, uint8_t *line, size_t room);
struct sonerwal_transfer_step plain_transfer_restore(const uint8_t *line, size_t length);

#endif
