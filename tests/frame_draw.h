/* Values for the fields of a frame: within a field's range, with its ends often among them, and outside it. */
#ifndef SONERWAL_TESTS_FRAME_DRAW_H
#define SONERWAL_TESTS_FRAME_DRAW_H

#include "cover.h"

#include <stdbool.h>

/* One value within its range for each field. */
void draw_all(const struct field *fields, size_t count, uint64_t *values);

/* Whether the number that carries the field can hold a value that the field can't. */
bool has_outside(const struct field *field);

/* The value just past the range, the largest of all, or any other outside; where the range ends with the largest, one before it. */
uint64_t draw_outside(const struct field *field);

#endif
