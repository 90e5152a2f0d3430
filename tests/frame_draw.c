#include "frame_draw.h"

#include "check.h"

/* Noise alone would hardly meet the ends of a range: each is an eighth of what is drawn. */
static uint64_t draw(const struct field *field)
{
	uint64_t values = field->high - field->low + 1; /* 0 stands for all of 64 bits */
	switch (noise_below(8)) {
	case 0:
		return field->low;
	case 1:
		return field->high;
	default:
		return values == 0 ? noise() : field->low + noise_below(values);
	}
}

static uint64_t largest(const struct field *field)
{
	return UINT64_MAX >> (64 - 8 * field->width);
}

static bool within(const struct field *field, uint64_t value)
{
	return field->low <= value && value <= field->high;
}

bool has_outside(const struct field *field)
{
	return field->low > 0 || field->high < largest(field);
}

uint64_t draw_outside(const struct field *field)
{
	uint64_t value = field->high + 1;
	if (field->high == largest(field)) {
		return noise_below(field->low);
	}
	switch (noise_below(4)) {
	case 0:
		return value;
	case 1:
		return largest(field);
	default:
		do {
			value = noise() & largest(field);
		} while (within(field, value));
		return value;
	}
}

void draw_all(const struct field *fields, size_t count, uint64_t *values)
{
	for (size_t i = 0; i < count; i++) {
		values[i] = draw(&fields[i]);
	}
}
