#include "cover.h"

#include "check.h"

#include <inttypes.h>
#include <stdio.h>

static bool each_value_counts(const struct field *field)
{
	return field->high - field->low < CLASSES;
}

static size_t class_count(const struct field *field)
{
	return each_value_counts(field) ? (size_t)(field->high - field->low + 1) : 3;
}

static size_t class_of(const struct field *field, uint64_t value)
{
	if (each_value_counts(field)) {
		return (size_t)(value - field->low);
	}
	return value == field->low ? 0 : value == field->high ? 2 : 1;
}

void cover_meet(struct call *call, plain_faults faults, const uint64_t *seen)
{
	call->answers[plain_answer(faults)]++;
	if (faults == 0) {
		for (size_t i = 0; i < call->field_count; i++) {
			call->classes[i][class_of(&call->fields[i], seen[i])]++;
		}
	} else if ((faults & PLAIN_LENGTH_FAULTS) && (faults & ~PLAIN_LENGTH_FAULTS)) {
		call->both++;
	}
	for (size_t bit = 0; bit < CAUSES; bit++) {
		call->alone[bit] += faults == PLAIN_FAULT(bit);
	}
}

/* One class of a coverage line; one that nothing reached is a failure. */
static void cover(const struct call *call, const char *line, const char *class, unsigned long hits)
{
	printf("  %s: %lu", class, hits);
	if (hits == 0) {
		printf("\n");
	}
	check(hits > 0, "%s, %s: no case reached %s", call->name, line, class);
}

static void name_class(const struct field *field, size_t class, char *name, size_t size)
{
	if (!each_value_counts(field) && class == 1) {
		snprintf(name, size, "between");
		return;
	}
	uint64_t value = each_value_counts(field) ? field->low + class : class ? field->high : field->low;
	snprintf(name, size, value > UINT16_MAX ? "%" PRIX64 : "%" PRIu64, value);
}

static void cover_field(const struct call *call, size_t index)
{
	const struct field *field = &call->fields[index];
	char class[24];
	printf("  %-14s", field->name);
	for (size_t i = 0; i < class_count(field); i++) {
		name_class(field, i, class, sizeof class);
		cover(call, field->name, class, call->classes[index][i]);
	}
	printf("\n");
}

static void cover_answers(const struct call *call)
{
	const char *const names[] = {"0", "1", "2"};
	printf("  %-14s", "answers");
	for (size_t i = 0; i < 3; i++) {
		cover(call, "answers", names[i], call->answers[i]);
	}
	printf("\n");
}

static void cover_causes(const struct call *call)
{
	printf("  %-14s", "refused for");
	for (size_t bit = 0; bit < CAUSES; bit++) {
		if (call->cause[bit]) {
			cover(call, "refused for", call->cause[bit], call->alone[bit]);
		}
	}
	printf("\n  %-14s", "both");
	cover(call, "both", "1 before 2", call->both);
	printf("\n");
}

void cover_show(const struct call *call)
{
	printf("\n%s: cases that reached\n", call->name);
	cover_answers(call);
	cover_causes(call);
	for (size_t field = 0; field < call->field_count; field++) {
		cover_field(call, field);
	}
}
