#include "frame_cases.h"

#include "check.h"

#include <stdio.h>
#include <string.h>

enum { REPORTS = 3 }; /* failed cases that one test describes */

/* ---- What a call is lent */

struct lent lent_ours, lent_plain;

/* Buffers start at any address: firmware owes no alignment of bytes. */
static size_t frame_at = GUARD, body_at = GUARD;

uint8_t *frame_of(struct lent *lent)
{
	return lent->frame + frame_at;
}

uint8_t *body_of(struct lent *lent)
{
	return lent->body + body_at;
}

void lend(size_t frame_len, size_t body_len)
{
	frame_at = GUARD + (size_t)noise_below(8);
	body_at = GUARD + (size_t)noise_below(8);
	noise_fill(lent_ours.frame, GUARD + frame_len + GUARD);
	noise_fill(lent_ours.body, GUARD + body_len + GUARD);
	noise_fill(lent_ours.number, sizeof lent_ours.number);
}

void copy_for_plain(void)
{
	memcpy(&lent_plain, &lent_ours, sizeof lent_plain);
}

void store_for_plain(const struct field *fields, const uint64_t *values, size_t count)
{
	for (size_t i = 0; i < count; i++) {
		switch (fields[i].width) {
		case 1:
			lent_plain.number[i].at.u8 = (uint8_t)values[i];
			break;
		case 2:
			lent_plain.number[i].at.u16 = (uint16_t)values[i];
			break;
		case 4:
			lent_plain.number[i].at.u32 = (uint32_t)values[i];
			break;
		default:
			lent_plain.number[i].at.u64 = values[i];
		}
	}
}

/* ---- Tests of many cases */

/* Where a byte of the lent memory lies, for a reader of a report. */
static void name_place(size_t at, char *name, size_t size)
{
	const char *part = "number";
	long offset = (long)(at - offsetof(struct lent, number)) / (long)sizeof(struct number);
	if (at < offsetof(struct lent, body)) {
		part = "frame";
		offset = (long)at - (long)frame_at;
	} else if (at < offsetof(struct lent, number)) {
		part = "body";
		offset = (long)(at - offsetof(struct lent, body)) - (long)body_at;
	}
	snprintf(name, size, "%s[%ld]", part, offset);
}

static void report(const struct test *test, const struct call *call, uint8_t answer, uint8_t expected)
{
	const uint8_t *got = (const uint8_t *)&lent_ours, *want = (const uint8_t *)&lent_plain;
	char place[32];
	size_t at = 0;
	printf("%s, case %lu: %s answers %d, expected %d", test->name, test->cases, call->name, answer, expected);
	while (at < sizeof lent_ours && got[at] == want[at]) {
		at++;
	}
	if (at < sizeof lent_ours) {
		name_place(at, place, sizeof place);
		printf("; a byte of %s is %02X, expected %02X", place, got[at], want[at]);
	}
	printf("\n");
}

void judge(struct test *test, struct call *call, uint8_t answer, plain_faults faults, const uint64_t *seen)
{
	uint8_t expected = plain_answer(faults);
	test->cases++;
	cover_meet(call, faults, seen);
	if (answer == expected && memcmp(&lent_ours, &lent_plain, sizeof lent_ours) == 0) {
		return;
	}
	test->failed++;
	if (test->failed <= REPORTS) {
		report(test, call, answer, expected);
	}
}

void run_tests(struct test *tests, size_t count)
{
	printf("%-26s %9s %9s\n", "test", "cases", "failed");
	for (size_t i = 0; i < count; i++) {
		struct test *test = &tests[i];
		test->run(test);
		printf("%-26s %9lu %9lu\n", test->name, test->cases, test->failed);
		check(test->failed == 0 && test->cases > 0, "%s: %lu of %lu cases", test->name, test->failed,
		      test->cases);
	}
}
