/*
 * Lines that nobody saved, through sonerwal.h: 2, or the transfer that the line says. Of small requests every line that calls leave is gone
 * through, and all that lie around them, each as a line and as a struct to save; of others extreme lines, with the answer that was agreed on,
 * and very long ones.
 *
 * Usage: saves_lines [SEED]
 */
#include "check.h"
#include "saves_face.h"
#include "steps_left.h"

#include <stdio.h>
#include <stdlib.h>
#include <string.h>

/* ---- Extreme lines */

#define LINE(text) text, sizeof(text) - 1
#define ZEROS "0\t0\t0\t0\t0\t0\t0\t0\t0\t"
#define LARGEST "4294967295"
#define EIGHT_LARGEST LARGEST "\t" LARGEST "\t" LARGEST "\t" LARGEST "\t" LARGEST "\t" LARGEST "\t" LARGEST "\t"

static const struct {
	const char *text;
	size_t length;
	bool taken;
} extremes[] = {
	/* numbers */
	{LINE("1\t" ZEROS "new"), true},
	{LINE("0\t" ZEROS "new"), false},
	{LINE("1\t" ZEROS "run"), false},
	{LINE("1\t" ZEROS "drain"), false},
	{LINE("1\t" ZEROS "done"), false},
	{LINE("1\t" ZEROS "fail"), false},
	{LINE("1\t" ZEROS "end"), false},
	{LINE("1\t" EIGHT_LARGEST "1\t" LARGEST "\trun"), false},
	{LINE(LARGEST "\t" EIGHT_LARGEST LARGEST "\t" LARGEST "\tend"), false},
	{LINE("1\t0\t" LARGEST "\t4\t0\t0\t0\t0\t0\t0\trun"), true},
	{LINE("1\t1\t" LARGEST "\t4\t0\t0\t0\t0\t0\t0\trun"), false},
	{LINE("1\t0\t" LARGEST "\t1024\t255\t" LARGEST "\t4294964224\t3\t1\t255\trun"), true},
	{LINE("1\t0\t" LARGEST "\t1024\t255\t" LARGEST "\t4294964225\t3\t1\t255\trun"), false},
	{LINE("1\t0\t4294967296\t4\t0\t0\t0\t0\t0\t0\trun"), false},
	{LINE("1\t0\t8\t4\t1\t4294967296\t0\t0\t0\t0\trun"), false},
	{LINE("4294967297\t0\t8\t4\t1\t0\t0\t0\t0\t0\trun"), false},
	{LINE("1\t18446744073709551616\t8\t4\t1\t0\t0\t0\t0\t0\trun"), false},
	/* how many are unanswered */
	{LINE("1\t0\t400\t4\t0\t260\t0\t64\t1\t0\trun"), true},
	{LINE("1\t0\t400\t4\t0\t260\t0\t65\t1\t0\trun"), false},
	{LINE("1\t0\t400\t4\t1\t260\t0\t63\t1\t0\tdrain"), true},
	{LINE("1\t0\t400\t4\t1\t260\t0\t64\t1\t0\tdrain"), false},
	{LINE("1\t0\t400\t4\t0\t260\t0\t" LARGEST "\t1\t0\trun"), false},
	/* how they are written */
	{LINE("1\t0\t8\t4\t1\t4\t0\t1\t1\t0\trun"), true},
	{LINE("01\t0\t8\t4\t1\t4\t0\t1\t1\t0\trun"), false},
	{LINE("1\t0\t08\t4\t1\t4\t0\t1\t1\t0\trun"), false},
	{LINE("1\t00\t8\t4\t1\t4\t0\t1\t1\t0\trun"), false},
	{LINE("1\t-0\t8\t4\t1\t4\t0\t1\t1\t0\trun"), false},
	{LINE("1\t0\t+8\t4\t1\t4\t0\t1\t1\t0\trun"), false},
	{LINE("1\t0\t8 \t4\t1\t4\t0\t1\t1\t0\trun"), false},
	{LINE("1\t\t8\t4\t1\t4\t0\t1\t1\t0\trun"), false},
	{LINE("1\t0\t8\t4\t1\t4\t0\t1\t01\t0\trun"), false},
	{LINE("1\t0\t8\t4\t1\t4\t0\t1\t2\t0\trun"), false},
	{LINE("1\t0\t8\t4\t1\t4\t0\t1\t257\t0\trun"), false},
	{LINE("1\t0\t8\t4\t1\t0\t0\t0\t256\t0\trun"), false},
	/* the form, and the phase */
	{LINE("2\t0\t8\t4\t1\t4\t0\t1\t1\t0\trun"), false},
	{LINE("257\t0\t8\t4\t1\t4\t0\t1\t1\t0\trun"), false},
	{LINE("\t0\t8\t4\t1\t4\t0\t1\t1\t0\trun"), false},
	{LINE("1\t0\t8\t4\t1\t4\t0\t1\t1\t0\tnew"), false},
	{LINE("1\t0\t8\t4\t1\t4\t0\t1\t1\t0\tRun"), false},
	{LINE("1\t0\t8\t4\t1\t4\t0\t1\t1\t0\truns"), false},
	{LINE("1\t0\t8\t4\t1\t4\t0\t1\t1\t0\t"), false},
	{LINE("1\t0\t8\t4\t1\t4\t0\t1\t1\t0\t1"), false},
	/* its ends */
	{LINE(""), false},
	{LINE("\t"), false},
	{LINE("\n"), false},
	{LINE("\t\t\t\t\t\t\t\t\t\t"), false},
	{LINE("1\t0\t8\t4\t1\t4\t0\t1\t1\t0\trun\n"), false},
	{LINE("1\t0\t8\t4\t1\t4\t0\t1\t1\t0\trun\r"), false},
	{LINE("1\t0\t8\t4\t1\t4\t0\t1\t1\t0\trun\r\n"), false},
	{LINE("1\t0\t8\t4\t1\t4\t0\t1\t1\t0\trun\t"), false},
	{LINE("1\t0\t8\t4\t1\t4\t0\t1\t1\t0\trun "), false},
	{LINE("1\t0\t8\t4\t1\t4\t0\t1\t1\t0\trun\0"), false},
	{LINE("\0001\t0\t8\t4\t1\t4\t0\t1\t1\t0\trun"), false},
	{LINE("\t1\t0\t8\t4\t1\t4\t0\t1\t1\t0\trun"), false},
	{LINE(" 1\t0\t8\t4\t1\t4\t0\t1\t1\t0\trun"), false},
	{LINE("\xEF\xBB\xBF" "1\t0\t8\t4\t1\t4\t0\t1\t1\t0\trun"), false},
	/* its fields: ten, twelve, and what stands between two */
	{LINE("1\t0\t8\t4\t1\t4\t0\t1\t1\trun"), false},
	{LINE("1\t0\t8\t4\t1\t4\t0\t1\t1\t0"), false},
	{LINE("1\t0\t8\t4\t1\t4\t0\t1\t1\t0\t0\trun"), false},
	{LINE("1\t0\t8\t4\t1\t4\t0\t1\t1\t0\trun\trun"), false},
	{LINE("1\t0\t8\t4\t1\t4\t0\t1\t1\t0\t\trun"), false},
	{LINE("1 0 8 4 1 4 0 1 1 0 run"), false},
	{LINE("1,0,8,4,1,4,0,1,1,0,run"), false},
};

/* 02 a.5 */
static void extreme_lines(void)
{
	for (size_t i = 0; i < sizeof extremes / sizeof *extremes; i++) {
		const uint8_t *line = (const uint8_t *)extremes[i].text;
		struct sonerwal_transfer s;
		bool taken = line_taken(line, extremes[i].length, &s);
		check(taken == extremes[i].taken, "the second reader has it otherwise: %s", extremes[i].text);
		check(restore_gives(line, extremes[i].length, extremes[i].taken, &s), "%s", extremes[i].text);
	}
}

/* ---- Very long lines */

/* A saved line in front of or behind as many bytes of one kind as make up the length: zeros before a number among them. */
static void long_lines(void)
{
	static const char saved[] = "1\t0\t8\t4\t1\t4\t0\t1\t1\t0\trun";
	static const size_t lengths[] = {70, 127, 255, 256, 4096, 65536, LONGEST_LINE};
	static const uint8_t bytes[] = {'\t', '\n', '\0', ' ', '0', '1', '9', 'n'};
	static uint8_t line[LONGEST_LINE];
	unsigned long off = 0;
	for (size_t i = 0; i < sizeof lengths / sizeof *lengths; i++) {
		for (size_t k = 0; k < sizeof bytes; k++) {
			memset(line, bytes[k], lengths[i]);
			off += !restore_gives(line, lengths[i], false, NULL);
			memcpy(line, saved, sizeof saved - 1);
			off += !restore_gives(line, lengths[i], false, NULL);
			memset(line, bytes[k], lengths[i]);
			memcpy(line + lengths[i] - (sizeof saved - 1), saved, sizeof saved - 1);
			off += !restore_gives(line, lengths[i], false, NULL);
		}
	}
	check(off == 0, "long lines: %lu", off);
}

/* ---- Every line of a small request, and all that lie around them */

static struct left left;
static struct line lines[MOST_LEFT];
static unsigned long failures, tried, taken, all_left;

static int compare(const void *a, const void *b)
{
	const struct line *one = a, *other = b;
	size_t shorter = one->length < other->length ? one->length : other->length;
	int order = memcmp(one->bytes, other->bytes, shorter);
	return order != 0 ? order : (one->length > other->length) - (one->length < other->length);
}

/* What is lent to save has a member that no line shows. */
static void try_around(const struct sonerwal_transfer *s)
{
	struct line line = line_of(s);
	bool is_left = bsearch(&line, lines, left.count, sizeof line, compare) != NULL;
	failures += !save_agrees(s, is_left && s->zero2 == 0, SONERWAL_SAVED_FORM, SONERWAL_SAVED_ROOM);
	if (s->zero2 == 0) {
		tried++;
		taken += is_left;
		failures += !restore_gives(line.bytes, line.length, is_left, s);
	}
}

/* One byte more or less anywhere: the line of another request, or none. */
static void try_edits(const struct line *line)
{
	static const uint8_t more[] = {'\t', '0', '1', '4', '-', 'n'};
	struct line other;
	for (size_t at = 0; at <= line->length; at++) {
		memcpy(other.bytes, line->bytes, at);
		for (size_t i = 0; i < sizeof more; i++) {
			other.bytes[at] = more[i];
			memcpy(other.bytes + at + 1, line->bytes + at, line->length - at);
			failures += !restore_agrees(other.bytes, line->length + 1);
		}
		if (at < line->length) {
			memcpy(other.bytes + at, line->bytes + at + 1, line->length - at - 1);
			failures += !restore_agrees(other.bytes, line->length - 1);
		}
	}
}

static void search(const struct request *q)
{
	check(leave_all(&left, q), "more transfers than there is room for, or two queues that one transfer shows");
	all_left += left.count;
	for (size_t i = 0; i < left.count; i++) {
		struct sonerwal_transfer s = queue_shown(&left.of[i]);
		lines[i] = line_of(&s);
		try_edits(&lines[i]);
	}
	qsort(lines, left.count, sizeof *lines, compare);
	each_around(q, try_around);
}

/* 02 a.3: those that calls leave are saved and taken, and no other */
static void searches(void)
{
	each_small(search);
	printf("%lu lines that calls leave, among %lu around them\n", all_left, tried);
	check(taken == all_left, "of %lu lines that calls leave %lu are taken", all_left, taken);
	check(failures == 0, "%lu of these", failures);
}

int main(int argc, char **argv)
{
	noise_begin(argc, argv, UINT64_C(0x50C1A111));
	extreme_lines();
	long_lines();
	searches();
	printf("restore: %lu taken, %lu refused\n", restores_met[SONERWAL_OK], restores_met[SONERWAL_REFUSED_UNLISTED]);
	return check_end("saves_lines");
}
