#include "saves_face.h"

#include "check.h"
#include "steps_face.h"

#include <stdio.h>
#include <string.h>

enum { REPORTS = 5, BEHIND = 16 };

unsigned long saves_met[SAVE_ANSWERS], restores_met[SAVE_ANSWERS], phases_met[6];

static bool report(const char *what, const uint8_t *line, size_t length)
{
	static int reports;
	if (reports++ < REPORTS) {
		printf("%s is off: %.*s\n", what, (int)(length < MOST_LINE ? length : MOST_LINE), (const char *)line);
	}
	return false;
}

/* ---- save */

/* The first that holds. */
static uint8_t save_says(bool is_left, uint8_t form, size_t room)
{
	if (form != SONERWAL_SAVED_FORM) {
		return SONERWAL_REFUSED_UNLISTED;
	}
	if (room < SONERWAL_SAVED_ROOM) {
		return SONERWAL_REFUSED_LENGTH;
	}
	return is_left ? SONERWAL_OK : SONERWAL_REFUSED_RULES;
}

bool save_agrees(const struct sonerwal_transfer *s, bool is_left, uint8_t form, size_t room)
{
	uint8_t out[MOST_LINE], expected[MOST_LINE];
	struct line line = line_of(s);
	uint8_t answer = save_says(is_left, form, room);
	noise_fill(out, sizeof out);
	memcpy(expected, out, sizeof out);
	if (answer == SONERWAL_OK) {
		memcpy(expected, line.bytes, line.length);
	}
	struct sonerwal_saved saved = sonerwal_transfer_save(*s, form, out, room);
	if (saved.answer != answer) {
		return report("save's answer", line.bytes, line.length);
	}
	if (saved.length != (answer == SONERWAL_OK ? line.length : 0)) {
		return report("save's length", line.bytes, line.length);
	}
	if (memcmp(out, expected, sizeof out) != 0) {
		return report("a byte of the output", line.bytes, line.length);
	}
	saves_met[answer]++;
	return true;
}

/* ---- restore */

/* The line with noise behind it, in a copy for each side. */
static uint8_t ours[LONGEST_LINE + BEHIND], lent[LONGEST_LINE + BEHIND];

static struct sonerwal_transfer_step restore_lent(const uint8_t *line, size_t length)
{
	memcpy(lent, line, length);
	noise_fill(lent + length, BEHIND);
	memcpy(ours, lent, length + BEHIND);
	return sonerwal_transfer_restore(ours, length);
}

/* 02 a.5 */
bool restore_gives(const uint8_t *line, size_t length, bool taken, const struct sonerwal_transfer *s)
{
	static const struct sonerwal_transfer before_start;
	struct sonerwal_transfer_step step = restore_lent(line, length);
	if (step.answer != (taken ? SONERWAL_OK : SONERWAL_REFUSED_UNLISTED)) {
		return report("restore's answer", line, length);
	}
	if (member_off(&step.state, taken ? s : &before_start)) {
		return report(member_off(&step.state, taken ? s : &before_start), line, length);
	}
	if (memcmp(ours, lent, length + BEHIND) != 0) {
		return report("a byte of the line", line, length);
	}
	restores_met[step.answer]++;
	if (taken) {
		phases_met[step.state.phase]++;
	}
	return true;
}

bool restore_agrees(const uint8_t *line, size_t length)
{
	struct sonerwal_transfer s;
	bool taken = line_taken(line, length, &s);
	return restore_gives(line, length, taken, &s);
}
