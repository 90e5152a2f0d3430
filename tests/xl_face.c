#include "xl_face.h"

#include <stdio.h>
#include <string.h>

/* The face's numbers, typed a second time: each kind with its word in document 01 and how many details it has. */
struct kind {
	uint8_t number;
	const char *word;
	uint8_t details;
};

static const struct kind kinds[] = {
	{1, "OPEN", 1},          {2, "OPEN_ACCEPT", 1},    {3, "OPEN_REJECT", 8}, {4, "AIP", 4},
	{5, "CLOSE", 1},         {6, "BREAK", 1},          {16, "SendOpen", 1},   {17, "SendClose", 1},
	{18, "SendBreak", 1},    {19, "ArbStatus", 4},     {20, "OpenAccept", 1}, {21, "OpenReject", 8},
	{22, "BackoffRetry", 1}, {23, "BackoffReversePath", 1}, {32, "ArbWon", 1}, {33, "ArbLost", 1},
	{34, "ArbReject", 4},    {35, "Arbitrating", 3},   {40, "RequestPath", 2}, {48, "PathTimer", 1},
	{49, "Sent", 1},         {50, "Forwarded", 1},     {51, "BreakTimeout", 1}, {63, "Disable", 1},
};

enum { KINDS = sizeof kinds / sizeof *kinds, REQUEST_PATH = 40 };

static const struct kind *kind_of(uint8_t number)
{
	for (size_t i = 0; i < KINDS; i++) {
		if (kinds[i].number == number) {
			return &kinds[i];
		}
	}
	return NULL;
}

static const struct sonerwal_open no_frame;

/* ---- Events */

struct sonerwal_event event_named(const char *word)
{
	size_t length = strcspn(word, "(");
	uint8_t detail = word[length] ? (uint8_t)(word[length + 1] - '0') : 0;
	for (size_t i = 0; i < KINDS; i++) {
		if (strlen(kinds[i].word) == length && strncmp(kinds[i].word, word, length) == 0) {
			return (struct sonerwal_event){kinds[i].number, detail};
		}
	}
	return (struct sonerwal_event){0, 0};
}

const char *event_word(struct sonerwal_event e)
{
	static char word[CELL];
	const struct kind *kind = kind_of(e.kind);
	if (!kind || e.kind == REQUEST_PATH || e.detail >= kind->details) {
		return NULL;
	}
	snprintf(word, sizeof word, kind->details > 1 ? "%s(%d)" : "%s", kind->word, e.detail);
	return word;
}

/* ---- Links */

struct sonerwal_link link_of(int state, const char *memory, const struct frames *frames, uint32_t unexpected)
{
	return (struct sonerwal_link){
		.held = memory[HELD] == '-' ? no_frame : frames->held,
		.heard = memory[HEARD] == '-' ? no_frame : frames->heard,
		.unexpected = unexpected,
		.phase = (uint8_t)state,
		.has_held = memory[HELD] != '-',
		.has_heard = memory[HEARD] != '-',
		.aip = memory[AIP] == '-' ? 0 : (uint8_t)(1 + memory[AIP] - '0'),
		.broke = memory[BROKE] == '1',
		.close = memory[CLOSED] == '1',
		.blocked = memory[BLOCKED] == '1',
	};
}

static bool same_frame(const struct sonerwal_open *a, const struct sonerwal_open *b)
{
	return memcmp(a, b, sizeof *a) == 0;
}

/* The frame's sign; the zero members of the event's frame are not looked at, and 0 where it is held. */
static char frame_sign(uint8_t has, const struct sonerwal_open *open, const struct frames *frames)
{
	struct sonerwal_open event = frames->event;
	event.zero4 = event.zero2 = event.zero1 = 0;
	if (has == 0) {
		return same_frame(open, &no_frame) ? '-' : '?';
	}
	if (has > 1) {
		return '?';
	}
	return same_frame(open, &frames->held) ? 'h' : same_frame(open, &frames->heard) ? 'o' : same_frame(open, &event) ? 'e' : '?';
}

static char flag_sign(uint8_t flag)
{
	return flag <= 1 ? (char)('0' + flag) : '?';
}

void memory_of(const struct sonerwal_link *s, const struct frames *frames, char *memory)
{
	memory[HELD] = frame_sign(s->has_held, &s->held, frames);
	memory[HEARD] = frame_sign(s->has_heard, &s->heard, frames);
	memory[AIP] = s->aip == 0 ? '-' : s->aip <= 4 ? (char)('0' + s->aip - 1) : '?';
	memory[BROKE] = flag_sign(s->broke);
	memory[CLOSED] = flag_sign(s->close);
	memory[BLOCKED] = flag_sign(s->blocked);
	memory[SIGNS] = '\0';
}

/* ---- Cells */

/* Writes an action's word behind what is there. */
static void add_action(struct sonerwal_action action, char *out)
{
	const struct kind *kind = kind_of(action.kind);
	size_t at = strlen(out);
	const char *comma = at > 0 ? "," : "";
	if (!kind || action.detail >= kind->details) {
		snprintf(out + at, CELL - at, "%s?%d %d", comma, action.kind, action.detail);
	} else if (action.kind == REQUEST_PATH) {
		snprintf(out + at, CELL - at, "%s%s%s", comma, kind->word, action.detail ? "(timeout)" : "");
	} else if (kind->details > 1) {
		snprintf(out + at, CELL - at, "%s%s(%d)", comma, kind->word, action.detail);
	} else {
		snprintf(out + at, CELL - at, "%s%s", comma, kind->word);
	}
}

/* The actions in order; none behind one that is none. */
static bool actions_of(const struct sonerwal_link_step *step, char *out)
{
	bool ended = false;
	out[0] = '\0';
	for (int i = 0; i < 4; i++) {
		struct sonerwal_action action = step->action[i];
		if (action.kind == 0 && action.detail == 0) {
			ended = true;
		} else if (ended) {
			return false;
		} else {
			add_action(action, out);
		}
	}
	return true;
}

static void refused_cell(const struct sonerwal_link *s, const struct sonerwal_link_step *step, char *out)
{
	static const struct sonerwal_action none[4];
	bool left = memcmp(s, &step->state, sizeof *s) == 0 && memcmp(none, step->action, sizeof none) == 0;
	snprintf(out, CELL, left ? "%d" : "%d, and something changed", step->answer);
}

void step_cell(const struct sonerwal_link *s, const struct sonerwal_link_step *step, const struct frames *frames, char *out)
{
	char before[SIGNS + 1], after[SIGNS + 1], actions[CELL];
	uint32_t more = step->state.unexpected - s->unexpected;
	if (step->answer != SONERWAL_OK) {
		refused_cell(s, step, out);
		return;
	}
	memory_of(s, frames, before);
	memory_of(&step->state, frames, after);
	if (!actions_of(step, actions) || more > 1 || step->state.zero4 || step->state.zero1 || sonerwal_link_frame(step) != &step->state.held) {
		strcpy(out, "actions, count, frame or zeros off");
		return;
	}
	bool still = step->state.phase == s->phase && strcmp(before, after) == 0 && actions[0] == '\0';
	if (still) {
		strcpy(out, more ? "+" : "=");
	} else {
		snprintf(out, CELL, "%s%d/%s/%s", more ? "+" : "", step->state.phase, after, actions);
	}
}

void face_cell(const struct sonerwal_link *s, struct sonerwal_event e, const struct frames *frames, char *out)
{
	struct sonerwal_link_step step;
	memset(&step, 0xA5, sizeof step);
	step = sonerwal_link_event(*s, e, frames->event);
	step_cell(s, &step, frames, out);
}
