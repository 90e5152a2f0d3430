/*
 * Links that C lends, with any byte in any member, and events by any number: 2 and 3 exactly where sonerwal.h's rules say, with the
 * link back to the last byte and no action; and else a step of the table that was typed from document 01 (xl_model.c).
 *
 * Usage: xl_lent [SEED]
 */
#include "check.h"
#include "plain.h"
#include "xl_draw.h"
#include "xl_face.h"

#include <stdio.h>
#include <string.h>

enum { BASES = 40, NOISES = 300000, RECEIVED = 300000, STAINS = 20000 };

static unsigned long met[STATES][NAMED]; /* steps that were taken, by state and event */
static unsigned long answers[256];
static unsigned long failures;

/* ---- The rules of sonerwal.h, in plain C */

static bool is_listed(const struct sonerwal_open *open)
{
	return open->initiator <= 1 && open->protocol <= 2 && open->features <= 15 && open->rate >= 8 && open->rate <= 10;
}

static bool frame_fits(uint8_t has, const struct sonerwal_open *open)
{
	static const struct sonerwal_open zeros;
	if (has == 0) {
		return memcmp(open, &zeros, sizeof zeros) == 0;
	}
	return has == 1 && is_listed(open) && open->zero4 == 0 && open->zero2 == 0 && open->zero1 == 0;
}

/* 01 XL.4 */
static bool keeps_rules(const struct sonerwal_link *s)
{
	return s->phase <= 10 && s->aip <= 4 && s->broke <= 1 && s->close <= 1 && s->blocked <= 1 && s->zero4 == 0 && s->zero1 == 0 &&
	       frame_fits(s->has_held, &s->held) && frame_fits(s->has_heard, &s->heard) &&
	       (s->phase == 0 || s->phase >= 7 || s->has_held == 1);
}

static bool brings_frame(struct sonerwal_event e)
{
	return e.kind == 1 || e.kind == 16 || e.kind == 23;
}

/* ---- What the table says of a lent link */

static struct crossing crossing_of(const struct sonerwal_open *open, const struct sonerwal_open *held)
{
	return (struct crossing){open->awt > held->awt || (open->awt == held->awt && open->source > held->source),
	                         open->destination == held->source && open->rate == held->rate};
}

static void expected_cell(const struct sonerwal_link *s, struct sonerwal_event e, const struct frames *frames, char *out)
{
	char memory[SIGNS + 1];
	const char *word = event_word(e);
	if (!word || (brings_frame(e) && !is_listed(&frames->event))) {
		strcpy(out, "2");
	} else if (!keeps_rules(s)) {
		strcpy(out, "3");
	} else {
		memory_of(s, frames, memory);
		link_cell(s->phase, memory, word, crossing_of(s->phase == 5 ? &s->heard : &frames->event, &s->held), out);
		if (strcmp(out, "+") == 0 && s->unexpected == UINT32_MAX) {
			strcpy(out, "=");
		}
	}
}

/* ---- One case */

static void fail(const struct sonerwal_link *s, struct sonerwal_event e, const char *expected, const char *found)
{
	if (failures++ < 5) {
		printf("XL%d, event %d %d: expected %s, found %s\n", s->phase, e.kind, e.detail, expected, found);
	}
}

/* A link that keeps its rules brings its own frames. */
static void lend(const struct sonerwal_link *s, struct sonerwal_event e, struct frames frames)
{
	char expected[CELL], found[CELL];
	uint8_t status = sonerwal_link_status(*s);
	frames.held = s->has_held ? s->held : frames.held;
	frames.heard = s->has_heard ? s->heard : frames.heard;
	expected_cell(s, e, &frames, expected);
	face_cell(s, e, &frames, found);
	if (strcmp(expected, found) != 0) {
		fail(s, e, expected, found);
	}
	if ((status == SONERWAL_REFUSED_RULES) == keeps_rules(s)) {
		fail(s, e, "another status", "this");
	}
	answers[status]++;
	for (int i = 0; keeps_rules(s) && i < NAMED; i++) {
		met[s->phase][i] += named_events[i].kind == e.kind && named_events[i].detail == e.detail;
	}
}

/* ---- Cases */

/* 01 REFUSAL.2: every kind and detail in every state, and with a link that is off its rules, which is looked at later */
static void all_events(void)
{
	struct frames frames;
	failures = 0;
	for (int state = 0; state <= STATES; state++) {
		draw_frames(&frames);
		struct sonerwal_link s = draw_link(state, &frames);
		for (unsigned number = 0; number < 65536; number++) {
			lend(&s, (struct sonerwal_event){(uint8_t)(number / 256), (uint8_t)number}, frames);
		}
	}
	check(failures == 0, "events by number: %lu cases", failures);
}

/* Every value of every byte of a link that kept its rules. */
static void every_byte(void)
{
	struct frames frames;
	failures = 0;
	for (int base = 0; base < BASES; base++) {
		draw_frames(&frames);
		struct sonerwal_link kept = draw_link(base % STATES, &frames);
		for (size_t at = 0; at < sizeof kept; at++) {
			for (unsigned value = 0; value < 256; value++) {
				struct sonerwal_link s = kept;
				((uint8_t *)&s)[at] = (uint8_t)value;
				lend(&s, draw_event(), frames);
			}
		}
	}
	check(failures == 0, "one byte off: %lu cases", failures);
}

static void noises(void)
{
	struct frames frames;
	failures = 0;
	for (long i = 0; i < NOISES; i++) {
		draw_frames(&frames);
		/* half of them OPENs that cross: in XL6, or remembered in XL5 */
		int state = (int)(i % 2 ? 5 + noise_below(2) : noise_below(STATES));
		struct sonerwal_event e = i % 2 ? event_named(state == 6 ? "OPEN" : "Sent") : draw_event();
		struct sonerwal_link s = draw_link(state, &frames);
		if (noise_below(8) == 0) {
			noise_fill(&s, sizeof s);
		}
		if (noise_below(4) == 0) {
			noise_fill(&frames.event, sizeof frames.event);
		}
		lend(&s, e, frames);
	}
	check(failures == 0, "noise: %lu cases", failures);
}

/* 01 XL.6 */
static void receive(const struct sonerwal_link *s, struct sonerwal_open open, const uint8_t *frame, size_t frame_len)
{
	uint64_t read[OPEN_FIELDS];
	uint8_t before[64];
	memcpy(before, frame, frame_len);
	uint8_t refusal = plain_answer(plain_open_read(frame, frame_len, read));
	struct sonerwal_link_step expected = {.state = *s, .answer = refusal};
	if (refusal == 0) {
		expected = sonerwal_link_event(*s, (struct sonerwal_event){SONERWAL_KIND_OPEN, 0}, open);
	}
	struct sonerwal_link_step found = sonerwal_link_receive(*s, frame, frame_len);
	answers[found.answer]++;
	failures += found.answer != expected.answer || memcmp(&found.state, &expected.state, sizeof found.state) != 0 ||
	            memcmp(found.action, expected.action, sizeof found.action) != 0 || memcmp(before, frame, frame_len) != 0;
}

static void received(void)
{
	struct frames frames;
	uint8_t bytes[64];
	failures = 0;
	for (long i = 0; i < RECEIVED; i++) {
		draw_frames(&frames);
		struct sonerwal_open o = frames.event;
		struct sonerwal_link s = draw_link((int)noise_below(STATES), &frames);
		uint64_t fields[OPEN_FIELDS] = {o.initiator, o.protocol, o.features, o.rate, o.tag, o.destination, o.source, o.pbc, o.awt};
		noise_fill(bytes, sizeof bytes);
		plain_open_write(fields, bytes, SONERWAL_OPEN_SIZE);
		noise_fill(bytes + 24, 4); /* not carried */
		bytes[noise_below(2)] ^= (uint8_t)(noise_below(3) ? 0 : 1u << noise_below(8));
		struct sonerwal_open carried = {0};
		sonerwal_open_get(&carried, bytes, SONERWAL_OPEN_SIZE);
		s.phase = noise_below(8) ? s.phase : (uint8_t)noise();
		receive(&s, carried, bytes, noise_below(8) ? SONERWAL_OPEN_SIZE : noise_below(sizeof bytes));
	}
	check(failures == 0, "OPENs as bytes: %lu cases", failures);
}

/* What a step leaves of the stack: nothing. */
static void stains(void)
{
	struct frames frames;
	unsigned long kept = 0;
	for (int i = 0; i < STAINS; i++) {
		struct sonerwal_link_step step[2];
		struct sonerwal_event e = draw_event();
		draw_frames(&frames);
		struct sonerwal_link s = draw_link((int)noise_below(STATES), &frames);
		for (int side = 0; side < 2; side++) {
			uint8_t pattern = side ? 0xA5 : 0x5A;
			memset(&step[side], pattern, sizeof step[side]);
			stain_stack(pattern);
			step[side] = sonerwal_link_event(s, e, frames.event);
		}
		kept += memcmp(&step[0].state, &step[1].state, sizeof s) != 0 || step[0].answer != step[1].answer ||
		        memcmp(step[0].action, step[1].action, sizeof step[0].action) != 0;
	}
	check(kept == 0, "%lu steps hold what the stack held", kept);
}

/* ---- What was met */

static void show(void)
{
	static const uint8_t said[] = {0, 1, 2, 3, 48, 49, 50, 51};
	for (size_t i = 0; i < sizeof said; i++) {
		printf("%-20s %9lu\n", sonerwal_answer_name(said[i]), answers[said[i]]);
		check(answers[said[i]] > 0, "no case showed: %s", sonerwal_answer_name(said[i]));
	}
	for (int state = 0; state < STATES; state++) {
		for (int i = 0; i < NAMED; i++) {
			check(met[state][i] > 0, "no case showed: XL%d, event %d %d", state, named_events[i].kind, named_events[i].detail);
		}
	}
}

int main(int argc, char **argv)
{
	noise_begin(argc, argv, UINT64_C(0x50C1A108));
	check(name_events() == NAMED, "not %d events have a name", NAMED);
	all_events();
	every_byte();
	noises();
	received();
	stains();
	show();
	return check_end("xl_lent");
}
