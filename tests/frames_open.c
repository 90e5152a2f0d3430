/*
 * The two calls of libsonerwal.a for OPEN frames against the plain coder: more than a million good and damaged calls,
 * judged as frame_cases.h says. And the wait value and the priority of an OPEN.
 *
 * Usage: frames_open [SEED]
 *
 * Each accepted field's values and each cause of a refusal are counted, and one that no case reached is a failure.
 */
#include "check.h"
#include "cover.h"
#include "frame_cases.h"
#include "frame_draw.h"
#include "plain.h"
#include "sonerwal.h"

#include <stdbool.h>

enum {
	OPENS = 1000000,  /* OPEN buffers read */
	OPEN_LENGTHS = 64 /* OPEN buffers have 0 to this many bytes, if not 28 */
};

/* ---- The two calls: fields and causes */

/* Behind the fields of a call: what else an accepted call can be like. */
enum { OPEN_UNCARRIED = OPEN_FIELDS };

static const struct field open_fields[] = {
	[OPEN_INITIATOR] = {"initiator", 1, 0, 1},
	[OPEN_PROTOCOL] = {"protocol", 1, 0, 2},
	[OPEN_FEATURES] = {"features", 1, 0, 15},
	[OPEN_RATE] = {"rate", 1, 8, 10},
	[OPEN_TAG] = {"tag", 2, 0, UINT16_MAX},
	[OPEN_DESTINATION] = {"destination", 8, 0, UINT64_MAX},
	[OPEN_SOURCE] = {"source", 8, 0, UINT64_MAX},
	[OPEN_PBC] = {"pbc", 1, 0, UINT8_MAX},
	[OPEN_AWT] = {"awt", 2, 0, UINT16_MAX},
	[OPEN_UNCARRIED] = {"not carried", 0, 0, 1},
};

static struct call open_read = {
	.name = "OPEN read",
	.fields = open_fields,
	.field_count = OPEN_UNCARRIED + 1,
	.cause = {[OPEN_SHORTER] = "shorter", [OPEN_LONGER] = "longer", [OPEN_BAD_TYPE] = "type",
	          [OPEN_BAD_PROTOCOL] = "protocol", [OPEN_BAD_RATE] = "rate"},
};

static struct call open_write = {
	.name = "OPEN write",
	.fields = open_fields,
	.field_count = OPEN_FIELDS,
	.cause = {[OPEN_SHORTER] = "shorter", [OPEN_LONGER] = "longer", [OPEN_BAD_INITIATOR] = "initiator",
	          [OPEN_BAD_PROTOCOL] = "protocol", [OPEN_BAD_FEATURES] = "features", [OPEN_BAD_RATE] = "rate"},
};

/* ---- One case */

static bool uncarried_not_zero(const uint8_t *frame)
{
	return (frame[20] | frame[24] | frame[25] | frame[26] | frame[27]) != 0;
}

/* Gives whether the model takes the frame. */
static bool open_read_case(struct test *test, size_t len)
{
	uint64_t seen[SEEN];
	struct number *n = lent_ours.number;
	copy_for_plain();
	plain_faults faults = plain_open_read(frame_of(&lent_plain), len, seen);
	if (faults == 0) {
		store_for_plain(open_fields, seen, OPEN_FIELDS);
		seen[OPEN_UNCARRIED] = uncarried_not_zero(frame_of(&lent_plain));
	}
	uint8_t answer = sonerwal_open_read(frame_of(&lent_ours), len, &n[OPEN_INITIATOR].at.u8, &n[OPEN_PROTOCOL].at.u8,
	                                    &n[OPEN_FEATURES].at.u8, &n[OPEN_RATE].at.u8, &n[OPEN_TAG].at.u16,
	                                    &n[OPEN_DESTINATION].at.u64, &n[OPEN_SOURCE].at.u64, &n[OPEN_PBC].at.u8,
	                                    &n[OPEN_AWT].at.u16);
	judge(test, &open_read, answer, faults, seen);
	return faults == 0;
}

static void open_write_case(struct test *test, const uint64_t v[OPEN_FIELDS], size_t len)
{
	lend(len, 0);
	copy_for_plain();
	plain_faults faults = plain_open_write(v, frame_of(&lent_plain), len);
	uint8_t answer = sonerwal_open_write((uint8_t)v[OPEN_INITIATOR], (uint8_t)v[OPEN_PROTOCOL], (uint8_t)v[OPEN_FEATURES],
	                                     (uint8_t)v[OPEN_RATE], (uint16_t)v[OPEN_TAG], v[OPEN_DESTINATION], v[OPEN_SOURCE],
	                                     (uint8_t)v[OPEN_PBC], (uint16_t)v[OPEN_AWT], frame_of(&lent_ours), len);
	judge(test, &open_write, answer, faults, v);
}

/* ---- OPEN, read */

/* A frame that document 01 takes, with noise in the bytes that aren't carried, for half of them. */
static void lend_valid_open(void)
{
	uint64_t values[OPEN_FIELDS];
	lend(SONERWAL_OPEN_SIZE, 0);
	uint8_t *frame = frame_of(&lent_ours);
	draw_all(open_fields, OPEN_FIELDS, values);
	plain_open_write(values, frame, 28);
	if (noise_below(2) == 0) {
		noise_fill(frame + 20, 1);
		noise_fill(frame + 24, 4);
	}
}

/*
 * 01 OPEN.2: Byte 0: bit 7 initiator, bits 6 to 4 protocol (0 SMP, 1 SSP, 2 STP), bits 3 to 0 type 1.
 * 01 OPEN.3: Byte 1: features (high four bits), rate (low four: 8, 9 or 10).
 * 01 OPEN.4: Bytes 2-3 initiator connection tag; 4-11 destination; 12-19 source; 21 PBC; 22-23 AWT.
 * 01 OPEN.5: Bytes 20 and 24-27 aren't carried: any value when read.
 */
static void open_read_valid(struct test *test)
{
	for (long i = 0; i < OPENS / 2; i++) {
		lend_valid_open();
		if (!open_read_case(test, SONERWAL_OPEN_SIZE)) {
			test->failed++;
		}
	}
}

/* Each of these spoils one thing in a valid frame and gives the length to read. */

static size_t spoil_length(uint8_t *frame)
{
	(void)frame;
	size_t len = (size_t)noise_below(OPEN_LENGTHS);
	return len < SONERWAL_OPEN_SIZE ? len : len + 1;
}

static size_t spoil_type(uint8_t *frame)
{
	uint64_t type = noise_below(15);
	frame[0] = (uint8_t)((frame[0] & 0xF0) | (type < 1 ? type : type + 1));
	return SONERWAL_OPEN_SIZE;
}

static size_t spoil_protocol(uint8_t *frame)
{
	frame[0] = (uint8_t)((frame[0] & 0x8F) | (3 + noise_below(5)) << 4);
	return SONERWAL_OPEN_SIZE;
}

static size_t spoil_rate(uint8_t *frame)
{
	uint64_t rate = noise_below(13);
	frame[1] = (uint8_t)((frame[1] & 0xF0) | (rate < 8 ? rate : rate + 3));
	return SONERWAL_OPEN_SIZE;
}

/*
 * 01 OPEN.6: Any other length is refusal 1, any other type, protocol or rate 2.
 * 01 REFUSAL.12: A refusal gives only its number.
 */
static void open_read_one_off(struct test *test)
{
	size_t (*const spoil[])(uint8_t *) = {spoil_length, spoil_type, spoil_protocol, spoil_rate};
	for (long i = 0; i < OPENS / 4; i++) {
		lend_valid_open();
		open_read_case(test, spoil[i % 4](frame_of(&lent_ours)));
	}
}

/*
 * 01 OPEN.6: Any other length is refusal 1, any other type, protocol or rate 2.
 * 01 REFUSAL.11: Checked in ascending order.
 */
static void open_read_noise(struct test *test)
{
	for (long i = 0; i < OPENS / 4; i++) {
		size_t len = noise_below(2) ? SONERWAL_OPEN_SIZE : (size_t)noise_below(OPEN_LENGTHS + 1);
		lend(len, 0);
		open_read_case(test, len);
	}
}

/* ---- OPEN, write */

/*
 * 01 OPEN.2: Byte 0: bit 7 initiator, bits 6 to 4 protocol (0 SMP, 1 SSP, 2 STP), bits 3 to 0 type 1.
 * 01 OPEN.3: Byte 1: features (high four bits), rate (low four: 8, 9 or 10).
 * 01 OPEN.6: Any other type, protocol or rate is refusal 2.
 * Every value that the byte of a field can have, the other fields being in range.
 */
static void open_write_sweep(struct test *test)
{
	uint64_t values[OPEN_FIELDS];
	for (size_t field = 0; field < OPEN_FIELDS; field++) {
		for (unsigned value = 0; open_fields[field].width == 1 && value <= UINT8_MAX; value++) {
			for (int repeat = 0; repeat < 16; repeat++) {
				draw_all(open_fields, OPEN_FIELDS, values);
				values[field] = value;
				open_write_case(test, values, SONERWAL_OPEN_SIZE);
			}
		}
	}
}

/*
 * 01 OPEN.6: Any other length is refusal 1.
 * 01 REFUSAL.11: Checked in ascending order.
 * Every length with all fields in range, and with one outside.
 */
static void open_write_lengths(struct test *test)
{
	uint64_t values[OPEN_FIELDS];
	for (size_t len = 0; len <= OPEN_LENGTHS; len++) {
		for (size_t field = 0; field < OPEN_FIELDS; field++) {
			draw_all(open_fields, OPEN_FIELDS, values);
			open_write_case(test, values, len);
			if (has_outside(&open_fields[field])) {
				values[field] = draw_outside(&open_fields[field]);
				open_write_case(test, values, len);
			}
		}
	}
}

/*
 * 01 OPEN.4: Bytes 2-3 initiator connection tag; 4-11 destination; 12-19 source; 21 PBC; 22-23 AWT.
 * 01 OPEN.5: Bytes 20 and 24-27 aren't carried: zero when written.
 * 01 OPEN.6: Any other length is refusal 1, any other type, protocol or rate 2.
 */
static void open_write_mixed(struct test *test)
{
	uint64_t values[OPEN_FIELDS];
	for (long i = 0; i < OPENS / 4; i++) {
		size_t len = noise_below(8) ? SONERWAL_OPEN_SIZE : (size_t)noise_below(OPEN_LENGTHS + 1);
		draw_all(open_fields, OPEN_FIELDS, values);
		for (size_t field = 0; field < OPEN_FIELDS; field++) {
			if (has_outside(&open_fields[field]) && noise_below(8) == 0) {
				values[field] = draw_outside(&open_fields[field]);
			}
		}
		open_write_case(test, values, len);
	}
}

/* ---- Waits and priorities */

static void expect(struct test *test, uint64_t found, uint64_t expected)
{
	test->cases++;
	test->failed += found != expected;
}

/* 01 OPEN.7 01 EXAMPLE.1 */
static void wait_values(struct test *test)
{
	static const uint64_t waits[][2] = {{32767, 32767},    {32768, 32768},    {33767, 32768},     {33768, 32769},
	                                    {32799767, 65534}, {32799768, 65535}, {UINT64_MAX, 65535}};
	for (size_t i = 0; i < sizeof waits / sizeof *waits; i++) {
		expect(test, sonerwal_wait_value(waits[i][0]), waits[i][1]);
	}
	for (uint64_t k = 0; k < 32768; k++) {
		expect(test, sonerwal_wait_value(k), k);
		expect(test, sonerwal_wait_value(32768 + 1000 * k), 32768 + k);
		expect(test, sonerwal_wait_value(32768 + 1000 * k + 999), 32768 + k);
		expect(test, sonerwal_wait_value(32768 + 1000 * 32767 + noise() / 2), 65535);
	}
}

/* 01 OPEN.9 01 EXAMPLE.2 01 EXAMPLE.3 */
static void priorities(struct test *test)
{
	expect(test, sonerwal_open_higher(2, 1, 1, 2), 1);
	expect(test, sonerwal_open_higher(2, 2, 2, 2), 0);
	for (long i = 0; i < OPENS / 4; i++) {
		uint16_t awt = (uint16_t)noise(), other = noise_below(2) ? awt : (uint16_t)noise();
		uint64_t source = noise(), peer = noise_below(4) ? noise() : source;
		expect(test, sonerwal_open_higher(awt, source, other, peer), awt > other || (awt == other && source > peer));
	}
}

/* ---- The table */

/* 01 DATA.5: C firmware of the board calls the frame readers and writers. */
static struct test tests[] = {
	{.name = "OPEN read, valid", .run = open_read_valid},
	{.name = "OPEN read, one thing off", .run = open_read_one_off},
	{.name = "OPEN read, noise", .run = open_read_noise},
	{.name = "OPEN write, every value", .run = open_write_sweep},
	{.name = "OPEN write, every length", .run = open_write_lengths},
	{.name = "OPEN write, mixed", .run = open_write_mixed},
	{.name = "wait value", .run = wait_values},
	{.name = "priority", .run = priorities},
};

int main(int argc, char **argv)
{
	noise_begin(argc, argv, UINT64_C(0x50C1A101));
	run_tests(tests, sizeof tests / sizeof *tests);
	cover_show(&open_read);
	cover_show(&open_write);
	return check_end("frames_open");
}
