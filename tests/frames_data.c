/*
 * The two calls of libsonerwal.a for DATA frames, and the size of such a frame, against the plain coder: more than
 * 900,000 good and damaged calls, judged as frame_cases.h says.
 *
 * Usage: frames_data [SEED]
 *
 * Each accepted field's values and each cause of a refusal are counted, and one that no case reached is a failure.
 */
#include "check.h"
#include "cover.h"
#include "frame_cases.h"
#include "frame_draw.h"
#include "plain.h"
#include "sonerwal.h"

#include <string.h>

/* ---- The two calls: fields and causes */

/* Behind the fields of a call: what else an accepted call can be like. */
enum { DATA_FILL = DATA_FIELDS, DATA_PAST };

static const struct field data_fields[] = {
	[DATA_HASHED_DESTINATION] = {"hashed dest.", 4, 0, 0xFFFFFF},
	[DATA_HASHED_SOURCE] = {"hashed source", 4, 0, 0xFFFFFF},
	[DATA_CHANGING] = {"changing", 1, 0, 1},
	[DATA_TAG] = {"tag", 2, 0, UINT16_MAX},
	[DATA_OFFSET] = {"offset", 4, 0, UINT32_MAX},
	[DATA_LENGTH] = {"length", 2, 1, 1024},
	[DATA_FILL] = {"fill", 0, 0, 3},
	[DATA_PAST] = {"bytes past", 0, 0, 1},
};

#define HEADER_BYTE(k) [DATA_BAD_BYTE_0 + (k)] = "byte " #k

static struct call data_read = {
	.name = "DATA read",
	.fields = data_fields,
	.field_count = DATA_FILL + 1,
	.cause = {[DATA_BELOW_28] = "below 28", [DATA_ABOVE_1048] = "above 1048", [DATA_NOT_FOURS] = "not fours",
	          HEADER_BYTE(0), HEADER_BYTE(4), HEADER_BYTE(8), HEADER_BYTE(9), HEADER_BYTE(10), HEADER_BYTE(11),
	          HEADER_BYTE(12), HEADER_BYTE(13), HEADER_BYTE(14), HEADER_BYTE(15), HEADER_BYTE(18),
	          HEADER_BYTE(19), [DATA_BAD_FILL] = "fill"},
};

static struct call data_write = {
	.name = "DATA write",
	.fields = data_fields,
	.field_count = DATA_PAST + 1,
	.cause = {[DATA_BODY_EMPTY] = "body empty", [DATA_BODY_ABOVE_1024] = "body above 1024",
	          [DATA_OUTPUT_SHORT] = "output short", [DATA_BAD_DESTINATION] = "hashed dest.",
	          [DATA_BAD_SOURCE] = "hashed source", [DATA_BAD_CHANGING] = "changing"},
};

/* ---- One case */

static void data_read_case(struct test *test, size_t len)
{
	uint64_t seen[SEEN];
	struct number *n = lent_ours.number;
	noise_fill(lent_ours.number, sizeof lent_ours.number);
	copy_for_plain();
	plain_faults faults = plain_data_read(frame_of(&lent_plain), len, seen);
	if (faults == 0) {
		store_for_plain(data_fields, seen, DATA_FIELDS);
		seen[DATA_FILL] = frame_of(&lent_plain)[11];
	}
	uint8_t answer = sonerwal_data_read(frame_of(&lent_ours), len, &n[DATA_HASHED_DESTINATION].at.u32,
	                               &n[DATA_HASHED_SOURCE].at.u32, &n[DATA_CHANGING].at.u8, &n[DATA_TAG].at.u16,
	                               &n[DATA_OFFSET].at.u32, &n[DATA_LENGTH].at.u16);
	judge(test, &data_read, answer, faults, seen);
}

static size_t data_frame_len(size_t body_len)
{
	return 24 + body_len + plain_data_fill(body_len);
}

static void data_write_case(struct test *test, uint64_t v[SEEN], size_t len)
{
	size_t body_len = (size_t)v[DATA_LENGTH];
	v[DATA_FILL] = plain_data_fill(body_len);
	v[DATA_PAST] = len > data_frame_len(body_len);
	lend(len, body_len);
	copy_for_plain();
	plain_faults faults = plain_data_write(v, body_of(&lent_plain), frame_of(&lent_plain), len);
	uint8_t answer = sonerwal_data_write((uint32_t)v[DATA_HASHED_DESTINATION], (uint32_t)v[DATA_HASHED_SOURCE],
	                                (uint8_t)v[DATA_CHANGING], (uint16_t)v[DATA_TAG], (uint32_t)v[DATA_OFFSET],
	                                body_of(&lent_ours), body_len, frame_of(&lent_ours), len);
	judge(test, &data_write, answer, faults, v);
}

/* ---- DATA, read */

static size_t smaller(size_t a, size_t b)
{
	return a < b ? a : b;
}

/* A frame of any length that is off the layout by its length alone, if at all. */
static void lend_data(size_t len, size_t fill)
{
	uint64_t values[DATA_FIELDS];
	uint8_t shortest[28], body[4];
	lend(len, 0);
	noise_fill(body, sizeof body);
	draw_all(data_fields, DATA_FIELDS, values);
	values[DATA_LENGTH] = 4 - fill;
	plain_data_write(values, body, shortest, sizeof shortest);
	memcpy(frame_of(&lent_ours), shortest, smaller(len, 24));
	if (len >= 24 + fill) {
		memset(frame_of(&lent_ours) + len - fill, 0, fill);
	}
}

/* Reads the frame once with each bit of the bytes from `first` to before `end` turned over. */
static void data_read_flips(struct test *test, size_t len, size_t first, size_t end)
{
	for (size_t bit = first * 8; bit < end * 8; bit++) {
		uint8_t *byte = frame_of(&lent_ours) + bit / 8;
		uint8_t kept = *byte;
		*byte ^= (uint8_t)(1u << bit % 8);
		data_read_case(test, len);
		*byte = kept;
	}
}

/*
 * 01 DATA.1: 24 header bytes: type 1; hashed destination 1-3, hashed source 5-7; byte 10 bit 0; byte 11 low two bits
 *            the fill count; tag 16-17; transfer tag 18-19 all ones; offset 20-23; the rest zero.
 * 01 DATA.4: The reader takes 28 to 1,048 bytes, a multiple of four, else 1.
 * 01 DATA.4: Any header byte off this layout or fill not zero is 2.
 * 01 REFUSAL.11: Checked in ascending order.
 * Every length and fill count, with every bit of header and fill turned over.
 */
static void data_read_flipped(struct test *test)
{
	for (size_t len = 0; len <= LONGEST; len++) {
		for (size_t fill = 0; fill <= 3; fill++) {
			lend_data(len, fill);
			data_read_case(test, len);
			data_read_flips(test, len, 0, smaller(len, 24));
			if (len >= 24 + fill) {
				data_read_flips(test, len, len - fill, len);
			}
		}
	}
}

/*
 * 01 DATA.4: The reader takes 28 to 1,048 bytes, a multiple of four, else 1; any header byte off this layout or fill
 *            not zero is 2.
 * Every length with nothing but noise, and with noise in up to three bytes of a frame.
 */
static void data_read_noise(struct test *test)
{
	for (size_t len = 0; len <= LONGEST; len++) {
		for (int repeat = 0; repeat < 16; repeat++) {
			lend(len, 0);
			data_read_case(test, len);
			lend_data(len, (size_t)noise_below(4));
			for (uint64_t left = len ? noise_below(4) : 0; left > 0; left--) {
				noise_fill(frame_of(&lent_ours) + noise_below(len), 1);
			}
			data_read_case(test, len);
		}
	}
}

/* ---- DATA, write */

/* Every way to be in range, and then each field in turn outside its range. */
static void data_write_fields(struct test *test, size_t body_len, size_t len)
{
	uint64_t values[SEEN];
	for (size_t field = 0; field < DATA_FIELDS; field++) {
		draw_all(data_fields, DATA_FIELDS, values);
		values[DATA_LENGTH] = body_len;
		data_write_case(test, values, len);
		if (field != DATA_LENGTH && has_outside(&data_fields[field])) {
			values[field] = draw_outside(&data_fields[field]);
			data_write_case(test, values, len);
		}
	}
}

/*
 * 01 DATA.2: The data goes behind the 24 header bytes already written, then zero fill to four bytes.
 * 01 DATA.3: Data of the wrong length, or an output shorter than the frame: refusal 1; bytes past the frame stay.
 * 01 REFUSAL.11: Checked in ascending order.
 * Every data length with outputs that fit, are longer, one byte short, short of the fill, and empty.
 */
static void data_write_lengths(struct test *test)
{
	for (size_t body_len = 0; body_len <= LONGEST; body_len++) {
		size_t exact = data_frame_len(body_len);
		const size_t outputs[] = {exact, exact + 1 + (size_t)noise_below(EXTRA), exact - 1, 24 + body_len, 0};
		for (size_t i = 0; i < sizeof outputs / sizeof *outputs; i++) {
			data_write_fields(test, body_len, outputs[i]);
		}
	}
}

/*
 * 01 DATA.2: 24 header bytes; the data, then zero fill to four bytes.
 * sonerwal.h's size of a frame, by which a caller lends buffers.
 */
static void data_sizes(struct test *test)
{
	for (size_t body_len = 0; body_len <= LONGEST + 1; body_len++) {
		size_t asked = body_len <= LONGEST ? body_len : SIZE_MAX;
		size_t expected = asked < 1 || asked > 1024 ? 0 : data_frame_len(asked);
		test->cases++;
		test->failed += sonerwal_data_size(asked) != expected;
	}
}

/* ---- The table */

/* 01 DATA.5: C firmware of the board calls the frame readers and writers. */
static struct test tests[] = {
	{.name = "DATA read, bits turned", .run = data_read_flipped},
	{.name = "DATA read, noise", .run = data_read_noise},
	{.name = "DATA write, every length", .run = data_write_lengths},
	{.name = "DATA size", .run = data_sizes},
};

int main(int argc, char **argv)
{
	noise_begin(argc, argv, UINT64_C(0x50C1A104));
	run_tests(tests, sizeof tests / sizeof *tests);
	cover_show(&data_read);
	cover_show(&data_write);
	return check_end("frames_data");
}
