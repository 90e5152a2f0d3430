/*
 * The six calls of libsonerwal.a for a write's frames, XFER_RDY, data out and RESPONSE, and the size of a RESPONSE, against the
 * plain coder: millions of good and damaged calls, judged as frame_cases.h says.
 *
 * Usage: frames_write [SEED]
 *
 * Each accepted field's values and each cause of a refusal are counted, and one that no case reached is a failure.
 */
#include "check.h"
#include "cover.h"
#include "frame_cases.h"
#include "frame_draw.h"
#include "plain_write.h"
#include "sonerwal.h"

#include <string.h>

/* ---- The kinds of frame */

/*
 * Fields are numbers in the order of the calls; the data's length is the last where there is data, and behind it stands
 * what else an accepted call can be like: the fill, and whether bytes follow the frame.
 */
struct kind {
	const struct field *fields;
	size_t count, data_at; /* fields, and bytes before the data */
	size_t longest;        /* frames and data go from no bytes to so many */
	int repeats;           /* frames of each length that are drawn anew */
	bool has_data;
	void (*agree)(uint64_t *values); /* makes drawn fields ones of a frame */
	void (*front)(const uint64_t *fields, size_t fill, uint8_t *front);
	plain_faults (*plain_read)(const uint8_t *frame, size_t frame_len, uint64_t *fields);
	plain_faults (*plain_write)(const uint64_t *fields, const uint8_t *body, uint8_t *frame, size_t frame_len);
	uint8_t (*our_read)(size_t len, struct number *n);
	uint8_t (*our_write)(const uint64_t *v, size_t len);
	struct call read, write;
};

#define HEADER_BYTE(k) [FRAME_BAD_BYTE_0 + (k)] = "byte " #k
#define HEADER_BYTES                                                                                                  \
	HEADER_BYTE(0), HEADER_BYTE(4), HEADER_BYTE(8), HEADER_BYTE(9), HEADER_BYTE(10), HEADER_BYTE(11),             \
		HEADER_BYTE(12), HEADER_BYTE(13), HEADER_BYTE(14), HEADER_BYTE(15)
#define NO_OFFSET HEADER_BYTE(20), HEADER_BYTE(21), HEADER_BYTE(22), HEADER_BYTE(23)
#define ADDRESSES [WRITE_BAD_DESTINATION] = "hashed dest.", [WRITE_BAD_SOURCE] = "hashed source"

/* ---- XFER_RDY */

static const struct field xfer_fields[] = {
	[XFER_HASHED_DESTINATION] = {"hashed dest.", 4, 0, 0xFFFFFF},
	[XFER_HASHED_SOURCE] = {"hashed source", 4, 0, 0xFFFFFF},
	[XFER_RETRANSMIT] = {"retransmit", 1, 0, 1},
	[XFER_RETRY] = {"retry", 1, 0, 1},
	[XFER_TAG] = {"tag", 2, 0, UINT16_MAX},
	[XFER_TRANSFER] = {"transfer tag", 2, 0, UINT16_MAX},
	[XFER_OFFSET] = {"offset", 4, 0, UINT32_MAX},
	[XFER_LENGTH] = {"length", 4, 1, UINT32_MAX},
	[XFER_FIELDS] = {"fill", 0, 0, 0},
	[XFER_FIELDS + 1] = {"bytes past", 0, 0, 1},
};

static void xfer_agree(uint64_t *values)
{
	(void)values;
}

static uint8_t xfer_read(size_t len, struct number *n)
{
	return sonerwal_xfer_rdy_read(frame_of(&lent_ours), len, &n[XFER_HASHED_DESTINATION].at.u32,
	                              &n[XFER_HASHED_SOURCE].at.u32, &n[XFER_RETRANSMIT].at.u8, &n[XFER_RETRY].at.u8,
	                              &n[XFER_TAG].at.u16, &n[XFER_TRANSFER].at.u16, &n[XFER_OFFSET].at.u32,
	                              &n[XFER_LENGTH].at.u32);
}

static uint8_t xfer_write(const uint64_t *v, size_t len)
{
	return sonerwal_xfer_rdy_write((uint32_t)v[XFER_HASHED_DESTINATION], (uint32_t)v[XFER_HASHED_SOURCE],
	                               (uint8_t)v[XFER_RETRANSMIT], (uint8_t)v[XFER_RETRY], (uint16_t)v[XFER_TAG],
	                               (uint16_t)v[XFER_TRANSFER], (uint32_t)v[XFER_OFFSET], (uint32_t)v[XFER_LENGTH],
	                               frame_of(&lent_ours), len);
}

static struct kind xfer = {
	.fields = xfer_fields,
	.count = XFER_FIELDS,
	.data_at = 36,
	.longest = 64,
	.repeats = 1000,
	.agree = xfer_agree,
	.front = plain_xfer_front,
	.plain_read = plain_xfer_read,
	.plain_write = plain_xfer_write,
	.our_read = xfer_read,
	.our_write = xfer_write,
	.read = {.name = "XFER_RDY read",
	         .fields = xfer_fields,
	         .field_count = XFER_FIELDS + 1,
	         .cause = {[FRAME_SHORT] = "below 36", [FRAME_LONG] = "above 36", HEADER_BYTES, NO_OFFSET,
	                   [XFER_NO_LENGTH] = "length 0", [XFER_BAD_LAST] = "bytes 32 to 35"}},
	.write = {.name = "XFER_RDY write",
	          .fields = xfer_fields,
	          .field_count = XFER_FIELDS + 2,
	          .cause = {[WRITE_SHORT] = "output short", ADDRESSES, [WRITE_BAD_RETRANSMIT] = "retransmit",
	                    [WRITE_BAD_RETRY] = "retry", [WRITE_NO_LENGTH] = "length 0"}},
};

/* ---- Data out */

static const struct field out_fields[] = {
	[OUT_HASHED_DESTINATION] = {"hashed dest.", 4, 0, 0xFFFFFF},
	[OUT_HASHED_SOURCE] = {"hashed source", 4, 0, 0xFFFFFF},
	[OUT_CHANGING] = {"changing", 1, 0, 1},
	[OUT_TAG] = {"tag", 2, 0, UINT16_MAX},
	[OUT_TRANSFER] = {"transfer tag", 2, 0, UINT16_MAX},
	[OUT_OFFSET] = {"offset", 4, 0, UINT32_MAX},
	[OUT_LENGTH] = {"length", 2, 1, 1024},
	[OUT_FIELDS] = {"fill", 0, 0, 3},
	[OUT_FIELDS + 1] = {"bytes past", 0, 0, 1},
};

static void out_agree(uint64_t *values)
{
	(void)values;
}

static uint8_t out_read(size_t len, struct number *n)
{
	return sonerwal_data_out_read(frame_of(&lent_ours), len, &n[OUT_HASHED_DESTINATION].at.u32,
	                              &n[OUT_HASHED_SOURCE].at.u32, &n[OUT_CHANGING].at.u8, &n[OUT_TAG].at.u16,
	                              &n[OUT_TRANSFER].at.u16, &n[OUT_OFFSET].at.u32, &n[OUT_LENGTH].at.u16);
}

static uint8_t out_write(const uint64_t *v, size_t len)
{
	return sonerwal_data_out_write((uint32_t)v[OUT_HASHED_DESTINATION], (uint32_t)v[OUT_HASHED_SOURCE],
	                               (uint8_t)v[OUT_CHANGING], (uint16_t)v[OUT_TAG], (uint16_t)v[OUT_TRANSFER],
	                               (uint32_t)v[OUT_OFFSET], body_of(&lent_ours), (size_t)v[OUT_LENGTH],
	                               frame_of(&lent_ours), len);
}

static struct kind out = {
	.fields = out_fields,
	.count = OUT_FIELDS,
	.data_at = 24,
	.longest = LONGEST,
	.repeats = 16,
	.has_data = true,
	.agree = out_agree,
	.front = plain_out_front,
	.plain_read = plain_out_read,
	.plain_write = plain_out_write,
	.our_read = out_read,
	.our_write = out_write,
	.read = {.name = "data out read",
	         .fields = out_fields,
	         .field_count = OUT_FIELDS + 1,
	         .cause = {[FRAME_SHORT] = "below 28", [FRAME_LONG] = "above 1048", [FRAME_NOT_FOURS] = "not fours",
	                   HEADER_BYTES, [FRAME_BAD_FILL] = "fill"}},
	.write = {.name = "data out write",
	          .fields = out_fields,
	          .field_count = OUT_FIELDS + 2,
	          .cause = {[WRITE_BODY_LONG] = "body above 1024", [WRITE_BODY_OFF] = "body empty",
	                    [WRITE_SHORT] = "output short", ADDRESSES, [WRITE_BAD_CHANGING] = "changing"}},
};

/* ---- RESPONSE */

static const struct field response_fields[] = {
	[RESPONSE_HASHED_DESTINATION] = {"hashed dest.", 4, 0, 0xFFFFFF},
	[RESPONSE_HASHED_SOURCE] = {"hashed source", 4, 0, 0xFFFFFF},
	[RESPONSE_RETRANSMIT] = {"retransmit", 1, 0, 1},
	[RESPONSE_TAG] = {"tag", 2, 0, UINT16_MAX},
	[RESPONSE_PRESENT] = {"data present", 1, 0, 2},
	[RESPONSE_STATUS] = {"status", 1, 0, UINT8_MAX},
	[RESPONSE_LENGTH] = {"length", 2, 0, 1000},
	[RESPONSE_FIELDS] = {"fill", 0, 0, 3},
	[RESPONSE_FIELDS + 1] = {"bytes past", 0, 0, 1},
};

/* A kind that has as many bytes, and a status that goes with it. */
static void response_agree(uint64_t *values)
{
	uint64_t body_len = values[RESPONSE_LENGTH];
	values[RESPONSE_PRESENT] = body_len == 0 ? 0 : body_len == 4 ? 1 + noise_below(2) : 2;
	if (values[RESPONSE_PRESENT] == 1) {
		values[RESPONSE_STATUS] = 0;
	}
}

static uint8_t response_read(size_t len, struct number *n)
{
	return sonerwal_response_read(frame_of(&lent_ours), len, &n[RESPONSE_HASHED_DESTINATION].at.u32,
	                              &n[RESPONSE_HASHED_SOURCE].at.u32, &n[RESPONSE_RETRANSMIT].at.u8,
	                              &n[RESPONSE_TAG].at.u16, &n[RESPONSE_PRESENT].at.u8, &n[RESPONSE_STATUS].at.u8,
	                              &n[RESPONSE_LENGTH].at.u16);
}

static uint8_t response_write(const uint64_t *v, size_t len)
{
	return sonerwal_response_write((uint32_t)v[RESPONSE_HASHED_DESTINATION], (uint32_t)v[RESPONSE_HASHED_SOURCE],
	                               (uint8_t)v[RESPONSE_RETRANSMIT], (uint16_t)v[RESPONSE_TAG],
	                               (uint8_t)v[RESPONSE_PRESENT], (uint8_t)v[RESPONSE_STATUS], body_of(&lent_ours),
	                               (size_t)v[RESPONSE_LENGTH], frame_of(&lent_ours), len);
}

static struct kind response = {
	.fields = response_fields,
	.count = RESPONSE_FIELDS,
	.data_at = 48,
	.longest = LONGEST,
	.repeats = 16,
	.has_data = true,
	.agree = response_agree,
	.front = plain_response_front,
	.plain_read = plain_response_read,
	.plain_write = plain_response_write,
	.our_read = response_read,
	.our_write = response_write,
	.read = {.name = "RESPONSE read",
	         .fields = response_fields,
	         .field_count = RESPONSE_FIELDS + 1,
	         .cause = {[FRAME_SHORT] = "below 48", [FRAME_LONG] = "above 1048", [FRAME_NOT_FOURS] = "not fours",
	                   HEADER_BYTES, HEADER_BYTE(18), HEADER_BYTE(19), NO_OFFSET, [FRAME_BAD_FILL] = "fill",
	                   [RESPONSE_NO_ROOM] = "no room for fill", [RESPONSE_BAD_ZERO] = "bytes to be zero",
	                   [RESPONSE_BAD_KIND] = "kind", [RESPONSE_BAD_LENGTHS] = "lengths"}},
	.write = {.name = "RESPONSE write",
	          .fields = response_fields,
	          .field_count = RESPONSE_FIELDS + 2,
	          .cause = {[WRITE_BODY_LONG] = "body above 1000", [WRITE_BODY_OFF] = "not its kind's length",
	                    [WRITE_SHORT] = "output short", ADDRESSES, [WRITE_BAD_RETRANSMIT] = "retransmit",
	                    [WRITE_BAD_PRESENT] = "data present", [WRITE_BAD_STATUS] = "status"}},
};

/* ---- One case */

static void read_case(struct test *test, struct kind *kind, size_t len)
{
	uint64_t seen[SEEN];
	noise_fill(lent_ours.number, sizeof lent_ours.number);
	copy_for_plain();
	plain_faults faults = kind->plain_read(frame_of(&lent_plain), len, seen);
	if (faults == 0) {
		store_for_plain(kind->fields, seen, kind->count);
		seen[kind->count] = frame_of(&lent_plain)[11];
	}
	judge(test, &kind->read, kind->our_read(len, lent_ours.number), faults, seen);
}

static size_t body_of_fields(const struct kind *kind, const uint64_t *v)
{
	return kind->has_data ? (size_t)v[kind->count - 1] : 0;
}

static size_t frame_len_of(const struct kind *kind, size_t body_len)
{
	return kind->data_at + body_len + plain_data_fill(body_len);
}

static void write_case(struct test *test, struct kind *kind, uint64_t v[SEEN], size_t len)
{
	size_t body_len = body_of_fields(kind, v);
	v[kind->count] = plain_data_fill(body_len);
	v[kind->count + 1] = len > frame_len_of(kind, body_len);
	lend(len, body_len);
	copy_for_plain();
	plain_faults faults = kind->plain_write(v, body_of(&lent_plain), frame_of(&lent_plain), len);
	judge(test, &kind->write, kind->our_write(v, len), faults, v);
}

/* ---- Reading */

static size_t smaller(size_t a, size_t b)
{
	return a < b ? a : b;
}

/* A frame of any length that is off the layout by its length alone, if at all; with `fill` zeros at its end. */
static void lend_frame(struct kind *kind, size_t len, size_t fill)
{
	uint64_t values[SEEN];
	uint8_t front[48];
	bool whole = len >= kind->data_at + fill;
	lend(len, 0);
	draw_all(kind->fields, kind->count, values);
	if (kind->has_data) {
		values[kind->count - 1] = whole ? len - kind->data_at - fill : 0;
	}
	kind->agree(values);
	kind->front(values, fill, front);
	memcpy(frame_of(&lent_ours), front, smaller(len, kind->data_at));
	if (whole) {
		memset(frame_of(&lent_ours) + len - fill, 0, fill);
	}
}

/* Reads the frame once with each bit of the bytes from `first` to before `end` turned over. */
static void flips(struct test *test, struct kind *kind, size_t len, size_t first, size_t end)
{
	for (size_t bit = first * 8; bit < end * 8; bit++) {
		uint8_t *byte = frame_of(&lent_ours) + bit / 8;
		uint8_t kept = *byte;
		*byte ^= (uint8_t)(1u << bit % 8);
		read_case(test, kind, len);
		*byte = kept;
	}
}

/* Every length and fill count, or 32 frames of each length where there is no fill, with every bit before the data and of the fill turned over. */
static void read_flipped(struct test *test, struct kind *kind)
{
	for (size_t len = 0; len <= kind->longest; len++) {
		for (size_t round = 0; round < (kind->has_data ? 4 : 32); round++) {
			size_t fill = kind->has_data ? round : 0;
			lend_frame(kind, len, fill);
			read_case(test, kind, len);
			flips(test, kind, len, 0, smaller(len, kind->data_at));
			if (len >= kind->data_at + fill) {
				flips(test, kind, len, len - fill, len);
			}
		}
	}
}

/* Every length with nothing but noise, and with noise in up to three bytes of a frame. */
static void read_noise(struct test *test, struct kind *kind)
{
	for (size_t len = 0; len <= kind->longest; len++) {
		for (int repeat = 0; repeat < kind->repeats; repeat++) {
			lend(len, 0);
			read_case(test, kind, len);
			lend_frame(kind, len, kind->has_data ? (size_t)noise_below(4) : 0);
			for (uint64_t left = len ? noise_below(4) : 0; left > 0; left--) {
				noise_fill(frame_of(&lent_ours) + noise_below(len), 1);
			}
			read_case(test, kind, len);
		}
	}
}

/* ---- Writing */

/* Every way to be in range, and then each field in turn outside its range; and once as drawn, whether the fields agree or not. */
static void write_fields(struct test *test, struct kind *kind, size_t body_len, size_t len)
{
	uint64_t values[SEEN];
	size_t numbers = kind->has_data ? kind->count - 1 : kind->count;
	for (size_t field = 0; field < numbers; field++) {
		draw_all(kind->fields, kind->count, values);
		if (kind->has_data) {
			values[kind->count - 1] = body_len;
		}
		write_case(test, kind, values, len);
		kind->agree(values);
		write_case(test, kind, values, len);
		if (has_outside(&kind->fields[field])) {
			values[field] = draw_outside(&kind->fields[field]);
			write_case(test, kind, values, len);
		}
	}
}

/* Every data length with outputs that fit, are longer, one byte short, short of the fill, and empty. */
static void write_lengths(struct test *test, struct kind *kind)
{
	for (size_t body_len = 0; body_len <= (kind->has_data ? LONGEST : 0); body_len++) {
		size_t exact = frame_len_of(kind, body_len);
		const size_t outputs[] = {exact, exact + 1 + (size_t)noise_below(EXTRA), exact - 1, kind->data_at + body_len, 0};
		for (size_t i = 0; i < sizeof outputs / sizeof *outputs; i++) {
			for (int repeat = 0; repeat < (kind->has_data ? 1 : kind->repeats); repeat++) {
				write_fields(test, kind, body_len, outputs[i]);
			}
		}
	}
}

/* sonerwal.h's size of a RESPONSE, by which a caller lends buffers. */
static void response_sizes(struct test *test)
{
	for (size_t body_len = 0; body_len <= LONGEST + 1; body_len++) {
		size_t asked = body_len <= LONGEST ? body_len : SIZE_MAX;
		size_t expected = asked > 1000 ? 0 : frame_len_of(&response, asked);
		test->cases++;
		test->failed += sonerwal_response_size(asked) != expected;
	}
}

/* ---- The table */

#define RUN(what, kind)                                   \
	static void what##_##kind(struct test *test)      \
	{                                                 \
		what(test, &(kind));                      \
	}

RUN(read_flipped, xfer)
RUN(read_noise, xfer)
RUN(write_lengths, xfer)
RUN(read_flipped, out)
RUN(read_noise, out)
RUN(write_lengths, out)
RUN(read_flipped, response)
RUN(read_noise, response)
RUN(write_lengths, response)

static struct test tests[] = {
	{.name = "XFER_RDY read, bits turned", .run = read_flipped_xfer},
	{.name = "XFER_RDY read, noise", .run = read_noise_xfer},
	{.name = "XFER_RDY write", .run = write_lengths_xfer},
	{.name = "data out read, bits turned", .run = read_flipped_out},
	{.name = "data out read, noise", .run = read_noise_out},
	{.name = "data out, every length", .run = write_lengths_out},
	{.name = "RESPONSE read, bits turned", .run = read_flipped_response},
	{.name = "RESPONSE read, noise", .run = read_noise_response},
	{.name = "RESPONSE, every length", .run = write_lengths_response},
	{.name = "RESPONSE size", .run = response_sizes},
};

int main(int argc, char **argv)
{
	struct kind *const kinds[] = {&xfer, &out, &response};
	noise_begin(argc, argv, UINT64_C(0x50C1A10C));
	run_tests(tests, sizeof tests / sizeof *tests);
	for (size_t i = 0; i < sizeof kinds / sizeof *kinds; i++) {
		cover_show(&kinds[i]->read);
		cover_show(&kinds[i]->write);
	}
	return check_end("frames_write");
}
