/*
 * Whole writes over a wire that loses XFER_RDYs and ACKs: a host that answers every XFER_RDY that reached it, also where two ask for the
 * same range, and sends from an image. At each call the library is held against the model, byte for byte of the store; at the end the
 * store is the image, and what lies behind it is as it was.
 *
 * Usage: writes_host [SEED]
 */
#include "check.h"
#include "write_draw.h"
#include "write_face.h"

#include <stdio.h>
#include <string.h>

enum { CASES = 20000, MOST_ORDERS = 128, MOST_TURNS = 100000, RETRIES = 63 };

/* An XFER_RDY that reached the host, and how far it was answered. */
struct order {
	struct xfer asked;
	uint32_t sent;
	bool sending;
};

static struct uploads both;
static struct given g;
static struct order orders[MOST_ORDERS];
static size_t order_count;
static uint64_t seed_of_image;
static unsigned long done, failed, late, stale, early, agreed;

static uint8_t image(uint32_t offset)
{
	return (uint8_t)((offset * UINT64_C(0x9E3779B97F4A7C15) ^ seed_of_image) >> 29);
}

static bool make(enum call call)
{
	bool good = uploads_agree(&both, call, &g);
	agreed += good;
	return good;
}

/* ---- The target asks, over the wire */

static void reaches_the_host(const struct xfer *x)
{
	if (order_count < MOST_ORDERS) {
		orders[order_count++] = (struct order){*x, 0, true};
	}
}

/* One in four XFER_RDYs is lost, and of the others one in four ACKs; some are NAKed. */
static bool asks(void)
{
	g.lent_len = XFER_RDY_BYTES;
	g.others = noise() & noise() & noise();
	if (!make(ASK)) {
		return false;
	}
	if (noise_below(4) == 0) {
		return make(noise_below(2) ? TIMEOUT : LOST);
	}
	if (noise_below(8) == 0) {
		return make(NAK);
	}
	reaches_the_host(upload_latest(&both.u));
	return true;
}

static bool hears(void)
{
	return make(noise_below(4) ? ACK : TIMEOUT);
}

/* ---- The host answers */

static void fill_frame(const struct xfer *x, uint32_t from, uint32_t length)
{
	static uint8_t body[1024];
	for (uint32_t i = 0; i < length; i++) {
		body[i] = image(x->offset + from + i);
	}
	put_data_out(&g, x->tag, x->offset + from, body, length);
}

/* The next frame of any order that isn't answered whole; one that overtook its ACK comes again. */
static bool sends(void)
{
	struct order *o = &orders[noise_below(order_count)];
	uint32_t left = o->asked.length - o->sent, most = left < 1024 ? left : 1024;
	uint32_t length = most > 4 && noise_below(2) ? 4 * (1 + (uint32_t)noise_below(most / 4)) : most;
	if (!o->sending) {
		return true;
	}
	fill_frame(&o->asked, o->sent, length);
	g.lent_len = both.u.asked.n;
	bool good = make(TAKE);
	if (both.said == SONERWAL_REFUSED_UNFIT) {
		early++;
		return good;
	}
	late += both.said == SONERWAL_LATE;
	stale += both.said == SONERWAL_REFUSED_UNLISTED;
	o->sent += length;
	o->sending = o->sent < o->asked.length;
	return good;
}

/* ---- A write */

static bool goes_on(void)
{
	switch (both.s.phase) {
	case SONERWAL_WRITE_ASK: return order_count > 0 && noise_below(3) ? sends() : asks();
	case SONERWAL_WRITE_WAIT: return noise_below(3) ? sends() : hears();
	default: return sends();
	}
}

/* 02 c.4: complete, so every requested byte is the image's, and no other byte was written */
static bool is_image(const uint8_t *before)
{
	uint32_t n = both.u.asked.n;
	for (uint32_t i = 0; i < n; i++) {
		if (both.ours[i] != image(both.u.asked.b + i)) {
			return false;
		}
	}
	return memcmp(both.ours + n, before + n, MOST_STORE - n) == 0;
}

static bool write_whole(void)
{
	static uint8_t before[MOST_STORE];
	uploads_begin(&both);
	memcpy(before, both.ours, sizeof before);
	seed_of_image = noise();
	order_count = 0;
	do {
		g.request = draw_write_request();
	} while (g.request.n > MOST_BYTES || g.request.n / g.request.x > 20);
	g.request.r = RETRIES;
	g.head = (struct address){0x123456, 0xABCDEF, (uint16_t)noise()};
	bool good = make(START);
	for (int turn = 0; good && both.u.running && turn < MOST_TURNS; turn++) {
		good = goes_on();
	}
	done += both.said == SONERWAL_DONE;
	failed += both.said == SONERWAL_FAIL;
	return good && (both.said == SONERWAL_FAIL || (both.said == SONERWAL_DONE && is_image(before)));
}

static void shown(const char *what, unsigned long times)
{
	printf("%-40s %9lu\n", what, times);
	check(times > 0, "no write showed: %s", what);
}

int main(int argc, char **argv)
{
	unsigned long off = 0;
	noise_begin(argc, argv, UINT64_C(0x50C1A10E));
	for (int i = 0; i < CASES; i++) {
		off += !write_whole();
	}
	check(off == 0, "%lu of %d writes", off, CASES);
	shown("calls that agree", agreed);
	shown("writes done, the store is the image", done);
	shown("frames that were late, and dropped", late);
	shown("frames under a tag no longer in use", stale);
	shown("frames before their ACK, offered again", early);
	printf("%-40s %9lu\n", "writes out of retries", failed);
	return check_end("writes_host");
}
