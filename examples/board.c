/*
 * A recorder board in small. A camera shot a stereo pair, and a host reads both images from a target port with two phys, a read
 * transfer for each. Phy 0 is wired to an expander, of which the two links (XL) of the connection are shown, phy 1 to the host.
 * The wire loses frames, spoils some, which the host NAKs, and is late with answers, by a seeded rule. After the first NAK, with answers
 * still due, the board's firmware is swapped. Then the host writes a calibration file. Time is in microseconds.
 *
 * The day of the pair is told twice, by the same seed: with Sonerwal's transfer, and with the rule of the firmware before it,
 * which counted unanswered frames modulo sixteen.
 */
#include <string.h>

#include "board_expander.h"
#include "board_old.h"
#include "board_swap.h"
#include "board_tell.h"
#include "board_upload.h"
#include "board_wire.h"
#include "sonerwal.h"

enum { RESENDS = 3, BURST = 16, PHYS = 2, STREAMS = 2, SEED = 40, UPLOAD_SEED = 127 };

static const uint64_t host = UINT64_C(0x5003048087654321), board = UINT64_C(0x5000C50012345678);

/* An image on its way. */
struct stream {
	const char *name;
	uint16_t tag;
	bool asked;                    /* the port has a request for its next frame */
	unsigned burst;                /* frames sent since answers were last waited for */
	uint8_t answer[BURST];         /* that the host gave to them, in order: ACK or NAK */
	unsigned answers;              /* how many; a lost frame has none */
	bool late;                     /* they come behind the time-out */
	struct sonerwal_transfer transfer;
	struct old_count old;
	uint8_t image[IMAGE];          /* on the board */
	uint8_t received[IMAGE];       /* at the host, where the pair before still lies */
};

static struct stream streams[STREAMS];
static struct sonerwal_request list[SONERWAL_SLOTS];
static struct sonerwal_port port;
static bool opening[PHYS], sending[PHYS], refused_once;
static bool old_rule; /* the firmware before */
static bool swapped;

/* ---- The two rules */

static uint32_t length_of(const struct stream *s)
{
	if (!old_rule) {
		return sonerwal_transfer_length(s->transfer);
	}
	return old_length(&s->old);
}

static uint32_t read_of(const struct stream *s)
{
	return old_rule ? s->old.read : s->transfer.read;
}

static bool is_finished(const struct stream *s)
{
	return old_rule ? s->old.done : s->transfer.phase >= SONERWAL_PHASE_DONE;
}

static unsigned unanswered_by(const struct stream *s)
{
	return old_rule ? s->old.unanswered : s->transfer.unanswered;
}

static uint8_t old_next(struct stream *s, uint8_t *frame, size_t room)
{
	struct sonerwal_data data = {HOST_HASH, BOARD_HASH, s->old.read, s->tag, (uint16_t)length_of(s), 0};
	must(sonerwal_data_put(&data, s->image + s->old.read, frame, room) == SONERWAL_OK, "no DATA frame");
	return old_sent(&s->old, data.length);
}

static uint8_t next_frame(struct stream *s, uint8_t *frame, size_t room)
{
	if (old_rule) {
		return old_next(s, frame, room);
	}
	const uint8_t *body = s->image + s->transfer.read;
	return sonerwal_transfer_keep(&s->transfer, sonerwal_transfer_next(s->transfer, HOST_HASH, BOARD_HASH, s->tag, body, length_of(s), frame, room));
}

static uint8_t answered(struct stream *s, uint8_t answer)
{
	if (old_rule) {
		return old_answered(&s->old, answer);
	}
	return sonerwal_transfer_keep(&s->transfer, answer == ACK ? sonerwal_transfer_ack(s->transfer) : sonerwal_transfer_nak(s->transfer));
}

static uint8_t timed_out(struct stream *s)
{
	if (old_rule) {
		return old_timed_out(&s->old);
	}
	return sonerwal_transfer_keep(&s->transfer, sonerwal_transfer_timeout(s->transfer));
}

/* ---- The port's answers */

static struct stream *stream_of(uint16_t tag)
{
	return &streams[tag - 1];
}

static const char *name_of(uint16_t tag)
{
	return tag == FILE_TAG ? "file" : stream_of(tag)->name;
}

static void told(const char *what, const struct sonerwal_port_step *r)
{
	sonerwal_port_keep(&port, r);
	if (quiet) {
		return;
	}
	line("port", what);
	printf("%s", sonerwal_answer_name(r->answer));
	if (r->slot != SONERWAL_NO_SLOT) {
		printf(": %s", name_of(r->frame.tag));
	}
	if (r->phy != SONERWAL_NO_PHY) {
		printf(", phy %d", r->phy);
	}
	printf("\n");
}

/* The next frame of an image goes. What the wire does with it is drawn. */
static void send_frame(struct stream *s)
{
	uint8_t frame[SONERWAL_DATA_SIZE_MAX];
	struct sonerwal_data data;
	uint32_t from = read_of(s), length = length_of(s);
	bool lost = one_in(24), spoiled = one_in(24);

	if (s->burst == 0) {
		s->late = one_in(4);
	}
	must(next_frame(s, frame, sizeof frame) == SONERWAL_SENT, "no frame");
	if (!lost && !spoiled) {
		must(sonerwal_data_get(&data, frame, sonerwal_data_size(length)) == SONERWAL_OK, "the host reads no DATA frame");
		memcpy(s->received + data.offset, sonerwal_data_body(frame), data.length);
	}
	if (!lost) {
		s->answer[s->answers++] = spoiled ? NAK : ACK;
	}
	s->burst++;
	s->asked = false;
	line(s->name, "frame");
	printf("bytes %" PRIu32 " to %" PRIu32 "%s; unanswered %u\n", from, from + length - 1,
	       lost ? ", lost" : spoiled ? ", spoiled" : "", unanswered_by(s));
}

/* The frame of a request is made now and not before. */
static void send(const struct sonerwal_port_step *r)
{
	if (r->frame.tag == FILE_TAG) {
		send_upload_frame();
	} else {
		send_frame(stream_of(r->frame.tag));
	}
	sending[r->phy] = true;
}

static void follow(const char *what, const struct sonerwal_port_step *r)
{
	told(what, r);
	now++;
	if (r->answer == SONERWAL_OPEN) {
		opening[r->phy] = true;
	} else if (r->answer == SONERWAL_SEND) {
		send(r);
		now++;
	} else if (r->answer == SONERWAL_RETRIED) {
		now += SONERWAL_RETRY_MICROSECONDS;
	}
}

/* The OPEN of a phy: through the expander on phy 0; on phy 1 the host is busy the first time. */
static void confirm(uint8_t phy, const struct sonerwal_open *frame)
{
	uint8_t bytes[SONERWAL_OPEN_SIZE];
	struct sonerwal_port_step r;

	must(sonerwal_open_put(frame, bytes, sizeof bytes) == SONERWAL_OK, "no OPEN frame");
	opening[phy] = false;
	if (phy == 0) {
		through(bytes, frame);
	} else if (!refused_once) {
		refused_once = true;
		r = sonerwal_port_open_failed(list, SONERWAL_SLOTS, port, phy, SONERWAL_REASON_RETRY, now);
		follow("open failed, Retry", &r);
		return;
	}
	r = sonerwal_port_opened(list, SONERWAL_SLOTS, port, phy, now);
	follow("opened", &r);
}

/* ---- The board */

static void submit(uint16_t tag)
{
	struct sonerwal_open head = {0};
	struct sonerwal_port_step r;

	head.protocol = SONERWAL_PROTOCOL_SSP;
	head.rate = SONERWAL_RATE_6_GBPS;
	head.tag = tag;
	head.destination = host;
	head.source = board;
	r = sonerwal_port_submit(list, SONERWAL_SLOTS, port, head, now);
	follow("submit", &r);
}

static void ask(struct stream *s)
{
	if (!s->asked && s->burst < BURST && length_of(s) > 0) {
		s->asked = true;
		submit(s->tag);
	}
}

static void choose(struct sonerwal_open *open)
{
	struct sonerwal_port_step r;

	do {
		r = sonerwal_port_choose(list, SONERWAL_SLOTS, port, now);
		if (r.answer == SONERWAL_OPEN) {
			open[r.phy] = r.frame;
		}
		if (r.answer != SONERWAL_NOTHING) {
			follow("choose", &r);
		}
	} while (r.answer != SONERWAL_NOTHING);
}

/* What was submitted goes, if it may. */
static void carry(void)
{
	struct sonerwal_open open[PHYS];

	choose(open);
	for (uint8_t phy = 0; phy < PHYS; phy++) {
		if (opening[phy]) {
			confirm(phy, &open[phy]);
		}
	}
	for (uint8_t phy = 0; phy < PHYS; phy++) {
		if (sending[phy]) {
			struct sonerwal_port_step r = sonerwal_port_frame_status(list, SONERWAL_SLOTS, port, phy, 0, now);
			sending[phy] = false;
			follow("frame status", &r);
		}
	}
}

/* One frame of each image. */
static void round_of_frames(void)
{
	for (unsigned i = 0; i < STREAMS; i++) {
		ask(&streams[i]);
	}
	carry();
}

/* 02 a.1: We swap board firmware while a host waits.
 * Both images are on their way. The transfers alone go through the swap here: the port, whose list is empty since every frame went, stays. */
static void swap_firmware(void)
{
	struct kept kept[STREAMS];

	for (unsigned i = 0; i < STREAMS; i++) {
		save(&kept[i], streams[i].name, &streams[i].transfer);
	}
	now += SWAP_MICROSECONDS;
	for (unsigned i = 0; i < STREAMS; i++) {
		restore(&kept[i], streams[i].name, &streams[i].transfer);
	}
	swapped = true;
}

/* What came back for the frames that went; a frame without an answer ends in the ACK/NAK timeout. */
static void hear_answers(struct stream *s)
{
	uint8_t answer = SONERWAL_OK;

	for (unsigned i = 0; i < s->answers && !s->late; i++) {
		answer = answered(s, s->answer[i]);
		line(s->name, s->answer[i] == ACK ? "ACK" : "NAK");
		printf("%s; unanswered %u\n", sonerwal_answer_name(answer), unanswered_by(s));
		now++;
		if (answer == SONERWAL_DRAIN && !old_rule && !swapped) {
			swap_firmware();
		}
	}
	if (s->burst > 0 && !is_finished(s) && (s->late || s->answers < s->burst) && answer != SONERWAL_RETRY) {
		now += 1000;
		answer = timed_out(s);
		line(s->name, "TIMEOUT");
		printf("%s; resends from byte %" PRIu32 "\n", sonerwal_answer_name(answer), read_of(s));
	}
	s->burst = 0;
	s->answers = 0;
}

/* The host closes. */
static void hang_up(void)
{
	hang_up_links();
	for (uint8_t phy = 0; phy < PHYS; phy++) {
		if (port.phys[phy].stage == SONERWAL_PHY_IDLE) {
			struct sonerwal_port_step r = sonerwal_port_closed(list, SONERWAL_SLOTS, port, phy, now);
			follow("closed", &r);
		}
	}
}

static void prepare(void)
{
	memset(links, 0, sizeof links);
	memset(streams, 0, sizeof streams);
	refused_once = false;
	now = 0;
	seed = SEED;
	for (unsigned i = 0; i < STREAMS; i++) {
		struct stream *s = &streams[i];
		s->name = i == 0 ? "left" : "right";
		s->tag = (uint16_t)(i + 1);
		for (unsigned k = 0; k < IMAGE; k++) {
			s->image[k] = (uint8_t)(k * k / 7 + i);
			s->received[k] = (uint8_t)(k * 3 + i);
		}
		must(sonerwal_transfer_keep(&s->transfer, sonerwal_transfer_start(s->transfer, 0, IMAGE, SIZE, RESENDS)) == SONERWAL_OK, "no START");
	}
	struct sonerwal_port_step r = sonerwal_port_setup(list, SONERWAL_SLOTS, PHYS, 2000);
	follow("setup", &r);
	for (uint8_t phy = 0; phy < PHYS; phy++) {
		r = sonerwal_port_enable(list, SONERWAL_SLOTS, port, phy, now);
		follow("enable", &r);
	}
}

/* Whether the host has the image that the camera shot, frame by frame. */
static bool report(const struct stream *s)
{
	bool same = true;

	for (unsigned at = 0; at < IMAGE; at += SIZE) {
		if (memcmp(s->image + at, s->received + at, SIZE) != 0) {
			printf("%-6s bytes %u to %u are of the pair before\n", s->name, at, at + SIZE - 1);
			same = false;
		}
	}
	if (same) {
		printf("%-6s %d bytes, as the camera shot them\n", s->name, IMAGE);
	}
	return same;
}

static bool day(bool old, const char *title)
{
	bool more = true, same = true;

	old_rule = old;
	quiet = old;
	printf("%s\n\n", title);
	prepare();
	while (more) {
		do {
			round_of_frames();
			more = false;
			for (unsigned i = 0; i < STREAMS; i++) {
				more = more || (streams[i].burst < BURST && length_of(&streams[i]) > 0);
			}
		} while (more);
		for (unsigned i = 0; i < STREAMS; i++) {
			hear_answers(&streams[i]);
			more = more || !is_finished(&streams[i]);
		}
	}
	hang_up();
	printf("\nat the host\n");
	for (unsigned i = 0; i < STREAMS; i++) {
		same = report(&streams[i]) && same;
	}
	printf("%s\n", same ? "depth is worked out of this pair" : "depth would be worked out of a pair that never existed");
	return same;
}

/* 02 c.1: The recorder must also take calibration files. */
static bool upload(void)
{
	printf("The host writes a calibration file\n\n");
	seed = UPLOAD_SEED;
	begin_upload();
	while (upload_has_frame()) {
		submit(FILE_TAG);
		carry();
		hear_upload_answer();
		hear_data();
	}
	hang_up();
	return report_upload();
}

int main(void)
{
	bool whole = day(false, "Sonerwal's transfer");
	printf("\n");
	bool stored = upload();
	printf("\n");
	bool broken = !day(true, "The same wire, with unanswered frames counted modulo sixteen");
	return whole && stored && broken ? EXIT_SUCCESS : EXIT_FAILURE;
}
