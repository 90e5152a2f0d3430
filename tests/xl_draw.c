#include "xl_draw.h"

#include "check.h"

struct sonerwal_event named_events[NAMED];

size_t name_events(void)
{
	size_t count = 0;
	for (unsigned number = 0; number < 65536; number++) {
		struct sonerwal_event e = {(uint8_t)(number / 256), (uint8_t)number};
		if (event_word(e) && count++ < NAMED) {
			named_events[count - 1] = e;
		}
	}
	return count;
}

struct sonerwal_event draw_event(void)
{
	return named_events[noise_below(NAMED)];
}

/* A frame of OPEN's fields; waits, addresses and rates are few, so that priorities and paths often meet. */
static struct sonerwal_open draw_open(void)
{
	return (struct sonerwal_open){
		.destination = UINT64_C(0x5000C50012345678) + noise_below(3), .source = UINT64_C(0x5000C50012345678) + noise_below(3),
		.tag = (uint16_t)noise(), .awt = (uint16_t)noise_below(noise_below(8) ? 2 : 65536),
		.initiator = (uint8_t)noise_below(2), .protocol = (uint8_t)noise_below(3), .features = (uint8_t)noise_below(16),
		.rate = (uint8_t)(8 + noise_below(3)), .pbc = (uint8_t)noise(),
	};
}

void draw_frames(struct frames *frames)
{
	frames->held = draw_open();
	frames->heard = draw_open();
	frames->event = draw_open();
	/* apart in any case, and with anything in the members that a call does not look at */
	frames->heard.tag = (uint16_t)(frames->held.tag + 1);
	frames->event.tag = (uint16_t)(frames->held.tag + 2);
	frames->event.zero4 = (uint32_t)noise();
	frames->event.zero2 = (uint16_t)noise();
	frames->event.zero1 = (uint8_t)noise();
}

struct sonerwal_link draw_link(int state, const struct frames *frames)
{
	static const uint32_t counts[] = {0, 7, UINT32_MAX - 1, UINT32_MAX};
	bool holds = (state >= 1 && state <= 6) || noise_below(2);
	char memory[] = {holds ? 'h' : '-', noise_below(2) ? 'o' : '-', "-0123"[noise_below(5)], (char)('0' + noise_below(2)),
	                 (char)('0' + noise_below(2)), (char)('0' + noise_below(2)), '\0'};
	return link_of(state, memory, frames, counts[noise_below(4)]);
}
