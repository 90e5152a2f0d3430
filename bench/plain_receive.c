/* An OPEN received as bytes: the plain reader of bench/plain.c, and the plain link's step. */
#include "plain.h"
#include "plain_links.h"

struct sonerwal_link_step plain_link_receive(struct sonerwal_link s, const uint8_t *frame, size_t frame_len)
{
	struct sonerwal_open open = {0};
	uint8_t refusal = plain_open_read(frame, frame_len, &open.initiator, &open.protocol, &open.features, &open.rate,
	                                  &open.tag, &open.destination, &open.source, &open.pbc, &open.awt);
	if (refusal != SONERWAL_OK) {
		return (struct sonerwal_link_step){.state = s, .answer = refusal};
	}
	return plain_link_event(s, (struct sonerwal_event){SONERWAL_KIND_OPEN, 0}, open);
}
