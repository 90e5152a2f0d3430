/* An OPEN address frame, written from a struct, shown, read back; and one that is refused. */
#include <inttypes.h>
#include <stdio.h>
#include <stdlib.h>

#include "sonerwal.h"

/* The frame, one part to a line (01, OPEN address frame). */
static void show_bytes(const uint8_t *frame)
{
	static const struct {
		const char *name;
		size_t first, count;
	} parts[] = {
		{"initiator, protocol, type", 0, 1}, {"features, rate", 1, 1}, {"connection tag", 2, 2},
		{"destination", 4, 8}, {"source", 12, 8}, {"not carried", 20, 1},
		{"pathway blocked count", 21, 1}, {"arbitration wait time", 22, 2}, {"not carried", 24, 4},
	};
	for (size_t i = 0; i < sizeof parts / sizeof *parts; i++) {
		printf("  %2zu  %-26s", parts[i].first, parts[i].name);
		for (size_t k = 0; k < parts[i].count; k++) {
			printf(" %02X", frame[parts[i].first + k]);
		}
		printf("\n");
	}
}

static void show_fields(const struct sonerwal_open *open)
{
	printf("  initiator %d, protocol %d, features %d, rate %d, tag %04X\n", open->initiator, open->protocol,
	       open->features, open->rate, open->tag);
	printf("  destination %016" PRIX64 ", source %016" PRIX64 "\n", open->destination, open->source);
	printf("  pathway blocked count %d, arbitration wait time %d\n", open->pbc, open->awt);
}

int main(void)
{
	struct sonerwal_open request = {
		.initiator = 1,
		.protocol = SONERWAL_PROTOCOL_SSP,
		.rate = SONERWAL_RATE_6_GBPS,
		.tag = 0x0102,
		.destination = UINT64_C(0x5000C50012345678),
		.source = UINT64_C(0x5003048087654321),
		.pbc = 3,
		.awt = 1500,
	};
	struct sonerwal_open received = {0};
	uint8_t frame[SONERWAL_OPEN_SIZE];

	if (sonerwal_open_put(&request, frame, sizeof frame) != SONERWAL_OK) {
		return EXIT_FAILURE;
	}
	printf("written:\n");
	show_bytes(frame);

	if (sonerwal_open_get(&received, frame, sizeof frame) != SONERWAL_OK) {
		return EXIT_FAILURE;
	}
	printf("read back:\n");
	show_fields(&received);

	request.rate = 11;
	uint8_t answer = sonerwal_open_put(&request, frame, sizeof frame);
	printf("rate 11: refusal %d, and the frame is as it was:\n", answer);
	show_bytes(frame);
	return answer == SONERWAL_REFUSED_UNLISTED ? EXIT_SUCCESS : EXIT_FAILURE;
}
