/*
 * A board's firmware in small. It asks for a connection, sends an image to the host in DATA frames, and the host, on the
 * other end of the wire, reads them and puts the image together.
 */
#include <inttypes.h>
#include <stdio.h>
#include <stdlib.h>
#include <string.h>

#include "sonerwal.h"

enum { IMAGE = 3000, HOST = 0x123456, BOARD = 0x654321, TAG = 7 };

static uint8_t image[IMAGE];    /* on the board */
static uint8_t received[IMAGE]; /* at the host */

/* The wire holds one frame at a time. */
static uint8_t wire[SONERWAL_DATA_SIZE_MAX];
static size_t on_wire;

static void must(uint8_t answer, const char *what)
{
	if (answer != SONERWAL_OK) {
		printf("%s: refusal %d\n", what, answer);
		exit(EXIT_FAILURE);
	}
}

/* ---- The board */

static void ask(void)
{
	struct sonerwal_open request = {
		.protocol = SONERWAL_PROTOCOL_SSP,
		.rate = SONERWAL_RATE_6_GBPS,
		.tag = 0xFFFF,
		.destination = UINT64_C(0x5003048087654321),
		.source = UINT64_C(0x5000C50012345678),
	};
	must(sonerwal_open_put(&request, wire, SONERWAL_OPEN_SIZE), "OPEN");
	on_wire = SONERWAL_OPEN_SIZE;
}

/* One frame of the image from an offset on; gives how many bytes of the image went. */
static size_t send(size_t offset)
{
	size_t left = IMAGE - offset;
	size_t length = left < SONERWAL_DATA_BODY_MAX ? left : SONERWAL_DATA_BODY_MAX;
	struct sonerwal_data data = {
		.hashed_destination = HOST,
		.hashed_source = BOARD,
		.offset = (uint32_t)offset,
		.tag = TAG,
		.length = (uint16_t)length,
	};
	must(sonerwal_data_put(&data, image + offset, wire, sizeof wire), "DATA");
	on_wire = sonerwal_data_size(length);
	return length;
}

/* ---- The host */

static void accept(void)
{
	struct sonerwal_open open = {0};
	must(sonerwal_open_get(&open, wire, on_wire), "OPEN received");
	printf("OPEN  %2zu bytes, %016" PRIX64 " to %016" PRIX64 "\n", on_wire, open.source, open.destination);
}

static void receive(void)
{
	struct sonerwal_data data = {0};
	must(sonerwal_data_get(&data, wire, on_wire), "DATA received");
	memcpy(received + data.offset, wire + SONERWAL_DATA_HEADER_SIZE, data.length);
	printf("DATA  %4zu bytes, %4d of the image from %4" PRIu32 " on\n", on_wire, data.length, data.offset);
}

int main(void)
{
	for (size_t i = 0; i < IMAGE; i++) {
		image[i] = (uint8_t)(i * i / 7);
	}
	ask();
	accept();
	for (size_t offset = 0; offset < IMAGE;) {
		offset += send(offset);
		receive();
	}
	printf("the image %s\n", memcmp(image, received, IMAGE) == 0 ? "arrived" : "is not what was sent");

	/* What the wire does to a frame is noticed, and the host's struct stays as it was. */
	wire[4] = 1;
	struct sonerwal_data data = {.tag = TAG};
	uint8_t answer = sonerwal_data_get(&data, wire, on_wire);
	printf("a header byte off: refusal %d, and the tag is still %d\n", answer, data.tag);
	return answer == SONERWAL_REFUSED_UNLISTED ? EXIT_SUCCESS : EXIT_FAILURE;
}
