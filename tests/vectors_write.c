/*
 * Frames of a write whose layout others have written down, through the struct calls of sonerwal.h in both directions.
 *
 * The facts come from Linux 6.1, include/scsi/sas.h: the members of struct ssp_frame_hdr, struct xfer_rdy_iu and struct
 * ssp_response_iu in their order, and the numbers of SSP_* and SAS_DATAPRES_*. Each vector names its member, and apart
 * from what makes a frame valid has only that field not zero. The bytes are this project's own.
 */
#include "check.h"
#include "hex.h"
#include "sonerwal.h"

#include <string.h>

/* Whether writing the fields gives the bytes, or a writer can't put them there. */
enum direction { BOTH, READ };

#define HEADER "struct ssp_frame_hdr."
#define XFER_IU "struct xfer_rdy_iu."
#define RESPONSE_IU "struct ssp_response_iu."

enum { ROOM = 64 }; /* more than any vector here has */

/* ---- XFER_RDY */

struct xfer_vector {
	const char *member;
	const char *bytes; /* the header, then the information unit */
	struct sonerwal_xfer_rdy fields;
	enum direction direction;
	uint8_t answer;
};

static const struct xfer_vector xfers[] = {
	{"SSP_XFER_RDY, in " HEADER "frame_type; " XFER_IU "write_data_len of 1",
	 "05 000000 00 000000 0000 00 00 00000000 0000 0000 00000000 00000000 00000001 00000000", {.length = 1}, BOTH, SONERWAL_OK},
	{HEADER "hashed_dest_addr",
	 "05 A1B2C3 00 000000 0000 00 00 00000000 0000 0000 00000000 00000000 00000001 00000000",
	 {.length = 1, .hashed_destination = 0xA1B2C3}, BOTH, SONERWAL_OK},
	{HEADER "hashed_src_addr",
	 "05 000000 00 D4E5F6 0000 00 00 00000000 0000 0000 00000000 00000000 00000001 00000000",
	 {.length = 1, .hashed_source = 0xD4E5F6}, BOTH, SONERWAL_OK},
	{HEADER "retransmit, behind changing_data_ptr",
	 "05 000000 00 000000 0000 02 00 00000000 0000 0000 00000000 00000000 00000001 00000000",
	 {.length = 1, .retransmit = 1}, BOTH, SONERWAL_OK},
	{HEADER "retry_data_frames, behind retransmit",
	 "05 000000 00 000000 0000 04 00 00000000 0000 0000 00000000 00000000 00000001 00000000",
	 {.length = 1, .retry = 1}, BOTH, SONERWAL_OK},
	{HEADER "tag",
	 "05 000000 00 000000 0000 00 00 00000000 5678 0000 00000000 00000000 00000001 00000000",
	 {.length = 1, .tag = 0x5678}, BOTH, SONERWAL_OK},
	{HEADER "tptt",
	 "05 000000 00 000000 0000 00 00 00000000 0000 9ABC 00000000 00000000 00000001 00000000",
	 {.length = 1, .transfer = 0x9ABC}, BOTH, SONERWAL_OK},
	{XFER_IU "requested_offset",
	 "05 000000 00 000000 0000 00 00 00000000 0000 0000 00000000 89ABCDEF 00000001 00000000",
	 {.length = 1, .offset = 0x89ABCDEF}, BOTH, SONERWAL_OK},
	{XFER_IU "write_data_len",
	 "05 000000 00 000000 0000 00 00 00000000 0000 0000 00000000 00000000 FEDCBA98 00000000",
	 {.length = 0xFEDCBA98}, BOTH, SONERWAL_OK},

	{XFER_IU "write_data_len of 0",
	 "05 000000 00 000000 0000 00 00 00000000 0000 0000 00000000 00000000 00000000 00000000", {0}, READ,
	 SONERWAL_REFUSED_UNLISTED},
	{XFER_IU "_r_a",
	 "05 000000 00 000000 0000 00 00 00000000 0000 0000 00000000 00000000 00000001 00000001", {0}, READ,
	 SONERWAL_REFUSED_UNLISTED},
	{HEADER "changing_data_ptr",
	 "05 000000 00 000000 0000 01 00 00000000 0000 0000 00000000 00000000 00000001 00000000", {0}, READ,
	 SONERWAL_REFUSED_UNLISTED},
	{HEADER "_r_c",
	 "05 000000 00 000000 0000 08 00 00000000 0000 0000 00000000 00000000 00000001 00000000", {0}, READ,
	 SONERWAL_REFUSED_UNLISTED},
	{HEADER "num_fill_bytes",
	 "05 000000 00 000000 0000 00 01 00000000 0000 0000 00000000 00000000 00000001 00000000", {0}, READ,
	 SONERWAL_REFUSED_UNLISTED},
	{HEADER "data_offs",
	 "05 000000 00 000000 0000 00 00 00000000 0000 0000 00000001 00000000 00000001 00000000", {0}, READ,
	 SONERWAL_REFUSED_UNLISTED},
	{"SSP_RESPONSE, in " HEADER "frame_type",
	 "07 000000 00 000000 0000 00 00 00000000 0000 0000 00000000 00000000 00000001 00000000", {0}, READ,
	 SONERWAL_REFUSED_UNLISTED},
};

static bool same_xfer(const struct sonerwal_xfer_rdy *a, const struct sonerwal_xfer_rdy *b)
{
	return a->hashed_destination == b->hashed_destination && a->hashed_source == b->hashed_source &&
	       a->retransmit == b->retransmit && a->retry == b->retry && a->tag == b->tag && a->transfer == b->transfer &&
	       a->offset == b->offset && a->length == b->length;
}

static void read_xfer(const struct xfer_vector *vector)
{
	struct sonerwal_xfer_rdy before, read;
	uint8_t frame[ROOM];
	memset(&before, 0x5A, sizeof before);
	read = before;
	size_t len = bytes_of(vector->bytes, frame);
	uint8_t answer = sonerwal_xfer_rdy_get(&read, frame, len);
	check(len == SONERWAL_XFER_RDY_SIZE && answer == vector->answer, "XFER_RDY read, %s: answer %d", vector->member, answer);
	check(same_xfer(&read, vector->answer == SONERWAL_OK ? &vector->fields : &before), "XFER_RDY read, %s: fields",
	      vector->member);
}

static void write_xfer(const struct xfer_vector *vector)
{
	uint8_t expected[ROOM], frame[ROOM];
	memset(frame, 0x5A, sizeof frame);
	memcpy(expected, frame, sizeof frame);
	bytes_of(vector->bytes, expected);
	uint8_t answer = sonerwal_xfer_rdy_put(&vector->fields, frame, sizeof frame);
	check(answer == vector->answer, "XFER_RDY write, %s: answer %d", vector->member, answer);
	check(memcmp(frame, expected, sizeof frame) == 0, "XFER_RDY write, %s: bytes", vector->member);
}

/* ---- A write's DATA: what differs from a read's, of which vectors.c has the rest */

struct out_vector {
	const char *member;
	const char *bytes; /* the header, then the data with its fill */
	struct sonerwal_data_out fields;
	enum direction direction;
	uint8_t answer;
};

static const struct out_vector outs[] = {
	{"SSP_DATA, in " HEADER "frame_type",
	 "01 000000 00 000000 0000 00 00 00000000 0000 0000 00000000 00000000", {.length = 4}, BOTH, SONERWAL_OK},
	{HEADER "tptt",
	 "01 000000 00 000000 0000 00 00 00000000 0000 9ABC 00000000 00000000", {.length = 4, .transfer = 0x9ABC}, BOTH,
	 SONERWAL_OK},
	{HEADER "tptt, all ones",
	 "01 000000 00 000000 0000 00 00 00000000 0000 FFFF 00000000 00000000", {.length = 4, .transfer = 0xFFFF}, BOTH,
	 SONERWAL_OK},
	{HEADER "changing_data_ptr",
	 "01 000000 00 000000 0000 01 00 00000000 0000 0000 00000000 00000000", {.length = 4, .changing = 1}, BOTH,
	 SONERWAL_OK},
	{HEADER "data_offs",
	 "01 000000 00 000000 0000 00 00 00000000 0000 0000 89ABCDEF 00000000", {.length = 4, .offset = 0x89ABCDEF}, BOTH,
	 SONERWAL_OK},
	{HEADER "(size, 24): data, num_fill_bytes of 3",
	 "01 000000 00 000000 0000 00 03 00000000 0000 0000 00000000 01020304 05000000", {.length = 5}, BOTH, SONERWAL_OK},

	{HEADER "retransmit",
	 "01 000000 00 000000 0000 02 00 00000000 0000 0000 00000000 00000000", {0}, READ, SONERWAL_REFUSED_UNLISTED},
	{HEADER "retry_data_frames",
	 "01 000000 00 000000 0000 04 00 00000000 0000 0000 00000000 00000000", {0}, READ, SONERWAL_REFUSED_UNLISTED},
	{"SSP_XFER_RDY, in " HEADER "frame_type",
	 "05 000000 00 000000 0000 00 00 00000000 0000 0000 00000000 00000000", {0}, READ, SONERWAL_REFUSED_UNLISTED},
};

static bool same_out(const struct sonerwal_data_out *a, const struct sonerwal_data_out *b)
{
	return a->hashed_destination == b->hashed_destination && a->hashed_source == b->hashed_source &&
	       a->changing == b->changing && a->tag == b->tag && a->transfer == b->transfer && a->offset == b->offset &&
	       a->length == b->length;
}

static void read_out(const struct out_vector *vector)
{
	struct sonerwal_data_out before, read;
	uint8_t frame[ROOM];
	memset(&before, 0x5A, sizeof before);
	read = before;
	uint8_t answer = sonerwal_data_out_get(&read, frame, bytes_of(vector->bytes, frame));
	check(answer == vector->answer, "data out read, %s: answer %d", vector->member, answer);
	check(same_out(&read, vector->answer == SONERWAL_OK ? &vector->fields : &before), "data out read, %s: fields",
	      vector->member);
}

static void write_out(const struct out_vector *vector)
{
	uint8_t expected[ROOM], frame[ROOM];
	memset(frame, 0x5A, sizeof frame);
	memcpy(expected, frame, sizeof frame);
	size_t len = bytes_of(vector->bytes, expected);
	uint8_t answer = sonerwal_data_out_put(&vector->fields, sonerwal_data_body(expected), frame, sizeof frame);
	check(answer == vector->answer, "data out write, %s: answer %d", vector->member, answer);
	check(len == sonerwal_data_size(vector->fields.length), "data out write, %s: size", vector->member);
	check(memcmp(frame, expected, sizeof frame) == 0, "data out write, %s: bytes", vector->member);
}

/* ---- RESPONSE */

struct response_vector {
	const char *member;
	const char *bytes; /* the header, then the information unit, then the data with its fill */
	struct sonerwal_response fields;
	enum direction direction;
	uint8_t answer;
};

#define NO_BITS "07 000000 00 000000 0000 00 00 00000000 0000 FFFF 00000000 "

static const struct response_vector responses[] = {
	{"SSP_RESPONSE, in " HEADER "frame_type; SAS_DATAPRES_NO_DATA, in " RESPONSE_IU "datapres",
	 NO_BITS "00000000000000000000 00 00 00000000 00000000 00000000", {0}, BOTH, SONERWAL_OK},
	{HEADER "hashed_dest_addr",
	 "07 A1B2C3 00 000000 0000 00 00 00000000 0000 FFFF 00000000 00000000000000000000 00 00 00000000 00000000 00000000",
	 {.hashed_destination = 0xA1B2C3}, BOTH, SONERWAL_OK},
	{HEADER "hashed_src_addr",
	 "07 000000 00 D4E5F6 0000 00 00 00000000 0000 FFFF 00000000 00000000000000000000 00 00 00000000 00000000 00000000",
	 {.hashed_source = 0xD4E5F6}, BOTH, SONERWAL_OK},
	{HEADER "retransmit, behind changing_data_ptr",
	 "07 000000 00 000000 0000 02 00 00000000 0000 FFFF 00000000 00000000000000000000 00 00 00000000 00000000 00000000",
	 {.retransmit = 1}, BOTH, SONERWAL_OK},
	{HEADER "tag",
	 "07 000000 00 000000 0000 00 00 00000000 5678 FFFF 00000000 00000000000000000000 00 00 00000000 00000000 00000000",
	 {.tag = 0x5678}, BOTH, SONERWAL_OK},
	{RESPONSE_IU "status, behind datapres",
	 NO_BITS "00000000000000000000 00 28 00000000 00000000 00000000", {.status = 0x28}, BOTH, SONERWAL_OK},
	{"SAS_DATAPRES_RESPONSE_DATA, in " RESPONSE_IU "datapres; response_data_len, behind sense_data_len",
	 NO_BITS "00000000000000000000 01 00 00000000 00000000 00000004 01020304", {.present = 1, .length = 4}, BOTH,
	 SONERWAL_OK},
	{"SAS_DATAPRES_SENSE_DATA, in " RESPONSE_IU "datapres; sense_data_len",
	 NO_BITS "00000000000000000000 02 00 00000000 00000008 00000000 01020304 05060708", {.present = 2, .length = 8}, BOTH,
	 SONERWAL_OK},
	{HEADER "num_fill_bytes of 3, " RESPONSE_IU "sense_data_len of 5",
	 "07 000000 00 000000 0000 00 03 00000000 0000 FFFF 00000000 00000000000000000000 02 00 00000000 00000005 00000000 "
	 "01020304 05000000",
	 {.present = 2, .length = 5}, BOTH, SONERWAL_OK},

	{RESPONSE_IU "datapres of 3",
	 NO_BITS "00000000000000000000 03 00 00000000 00000000 00000000", {0}, READ, SONERWAL_REFUSED_UNLISTED},
	{RESPONSE_IU "_r_b, above datapres",
	 NO_BITS "00000000000000000000 04 00 00000000 00000000 00000000", {0}, READ, SONERWAL_REFUSED_UNLISTED},
	{RESPONSE_IU "_r_a, first",
	 NO_BITS "01000000000000000000 00 00 00000000 00000000 00000000", {0}, READ, SONERWAL_REFUSED_UNLISTED},
	{RESPONSE_IU "_r_a, last",
	 NO_BITS "00000000000000000001 00 00 00000000 00000000 00000000", {0}, READ, SONERWAL_REFUSED_UNLISTED},
	{RESPONSE_IU "_r_c",
	 NO_BITS "00000000000000000000 00 00 00000001 00000000 00000000", {0}, READ, SONERWAL_REFUSED_UNLISTED},
	{RESPONSE_IU "response_data_len of 4 with SAS_DATAPRES_SENSE_DATA",
	 NO_BITS "00000000000000000000 02 00 00000000 00000000 00000004 01020304", {0}, READ, SONERWAL_REFUSED_UNLISTED},
	{RESPONSE_IU "sense_data_len of 4 with SAS_DATAPRES_RESPONSE_DATA",
	 NO_BITS "00000000000000000000 01 00 00000000 00000004 00000000 01020304", {0}, READ, SONERWAL_REFUSED_UNLISTED},
	{RESPONSE_IU "sense_data_len that isn't the data's",
	 NO_BITS "00000000000000000000 02 00 00000000 00000004 00000000 01020304 05060708", {0}, READ,
	 SONERWAL_REFUSED_UNLISTED},
	{RESPONSE_IU "status with SAS_DATAPRES_RESPONSE_DATA",
	 NO_BITS "00000000000000000000 01 02 00000000 00000000 00000004 01020304", {0}, READ, SONERWAL_REFUSED_UNLISTED},
	{HEADER "num_fill_bytes of 1, and no data",
	 "07 000000 00 000000 0000 00 01 00000000 0000 FFFF 00000000 00000000000000000000 00 00 00000000 00000000 00000000", {0},
	 READ, SONERWAL_REFUSED_UNLISTED},
	{HEADER "retry_data_frames",
	 "07 000000 00 000000 0000 04 00 00000000 0000 FFFF 00000000 00000000000000000000 00 00 00000000 00000000 00000000", {0},
	 READ, SONERWAL_REFUSED_UNLISTED},
	{HEADER "tptt, not all ones",
	 "07 000000 00 000000 0000 00 00 00000000 0000 FFFE 00000000 00000000000000000000 00 00 00000000 00000000 00000000", {0},
	 READ, SONERWAL_REFUSED_UNLISTED},
	{HEADER "data_offs",
	 "07 000000 00 000000 0000 00 00 00000000 0000 FFFF 00000001 00000000000000000000 00 00 00000000 00000000 00000000", {0},
	 READ, SONERWAL_REFUSED_UNLISTED},
	{"SSP_COMMAND, in " HEADER "frame_type",
	 "06 000000 00 000000 0000 00 00 00000000 0000 FFFF 00000000 00000000000000000000 00 00 00000000 00000000 00000000", {0},
	 READ, SONERWAL_REFUSED_UNLISTED},
};

static bool same_response(const struct sonerwal_response *a, const struct sonerwal_response *b)
{
	return a->hashed_destination == b->hashed_destination && a->hashed_source == b->hashed_source &&
	       a->retransmit == b->retransmit && a->tag == b->tag && a->present == b->present && a->status == b->status &&
	       a->length == b->length;
}

static void read_response(const struct response_vector *vector)
{
	struct sonerwal_response before, read;
	uint8_t frame[ROOM];
	memset(&before, 0x5A, sizeof before);
	read = before;
	uint8_t answer = sonerwal_response_get(&read, frame, bytes_of(vector->bytes, frame));
	check(answer == vector->answer, "RESPONSE read, %s: answer %d", vector->member, answer);
	check(same_response(&read, vector->answer == SONERWAL_OK ? &vector->fields : &before), "RESPONSE read, %s: fields",
	      vector->member);
}

static void write_response(const struct response_vector *vector)
{
	uint8_t expected[ROOM], frame[ROOM];
	memset(frame, 0x5A, sizeof frame);
	memcpy(expected, frame, sizeof frame);
	size_t len = bytes_of(vector->bytes, expected);
	uint8_t answer = sonerwal_response_put(&vector->fields, sonerwal_response_body(expected), frame, sizeof frame);
	check(answer == vector->answer, "RESPONSE write, %s: answer %d", vector->member, answer);
	check(len == sonerwal_response_size(vector->fields.length), "RESPONSE write, %s: size", vector->member);
	check(memcmp(frame, expected, sizeof frame) == 0, "RESPONSE write, %s: bytes", vector->member);
}

#define EACH(vectors, read, write)                                         \
	for (size_t i = 0; i < sizeof(vectors) / sizeof *(vectors); i++) { \
		read(&(vectors)[i]);                                       \
		if ((vectors)[i].direction == BOTH) {                      \
			write(&(vectors)[i]);                              \
		}                                                          \
	}

int main(void)
{
	EACH(xfers, read_xfer, write_xfer)
	EACH(outs, read_out, write_out)
	EACH(responses, read_response, write_response)
	return check_end("vectors_write");
}
