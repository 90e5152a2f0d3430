/*
 * Frames whose layout others have written down, through the struct calls of sonerwal.h in both directions.
 *
 * The facts come from Linux 6.1 (Debian's package linux-source-6.1): where a member lies and how wide it is. Each
 * vector names file and member, and apart from what makes a frame valid has only that field not zero. The bytes
 * are this project's own.
 */
#include "check.h"
#include "hex.h"
#include "sonerwal.h"

#include <string.h>

/* Whether writing the fields gives the bytes, or reading loses something that a writer can't put there. */
enum direction { BOTH, READ };

#define MVSAS "drivers/scsi/mvsas/mv_sas.c: "
#define MVDEFS "drivers/scsi/mvsas/mv_defs.h: "
#define AIC_DDB "drivers/scsi/aic94xx/aic94xx_sas.h: struct asd_ddb_init_port."
#define AIC_TASK "drivers/scsi/aic94xx/aic94xx_task.c: asd_build_ssp_ascb(), "
#define ISCI "drivers/scsi/isci/scu_remote_node_context.h: struct ssp_remote_node_context."
#define RATES "include/scsi/scsi_transport_sas.h: enum sas_linkrate."
#define SAS_H "include/scsi/sas.h: "
#define HEADER SAS_H "struct ssp_frame_hdr."

/* ---- OPEN */

struct open_vector {
	const char *member;
	const char *bytes;
	struct sonerwal_open fields;
	enum direction direction;
	uint8_t answer;
};

/*
 * 01 OPEN.1: OPEN address frame, 28 bytes, big-endian
 * 01 OPEN.2: Byte 0: bit 7 initiator, bits 6 to 4 protocol (0 SMP, 1 SSP, 2 STP), bits 3 to 0 type 1.
 * 01 OPEN.3: Byte 1: features (high four bits), rate (low four: 8, 9 or 10).
 * 01 OPEN.4: Bytes 2-3 initiator connection tag; 4-11 destination; 12-19 source; 21 PBC; 22-23 AWT.
 * 01 OPEN.5: Bytes 20 and 24-27 aren't carried: any value when read, zero when written.
 * 01 OPEN.6: Any other type, protocol or rate is refusal 2.
 *
 * The source address has no member of its own. asd_ddb_init_port takes bytes 0 to 11 and 20 to 27 from OPEN, which
 * leaves 12 to 19, where the other address frame, struct sas_identify_frame, has its sender's address too.
 */
static const struct open_vector opens[] = {
	{MVSAS "mvs_task_prep_smp(), buf_oaf[0], bits 3 to 0",
	 "01 08 0000 0000000000000000 0000000000000000 00 00 0000 00000000", {.rate = 8}, BOTH, SONERWAL_OK},
	{MVSAS "mvs_task_prep_smp(), buf_oaf[0], bit 7",
	 "81 08 0000 0000000000000000 0000000000000000 00 00 0000 00000000", {.rate = 8, .initiator = 1}, BOTH, SONERWAL_OK},
	{MVDEFS "enum open_frame_protocol, PROTOCOL_SSP",
	 "11 08 0000 0000000000000000 0000000000000000 00 00 0000 00000000", {.rate = 8, .protocol = 1}, BOTH, SONERWAL_OK},
	{MVDEFS "enum open_frame_protocol, PROTOCOL_STP",
	 "21 08 0000 0000000000000000 0000000000000000 00 00 0000 00000000", {.rate = 8, .protocol = 2}, BOTH, SONERWAL_OK},
	{ISCI "oaf_features, above oaf_connection_rate",
	 "01 58 0000 0000000000000000 0000000000000000 00 00 0000 00000000", {.rate = 8, .features = 5}, BOTH, SONERWAL_OK},
	{RATES "SAS_LINK_RATE_3_0_GBPS, in " MVSAS "buf_oaf[1]",
	 "01 09 0000 0000000000000000 0000000000000000 00 00 0000 00000000", {.rate = 9}, BOTH, SONERWAL_OK},
	{RATES "SAS_LINK_RATE_6_0_GBPS, in " MVSAS "buf_oaf[1]",
	 "01 0A 0000 0000000000000000 0000000000000000 00 00 0000 00000000", {.rate = 10}, BOTH, SONERWAL_OK},
	{MVSAS "mvs_task_prep_ssp(), buf_oaf + 2",
	 "01 08 1234 0000000000000000 0000000000000000 00 00 0000 00000000", {.rate = 8, .tag = 0x1234}, BOTH, SONERWAL_OK},
	{MVSAS "mvs_task_prep_ssp(), buf_oaf + 4",
	 "01 08 0000 5000C50012345678 0000000000000000 00 00 0000 00000000",
	 {.rate = 8, .destination = UINT64_C(0x5000C50012345678)}, BOTH, SONERWAL_OK},
	{AIC_DDB "(bytes 12 to 19 left out); " SAS_H "struct sas_identify_frame.sas_addr",
	 "01 08 0000 0000000000000000 5003048087654321 00 00 0000 00000000",
	 {.rate = 8, .source = UINT64_C(0x5003048087654321)}, BOTH, SONERWAL_OK},
	{AIC_DDB "compat_features",
	 "01 08 0000 0000000000000000 0000000000000000 C3 00 0000 00000000", {.rate = 8}, READ, SONERWAL_OK},
	{AIC_DDB "pathway_blocked_count",
	 "01 08 0000 0000000000000000 0000000000000000 00 7B 0000 00000000", {.rate = 8, .pbc = 0x7B}, BOTH, SONERWAL_OK},
	{AIC_DDB "arb_wait_time",
	 "01 08 0000 0000000000000000 0000000000000000 00 00 89AB 00000000", {.rate = 8, .awt = 0x89AB}, BOTH, SONERWAL_OK},
	{AIC_DDB "more_compat_features",
	 "01 08 0000 0000000000000000 0000000000000000 00 00 0000 DEADBEEF", {.rate = 8}, READ, SONERWAL_OK},
	{RATES "SAS_LINK_RATE_12_0_GBPS, which 01 doesn't list",
	 "01 0B 0000 0000000000000000 0000000000000000 00 00 0000 00000000", {.rate = 11}, BOTH, SONERWAL_REFUSED_UNLISTED},
};

static bool same_open(const struct sonerwal_open *a, const struct sonerwal_open *b)
{
	return a->initiator == b->initiator && a->protocol == b->protocol && a->features == b->features &&
	       a->rate == b->rate && a->tag == b->tag && a->destination == b->destination && a->source == b->source &&
	       a->pbc == b->pbc && a->awt == b->awt;
}

static void read_open(const struct open_vector *vector)
{
	struct sonerwal_open before, read;
	uint8_t frame[SONERWAL_OPEN_SIZE];
	memset(&before, 0x5A, sizeof before);
	read = before;
	size_t len = bytes_of(vector->bytes, frame);
	uint8_t answer = sonerwal_open_get(&read, frame, len);
	check(len == SONERWAL_OPEN_SIZE && answer == vector->answer, "OPEN read, %s: answer %d", vector->member, answer);
	check(same_open(&read, vector->answer == SONERWAL_OK ? &vector->fields : &before), "OPEN read, %s: fields",
	      vector->member);
}

static void write_open(const struct open_vector *vector)
{
	uint8_t expected[SONERWAL_OPEN_SIZE], frame[SONERWAL_OPEN_SIZE];
	memset(frame, 0x5A, sizeof frame);
	memcpy(expected, frame, sizeof frame);
	if (vector->answer == SONERWAL_OK) {
		bytes_of(vector->bytes, expected);
	}
	uint8_t answer = sonerwal_open_put(&vector->fields, frame, sizeof frame);
	check(answer == vector->answer, "OPEN write, %s: answer %d", vector->member, answer);
	check(memcmp(frame, expected, sizeof frame) == 0, "OPEN write, %s: bytes", vector->member);
}

/* ---- DATA */

struct data_vector {
	const char *member;
	const char *bytes; /* the header, then the data with its fill */
	struct sonerwal_data fields;
	enum direction direction;
	uint8_t answer;
};

/*
 * 01 DATA.1: 24 header bytes: type 1; hashed destination 1-3, hashed source 5-7; byte 10 bit 0 (changing data
 *            pointer); byte 11 low two bits the fill count; tag 16-17; transfer tag 18-19 all ones; offset 20-23;
 *            the rest zero.
 * 01 DATA.2: The data goes behind the 24 header bytes already written, then zero fill to four bytes.
 * 01 DATA.4: Any header byte off this layout or fill not zero is 2.
 */
static const struct data_vector datas[] = {
	{SAS_H "SSP_DATA, in struct ssp_frame_hdr.frame_type",
	 "01 000000 00 000000 0000 00 00 00000000 0000 FFFF 00000000 00000000", {.length = 4}, BOTH, SONERWAL_OK},
	{HEADER "hashed_dest_addr",
	 "01 A1B2C3 00 000000 0000 00 00 00000000 0000 FFFF 00000000 00000000",
	 {.length = 4, .hashed_destination = 0xA1B2C3}, BOTH, SONERWAL_OK},
	{HEADER "hashed_src_addr",
	 "01 000000 00 D4E5F6 0000 00 00 00000000 0000 FFFF 00000000 00000000",
	 {.length = 4, .hashed_source = 0xD4E5F6}, BOTH, SONERWAL_OK},
	{HEADER "changing_data_ptr",
	 "01 000000 00 000000 0000 01 00 00000000 0000 FFFF 00000000 00000000",
	 {.length = 4, .changing = 1}, BOTH, SONERWAL_OK},
	{HEADER "num_fill_bytes of 1",
	 "01 000000 00 000000 0000 00 01 00000000 0000 FFFF 00000000 00000000", {.length = 3}, BOTH, SONERWAL_OK},
	{HEADER "num_fill_bytes of 2",
	 "01 000000 00 000000 0000 00 02 00000000 0000 FFFF 00000000 00000000", {.length = 2}, BOTH, SONERWAL_OK},
	{HEADER "num_fill_bytes of 3",
	 "01 000000 00 000000 0000 00 03 00000000 0000 FFFF 00000000 00000000", {.length = 1}, BOTH, SONERWAL_OK},
	{HEADER "tag",
	 "01 000000 00 000000 0000 00 00 00000000 5678 FFFF 00000000 00000000",
	 {.length = 4, .tag = 0x5678}, BOTH, SONERWAL_OK},
	{HEADER "data_offs",
	 "01 000000 00 000000 0000 00 00 00000000 0000 FFFF 89ABCDEF 00000000",
	 {.length = 4, .offset = 0x89ABCDEF}, BOTH, SONERWAL_OK},
	{HEADER "(size, 24): data",
	 "01 000000 00 000000 0000 00 00 00000000 0000 FFFF 00000000 01020304 05060708",
	 {.length = 8}, BOTH, SONERWAL_OK},
	{HEADER "(size, 24): data, num_fill_bytes of 3",
	 "01 000000 00 000000 0000 00 03 00000000 0000 FFFF 00000000 01020304 05000000",
	 {.length = 5}, BOTH, SONERWAL_OK},

	{HEADER "num_fill_bytes of 1, fill not zero",
	 "01 000000 00 000000 0000 00 01 00000000 0000 FFFF 00000000 00000001", {0}, READ, SONERWAL_REFUSED_UNLISTED},
	{HEADER "retransmit",
	 "01 000000 00 000000 0000 02 00 00000000 0000 FFFF 00000000 00000000", {0}, READ, SONERWAL_REFUSED_UNLISTED},
	{HEADER "retry_data_frames",
	 "01 000000 00 000000 0000 04 00 00000000 0000 FFFF 00000000 00000000", {0}, READ, SONERWAL_REFUSED_UNLISTED},
	{HEADER "_r_a",
	 "01 000000 01 000000 0000 00 00 00000000 0000 FFFF 00000000 00000000", {0}, READ, SONERWAL_REFUSED_UNLISTED},
	{HEADER "_r_b",
	 "01 000000 00 000000 0100 00 00 00000000 0000 FFFF 00000000 00000000", {0}, READ, SONERWAL_REFUSED_UNLISTED},
	{HEADER "_r_c",
	 "01 000000 00 000000 0000 08 00 00000000 0000 FFFF 00000000 00000000", {0}, READ, SONERWAL_REFUSED_UNLISTED},
	{HEADER "_r_d",
	 "01 000000 00 000000 0000 00 04 00000000 0000 FFFF 00000000 00000000", {0}, READ, SONERWAL_REFUSED_UNLISTED},
	{HEADER "_r_e",
	 "01 000000 00 000000 0000 00 00 00000001 0000 FFFF 00000000 00000000", {0}, READ, SONERWAL_REFUSED_UNLISTED},
	{AIC_TASK "ssp_frame.tptt, not all ones",
	 "01 000000 00 000000 0000 00 00 00000000 0000 FFFE 00000000 00000000", {0}, READ, SONERWAL_REFUSED_UNLISTED},
	{SAS_H "SSP_XFER_RDY, in struct ssp_frame_hdr.frame_type",
	 "05 000000 00 000000 0000 00 00 00000000 0000 FFFF 00000000 00000000", {0}, READ, SONERWAL_REFUSED_UNLISTED},
	{SAS_H "SSP_COMMAND, in struct ssp_frame_hdr.frame_type",
	 "06 000000 00 000000 0000 00 00 00000000 0000 FFFF 00000000 00000000", {0}, READ, SONERWAL_REFUSED_UNLISTED},
};

enum { DATA_ROOM = 40 }; /* more than any vector here has */

static bool same_data(const struct sonerwal_data *a, const struct sonerwal_data *b)
{
	return a->hashed_destination == b->hashed_destination && a->hashed_source == b->hashed_source &&
	       a->changing == b->changing && a->tag == b->tag && a->offset == b->offset && a->length == b->length;
}

static void read_data(const struct data_vector *vector)
{
	struct sonerwal_data before, read;
	uint8_t frame[DATA_ROOM];
	memset(&before, 0x5A, sizeof before);
	read = before;
	uint8_t answer = sonerwal_data_get(&read, frame, bytes_of(vector->bytes, frame));
	check(answer == vector->answer, "DATA read, %s: answer %d", vector->member, answer);
	check(same_data(&read, vector->answer == SONERWAL_OK ? &vector->fields : &before), "DATA read, %s: fields",
	      vector->member);
}

static void write_data(const struct data_vector *vector)
{
	uint8_t expected[DATA_ROOM], frame[DATA_ROOM];
	memset(frame, 0x5A, sizeof frame);
	memcpy(expected, frame, sizeof frame);
	size_t len = bytes_of(vector->bytes, expected);
	uint8_t answer = sonerwal_data_put(&vector->fields, sonerwal_data_body(expected), frame, sizeof frame);
	check(answer == vector->answer, "DATA write, %s: answer %d", vector->member, answer);
	check(len == sonerwal_data_size(vector->fields.length), "DATA write, %s: size", vector->member);
	check(memcmp(frame, expected, sizeof frame) == 0, "DATA write, %s: bytes", vector->member);
}

/* 01 PROMISE.5 */
int main(void)
{
	for (size_t i = 0; i < sizeof opens / sizeof *opens; i++) {
		read_open(&opens[i]);
		if (opens[i].direction == BOTH) {
			write_open(&opens[i]);
		}
	}
	for (size_t i = 0; i < sizeof datas / sizeof *datas; i++) {
		read_data(&datas[i]);
		if (datas[i].direction == BOTH) {
			write_data(&datas[i]);
		}
	}
	return check_end("vectors");
}
