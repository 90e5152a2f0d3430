/*
 * sonerwal.h behind the names that Linux's own include/scsi/sas.h has (6.1): both in one file, and both used. The names and the numbers of
 * its enum are Linux's; the layout of its structs is none of this file's business.
 */
#include <stdint.h>
#include <stdio.h>

#define SAS_ADDR_SIZE 8
#define HASHED_SAS_ADDR_SIZE 3
#define SSP_DATA 1

enum sas_protocol {
	SAS_PROTOCOL_NONE = 0,
	SAS_PROTOCOL_SATA = 0x01,
	SAS_PROTOCOL_SMP = 0x02,
	SAS_PROTOCOL_STP = 0x04,
	SAS_PROTOCOL_SSP = 0x08,
	SAS_PROTOCOL_ALL = 0x0E
};

enum sas_open_rej_reason { SAS_OREJ_UNKNOWN = 0, SAS_OREJ_BAD_DEST = 1, SAS_OREJ_CONN_RATE = 2 };

enum sas_linkrate { SAS_LINK_RATE_1_5_GBPS = 8, SAS_LINK_RATE_3_0_GBPS = 9, SAS_LINK_RATE_6_0_GBPS = 10 };

struct sas_identify_frame {
	uint8_t frame_type;
	uint8_t sas_addr[SAS_ADDR_SIZE];
	uint8_t phy_id;
};

struct sas_address_frame {
	uint8_t frame_type;
};

struct ssp_frame_hdr {
	uint8_t frame_type;
	uint8_t hashed_dest_addr[HASHED_SAS_ADDR_SIZE];
};

struct sas_phy;
struct sas_port;
struct sas_task;

#include "sonerwal.h"

/* The same protocol by Linux's bit and by OPEN's number. */
static uint8_t protocol_of(enum sas_protocol protocol)
{
	switch (protocol) {
	case SAS_PROTOCOL_SMP:
		return SONERWAL_PROTOCOL_SMP;
	case SAS_PROTOCOL_SSP:
		return SONERWAL_PROTOCOL_SSP;
	default:
		return SONERWAL_PROTOCOL_STP;
	}
}

int main(void)
{
	struct sas_identify_frame identify = {1, {0x50, 0, 0xC5, 0, 0x12, 0x34, 0x56, 0x78}, 3};
	struct sonerwal_open open = {0};
	uint8_t frame[SONERWAL_OPEN_SIZE];
	uint64_t address = 0;
	for (int i = 0; i < SAS_ADDR_SIZE; i++) {
		address = address << 8 | identify.sas_addr[i];
	}
	open.destination = address;
	open.protocol = protocol_of(SAS_PROTOCOL_SSP);
	open.rate = SAS_LINK_RATE_6_0_GBPS;
	uint8_t answer = sonerwal_open_put(&open, frame, sizeof frame);
	printf("%s: %02X %02X .. %02X\n", sonerwal_answer_name(answer), frame[0], frame[1], frame[11]);
	return answer == SONERWAL_OK && frame[0] == 0x11 && frame[1] == 0x0A && frame[11] == 0x78 ? 0 : 1;
}
