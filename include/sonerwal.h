/*
 * Sonerwal: SAS storage logic for C firmware.
 *
 * The archive has the OPEN and DATA frames, the read transfer, the expander link (XL) and the port, each proved against
 * document 01, the owner's scope, which this header names beside each rule as "01, section"; and by requests of document
 * 02 the saved transfer, proved against request a), and a write's frames, the write and the reply, against request c).
 *
 * LINKING
 *
 * The archive is libsonerwal.a, for x86-64 (System V calling convention). `tests/archive` builds it in
 * target/staticlib/, and a program takes it as one more object:
 *
 *     cc -std=c99 -Iinclude program.c target/staticlib/libsonerwal.a -o program
 *
 * It needs memmove(), memcpy() and memset() of the C library and nothing else. The calls keep nothing between them and
 * allocate nothing. What one does depends on its arguments alone, so they may run at the same time wherever they
 * don't share memory that one of them writes.
 *
 * WHAT THE CALLER OWES
 *
 * The calls can't see whether these hold, and where one does not, nothing is promised:
 *
 *   - No pointer is null, not even one that goes with the length 0.
 *   - A length is true: that many bytes or records behind the pointer may be read, and written where the pointer
 *     is not to const.
 *   - What one call is lent doesn't overlap: no two of its buffers and numbers share a byte.
 *   - What a pointer names is aligned as its type asks.
 *
 * Everything else is tested. Any bytes, any numbers, any lengths and any states are taken and answered.
 *
 * STATES
 *
 * A transfer, a write, a reply, a link and a port are plain structs that the caller keeps. A call is given one by value and
 * gives back the one to go on with, which may be copied, compared and stored like any other number. All zeros is the
 * transfer, the write or the reply before START, a link in XL0 that remembers nothing, and a port before setup. No
 * struct that is lent has padding: what would be padding is a member named zero4, zero2 or zero1 by its bytes, and is 0
 * in every state that a call gives back. Each call looks at the whole state: one that breaks the rules beside its
 * struct is SONERWAL_REFUSED_RULES, and not a wrong step.
 *
 * ANSWERS (01, Refusal numbers)
 *
 * A call answers one byte, enum sonerwal_answer: SONERWAL_OK, a refusal of 1 to 10, or from 16 on what happened.
 * Where several refusals apply the lowest number is given, but for sonerwal_transfer_next(), sonerwal_write_got() and
 * sonerwal_write_take(), which have an order of their own. A refusal gives back the state as it was lent, to the last
 * member, and leaves every lent byte, number and record as it was; so `s = r.state` is right after every call but a
 * setup and a restore, which are lent none: refused, they give all zeros.
 */
#ifndef SONERWAL_H
#define SONERWAL_H

#include <stddef.h>
#include <stdint.h>

#ifdef __cplusplus
extern "C" {
#endif

/* One number that grows with each version: 0.4.0 is 400. */
#define SONERWAL_VERSION_MAJOR 0
#define SONERWAL_VERSION_MINOR 4
#define SONERWAL_VERSION_PATCH 0
#define SONERWAL_VERSION (SONERWAL_VERSION_MAJOR * 10000 + SONERWAL_VERSION_MINOR * 100 + SONERWAL_VERSION_PATCH)

/* Of the archive; equal to SONERWAL_VERSION if header and archive came together. */
uint32_t sonerwal_version(void);

/* A struct has the size that the archive gives it. */
#define SONERWAL_SIZE(name, size) typedef char sonerwal_size_of_##name[sizeof(struct sonerwal_##name) == (size) ? 1 : -1]

enum sonerwal_answer {
	SONERWAL_OK = 0, /* taken, and nothing more to say */

	/* 01, Refusal numbers */
	SONERWAL_REFUSED_LENGTH = 1,   /* a buffer has the wrong length */
	SONERWAL_REFUSED_UNLISTED = 2, /* a field or an event isn't one that document 01 lists, or a line is no saved one */
	SONERWAL_REFUSED_RULES = 3,    /* a setup number is out of range, or a lent state breaks its rules */
	SONERWAL_REFUSED_PHY = 4,      /* the phy isn't one of the port's */
	SONERWAL_REFUSED_PAST = 5,     /* the given time is before the port's last time */
	SONERWAL_REFUSED_UNFIT = 6,    /* the call doesn't fit the state */
	SONERWAL_REFUSED_DUE = 7,      /* a NAK was seen and answers are still due */
	SONERWAL_REFUSED_SENT = 8,     /* every byte has been sent in this attempt */
	SONERWAL_REFUSED_PRESENT = 9,  /* a request with this destination, protocol and tag is present */
	SONERWAL_REFUSED_FULL = 10,    /* 32 requests are present, 64 frames are unanswered, or no transfer tag is free */

	/* 01, Read transfer */
	SONERWAL_SENT = 16,  /* a frame goes */
	SONERWAL_DRAIN = 17, /* a NAK was seen, and answers are still due */
	SONERWAL_RETRY = 18, /* a resend begins, at the balance point */
	SONERWAL_DONE = 19,  /* delivered: every requested byte was ACKed */
	SONERWAL_FAIL = 20,  /* every resend is used */
	SONERWAL_END = 21,   /* NEXUS or CANCEL ended it */

	/* 02, request c, beside SENT, RETRY, DONE, FAIL and END */
	SONERWAL_LATE = 22, /* data under an earlier tag of its range: it is dropped */
	SONERWAL_MORE = 23, /* a range is full, and the next is to be asked for */

	/* 01, Port */
	SONERWAL_SUBMITTED = 32,           /* the request is in the list */
	SONERWAL_NOTHING = 33,             /* no request and phy qualify */
	SONERWAL_SEND = 34,                /* the frame of the request goes, on the phy */
	SONERWAL_OPEN = 35,                /* the phy transmits the OPEN in frame */
	SONERWAL_CLOSE = 36,               /* the phy closes */
	SONERWAL_STOP_ARB = 37,            /* the phy stops its OPEN */
	SONERWAL_RETRIED = 38,             /* the open failed; the request waits, and not less than 15 microseconds */
	SONERWAL_WAITING = 39,             /* the phy was disabled; the request waits again */
	SONERWAL_CANCEL_ACKNOWLEDGED = 40, /* from here to STATUS: the request has left the list */
	SONERWAL_ENDED = 41,               /* detail: the reason, which isn't retried */
	SONERWAL_NEXUS_LOSS = 42,          /* I_T Nexus Loss */
	SONERWAL_CONNECTION_LOST = 43,
	SONERWAL_STATUS = 44, /* detail: the byte of frame status */

	/* 01, XL, Link status */
	SONERWAL_READY = 48,
	SONERWAL_PARTIAL = 49,
	SONERWAL_BLOCKED_PARTIAL = 50,
	SONERWAL_CONNECTED = 51
};

/* ---- OPEN address frame (01, OPEN address frame) ----------------------------------------------------------- */

#define SONERWAL_OPEN_SIZE 28u

enum sonerwal_protocol {
	SONERWAL_PROTOCOL_SMP = 0,
	SONERWAL_PROTOCOL_SSP = 1,
	SONERWAL_PROTOCOL_STP = 2
};

/* Codes of the connection rate; 10 is SAS-2's. */
enum sonerwal_rate {
	SONERWAL_RATE_1_5_GBPS = 8,
	SONERWAL_RATE_3_GBPS = 9,
	SONERWAL_RATE_6_GBPS = 10
};

#define SONERWAL_FEATURES_MAX 15u

/*
 * The fields of an OPEN address frame.
 *
 *   field        range               place in the frame
 *   initiator    0 or 1              byte 0, bit 7
 *   protocol     0 to 2              byte 0, bits 6 to 4    enum sonerwal_protocol
 *   features     0 to 15             byte 1, bits 7 to 4
 *   rate         8 to 10             byte 1, bits 3 to 0    enum sonerwal_rate
 *   tag          any                 bytes 2 and 3          initiator connection tag
 *   destination  any                 bytes 4 to 11          SAS address
 *   source       any                 bytes 12 to 19         SAS address
 *   pbc          any                 byte 21                pathway blocked count
 *   awt          any                 bytes 22 and 23        arbitration wait time, as coded in the frame
 *
 * Byte 0, bits 3 to 0 are the type, 1. Bytes 20 and 24 to 27 aren't carried. Numbers are big-endian in the
 * frame and plain numbers here. The zero members are 0 in a frame that comes back; of a frame that is given
 * to a call they are not looked at, but of one within a lent state they are.
 */
struct sonerwal_open {
	uint64_t destination;
	uint64_t source;
	uint32_t zero4;
	uint16_t tag;
	uint16_t awt;
	uint16_t zero2;
	uint8_t initiator;
	uint8_t protocol;
	uint8_t features;
	uint8_t rate;
	uint8_t pbc;
	uint8_t zero1;
};
SONERWAL_SIZE(open, 32);

/*
 * Reads an OPEN address frame; sonerwal_open_get() is the same call over the struct.
 *
 * Answers, the first that holds:
 *   SONERWAL_REFUSED_LENGTH    frame_len is not 28
 *   SONERWAL_REFUSED_UNLISTED  the type is not 1, the protocol is above 2, or the rate is below 8 or above 10
 *   SONERWAL_OK                each number holds its field
 * Bytes 20 and 24 to 27 may have any value. The frame is only read.
 */
uint8_t sonerwal_open_read(const uint8_t *frame, size_t frame_len, uint8_t *initiator, uint8_t *protocol,
                           uint8_t *features, uint8_t *rate, uint16_t *tag, uint64_t *destination, uint64_t *source,
                           uint8_t *pbc, uint16_t *awt);

/*
 * Writes an OPEN address frame; sonerwal_open_put() is the same call over the struct.
 *
 * Answers, the first that holds:
 *   SONERWAL_REFUSED_LENGTH    frame_len is not 28
 *   SONERWAL_REFUSED_UNLISTED  initiator is above 1, protocol above 2, features above 15, or rate below 8 or above 10
 *   SONERWAL_OK                all 28 bytes are written, bytes 20 and 24 to 27 as zero
 */
uint8_t sonerwal_open_write(uint8_t initiator, uint8_t protocol, uint8_t features, uint8_t rate, uint16_t tag,
                            uint64_t destination, uint64_t source, uint8_t pbc, uint16_t awt, uint8_t *frame,
                            size_t frame_len);

/* Reads the frame into *open, with sonerwal_open_read()'s answers; a refusal leaves *open as it was. */
static inline uint8_t sonerwal_open_get(struct sonerwal_open *open, const uint8_t *frame, size_t frame_len)
{
	uint8_t answer = sonerwal_open_read(frame, frame_len, &open->initiator, &open->protocol, &open->features,
	                                    &open->rate, &open->tag, &open->destination, &open->source, &open->pbc,
	                                    &open->awt);
	if (answer == SONERWAL_OK) {
		open->zero4 = 0;
		open->zero2 = 0;
		open->zero1 = 0;
	}
	return answer;
}

/* Writes *open into the frame, with sonerwal_open_write()'s answers. */
static inline uint8_t sonerwal_open_put(const struct sonerwal_open *open, uint8_t *frame, size_t frame_len)
{
	return sonerwal_open_write(open->initiator, open->protocol, open->features, open->rate, open->tag,
	                           open->destination, open->source, open->pbc, open->awt, frame, frame_len);
}

/* Microseconds that a request has waited, as OPEN codes them: below 32,768 themselves, from there 32,768 plus the whole
 * thousands of the rest, at most 65,535. */
uint16_t sonerwal_wait_value(uint64_t elapsed);

/* 1 if an OPEN of this AWT and source is of higher priority than the other, else 0: a larger AWT, or an equal one and
 * a larger source. */
uint8_t sonerwal_open_higher(uint16_t awt, uint64_t source, uint16_t other_awt, uint64_t other_source);

/* ---- DATA frame (01, Read transfer, DATA frame) ------------------------------------------------------------ */

#define SONERWAL_DATA_HEADER_SIZE 24u /* the data starts here */
#define SONERWAL_DATA_BODY_MIN 1u
#define SONERWAL_DATA_BODY_MAX 1024u
#define SONERWAL_DATA_SIZE_MIN 28u
#define SONERWAL_DATA_SIZE_MAX 1048u
#define SONERWAL_HASHED_ADDRESS_MAX 0xFFFFFFu

/*
 * The fields of a DATA frame.
 *
 *   field               range          place in the frame
 *   hashed_destination  24 bits        bytes 1 to 3
 *   hashed_source       24 bits        bytes 5 to 7
 *   changing            0 or 1         byte 10, bit 0        changing data pointer
 *   tag                 any            bytes 16 and 17
 *   offset              any            bytes 20 to 23        of the data's first byte; offset + length isn't tested
 *   length              1 to 1,024     not carried           data bytes from byte 24 on, the fill not counted
 *
 * Byte 0 is the type, 1. Byte 11 is the fill count: 0 to 3 zero bytes behind the data, to a multiple of four.
 * Bytes 18 and 19, the transfer tag, are FF. Bytes 4, 8, 9 and 12 to 15 are zero. Numbers are big-endian in
 * the frame and plain numbers here. The struct is the header's own: the archive is given numbers, so it may
 * have padding.
 */
struct sonerwal_data {
	uint32_t hashed_destination;
	uint32_t hashed_source;
	uint32_t offset;
	uint16_t tag;
	uint16_t length;
	uint8_t changing;
};

/*
 * Reads a DATA frame; sonerwal_data_get() is the same call over the struct.
 *
 * Answers, the first that holds:
 *   SONERWAL_REFUSED_LENGTH    frame_len is below 28, above 1,048, or no multiple of four
 *   SONERWAL_REFUSED_UNLISTED  byte 0 is not 1; byte 4, 8, 9, 12, 13, 14 or 15 is not 0; byte 10 is above 1; byte 11 is
 *                              above 3; byte 18 or 19 is not FF; or one of the frame's last bytes, as many as byte 11
 *                              says, is not 0
 *   SONERWAL_OK                each number holds its field; *length = frame_len - 24 - byte 11
 * The data isn't copied: it is the *length bytes from frame + 24 on. The frame is only read.
 */
uint8_t sonerwal_data_read(const uint8_t *frame, size_t frame_len, uint32_t *hashed_destination,
                           uint32_t *hashed_source, uint8_t *changing, uint16_t *tag, uint32_t *offset,
                           uint16_t *length);

/*
 * Writes a DATA frame around body; sonerwal_data_put() is the same call over the struct. A transfer's own frames are
 * written by sonerwal_transfer_next().
 *
 * Answers, the first that holds:
 *   SONERWAL_REFUSED_LENGTH    body_len is 0 or above 1,024, or frame_len is below sonerwal_data_size(body_len)
 *   SONERWAL_REFUSED_UNLISTED  hashed_destination or hashed_source is above FFFFFF, or changing is above 1
 *   SONERWAL_OK                the first sonerwal_data_size(body_len) bytes are written; those past them stay
 * The body is only read.
 */
uint8_t sonerwal_data_write(uint32_t hashed_destination, uint32_t hashed_source, uint8_t changing, uint16_t tag,
                            uint32_t offset, const uint8_t *body, size_t body_len, uint8_t *frame, size_t frame_len);

/* Bytes of the DATA frame around body_len data bytes, fill included; 0 where there is no such frame. */
static inline size_t sonerwal_data_size(size_t body_len)
{
	if (body_len < SONERWAL_DATA_BODY_MIN || body_len > SONERWAL_DATA_BODY_MAX) {
		return 0;
	}
	return SONERWAL_DATA_HEADER_SIZE + (body_len + 3u) / 4u * 4u;
}

/* Where the data of a DATA frame starts; sonerwal_data_get() says how long it is. */
static inline const uint8_t *sonerwal_data_body(const uint8_t *frame)
{
	return frame + SONERWAL_DATA_HEADER_SIZE;
}

/* Reads the frame into *data, with sonerwal_data_read()'s answers; a refusal leaves *data as it was. */
static inline uint8_t sonerwal_data_get(struct sonerwal_data *data, const uint8_t *frame, size_t frame_len)
{
	return sonerwal_data_read(frame, frame_len, &data->hashed_destination, &data->hashed_source, &data->changing,
	                          &data->tag, &data->offset, &data->length);
}

/* Writes *data around body, which has data->length bytes, with sonerwal_data_write()'s answers. */
static inline uint8_t sonerwal_data_put(const struct sonerwal_data *data, const uint8_t *body, uint8_t *frame,
                                        size_t frame_len)
{
	return sonerwal_data_write(data->hashed_destination, data->hashed_source, data->changing, data->tag,
	                           data->offset, body, data->length, frame, frame_len);
}

/* ---- XFER_RDY frame (02, request c) ------------------------------------------------------------------------ */

#define SONERWAL_XFER_RDY_SIZE 36u

/*
 * The fields of an XFER_RDY frame, by which a target asks for a range of a write's bytes.
 *
 *   field               range          place in the frame
 *   hashed_destination  24 bits        bytes 1 to 3
 *   hashed_source       24 bits        bytes 5 to 7
 *   retransmit          0 or 1         byte 10, bit 1        1 where the range was asked for before
 *   retry               0 or 1         byte 10, bit 2        retry data frames
 *   tag                 any            bytes 16 and 17
 *   transfer            any            bytes 18 and 19       transfer tag, which the range's DATA frames carry
 *   offset              any            bytes 24 to 27        of the range's first byte; offset + length isn't tested
 *   length              1 or more      bytes 28 to 31        the range's bytes: write data length
 *
 * Byte 0 is the type, 5. Every other byte and bit is zero. Numbers are big-endian in the frame and plain numbers
 * here. The struct is the header's own, as that of DATA.
 */
struct sonerwal_xfer_rdy {
	uint32_t hashed_destination;
	uint32_t hashed_source;
	uint32_t offset;
	uint32_t length;
	uint16_t tag;
	uint16_t transfer;
	uint8_t retransmit;
	uint8_t retry;
};

/*
 * Reads an XFER_RDY frame; sonerwal_xfer_rdy_get() is the same call over the struct.
 *
 * Answers, the first that holds:
 *   SONERWAL_REFUSED_LENGTH    frame_len is not 36
 *   SONERWAL_REFUSED_UNLISTED  byte 0 is not 5; byte 10 has another bit than 1 and 2; byte 4, 8, 9, one of 11 to 15, of 20
 *                              to 23 or of 32 to 35 is not 0; or the write data length is 0
 *   SONERWAL_OK                each number holds its field
 * The frame is only read.
 */
uint8_t sonerwal_xfer_rdy_read(const uint8_t *frame, size_t frame_len, uint32_t *hashed_destination,
                               uint32_t *hashed_source, uint8_t *retransmit, uint8_t *retry, uint16_t *tag,
                               uint16_t *transfer, uint32_t *offset, uint32_t *length);

/*
 * Writes an XFER_RDY frame; sonerwal_xfer_rdy_put() is the same call over the struct.
 *
 * Answers, the first that holds:
 *   SONERWAL_REFUSED_LENGTH    frame_len is below 36
 *   SONERWAL_REFUSED_UNLISTED  hashed_destination or hashed_source is above FFFFFF, retransmit or retry is above 1, or
 *                              length is 0
 *   SONERWAL_OK                the first 36 bytes are written; those past them stay
 */
uint8_t sonerwal_xfer_rdy_write(uint32_t hashed_destination, uint32_t hashed_source, uint8_t retransmit, uint8_t retry,
                                uint16_t tag, uint16_t transfer, uint32_t offset, uint32_t length, uint8_t *frame,
                                size_t frame_len);

/* Reads the frame into *xfer_rdy, with sonerwal_xfer_rdy_read()'s answers; a refusal leaves *xfer_rdy as it was. */
static inline uint8_t sonerwal_xfer_rdy_get(struct sonerwal_xfer_rdy *xfer_rdy, const uint8_t *frame, size_t frame_len)
{
	return sonerwal_xfer_rdy_read(frame, frame_len, &xfer_rdy->hashed_destination, &xfer_rdy->hashed_source,
	                              &xfer_rdy->retransmit, &xfer_rdy->retry, &xfer_rdy->tag, &xfer_rdy->transfer,
	                              &xfer_rdy->offset, &xfer_rdy->length);
}

/* Writes *xfer_rdy into the frame, with sonerwal_xfer_rdy_write()'s answers. */
static inline uint8_t sonerwal_xfer_rdy_put(const struct sonerwal_xfer_rdy *xfer_rdy, uint8_t *frame, size_t frame_len)
{
	return sonerwal_xfer_rdy_write(xfer_rdy->hashed_destination, xfer_rdy->hashed_source, xfer_rdy->retransmit,
	                               xfer_rdy->retry, xfer_rdy->tag, xfer_rdy->transfer, xfer_rdy->offset,
	                               xfer_rdy->length, frame, frame_len);
}

/* ---- DATA frame of a write (02, request c) ----------------------------------------------------------------- */

/*
 * The fields of a write's DATA frame, which a host sends: those of a read's, whose sizes it has too, and the transfer
 * tag of the XFER_RDY that asked for the data, in bytes 18 and 19. Any transfer tag is taken, all ones among them.
 */
struct sonerwal_data_out {
	uint32_t hashed_destination;
	uint32_t hashed_source;
	uint32_t offset;
	uint16_t tag;
	uint16_t transfer;
	uint16_t length;
	uint8_t changing;
};

/*
 * Reads a write's DATA frame; sonerwal_data_out_get() is the same call over the struct. Its answers are those of
 * sonerwal_data_read(), but that bytes 18 and 19 may have any value. The data is the *length bytes from frame + 24 on.
 */
uint8_t sonerwal_data_out_read(const uint8_t *frame, size_t frame_len, uint32_t *hashed_destination,
                               uint32_t *hashed_source, uint8_t *changing, uint16_t *tag, uint16_t *transfer,
                               uint32_t *offset, uint16_t *length);

/*
 * Writes a write's DATA frame around body; sonerwal_data_out_put() is the same call over the struct. Its answers are
 * those of sonerwal_data_write(), and its frame has sonerwal_data_size(body_len) bytes too.
 */
uint8_t sonerwal_data_out_write(uint32_t hashed_destination, uint32_t hashed_source, uint8_t changing, uint16_t tag,
                                uint16_t transfer, uint32_t offset, const uint8_t *body, size_t body_len,
                                uint8_t *frame, size_t frame_len);

/* Reads the frame into *data, with sonerwal_data_out_read()'s answers; a refusal leaves *data as it was. */
static inline uint8_t sonerwal_data_out_get(struct sonerwal_data_out *data, const uint8_t *frame, size_t frame_len)
{
	return sonerwal_data_out_read(frame, frame_len, &data->hashed_destination, &data->hashed_source,
	                              &data->changing, &data->tag, &data->transfer, &data->offset, &data->length);
}

/* Writes *data around body, which has data->length bytes, with sonerwal_data_out_write()'s answers. */
static inline uint8_t sonerwal_data_out_put(const struct sonerwal_data_out *data, const uint8_t *body, uint8_t *frame,
                                            size_t frame_len)
{
	return sonerwal_data_out_write(data->hashed_destination, data->hashed_source, data->changing, data->tag,
	                               data->transfer, data->offset, body, data->length, frame, frame_len);
}

/* ---- RESPONSE frame (02, request c) ------------------------------------------------------------------------ */

#define SONERWAL_RESPONSE_HEADER_SIZE 48u /* the data starts here, if there is any */
#define SONERWAL_RESPONSE_DATA_SIZE 4u    /* response data, if it is present */
#define SONERWAL_RESPONSE_BODY_MAX 1000u
#define SONERWAL_RESPONSE_SIZE_MIN 48u
#define SONERWAL_RESPONSE_SIZE_MAX 1048u

/* Which data a RESPONSE has. */
enum sonerwal_data_present {
	SONERWAL_PRESENT_NONE = 0,     /* none */
	SONERWAL_PRESENT_RESPONSE = 1, /* response data: 4 bytes, and status 0 */
	SONERWAL_PRESENT_SENSE = 2     /* sense data: 1 to 1,000 bytes */
};

/*
 * The fields of a RESPONSE frame, which ends a command.
 *
 *   field               range          place in the frame
 *   hashed_destination  24 bits        bytes 1 to 3
 *   hashed_source       24 bits        bytes 5 to 7
 *   retransmit          0 or 1         byte 10, bit 1        1 where the RESPONSE was sent before
 *   tag                 any            bytes 16 and 17
 *   present             0 to 2         byte 34               data present, enum sonerwal_data_present
 *   status              any            byte 35               of SAM; 0 with response data
 *   length              as its kind's  bytes 40 to 43 with sense data, 44 to 47 with response data; else they are zero
 *
 * Byte 0 is the type, 7. Byte 11 is the fill count: 0 to 3 zero bytes behind the data, to a multiple of four. Bytes 18 and
 * 19 are FF. Every other byte and bit before byte 48 is zero. Numbers are big-endian in the frame and plain numbers
 * here. The struct is the header's own, as that of DATA.
 */
struct sonerwal_response {
	uint32_t hashed_destination;
	uint32_t hashed_source;
	uint16_t tag;
	uint16_t length;
	uint8_t retransmit;
	uint8_t present;
	uint8_t status;
};

/*
 * Reads a RESPONSE frame; sonerwal_response_get() is the same call over the struct.
 *
 * Answers, the first that holds:
 *   SONERWAL_REFUSED_LENGTH    frame_len is below 48, above 1,048, or no multiple of four
 *   SONERWAL_REFUSED_UNLISTED  byte 0 is not 7; byte 10 has another bit than 1; byte 11 is above 3 or above
 *                              frame_len - 48; byte 18 or 19 is not FF; byte 4, 8, 9, one of 12 to 15, of 20 to 33 or of
 *                              36 to 39 is not 0; byte 34 is above 2, or 1 with a status; with n for
 *                              frame_len - 48 - byte 11, the length that byte 34 names is not n, the other not 0, or n
 *                              is not its kind's; or one of the frame's last bytes, as many as byte 11 says, is not 0
 *   SONERWAL_OK                each number holds its field; *length = frame_len - 48 - byte 11
 * The data isn't copied: it is the *length bytes from frame + 48 on. The frame is only read.
 */
uint8_t sonerwal_response_read(const uint8_t *frame, size_t frame_len, uint32_t *hashed_destination,
                               uint32_t *hashed_source, uint8_t *retransmit, uint16_t *tag, uint8_t *present,
                               uint8_t *status, uint16_t *length);

/*
 * Writes a RESPONSE frame around body; sonerwal_response_put() is the same call over the struct. A reply's own frames
 * are written by sonerwal_reply_respond().
 *
 * Answers, the first that holds:
 *   SONERWAL_REFUSED_LENGTH    body_len is above 1,000; it is not 0 with present 0, not 4 with present 1, or 0 with
 *                              present 2; or frame_len is below sonerwal_response_size(body_len)
 *   SONERWAL_REFUSED_UNLISTED  hashed_destination or hashed_source is above FFFFFF, retransmit is above 1, present is
 *                              above 2, or present is 1 and status is not 0
 *   SONERWAL_OK                the first sonerwal_response_size(body_len) bytes are written; those past them stay
 * The body is only read.
 */
uint8_t sonerwal_response_write(uint32_t hashed_destination, uint32_t hashed_source, uint8_t retransmit, uint16_t tag,
                                uint8_t present, uint8_t status, const uint8_t *body, size_t body_len, uint8_t *frame,
                                size_t frame_len);

/* Bytes of the RESPONSE frame around body_len data bytes, fill included; 0 where there is no such frame. */
static inline size_t sonerwal_response_size(size_t body_len)
{
	if (body_len > SONERWAL_RESPONSE_BODY_MAX) {
		return 0;
	}
	return SONERWAL_RESPONSE_HEADER_SIZE + (body_len + 3u) / 4u * 4u;
}

/* Where the data of a RESPONSE frame starts; sonerwal_response_get() says how long it is. */
static inline const uint8_t *sonerwal_response_body(const uint8_t *frame)
{
	return frame + SONERWAL_RESPONSE_HEADER_SIZE;
}

/* Reads the frame into *response, with sonerwal_response_read()'s answers; a refusal leaves *response as it was. */
static inline uint8_t sonerwal_response_get(struct sonerwal_response *response, const uint8_t *frame, size_t frame_len)
{
	return sonerwal_response_read(frame, frame_len, &response->hashed_destination, &response->hashed_source,
	                              &response->retransmit, &response->tag, &response->present, &response->status,
	                              &response->length);
}

/* Writes *response around body, which has response->length bytes, with sonerwal_response_write()'s answers. */
static inline uint8_t sonerwal_response_put(const struct sonerwal_response *response, const uint8_t *body,
                                            uint8_t *frame, size_t frame_len)
{
	return sonerwal_response_write(response->hashed_destination, response->hashed_source, response->retransmit,
	                               response->tag, response->present, response->status, body, response->length, frame,
	                               frame_len);
}

/* ---- Read transfer (01, Read transfer) --------------------------------------------------------------------- */

/* Frames that may be unanswered at a time. */
#define SONERWAL_UNANSWERED_MAX 64u

enum sonerwal_phase {
	SONERWAL_PHASE_NEW = 0,    /* before START */
	SONERWAL_PHASE_RUN = 1,    /* frames go, and answers come */
	SONERWAL_PHASE_DRAIN = 2,  /* a NAK was seen, and answers are still due */
	SONERWAL_PHASE_DONE = 3,   /* every requested byte was ACKed */
	SONERWAL_PHASE_FAILED = 4, /* a NAK, TIMEOUT or LOST came with every resend used */
	SONERWAL_PHASE_ENDED = 5   /* NEXUS or CANCEL came */
};

/*
 * A read transfer.
 *
 *   offset      B: where the request begins
 *   count       N: its bytes, 1 or more; offset + count is at most 4,294,967,295
 *   size        M: the longest frame's data, a multiple of 4 from 4 to 1,024
 *   resends     R: how many are allowed, 0 to 255
 *   read        read offset: of the next frame's first byte
 *   balance     balance point: every requested byte before it was in a frame whose ACK was reported
 *   unanswered  frames with no answer yet, 0 to 64; 0 once finished
 *   used        resends used, 0 to resends
 *   sent        1 if a frame was sent in the present attempt, else 0
 *   phase       enum sonerwal_phase
 *
 * Its rules: it is all zeros, or what some START and calls after it leave; the test of that is exact.
 */
struct sonerwal_transfer {
	uint32_t offset;
	uint32_t count;
	uint32_t size;
	uint32_t resends;
	uint32_t read;
	uint32_t balance;
	uint32_t unanswered;
	uint32_t used;
	uint16_t zero2;
	uint8_t sent;
	uint8_t phase;
};
SONERWAL_SIZE(transfer, 36);

/* What a call gives: the transfer to go on with, and the answer. What lies behind the answer isn't promised. */
struct sonerwal_transfer_step {
	struct sonerwal_transfer state;
	uint8_t answer;
};

/* Keeps the state that a call gave, and says its answer:
 *     answer = sonerwal_transfer_keep(&s, sonerwal_transfer_ack(s)); */
static inline uint8_t sonerwal_transfer_keep(struct sonerwal_transfer *s, struct sonerwal_transfer_step step)
{
	*s = step.state;
	return step.answer;
}

/*
 * START: count bytes from offset on, in frames of at most size, with so many resends.
 *
 *   SONERWAL_REFUSED_RULES  a number is out of its range, or s breaks its rules
 *   SONERWAL_REFUSED_UNFIT  s is a transfer that isn't finished
 *   SONERWAL_OK             in run: read offset and balance point at offset, nothing sent
 */
struct sonerwal_transfer_step sonerwal_transfer_start(struct sonerwal_transfer s, uint32_t offset, uint32_t count,
                                                      uint32_t size, uint32_t resends);

/*
 * FRAME: the next frame goes, of sonerwal_transfer_length() bytes at the read offset. For firmware that writes its frames
 * by itself; sonerwal_transfer_next() does both.
 *
 *   SONERWAL_REFUSED_RULES  s breaks its rules
 *   SONERWAL_REFUSED_UNFIT  before START, or finished
 *   SONERWAL_REFUSED_DUE    a NAK was seen and answers are still due
 *   SONERWAL_REFUSED_SENT   every byte has been sent in this attempt
 *   SONERWAL_REFUSED_FULL   64 frames are unanswered
 *   SONERWAL_SENT           the read offset moved past it, and one more is unanswered
 */
struct sonerwal_transfer_step sonerwal_transfer_frame(struct sonerwal_transfer s);

/*
 * The answers to the oldest unanswered frame, ACK and NAK; the ACK/NAK timeout; and a connection lost, with which all that
 * is unanswered is lost.
 *
 *   SONERWAL_REFUSED_RULES  s breaks its rules
 *   SONERWAL_REFUSED_UNFIT  before START, finished, or no frame is unanswered
 *   SONERWAL_OK             ACK: it goes on; with none unanswered the balance point is the read offset
 *   SONERWAL_DONE           ACK: the last byte was ACKed
 *   SONERWAL_DRAIN          ACK, NAK: a NAK was seen, and answers are still due
 *   SONERWAL_RETRY          a resend begins: the read offset is the balance point
 *   SONERWAL_FAIL           NAK, timeout, lost: every resend is used
 */
struct sonerwal_transfer_step sonerwal_transfer_ack(struct sonerwal_transfer s);
struct sonerwal_transfer_step sonerwal_transfer_nak(struct sonerwal_transfer s);
struct sonerwal_transfer_step sonerwal_transfer_timeout(struct sonerwal_transfer s);
struct sonerwal_transfer_step sonerwal_transfer_lost(struct sonerwal_transfer s);

/*
 * NEXUS (I_T nexus loss) and CANCEL.
 *
 *   SONERWAL_REFUSED_RULES  s breaks its rules
 *   SONERWAL_REFUSED_UNFIT  before START, or finished
 *   SONERWAL_END            ended at once
 */
struct sonerwal_transfer_step sonerwal_transfer_nexus(struct sonerwal_transfer s);
struct sonerwal_transfer_step sonerwal_transfer_cancel(struct sonerwal_transfer s);

/*
 * The next-frame call: writes the DATA frame at the read offset around body and takes FRAME's step.
 *
 * body has sonerwal_transfer_length(s) bytes, of the image from s.read on; frame has room for sonerwal_data_size() of
 * them. Answers, the first that holds:
 *   SONERWAL_REFUSED_RULES, _UNFIT, _DUE, _SENT, _FULL  as sonerwal_transfer_frame()
 *   SONERWAL_REFUSED_UNLISTED  hashed_destination or hashed_source is above FFFFFF
 *   SONERWAL_REFUSED_LENGTH    body_len isn't sonerwal_transfer_length(s), or frame_len is below the frame's size
 *   SONERWAL_SENT              the frame stands at the front of frame; the bytes past it stay
 */
struct sonerwal_transfer_step sonerwal_transfer_next(struct sonerwal_transfer s, uint32_t hashed_destination,
                                                     uint32_t hashed_source, uint16_t tag, const uint8_t *body,
                                                     size_t body_len, uint8_t *frame, size_t frame_len);

/* Of the next frame's data; 0 where sonerwal_transfer_frame() refuses, which says why. */
uint32_t sonerwal_transfer_length(struct sonerwal_transfer s);

/* ---- A saved transfer (02, request a) ---------------------------------------------------------------------- */

/*
 * A read transfer as one line of text, so that new firmware goes on where the old stopped:
 *
 *   before the swap  sonerwal_transfer_save() writes the line, and the board keeps it
 *   behind it        sonerwal_transfer_restore() reads it
 *
 * What is restored is what was saved, to the last member: whatever is called then answers, leaves and writes the same as
 * without the swap. The line has the transfer alone: tag, hashed addresses, links and port are the caller's to keep. An
 * answer that came during the swap is still to be reported; if the board may have missed one, that is
 * sonerwal_transfer_timeout() or _lost().
 *
 * The line is ASCII, in columns with one tab between two:
 *
 *   column  holds
 *   1       the form's number
 *   2 to 5  offset, count, size, resends
 *   6 to 8  read, balance, unanswered
 *   9, 10   sent, used
 *   last    phase: new, run, drain, done, fail or end
 *
 * Numbers are decimal, without a sign or a leading zero. No LF belongs to the line: whoever keeps lines in a file puts
 * one behind each, and restores what stands before it. Columns 1 to 10 and the phase at the end are the same in every
 * form; what a later form adds stands between them. No front of a saved line is a saved line, so that one which was cut
 * short is refused and never taken for another transfer.
 *
 * The newest form and its room grow with the archive. They are meant to be used by name: such firmware only has to be
 * compiled anew, while a 1 or a 69 in its source would be refused one day. What outlives a swap must not be laid out by
 * them, since the two sides may differ: the length goes in front of the line, or an LF behind it. A form that is later
 * than the archive is refused by restore.
 */
#define SONERWAL_SAVED_FORM 1u  /* the form that is written */
#define SONERWAL_SAVED_ROOM 69u /* bytes that hold every line of it */

/* What save gives: the bytes of the line, 0 with a refusal, and the answer. What lies behind the answer isn't promised. */
struct sonerwal_saved {
	size_t length;
	uint8_t answer;
};

/*
 * Writes the line of s to the front of line, which has so much room.
 *
 *   SONERWAL_REFUSED_LENGTH    form is SONERWAL_SAVED_FORM and room is below SONERWAL_SAVED_ROOM, whatever this line needs
 *   SONERWAL_REFUSED_UNLISTED  form isn't SONERWAL_SAVED_FORM: it isn't written, and asks for no room
 *   SONERWAL_REFUSED_RULES     s breaks its rules
 *   SONERWAL_OK                the line has the length that is given; the bytes past it stay
 */
struct sonerwal_saved sonerwal_transfer_save(struct sonerwal_transfer s, uint8_t form, uint8_t *line, size_t room);

/*
 * The transfer that a line of so many bytes saves.
 *
 *   SONERWAL_REFUSED_UNLISTED  it is no saved line, or one whose numbers no START and calls after it leave; the state is
 *                              that before START, all zeros
 *   SONERWAL_OK                saved again, the state gives the same bytes
 * The line is only read.
 */
struct sonerwal_transfer_step sonerwal_transfer_restore(const uint8_t *line, size_t length);

/* ---- A write (02, request c) ------------------------------------------------------------------------------- */

/*
 * A host writes, and the target asks for the bytes range by range:
 *
 *   the command came            sonerwal_write_start()
 *   an XFER_RDY is due          sonerwal_write_ask() makes it, and the board sends it
 *   its ACK came                sonerwal_write_ack()
 *   its NAK; none; the          sonerwal_write_nak(), _timeout(), _lost(): SONERWAL_RETRY, and the next ask makes it anew,
 *   connection was lost         under another transfer tag and with the retransmit bit
 *   a DATA frame came           sonerwal_write_take() puts its data into the store
 *
 * What take answers says what is next: SONERWAL_OK, more of the range is due; SONERWAL_MORE, the range is full, and the
 * next is to be asked for; SONERWAL_DONE, every byte is in the store, each taken once in order of offset. The board
 * then ends the command by a reply (below). A host that answers an XFER_RDY whose ACK was lost sends the range twice:
 * what comes under the earlier tag is SONERWAL_LATE, and SONERWAL_REFUSED_UNLISTED once data under the later one was
 * taken. Either way the board drops it, and nothing else is to be done. A frame that overtook the ACK of its XFER_RDY is
 * SONERWAL_REFUSED_UNFIT, and the board offers it again once the ACK is reported.
 *
 * A host that sends nothing is the board's to time: sonerwal_write_cancel(), and a reply with a status that says so. It
 * may also cancel before the end, best after SONERWAL_MORE, where nothing is on its way.
 */

/* Transfer tags are 0 to 63; a set of them is a number, with tag t at bit t. */
#define SONERWAL_TRANSFER_TAGS 64u

enum sonerwal_write_phase {
	SONERWAL_WRITE_NEW = 0,    /* before START */
	SONERWAL_WRITE_ASK = 1,    /* an XFER_RDY is due: the first of a range, or a retry */
	SONERWAL_WRITE_WAIT = 2,   /* its ACK, NAK or loss is due */
	SONERWAL_WRITE_TAKE = 3,   /* it was ACKed, and data is due */
	SONERWAL_WRITE_DONE = 4,   /* every byte was taken */
	SONERWAL_WRITE_FAILED = 5, /* a NAK, TIMEOUT or LOST came with every retry used */
	SONERWAL_WRITE_ENDED = 6   /* NEXUS or CANCEL came */
};

/*
 * A write.
 *
 *   tags     its own transfer tags in use: each from its XFER_RDY on, until data under a later one is taken, until its
 *            range is full, or until the write is finished
 *   offset   B: where the request begins
 *   count    N: its bytes, 1 or more; offset + count is at most 4,294,967,295
 *   burst    X: the most that one XFER_RDY asks for, a multiple of 4 from 4 on; it may be above count
 *   resends  R: how many retries are allowed, 0 to 63, over the whole write
 *   next     offset of the next byte: all before it were taken
 *   used     retries used, 0 to resends
 *   tag      transfer tag of the last XFER_RDY, 0 before the first
 *   phase    enum sonerwal_write_phase
 *
 * The ranges have burst bytes each from offset on, the last what is left. Its rules: it is all zeros, or what some START
 * and calls after it leave; the test of that is exact.
 */
struct sonerwal_write {
	uint64_t tags;
	uint32_t offset;
	uint32_t count;
	uint32_t burst;
	uint32_t resends;
	uint32_t next;
	uint32_t used;
	uint32_t zero4;
	uint16_t tag;
	uint8_t phase;
	uint8_t zero1;
};
SONERWAL_SIZE(write, 40);

/* What a call gives: the write to go on with, and the answer. What lies behind the answer isn't promised. */
struct sonerwal_write_step {
	struct sonerwal_write state;
	uint8_t answer;
};

/* Keeps the state that a call gave, and says its answer:
 *     answer = sonerwal_write_keep(&s, sonerwal_write_ack(s)); */
static inline uint8_t sonerwal_write_keep(struct sonerwal_write *s, struct sonerwal_write_step step)
{
	*s = step.state;
	return step.answer;
}

/* The tags that the writes of a port have in use: `others` of sonerwal_write_xfer() and sonerwal_write_ask(). The write that
 * asks may be among them, since its own tags are not free for it anyway. */
static inline uint64_t sonerwal_write_others(const struct sonerwal_write *writes, size_t count)
{
	uint64_t tags = 0;
	for (size_t i = 0; i < count; i++) {
		tags |= writes[i].tags;
	}
	return tags;
}

/*
 * START: count bytes from offset on, at most burst for one XFER_RDY, with so many retries.
 *
 *   SONERWAL_REFUSED_RULES  a number is out of its range, or s breaks its rules
 *   SONERWAL_REFUSED_UNFIT  s is a write that isn't finished
 *   SONERWAL_OK             the first range is to be asked for
 */
struct sonerwal_write_step sonerwal_write_start(struct sonerwal_write s, uint32_t offset, uint32_t count, uint32_t burst,
                                                uint32_t resends);

/*
 * XFER: an XFER_RDY goes, for the present range. For firmware that writes its frames by itself, from the state that comes
 * back: tag is the transfer tag, next the requested offset, the lesser of burst and offset + count - next the length, and
 * the retransmit bit is one exactly if tags was not 0 before. sonerwal_write_ask() does both.
 *
 * others are the transfer tags that the port's other writes have in use, so that no two writes share one. The tag taken is
 * the lowest that is not among them, not one of s.tags and not the tag of the XFER_RDY before.
 *
 *   SONERWAL_REFUSED_RULES  s breaks its rules
 *   SONERWAL_REFUSED_UNFIT  no XFER_RDY is due
 *   SONERWAL_REFUSED_FULL   no transfer tag is free: the caller comes again once another write's range is full
 *   SONERWAL_SENT           its ACK, NAK or loss is due
 */
struct sonerwal_write_step sonerwal_write_xfer(struct sonerwal_write s, uint64_t others);

/*
 * What became of the XFER_RDY: ACK; NAK; the ACK/NAK timeout; and a connection lost.
 *
 *   SONERWAL_REFUSED_RULES  s breaks its rules
 *   SONERWAL_REFUSED_UNFIT  none is due an answer
 *   SONERWAL_OK             ACK: data is due
 *   SONERWAL_RETRY          NAK, timeout, lost: the same range is to be asked for again
 *   SONERWAL_FAIL           NAK, timeout, lost: every retry is used
 */
struct sonerwal_write_step sonerwal_write_ack(struct sonerwal_write s);
struct sonerwal_write_step sonerwal_write_nak(struct sonerwal_write s);
struct sonerwal_write_step sonerwal_write_timeout(struct sonerwal_write s);
struct sonerwal_write_step sonerwal_write_lost(struct sonerwal_write s);

/*
 * DATA: so many bytes came, from offset on, under a transfer tag. For firmware that reads its frames by itself;
 * sonerwal_write_take() does both. Answers, the first that holds:
 *
 *   SONERWAL_REFUSED_UNLISTED  length is 0 or above 1,024
 *   SONERWAL_REFUSED_RULES     s breaks its rules
 *   SONERWAL_REFUSED_UNFIT     before START, finished, or the ACK of the XFER_RDY with this tag isn't reported yet
 *   SONERWAL_REFUSED_UNLISTED  transfer isn't one of s.tags; the data begins before s.next, ends past the range, or ends
 *                              within it and has no multiple of four bytes; or it is under the awaited tag, and doesn't
 *                              begin at s.next
 *   SONERWAL_LATE              it is under another tag of s.tags: to be dropped, and nothing moved
 *   SONERWAL_OK                taken, and more of the range is due
 *   SONERWAL_MORE              taken, the range is full, and the next is to be asked for
 *   SONERWAL_DONE              taken, and it was the last
 */
struct sonerwal_write_step sonerwal_write_got(struct sonerwal_write s, uint16_t transfer, uint32_t offset, uint32_t length);

/*
 * NEXUS (I_T nexus loss) and CANCEL.
 *
 *   SONERWAL_REFUSED_RULES  s breaks its rules
 *   SONERWAL_REFUSED_UNFIT  before START, or finished
 *   SONERWAL_END            ended at once; its tags are free
 */
struct sonerwal_write_step sonerwal_write_nexus(struct sonerwal_write s);
struct sonerwal_write_step sonerwal_write_cancel(struct sonerwal_write s);

/*
 * Writes the XFER_RDY that is due, SONERWAL_XFER_RDY_SIZE bytes, and takes XFER's step. hashed_destination is the host's,
 * hashed_source the target's, and tag the command's; the write doesn't keep them, and a retry is given the same. Answers,
 * the first that holds:
 *
 *   SONERWAL_REFUSED_LENGTH                frame_len is below 36
 *   SONERWAL_REFUSED_UNLISTED              hashed_destination or hashed_source is above FFFFFF
 *   SONERWAL_REFUSED_RULES, _UNFIT, _FULL  as sonerwal_write_xfer()
 *   SONERWAL_SENT                          it stands at the front of frame; the bytes past it stay
 */
struct sonerwal_write_step sonerwal_write_ask(struct sonerwal_write s, uint64_t others, uint32_t hashed_destination,
                                              uint32_t hashed_source, uint16_t tag, uint8_t *frame, size_t frame_len);

/*
 * Reads a DATA frame that came and takes DATA's step: its data goes into the store, where the request's first byte is
 * store[0]. hashed_destination, hashed_source and tag are those that ask was given: the frame has the addresses the
 * other way round, and the same tag. store has s.count bytes or more, the same memory at each take of a write; frame is
 * no part of it. Answers, the first that holds:
 *
 *   SONERWAL_REFUSED_LENGTH         frame_len is below 28, above 1,048, or no multiple of four
 *   SONERWAL_REFUSED_UNLISTED       it is no DATA frame of a write, or hashed_destination or hashed_source is above
 *                                   FFFFFF
 *   SONERWAL_REFUSED_RULES, _UNFIT  as sonerwal_write_got()
 *   SONERWAL_REFUSED_UNLISTED       its addresses or its tag are another's; then as sonerwal_write_got()
 *   SONERWAL_REFUSED_LENGTH         store_len is below s.count
 *   SONERWAL_LATE                   nothing is stored, and nothing moved
 *   SONERWAL_OK, _MORE, _DONE       its data is in the store; every other byte of the store is as it was
 */
struct sonerwal_write_step sonerwal_write_take(struct sonerwal_write s, uint32_t hashed_destination, uint32_t hashed_source,
                                               uint16_t tag, const uint8_t *frame, size_t frame_len, uint8_t *store,
                                               size_t store_len);

/* ---- A reply (02, request c) ------------------------------------------------------------------------------- */

/*
 * RESPONSE ends a command, a read as well as a write, and is sent again until its ACK is reported or its resends are used:
 *
 *   the command is at its end   sonerwal_reply_start()
 *   a RESPONSE is due           sonerwal_reply_respond() makes it, and the board sends it
 *   its ACK came                sonerwal_reply_ack(): SONERWAL_DONE
 *   its NAK; none; the          sonerwal_reply_nak(), _timeout(), _lost(): SONERWAL_RETRY, and the next respond makes it
 *   connection was lost         anew, with the retransmit bit
 */

enum sonerwal_reply_phase {
	SONERWAL_REPLY_NEW = 0,    /* before START */
	SONERWAL_REPLY_ASK = 1,    /* a RESPONSE is due */
	SONERWAL_REPLY_WAIT = 2,   /* its ACK, NAK or loss is due */
	SONERWAL_REPLY_DONE = 3,   /* its ACK was reported */
	SONERWAL_REPLY_FAILED = 4, /* a NAK, TIMEOUT or LOST came with every resend used */
	SONERWAL_REPLY_ENDED = 5   /* NEXUS or CANCEL came */
};

/*
 * A reply.
 *
 *   resends  R: how many are allowed, 0 to 255
 *   used     resends used, 0 to resends
 *   phase    enum sonerwal_reply_phase
 *
 * Its rules: it is all zeros, or what some START and calls after it leave; the test of that is exact.
 */
struct sonerwal_reply {
	uint32_t resends;
	uint32_t used;
	uint16_t zero2;
	uint8_t zero1;
	uint8_t phase;
};
SONERWAL_SIZE(reply, 12);

/* What a call gives: the reply to go on with, and the answer. What lies behind the answer isn't promised. */
struct sonerwal_reply_step {
	struct sonerwal_reply state;
	uint8_t answer;
};

/* Keeps the state that a call gave, and says its answer. */
static inline uint8_t sonerwal_reply_keep(struct sonerwal_reply *s, struct sonerwal_reply_step step)
{
	*s = step.state;
	return step.answer;
}

/*
 * START, with so many resends.
 *
 *   SONERWAL_REFUSED_RULES  resends is above 255, or s breaks its rules
 *   SONERWAL_REFUSED_UNFIT  s is a reply that isn't finished
 *   SONERWAL_OK             a RESPONSE is due
 */
struct sonerwal_reply_step sonerwal_reply_start(struct sonerwal_reply s, uint32_t resends);

/*
 * What became of the RESPONSE: ACK; NAK; the ACK/NAK timeout; and a connection lost.
 *
 *   SONERWAL_REFUSED_RULES  s breaks its rules
 *   SONERWAL_REFUSED_UNFIT  none is due an answer
 *   SONERWAL_DONE           ACK: delivered
 *   SONERWAL_RETRY          NAK, timeout, lost: it is to be sent again
 *   SONERWAL_FAIL           NAK, timeout, lost: every resend is used
 */
struct sonerwal_reply_step sonerwal_reply_ack(struct sonerwal_reply s);
struct sonerwal_reply_step sonerwal_reply_nak(struct sonerwal_reply s);
struct sonerwal_reply_step sonerwal_reply_timeout(struct sonerwal_reply s);
struct sonerwal_reply_step sonerwal_reply_lost(struct sonerwal_reply s);

/*
 * NEXUS (I_T nexus loss) and CANCEL.
 *
 *   SONERWAL_REFUSED_RULES  s breaks its rules
 *   SONERWAL_REFUSED_UNFIT  before START, or finished
 *   SONERWAL_END            ended at once
 */
struct sonerwal_reply_step sonerwal_reply_nexus(struct sonerwal_reply s);
struct sonerwal_reply_step sonerwal_reply_cancel(struct sonerwal_reply s);

/*
 * Writes the RESPONSE that is due, sonerwal_response_size(body_len) bytes. hashed_destination is the host's, hashed_source
 * the target's, and tag the command's; present, status and body are as in sonerwal_response_write(). The reply keeps none
 * of them, and a resend is given the same. Answers, the first that holds:
 *
 *   SONERWAL_REFUSED_LENGTH    as sonerwal_response_write()
 *   SONERWAL_REFUSED_UNLISTED  as sonerwal_response_write()
 *   SONERWAL_REFUSED_RULES     s breaks its rules
 *   SONERWAL_REFUSED_UNFIT     no RESPONSE is due
 *   SONERWAL_SENT              it stands at the front of frame, with the retransmit bit if a resend was used; the
 *                              bytes past it stay
 */
struct sonerwal_reply_step sonerwal_reply_respond(struct sonerwal_reply s, uint32_t hashed_destination,
                                                  uint32_t hashed_source, uint16_t tag, uint8_t present, uint8_t status,
                                                  const uint8_t *body, size_t body_len, uint8_t *frame, size_t frame_len);

/* ---- Expander link (01, XL: one event, one step) ----------------------------------------------------------- */

/* The states, 0 to 10. */
enum sonerwal_xl {
	SONERWAL_XL_0 = 0,  /* idle */
	SONERWAL_XL_1 = 1,  /* requests a path */
	SONERWAL_XL_2 = 2,  /* requests the OPEN to be forwarded */
	SONERWAL_XL_3 = 3,  /* waits for the answer to the OPEN that it forwarded */
	SONERWAL_XL_4 = 4,  /* rejects an OPEN */
	SONERWAL_XL_5 = 5,  /* forwards an OPEN, which it transmits */
	SONERWAL_XL_6 = 6,  /* waits for the answer to the OPEN that it transmitted */
	SONERWAL_XL_7 = 7,  /* connected */
	SONERWAL_XL_8 = 8,  /* waits for CLOSE */
	SONERWAL_XL_9 = 9,  /* answers BREAK */
	SONERWAL_XL_10 = 10 /* waits for the answer to BREAK */
};

/*
 * What a link hears and does. A number serves the event and the action alike, so that what one link says is what another
 * hears: an action of 16 to 23 is the event to give to the other link.
 */
enum sonerwal_kind {
	SONERWAL_KIND_NONE = 0, /* no action; as an event it is refused */

	/* Received or transmitted by the phy. */
	SONERWAL_KIND_OPEN = 1, /* with a frame */
	SONERWAL_KIND_OPEN_ACCEPT = 2,
	SONERWAL_KIND_OPEN_REJECT = 3, /* detail: enum sonerwal_reject */
	SONERWAL_KIND_AIP = 4,         /* detail: enum sonerwal_wait */
	SONERWAL_KIND_CLOSE = 5,
	SONERWAL_KIND_BREAK = 6,

	/* From or to the router. */
	SONERWAL_KIND_SEND_OPEN = 16, /* with a frame */
	SONERWAL_KIND_SEND_CLOSE = 17,
	SONERWAL_KIND_SEND_BREAK = 18,
	SONERWAL_KIND_ARB_STATUS = 19, /* detail: enum sonerwal_wait */
	SONERWAL_KIND_ROUTER_OPEN_ACCEPT = 20,
	SONERWAL_KIND_ROUTER_OPEN_REJECT = 21, /* detail: enum sonerwal_reject */
	SONERWAL_KIND_BACKOFF_RETRY = 22,
	SONERWAL_KIND_BACKOFF_REVERSE_PATH = 23, /* with a frame */

	/* From the connection manager, and to it. */
	SONERWAL_KIND_ARB_WON = 32,
	SONERWAL_KIND_ARB_LOST = 33,
	SONERWAL_KIND_ARB_REJECT = 34,   /* detail: enum sonerwal_denial */
	SONERWAL_KIND_ARBITRATING = 35,  /* detail: enum sonerwal_arbitrating */
	SONERWAL_KIND_REQUEST_PATH = 40, /* an action only; detail: 1 with timeout status, else 0 */

	/* From the link's own phy. */
	SONERWAL_KIND_PATH_TIMER = 48, /* the path timer expired */
	SONERWAL_KIND_SENT = 49,       /* the OPEN_REJECT of XL4, the OPEN of XL5 or the BREAK of XL9 is on the line */
	SONERWAL_KIND_FORWARDED = 50,  /* the router took the OPEN of XL2 */
	SONERWAL_KIND_BREAK_TIMEOUT = 51,

	SONERWAL_KIND_DISABLE = 63
};

/* The kinds of OPEN_REJECT. */
enum sonerwal_reject {
	SONERWAL_REJECT_NO_DESTINATION = 0,
	SONERWAL_REJECT_BAD_DESTINATION = 1,
	SONERWAL_REJECT_WRONG_DESTINATION = 2,
	SONERWAL_REJECT_CONNECTION_RATE = 3, /* not supported */
	SONERWAL_REJECT_PROTOCOL = 4,        /* not supported */
	SONERWAL_REJECT_PATHWAY_BLOCKED = 5,
	SONERWAL_REJECT_STP_BUSY = 6, /* STP resources busy */
	SONERWAL_REJECT_RETRY = 7
};

/* The kinds of AIP and of ArbStatus. */
enum sonerwal_wait {
	SONERWAL_WAIT_NORMAL = 0,
	SONERWAL_WAIT_PARTIAL = 1,    /* waiting on partial */
	SONERWAL_WAIT_CONNECTION = 2, /* waiting on connection */
	SONERWAL_WAIT_DEVICE = 3      /* waiting on device */
};

/* The kinds of ArbReject. */
enum sonerwal_denial {
	SONERWAL_DENIAL_NO_DESTINATION = 0,
	SONERWAL_DENIAL_BAD_DESTINATION = 1,
	SONERWAL_DENIAL_BAD_LINK_RATE = 2,
	SONERWAL_DENIAL_PATHWAY_BLOCKED = 3
};

/* The kinds of Arbitrating. */
enum sonerwal_arbitrating {
	SONERWAL_ARBITRATING_WAITING_ON_PARTIAL = 0,
	SONERWAL_ARBITRATING_BLOCKED_ON_PARTIAL = 1,
	SONERWAL_ARBITRATING_WAITING_ON_CONNECTION = 2
};

/* A detail where its kind has none is 0. */
struct sonerwal_event {
	uint8_t kind; /* enum sonerwal_kind */
	uint8_t detail;
};
SONERWAL_SIZE(event, 2);

struct sonerwal_action {
	uint8_t kind; /* enum sonerwal_kind */
	uint8_t detail;
};
SONERWAL_SIZE(action, 2);

/*
 * An expander link of one phy.
 *
 *   held        the frame that it works for, received or transmitted; all zeros if has_held is 0
 *   heard       the latest OPEN received in XL5; all zeros if has_heard is 0
 *   unexpected  events that their state doesn't list; stops at 4,294,967,295
 *   phase       enum sonerwal_xl
 *   has_held, has_heard  1 if there is such a frame, else 0
 *   aip         the latest AIP or ArbStatus: 0 none, else 1 + its enum sonerwal_wait
 *   broke       1 if BREAK was received, else 0
 *   close       1 if CLOSE was received, else 0
 *   blocked     1 if the last Arbitrating of this stay in XL1 was Blocked On Partial, else 0
 *
 * Its rules: every number in its range, every zero member 0, held and heard of OPEN's fields, and in XL1 to XL6 a
 * frame is held.
 */
struct sonerwal_link {
	struct sonerwal_open held;
	struct sonerwal_open heard;
	uint32_t unexpected;
	uint32_t zero4;
	uint8_t phase;
	uint8_t has_held;
	uint8_t has_heard;
	uint8_t aip;
	uint8_t broke;
	uint8_t close;
	uint8_t blocked;
	uint8_t zero1;
};
SONERWAL_SIZE(link, 80);

/* What a call gives: the link to go on with, what is to be done, in order, with none behind the last, and the answer. What
 * lies behind the answer isn't promised. */
struct sonerwal_link_step {
	struct sonerwal_link state;
	struct sonerwal_action action[4];
	uint8_t answer;
};

/* Keeps the state that a call gave, and says its answer. */
static inline uint8_t sonerwal_link_keep(struct sonerwal_link *s, struct sonerwal_link_step step)
{
	*s = step.state;
	return step.answer;
}

/* The frame that an OPEN, a SendOpen, a BackoffReversePath or a RequestPath of the step speaks of: the one that the
 * new state holds. */
static inline const struct sonerwal_open *sonerwal_link_frame(const struct sonerwal_link_step *step)
{
	return &step->state.held;
}

/*
 * One event, one step. frame is looked at for the kinds OPEN, SEND_OPEN and BACKOFF_REVERSE_PATH alone.
 *
 *   SONERWAL_REFUSED_UNLISTED  kind and detail name no event, or the event's frame has not the fields of OPEN
 *   SONERWAL_REFUSED_RULES     s breaks its rules
 *   SONERWAL_OK                taken; an event that its state doesn't list only counts in unexpected
 * With a refusal the four actions are 0 0.
 */
struct sonerwal_link_step sonerwal_link_event(struct sonerwal_link s, struct sonerwal_event e,
                                              struct sonerwal_open frame);

/*
 * An OPEN received, as bytes.
 *
 *   SONERWAL_REFUSED_LENGTH, _UNLISTED  as sonerwal_open_read()
 *   SONERWAL_REFUSED_RULES              s breaks its rules
 *   SONERWAL_OK                         taken
 */
struct sonerwal_link_step sonerwal_link_receive(struct sonerwal_link s, const uint8_t *frame, size_t frame_len);

/* What the connection manager is told of the link: SONERWAL_READY, _PARTIAL, _BLOCKED_PARTIAL or _CONNECTED; or
 * SONERWAL_REFUSED_RULES: s breaks its rules. */
uint8_t sonerwal_link_status(struct sonerwal_link s);

/* ---- Port (01, Port) --------------------------------------------------------------------------------------- */

#define SONERWAL_SLOTS 32u              /* records of the list */
#define SONERWAL_PHYS 8u                /* of a port, at most */
#define SONERWAL_NO_SLOT 32u            /* names no slot */
#define SONERWAL_NO_PHY 8u              /* names no phy */
#define SONERWAL_LOSS_NEVER 65535u      /* a loss time that never comes */
#define SONERWAL_RETRY_MICROSECONDS 15u /* that a retried request waits */

enum sonerwal_phy_stage {
	SONERWAL_PHY_DISABLED = 0,
	SONERWAL_PHY_UNCONNECTED = 1,
	SONERWAL_PHY_OPENING = 2,
	SONERWAL_PHY_IDLE = 3,           /* connected */
	SONERWAL_PHY_SENDING = 4,        /* connected, with a frame out */
	SONERWAL_PHY_CLOSING = 5,        /* idle */
	SONERWAL_PHY_CLOSING_SENDING = 6 /* with a frame out */
};

enum sonerwal_request_stage {
	SONERWAL_REQUEST_FREE = 0, /* no request; the record is all zeros */
	SONERWAL_REQUEST_WAITING = 1,
	SONERWAL_REQUEST_IN_PROGRESS = 2
};

/* Why an open failed. */
enum sonerwal_reason {
	SONERWAL_REASON_NO_DESTINATION = 0, /* retried; starts the loss timer */
	SONERWAL_REASON_BAD_DESTINATION = 1,
	SONERWAL_REASON_WRONG_DESTINATION = 2,
	SONERWAL_REASON_LINK_RATE_NOT_SUPPORTED = 3, /* CONNECTION RATE NOT SUPPORTED; retried; starts the loss timer */
	SONERWAL_REASON_PROTOCOL_NOT_SUPPORTED = 4,  /* stops the loss timer */
	SONERWAL_REASON_PATHWAY_BLOCKED = 5,         /* retried; the wait runs on, and the blocked count grows */
	SONERWAL_REASON_STP_RESOURCES_BUSY = 6,      /* stops the loss timer */
	SONERWAL_REASON_RETRY = 7,                   /* retried; stops the loss timer */
	SONERWAL_REASON_OPEN_TIME_OUT = 8,           /* retried */
	SONERWAL_REASON_BREAK_RECEIVED = 9
};

/*
 * A phy of a port.
 *
 *   destination  whom it is connected to, 0 if it isn't
 *   stage        enum sonerwal_phy_stage
 *   slot         of the request that it names, 32 if it names none
 *   protocol     by which it is connected, 0 if it isn't
 */
struct sonerwal_phy {
	uint64_t destination;
	uint32_t zero4;
	uint8_t stage;
	uint8_t slot;
	uint8_t protocol;
	uint8_t zero1;
};
SONERWAL_SIZE(phy, 16);

/*
 * A port.
 *
 *   last   the time of the last call, in microseconds
 *   phys   those that it has, from 0 on; the others are disabled
 *   loss   loss time in milliseconds, 1 to 65,535; 65,535: never
 *   count  its phys, 1 to 8
 *
 * Its rules, and those of the list beside it: every zero member 0; fields as in OPEN; no two requests share
 * destination, protocol and tag; a request in progress and its phy name each other; an opening phy or one with a
 * frame out names one, a closing one may, no other does; only such requests are cancelled; no time stamp is past
 * the last time; one loss timer at most per destination, only with an SSP request present. A port of all zeros,
 * one before setup, breaks them.
 */
struct sonerwal_port {
	uint64_t last;
	struct sonerwal_phy phys[8];
	uint32_t zero4;
	uint16_t loss;
	uint8_t count;
	uint8_t zero1;
};
SONERWAL_SIZE(port, 144);

/* What an OPEN says of its request; features and rate are no more than a byte, as in struct sonerwal_open. */
struct sonerwal_head {
	uint8_t initiator;
	uint8_t protocol;
	uint16_t features;
	uint16_t rate;
	uint16_t tag;
	uint64_t destination;
	uint64_t source;
};
SONERWAL_SIZE(head, 24);

/* A time in microseconds that may not have come. */
struct sonerwal_stamp {
	uint64_t set; /* 1 once it came, else 0 */
	uint64_t at;
};
SONERWAL_SIZE(stamp, 16);

/*
 * A record of the list of 32 that the caller lends to every call of the port. A free one is all zeros; setup frees
 * them all.
 *
 *   stage      enum sonerwal_request_stage
 *   phy        that a request in progress is on, else 0
 *   cancelled  1 once it was, else 0
 *   pbc        its pathway blocked count
 *   closed     1 once choose closed a phy for it, else 0
 *   awt        of its last OPEN since its last reset, 0 if there was none
 *   head       as it was submitted
 *   submitted  when, in microseconds
 *   retry      its last retry
 *   first      its first open after its last reset
 *   loss       the start of its destination's loss timer, in every SSP request to it
 */
struct sonerwal_request {
	uint8_t stage;
	uint8_t phy;
	uint8_t cancelled;
	uint8_t pbc;
	uint16_t closed;
	uint16_t awt;
	struct sonerwal_head head;
	uint64_t submitted;
	struct sonerwal_stamp retry;
	struct sonerwal_stamp first;
	struct sonerwal_stamp loss;
};
SONERWAL_SIZE(request, 88);

/*
 * What a call of the port gives: the port to go on with, and the answer.
 *
 *   frame   with SONERWAL_OPEN the frame to transmit; else the head of the request that is named, with awt and pbc 0;
 *           zeros where none is named
 *   detail  SONERWAL_ENDED: enum sonerwal_reason; SONERWAL_STATUS: the byte; else 0
 *   slot    of the request that is named, 32 if none is
 *   phy     that is named, 8 if none is
 *
 * With a refusal the port and the list are as they were lent, and nothing is named. What lies behind phy isn't promised.
 */
struct sonerwal_port_step {
	struct sonerwal_port port;
	struct sonerwal_open frame;
	uint8_t answer;
	uint8_t detail;
	uint8_t slot;
	uint8_t phy;
};

/* Keeps the port that a call gave, and says its answer. */
static inline uint8_t sonerwal_port_keep(struct sonerwal_port *port, const struct sonerwal_port_step *step)
{
	*port = step->port;
	return step->answer;
}

/*
 * The ten calls. length is that of the list, in records; now is the time in microseconds, which never goes back.
 * Refusals, the lowest that holds:
 *   SONERWAL_REFUSED_LENGTH    length isn't 32
 *   SONERWAL_REFUSED_UNLISTED  submit: head isn't OPEN's; cancel: protocol is above 2; open_failed: reason is above 9
 *   SONERWAL_REFUSED_RULES     setup: count isn't 1 to 8, or loss is 0; else port or list breaks its rules
 *   SONERWAL_REFUSED_PHY       phy isn't below port.count
 *   SONERWAL_REFUSED_PAST      now is before port.last
 *   SONERWAL_REFUSED_UNFIT     beside each call below
 *   SONERWAL_REFUSED_PRESENT, _FULL  submit alone
 */

/* A port of count phys, all disabled, and an empty list. A refused setup gives a port of zeros. */
struct sonerwal_port_step sonerwal_port_setup(struct sonerwal_request *list, size_t length, uint8_t count, uint16_t loss);

/* A request for a frame to be sent: SONERWAL_SUBMITTED. pbc and awt of head aren't looked at. */
struct sonerwal_port_step sonerwal_port_submit(struct sonerwal_request *list, size_t length, struct sonerwal_port port,
                                               struct sonerwal_open head, uint64_t now);

/* The request isn't wanted any more: SONERWAL_CANCEL_ACKNOWLEDGED if it waits, SONERWAL_STOP_ARB if its phy opens, else
 * SONERWAL_CLOSE. Unfit: it is absent, or already cancelled. */
struct sonerwal_port_step sonerwal_port_cancel(struct sonerwal_request *list, size_t length, struct sonerwal_port port,
                                               uint64_t destination, uint8_t protocol, uint16_t tag, uint64_t now);

/* What to do next: SONERWAL_SEND, SONERWAL_OPEN or SONERWAL_CLOSE for the first waiting request that has a phy; else
 * SONERWAL_NOTHING. */
struct sonerwal_port_step sonerwal_port_choose(struct sonerwal_request *list, size_t length, struct sonerwal_port port,
                                               uint64_t now);

/* OPEN_ACCEPT came: SONERWAL_SEND, or SONERWAL_CLOSE if the request was cancelled. Unfit: the phy isn't opening. */
struct sonerwal_port_step sonerwal_port_opened(struct sonerwal_request *list, size_t length, struct sonerwal_port port,
                                               uint8_t phy, uint64_t now);

/* OPEN_REJECT, a time-out or BREAK came: SONERWAL_RETRIED, SONERWAL_ENDED, SONERWAL_NEXUS_LOSS or
 * SONERWAL_CANCEL_ACKNOWLEDGED. Unfit: the phy isn't opening. */
struct sonerwal_port_step sonerwal_port_open_failed(struct sonerwal_request *list, size_t length,
                                                    struct sonerwal_port port, uint8_t phy, uint8_t reason,
                                                    uint64_t now);

/* The frame went, or didn't: SONERWAL_STATUS with the byte, or SONERWAL_CANCEL_ACKNOWLEDGED. Unfit: no frame is out. */
struct sonerwal_port_step sonerwal_port_frame_status(struct sonerwal_request *list, size_t length,
                                                     struct sonerwal_port port, uint8_t phy, uint8_t status,
                                                     uint64_t now);

/* The connection is gone: SONERWAL_CONNECTION_LOST or SONERWAL_CANCEL_ACKNOWLEDGED if the phy named a request, else
 * SONERWAL_OK. Unfit: it is neither connected nor closing. */
struct sonerwal_port_step sonerwal_port_closed(struct sonerwal_request *list, size_t length, struct sonerwal_port port,
                                               uint8_t phy, uint64_t now);

/* A phy is taken into service: SONERWAL_OK. Unfit: it is enabled. */
struct sonerwal_port_step sonerwal_port_enable(struct sonerwal_request *list, size_t length, struct sonerwal_port port,
                                               uint8_t phy, uint64_t now);

/* And out of it: SONERWAL_WAITING or SONERWAL_CANCEL_ACKNOWLEDGED if it named a request, else SONERWAL_OK. Unfit: it is
 * disabled. */
struct sonerwal_port_step sonerwal_port_disable(struct sonerwal_request *list, size_t length, struct sonerwal_port port,
                                                uint8_t phy, uint64_t now);

/*
 * HOW THE PARTS WORK TOGETHER
 *
 * examples/board.c is a whole target in small. What the board does at the port's answers:
 *
 *   OPEN             writes r.frame by sonerwal_open_put() and transmits the 28 bytes on r.phy; then opened or
 *                    open_failed
 *   SEND             makes the frame of the request that r.slot names, now and not before, and sends it on r.phy:
 *                    sonerwal_transfer_next() into sonerwal_data_size(sonerwal_transfer_length(s)) bytes, a write's
 *                    sonerwal_write_ask() or a reply's sonerwal_reply_respond(); then frame_status
 *   CLOSE, STOP_ARB  tells phy r.phy; then closed; or open_failed or opened
 *   STATUS           the request is gone, and nothing is called yet: ACK, NAK, the ACK/NAK timeout and a connection
 *                    lost after it come from the link layer, and are _ack, _nak, _timeout and _lost of the
 *                    transfer, write or reply that has an answer due
 *   CONNECTION_LOST  _lost of each; refused as unfit where nothing is unanswered, which does no harm
 *   WAITING          the same if a frame was out; it is made anew at the next SEND
 *   NEXUS_LOSS       _nexus
 *   CANCEL_ACKNOWLEDGED, ENDED
 *                    _cancel; after ENDED the frame never went, and a board may submit again instead
 *   RETRIED, NOTHING, SUBMITTED, OK
 *                    chooses again at the next event, after RETRIED 15 microseconds later
 */

/* ---- For logs ---------------------------------------------------------------------------------------------- */

/* An answer's word in small letters; "refused: " and what for; "unnamed" for a number that is no answer. */
static inline const char *sonerwal_answer_name(uint8_t answer)
{
	switch (answer) {
	case SONERWAL_OK: return "ok";
	case SONERWAL_REFUSED_LENGTH: return "refused: length";
	case SONERWAL_REFUSED_UNLISTED: return "refused: unlisted";
	case SONERWAL_REFUSED_RULES: return "refused: rules";
	case SONERWAL_REFUSED_PHY: return "refused: phy";
	case SONERWAL_REFUSED_PAST: return "refused: past";
	case SONERWAL_REFUSED_UNFIT: return "refused: unfit";
	case SONERWAL_REFUSED_DUE: return "refused: due";
	case SONERWAL_REFUSED_SENT: return "refused: sent";
	case SONERWAL_REFUSED_PRESENT: return "refused: present";
	case SONERWAL_REFUSED_FULL: return "refused: full";
	case SONERWAL_SENT: return "sent";
	case SONERWAL_DRAIN: return "drain";
	case SONERWAL_RETRY: return "retry";
	case SONERWAL_DONE: return "done";
	case SONERWAL_FAIL: return "fail";
	case SONERWAL_END: return "end";
	case SONERWAL_LATE: return "late";
	case SONERWAL_MORE: return "more";
	case SONERWAL_SUBMITTED: return "submitted";
	case SONERWAL_NOTHING: return "nothing";
	case SONERWAL_SEND: return "send";
	case SONERWAL_OPEN: return "open";
	case SONERWAL_CLOSE: return "close";
	case SONERWAL_STOP_ARB: return "stop arb";
	case SONERWAL_RETRIED: return "retried";
	case SONERWAL_WAITING: return "waiting";
	case SONERWAL_CANCEL_ACKNOWLEDGED: return "cancel acknowledged";
	case SONERWAL_ENDED: return "ended";
	case SONERWAL_NEXUS_LOSS: return "i_t nexus loss";
	case SONERWAL_CONNECTION_LOST: return "connection lost";
	case SONERWAL_STATUS: return "status";
	case SONERWAL_READY: return "ready";
	case SONERWAL_PARTIAL: return "partial";
	case SONERWAL_BLOCKED_PARTIAL: return "blocked partial";
	case SONERWAL_CONNECTED: return "connected";
	default: return "unnamed";
	}
}

#ifdef __cplusplus
}
#endif

#endif
