/*
 * Jambpepper for C and C++: the tables of an MPEG-2 transport stream.
 *
 * Every call takes any bytes, of any length, and any numbers; it ends with what
 * was asked or with the number of an answer below. What each does is stated and
 * proved in the crates capi_*. The proofs end where C begins, so a host must see
 * to this:
 *
 * - a pointer and a length lend that many bytes, of a memory that many words:
 * they exist, and nothing else writes them during the call. A null pointer with
 * length 0 is allowed wherever bytes or words are lent: it lends none, and no
 * call reads or writes through it. A null pointer with a length above 0 is not
 * allowed, and no call tests for it;
 * - the buffer and the memory of jambpepper_tail and jambpepper_head may be
 * written during the call, and so overlap neither the packet nor each other;
 * - a place is read before the bytes that it lies in change: a section in the
 * buffer before the next step, one in the packet as long as the packet stands.
 *
 * Nothing is kept between calls: state, memory and buffer are the host's, and
 * any number of readers may be worked side by side.
 *
 * Link libjambpepper.a, which `build-library` writes. It needs no other library.
 */
#ifndef JAMBPEPPER_H
#define JAMBPEPPER_H

#include <stddef.h>
#include <stdint.h>

#ifdef __cplusplus
extern "C" {
#endif

/* ---- the answers */

enum {
  /* a call that only reads: what was asked is here; a step: nothing for this
     step */
  JAMBPEPPER_GIVEN = 0,
  JAMBPEPPER_NOTHING_FOR_THIS_STEP = 0,
  /* the steps' other answers that refuse nothing */
  JAMBPEPPER_BYTES_KEPT = 1,
  JAMBPEPPER_DELIVERED = 2,
  /* refusals: in a refused answer all other numbers are 0, save where a line
     says otherwise */
  JAMBPEPPER_PACKET_SIZE = 3,              /* packet not 188 bytes */
  JAMBPEPPER_NO_SYNC_BYTE = 4,             /* no 0x47 */
  JAMBPEPPER_BUFFER_SIZE = 5,              /* buffer not 1,024 bytes */
  JAMBPEPPER_NO_PAYLOAD = 6,               /* adaptation field control gives no payload */
  JAMBPEPPER_PAYLOAD_EMPTY = 7,            /* payload start is 188 */
  JAMBPEPPER_PAYLOAD_BEYOND = 8,           /* payload start above 188 */
  JAMBPEPPER_POINTER_BEYOND_REST = 9,      /* pointer beyond the rest of the payload */
  JAMBPEPPER_UNDER_3_BYTES = 10,           /* under 3 bytes of a section */
  JAMBPEPPER_SYNTAX_INDICATOR = 11,        /* syntax indicator not as the form needs it */
  JAMBPEPPER_UNDER_8_BYTES = 12,           /* under 8 bytes of a section */
  JAMBPEPPER_LENGTH_ABOVE_1021 = 13,       /* section_length above 1,021 */
  JAMBPEPPER_ALREADY_DELIVERED = 14,       /* ONCE: section already delivered */
  JAMBPEPPER_NO_SECTION_OPEN = 15,         /* bytes that continue no section */
  JAMBPEPPER_SECTION_UNDER_12 = 16,        /* whole section under 12 bytes */
  JAMBPEPPER_CRC_NOT_ZERO = 17,            /* CRC remainder not zero */
  JAMBPEPPER_NO_ADAPTATION_FIELD = 18,     /* no adaptation field */
  JAMBPEPPER_ADAPTATION_FIELD_LENGTH = 19, /* adaptation field length wrong */
  JAMBPEPPER_FLAG_CLEAR = 20,              /* optional part's flag clear */
  JAMBPEPPER_FIELD_ENDS_BEFORE = 21,       /* field ends before the part does */
  JAMBPEPPER_PMT_TOO_SHORT = 22,           /* PMT body too short; needed and actual are told */
  JAMBPEPPER_WALK_AT_END = 23,             /* walk at its end */
  JAMBPEPPER_PAT_TAIL = 24,                /* under 4 bytes left for a program; offset is told */
  JAMBPEPPER_STATE_NOT_SOUND = 25,         /* state not sound */
  JAMBPEPPER_POSITION_ABOVE_LENGTH = 26,   /* position above the body's length */
  JAMBPEPPER_STREAM_UNDER_5 = 27,          /* under 5 bytes left for a stream; offset is told */
  JAMBPEPPER_INFO_PAST_END = 28            /* stream info past the body's end; offset is told */
};

/* ---- sizes */

enum {
  JAMBPEPPER_PACKET_BYTES = 188,  /* of every packet */
  JAMBPEPPER_BUFFER_BYTES = 1024, /* of the buffer lent to a step */
  JAMBPEPPER_MEMORY_WORDS = 5,    /* of the memory lent to a step of ONCE */
  JAMBPEPPER_PAT_PID = 0          /* where a PAT is found */
};

/* ---- packets: a flag is 1 where it is set, else 0 */

typedef struct {
  uint16_t pid;
  uint8_t transport_error_indicator;
  uint8_t payload_unit_start_indicator;
  uint8_t transport_priority;
  uint8_t transport_scrambling_control;
  uint8_t adaptation_field_control;
  uint8_t continuity_counter;
  uint8_t answer; /* 0, 3, 4 */
} JambpepperHeader;

typedef struct {
  size_t start;   /* the payload goes on from here to the packet's end */
  uint8_t answer; /* 0, 3, 4, 6, 7, 8 */
} JambpepperPayload;

JambpepperHeader jambpepper_header(const uint8_t *packet, size_t packet_length);

JambpepperPayload jambpepper_payload(const uint8_t *packet, size_t packet_length);

/* 1 where counter follows other, else 0; 0 where one of them is above 15 */
uint8_t jambpepper_counter_follows(uint8_t counter, uint8_t other);

/* ---- adaptation fields */

typedef struct {
  uint8_t adaptation_field_length;
  uint8_t discontinuity_indicator;
  uint8_t random_access_indicator;
  uint8_t elementary_stream_priority_indicator;
  uint8_t pcr_flag;
  uint8_t opcr_flag;
  uint8_t splicing_point_flag;
  uint8_t transport_private_data_flag;
  uint8_t adaptation_field_extension_flag;
  uint8_t answer; /* 0, 3, 4, 18, 19 */
} JambpepperAdaptationField;

typedef struct {
  uint64_t base;      /* 33 bits */
  uint16_t extension; /* 9 bits: 300 to 511 are given as they stand */
  uint8_t answer;     /* 0, 3, 4, 18 to 21 */
} JambpepperClock;

typedef struct {
  uint8_t splice_countdown; /* the byte as it stands */
  uint8_t answer;           /* 0, 3, 4, 18 to 21 */
} JambpepperSpliceCountdown;

/* a part of the bytes that a call was lent */
typedef struct {
  size_t start;
  size_t length;
  uint8_t answer;
} JambpepperPart;

JambpepperAdaptationField jambpepper_adaptation_field(const uint8_t *packet, size_t packet_length);

JambpepperClock jambpepper_pcr(const uint8_t *packet, size_t packet_length);

JambpepperClock jambpepper_opcr(const uint8_t *packet, size_t packet_length);

JambpepperSpliceCountdown jambpepper_splice_countdown(const uint8_t *packet, size_t packet_length);

/* where the private data lies in the packet; answers 0, 3, 4, 18 to 21 */
JambpepperPart jambpepper_transport_private_data(const uint8_t *packet, size_t packet_length);

/* ---- sections */

typedef struct {
  uint16_t section_length;
  uint8_t table_id;
  uint8_t section_syntax_indicator;
  uint8_t private_indicator;
  uint8_t answer; /* 0, 10 */
} JambpepperSectionHeader;

typedef struct {
  uint16_t id;
  uint8_t version;
  uint8_t current_next_indicator; /* 1 current, 0 next */
  uint8_t section_number;
  uint8_t last_section_number;
  uint8_t answer; /* 0, 12 */
} JambpepperTableHeader;

JambpepperSectionHeader jambpepper_section_header(const uint8_t *section, size_t section_length);

JambpepperTableHeader jambpepper_table_header(const uint8_t *section, size_t section_length);

/* where the body lies in the section; answers 0, 16 */
JambpepperPart jambpepper_body(const uint8_t *section, size_t section_length);

/* the CRC of ISO/IEC 13818-1, Annex A; 0 over a section that ends with its CRC
 */
uint32_t jambpepper_sum32(const uint8_t *data, size_t data_length);

/* ---- the walks: start at 0, or where a PMT's streams start, and hand each
 * `next` back, until the answer is not 0: 23 at the end, or, where bytes are
 * left that are no entry, 24, 27 or 28 with their `offset` in the body */

typedef struct {
  size_t next;
  size_t offset;           /* where the entry stands that does not fit: told by 24, else 0 */
  uint16_t program_number; /* 0 for the network */
  uint16_t pid;
  uint8_t answer; /* 0, 23, 24, 26 */
} JambpepperProgram;

typedef struct {
  size_t descriptors_start;
  size_t descriptors_length;
  size_t streams; /* where the streams start */
  size_t needed;  /* needed and actual: lengths that 22 tells, else 0 */
  size_t actual;
  uint16_t pcr_pid;
  uint8_t answer; /* 0, 22 */
} JambpepperPmt;

typedef struct {
  size_t info_start;
  size_t info_length;
  size_t next;
  size_t offset; /* where the entry stands that does not fit: told by 27 and 28, else 0 */
  uint16_t elementary_pid;
  uint8_t stream_type;
  uint8_t answer; /* 0, 23, 26, 27, 28 */
} JambpepperStream;

JambpepperProgram jambpepper_program_at(const uint8_t *body, size_t body_length, size_t position);

JambpepperPmt jambpepper_pmt_start(const uint8_t *body, size_t body_length);

JambpepperStream jambpepper_stream_at(const uint8_t *body, size_t body_length, size_t position);

/* ---- gathering: one reader a PID, each packet worked tail, then head */

enum {
  JAMBPEPPER_COMPACT = 0, /* sections without the long header; no CRC */
  JAMBPEPPER_FULL = 1,    /* sections with it, the CRC tested */
  JAMBPEPPER_ONCE = 2     /* as FULL, each section once */
};

/* The state, without what ONCE remembers. The steps answer 25 to one that is not
 * sound, and to a form above 2, a flag above 1 or reserved bytes other than 0. */
typedef struct {
  uint8_t form;
  uint8_t is_open;   /* 1 where a section is open, else 0 */
  uint16_t held;     /* the bytes of it that the buffer holds, else 0 */
  uint16_t wanted;   /* the bytes that it has, else 0 */
  uint16_t reserved; /* 0; with it a state is 8 bytes, which are moved at once */
} JambpepperReader;

/*
 * What ONCE remembers: the four numbers that the sections it delivered last have
 * in common, and a mark for the number of each. It is lent to the steps beside
 * the state, as the buffer is: JAMBPEPPER_MEMORY_WORDS words, all 0 for a fresh
 * reader, then handed back untouched. COMPACT and FULL remember nothing and are
 * lent NULL and 0. (In the state it would make 48 bytes, which go through the
 * stack in each call, in these forms too.)
 *
 * The steps answer 25 to any other count of words, to numbers with a bit set above
 * those named here, and to numbers other than 0 without a mark.
 */
enum {
  /* table_id in bits 0 (the lowest) to 7, id in bits 8 to 23,
     current_next_indicator in bit 24, version in bits 25 to 29 */
  JAMBPEPPER_MEMORY_NUMBERS = 0,
  /* and the words behind it: section number n is marked in word 1 + n / 64, by
     bit n % 64 */
  JAMBPEPPER_MEMORY_MARKS = 1
};

enum { JAMBPEPPER_NOWHERE = 0, JAMBPEPPER_IN_PACKET = 1, JAMBPEPPER_IN_BUFFER = 2 };

/* where a delivered section lies */
typedef struct {
  uint16_t start;
  uint16_t length;
  uint8_t holder;
} JambpepperPlace;

typedef struct {
  JambpepperReader reader; /* the state after the step */
  JambpepperPlace place;
  uint8_t answer; /* 0 to 17, 25 */
} JambpepperStep;

/* a state that has read nothing, for a memory that is all 0; with a form above 2
 * it is not sound */
JambpepperReader jambpepper_fresh(uint8_t form);

/* 1 where the steps take this state with this memory, else 0 */
uint8_t jambpepper_is_sound(JambpepperReader reader, const uint64_t *memory, size_t memory_words);

/* what the packet holds of the section that is open */
JambpepperStep jambpepper_tail(JambpepperReader reader, uint64_t *memory, size_t memory_words,
                               const uint8_t *packet, size_t packet_length, uint8_t *buffer,
                               size_t buffer_length);

/* the section that starts in the packet */
JambpepperStep jambpepper_head(JambpepperReader reader, uint64_t *memory, size_t memory_words,
                               const uint8_t *packet, size_t packet_length, uint8_t *buffer,
                               size_t buffer_length);

/*
 * The place, where the answer is 2 and the place has bytes that lie within those lent; else
 * nowhere, of length 0. (A step's own place always lies within the bytes that the step was lent.)
 */
JambpepperPlace jambpepper_section(const uint8_t *packet, size_t packet_length,
                                   const uint8_t *buffer, size_t buffer_length, uint8_t answer,
                                   JambpepperPlace place);

/* The first byte of a place: one that jambpepper_section gave for these bytes, or a step's own
 * where it delivered. NULL where the place has length 0, as nowhere has; it may be lent with that
 * length. */
static inline const uint8_t *jambpepper_section_bytes(JambpepperPlace place, const uint8_t *packet,
                                                      const uint8_t *buffer) {
  if (place.length == 0)
    return NULL; /* and nothing is added: a null pointer plus 0 is undefined in C */
  return (place.holder == JAMBPEPPER_IN_BUFFER ? buffer : packet) + place.start;
}

#ifdef __cplusplus
}
#endif

#endif
