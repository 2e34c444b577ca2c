/*
 * calls: every function of include/jambpepper.h, called from C (or C++) on inputs whose answers
 * follow from docs/RULES.md. Every number of every struct, and every word of a memory, is looked at
 * with a value of its own, so that one laid out otherwise on the two sides is noticed. A difference
 * is printed, and the exit status is 1.
 */
#include "jambpepper.h"
#include <stdio.h>
#include <stdlib.h>
#include <string.h>

static int differences;

static void compare(int line, const char *asked, unsigned long long answered,
                    unsigned long long due) {
  if (answered == due)
    return;
  printf("line %d: %s is %llu, due is %llu\n", line, asked, answered, due);
  differences++;
}

#define SAME(asked, due) compare(__LINE__, #asked, (asked), (due))

/* All bytes are lent from the heap, in blocks of just their length: valgrind notices a call that
 * goes beyond. */
static uint8_t *lent;
static uint8_t *packet;
static uint8_t *buffer;
static uint64_t *memory;
static size_t memory_words;

static void *block(size_t length) {
  void *bytes = malloc(length == 0 ? 1 : length);

  if (bytes == NULL) {
    fprintf(stderr, "calls: no memory\n");
    exit(1);
  }
  return bytes;
}

static const uint8_t *lend(const char *text, size_t length) {
  free(lent);
  lent = (uint8_t *)block(length);
  memcpy(lent, text, length);
  return lent;
}

/* pointer and length: of a text, and of what is lent */
#define TEXT(text) text, sizeof(text) - 1
#define BYTES(text) lend(TEXT(text)), sizeof(text) - 1
#define PACKET packet, (size_t)JAMBPEPPER_PACKET_BYTES
#define BUFFER buffer, (size_t)JAMBPEPPER_BUFFER_BYTES
#define MEMORY memory, memory_words
/* nothing, as C lends it: the machine stops a call that reads or writes there */
#define NOTHING NULL, (size_t)0

/* the packet: these bytes, then 0xff */
static void packet_from(const char *text, size_t length) {
  memset(packet, 0xff, JAMBPEPPER_PACKET_BYTES);
  memcpy(packet, text, length);
}

/* control 11 with this adaptation field length */
static void packet_with_length(uint8_t length) {
  packet_from(TEXT("\x47\x00\x00\x30"));
  packet[4] = length;
}

static void headers(void) {
  JambpepperHeader header;

  packet_from(TEXT("\x47\x40\x00\x10")); /* case 1 */
  header = jambpepper_header(PACKET);
  SAME(header.answer, 0);
  SAME(header.payload_unit_start_indicator, 1);
  SAME(header.pid, 0);
  SAME(header.adaptation_field_control, 1);
  SAME(header.continuity_counter, 0);

  packet_from(TEXT("\x47\x1f\xff\x10")); /* case 2 */
  header = jambpepper_header(PACKET);
  SAME(header.payload_unit_start_indicator, 0);
  SAME(header.pid, 8191);

  packet_from(TEXT("\x47\xa1\x02\xb9"));
  header = jambpepper_header(PACKET);
  SAME(header.answer, 0);
  SAME(header.transport_error_indicator, 1);
  SAME(header.payload_unit_start_indicator, 0);
  SAME(header.transport_priority, 1);
  SAME(header.pid, 0x0102);
  SAME(header.transport_scrambling_control, 2);
  SAME(header.adaptation_field_control, 3);
  SAME(header.continuity_counter, 9);

  header = jambpepper_header(packet, 187);
  SAME(header.answer, JAMBPEPPER_PACKET_SIZE);
  SAME(header.pid, 0);
  SAME(header.transport_error_indicator, 0);
  SAME(header.continuity_counter, 0);
  SAME(jambpepper_header(packet, 0).answer, JAMBPEPPER_PACKET_SIZE);
  packet[0] = 0x48;
  SAME(jambpepper_header(PACKET).answer, JAMBPEPPER_NO_SYNC_BYTE);
}

static void counters(void) {
  SAME(jambpepper_counter_follows(8, 7), 1);
  SAME(jambpepper_counter_follows(7, 8), 0);
  SAME(jambpepper_counter_follows(0, 15), 1);
  SAME(jambpepper_counter_follows(16, 15), 0);
  SAME(jambpepper_counter_follows(0, 255), 0);
}

static void payloads(void) {
  JambpepperPayload payload;

  packet_with_length(0); /* case 3 */
  payload = jambpepper_payload(PACKET);
  SAME(payload.answer, 0);
  SAME(payload.start, 5);
  SAME(jambpepper_adaptation_field(PACKET).answer, JAMBPEPPER_NO_ADAPTATION_FIELD);

  packet_with_length(182); /* case 4 */
  payload = jambpepper_payload(PACKET);
  SAME(payload.answer, 0);
  SAME(payload.start, 187);
  SAME(jambpepper_adaptation_field(PACKET).answer, 0);

  packet_with_length(183); /* case 5 */
  payload = jambpepper_payload(PACKET);
  SAME(payload.answer, JAMBPEPPER_PAYLOAD_EMPTY);
  SAME(payload.start, 0);
  SAME(jambpepper_adaptation_field(PACKET).answer, JAMBPEPPER_ADAPTATION_FIELD_LENGTH);

  packet_with_length(184); /* case 6 */
  SAME(jambpepper_payload(PACKET).answer, JAMBPEPPER_PAYLOAD_BEYOND);

  packet_from(TEXT("\x47\x00\x00\x20"));
  SAME(jambpepper_payload(PACKET).answer, JAMBPEPPER_NO_PAYLOAD);
  SAME(jambpepper_payload(packet, 0).answer, JAMBPEPPER_PACKET_SIZE);
}

static void adaptation_fields(void) {
  JambpepperAdaptationField field;
  int flag;

  packet_from(TEXT("\x47\x00\x00\x30\x02"));
  for (flag = 0; flag < 8; flag++) { /* one set, from bit 7 down */
    packet[5] = (uint8_t)(0x80 >> flag);
    field = jambpepper_adaptation_field(PACKET);
    SAME(field.answer, 0);
    SAME(field.adaptation_field_length, 2);
    SAME(field.discontinuity_indicator, flag == 0);
    SAME(field.random_access_indicator, flag == 1);
    SAME(field.elementary_stream_priority_indicator, flag == 2);
    SAME(field.pcr_flag, flag == 3);
    SAME(field.opcr_flag, flag == 4);
    SAME(field.splicing_point_flag, flag == 5);
    SAME(field.transport_private_data_flag, flag == 6);
    SAME(field.adaptation_field_extension_flag, flag == 7);
  }
  field = jambpepper_adaptation_field(packet, 0);
  SAME(field.answer, JAMBPEPPER_PACKET_SIZE);
  SAME(field.adaptation_field_length, 0);
}

static void adaptation_parts(void) {
  JambpepperClock clock;
  JambpepperSpliceCountdown countdown;
  JambpepperPart part;

  packet_from(TEXT("\x47\x00\x00\x20\xb7\x10\x00\x00\x00\x00\x80\x00")); /* case 16 */
  clock = jambpepper_pcr(PACKET);
  SAME(clock.answer, 0);
  SAME(clock.base, 1);
  SAME(clock.extension, 0);
  SAME(jambpepper_opcr(PACKET).answer, JAMBPEPPER_FLAG_CLEAR);
  SAME(jambpepper_splice_countdown(PACKET).answer, JAMBPEPPER_FLAG_CLEAR);
  SAME(jambpepper_transport_private_data(PACKET).answer, JAMBPEPPER_FLAG_CLEAR);

  /* PCR, OPCR, splice countdown 128, two private bytes */
  packet_from(TEXT("\x47\x00\x00\x30\x11\x1e\x00\x00\x00\x00\x80\x03\xff\xff\xff\xff\xfe\x2c\x80"
                   "\x02\x07\x08"));
  clock = jambpepper_pcr(PACKET);
  SAME(clock.base, 1);
  SAME(clock.extension, 3);
  clock = jambpepper_opcr(PACKET);
  SAME(clock.answer, 0);
  SAME(clock.base, 0x1ffffffff);
  SAME(clock.extension, 0x02c);
  countdown = jambpepper_splice_countdown(PACKET);
  SAME(countdown.answer, 0);
  SAME(countdown.splice_countdown, 128);
  part = jambpepper_transport_private_data(PACKET);
  SAME(part.answer, 0);
  SAME(part.start, 20);
  SAME(part.length, 2);

  packet[4] = 1; /* the flags alone */
  clock = jambpepper_pcr(PACKET);
  SAME(clock.answer, JAMBPEPPER_FIELD_ENDS_BEFORE);
  SAME(clock.base, 0);
  SAME(clock.extension, 0);
  SAME(jambpepper_opcr(PACKET).answer, JAMBPEPPER_FIELD_ENDS_BEFORE);
  SAME(jambpepper_splice_countdown(PACKET).answer, JAMBPEPPER_FIELD_ENDS_BEFORE);
  SAME(jambpepper_transport_private_data(PACKET).answer, JAMBPEPPER_FIELD_ENDS_BEFORE);

  SAME(jambpepper_pcr(packet, 0).answer, JAMBPEPPER_PACKET_SIZE);
  SAME(jambpepper_opcr(packet, 0).answer, JAMBPEPPER_PACKET_SIZE);
  SAME(jambpepper_splice_countdown(packet, 0).answer, JAMBPEPPER_PACKET_SIZE);
  SAME(jambpepper_transport_private_data(packet, 0).answer, JAMBPEPPER_PACKET_SIZE);
}

static void sections(void) {
  JambpepperSectionHeader header;
  JambpepperTableHeader table;
  JambpepperPart body;

  header = jambpepper_section_header(BYTES("\x00\xb0\x0d")); /* case 7 */
  SAME(header.answer, 0);
  SAME(header.table_id, 0);
  SAME(header.section_syntax_indicator, 1);
  SAME(header.private_indicator, 0);
  SAME(header.section_length, 13);
  header = jambpepper_section_header(BYTES("\x02\x73\xfd"));
  SAME(header.table_id, 2);
  SAME(header.section_syntax_indicator, 0);
  SAME(header.private_indicator, 1);
  SAME(header.section_length, 1021);
  SAME(jambpepper_section_header(BYTES("\x02\x73")).answer, JAMBPEPPER_UNDER_3_BYTES);
  SAME(jambpepper_section_header(BYTES("")).answer, JAMBPEPPER_UNDER_3_BYTES);

  table = jambpepper_table_header(BYTES("\x00\xb0\x0d\x01\x02\xc1\x03\x04")); /* case 9 */
  SAME(table.answer, 0);
  SAME(table.id, 0x0102);
  SAME(table.version, 0);
  SAME(table.current_next_indicator, 1);
  SAME(table.section_number, 3);
  SAME(table.last_section_number, 4);
  table = jambpepper_table_header(BYTES("\x00\xb0\x0d\x01\x02\xc2\x03\x04"));
  SAME(table.version, 1);
  SAME(table.current_next_indicator, 0);
  table = jambpepper_table_header(BYTES("\x00\xb0\x0d\x01\x02\xc1\x03"));
  SAME(table.answer, JAMBPEPPER_UNDER_8_BYTES);
  SAME(table.id, 0);
  SAME(jambpepper_table_header(BYTES("")).answer, JAMBPEPPER_UNDER_8_BYTES);

  body = jambpepper_body(packet, 17);
  SAME(body.answer, 0);
  SAME(body.start, 8);
  SAME(body.length, 5);
  body = jambpepper_body(packet, 11);
  SAME(body.answer, JAMBPEPPER_SECTION_UNDER_12);
  SAME(body.start, 0);
  SAME(body.length, 0);
  SAME(jambpepper_body(packet, 0).answer, JAMBPEPPER_SECTION_UNDER_12);
}

static void sums(void) {
  SAME(jambpepper_sum32(BYTES("")), 0xffffffff);        /* case 11 */
  SAME(jambpepper_sum32(BYTES("\x00")), 0x4e08bfb4);    /* case 12 */
  SAME(jambpepper_sum32(BYTES("\xff")), 0xffffff00);    /* case 12 */
  SAME(jambpepper_sum32(BYTES("\xff\xff\xff\xff")), 0); /* case 13 */
}

/* this answer, this offset and no entry */
static void no_program(int line, JambpepperProgram program, uint8_t answer, size_t offset) {
  compare(line, "program.answer", program.answer, answer);
  compare(line, "program.offset", program.offset, offset);
  compare(line, "program.next", program.next, 0);
  compare(line, "program.program_number", program.program_number, 0);
  compare(line, "program.pid", program.pid, 0);
}

static void no_stream(int line, JambpepperStream stream, uint8_t answer, size_t offset) {
  compare(line, "stream.answer", stream.answer, answer);
  compare(line, "stream.offset", stream.offset, offset);
  compare(line, "stream.info_start", stream.info_start, 0);
  compare(line, "stream.info_length", stream.info_length, 0);
  compare(line, "stream.next", stream.next, 0);
  compare(line, "stream.elementary_pid", stream.elementary_pid, 0);
  compare(line, "stream.stream_type", stream.stream_type, 0);
}

#define NO_PROGRAM(text, position, answer, offset)                                                 \
  no_program(__LINE__, jambpepper_program_at(BYTES(text), position), answer, offset)
#define NO_STREAM(text, position, answer, offset)                                                  \
  no_stream(__LINE__, jambpepper_stream_at(BYTES(text), position), answer, offset)

static void programs(void) {
  JambpepperProgram program;

  program = jambpepper_program_at(BYTES("\x00\x01\xe1\x00"), 0); /* case 14 */
  SAME(program.answer, 0);
  SAME(program.program_number, 1);
  SAME(program.pid, 256);
  SAME(program.next, 4);
  SAME(program.offset, 0);
  program = jambpepper_program_at(BYTES("\x00\x01\xe1\x00\x00\x00\xe0\x10"), 4);
  SAME(program.answer, 0);
  SAME(program.program_number, 0);
  SAME(program.pid, 16);
  SAME(program.next, 8);
  SAME(program.offset, 0);

  NO_PROGRAM("\x00\x01\xe1", 0, JAMBPEPPER_PAT_TAIL, 0);
  NO_PROGRAM("\x00\x01\xe1\x00\x00", 4, JAMBPEPPER_PAT_TAIL, 4);
  NO_PROGRAM("\x00\x01\xe1\x00\x00\x02\xe2", 4, JAMBPEPPER_PAT_TAIL, 4);
  NO_PROGRAM("\x00\x01\xe1\x00", 1, JAMBPEPPER_PAT_TAIL, 1);
  NO_PROGRAM("\x00\x01\xe1\x00", 4, JAMBPEPPER_WALK_AT_END, 0);
  NO_PROGRAM("\x00\x01\xe1\x00", 5, JAMBPEPPER_POSITION_ABOVE_LENGTH, 0);
  NO_PROGRAM("", 0, JAMBPEPPER_WALK_AT_END, 0);
  NO_PROGRAM("", 1, JAMBPEPPER_POSITION_ABOVE_LENGTH, 0);
  NO_PROGRAM("", SIZE_MAX, JAMBPEPPER_POSITION_ABOVE_LENGTH, 0);
}

static void maps(void) {
  JambpepperPmt pmt;
  JambpepperStream stream;

  pmt = jambpepper_pmt_start(BYTES("\xe1\x00\xf0\x02\x01\x02"));
  SAME(pmt.answer, 0);
  SAME(pmt.pcr_pid, 256);
  SAME(pmt.descriptors_start, 4);
  SAME(pmt.descriptors_length, 2);
  SAME(pmt.streams, 6);
  SAME(pmt.needed, 0);
  SAME(pmt.actual, 0);
  pmt = jambpepper_pmt_start(BYTES("\xe1\x00\xf0\x02\x01"));
  SAME(pmt.answer, JAMBPEPPER_PMT_TOO_SHORT);
  SAME(pmt.needed, 6);
  SAME(pmt.actual, 5);
  SAME(pmt.pcr_pid, 0);
  SAME(pmt.descriptors_start, 0);
  SAME(pmt.descriptors_length, 0);
  SAME(pmt.streams, 0);
  pmt = jambpepper_pmt_start(BYTES(""));
  SAME(pmt.needed, 4);
  SAME(pmt.actual, 0);

  stream = jambpepper_stream_at(BYTES("\x1b\xe1\x01\xf0\x00"), 0); /* case 15 */
  SAME(stream.answer, 0);
  SAME(stream.stream_type, 27);
  SAME(stream.elementary_pid, 257);
  SAME(stream.info_start, 5);
  SAME(stream.info_length, 0);
  SAME(stream.next, 5);
  SAME(stream.offset, 0);
  /* its info ends with the body */
  stream = jambpepper_stream_at(BYTES("\x00\x0f\xe1\x02\xf0\x03\x07\x08\x09"), 1);
  SAME(stream.answer, 0);
  SAME(stream.stream_type, 15);
  SAME(stream.elementary_pid, 258);
  SAME(stream.info_start, 6);
  SAME(stream.info_length, 3);
  SAME(stream.next, 9);
  SAME(stream.offset, 0);
}

static void streams_that_do_not_fit(void) {
  NO_STREAM("\x0f\xe1\x02\xf0\x03\x07\x08", 0, JAMBPEPPER_INFO_PAST_END, 0);
  /* behind a stream: five bytes left, four, one, none */
  NO_STREAM("\x1b\xe1\x01\xf0\x00\x0f\xe1\x02\xf0\x01", 5, JAMBPEPPER_INFO_PAST_END, 5);
  NO_STREAM("\x1b\xe1\x01\xf0\x00\x0f\xe1\x02\xf0", 5, JAMBPEPPER_STREAM_UNDER_5, 5);
  NO_STREAM("\x1b\xe1\x01\xf0\x00\x0f", 5, JAMBPEPPER_STREAM_UNDER_5, 5);
  NO_STREAM("\x1b\xe1\x01\xf0\x00", 5, JAMBPEPPER_WALK_AT_END, 0);
  /* within a stream, and beyond the body */
  NO_STREAM("\x1b\xe1\x01\xf0\x01\x07", 1, JAMBPEPPER_INFO_PAST_END, 1);
  NO_STREAM("\x1b\xe1\x01\xf0\x00", 1, JAMBPEPPER_STREAM_UNDER_5, 1);
  NO_STREAM("\x1b\xe1\x01\xf0\x00", 6, JAMBPEPPER_POSITION_ABOVE_LENGTH, 0);
  NO_STREAM("", 0, JAMBPEPPER_WALK_AT_END, 0);
  NO_STREAM("", 1, JAMBPEPPER_POSITION_ABOVE_LENGTH, 0);
}

static void same_state(int line, JambpepperReader answered, JambpepperReader expected) {
  compare(line, "reader.form", answered.form, expected.form);
  compare(line, "reader.is_open", answered.is_open, expected.is_open);
  compare(line, "reader.held", answered.held, expected.held);
  compare(line, "reader.wanted", answered.wanted, expected.wanted);
  compare(line, "reader.reserved", answered.reserved, expected.reserved);
}

static void same_reader(int line, JambpepperReader answered, uint8_t form, uint8_t is_open,
                        uint16_t held, uint16_t wanted) {
  JambpepperReader expected;

  memset(&expected, 0, sizeof expected);
  expected.form = form;
  expected.is_open = is_open;
  expected.held = held;
  expected.wanted = wanted;
  same_state(line, answered, expected);
}

static void same_place(int line, JambpepperPlace answered, uint8_t holder, uint16_t start,
                       uint16_t length) {
  compare(line, "place.holder", answered.holder, holder);
  compare(line, "place.start", answered.start, start);
  compare(line, "place.length", answered.length, length);
}

/* the words of a memory, and one more */
typedef struct {
  uint64_t at[JAMBPEPPER_MEMORY_WORDS + 1];
} Words;

static const Words none = {{0}};

/* these four, and the mark of section number 0 */
static Words marked(uint64_t table_id, uint64_t id, uint64_t version, uint64_t current) {
  Words words = {{table_id | id << 8 | current << 24 | version << 25, 1}};

  return words;
}

/* so many of the words are what the steps are lent as memory from here on */
static void lend_memory(Words words, size_t count) {
  free(memory);
  memory = NULL;
  memory_words = count;
  if (count == 0)
    return;
  memory = (uint64_t *)block(count * sizeof *memory);
  memcpy(memory, words.at, count * sizeof *memory);
}

static void same_memory(int line, Words due) {
  size_t at;

  for (at = 0; at < memory_words; at++)
    compare(line, "memory[at]", memory[at], due.at[at]);
}

static void same_buffer(int line, uint8_t due) {
  size_t at;

  for (at = 0; at < JAMBPEPPER_BUFFER_BYTES; at++)
    compare(line, "buffer[at]", buffer[at], due);
}

/* A fresh state, and the memory that is lent beside it: none but for ONCE. (Not called among the
 * arguments of a step: they are computed in any order.) */
static JambpepperReader fresh(uint8_t form) {
  lend_memory(none, form == JAMBPEPPER_ONCE ? JAMBPEPPER_MEMORY_WORDS : 0);
  return jambpepper_fresh(form);
}

static void states(void) {
  JambpepperReader reader;
  uint8_t form;

  SAME(sizeof(JambpepperReader), 8);
  SAME(sizeof(JambpepperStep), 16);
  for (form = JAMBPEPPER_COMPACT; form <= JAMBPEPPER_ONCE; form++) {
    reader = fresh(form);
    same_reader(__LINE__, reader, form, 0, 0, 0);
    SAME(jambpepper_is_sound(reader, MEMORY), 1);
  }
  same_reader(__LINE__, jambpepper_fresh(3), 3, 0, 0, 0);
  same_reader(__LINE__, jambpepper_fresh(255), 255, 0, 0, 0);

  reader = fresh(JAMBPEPPER_ONCE);
  reader.is_open = 1;
  reader.held = 8;
  reader.wanted = 1024;
  SAME(jambpepper_is_sound(reader, MEMORY), 1);
  lend_memory(marked(255, 65535, 31, 1), JAMBPEPPER_MEMORY_WORDS);
  SAME(jambpepper_is_sound(reader, MEMORY), 1);
  reader.wanted = 1025;
  SAME(jambpepper_is_sound(reader, MEMORY), 0);
  reader.wanted = 8; /* all held */
  SAME(jambpepper_is_sound(reader, MEMORY), 0);
  reader.wanted = 9;
  SAME(jambpepper_is_sound(reader, MEMORY), 1);
  reader.held = 7;
  SAME(jambpepper_is_sound(reader, MEMORY), 0);
}

/* the step gave this answer, the state as it was, and no section */
static void refused(int line, JambpepperStep step, JambpepperReader reader, uint8_t answer) {
  compare(line, "step.answer", step.answer, answer);
  same_state(line, step.reader, reader);
  same_place(line, step.place, JAMBPEPPER_NOWHERE, 0, 0);
}

/* a PAT of transport stream 1 with program 1 on PID 256, version 0 */
static const uint8_t pat[] = {0x00, 0xb0, 0x0d, 0x00, 0x01, 0xc1, 0x00, 0x00,
                              0x00, 0x01, 0xe1, 0x00, 0xe8, 0xf9, 0x5e, 0x7d};

/* Both steps answer 25 to this state with so many of these words, and leave all as it was. The
 * packet is one that a sound state takes: an open one lays five bytes into the buffer in the tail
 * step, and ONCE remembers the PAT in the head step. */
static void unsound(int line, JambpepperReader reader, Words words, size_t count) {
  lend_memory(words, count);
  memset(buffer, 0xaa, JAMBPEPPER_BUFFER_BYTES);
  packet_from(TEXT("\x47\x40\x00\x10\x05\x01\x02\x03\x04\x05"));
  memcpy(packet + 10, pat, sizeof pat);
  compare(line, "is_sound", jambpepper_is_sound(reader, MEMORY), 0);
  refused(line, jambpepper_tail(reader, MEMORY, PACKET, BUFFER), reader,
          JAMBPEPPER_STATE_NOT_SOUND);
  refused(line, jambpepper_head(reader, MEMORY, PACKET, BUFFER), reader,
          JAMBPEPPER_STATE_NOT_SOUND);
  same_memory(line, words);
  same_buffer(line, 0xaa);
}

/* 25 stands in its place for this state and the memory that is lent: before 6, behind 5, 4 and 3 */
static void unsound_in_its_place(int line, JambpepperReader reader) {
  packet_from(TEXT("\x47\x40\x00\x20\xb7\x00"));
  refused(line, jambpepper_tail(reader, MEMORY, PACKET, BUFFER), reader,
          JAMBPEPPER_STATE_NOT_SOUND);
  refused(line, jambpepper_head(reader, MEMORY, PACKET, BUFFER), reader,
          JAMBPEPPER_STATE_NOT_SOUND);
  refused(line, jambpepper_head(reader, MEMORY, PACKET, buffer, 1023), reader,
          JAMBPEPPER_BUFFER_SIZE);
  refused(line, jambpepper_tail(reader, MEMORY, PACKET, buffer, 0), reader, JAMBPEPPER_BUFFER_SIZE);
  packet[0] = 0;
  refused(line, jambpepper_tail(reader, MEMORY, PACKET, buffer, 0), reader,
          JAMBPEPPER_NO_SYNC_BYTE);
  refused(line, jambpepper_tail(reader, MEMORY, packet, 0, buffer, 0), reader,
          JAMBPEPPER_PACKET_SIZE);
  refused(line, jambpepper_head(reader, MEMORY, packet, 0, buffer, 0), reader,
          JAMBPEPPER_PACKET_SIZE);
}

static void unsound_states(void) {
  JambpepperReader reader;
  uint8_t form;

  for (form = JAMBPEPPER_COMPACT; form <= JAMBPEPPER_ONCE; form++) {
    reader = fresh(form);
    reader.is_open = 2;
    reader.held = 8;
    reader.wanted = 1024;
    unsound(__LINE__, reader, none, memory_words);
    reader = fresh(form);
    reader.reserved = 1;
    unsound(__LINE__, reader, none, memory_words);
    reader.reserved = 0x8000;
    unsound(__LINE__, reader, none, memory_words);
  }
  unsound(__LINE__, jambpepper_fresh(3), none, 0);
  unsound(__LINE__, jambpepper_fresh(3), none, JAMBPEPPER_MEMORY_WORDS);
  unsound(__LINE__, jambpepper_fresh(255), none, 0);
  unsound_in_its_place(__LINE__, fresh(3));
}

/* words of a memory that ONCE would take, but not so many of them */
static void unsound_counts(void) {
  static const size_t not_of_once[] = {0, 1, 4, 6};
  static const size_t not_of_others[] = {1, 4, 5, 6};
  JambpepperReader once = jambpepper_fresh(JAMBPEPPER_ONCE);
  JambpepperReader full = jambpepper_fresh(JAMBPEPPER_FULL);
  JambpepperReader compact = jambpepper_fresh(JAMBPEPPER_COMPACT);
  size_t at;

  for (at = 0; at < 4; at++) {
    unsound(__LINE__, once, none, not_of_once[at]);
    unsound(__LINE__, once, marked(2, 212, 4, 1), not_of_once[at]);
    unsound_in_its_place(__LINE__, once);
    unsound(__LINE__, full, none, not_of_others[at]);
    unsound(__LINE__, full, marked(2, 212, 4, 1), not_of_others[at]);
    unsound_in_its_place(__LINE__, full);
    unsound(__LINE__, compact, none, not_of_others[at]);
    unsound(__LINE__, compact, marked(2, 212, 4, 1), not_of_others[at]);
  }
}

/* ONCE is sound with these words, and its steps take them */
static void sound_memory(int line, Words words) {
  JambpepperReader reader = jambpepper_fresh(JAMBPEPPER_ONCE);

  lend_memory(words, JAMBPEPPER_MEMORY_WORDS);
  compare(line, "is_sound", jambpepper_is_sound(reader, MEMORY), 1);
  packet_from(TEXT("\x47\x00\x00\x10"));
  compare(line, "tail.answer", jambpepper_tail(reader, MEMORY, PACKET, BUFFER).answer,
          JAMBPEPPER_NO_SECTION_OPEN);
  compare(line, "head.answer", jambpepper_head(reader, MEMORY, PACKET, BUFFER).answer,
          JAMBPEPPER_NOTHING_FOR_THIS_STEP);
  same_memory(line, words);
}

static void unsound_memories(void) {
  JambpepperReader reader = jambpepper_fresh(JAMBPEPPER_ONCE);
  Words words;
  int bit;
  size_t at;

  for (bit = 0; bit < 64; bit++) {
    words = none; /* no mark, but a bit of the numbers */
    words.at[JAMBPEPPER_MEMORY_NUMBERS] = (uint64_t)1 << bit;
    unsound(__LINE__, reader, words, JAMBPEPPER_MEMORY_WORDS);

    words.at[JAMBPEPPER_MEMORY_MARKS] = 1;
    if (bit < 30)
      sound_memory(__LINE__, words);
    else
      unsound(__LINE__, reader, words, JAMBPEPPER_MEMORY_WORDS);

    words = marked(2, 212, 4, 1);
    words.at[JAMBPEPPER_MEMORY_NUMBERS] |= (uint64_t)1 << bit;
    if (bit < 30)
      sound_memory(__LINE__, words);
    else
      unsound(__LINE__, reader, words, JAMBPEPPER_MEMORY_WORDS);
  }
  unsound_in_its_place(__LINE__, reader);
  sound_memory(__LINE__, marked(255, 212, 4, 1));
  sound_memory(__LINE__, marked(2, 65535, 4, 1));
  sound_memory(__LINE__, marked(2, 212, 31, 1));
  sound_memory(__LINE__, marked(255, 65535, 31, 1));
  unsound(__LINE__, reader, marked(2, 212, 32, 1), JAMBPEPPER_MEMORY_WORDS);
  unsound(__LINE__, reader, marked(255, 65535, 255, 1), JAMBPEPPER_MEMORY_WORDS);
  words = marked(0, 0, 0, 0);
  words.at[JAMBPEPPER_MEMORY_NUMBERS] = 0x3fffffff; /* all 30 bits, then one more */
  sound_memory(__LINE__, words);
  words.at[JAMBPEPPER_MEMORY_NUMBERS]++;
  unsound(__LINE__, reader, words, JAMBPEPPER_MEMORY_WORDS);
  words.at[JAMBPEPPER_MEMORY_NUMBERS] = UINT64_MAX;
  unsound(__LINE__, reader, words, JAMBPEPPER_MEMORY_WORDS);
  for (at = JAMBPEPPER_MEMORY_MARKS; at < JAMBPEPPER_MEMORY_WORDS; at++) {
    for (bit = 0; bit < 64; bit++) {
      words = none; /* one mark is enough, wherever it is */
      words.at[at] = (uint64_t)1 << bit;
      sound_memory(__LINE__, words);
    }
    words.at[JAMBPEPPER_MEMORY_NUMBERS] = (uint64_t)1 << 30;
    unsound(__LINE__, reader, words, JAMBPEPPER_MEMORY_WORDS);
  }
}

/* the head step's answer to these bytes behind unit start and pointer 0, from a fresh state */
static uint8_t start_of(uint8_t form, const char *text, size_t length) {
  JambpepperReader reader = fresh(form);

  packet_from(TEXT("\x47\x40\x00\x10\x00"));
  memcpy(packet + 5, text, length);
  return jambpepper_head(reader, MEMORY, PACKET, BUFFER).answer;
}

static void starts(void) {
  JambpepperReader reader;
  uint8_t form;

  SAME(start_of(JAMBPEPPER_FULL, TEXT("\x02\xf3\xfd")), JAMBPEPPER_BYTES_KEPT); /* case 8 */
  SAME(start_of(JAMBPEPPER_FULL, TEXT("\x02\xf3\xfe")), JAMBPEPPER_LENGTH_ABOVE_1021);
  SAME(start_of(JAMBPEPPER_FULL, TEXT("\x02\x73\xfd")), JAMBPEPPER_SYNTAX_INDICATOR);
  SAME(start_of(JAMBPEPPER_COMPACT, TEXT("\x02\xf3\xfd")), JAMBPEPPER_SYNTAX_INDICATOR);
  SAME(start_of(JAMBPEPPER_COMPACT, TEXT("\x02\x70\x00")), JAMBPEPPER_DELIVERED);
  SAME(start_of(JAMBPEPPER_ONCE, TEXT("\x02\xf0\x08")), JAMBPEPPER_SECTION_UNDER_12);
  SAME(start_of(JAMBPEPPER_ONCE, TEXT("\x02\xf0\x09")), JAMBPEPPER_CRC_NOT_ZERO);

  for (form = JAMBPEPPER_COMPACT; form <= JAMBPEPPER_ONCE; form++) { /* case 10 */
    packet_with_length(182);
    packet[1] = 0x40;
    packet[187] = 0;
    reader = fresh(form);
    SAME(jambpepper_head(reader, MEMORY, PACKET, BUFFER).answer, JAMBPEPPER_UNDER_3_BYTES);
    packet[187] = 5;
    SAME(jambpepper_head(reader, MEMORY, PACKET, BUFFER).answer, JAMBPEPPER_POINTER_BEYOND_REST);
  }
}

static void a_section_in_its_packet(void) {
  JambpepperReader reader = fresh(JAMBPEPPER_ONCE);
  JambpepperStep step;
  JambpepperPlace place;

  packet_from(TEXT("\x47\x40\x00\x10\x00"));
  memcpy(packet + 5, pat, sizeof pat);
  step = jambpepper_tail(reader, MEMORY, PACKET, BUFFER);
  SAME(step.answer, JAMBPEPPER_NOTHING_FOR_THIS_STEP);
  same_reader(__LINE__, step.reader, JAMBPEPPER_ONCE, 0, 0, 0);
  same_memory(__LINE__, none);
  step = jambpepper_head(step.reader, MEMORY, PACKET, BUFFER);
  SAME(step.answer, JAMBPEPPER_DELIVERED);
  same_reader(__LINE__, step.reader, JAMBPEPPER_ONCE, 0, 0, 0);
  same_memory(__LINE__, marked(0, 1, 0, 1));
  same_place(__LINE__, step.place, JAMBPEPPER_IN_PACKET, 5, sizeof pat);
  place = jambpepper_section(PACKET, BUFFER, step.answer, step.place);
  same_place(__LINE__, place, JAMBPEPPER_IN_PACKET, 5, sizeof pat);
  SAME(jambpepper_section_bytes(place, packet, buffer) == packet + 5, 1);
  step = jambpepper_head(step.reader, MEMORY, PACKET, BUFFER);
  SAME(step.answer, JAMBPEPPER_ALREADY_DELIVERED);
  same_memory(__LINE__, marked(0, 1, 0, 1));
}

/* the packet: the PAT's first eleven bytes, behind an adaptation field that leaves room for them */
static void packet_with_eleven_bytes(void) {
  packet_with_length(171);
  packet[1] = 0x40;
  packet[176] = 0;
  memcpy(packet + 177, pat, 11);
}

/* the same PAT, five bytes of it lacking in the first packet */
static void a_section_over_two_packets(uint8_t form) {
  JambpepperStep step;
  JambpepperPlace place;

  memset(buffer, 0xaa, JAMBPEPPER_BUFFER_BYTES);
  packet_with_eleven_bytes();
  step.reader = fresh(form);
  step = jambpepper_head(step.reader, MEMORY, PACKET, BUFFER);
  SAME(step.answer, JAMBPEPPER_BYTES_KEPT);
  same_reader(__LINE__, step.reader, form, 1, 11, 16);
  same_memory(__LINE__, none);
  same_place(__LINE__, step.place, JAMBPEPPER_NOWHERE, 0, 0);
  SAME(memcmp(buffer, pat, 11), 0);
  SAME(buffer[11], 0xaa);

  packet_from(TEXT("\x47\x00\x00\x11"));
  memcpy(packet + 4, pat + 11, 5);
  step = jambpepper_tail(step.reader, MEMORY, PACKET, BUFFER);
  SAME(step.answer, JAMBPEPPER_DELIVERED);
  same_reader(__LINE__, step.reader, form, 0, 0, 0);
  same_memory(__LINE__, marked(0, 1, 0, 1));
  same_place(__LINE__, step.place, JAMBPEPPER_IN_BUFFER, 0, 16);
  SAME(memcmp(buffer, pat, 16), 0);
  SAME(buffer[16], 0xaa);
  place = jambpepper_section(PACKET, BUFFER, step.answer, step.place);
  same_place(__LINE__, place, JAMBPEPPER_IN_BUFFER, 0, 16);
  SAME(jambpepper_section_bytes(place, packet, buffer) == buffer, 1);

  step = jambpepper_tail(step.reader, MEMORY, PACKET, BUFFER);
  SAME(step.answer, JAMBPEPPER_NO_SECTION_OPEN);
  packet_with_eleven_bytes();
  step = jambpepper_head(step.reader, MEMORY, PACKET, BUFFER);
  SAME(step.answer, form == JAMBPEPPER_ONCE ? JAMBPEPPER_ALREADY_DELIVERED : JAMBPEPPER_BYTES_KEPT);
}

/* the packet: a section of twelve bytes, behind pointer 0, with the four numbers of this memory */
static void packet_with_section(Words four, uint8_t section_number) {
  const uint64_t numbers = four.at[JAMBPEPPER_MEMORY_NUMBERS];
  uint8_t *section = packet + 5;
  uint32_t crc;
  int at;

  packet_from(TEXT("\x47\x40\x00\x10\x00\x00\xb0\x09"));
  section[0] = (uint8_t)numbers;
  section[3] = (uint8_t)(numbers >> 16);
  section[4] = (uint8_t)(numbers >> 8);
  section[5] = (uint8_t)(0xc0 | (numbers >> 25 & 31) << 1 | (numbers >> 24 & 1));
  section[6] = section_number;
  crc = jambpepper_sum32(section, 8);
  for (at = 0; at < 4; at++)
    section[8 + at] = (uint8_t)(crc >> (24 - 8 * at));
}

/* ONCE, idle, answers this to the packet's head, and remembers this then */
static void once(int line, uint8_t answer, Words due) {
  JambpepperStep step = jambpepper_head(jambpepper_fresh(JAMBPEPPER_ONCE), MEMORY, PACKET, BUFFER);

  compare(line, "step.answer", step.answer, answer);
  same_reader(line, step.reader, JAMBPEPPER_ONCE, 0, 0, 0);
  same_memory(line, due);
}

/* the section is delivered, and refused when it comes again */
static void delivered_once(int line, Words due, uint8_t section_number) {
  packet_with_section(due, section_number);
  once(line, JAMBPEPPER_DELIVERED, due);
  once(line, JAMBPEPPER_ALREADY_DELIVERED, due);
}

static void sections_of_one_table(void) {
  static const uint8_t numbers[] = {0, 1, 63, 64, 128, 255};
  const uint64_t top = (uint64_t)1 << 63;
  Words due = marked(0xfe, 0x0102, 21, 1);
  size_t at;

  SAME(due.at[0], 0x2b0102fe);
  fresh(JAMBPEPPER_ONCE);
  delivered_once(__LINE__, due, 0);
  due.at[1] = 3;
  delivered_once(__LINE__, due, 1);
  due.at[1] = top + 3;
  delivered_once(__LINE__, due, 63);
  due.at[2] = 1;
  delivered_once(__LINE__, due, 64);
  due.at[3] = 1;
  delivered_once(__LINE__, due, 128);
  due.at[4] = top;
  delivered_once(__LINE__, due, 255);
  for (at = 0; at < sizeof numbers; at++) {
    packet_with_section(due, numbers[at]);
    once(__LINE__, JAMBPEPPER_ALREADY_DELIVERED, due);
  }
}

/* a section that differs in one of the four, if only by a bit, starts the memory anew */
static void sections_of_two_tables(void) {
  const Words table = marked(2, 212, 4, 1);
  Words both = table, other;
  int bit;

  both.at[JAMBPEPPER_MEMORY_MARKS] = 3;
  for (bit = 0; bit < 30; bit++) {
    other = table;
    other.at[JAMBPEPPER_MEMORY_NUMBERS] ^= (uint64_t)1 << bit;
    fresh(JAMBPEPPER_ONCE);
    delivered_once(__LINE__, table, 0);
    delivered_once(__LINE__, both, 1);
    delivered_once(__LINE__, other, 0);
    delivered_once(__LINE__, table, 0);
  }
}

/* the night of channel 212: the first copy of version 5 is damaged */
static void a_damaged_copy(void) {
  fresh(JAMBPEPPER_ONCE);
  delivered_once(__LINE__, marked(2, 212, 4, 1), 0);
  packet_with_section(marked(2, 212, 5, 1), 0);
  packet[16] ^= 1;
  once(__LINE__, JAMBPEPPER_CRC_NOT_ZERO, marked(2, 212, 4, 1));
  once(__LINE__, JAMBPEPPER_CRC_NOT_ZERO, marked(2, 212, 4, 1));
  delivered_once(__LINE__, marked(2, 212, 5, 1), 0);
}

static void what_is_forgotten(void) {
  const Words due = marked(2, 212, 4, 1);
  JambpepperStep step;

  lend_memory(due, JAMBPEPPER_MEMORY_WORDS);
  packet_from(TEXT("\x47\x40\x00\x10\x00\x02\x30\x09"));
  once(__LINE__, JAMBPEPPER_SYNTAX_INDICATOR, due);
  packet_from(TEXT("\x47\x40\x00\x10\xb0")); /* seven bytes, all ones */
  once(__LINE__, JAMBPEPPER_UNDER_8_BYTES, due);
  packet_from(TEXT("\x47\x40\x00\x10\x00\x02\xb3\xfe"));
  once(__LINE__, JAMBPEPPER_LENGTH_ABOVE_1021, due);
  packet_from(TEXT("\x47\x40\x00\x10\x00\x02\xb0\x08"));
  once(__LINE__, JAMBPEPPER_SECTION_UNDER_12, due);
  packet_from(TEXT("\x47\x00\x00\x10"));
  once(__LINE__, JAMBPEPPER_NOTHING_FOR_THIS_STEP, due);
  step = jambpepper_tail(jambpepper_fresh(JAMBPEPPER_ONCE), MEMORY, PACKET, BUFFER);
  SAME(step.answer, JAMBPEPPER_NO_SECTION_OPEN);
  same_memory(__LINE__, due);

  packet_from(TEXT("\x47\x40\x00\x10\xb5")); /* two bytes */
  once(__LINE__, JAMBPEPPER_UNDER_3_BYTES, none);
  lend_memory(due, JAMBPEPPER_MEMORY_WORDS);
  packet_from(TEXT("\x47\x40\x00\x10\xb7"));
  once(__LINE__, JAMBPEPPER_POINTER_BEYOND_REST, none);
  lend_memory(due, JAMBPEPPER_MEMORY_WORDS);
  step = jambpepper_tail(jambpepper_fresh(JAMBPEPPER_ONCE), MEMORY, PACKET, BUFFER);
  SAME(step.answer, JAMBPEPPER_POINTER_BEYOND_REST);
  same_memory(__LINE__, none);
}

static void places(void) {
  JambpepperPlace place = {172, 16, JAMBPEPPER_IN_PACKET};

  same_place(__LINE__, jambpepper_section(PACKET, BUFFER, 2, place), 1, 172, 16);
  same_place(__LINE__, jambpepper_section(PACKET, BUFFER, 1, place), 0, 0, 0);
  same_place(__LINE__, jambpepper_section(packet, 187, BUFFER, 2, place), 0, 0, 0);
  same_place(__LINE__, jambpepper_section(packet, 0, buffer, 0, 2, place), 0, 0, 0);
  place.holder = JAMBPEPPER_IN_BUFFER;
  same_place(__LINE__, jambpepper_section(PACKET, BUFFER, 2, place), 2, 172, 16);
  place.start = 65535;
  place.length = 65535;
  same_place(__LINE__, jambpepper_section(PACKET, BUFFER, 2, place), 0, 0, 0);
  place.start = 0;
  place.length = 1;
  place.holder = 3;
  same_place(__LINE__, jambpepper_section(PACKET, BUFFER, 2, place), 0, 0, 0);
}

static void a_packet_of_nothing(void) {
  JambpepperHeader header = jambpepper_header(NOTHING);
  JambpepperPayload payload = jambpepper_payload(NOTHING);

  SAME(header.answer, JAMBPEPPER_PACKET_SIZE);
  SAME(header.pid, 0);
  SAME(header.transport_error_indicator, 0);
  SAME(header.payload_unit_start_indicator, 0);
  SAME(header.transport_priority, 0);
  SAME(header.transport_scrambling_control, 0);
  SAME(header.adaptation_field_control, 0);
  SAME(header.continuity_counter, 0);
  SAME(payload.answer, JAMBPEPPER_PACKET_SIZE);
  SAME(payload.start, 0);
}

static void an_adaptation_field_of_nothing(void) {
  JambpepperAdaptationField field = jambpepper_adaptation_field(NOTHING);
  JambpepperClock pcr = jambpepper_pcr(NOTHING);
  JambpepperClock opcr = jambpepper_opcr(NOTHING);
  JambpepperSpliceCountdown countdown = jambpepper_splice_countdown(NOTHING);
  JambpepperPart part = jambpepper_transport_private_data(NOTHING);

  SAME(field.answer, JAMBPEPPER_PACKET_SIZE);
  SAME(field.adaptation_field_length, 0);
  SAME(field.discontinuity_indicator, 0);
  SAME(field.random_access_indicator, 0);
  SAME(field.elementary_stream_priority_indicator, 0);
  SAME(field.pcr_flag, 0);
  SAME(field.opcr_flag, 0);
  SAME(field.splicing_point_flag, 0);
  SAME(field.transport_private_data_flag, 0);
  SAME(field.adaptation_field_extension_flag, 0);
  SAME(pcr.answer, JAMBPEPPER_PACKET_SIZE);
  SAME(pcr.base, 0);
  SAME(pcr.extension, 0);
  SAME(opcr.answer, JAMBPEPPER_PACKET_SIZE);
  SAME(opcr.base, 0);
  SAME(opcr.extension, 0);
  SAME(countdown.answer, JAMBPEPPER_PACKET_SIZE);
  SAME(countdown.splice_countdown, 0);
  SAME(part.answer, JAMBPEPPER_PACKET_SIZE);
  SAME(part.start, 0);
  SAME(part.length, 0);
}

static void a_section_of_nothing(void) {
  JambpepperSectionHeader header = jambpepper_section_header(NOTHING);
  JambpepperTableHeader table = jambpepper_table_header(NOTHING);
  JambpepperPart body = jambpepper_body(NOTHING);

  SAME(header.answer, JAMBPEPPER_UNDER_3_BYTES);
  SAME(header.section_length, 0);
  SAME(header.table_id, 0);
  SAME(header.section_syntax_indicator, 0);
  SAME(header.private_indicator, 0);
  SAME(table.answer, JAMBPEPPER_UNDER_8_BYTES);
  SAME(table.id, 0);
  SAME(table.version, 0);
  SAME(table.current_next_indicator, 0);
  SAME(table.section_number, 0);
  SAME(table.last_section_number, 0);
  SAME(body.answer, JAMBPEPPER_SECTION_UNDER_12);
  SAME(body.start, 0);
  SAME(body.length, 0);
  SAME(jambpepper_sum32(NOTHING), 0xffffffff);
}

/* both walks answer this at this position of nothing, and no entry */
static void no_entry(int line, size_t position, uint8_t answer) {
  no_program(line, jambpepper_program_at(NOTHING, position), answer, 0);
  no_stream(line, jambpepper_stream_at(NOTHING, position), answer, 0);
}

static void a_body_of_nothing(void) {
  JambpepperPmt pmt = jambpepper_pmt_start(NOTHING);

  SAME(pmt.answer, JAMBPEPPER_PMT_TOO_SHORT);
  SAME(pmt.needed, 4);
  SAME(pmt.actual, 0);
  SAME(pmt.pcr_pid, 0);
  SAME(pmt.descriptors_start, 0);
  SAME(pmt.descriptors_length, 0);
  SAME(pmt.streams, 0);
  no_entry(__LINE__, 0, JAMBPEPPER_WALK_AT_END);
  no_entry(__LINE__, 1, JAMBPEPPER_POSITION_ABOVE_LENGTH);
  no_entry(__LINE__, SIZE_MAX, JAMBPEPPER_POSITION_ABOVE_LENGTH);
}

/* both steps, lent no packet, no buffer and neither, with this state and the memory that is lent:
 * buffer and memory stay as they are */
static void lent_nothing(int line, JambpepperReader reader, Words words) {
  memset(buffer, 0xaa, JAMBPEPPER_BUFFER_BYTES);
  refused(line, jambpepper_tail(reader, MEMORY, NOTHING, BUFFER), reader, JAMBPEPPER_PACKET_SIZE);
  refused(line, jambpepper_head(reader, MEMORY, NOTHING, BUFFER), reader, JAMBPEPPER_PACKET_SIZE);
  refused(line, jambpepper_tail(reader, MEMORY, PACKET, NOTHING), reader, JAMBPEPPER_BUFFER_SIZE);
  refused(line, jambpepper_head(reader, MEMORY, PACKET, NOTHING), reader, JAMBPEPPER_BUFFER_SIZE);
  refused(line, jambpepper_tail(reader, MEMORY, NOTHING, NOTHING), reader, JAMBPEPPER_PACKET_SIZE);
  refused(line, jambpepper_head(reader, MEMORY, NOTHING, NOTHING), reader, JAMBPEPPER_PACKET_SIZE);
  same_memory(line, words);
  same_buffer(line, 0xaa);
}

static void steps_over_nothing(void) {
  const Words words = marked(2, 212, 30, 1);
  JambpepperReader reader;
  uint8_t form;

  /* five bytes for the tail step, then a section that starts: with a buffer both are kept */
  packet_from(TEXT("\x47\x40\x00\x10\x05\x01\x02\x03\x04\x05\x02\xf3\xfd"));
  for (form = JAMBPEPPER_COMPACT; form <= JAMBPEPPER_ONCE; form++)
    lent_nothing(__LINE__, fresh(form), none);
  lent_nothing(__LINE__, fresh(3), none);
  reader = jambpepper_fresh(JAMBPEPPER_ONCE);
  reader.is_open = 1;
  reader.held = 8;
  reader.wanted = 1024;
  lend_memory(words, JAMBPEPPER_MEMORY_WORDS);
  lent_nothing(__LINE__, reader, words);
  SAME(jambpepper_tail(reader, MEMORY, PACKET, BUFFER).answer, JAMBPEPPER_BYTES_KEPT);
  SAME(jambpepper_head(reader, MEMORY, PACKET, BUFFER).answer, JAMBPEPPER_BYTES_KEPT);
  same_memory(__LINE__, words);
}

static void places_in_nothing(void) {
  JambpepperPlace place = {172, 16, JAMBPEPPER_IN_PACKET};

  same_place(__LINE__, jambpepper_section(NOTHING, BUFFER, 2, place), 0, 0, 0);
  same_place(__LINE__, jambpepper_section(PACKET, NOTHING, 2, place), 1, 172, 16);
  same_place(__LINE__, jambpepper_section(NOTHING, NOTHING, 2, place), 0, 0, 0);
  SAME(jambpepper_section_bytes(place, packet, NULL) == packet + 172, 1);
  place.holder = JAMBPEPPER_IN_BUFFER;
  same_place(__LINE__, jambpepper_section(NOTHING, BUFFER, 2, place), 2, 172, 16);
  same_place(__LINE__, jambpepper_section(PACKET, NOTHING, 2, place), 0, 0, 0);
  same_place(__LINE__, jambpepper_section(NOTHING, NOTHING, 2, place), 0, 0, 0);
  SAME(jambpepper_section_bytes(place, NULL, buffer) == buffer + 172, 1);

  place.start = 0;
  place.length = 0;
  for (place.holder = JAMBPEPPER_NOWHERE; place.holder <= JAMBPEPPER_IN_BUFFER; place.holder++) {
    same_place(__LINE__, jambpepper_section(NOTHING, NOTHING, 2, place), 0, 0, 0);
    SAME(jambpepper_section_bytes(place, NULL, NULL) == NULL, 1);
    SAME(jambpepper_section_bytes(place, packet, buffer) == NULL, 1);
  }
}

int main(void) {
  packet = (uint8_t *)block(JAMBPEPPER_PACKET_BYTES);
  buffer = (uint8_t *)block(JAMBPEPPER_BUFFER_BYTES);
  memset(buffer, 0, JAMBPEPPER_BUFFER_BYTES);
  headers();
  counters();
  payloads();
  adaptation_fields();
  adaptation_parts();
  sections();
  sums();
  programs();
  maps();
  streams_that_do_not_fit();
  states();
  unsound_states();
  unsound_counts();
  unsound_memories();
  starts();
  a_section_in_its_packet();
  a_section_over_two_packets(JAMBPEPPER_FULL);
  a_section_over_two_packets(JAMBPEPPER_ONCE);
  sections_of_one_table();
  sections_of_two_tables();
  a_damaged_copy();
  what_is_forgotten();
  places();
  a_packet_of_nothing();
  an_adaptation_field_of_nothing();
  a_section_of_nothing();
  a_body_of_nothing();
  steps_over_nothing();
  places_in_nothing();
  free(memory);
  free(buffer);
  free(packet);
  free(lent);
  return differences != 0;
}
